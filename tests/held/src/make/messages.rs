// Sizes of messages by their count of packets, for cases at the edge of a packet.
// 02, M-103: "p is the least count with M + 8 at most (p − 1) × C + S".
use crate::make::random::Rng;
use crate::paper::frame;

/// The longest message of so many packets, at least one: not a byte is left in any of them.
pub fn longest(packets: u64, lmax: u64) -> u64 {
    let full_ones = (packets - 1) * frame::full_fragment(lmax);
    full_ones + frame::most_of_fragment(lmax) - frame::UDP_HEADER
}

/// Any message of just so many packets.
pub fn any(rng: &mut Rng, packets: u64, lmax: u64) -> u64 {
    let shortest = if packets == 1 { 1 } else { longest(packets - 1, lmax) + 1 };
    rng.between(shortest, longest(packets, lmax))
}
