// The tick, the frame rule, the fragments of a message and the gaps of virtual links.
// 01: "Units", "Frames" and the sentence on BAG codes; for messages 02, M-103, which corrects 01.

/// 01: "A tick is 80 ns: 1 ms is 12,500 ticks, 40 µs is 500, 500 µs is 6,250."
pub const TICKS_PER_MS: u64 = 12_500;
pub const TICKS_40_US: u64 = 500;
pub const TICKS_500_US: u64 = 6_250;

/// 01: "Overhead on the line is 20 bytes; protocol overhead inside the frame is 47;
/// least frame 64; greatest 1,518."
pub const LINE_OVERHEAD: u64 = 20;
pub const PROTOCOL_OVERHEAD: u64 = 47;
pub const LEAST_FRAME: u64 = 64;
pub const GREATEST_FRAME: u64 = 1_518;

/// The line bytes of the least frame: 84.
pub const LEAST_LINE: u64 = LINE_OVERHEAD + LEAST_FRAME;

/// 01: "A byte takes 1 tick at 100 Mbit/s and 10 ticks at 10 Mbit/s."
pub fn ticks_per_byte(speed: u64) -> u64 {
    match speed {
        100 => 1,
        10 => 10,
        other => panic!("no speed of {} Mbit/s", other),
    }
}

/// 01: "A packet payload of 1 to 17 bytes occupies 84 bytes on the line, 18 to 1,471
/// occupies 67 plus the payload, any other is refused (4)." This is a packet by itself.
pub fn line_size(payload: u64) -> Option<u64> {
    match payload {
        1..=17 => Some(84),
        18..=1_471 => Some(67 + payload),
        _ => None,
    }
}

/// 02, M-103: "only the first fragment has the 8-byte UDP header".
pub const UDP_HEADER: u64 = 8;

/// 02, M-103: "S = Lmax − 39". No fragment has more bytes than S.
pub fn most_of_fragment(lmax: u64) -> u64 {
    lmax - 39
}

/// 02, M-103: "C = S rounded down to a multiple of 8", as "every fragment but the last carries a
/// multiple of 8 bytes".
pub fn full_fragment(lmax: u64) -> u64 {
    let s = most_of_fragment(lmax);
    s - s % 8
}

/// 02, M-103: "p is the least count with M + 8 at most (p − 1) × C + S." It is counted, so that
/// nothing but the sentence stands here.
pub fn packets(message: u64, lmax: u64) -> u64 {
    let (s, c) = (most_of_fragment(lmax), full_fragment(lmax));
    let mut p = 1;
    while message + UDP_HEADER > (p - 1) * c + s {
        p += 1;
    }
    p
}

/// The bytes of each fragment of a message, the UDP header counted. 01: "every packet but the last
/// is full"; 02, M-103: "a full one has C".
pub fn fragments(message: u64, lmax: u64) -> Vec<u64> {
    let full_ones = packets(message, lmax) - 1;
    let mut list = vec![full_fragment(lmax); full_ones as usize];
    list.push(message + UDP_HEADER - full_ones * full_fragment(lmax));
    list
}

/// 02, M-103: "A fragment of f bytes, UDP header counted, takes 59 + f on the line, at least 84".
pub fn fragment_line(f: u64) -> u64 {
    (59 + f).max(84)
}

/// The line bytes at which a VL is charged: 20 + Lmax.
pub fn full_line(lmax: u64) -> u64 {
    LINE_OVERHEAD + lmax
}

/// 01: "BAG codes 0 to 7 stand for these gaps in ticks".
pub const GAPS: [u64; 8] = [12_500, 25_000, 50_000, 100_000, 200_000, 400_000, 800_000, 1_600_000];

/// 01: "a gap is good if it is 1 to 128 and exactly one of its bits is set".
pub fn gap_is_good(ms: u64) -> bool {
    (1..=128).contains(&ms) && ms.count_ones() == 1
}

/// 01: "its code is the count of zeros below that bit".
pub fn gap_code(ms: u64) -> u64 {
    u64::from(ms.trailing_zeros())
}
