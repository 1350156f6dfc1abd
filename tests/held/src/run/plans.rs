// Release plans for the tick machine: random, bursts, single small messages, and the run that
// makes a last packet wait as long as the queue figure says.
use crate::make::random::Rng;
use crate::paper::network::{Network, Stream};
use crate::paper::rows::queue_flows;
use crate::paper::station::{LIMIT, busy_length, most_arrivals, span_of_figure};
use crate::run::machine::Message;

/// 01: "A stream releases messages of least M to M bytes, in any span no more than a flow of its
/// own T and J brings", and "after a permitted send delay". Is the plan one of these?
pub fn is_lawful(net: &Network, messages: &[Message]) -> bool {
    for (s, stream) in net.streams.iter().enumerate() {
        let of_it = messages.iter().filter(|m| m.stream == s);
        let mut releases: Vec<i128> = of_it.clone().map(|m| i128::from(m.release)).collect();
        releases.sort_unstable();
        // Messages i to k lie in a span of r_k − r_i ticks: k − i + 1 of them are at most
        // (r_k − r_i + J) / T + 1, so (k − i) × T is at most r_k − r_i + J.
        let (period, jitter) = (i128::from(stream.period), i128::from(stream.jitter));
        let mut highest = i128::MIN;
        for (k, release) in releases.iter().enumerate() {
            let place = release - k as i128 * period;
            if place + jitter < highest {
                return false;
            }
            highest = highest.max(place);
        }
        for m in of_it {
            let delay = m.arrival - m.release;
            let sizes = stream.least..=stream.most;
            if !sizes.contains(&m.size) || delay < net.send_least || delay > net.send_greatest {
                return false;
            }
        }
    }
    true
}

/// Any lawful releases: the earliest permitted one, often later.
pub fn random(rng: &mut Rng, net: &Network, most: u64) -> Vec<Message> {
    let mut list = Vec::new();
    let lazy = rng.pick(&[0, 10, 40, 90]);
    for (s, stream) in net.streams.iter().enumerate() {
        let mut tick = i128::from(rng.below(2 * stream.period));
        let mut highest = tick;
        for k in 0..rng.between(1, most) as i128 {
            if k > 0 {
                let due = highest + k * i128::from(stream.period);
                tick = tick.max(due - i128::from(stream.jitter));
                if rng.chance(lazy) {
                    tick += i128::from(rng.below(stream.period + stream.jitter));
                }
                highest = highest.max(tick - k * i128::from(stream.period));
            }
            let size = match rng.below(3) {
                0 => stream.least,
                1 => stream.most,
                _ => rng.between(stream.least, stream.most),
            };
            let delay = match rng.below(3) {
                0 => net.send_least,
                1 => net.send_greatest,
                _ => rng.between(net.send_least, net.send_greatest),
            };
            let release = tick as u64;
            list.push(Message { stream: s, size, release, arrival: release + delay });
        }
    }
    list
}

/// The first `count` messages of a stream as early and as close together as can be: the k-th
/// reaches the queue at the tick `start` + the greater of 0 and k × T − J − spread of send delays.
fn bunched(net: &Network, s: usize, start: u64, count: u64) -> Vec<Message> {
    let stream: &Stream = &net.streams[s];
    let mut list = Vec::new();
    for k in 0..count {
        let late = (k * stream.period).saturating_sub(stream.jitter);
        let release = start + late - net.send_greatest;
        let delay = net.send_greatest.saturating_sub(late).max(net.send_least);
        list.push(Message { stream: s, size: stream.most, release, arrival: release + delay });
    }
    list
}

/// A start that leaves room for the send delay before it.
pub const START: u64 = 5_000;

/// All streams burst at once, or with a shift of their own.
pub fn bursts(rng: &mut Rng, net: &Network, most: u64) -> Vec<Message> {
    let shift = rng.pick(&[1, 1, 300, 6_000, 30_000]);
    let mut list = Vec::new();
    for s in 0..net.streams.len() {
        let start = START + rng.below(shift);
        list.extend(bunched(net, s, start, most));
    }
    list
}

/// One message of the least size for each stream, far from the others, with the least send delay.
pub fn quiet(net: &Network) -> Vec<Message> {
    let mut list = Vec::new();
    for (s, stream) in net.streams.iter().enumerate() {
        let release = START + 400_000_000 * s as u64;
        let arrival = release + net.send_least;
        list.push(Message { stream: s, size: stream.least, release, arrival });
    }
    list
}

/// The run that reaches the queue figure for a stream of a VL with one sub-link: in the span at
/// which the station's figure is taken every stream of the VL brings its most arrivals, and the
/// last message of this stream arrives on the span's last tick, behind all others. The other VLs
/// burst about the tick at which its last packet is handed over. None if the run would be long.
pub fn reach(
    rng: &mut Rng, net: &Network, victim: usize, queue: u64,
) -> Option<(Vec<Message>, usize)> {
    let vl = net.streams[victim].vl;
    let flows = queue_flows(net, vl, 0);
    let length = busy_length(&flows, LIMIT)?;
    let span = span_of_figure(&flows, length);
    let members: Vec<usize> = (0..net.streams.len()).filter(|&s| net.streams[s].vl == vl).collect();
    let total: u64 = flows.iter().map(|f| most_arrivals(f, span) * f.cost / net.vls[vl].bag).sum();
    if total > 5_000 {
        return None;
    }
    let mut list = Vec::new();
    for (k, &s) in members.iter().enumerate() {
        if s != victim {
            let count = most_arrivals(&flows[k], span);
            list.extend(bunched(net, s, START, count));
        }
    }
    let own = &flows[members.iter().position(|&s| s == victim).unwrap()];
    let count = most_arrivals(own, span);
    let last = ((count - 1) * own.period).saturating_sub(own.jitter);
    list.extend(bunched(net, victim, START + span - last, count));
    let index = list.len() - 1;
    assert_eq!(list[index].arrival, START + span);
    let shift = rng.pick(&[1, 1, 2_000, 6_000]);
    for s in (0..net.streams.len()).filter(|&s| net.streams[s].vl != vl) {
        let start = START + span + queue + rng.below(shift);
        list.extend(bunched(net, s, start, 6));
    }
    Some((list, index))
}
