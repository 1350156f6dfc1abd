// One station, used for queues and ports: busy length and figure, once quickly and once by
// trying every span straight from the words of 01 (for small limits only).
use std::cmp::Reverse;
use std::collections::BinaryHeap;

/// 01: "A station takes a lent table of flows, each a period T, a jitter J and a cost C."
#[derive(Clone, Copy, Debug)]
pub struct Flow {
    pub period: u64,
    pub jitter: u64,
    pub cost: u64,
}

/// 01: "Busy length: the least L from 1 to 125,000,000".
pub const LIMIT: u64 = 125_000_000;

/// 01: "In a span of d ticks, both end ticks counted, a flow brings at most (d + J) / T
/// rounded down, plus 1."
pub fn most_arrivals(flow: &Flow, d: u64) -> u64 {
    (d + flow.jitter) / flow.period + 1
}

/// "the sum over flows of ((L + J) / T rounded up) × C"
fn load(flows: &[Flow], length: u64) -> u128 {
    let mut sum = 0u128;
    for f in flows {
        let messages = (length + f.jitter).div_ceil(f.period);
        sum += u128::from(messages) * u128::from(f.cost);
    }
    sum
}

/// The busy length, or none within the limit. The load never falls as L grows, so raising L to
/// its own load never jumps over the least good L.
pub fn busy_length(flows: &[Flow], limit: u64) -> Option<u64> {
    let mut length = 1u64;
    while length <= limit {
        let sum = load(flows, length);
        if sum <= u128::from(length) {
            return Some(length);
        }
        if sum > u128::from(limit) {
            return None;
        }
        length = sum as u64;
    }
    None
}

/// 01: "Figure: the greatest, over d from 0 to L − 1, of (sum of the most arrivals in d × C) − d."
/// Between two jumps of the sum the value falls with d, so only d = 0 and the jumps are tried.
pub fn figure(flows: &[Flow], length: u64) -> u64 {
    let mut work = 0u128;
    let mut jumps = BinaryHeap::new();
    for (index, f) in flows.iter().enumerate() {
        let at_zero = most_arrivals(f, 0);
        work += u128::from(at_zero) * u128::from(f.cost);
        jumps.push(Reverse((at_zero * f.period - f.jitter, index)));
    }
    let mut best = work;
    while let Some(Reverse((d, index))) = jumps.pop() {
        if d >= length {
            break;
        }
        work += u128::from(flows[index].cost);
        best = best.max(work.saturating_sub(u128::from(d)));
        jumps.push(Reverse((d + flows[index].period, index)));
    }
    best as u64
}

/// The first span d below the length at which the figure is taken.
pub fn span_of_figure(flows: &[Flow], length: u64) -> u64 {
    let wanted = i128::from(figure(flows, length));
    let mut spans = vec![0];
    for f in flows {
        let mut d = most_arrivals(f, 0) * f.period - f.jitter;
        while d < length {
            spans.push(d);
            d += f.period;
        }
    }
    spans.sort_unstable();
    for d in spans {
        if value_at(flows, d) == wanted {
            return d;
        }
    }
    unreachable!("no jump has the figure")
}

/// "(sum of the most arrivals in d × C) − d"
pub fn value_at(flows: &[Flow], d: u64) -> i128 {
    let mut sum = 0i128;
    for f in flows {
        sum += i128::from(most_arrivals(f, d)) * i128::from(f.cost);
    }
    sum - i128::from(d)
}

/// The busy length by trying every L from 1 up.
pub fn brute_busy_length(flows: &[Flow], limit: u64) -> Option<u64> {
    (1..=limit).find(|&length| load(flows, length) <= u128::from(length))
}

/// The figure by trying every d from 0 to L − 1.
pub fn brute_figure(flows: &[Flow], length: u64) -> u64 {
    (0..length).map(|d| value_at(flows, d)).max().unwrap() as u64
}

/// 01: "Offered by itself, it refuses 4 for more than 1,024 flows, a period outside 12,500 to
/// 125,000,000, a jitter above 2,000,000,000 or a cost outside 1 to 4,000,000,000, then 10 for
/// no busy length (section and row 0; length and figure 0)." Number, length and figure.
pub fn offered(flows: &[Flow]) -> (u64, u64, u64) {
    let good = |f: &Flow| {
        (12_500..=125_000_000).contains(&f.period)
            && f.jitter <= 2_000_000_000
            && (1..=4_000_000_000).contains(&f.cost)
    };
    if flows.len() > 1_024 || !flows.iter().all(good) {
        return (4, 0, 0);
    }
    match busy_length(flows, LIMIT) {
        None => (10, 0, 0),
        Some(length) => (0, length, figure(flows, length)),
    }
}
