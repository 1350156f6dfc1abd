// Tables that make searches long: queues and ports with a load just below, at and above one, and
// many flows whose jitters differ, so that the spans to be tried are many.
use crate::make::messages;
use crate::make::random::Rng;
use crate::make::raw::Raw;
use crate::paper::frame::GAPS;

/// Whole tables by number. What each answers is left to the analysis.
pub const HEAVY: u64 = 8;

pub fn table(rng: &mut Rng, number: u64) -> Raw {
    match number {
        0 => tight_ports(rng),
        1 => many_phases(rng, 40, 1),
        2 => many_phases(rng, 100, 2),
        3 => slow_queues(rng),
        4 => many_streams(rng, 30),
        5 => many_streams(rng, 200),
        6 => mixed_gaps(rng),
        _ => long_bursts(rng),
    }
}

/// Nine or so VLs of 1 ms whose line sizes add to a few bytes less than a port can send, from end
/// systems of unequal mux waits, over one to three ports.
fn tight_ports(rng: &mut Rng) -> Raw {
    let mut raw = Raw::empty();
    raw.delays((0, 500), (0, 0));
    let less = rng.pick(&[0, 1, 1, 2, 3, 5, 10, 30, 100]);
    let mut left = 12_500 - less;
    let mut lines = Vec::new();
    while left > 1_538 + 84 {
        let line = rng.between(500, 1_538).min(left - 84);
        lines.push(line);
        left -= line;
    }
    lines.push(left.min(1_538));
    let depth = rng.between(1, 3);
    for _ in 0..depth {
        let greatest = rng.between(0, 1_250);
        raw.add_port(0, rng.between(0, greatest), greatest);
    }
    for line in lines {
        let systems = raw.count(1);
        let full = |raw: &Raw, s: u64| {
            let of_it = raw.sections[2].iter().filter(|vl| vl[0] == s);
            of_it.map(|vl| vl[3] + 20).sum::<u64>() + line > 5_750
        };
        let system = if systems == 0 || rng.chance(40) || full(&raw, systems - 1) {
            raw.add_system(0)
        } else {
            systems - 1
        };
        let vl = raw.add_vl(system, 0, 1, line - 20);
        let mut parent = 0;
        for port in 0..depth {
            parent = raw.add_hop(vl, port, parent) + 1;
        }
    }
    raw.add_stream([raw.count(2) - 1, 0, 1, 17, 1, 25_000, 30_000]);
    raw
}

/// Many small VLs of 1 ms on one port or two, every end system with a mux wait of its own.
fn many_phases(rng: &mut Rng, vls: u64, depth: u64) -> Raw {
    let mut raw = Raw::empty();
    let mut left = 12_500 - rng.pick(&[2, 5, 20, 60, 200]);
    for _ in 0..depth {
        raw.add_port(0, 0, rng.between(0, 1_250));
    }
    let systems = vls / 2;
    for _ in 0..systems {
        raw.add_system(0);
    }
    for k in 0..vls {
        let rest = vls - k;
        let line = if rest == 1 { left } else { rng.between(84, left - 84 * (rest - 1)) };
        let even = 2 * left / rest;
        let line = line.min(even.max(84)).min(1_538);
        left -= line;
        let vl = raw.add_vl(rng.below(systems), 0, 1, line - 20);
        let mut parent = 0;
        for port in 0..depth {
            parent = raw.add_hop(vl, port, parent) + 1;
        }
    }
    raw.add_stream([vls - 1, 0, 1, 17, 1, 50_000, 0]);
    raw
}

/// Queues of one stream whose period is one or a few ticks above its cost: thousands of steps.
fn slow_queues(rng: &mut Rng) -> Raw {
    let mut raw = Raw::empty();
    raw.delays((10, 20), (0, 0));
    for _ in 0..6 {
        let code = rng.below(3);
        let sub_links = rng.between(1, 2);
        let vl = raw.attach(rng, code, sub_links, 1_518);
        let cost = GAPS[code as usize] * sub_links;
        // The busy length is (J + spread) / over costs, rounded up; at most 125,000,000 are good.
        let over = rng.between(1, 3);
        let most = 125_000_000 / cost * over - 10;
        let jitter = rng.between(most / 3, most + most / 60);
        raw.add_stream([vl, 0, 1, 1_000, 1, cost + over, jitter]);
    }
    raw
}

/// Queues of many streams with unequal periods and jitters, load from 0.85 to one.
fn many_streams(rng: &mut Rng, count: u64) -> Raw {
    let mut raw = Raw::empty();
    raw.delays((0, 1_875), (0, 0));
    for _ in 0..2 {
        let code = rng.below(2);
        let vl = raw.attach(rng, code, 1, 300);
        let cost = GAPS[code as usize];
        let load = rng.pick(&[850, 900, 940, 960, 1_000]);
        for _ in 0..count {
            let packets = rng.between(1, 3);
            let even = packets * cost * count * 1_000 / load;
            let period = rng.between(even - even / 50, even + even / 50).min(125_000_000);
            let jitter = rng.below(period);
            raw.add_stream([vl, 0, 0, messages::longest(packets, 300), 1, period, jitter]);
        }
    }
    raw
}

/// Gaps from 1 ms to 128 ms on one slow port and one fast port behind it.
fn mixed_gaps(rng: &mut Rng) -> Raw {
    let mut raw = Raw::empty();
    raw.add_port(1, 0, 1_250);
    raw.add_port(0, 0, 1_250);
    let mut load = 0;
    let limit = rng.pick(&[940_000, 980_000, 997_000]);
    for _ in 0..200 {
        let code = rng.below(8);
        let lmax = rng.between(64, 500);
        let share = (lmax + 20) * 10 * 1_000_000 / GAPS[code as usize];
        if load + share > limit || raw.count(1) == 64 {
            continue;
        }
        load += share;
        let system = raw.add_system(0);
        let vl = raw.add_vl(system, code, 1, lmax);
        let hop = raw.add_hop(vl, 0, 0);
        raw.add_hop(vl, 1, hop + 1);
    }
    raw.add_stream([0, 0, 1, 17, 17, 125_000_000, 125_000_000]);
    raw
}

/// Streams of very large jitter: bursts of thousands of messages.
fn long_bursts(rng: &mut Rng) -> Raw {
    let mut raw = Raw::empty();
    raw.delays((7, 1_875), (0, 1));
    for _ in 0..3 {
        let vl = raw.attach(rng, 0, 1, 1_000);
        let jitter = rng.between(1_000_000, 125_000_000);
        let half = rng.between(26_000, 40_000);
        raw.add_stream([vl, 0, 0, 900, 900, half, jitter]);
        // Two full packets at the most, one byte more than one packet at the least.
        let (most, least) = (messages::longest(2, 1_000), messages::longest(1, 1_000) + 1);
        raw.add_stream([vl, 0, 0, most, least, 4 * half, rng.below(1_000_000)]);
    }
    raw
}
