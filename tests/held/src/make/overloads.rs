// Answers 7 to 10 in rows that are not the first, and beside them the nearest good neighbours.
// 01: "Answers by number" from 7 on, and "One station, used for queues and ports".
use crate::make::edges::{Case, case};
use crate::make::messages;
use crate::make::random::Rng;
use crate::make::raw::Raw;
use crate::paper::frame::GAPS;

pub fn cases() -> Vec<Case> {
    let mut list = Vec::new();
    crowded(&mut list);
    many_rows(&mut list);
    queues(&mut list);
    exact_queues(&mut list);
    exact_messages(&mut list);
    ports(&mut list);
    list
}

/// An end system with VLs of these line sizes, each with a port of its own and a gap of 128 ms.
fn crowd(rng: &mut Rng, raw: &mut Raw, slow: u64, lines: &[u64]) {
    let system = raw.add_system(slow);
    for &line in lines {
        let vl = raw.attach(rng, 7, 1, line - 20);
        raw.sections[2][vl as usize][0] = system;
    }
    raw.attach_whole(rng);
}

fn crowded(list: &mut Vec<Case>) {
    // 7: "500 + the sum ... exceeds 6,250"; "line sizes adding to 5,750 pass 7; 5,751 refused"
    let sets: [(u64, u64, &[u64]); 9] = [
        (0, 0, &[1_538, 1_538, 1_538, 1_136]),
        (7, 0, &[1_538, 1_538, 1_538, 1_137]),
        (7, 0, &[1_538, 1_538, 1_538, 1_538]),
        (0, 0, &[1_250, 1_500, 84, 84, 84, 1_210, 1_538]),
        (0, 1, &[575]),
        (7, 1, &[576]),
        (0, 1, &[84, 84, 84, 84, 84, 155]),
        (7, 1, &[84, 84, 84, 84, 84, 156]),
        (7, 1, &[1_538]),
    ];
    for (number, slow, lines) in sets {
        list.push(case("line sizes of an end system", number, move |rng, raw| {
            crowd(rng, raw, slow, lines);
        }));
    }
    list.push(case("two crowded end systems", 7, |rng, raw| {
        crowd(rng, raw, 1, &[300, 300]);
        crowd(rng, raw, 0, &[1_538, 1_538, 1_538, 1_137]);
    }));
}

/// The count of result rows; a stream that names no VL brings none.
fn count_rows(raw: &Raw) -> usize {
    let parents: Vec<u64> = raw.sections[5].iter().map(|hop| hop[2]).collect();
    let mut leaves = vec![0; raw.sections[2].len()];
    for (row, hop) in raw.sections[5].iter().enumerate() {
        if !parents.contains(&(row as u64 + 1)) {
            if let Some(count) = leaves.get_mut(hop[0] as usize) {
                *count += 1;
            }
        }
    }
    raw.sections[3].iter().map(|s| leaves.get(s[0] as usize).copied().unwrap_or(0)).sum()
}

/// Brings the count of result rows to the wanted one: a VL to every port, then single rows.
fn fill_rows(rng: &mut Rng, raw: &mut Raw, wanted: usize) {
    let star = raw.attach(rng, 2, 1, 64);
    let single = raw.attach(rng, 2, 1, 64);
    let own = raw.sections[5].iter().find(|hop| hop[0] == star).unwrap()[1];
    while raw.count(4) < 128 {
        raw.add_port(0, 0, 10);
    }
    for port in (0..128).filter(|&port| port != own) {
        raw.add_hop(star, port, 0);
    }
    let mut now = count_rows(raw);
    while now < wanted && raw.count(3) < 512 {
        let (vl, step) = if wanted - now >= 128 { (star, 128) } else { (single, 1) };
        raw.add_stream([vl, 0, 1, 17, 1, 125_000_000, 0]);
        now += step;
    }
}

fn many_rows(list: &mut Vec<Case>) {
    // 8: "more than 1,024 rows". The queues stay far below a load of one.
    for (wanted, number) in [(1_023, 0), (1_024, 0), (1_025, 8), (1_300, 8)] {
        list.push(case("count of rows", number, move |rng, raw| fill_rows(rng, raw, wanted)));
    }
    list.push(case("very many rows", 8, |rng, raw| fill_rows(rng, raw, 512 * 128)));
    list.push(case("8 hides 9 and 10", 8, |rng, raw| {
        let vl = raw.attach(rng, 0, 1, 1_518);
        raw.add_stream([vl, 0, 0, 8_192, 1, 12_500, 0]);
        raw.sections[4].last_mut().unwrap()[0] = 1;
        fill_rows(rng, raw, 1_025);
    }));
}

fn queues(list: &mut Vec<Case>) {
    // 9: a queue with more work than time, in the last sub-link of a later VL.
    for sub_links in 1..=4 {
        for (period, number) in [(0u64, 0), (1, 9), (9_000, 9)] {
            list.push(case("queue load", number, move |rng, raw| {
                raw.delays((100, 100), (0, 7));
                let vl = raw.attach(rng, 3, sub_links, 600);
                let most = messages::longest(2, 600);
                let cost = 2 * sub_links * 100_000;
                raw.add_stream([vl, 0, 0, most, 1, cost, 0]);
                if sub_links > 1 {
                    raw.add_stream([vl, sub_links - 1, 0, most, 1, cost - period, 0]);
                } else {
                    raw.sections[3].last_mut().unwrap()[5] -= period;
                }
                raw.attach_whole(rng);
            }));
        }
    }
    // "Busy length: the least L from 1 to 125,000,000": cost 12,500 and period 12,501 give a
    // length of J × 12,500.
    for (jitter, spread, number) in
        [(10_000, 0, 0), (10_001, 0, 9), (9_000, 1_000, 0), (9_000, 1_001, 9), (8_125, 1_875, 0)]
    {
        list.push(case("queue length at its limit", number, move |rng, raw| {
            raw.delays((1_875 - spread, 1_875), (0, 0));
            let vl = raw.attach(rng, 0, 1, 64);
            raw.add_stream([vl, 0, 1, 17, 1, 12_501, jitter]);
            raw.attach_whole(rng);
        }));
    }
    // Two streams of 625 packets in all, gap 16 ms, period 125,000,000: the length is the limit.
    // A byte more in one of them is a packet more.
    for (packets, over, number) in [(284, 0, 0), (284, 1, 9), (283, 1, 0)] {
        list.push(case("one burst at the limit", number, move |rng, raw| {
            raw.delays((40, 40), (1, 2));
            let vl = raw.attach(rng, 4, 1, 64);
            let [first, second] = [341, packets].map(|packets| messages::longest(packets, 64));
            raw.add_stream([vl, 0, 0, first, 1, 125_000_000, 0]);
            raw.add_stream([vl, 0, 0, second + over, 1, 125_000_000, 0]);
            raw.attach_whole(rng);
        }));
    }
    list.push(case("two VLs overloaded", 9, |rng, raw| {
        for code in [7, 1] {
            let vl = raw.attach(rng, code, 4, 64);
            raw.add_stream([vl, 3, 0, 8_192, 1, 125_000, 0]);
            raw.attach_whole(rng);
        }
    }));
    list.push(case("9 goes before 10", 9, |rng, raw| {
        raw.attach(rng, 0, 1, 1_518);
        raw.sections[4].last_mut().unwrap()[0] = 1;
        let vl = raw.attach(rng, 2, 1, 64);
        raw.add_stream([vl, 0, 0, 8_192, 1, 125_000, 0]);
    }));
}

fn exact_queues(list: &mut Vec<Case>) {
    // "Refusing at a load of exactly one: case 5 is accepted." Packets and periods in turns.
    let sets: [&[(u64, u64)]; 5] = [
        &[(1, 2), (2, 4)],
        &[(1, 1)],
        &[(1, 3), (2, 6), (3, 9)],
        &[(1, 2), (1, 3), (1, 6)],
        &[(3, 12), (5, 20), (1, 4), (1, 8), (2, 16)],
    ];
    for set in sets {
        for sub_links in [1, 3] {
            for (jitter, spread, less, number) in
                [(0, 0, 0, 0), (1, 0, 0, 9), (0, 1, 0, 9), (0, 0, 1, 9), (50_000, 0, 0, 9)]
            {
                list.push(case("queue load of exactly one", number, move |rng, raw| {
                    raw.delays((700 - spread, 700), (0, 7));
                    let code = rng.between(1, 3);
                    let vl = raw.attach(rng, code, sub_links, 100);
                    let unit = sub_links * GAPS[code as usize];
                    for (k, &(packets, turns)) in set.iter().enumerate() {
                        let last = k + 1 == set.len();
                        let (j, t) = if last { (jitter, less) } else { (0, 0) };
                        let most = messages::any(rng, packets, 100);
                        let sub = sub_links - 1;
                        raw.add_stream([vl, sub, 0, most, 1, turns * unit - t, j]);
                    }
                    raw.attach_whole(rng);
                }));
            }
        }
    }
}

fn exact_messages(list: &mut Vec<Case>) {
    // 02, M-103: "M + 8 at most (p − 1) × C + S". As many bytes as p packets hold, and one more, in
    // a queue with time for just p; S is above a multiple of 8 by each rest.
    for rest in 0..8 {
        for (over, number) in [(0, 0), (1, 9)] {
            list.push(case("message of as many packets as can be", number, move |rng, raw| {
                raw.delays((60, 60), (0, 7));
                let lmax = 39 + 8 * rng.between(4, 184) + rest;
                let packets = rng.between(2, 5);
                let vl = raw.attach(rng, 0, 1, lmax);
                let most = messages::longest(packets, lmax) + over;
                raw.add_stream([vl, 0, 0, most, 1, packets * GAPS[0], 0]);
                raw.attach_whole(rng);
            }));
        }
    }
}

/// VLs of these line sizes with a gap of 1 ms to one new port, each from an end system of its own.
fn gather(rng: &mut Rng, raw: &mut Raw, slow: u64, code: u64, lines: &[u64]) {
    let port = raw.add_port(slow, 5, 5);
    for &line in lines {
        let system = raw.add_system(0);
        let vl = raw.add_vl(system, code, 1, line - 20);
        raw.add_hop(vl, port, 0);
    }
    raw.attach_whole(rng);
}

/// A VL of line size 1,249 over a fast port, shared with many, to a slow one where its jitter is
/// 1,249 − 84, the others' line sizes, 1,249 − 84 once more, and 1,250 of each switch.
fn long_port(rng: &mut Rng, raw: &mut Raw, jitter: u64) {
    let shared = raw.add_port(0, 0, 1_250);
    let slow = raw.add_port(1, 0, 1_250);
    let system = raw.add_system(0);
    let vl = raw.add_vl(system, 0, 1, 1_249 - 20);
    let hop = raw.add_hop(vl, shared, 0);
    raw.add_hop(vl, slow, hop + 1);
    let mut left = jitter - 2 * (1_249 - 84) - 2 * 1_250;
    let mut place = 0;
    while left > 0 {
        let line = if left > 1_538 { (left - 84).min(1_538) } else { left };
        if place % 3 == 0 {
            raw.add_system(0);
        }
        let other = raw.add_vl(raw.count(1) - 1, 7, 1, line - 20);
        raw.add_hop(other, shared, 0);
        left -= line;
        place += 1;
    }
    raw.attach_whole(rng);
}

fn ports(list: &mut Vec<Case>) {
    // 10: a port with more work than time, or exactly as much; every frame above 84 bytes brings
    // jitter, so exactly one is too much here.
    let sets: [(u64, u64, u64, &[u64]); 9] = [
        (10, 0, 0, &[1_538; 9]),
        (0, 0, 0, &[1_538; 8]),
        (10, 1, 0, &[1_538]),
        (10, 1, 0, &[1_250]),
        (0, 1, 0, &[1_249]),
        (0, 1, 0, &[84; 14]),
        (10, 1, 0, &[84; 15]),
        (10, 0, 0, &[1_500, 1_500, 1_500, 1_500, 1_500, 1_500, 1_500, 1_000, 1_000]),
        (10, 1, 1, &[1_250, 1_250]),
    ];
    for (number, slow, code, lines) in sets {
        list.push(case("port load", number, move |rng, raw| gather(rng, raw, slow, code, lines)));
    }
    // A VL of cost 12,490 on a slow port: its busy length is J / 10, rounded up, times 12,490, and
    // 10,008 times 12,490 is the most within 125,000,000.
    for (jitter, number) in [(100_080, 0), (100_081, 10)] {
        list.push(case("port length at its limit", number, move |rng, raw| {
            long_port(rng, raw, jitter);
        }));
    }
    list.push(case("two ports overloaded", 10, |rng, raw| {
        gather(rng, raw, 1, 0, &[84; 15]);
        gather(rng, raw, 0, 0, &[1_538; 9]);
    }));
    list.push(case("port overloaded behind another", 10, |rng, raw| {
        gather(rng, raw, 0, 0, &[700; 4]);
        let first = raw.count(5) - 5;
        let port = raw.add_port(1, 0, 0);
        for k in 0..4 {
            let vl = raw.sections[5][(first + k) as usize][0];
            raw.add_hop(vl, port, first + k + 1);
        }
    }));
}
