// Every named cause of a bad reference (5) and long samples (6), in rows that are not the first,
// and beside them the nearest good neighbours.
use crate::make::edges::{Case, case};
use crate::make::random::Rng;
use crate::make::raw::Raw;

pub fn cases() -> Vec<Case> {
    let mut list = Vec::new();
    vls(&mut list);
    streams(&mut list);
    hop_targets(&mut list);
    parents(&mut list);
    depths(&mut list);
    samples(&mut list);
    list
}

/// A row of a section that is not the first, where there is a choice.
fn later_row(rng: &mut Rng, raw: &Raw, section: usize) -> usize {
    let count = raw.sections[section].len();
    if count < 2 { 0 } else { 1 + rng.index(count - 1) }
}

fn vls(list: &mut Vec<Case>) {
    // "a VL names no end system"
    for far in [false, true] {
        list.push(case("VL names no end system", 5, move |rng, raw| {
            let row = later_row(rng, raw, 2);
            raw.sections[2][row][0] = if far { 255 } else { raw.count(1) };
        }));
    }
    list.push(case("VL names the last end system", 0, |rng, raw| {
        let system = raw.add_system(0);
        let vl = raw.attach(rng, 5, 2, 700);
        raw.sections[2][vl as usize][0] = system;
        let last = raw.add_system(1);
        let slow = raw.attach(rng, 7, 2, 555);
        raw.sections[2][slow as usize][0] = last;
    }));
    // "or has no hop (on the VL)"
    for more in [0, 2] {
        list.push(case("VL has no hop", 5, move |rng, raw| {
            let system = raw.add_system(0);
            let vl = raw.add_vl(system, 4, 1, 300);
            raw.add_stream([vl, 0, 0, 100, 100, 10_000_000, 0]);
            for _ in 0..more {
                raw.attach_whole(rng);
            }
        }));
    }
    // The only hop of a VL is bad itself: then the VL has a hop, and the hop is refused.
    list.push(case("the VL's only hop is bad", 5, |rng, raw| {
        let vl = raw.attach(rng, 3, 1, 400);
        raw.attach_whole(rng);
        let row = raw.sections[5].iter().position(|hop| hop[0] == vl).unwrap();
        raw.sections[5][row][1] = raw.count(4);
    }));
    // Both an end system that is not there and, in a later VL, no hop.
    list.push(case("two bad VLs", 5, |rng, raw| {
        let bad = raw.attach(rng, 6, 1, 200);
        let system = raw.add_system(0);
        raw.add_vl(system, 4, 1, 300);
        raw.sections[2][bad as usize][0] = 200;
    }));
}

fn streams(list: &mut Vec<Case>) {
    // "a stream names no VL or no sub-link of it"
    for far in [false, true] {
        list.push(case("stream names no VL", 5, move |rng, raw| {
            raw.attach_whole(rng);
            let row = later_row(rng, raw, 3);
            raw.sections[3][row][0] = if far { 4_095 } else { raw.count(2) };
        }));
    }
    for (sub_links, named) in [(1, 1), (2, 2), (3, 3), (1, 3), (2, 3), (1, 2)] {
        list.push(case("stream names no sub-link", 5, move |rng, raw| {
            let vl = raw.attach(rng, 3, sub_links, 400);
            raw.add_stream([vl, sub_links - 1, 0, 353, 1, 10_000_000, 0]);
            raw.add_stream([vl, named, 0, 353, 1, 10_000_000, 0]);
            raw.attach_whole(rng);
        }));
    }
}

fn hop_targets(list: &mut Vec<Case>) {
    // "a hop names no VL or port"
    for far in [false, true] {
        list.push(case("hop names no VL", 5, move |rng, raw| {
            raw.attach_whole(rng);
            let vl = if far { 4_095 } else { raw.count(2) + 1 };
            let port = raw.count(4) - 1;
            raw.add_hop(vl, port, 0);
            // One VL is attached below: the count is then just the number named.
            raw.attach_whole(rng);
        }));
        list.push(case("hop names no port", 5, move |rng, raw| {
            let vl = raw.attach_whole(rng);
            let port = if far { 255 } else { raw.count(4) + 1 };
            raw.add_hop(vl, port, 0);
            raw.attach_whole(rng);
        }));
    }
    // "an earlier hop has the same VL and port"
    list.push(case("twin without parent", 5, |rng, raw| {
        let vl = raw.attach(rng, 7, 1, 100);
        let port = raw.count(4) - 1;
        raw.attach_whole(rng);
        raw.add_hop(vl, port, 0);
        raw.attach_whole(rng);
    }));
    list.push(case("twin with other parent", 5, |rng, raw| {
        let vl = raw.attach(rng, 7, 1, 100);
        let first = raw.count(5);
        let a = raw.add_port(0, 1, 2);
        let b = raw.add_port(0, 0, 0);
        let hop = raw.add_hop(vl, a, first);
        raw.add_hop(vl, b, hop + 1);
        raw.attach_whole(rng);
        raw.add_hop(vl, b, first);
    }));
    list.push(case("same port, other VLs", 0, |rng, raw| {
        let port = raw.add_port(0, 0, 1_250);
        for _ in 0..3 {
            let vl = raw.attach(rng, 7, 4, 64);
            raw.add_hop(vl, port, 0);
        }
    }));
}

/// Three hops of a VL of its own, on three ports of their own: rows low, middle, high.
fn ladder(rng: &mut Rng, raw: &mut Raw) -> (u64, [u64; 3], [u64; 3]) {
    let vl = raw.attach(rng, 6, 2, 800);
    let low = raw.count(5) - 1;
    raw.attach_whole(rng);
    let first = raw.sections[5][low as usize][1];
    let ports = [first, raw.add_port(0, 3, 400), raw.add_port(1, 0, 1_000)];
    let middle = raw.add_hop(vl, ports[1], low + 1);
    let high = raw.add_hop(vl, ports[2], middle + 1);
    raw.attach_whole(rng);
    (vl, ports, [low, middle, high])
}

/// The parent field that a change names, from the table and the rows of a ladder.
type Named = fn(&Raw, [u64; 3]) -> u64;

fn parents(list: &mut Vec<Case>) {
    // "its parent is not an earlier row of the same VL on a lower-numbered port"
    list.push(case("ladder", 0, |rng, raw| {
        ladder(rng, raw);
    }));
    let changes: [(&str, usize, Named); 7] = [
        ("parent is itself", 1, |_, rows| rows[1] + 1),
        ("parent is a later row", 1, |_, rows| rows[2] + 1),
        ("first hop's parent is a later row", 0, |_, rows| rows[1] + 1),
        ("parent just beyond the rows", 2, |raw, _| raw.count(5) + 1),
        ("parent is the last row", 2, |raw, _| raw.count(5)),
        ("parent far beyond the rows", 1, |_, _| 4_095),
        ("parent of another VL", 2, |_, rows| rows[0] + 2),
    ];
    for (name, place, named) in changes {
        list.push(case(name, 5, move |rng, raw| {
            let (_, _, rows) = ladder(rng, raw);
            let parent = named(raw, rows);
            raw.sections[5][rows[place] as usize][2] = parent;
        }));
    }
    list.push(case("parent of another VL, lower port", 5, |rng, raw| {
        let (_, _, rows) = ladder(rng, raw);
        let vl = raw.count(2) - 1;
        let port = raw.add_port(0, 0, 0);
        raw.add_hop(vl, port, rows[0] + 1);
        raw.attach_whole(rng);
    }));
    list.push(case("parent on a higher port", 5, |rng, raw| {
        let (vl, ports, rows) = ladder(rng, raw);
        let a = raw.add_port(0, 0, 0);
        let b = raw.add_port(0, 0, 0);
        assert!(ports[2] < a);
        let hop = raw.add_hop(vl, b, rows[1] + 1);
        raw.add_hop(vl, a, hop + 1);
        raw.attach_whole(rng);
    }));
    list.push(case("parent on the same port", 5, |rng, raw| {
        let (vl, ports, rows) = ladder(rng, raw);
        raw.add_hop(vl, ports[2], rows[2] + 1);
        raw.attach_whole(rng);
    }));
    list.push(case("two children and two roots", 0, |rng, raw| {
        let (vl, _, rows) = ladder(rng, raw);
        let a = raw.add_port(0, 0, 5);
        let b = raw.add_port(0, 7, 7);
        raw.add_hop(vl, b, 0);
        raw.add_hop(vl, a, rows[0] + 1);
        raw.add_stream([vl, 1, 0, 4_000, 760, 100_000_000, 30]);
    }));
}

fn depths(list: &mut Vec<Case>) {
    // "or it is deeper than 8"
    for (depth, number) in [(7, 0), (8, 0), (9, 5), (10, 5)] {
        for branch in [false, true] {
            list.push(case("depth", number, move |rng, raw| {
                let vl = raw.attach(rng, 4, 1, 90);
                let mut parent = raw.count(5);
                for k in 1..depth {
                    let slow = rng.below(2);
                    let port = raw.add_port(slow, 2, 30);
                    if branch && k % 3 == 0 {
                        let side = raw.add_port(0, 1, 1);
                        raw.add_hop(vl, side, parent);
                    }
                    parent = raw.add_hop(vl, port, parent) + 1;
                }
                raw.add_stream([vl, 0, 1, 43, 1, 1_000_000, 900_000]);
                raw.attach_whole(rng);
            }));
        }
    }
}

fn samples(list: &mut Vec<Case>) {
    // 6: "a sampling message needs more than one packet". 02, M-103: "so does the sampling limit",
    // it stays at Lmax − 47; at Lmax 71 a full fragment has all of S.
    for lmax in [64, 65, 71, 516, 1_518] {
        for over in [0u64, 1, 900] {
            let number = if over == 0 { 0 } else { 6 };
            list.push(case("sample", number, move |rng, raw| {
                let vl = raw.attach(rng, 2, 3, lmax);
                let most = lmax - 47 + over;
                raw.add_stream([vl, 0, 0, most, 1, 125_000_000, 0]);
                raw.add_stream([vl, 2, 1, most, 1, 125_000_000, 0]);
                raw.attach_whole(rng);
            }));
        }
    }
}
