// Tables at the greatest counts and one past them, and tables of the greatest legal size.
// 01: "At most 64 end systems, 256 VLs, 512 streams, 128 ports, 1,024 hops, 1,024 result rows".
use crate::make::generate::add_trees;
use crate::make::random::Rng;
use crate::make::raw::Raw;

/// Whole tables by number, with the answer number each is made for.
pub const SIZES: u64 = 19;

pub fn table(rng: &mut Rng, number: u64) -> (u64, Raw) {
    match number {
        0 => (0, Raw::empty()),
        1 => (0, systems(rng, 64)),
        2 => (2, systems(rng, 65)),
        3 => (0, vls(rng, 256)),
        4 => (2, vls(rng, 257)),
        5 => (0, streams(rng, 512)),
        6 => (2, streams(rng, 513)),
        7 => (0, ports(rng, 128)),
        8 => (2, ports(rng, 129)),
        9 => (0, hops(rng, 128)),
        10 => (2, {
            let mut raw = hops(rng, 128);
            raw.add_hop(3, 0, 0);
            raw
        }),
        11 | 12 => (0, greatest(rng, false)),
        13 => (8, greatest(rng, true)),
        number => {
            // One record more than the greatest size, in each section in turn.
            let mut raw = greatest(rng, false);
            let section = 1 + (number as usize - 14) % 5;
            let record = raw.sections[section][0].clone();
            raw.sections[section].push(record);
            raw.settle();
            (2, raw)
        }
    }
}

/// A few counts of nought: nothing but end systems, nothing but ports, both, VLs without streams.
pub fn bare(rng: &mut Rng) -> Raw {
    let mut raw = Raw::empty();
    let greatest = rng.between(0, 1_875);
    raw.delays((rng.between(0, greatest), greatest), (0, rng.between(0, 1_875)));
    let kind = rng.below(5);
    if kind == 1 || kind == 3 {
        for _ in 0..rng.between(1, 9) {
            let slow = rng.below(2);
            raw.add_system(slow);
        }
    }
    if kind == 2 || kind == 3 {
        for _ in 0..rng.between(1, 9) {
            let slow = rng.below(2);
            raw.add_port(slow, 7, 70);
        }
    }
    if kind == 4 {
        for _ in 0..rng.between(1, 3) {
            let code = rng.below(8);
            let sub_links = rng.between(1, 4);
            raw.attach(rng, code, sub_links, 1_000);
        }
    }
    raw
}

fn systems(rng: &mut Rng, count: u64) -> Raw {
    let mut raw = Raw::empty();
    for _ in 0..3 {
        raw.attach_whole(rng);
    }
    while raw.count(1) < count {
        let slow = rng.below(2);
        raw.add_system(slow);
    }
    raw
}

fn ports(rng: &mut Rng, count: u64) -> Raw {
    let mut raw = Raw::empty();
    for _ in 0..3 {
        raw.attach_whole(rng);
    }
    while raw.count(4) < count {
        let slow = rng.below(2);
        raw.add_port(slow, 0, 1_250);
    }
    let hop = raw.count(5) - 1;
    raw.add_hop(2, count - 1, hop + 1);
    raw
}

fn vls(rng: &mut Rng, count: u64) -> Raw {
    let mut raw = Raw::empty();
    raw.delays((3, 30), (4, 40));
    for _ in 0..32 {
        raw.add_system(0);
    }
    for _ in 0..8 {
        raw.add_port(0, 10, 500);
    }
    for vl in 0..count {
        let code = rng.between(2, 7);
        let sub_links = rng.between(1, 4);
        let lmax = rng.between(64, 600);
        raw.add_vl(vl % 32, code, sub_links, lmax);
        let port = rng.below(8);
        raw.add_hop(vl, port, 0);
    }
    for vl in [0, 1, 100, 254, 255] {
        raw.add_stream([vl, 0, 0, 200, 17, 125_000_000, 1_000]);
    }
    raw
}

fn streams(rng: &mut Rng, count: u64) -> Raw {
    let mut raw = Raw::empty();
    raw.delays((0, 1_000), (5, 5));
    for _ in 0..8 {
        let code = rng.between(0, 3);
        raw.attach(rng, code, 4, 1_000);
    }
    for k in 0..count {
        let most = rng.between(1, 953);
        let jitter = rng.below(3_000_000);
        let period = rng.between(40_000_000, 125_000_000);
        raw.add_stream([k % 8, rng.below(4), k % 2, most, 1, period, jitter]);
    }
    raw
}

/// VLs that each go eight hops deep.
fn hops(rng: &mut Rng, vls: u64) -> Raw {
    let mut raw = Raw::empty();
    raw.delays((500, 1_000), (500, 500));
    for _ in 0..64 {
        raw.add_system(0);
    }
    for _ in 0..64 {
        raw.add_port(0, 875, 1_250);
    }
    let mut trees = Vec::new();
    for vl in 0..vls {
        let code = rng.between(4, 7);
        let lmax = rng.between(64, 400);
        raw.add_vl(vl % 64, code, 1, lmax);
        let mut tree = vec![(rng.below(8), None)];
        for k in 1..8 {
            tree.push((8 * k + rng.below(8), Some(k as usize - 1)));
        }
        trees.push(tree);
    }
    add_trees(rng, &mut raw, &trees);
    for vl in [1, 2, 63, 64, 127] {
        raw.add_stream([vl, 0, 1, 17, 1, 100_000_000, 3]);
    }
    raw
}

/// All counts at their greatest: 12,110 bytes and 1,024 rows, or 1,026 rows.
fn greatest(rng: &mut Rng, one_more: bool) -> Raw {
    let mut raw = Raw::empty();
    raw.delays((rng.between(0, 900), rng.between(900, 1_875)), (0, rng.between(0, 1_875)));
    for k in 0..64 {
        raw.add_system(u64::from(k % 5 == 4));
    }
    for _ in 0..128 {
        let slow = u64::from(rng.chance(15));
        let greatest = rng.between(0, 1_250);
        raw.add_port(slow, rng.between(0, greatest), greatest);
    }
    let mut trees = Vec::new();
    for vl in 0..256 {
        let system = vl % 64;
        let widest = if system % 5 == 4 { 123 } else { 1_417 };
        let lmax = rng.between(64, widest);
        let code = rng.between(5, 7);
        raw.add_vl(system, code, rng.between(1, 2), lmax);
        let mut p: Vec<u64> = (0..128).collect();
        rng.shuffle(&mut p);
        p.truncate(4);
        p.sort_unstable();
        // Two hops that are nobody's parent, once three.
        trees.push(match (one_more && vl == 200, vl % 3) {
            (true, _) => vec![(p[0], None), (p[1], Some(0)), (p[2], Some(0)), (p[3], Some(0))],
            (false, 0) => vec![(p[0], None), (p[1], None), (p[2], Some(0)), (p[3], Some(1))],
            _ => vec![(p[0], None), (p[1], Some(0)), (p[2], Some(0)), (p[3], Some(1))],
        });
    }
    add_trees(rng, &mut raw, &trees);
    for k in 0..512 {
        let vl = k % 256;
        let most = rng.between(1, raw.sections[2][vl as usize][3] - 47);
        let period = rng.between(10_000_000, 125_000_000);
        let jitter = rng.below(20_000_000);
        raw.add_stream([vl, 0, rng.below(2), most, rng.between(1, most), period, jitter]);
    }
    raw
}
