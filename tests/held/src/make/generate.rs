// Networks of many shapes, most of them accepted: end systems, VLs with routes, streams.
// The wish says how large and how tight; every limit of 01 is kept here.
use crate::make::messages;
use crate::make::random::Rng;
use crate::make::raw::Raw;
use crate::paper::frame::{self, GAPS};

/// How large and how tight a network shall be. Loads are in millionths, chances in hundredths.
#[derive(Clone)]
pub struct Wish {
    pub systems: u64,
    pub ports: u64,
    pub vls: u64,
    pub streams: u64,
    pub slow_systems: u64,
    pub slow_ports: u64,
    /// BAG codes from and to.
    pub codes: (u64, u64),
    pub lmax: (u64, u64),
    pub sub_links: u64,
    /// Greatest depth of a route and greatest count of hops of a VL.
    pub deep: u64,
    pub hops: u64,
    /// Chance that a further hop has no parent, and that it continues the last one.
    pub roots: u64,
    pub chain: u64,
    pub port_load: u64,
    pub queue_load: u64,
    /// 0: none, 1: small, 2: about the period, 3: large, 4: any of these.
    pub jitter: u64,
}

pub const LOOSE: Wish = Wish {
    systems: 4,
    ports: 9,
    vls: 6,
    streams: 7,
    slow_systems: 20,
    slow_ports: 20,
    codes: (0, 7),
    lmax: (64, 1_518),
    sub_links: 4,
    deep: 8,
    hops: 4,
    roots: 20,
    chain: 40,
    port_load: 500_000,
    queue_load: 600_000,
    jitter: 4,
};

/// The shapes of small and medium networks, by number.
pub const SHAPES: u64 = 12;

pub fn shape(rng: &mut Rng, number: u64) -> Wish {
    let mut w = LOOSE;
    match number {
        0 => (w.systems, w.vls, w.streams, w.ports, w.hops) = (1, 2, 2, 2, 2),
        1 => {}
        2 => (w.ports, w.hops, w.chain, w.roots, w.vls) = (rng.between(8, 14), 9, 95, 0, 4),
        3 => (w.ports, w.hops, w.roots, w.chain, w.vls) = (20, 16, 40, 5, 3),
        4 => (w.sub_links, w.streams, w.vls, w.codes) = (4, 14, 4, (0, 3)),
        5 => (w.slow_systems, w.slow_ports, w.lmax) = (100, 100, (64, 300)),
        6 => (w.streams, w.vls, w.port_load) = (0, 12, 900_000),
        7 => (w.queue_load, w.streams, w.vls, w.jitter) = (1_000_000, 12, 3, 2),
        8 => (w.port_load, w.codes, w.vls, w.systems) = (999_999, (0, 1), 16, 6),
        9 => (w.systems, w.vls, w.streams, w.ports) = (10, 24, 30, 16),
        10 => (w.jitter, w.streams, w.codes) = (3, 10, (0, 4)),
        _ => (w.lmax, w.vls, w.streams, w.slow_ports) = ((64, 100), 14, 14, 60),
    }
    w
}

/// A pair least and greatest up to a limit; often equal, at a limit, or nought.
fn pair(rng: &mut Rng, limit: u64) -> (u64, u64) {
    match rng.below(5) {
        0 => (0, 0),
        1 => (0, limit),
        2 => (limit, limit),
        _ => {
            let greatest = rng.between(0, limit);
            (rng.between(0, greatest), greatest)
        }
    }
}

/// A network after the wish. Every VL has a hop; a count may come out below its wish.
pub fn network(rng: &mut Rng, wish: &Wish) -> Raw {
    let mut raw = Raw::empty();
    let (send, receive) = (pair(rng, 1_875), pair(rng, 1_875));
    raw.delays(send, receive);
    for _ in 0..rng.between(1, wish.systems) {
        let slow = u64::from(rng.chance(wish.slow_systems));
        raw.add_system(slow);
    }
    for _ in 0..rng.between(1, wish.ports) {
        let slow = u64::from(rng.chance(wish.slow_ports));
        let (least, greatest) = pair(rng, 1_250);
        raw.add_port(slow, least, greatest);
    }
    vls_and_hops(rng, wish, &mut raw);
    streams(rng, wish, &mut raw);
    raw
}

/// Appends VLs that keep answer 7 away, each with a tree of hops within the ports' loads.
fn vls_and_hops(rng: &mut Rng, wish: &Wish, raw: &mut Raw) {
    let mut space = Vec::new();
    for record in &raw.sections[1] {
        space.push(if record[0] == 1 { 575 } else { 5_750 });
    }
    let mut loads = vec![0u64; raw.sections[4].len()];
    let mut trees = Vec::new();
    let wanted = rng.between(wish.vls.min(1), wish.vls);
    for _ in 0..wanted {
        let system = rng.index(space.len());
        if space[system] < frame::full_line(wish.lmax.0) {
            continue;
        }
        let most = wish.lmax.1.min(space[system] - frame::LINE_OVERHEAD);
        let lmax = match rng.below(6) {
            0 => wish.lmax.0,
            1 => most,
            _ => rng.between(wish.lmax.0, most),
        };
        let code = rng.between(wish.codes.0, wish.codes.1);
        let tree = tree(rng, wish, raw, &mut loads, lmax, code);
        if tree.is_empty() {
            continue;
        }
        space[system] -= frame::full_line(lmax);
        let sub_links = rng.between(1, wish.sub_links);
        raw.add_vl(system as u64, code, sub_links, lmax);
        trees.push(tree);
    }
    add_trees(rng, raw, &trees);
}

/// A tree of hops for one VL: for each hop its port and the place of its parent in the tree.
fn tree(
    rng: &mut Rng, wish: &Wish, raw: &Raw, loads: &mut [u64], lmax: u64, code: u64,
) -> Vec<(u64, Option<usize>)> {
    let mut tree: Vec<(u64, Option<usize>)> = Vec::new();
    let mut depths: Vec<u64> = Vec::new();
    let share = |port: usize| {
        let per_byte = if raw.sections[4][port][0] == 1 { 10 } else { 1 };
        frame::full_line(lmax) * per_byte * 1_000_000 / GAPS[code as usize] + 1
    };
    let wanted = rng.between(1, wish.hops);
    for _ in 0..2 * wanted {
        if tree.len() as u64 == wanted {
            break;
        }
        let mut parent = None;
        if !tree.is_empty() && !rng.chance(wish.roots) {
            let last = tree.len() - 1;
            parent = Some(if rng.chance(wish.chain) { last } else { rng.index(tree.len()) });
        }
        // A chain goes on to one of the next two ports, so that it can become long.
        let lowest = parent.map_or(0, |p| tree[p].0 as usize + 1);
        let mut highest = loads.len();
        if rng.chance(wish.chain) {
            highest = highest.min(lowest + 2);
        }
        if lowest >= highest {
            continue;
        }
        let port = lowest + rng.index(highest - lowest);
        let depth = parent.map_or(1, |p| depths[p] + 1);
        let twin = tree.iter().any(|hop| hop.0 == port as u64);
        if twin || depth > wish.deep || loads[port] + share(port) > wish.port_load {
            continue;
        }
        loads[port] += share(port);
        tree.push((port as u64, parent));
        depths.push(depth);
    }
    tree
}

/// Appends the trees' hops, the VLs' rows mixed, every parent before its children.
pub fn add_trees(rng: &mut Rng, raw: &mut Raw, trees: &[Vec<(u64, Option<usize>)>]) {
    let mut rows: Vec<Vec<u64>> = vec![Vec::new(); trees.len()];
    let mut order: Vec<usize> = Vec::new();
    for (vl, tree) in trees.iter().enumerate() {
        order.extend(vec![vl; tree.len()]);
    }
    rng.shuffle(&mut order);
    for vl in order {
        let (port, parent) = trees[vl][rows[vl].len()];
        let named = parent.map_or(0, |p| rows[vl][p] + 1);
        let row = raw.add_hop(vl as u64, port, named);
        rows[vl].push(row);
    }
}

/// Appends streams within the sub-links' loads.
fn streams(rng: &mut Rng, wish: &Wish, raw: &mut Raw) {
    let vls = raw.sections[2].clone();
    if vls.is_empty() || wish.streams == 0 {
        return;
    }
    let mut used = vec![[0u64; 4]; vls.len()];
    for _ in 0..rng.between(0, wish.streams) {
        let vl = rng.index(vls.len());
        let sub_link = rng.index(vls[vl][2] as usize + 1);
        let left = wish.queue_load - used[vl][sub_link].min(wish.queue_load);
        let lmax = vls[vl][3];
        let room = messages::longest(1, lmax);
        let kind = u64::from(rng.chance(40));
        let mut most = if kind == 1 { rng.between(1, room) } else { long_message(rng, lmax) };
        let unit = (vls[vl][2] + 1) * GAPS[vls[vl][1] as usize];
        let mut cost = frame::packets(most, lmax) * unit;
        if left == 0 || cost * 1_000_000 / left >= 125_000_000 {
            most = most.min(room);
            cost = unit;
        }
        if left == 0 || cost * 1_000_000 / left >= 125_000_000 {
            continue;
        }
        let shortest = (cost * 1_000_000 / left + 1).max(12_500);
        let period = match rng.below(4) {
            0 => shortest,
            1 => (shortest + rng.below(3_000)).min(125_000_000),
            2 => (shortest * rng.between(1, 6)).min(125_000_000),
            _ => rng.between(shortest, 125_000_000),
        };
        used[vl][sub_link] += cost * 1_000_000 / period + 1;
        let any = rng.between(1, most);
        let least = rng.pick(&[1, most, any]);
        let jitter = jitter(rng, wish.jitter, period);
        raw.add_stream([vl as u64, sub_link as u64, kind, most, least, period, jitter]);
    }
}

/// The size of a queuing message, often at the edge of a packet.
fn long_message(rng: &mut Rng, lmax: u64) -> u64 {
    let packets = rng.between(1, 9);
    let longest = messages::longest(packets, lmax);
    let size = match rng.below(4) {
        0 => longest,
        1 => longest + 1,
        2 => rng.between(1, messages::longest(1, lmax)),
        _ => rng.between(1, longest),
    };
    size.min(8_192)
}

fn jitter(rng: &mut Rng, wish: u64, period: u64) -> u64 {
    let kind = if wish == 4 { rng.below(4) } else { wish };
    let size = match kind {
        0 => 0,
        1 => rng.below(1_000),
        2 => rng.between(1, 3) * period + rng.below(3) - 1,
        _ => rng.below(12 * period),
    };
    size.min(125_000_000)
}
