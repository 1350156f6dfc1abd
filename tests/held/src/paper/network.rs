// The lists of a table as named records, times already in ticks.
// 01: "The packed table"; numbers as the unpacker speaks them.
use crate::paper::frame;
use crate::paper::table::Lists;

pub struct Vl {
    pub system: usize,
    pub bag: u64,
    pub sub_links: u64,
    pub lmax: u64,
}

pub struct Stream {
    pub vl: usize,
    pub sub_link: u64,
    pub sampling: bool,
    pub most: u64,
    pub least: u64,
    pub period: u64,
    pub jitter: u64,
}

pub struct Port {
    pub per_byte: u64,
    pub least: u64,
    pub greatest: u64,
}

pub struct Hop {
    pub vl: usize,
    pub port: usize,
    /// The row the parent field names: "0: none, else parent's row + 1".
    pub parent: Option<usize>,
}

pub struct Network {
    pub send_least: u64,
    pub send_greatest: u64,
    pub receive_least: u64,
    pub receive_greatest: u64,
    /// Ticks per byte of each end system.
    pub systems: Vec<u64>,
    pub vls: Vec<Vl>,
    pub streams: Vec<Stream>,
    pub ports: Vec<Port>,
    pub hops: Vec<Hop>,
}

/// The network of lists whose records are all in range.
pub fn network(lists: &Lists) -> Network {
    let vl = |n: &[u64]| Vl {
        system: n[0] as usize,
        bag: n[1] * frame::TICKS_PER_MS,
        sub_links: n[2],
        lmax: n[3],
    };
    let stream = |n: &[u64]| Stream {
        vl: n[0] as usize,
        sub_link: n[1],
        sampling: n[2] == 1,
        most: n[3],
        least: n[4],
        period: n[5],
        jitter: n[6],
    };
    let port =
        |n: &[u64]| Port { per_byte: frame::ticks_per_byte(n[0]), least: n[1], greatest: n[2] };
    let hop = |n: &[u64]| Hop {
        vl: n[0] as usize,
        port: n[1] as usize,
        parent: (n[2] as usize).checked_sub(1),
    };
    Network {
        send_least: lists[0][1],
        send_greatest: lists[0][2],
        receive_least: lists[0][3],
        receive_greatest: lists[0][4],
        systems: lists[1].iter().map(|&s| frame::ticks_per_byte(s)).collect(),
        vls: lists[2].chunks(4).map(vl).collect(),
        streams: lists[3].chunks(7).map(stream).collect(),
        ports: lists[4].chunks(3).map(port).collect(),
        hops: lists[5].chunks(3).map(hop).collect(),
    }
}

impl Network {
    /// Is this hop nobody's parent?
    pub fn is_leaf(&self, hop: usize) -> bool {
        self.hops.iter().all(|other| other.parent != Some(hop))
    }

    /// The hops of a VL that are nobody's parent, in order.
    pub fn leaves(&self, vl: usize) -> Vec<usize> {
        (0..self.hops.len()).filter(|&h| self.hops[h].vl == vl && self.is_leaf(h)).collect()
    }

    /// The hops from the end system to this hop, the hop itself last.
    pub fn route(&self, hop: usize) -> Vec<usize> {
        let mut route = vec![hop];
        while let Some(parent) = self.hops[route[0]].parent {
            route.insert(0, parent);
        }
        route
    }
}
