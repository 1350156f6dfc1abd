// Networks and plans that reach a port's figure: frames of small VLs, the first ones held up as
// long as can be, the next ones not at all, meet at one slow port, a last frame behind them.
use crate::make::random::Rng;
use crate::make::raw::Raw;
use crate::paper::network::{Network, network};
use crate::paper::rows;
use crate::paper::station::{Flow, LIMIT, busy_length, span_of_figure};
use crate::paper::table::read;

/// A feeder: a VL of 1 ms and 84 line bytes that ends at the slow port.
struct Feeder {
    vl: u64,
    stream: u64,
    /// Ticks from hand-over to the slow port's FIFO, held up and not.
    longest: u64,
    shortest: u64,
    /// Streams of the VLs that hold it up, with their hand-over relative to its own.
    fillers: Vec<(u64, i64)>,
}

/// A message of the plan: its stream and the tick at which it reaches its queue.
pub struct Planned {
    pub stream: usize,
    pub arrival: u64,
    /// Is it held up as long as can be, or not at all?
    pub early: bool,
    /// Its place among those that arrive in one tick: the lower comes first.
    pub rank: u64,
}

/// A network with the plan of a lawful run; the plan's last message must take exactly its worst
/// figure.
pub struct Tight {
    pub bytes: Vec<u8>,
    pub net: Network,
    pub plan: Vec<Planned>,
    /// The span at which the port's figure is taken.
    pub span: u64,
}

const BAG: u64 = 12_500;
const LONG_BAG: u64 = 1_600_000;

/// A stream of one least packet on the VL, as often as the gap permits.
fn add_stream(raw: &mut Raw, vl: u64, period: u64) -> u64 {
    raw.add_stream([vl, 0, 1, 17, 1, period, 0])
}

/// A VL of 128 ms with full frames, and its stream.
fn add_filler(raw: &mut Raw, system: u64, line: u64, port: u64) -> u64 {
    let vl = raw.add_vl(system, 7, 1, line - 20);
    raw.add_hop(vl, port, 0);
    let payload = line - 20 - 47;
    raw.add_stream([vl, 0, 1, payload, payload, LONG_BAG, 0])
}

/// Adds a feeder with VLs that hold it up in its end system or at a port before the slow one.
fn add_feeder(rng: &mut Rng, raw: &mut Raw, slow_port: u64, aside: u64, much: bool) -> Feeder {
    let slow = u64::from(rng.chance(30));
    let per_byte = if slow == 1 { 10 } else { 1 };
    let system = raw.add_system(slow);
    let mut fillers = Vec::new();
    let mut mux = 0;
    let most = if much { 9 } else { rng.below(4) };
    for _ in 0..most {
        let line = rng.between(84, 1_400) / if slow == 1 { 9 } else { 1 };
        let line = line.max(84);
        if mux + (line + 84) * per_byte <= 5_750 {
            fillers.push((add_filler(raw, system, line, aside), 0));
            mux += line * per_byte;
        }
    }
    // The feeder stands behind its fillers in its end system's turn.
    let vl = raw.add_vl(system, 0, 1, 64);
    let (least, greatest) = delays(raw, slow_port);
    let mut longest = mux + 84 * per_byte + greatest;
    let mut shortest = 84 * per_byte + least;
    if rng.chance(50) {
        // A slow port of its own, shared with one frame that arrives there just before it.
        let line = rng.between(84, 450);
        let own = port_below(raw, slow_port);
        let other = raw.add_system(0);
        let filler = add_filler(raw, other, line, own);
        // Both reach the port's FIFO in one tick: the filler's frame leaves its end system with
        // its own line time only.
        fillers.push((filler, (mux + 84 * per_byte) as i64 - line as i64));
        let (own_least, own_greatest) = delays(raw, own);
        let hop = raw.add_hop(vl, own, 0);
        raw.add_hop(vl, slow_port, hop + 1);
        longest += own_greatest + 10 * line + 840;
        shortest += own_least + 840;
    } else {
        raw.add_hop(vl, slow_port, 0);
    }
    let stream = add_stream(raw, vl, BAG);
    Feeder { vl, stream, longest, shortest, fillers }
}

fn delays(raw: &Raw, port: u64) -> (u64, u64) {
    let record = &raw.sections[4][port as usize];
    (record[1], record[2])
}

/// The next port below the slow one that no hop uses yet.
fn port_below(raw: &Raw, slow_port: u64) -> u64 {
    let free = |port: &u64| raw.sections[5].iter().all(|hop| hop[1] != *port);
    (1..slow_port).find(free).expect("a port for each feeder")
}

/// Builds one; none if the table is refused.
pub fn build(rng: &mut Rng) -> Option<Tight> {
    let mut raw = Raw::empty();
    let send = rng.below(1_876);
    let receive = rng.below(1_876);
    raw.delays((send, send), (0, receive));
    // Port 0 takes the fillers of end systems aside; ports 1 to 13 may stand before port 14.
    raw.add_port(0, 0, 0);
    for _ in 1..=14 {
        let greatest = rng.below(1_251);
        raw.add_port(1, rng.between(0, greatest), greatest);
    }
    let slow_port = 14;
    let mut feeders = Vec::new();
    // Many feeders with long hold-ups, so that their next frames count as well; or any.
    let much = rng.chance(70);
    for _ in 0..rng.between(if much { 9 } else { 2 }, 13) {
        let feeder = add_feeder(rng, &mut raw, slow_port, 0, much);
        feeders.push(feeder);
    }
    let system = raw.add_system(0);
    let vl = raw.add_vl(system, 7, 1, 64);
    raw.add_hop(vl, slow_port, 0);
    let last_stream = add_stream(&mut raw, vl, LONG_BAG);
    let bytes = raw.bytes();
    rows::rows(&bytes, 6_144).ok()?;
    let net = network(&read(&bytes).ok()?);

    // The span of the slow port's figure, from the flows it must have.
    let mut flows = Vec::new();
    for f in &feeders {
        assert!(net.vls[f.vl as usize].bag == BAG);
        flows.push(Flow { period: BAG, jitter: f.longest - f.shortest, cost: 840 });
    }
    let (least, greatest) = delays(&raw, slow_port);
    flows.push(Flow { period: LONG_BAG, jitter: greatest - least, cost: 840 });
    if flows.iter().any(|f| f.jitter > 11_000) {
        return None;
    }
    let span = span_of_figure(&flows, busy_length(&flows, LIMIT)?);

    // All first frames reach the slow port's FIFO at the tick `meet`.
    let meet = 100_000;
    let mut plan = Vec::new();
    let mut add = |stream: u64, arrival: u64, early: bool, rank: u64| {
        plan.push(Planned { stream: stream as usize, arrival, early, rank });
    };
    for (f, flow) in feeders.iter().zip(&flows) {
        let hand_over = meet - f.longest;
        for k in 0..(span + flow.jitter) / BAG + 1 {
            add(f.stream, hand_over + k * BAG, k == 0, 1);
        }
        for &(stream, shift) in &f.fillers {
            add(stream, (hand_over as i64 + shift) as u64, true, 0);
        }
    }
    add(last_stream, meet + span - greatest - 84, true, 2);
    Some(Tight { bytes, net, plan, span })
}
