// The tick machine once more, tick by tick and without cleverness, for the self-check alone:
// the run from event to event must show the same waits and completions.
use crate::paper::frame;
use crate::paper::network::Network;
use crate::run::machine::{Choices, Message, Outcome};
use std::collections::VecDeque;

/// A packet on its way: its message and its line bytes.
#[derive(Clone, Copy)]
struct Packet {
    message: usize,
    line: u64,
    last: bool,
}

/// A frame between two links: when it arrives, its place among those of the tick, the hop.
struct Flight {
    tick: u64,
    order: u64,
    hop: usize,
    packet: Packet,
}

fn lift(
    net: &Network, choices: &mut dyn Choices, flights: &mut Vec<Flight>, tick: u64, packet: Packet,
    goes_to: impl Fn(usize) -> bool,
) -> bool {
    let mut any = false;
    for hop in (0..net.hops.len()).filter(|&hop| goes_to(hop)) {
        let delay = choices.switch_delay(packet.message, hop, tick);
        let order = choices.order(packet.message, Some(hop));
        flights.push(Flight { tick: tick + delay, order, hop, packet });
        any = true;
    }
    any
}

/// Runs ticks 0 to `end`, both included; every message must be complete by then.
pub fn run(net: &Network, messages: &[Message], choices: &mut dyn Choices, end: u64) -> Outcome {
    let links: Vec<usize> = net.vls.iter().map(|vl| vl.sub_links as usize).collect();
    let mut turn: Vec<usize> = links.iter().map(|&count| choices.first_turn(count)).collect();
    let of = |s: usize| (0..net.vls.len()).filter(move |&v| net.vls[v].system == s);
    let members: Vec<Vec<usize>> = (0..net.systems.len()).map(|s| of(s).collect()).collect();
    let mut mux_turn: Vec<usize> =
        members.iter().map(|m| choices.first_turn(m.len().max(1))).collect();
    let orders: Vec<u64> = (0..messages.len()).map(|m| choices.order(m, None)).collect();
    let mut queues: Vec<Vec<VecDeque<Packet>>> =
        links.iter().map(|&count| vec![VecDeque::new(); count]).collect();
    let mut handed: Vec<Option<u64>> = vec![None; net.vls.len()];
    let mut mux: Vec<VecDeque<Packet>> = vec![VecDeque::new(); net.vls.len()];
    // What a link sends, and the tick at which it is sent whole.
    let mut system_link: Vec<Option<(u64, usize, Packet)>> = vec![None; net.systems.len()];
    let mut port_link: Vec<Option<(u64, usize, Packet)>> = vec![None; net.ports.len()];
    let mut fifos: Vec<VecDeque<(usize, Packet)>> = vec![VecDeque::new(); net.ports.len()];
    let mut flights: Vec<Flight> = Vec::new();
    let mut waits = vec![0; messages.len()];
    let mut received: Vec<(usize, usize, u64)> = Vec::new();
    for tick in 0..=end {
        // Ends of sending.
        for link in &mut system_link {
            if let Some((_, vl, packet)) = link.filter(|sent| sent.0 == tick) {
                *link = None;
                lift(net, choices, &mut flights, tick, packet, |h| {
                    net.hops[h].vl == vl && net.hops[h].parent.is_none()
                });
            }
        }
        for link in &mut port_link {
            if let Some((_, hop, packet)) = link.filter(|sent| sent.0 == tick) {
                *link = None;
                let is_child = |h: usize| net.hops[h].parent == Some(hop);
                if !lift(net, choices, &mut flights, tick, packet, is_child) {
                    let delay = choices.receive_delay(packet.message, hop);
                    received.push((packet.message, hop, tick + delay));
                }
            }
        }
        // Arrivals.
        let mut now: Vec<usize> =
            (0..messages.len()).filter(|&m| messages[m].arrival == tick).collect();
        now.sort_by_key(|&m| orders[m]);
        for m in now {
            let stream = &net.streams[messages[m].stream];
            let lmax = net.vls[stream.vl].lmax;
            // Without a count: what fits is the last fragment, of all else a full one is cut off.
            let mut left = messages[m].size + frame::UDP_HEADER;
            while left > 0 {
                let fits = left <= frame::most_of_fragment(lmax);
                let bytes = if fits { left } else { frame::full_fragment(lmax) };
                left -= bytes;
                let line = frame::fragment_line(bytes);
                let packet = Packet { message: m, line, last: left == 0 };
                queues[stream.vl][stream.sub_link as usize].push_back(packet);
            }
        }
        let mut landing: Vec<&Flight> = flights.iter().filter(|f| f.tick == tick).collect();
        landing.sort_by_key(|f| f.order);
        for f in landing {
            fifos[net.hops[f.hop].port].push_back((f.hop, f.packet));
        }
        flights.retain(|f| f.tick > tick);
        // Hand-overs.
        for v in 0..net.vls.len() {
            let old = handed[v].map_or(true, |last| tick - last >= net.vls[v].bag);
            let next = (0..links[v]).map(|k| (turn[v] + k) % links[v]);
            let found = next.into_iter().find(|&s| !queues[v][s].is_empty());
            if let (true, Some(s)) = (old, found) {
                let packet = queues[v][s].pop_front().unwrap();
                handed[v] = Some(tick);
                turn[v] = (s + 1) % links[v];
                mux[v].push_back(packet);
                if packet.last {
                    waits[packet.message] = tick - messages[packet.message].arrival;
                }
            }
        }
        // Starts.
        for s in 0..net.systems.len() {
            let count = members[s].len();
            for k in 0..count {
                let place = (mux_turn[s] + k) % count;
                let vl = members[s][place];
                if system_link[s].is_none() && !mux[vl].is_empty() {
                    let packet = mux[vl].pop_front().unwrap();
                    system_link[s] = Some((tick + packet.line * net.systems[s], vl, packet));
                    mux_turn[s] = (place + 1) % count;
                    break;
                }
            }
        }
        for p in 0..net.ports.len() {
            if port_link[p].is_none() {
                if let Some((hop, packet)) = fifos[p].pop_front() {
                    let whole = tick + packet.line * net.ports[p].per_byte;
                    port_link[p] = Some((whole, hop, packet));
                }
            }
        }
    }
    let mut completions = Vec::new();
    for (m, message) in messages.iter().enumerate() {
        let vl = net.streams[message.stream].vl;
        for leaf in net.leaves(vl) {
            let ticks = received.iter().filter(|r| r.0 == m && r.1 == leaf).map(|r| r.2);
            let packets = frame::packets(message.size, net.vls[vl].lmax);
            assert_eq!(ticks.clone().count() as u64, packets, "not complete at the end");
            completions.push((m, leaf, ticks.max().unwrap()));
        }
    }
    Outcome { waits, completions }
}
