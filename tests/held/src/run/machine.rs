// The tick machine of demand 3: one run of a network, from event to event instead of tick by tick.
// Each part quotes the sentence of 01 it follows; what 01 leaves free is asked of `Choices`.
use crate::paper::frame;
use crate::paper::network::Network;
use std::cmp::Reverse;
use std::collections::{BinaryHeap, VecDeque};

/// A message with its release and the tick at which it reaches its sub-link queue.
#[derive(Clone, Debug)]
pub struct Message {
    pub stream: usize,
    pub size: u64,
    pub release: u64,
    pub arrival: u64,
}

/// What is free within 01's rules.
pub trait Choices {
    /// Same-tick order of arrivals: the lower comes first. For messages the hop is none.
    fn order(&mut self, message: usize, hop: Option<usize>) -> u64;
    /// A permitted switch delay for a frame that was sent whole at this tick.
    fn switch_delay(&mut self, message: usize, hop: usize, tick: u64) -> u64;
    fn receive_delay(&mut self, message: usize, hop: usize) -> u64;
    /// "which turn comes first is free", for sub-links and for VLs of an end system.
    fn first_turn(&mut self, count: usize) -> usize;
}

/// What a run showed.
pub struct Outcome {
    /// For each message: the wait of its last packet, "hand-over less arrival".
    pub waits: Vec<u64>,
    /// For each message and each destination: the tick at which the message is complete.
    pub completions: Vec<(usize, usize, u64)>,
}

#[derive(Clone, Copy)]
struct Frame {
    message: usize,
    line: u64,
    last: bool,
}

/// "In a tick come ends of sending, arrivals, hand-overs, starts": the order of the variants.
#[derive(Clone, Copy)]
enum Event {
    SystemEnd(usize),
    PortEnd(usize),
    MessageArrives(usize),
    FrameArrives(usize, Frame),
    HandOver(usize),
    SystemStart(usize),
    PortStart(usize),
}

fn phase(event: &Event) -> u64 {
    match event {
        Event::SystemEnd(_) | Event::PortEnd(_) => 0,
        Event::MessageArrives(_) | Event::FrameArrives(..) => 1,
        Event::HandOver(_) => 2,
        Event::SystemStart(_) | Event::PortStart(_) => 3,
    }
}

struct VlState {
    sub_links: Vec<VecDeque<Frame>>,
    turn: usize,
    last_hand_over: Option<u64>,
    /// Handed over, not yet on the end system's link.
    waiting: VecDeque<Frame>,
}

struct Machine<'a> {
    net: &'a Network,
    messages: &'a [Message],
    choices: &'a mut dyn Choices,
    heap: BinaryHeap<Reverse<(u64, u64, u64, usize)>>,
    events: Vec<Event>,
    vls: Vec<VlState>,
    /// The VLs of each end system, the next turn among them, and the frame on the link.
    members: Vec<Vec<usize>>,
    turns: Vec<usize>,
    on_link: Vec<Option<(usize, Frame)>>,
    fifos: Vec<VecDeque<(usize, Frame)>>,
    on_port: Vec<Option<(usize, Frame)>>,
    children: Vec<Vec<usize>>,
    waits: Vec<u64>,
    /// For each message and leaf: frames still missing and the latest tick so far.
    missing: Vec<Vec<(usize, u64, u64)>>,
}

/// Runs the network, empty at the start, until nothing is left to do.
pub fn run(net: &Network, messages: &[Message], choices: &mut dyn Choices) -> Outcome {
    let mut vls = Vec::new();
    for vl in &net.vls {
        let count = vl.sub_links as usize;
        let turn = choices.first_turn(count);
        let sub_links = vec![VecDeque::new(); count];
        vls.push(VlState { sub_links, turn, last_hand_over: None, waiting: VecDeque::new() });
    }
    let members: Vec<Vec<usize>> = (0..net.systems.len())
        .map(|s| (0..net.vls.len()).filter(|&v| net.vls[v].system == s).collect())
        .collect();
    let turns = members.iter().map(|m: &Vec<usize>| choices.first_turn(m.len().max(1))).collect();
    let leaves: Vec<Vec<usize>> = (0..net.vls.len()).map(|vl| net.leaves(vl)).collect();
    let missing = |m: &Message| {
        let vl = net.streams[m.stream].vl;
        let packets = frame::packets(m.size, net.vls[vl].lmax);
        leaves[vl].iter().map(|&leaf| (leaf, packets, 0)).collect()
    };
    let children = (0..net.hops.len())
        .map(|h| (0..net.hops.len()).filter(|&c| net.hops[c].parent == Some(h)).collect())
        .collect();
    let mut machine = Machine {
        net,
        messages,
        heap: BinaryHeap::new(),
        events: Vec::new(),
        vls,
        members,
        turns,
        on_link: vec![None; net.systems.len()],
        fifos: vec![VecDeque::new(); net.ports.len()],
        on_port: vec![None; net.ports.len()],
        children,
        waits: vec![0; messages.len()],
        missing: messages.iter().map(missing).collect(),
        choices,
    };
    for (m, message) in messages.iter().enumerate() {
        let order = machine.choices.order(m, None);
        machine.push(message.arrival, order, Event::MessageArrives(m));
    }
    while let Some(Reverse((tick, _, _, index))) = machine.heap.pop() {
        let event = machine.events[index];
        machine.step(tick, event);
    }
    let mut completions = Vec::new();
    for (m, leaves) in machine.missing.iter().enumerate() {
        for &(leaf, packets, tick) in leaves {
            assert_eq!(packets, 0, "the run ended with a frame under way");
            completions.push((m, leaf, tick));
        }
    }
    Outcome { waits: machine.waits, completions }
}

impl Machine<'_> {
    fn push(&mut self, tick: u64, order: u64, event: Event) {
        self.heap.push(Reverse((tick, phase(&event), order, self.events.len())));
        self.events.push(event);
    }

    fn step(&mut self, tick: u64, event: Event) {
        match event {
            Event::MessageArrives(m) => self.message_arrives(tick, m),
            Event::HandOver(vl) => self.hand_over(tick, vl),
            Event::SystemStart(s) => self.system_start(tick, s),
            Event::SystemEnd(s) => {
                // "A frame sent whole by the end system goes to every hop of its VL without parent"
                let (vl, frame) = self.on_link[s].take().unwrap();
                for h in 0..self.net.hops.len() {
                    if self.net.hops[h].vl == vl && self.net.hops[h].parent.is_none() {
                        self.forward(tick, h, frame);
                    }
                }
                self.push(tick, 0, Event::SystemStart(s));
            }
            Event::FrameArrives(hop, frame) => {
                // "It reaches each such port's FIFO after a permitted switch delay of its own"
                let port = self.net.hops[hop].port;
                self.fifos[port].push_back((hop, frame));
                self.push(tick, 0, Event::PortStart(port));
            }
            Event::PortStart(port) => {
                // "An idle port sends the head of its FIFO."
                if self.on_port[port].is_none() {
                    if let Some((hop, frame)) = self.fifos[port].pop_front() {
                        self.on_port[port] = Some((hop, frame));
                        let end = tick + frame.line * self.net.ports[port].per_byte;
                        self.push(end, 0, Event::PortEnd(port));
                    }
                }
            }
            Event::PortEnd(port) => {
                // "one sent whole by a port to every hop whose parent is that hop"
                let (hop, frame) = self.on_port[port].take().unwrap();
                for child in self.children[hop].clone() {
                    self.forward(tick, child, frame);
                }
                // "A hop that is nobody's parent leads to the receive delay."
                if self.children[hop].is_empty() {
                    let delay = self.choices.receive_delay(frame.message, hop);
                    let list = &mut self.missing[frame.message];
                    let place = list.iter_mut().find(|entry| entry.0 == hop).unwrap();
                    place.1 -= 1;
                    place.2 = place.2.max(tick + delay);
                }
                self.push(tick, 0, Event::PortStart(port));
            }
        }
    }

    fn forward(&mut self, tick: u64, hop: usize, frame: Frame) {
        let port = &self.net.ports[self.net.hops[hop].port];
        let delay = self.choices.switch_delay(frame.message, hop, tick);
        assert!(port.least <= delay && delay <= port.greatest);
        let order = self.choices.order(frame.message, Some(hop));
        self.push(tick + delay, order, Event::FrameArrives(hop, frame));
    }

    /// "A message is cut ...: every packet but the last is full", now as M-103 of 02 counts them.
    /// "Each message reaches its sub-link queue whole".
    fn message_arrives(&mut self, tick: u64, m: usize) {
        let stream = &self.net.streams[self.messages[m].stream];
        let fragments = frame::fragments(self.messages[m].size, self.net.vls[stream.vl].lmax);
        let queue = &mut self.vls[stream.vl].sub_links[stream.sub_link as usize];
        for (k, &bytes) in fragments.iter().enumerate() {
            let (line, last) = (frame::fragment_line(bytes), k + 1 == fragments.len());
            queue.push_back(Frame { message: m, line, last });
        }
        let ready = self.ready(stream.vl);
        self.push(tick.max(ready), 0, Event::HandOver(stream.vl));
    }

    /// The tick from which the VL's "last hand-over is at least one BAG old (or never was)".
    fn ready(&self, vl: usize) -> u64 {
        self.vls[vl].last_hand_over.map_or(0, |last| last + self.net.vls[vl].bag)
    }

    /// "hands over one packet, sub-links in turn, empty ones passed"
    fn hand_over(&mut self, tick: u64, vl: usize) {
        if tick < self.ready(vl) {
            return;
        }
        let state = &mut self.vls[vl];
        let count = state.sub_links.len();
        let turns = (0..count).map(|k| (state.turn + k) % count);
        let Some(sub_link) = turns.into_iter().find(|&s| !state.sub_links[s].is_empty()) else {
            return;
        };
        let frame = state.sub_links[sub_link].pop_front().unwrap();
        state.turn = (sub_link + 1) % count;
        state.last_hand_over = Some(tick);
        state.waiting.push_back(frame);
        if frame.last {
            self.waits[frame.message] = tick - self.messages[frame.message].arrival;
        }
        if self.vls[vl].sub_links.iter().any(|queue| !queue.is_empty()) {
            self.push(tick + self.net.vls[vl].bag, 0, Event::HandOver(vl));
        }
        self.push(tick, 0, Event::SystemStart(self.net.vls[vl].system));
    }

    /// "An idle end-system link sends the next VL's waiting packet, in turn."
    fn system_start(&mut self, tick: u64, system: usize) {
        if self.on_link[system].is_some() {
            return;
        }
        let count = self.members[system].len();
        for k in 0..count {
            let turn = (self.turns[system] + k) % count;
            let vl = self.members[system][turn];
            if let Some(frame) = self.vls[vl].waiting.pop_front() {
                self.turns[system] = (turn + 1) % count;
                self.on_link[system] = Some((vl, frame));
                let end = tick + frame.line * self.net.systems[system];
                self.push(end, 0, Event::SystemEnd(system));
                return;
            }
        }
    }
}
