// The run of a tight network: its plan as messages, and the choices that hold up its early ones.
// Early messages take the greatest delays, the others the least, and the last comes last.
use crate::make::tight::Tight;
use crate::run::machine::{Choices, Message};

pub struct Directed<'a> {
    tight: &'a Tight,
}

pub fn directed(tight: &Tight) -> Directed<'_> {
    Directed { tight }
}

/// The messages of the plan, of the greatest size; all send delays are one number.
pub fn messages(tight: &Tight) -> Vec<Message> {
    let mut list = Vec::new();
    for p in &tight.plan {
        let size = tight.net.streams[p.stream].most;
        let release = p.arrival - tight.net.send_greatest;
        list.push(Message { stream: p.stream, size, release, arrival: p.arrival });
    }
    list
}

impl Choices for Directed<'_> {
    fn order(&mut self, message: usize, _: Option<usize>) -> u64 {
        self.tight.plan[message].rank
    }

    fn switch_delay(&mut self, message: usize, hop: usize, _: u64) -> u64 {
        let port = &self.tight.net.ports[self.tight.net.hops[hop].port];
        if self.tight.plan[message].early { port.greatest } else { port.least }
    }

    fn receive_delay(&mut self, _: usize, _: usize) -> u64 {
        self.tight.net.receive_greatest
    }

    fn first_turn(&mut self, _: usize) -> usize {
        0
    }
}
