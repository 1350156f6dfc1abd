// Runs of small accepted networks on the tick machine, each held to its rows.
// Order, demand 3: "no earlier than its best figure and no later than its worst".
use crate::make::generate::{self, LOOSE, Wish};
use crate::make::mixture;
use crate::make::random::Rng;
use crate::make::tight;
use crate::paper::network::{Network, network};
use crate::paper::rows::{Row, rows};
use crate::paper::table::read;
use crate::run::directed;
use crate::run::machine::{Choices, Message, Outcome, run};
use crate::run::plans;

/// How delays and orders are chosen in a run.
struct Adversary<'a> {
    net: &'a Network,
    rng: Rng,
    /// 0: least, 1: greatest, 2: either, 3: any, 4: so that frames meet at a port.
    manner: u64,
    /// The message that comes last wherever the order is free.
    victim: Option<usize>,
    meeting: u64,
}

impl Adversary<'_> {
    fn delay(&mut self, least: u64, greatest: u64) -> u64 {
        match self.manner {
            0 => least,
            1 => greatest,
            2 => self.rng.pick(&[least, greatest]),
            _ => self.rng.between(least, greatest),
        }
    }
}

impl Choices for Adversary<'_> {
    fn order(&mut self, message: usize, _: Option<usize>) -> u64 {
        if self.victim == Some(message) { u64::MAX } else { self.rng.next() / 2 }
    }

    fn switch_delay(&mut self, message: usize, hop: usize, tick: u64) -> u64 {
        let port = &self.net.ports[self.net.hops[hop].port];
        if self.victim == Some(message) {
            return port.greatest;
        }
        if self.manner == 4 {
            // Up to the next meeting tick; they come once in the least gap.
            let until = (self.meeting + 12_500 - tick % 12_500) % 12_500;
            return until.clamp(port.least, port.greatest);
        }
        self.delay(port.least, port.greatest)
    }

    fn receive_delay(&mut self, message: usize, _: usize) -> u64 {
        if self.victim == Some(message) {
            return self.net.receive_greatest;
        }
        self.delay(self.net.receive_least, self.net.receive_greatest)
    }

    fn first_turn(&mut self, count: usize) -> usize {
        self.rng.index(count)
    }
}

/// What was seen over all runs.
#[derive(Default)]
pub struct Summary {
    pub networks: u64,
    pub runs: u64,
    pub messages: u64,
    pub completions: u64,
    pub tried: u64,
    pub reached: u64,
    pub too_long: u64,
    pub ports_tried: u64,
    pub ports_reached: u64,
    /// Of these, those whose figure is taken at a span above 0.
    pub ports_later: u64,
    pub at_best: u64,
    pub at_worst: u64,
    /// Greatest seen latency over worst, as two numbers.
    pub ratio: (u64, u64),
    /// The same for waits over queue figures, on VLs with several sub-links.
    pub several: (u64, u64),
    pub violations: Vec<String>,
}

pub fn simulate(seed: u64, count: u64) -> Summary {
    simulate_against(seed, count, &|_| ())
}

/// The same with the rows bent before the runs are held to them.
pub fn simulate_against(seed: u64, count: u64, bend: &dyn Fn(&mut Vec<Row>)) -> Summary {
    let mut summary = Summary::default();
    for number in 0..count {
        let rng = &mut Rng::part(seed, number);
        let wish = wish(rng);
        let raw = mixture::accepted(rng, &wish);
        let bytes = raw.bytes();
        let Ok(mut list) = rows(&bytes, mixture::FULL_ROOM) else {
            continue;
        };
        bend(&mut list);
        let net = network(&read(&bytes).unwrap());
        summary.networks += 1;
        one_network(rng, &Accepted { net: &net, bytes: &bytes, rows: &list }, &mut summary);
        one_tight(rng, bend, &mut summary);
    }
    summary
}

/// Small networks: short gaps, tight queues and ports, every shape of route.
pub fn wish(rng: &mut Rng) -> Wish {
    let number = rng.below(generate::SHAPES);
    let mut w = if rng.chance(30) { generate::shape(rng, number) } else { LOOSE };
    w.systems = rng.between(1, 3);
    w.ports = w.ports.min(9);
    w.vls = w.vls.min(6);
    w.streams = rng.between(1, 9);
    w.codes = (0, rng.pick(&[0, 1, 2, 3, 7]));
    w.sub_links = rng.pick(&[1, 1, 2, 4]);
    w.queue_load = rng.pick(&[300_000, 900_000, 1_000_000]);
    w.port_load = rng.pick(&[300_000, 700_000, 990_000]);
    w.jitter = rng.pick(&[0, 1, 2, 4]);
    w
}

/// An accepted network with its bytes and its rows.
struct Accepted<'a> {
    net: &'a Network,
    bytes: &'a [u8],
    rows: &'a [Row],
}

fn one_network(rng: &mut Rng, table: &Accepted, sum: &mut Summary) {
    let net = table.net;
    for manner in 0..5 {
        let messages = plans::random(rng, net, 25);
        hold(rng, table, messages, manner, None, sum);
        let messages = plans::bursts(rng, net, 12);
        hold(rng, table, messages, manner, None, sum);
    }
    hold(rng, table, plans::quiet(net), 0, None, sum);
    for victim in 0..net.streams.len() {
        let vl = net.streams[victim].vl;
        if net.vls[vl].sub_links != 1 {
            continue;
        }
        let queue = table.rows.iter().find(|row| row[0] == victim as u64).unwrap()[2];
        for _ in 0..3 {
            let Some((messages, index)) = plans::reach(rng, net, victim, queue) else {
                sum.too_long += 1;
                break;
            };
            sum.tried += 1;
            let manner = rng.below(5);
            let wait = hold(rng, table, messages, manner, Some(index), sum);
            if wait == Some(queue) {
                sum.reached += 1;
            } else {
                let text = format!("stream {victim}: queue figure {queue} not reached");
                violation(sum, table.bytes, &text);
            }
        }
    }
}

/// A network and a run that bring a message exactly to its worst figure, through a port's figure.
fn one_tight(rng: &mut Rng, bend: &dyn Fn(&mut Vec<Row>), sum: &mut Summary) {
    let Some(tight) = (0..20).find_map(|_| tight::build(rng)) else {
        return;
    };
    let mut list = rows(&tight.bytes, mixture::FULL_ROOM).expect("an accepted table");
    bend(&mut list);
    sum.networks += 1;
    sum.ports_tried += 1;
    let before = sum.at_worst;
    let messages = directed::messages(&tight);
    let outcome = run(&tight.net, &messages, &mut directed::directed(&tight));
    let table = Accepted { net: &tight.net, bytes: &tight.bytes, rows: &list };
    held_to_rows(&table, &messages, &outcome, sum);
    let last = messages.len() - 1;
    let end = outcome.completions.iter().find(|c| c.0 == last).unwrap().2;
    let latency = end - messages[last].release;
    let worst = list.iter().find(|row| row[0] == messages[last].stream as u64).unwrap()[3];
    if latency == worst && sum.at_worst > before {
        sum.ports_reached += 1;
        sum.ports_later += u64::from(tight.span > 0);
    } else {
        let text = format!("latency {latency}, not the worst figure {worst}");
        violation(sum, &tight.bytes, &text);
    }
}

/// One run, held to its rows. Gives the wait of the victim's last packet.
fn hold(
    rng: &mut Rng, table: &Accepted, messages: Vec<Message>, manner: u64, victim: Option<usize>,
    sum: &mut Summary,
) -> Option<u64> {
    let own = Rng::new(rng.next());
    let meeting = rng.below(12_500);
    let mut choices = Adversary { net: table.net, rng: own, manner, victim, meeting };
    let outcome = run(table.net, &messages, &mut choices);
    held_to_rows(table, &messages, &outcome, sum);
    victim.map(|m| outcome.waits[m])
}

/// Holds every completion and every last packet's wait of a lawful run to its row.
fn held_to_rows(table: &Accepted, messages: &[Message], outcome: &Outcome, sum: &mut Summary) {
    let net = table.net;
    assert!(plans::is_lawful(net, messages), "a plan breaks 01's rule on releases");
    sum.runs += 1;
    sum.messages += messages.len() as u64;
    for &(m, leaf, tick) in &outcome.completions {
        let message = &messages[m];
        let row = table
            .rows
            .iter()
            .find(|row| row[0] == message.stream as u64 && row[1] == leaf as u64)
            .expect("a row for every stream and destination");
        let latency = tick - message.release;
        sum.completions += 1;
        sum.at_best += u64::from(latency == row[4]);
        sum.at_worst += u64::from(latency == row[3]);
        raise(&mut sum.ratio, latency, row[3]);
        let wait = outcome.waits[m];
        if net.vls[net.streams[message.stream].vl].sub_links > 1 {
            raise(&mut sum.several, wait, row[2]);
        }
        if latency < row[4] || latency > row[3] || wait > row[2] {
            let seen = format!("latency {latency}, wait {wait}, row {row:?}");
            violation(sum, table.bytes, &format!("{message:?} at hop {leaf}: {seen}"));
        }
    }
}

/// Keeps the greater of two shares.
fn raise(share: &mut (u64, u64), part: u64, whole: u64) {
    let wide = |a: u64, b: u64| u128::from(a) * u128::from(b);
    if share.1 == 0 || wide(part, share.1) > wide(share.0, whole) {
        *share = (part, whole);
    }
}

fn violation(sum: &mut Summary, bytes: &[u8], text: &str) {
    let hex: Vec<String> = bytes.iter().map(|b| format!("{:02x}", b)).collect();
    sum.violations.push(format!("{}\n  table {}", text, hex.concat()));
}

pub fn line(s: &Summary) -> String {
    let (latency, worst) = s.ratio;
    let share = latency as f64 / worst.max(1) as f64;
    let (wait, queue) = s.several;
    let parts = [
        format!("{} networks, {} runs, {} messages", s.networks, s.runs, s.messages),
        format!("{} completions held to rows", s.completions),
        format!("{} at best, {} at worst", s.at_best, s.at_worst),
        format!("greatest latency/worst {latency}/{worst} = {share:.4}"),
        format!("queue figure reached {} of {} ({} runs too long)", s.reached, s.tried, s.too_long),
        format!("greatest wait/queue with several sub-links {wait}/{queue}"),
        format!("worst reached through a port {} of {}", s.ports_reached, s.ports_tried)
            + &format!(" ({} with a span above 0)", s.ports_later),
        format!("{} violations", s.violations.len()),
    ];
    parts.join(", ")
}
