// The tick machine: small runs worked by hand, the run from event to event against the one tick by
// tick, and a simulation that keeps to its rows and sees wrong ones.
use super::Report;
use crate::make::random::Rng;
use crate::make::{mixture, whole_case};
use crate::paper::network::{Network, network};
use crate::paper::rows::Row;
use crate::paper::table;
use crate::run::machine::{self, Choices, Message, Outcome};
use crate::run::{plans, simulate, tickwise};

/// Every delay at its least, the first turn to the first.
struct Least<'a> {
    net: &'a Network,
    /// Of what arrives in one tick, does the first message come first?
    in_order: bool,
}

impl Choices for Least<'_> {
    fn order(&mut self, message: usize, _: Option<usize>) -> u64 {
        if self.in_order { message as u64 } else { u64::MAX - message as u64 }
    }

    fn switch_delay(&mut self, _: usize, hop: usize, _: u64) -> u64 {
        self.net.ports[self.net.hops[hop].port].least
    }

    fn receive_delay(&mut self, _: usize, _: usize) -> u64 {
        self.net.receive_least
    }

    fn first_turn(&mut self, _: usize) -> usize {
        0
    }
}

/// A message released at tick 5,000 with the least send delay of the whole case.
fn message(stream: usize, size: u64) -> Message {
    Message { stream, size, release: 5_000, arrival: 5_500 }
}

/// What both machines show, one after the other.
fn both(net: &Network, messages: &[Message]) -> [Outcome; 2] {
    ordered(net, messages, true)
}

fn ordered(net: &Network, messages: &[Message], in_order: bool) -> [Outcome; 2] {
    let quick = machine::run(net, messages, &mut Least { net, in_order });
    let end = quick.completions.iter().map(|c| c.2).max().unwrap_or(0);
    [quick, tickwise::run(net, messages, &mut Least { net, in_order }, end)]
}

/// The whole case's stream 1 with 10 bytes: 500, 84 on the link, 875, 84 at the port, 500.
pub fn least_run_takes_its_best_figure(report: &mut Report) {
    let net = network(&whole_case::lists());
    for outcome in both(&net, &[message(1, 10)]) {
        report.same("wait", outcome.waits, vec![0]);
        report.same("best figure 2,043", outcome.completions, vec![(0, 1, 5_000 + 2_043)]);
    }
}

/// The whole case's stream 0 with 2,000 bytes: two packets, of 59 + 1,472 and of 59 + 536 bytes,
/// the second handed over one BAG after the first.
pub fn second_packet_waits_one_gap(report: &mut Report) {
    let net = network(&whole_case::lists());
    for outcome in both(&net, &[message(0, 2_000)]) {
        report.same("wait", outcome.waits, vec![12_500]);
        let end = 5_500 + 12_500 + 595 + 875 + 595 + 500;
        report.same("complete", outcome.completions, vec![(0, 0, end)]);
    }
}

/// 02, M-103, at Lmax 1,518: one packet by itself at its most, two with a last one of 8 bytes, of
/// 1,478 and of 1,479, which is more than a full one has, and three with a last one of 8 bytes.
pub fn last_fragment_takes_its_own_line(report: &mut Report) {
    let mut lists = whole_case::lists();
    lists[3][3] = 2_944;
    let net = network(&lists);
    for (size, gaps, line) in
        [(1_471, 0, 1_538), (1_472, 1, 84), (2_942, 1, 1_537), (2_943, 1, 1_538), (2_944, 2, 84)]
    {
        for outcome in both(&net, &[message(0, size)]) {
            let wait = 12_500 * gaps;
            report.same("wait", outcome.waits, vec![wait]);
            let end = 5_500 + wait + line + 875 + line + 500;
            report.same("complete", outcome.completions, vec![(0, 0, end)]);
        }
    }
}

/// A full fragment of 1,472 bytes before a packet of 84, in the end system's turn and at the port.
pub fn full_fragment_takes_59_and_c(report: &mut Report) {
    let net = network(&whole_case::lists());
    for outcome in both(&net, &[message(0, 2_000), message(1, 10)]) {
        let end = 5_500 + 1_531 + 875 + 1_531 + 84 + 500;
        report.same("the packet behind it", outcome.completions[1], (1, 1, end));
    }
}

/// Two sub-links with two packets each, arriving together: they hand over in turn, so that the last
/// packets wait two and three gaps; in one sub-link it would be one and three.
pub fn sub_links_take_turns(report: &mut Report) {
    for (sub_links, waits) in [(2, vec![25_000, 37_500]), (1, vec![12_500, 37_500])] {
        let mut lists = whole_case::lists();
        lists[2][2] = sub_links;
        lists[3][8] = sub_links - 1;
        (lists[3][7], lists[3][9], lists[3][10]) = (0, 0, 2_000);
        let net = network(&lists);
        for outcome in both(&net, &[message(0, 2_000), message(1, 2_000)]) {
            report.same("waits", outcome.waits, waits.clone());
        }
    }
}

/// "same-tick order is free" in a queue, "ties free" in a FIFO: the choice is followed. Two messages
/// of the whole case's stream 1, and one each from two end systems to one port.
pub fn same_tick_order_is_kept(report: &mut Report) {
    let whole = whole_case::lists();
    let mut apart = whole_case::lists();
    apart[1] = vec![100, 100];
    apart[2][4] = 1;
    for (in_order, first, second) in [(true, 0, 1), (false, 1, 0)] {
        for outcome in ordered(&network(&whole), &[message(1, 10), message(1, 10)], in_order) {
            report.same("waits", (outcome.waits[first], outcome.waits[second]), (0, 25_000));
        }
        for outcome in ordered(&network(&apart), &[message(0, 10), message(1, 10)], in_order) {
            let ends = outcome.completions;
            report.same("ends", (ends[first].2, ends[second].2), (7_043, 7_043 + 84));
        }
    }
}

/// Choices that depend on nothing but what they are asked for.
struct Fixed<'a> {
    net: &'a Network,
    salt: u64,
}

impl Fixed<'_> {
    fn of(&self, a: usize, b: usize, c: u64) -> Rng {
        Rng::part(self.salt ^ (a as u64) << 20 ^ (b as u64), c)
    }
}

impl Choices for Fixed<'_> {
    fn order(&mut self, message: usize, hop: Option<usize>) -> u64 {
        self.of(message, hop.map_or(0, |h| h + 1), 1).next()
    }

    fn switch_delay(&mut self, message: usize, hop: usize, tick: u64) -> u64 {
        let port = &self.net.ports[self.net.hops[hop].port];
        self.of(message, hop, tick).between(port.least, port.greatest)
    }

    fn receive_delay(&mut self, message: usize, hop: usize) -> u64 {
        self.of(message, hop, 3).between(self.net.receive_least, self.net.receive_greatest)
    }

    fn first_turn(&mut self, count: usize) -> usize {
        self.of(count, 7, 4).index(count)
    }
}

pub fn events_and_ticks_agree(report: &mut Report) {
    let mut runs = 0;
    for number in 0..300 {
        let rng = &mut Rng::part(12, number);
        let mut wish = simulate::wish(rng);
        (wish.codes, wish.streams, wish.jitter) = ((0, 1), 4, 2);
        let raw = mixture::accepted(rng, &wish);
        let net = network(&table::read(&raw.bytes()).expect("records in range"));
        let mut messages = plans::bursts(rng, &net, 4);
        messages.retain(|m| m.release < 60_000);
        let mut choices = Fixed { net: &net, salt: rng.next() };
        let quick = machine::run(&net, &messages, &mut choices);
        let end = quick.completions.iter().map(|c| c.2).max().unwrap_or(0);
        if end <= 400_000 {
            let slow = tickwise::run(&net, &messages, &mut choices, end);
            report.same("waits", &quick.waits, &slow.waits);
            report.same("completions", &quick.completions, &slow.completions);
            runs += u64::from(!messages.is_empty());
        }
    }
    report.holds("more than 100 runs", runs > 100);
    report.note(format!(", {runs} runs"));
}

/// Of the whole case: T 250,000, J 0, 1,000 to 2,000 bytes on stream 0; T 500,000, J 1,000 on
/// stream 1; send delays of 500 to 1,000.
pub fn unlawful_plans_are_seen(report: &mut Report) {
    let net = network(&whole_case::lists());
    let pair = |stream: usize, size: u64, apart: u64| {
        let second = Message { release: 5_000 + apart, arrival: 5_500 + apart, stream, size };
        plans::is_lawful(&net, &[message(stream, size), second])
    };
    for (stream, size, apart) in [(0, 2_000, 250_000), (1, 469, 499_000)] {
        report.holds("a period apart, less the jitter", pair(stream, size, apart));
        report.holds("one tick less", !pair(stream, size, apart - 1));
    }
    for (size, delay, lawful) in [
        (1_000, 500, true),
        (2_000, 1_000, true),
        (999, 500, false),
        (2_001, 500, false),
        (2_000, 499, false),
        (2_000, 1_001, false),
    ] {
        let one = Message { stream: 0, size, release: 5_000, arrival: 5_000 + delay };
        report.same("size and send delay", plans::is_lawful(&net, &[one]), lawful);
    }
}

/// Order, demand 3: no run is outside its rows, and the queue figure is reached.
pub fn runs_keep_to_their_rows(report: &mut Report) {
    let summary = simulate::simulate(3, 200);
    report.same("violations", summary.violations, vec![]);
    report.same("queue figure reached", summary.reached, summary.tried);
    report.same("worst reached through a port", summary.ports_reached, summary.ports_tried);
    report.holds("many runs", summary.runs > 2_000 && summary.tried > 300);
    report.holds("many ports", summary.ports_tried > 150 && summary.ports_later > 50);
    report.note(format!(", {} runs", summary.runs));
}

/// One number of every row too low or too high by a tick: a bound that is broken, or one that is
/// padded and so not reached.
pub fn wrong_rows_are_seen(report: &mut Report) {
    let seen = |text: &str, wrong: fn(&mut Row)| {
        let bend = |list: &mut Vec<Row>| list.iter_mut().for_each(wrong);
        let violations = simulate::simulate_against(3, 40, &bend).violations;
        violations.iter().any(|violation| violation.contains(text))
    };
    report.holds("right rows are not", !seen("", |_| ()));
    report.holds("queue too low", seen(", row [", |row| row[2] = row[2].saturating_sub(1)));
    report.holds("queue too high", seen("queue figure", |row| row[2] += 1));
    report.holds("worst too low", seen(", row [", |row| row[3] -= 1));
    report.holds("worst too high", seen("not the worst figure", |row| row[3] += 1));
    report.holds("best too high", seen(", row [", |row| row[4] += 1));
}
