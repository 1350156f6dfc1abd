// How a message is cut: its count of packets, its fragments and their bytes on the line.
// 02, M-103, over every Lmax; over every M where that is quick, else over a spread of them.
use super::Report;
use crate::make::messages;
use crate::make::random::Rng;
use crate::paper::frame;
use crate::run::counts::{self, LMAX, M};

/// Every message on every VL: Lmax and M.
fn every_message() -> impl Iterator<Item = (u64, u64)> {
    LMAX.flat_map(|lmax| M.map(move |message| (lmax, message)))
}

/// Every Lmax with the small messages, those at and about the edge of a packet, every 37th and the
/// greatest, each with its fragments.
fn spread() -> impl Iterator<Item = (u64, u64, Vec<u64>)> {
    let of_lmax = |lmax: u64| {
        let packets = 1..=frame::packets(*M.end(), lmax);
        let edges = packets.map(move |packets| messages::longest(packets, lmax));
        let about = edges.flat_map(|edge| edge - 1..=edge + 2);
        let sizes = (1..=60).chain(about).chain(M.step_by(37)).chain([*M.end()]);
        sizes.filter(|size| M.contains(size)).map(move |size| (lmax, size))
    };
    LMAX.flat_map(of_lmax).map(|(lmax, size)| (lmax, size, frame::fragments(size, lmax)))
}

/// S and C worked out on paper: 25 and 24 at Lmax 64, 32 and 32 at 71, 33 and 32 at 72, 39 and 32
/// at 78, 477 and 472 at 516, 1,479 and 1,472 at 1,518.
pub fn counts_worked_by_hand(report: &mut Report) {
    let by_hand: [(u64, &[(u64, u64)]); 6] = [
        (64, &[(1, 1), (17, 1), (18, 2), (41, 2), (42, 3), (89, 4), (90, 5), (100, 5), (113, 5)]),
        (71, &[(24, 1), (25, 2), (56, 2), (57, 3), (88, 3), (89, 4)]),
        (72, &[(25, 1), (26, 2), (57, 2), (58, 3), (89, 3), (90, 4)]),
        (78, &[(31, 1), (32, 2), (63, 2), (64, 3), (95, 3), (96, 4)]),
        (516, &[(469, 1), (470, 2), (941, 2), (942, 3), (8_021, 17), (8_022, 18), (8_192, 18)]),
        (1_518, &[(1_471, 1), (1_472, 2), (2_943, 2), (2_944, 3), (7_359, 5), (7_360, 6)]),
    ];
    for (lmax, counts) in by_hand {
        for &(message, packets) in counts {
            let what = format!("M {message} at Lmax {lmax}");
            report.same(&what, frame::packets(message, lmax), packets);
        }
    }
    report.same("the greatest count", frame::packets(8_192, 64), 342);
}

/// "the least count with M + 8 at most (p − 1) × C + S": by a division instead of counting.
pub fn count_is_the_least_that_holds_the_message(report: &mut Report) {
    for (lmax, message) in every_message() {
        let (s, c) = (lmax - 39, (lmax - 39) / 8 * 8);
        let packets = 1 + (message + 8).saturating_sub(s).div_ceil(c);
        report.same("packets", frame::packets(message, lmax), packets);
    }
}

/// "its first two stay, and so does the sampling limit"
pub fn one_packet_exactly_up_to_lmax_less_47(report: &mut Report) {
    for (lmax, message) in every_message() {
        report.same("one", frame::packets(message, lmax) == 1, message <= lmax - 47);
    }
}

/// A byte more is no packet fewer, and one more at the most.
pub fn count_never_falls_as_messages_grow(report: &mut Report) {
    for lmax in LMAX {
        let counts: Vec<u64> = M.map(|message| frame::packets(message, lmax)).collect();
        let step = |pair: &[u64]| pair[1] == pair[0] || pair[1] == pair[0] + 1;
        report.holds(&format!("Lmax {lmax}"), counts.windows(2).all(step));
    }
}

/// "Bench captures show fewer packets than we state. Equation 4 charges all 47 bytes to every
/// packet": 01's former count was M / (Lmax − 47) rounded up.
pub fn never_more_packets_than_by_the_former_rule(report: &mut Report) {
    let mut fewer = 0;
    for (lmax, message) in every_message() {
        let (packets, former) = (frame::packets(message, lmax), message.div_ceil(lmax - 47));
        report.holds("at most as many", packets <= former);
        fewer += u64::from(packets < former);
    }
    report.holds("and often fewer", fewer > 1_000_000);
    report.note(format!(", {fewer} have fewer"));
}

pub fn fragments_add_to_message_and_one_header(report: &mut Report) {
    for (lmax, message, fragments) in spread() {
        report.same("count", fragments.len() as u64, frame::packets(message, lmax));
        report.same("bytes", fragments.iter().sum(), message + 8);
    }
}

/// "only the first fragment has the 8-byte UDP header": the bytes of the datagram, its header
/// first, are laid into the fragments one after the other and fill them.
pub fn first_fragment_alone_has_the_udp_header(report: &mut Report) {
    for (_, message, fragments) in spread() {
        let mut datagram = (0..8 + message).map(|place| place < 8);
        let mut headers = Vec::new();
        for &bytes in &fragments {
            let piece: Vec<bool> = datagram.by_ref().take(bytes as usize).collect();
            report.same("filled", piece.len() as u64, bytes);
            headers.push(piece.iter().filter(|&&of_header| of_header).count());
        }
        report.same("first", headers[0], 8);
        report.holds("no other", headers[1..].iter().all(|&bytes| bytes == 0));
        report.same("bytes left over", datagram.count(), 0);
    }
}

/// "every fragment but the last carries a multiple of 8 bytes"
pub fn fragments_before_the_last_are_multiples_of_8(report: &mut Report) {
    for (_, _, fragments) in spread() {
        let before = &fragments[..fragments.len() - 1];
        report.holds("multiples of 8", before.iter().all(|&bytes| bytes > 0 && bytes % 8 == 0));
    }
}

/// "a full one has C": with eight bytes more it would be longer than a frame has room for.
pub fn full_fragment_is_the_longest_multiple_of_8(report: &mut Report) {
    for (lmax, _, fragments) in spread() {
        let room = (1..=lmax - 39).rev().find(|bytes| bytes % 8 == 0);
        let before = &fragments[..fragments.len() - 1];
        report.holds("as long as can be", before.iter().all(|&bytes| Some(bytes) == room));
    }
}

/// The last may be longer than a full one, where S is no multiple of 8, and never longer than S.
pub fn last_fragment_has_at_most_s(report: &mut Report) {
    let mut longer = 0;
    for (lmax, _, fragments) in spread() {
        let last = fragments[fragments.len() - 1];
        report.holds("1 to S", (1..=lmax - 39).contains(&last));
        longer += u64::from(fragments.len() > 1 && last > fragments[0]);
    }
    report.holds("some are longer than a full one", longer > 10_000);
    report.note(format!(", {longer} longer than a full one"));
}

/// RFC 791's own way, without a count: what fits is the last; of all else a full one is cut off.
pub fn fragments_are_what_is_cut_off_until_it_fits(report: &mut Report) {
    for (lmax, message, fragments) in spread() {
        let (s, c) = (lmax - 39, (lmax - 39) / 8 * 8);
        let mut left = message + 8;
        let mut cut = Vec::new();
        while left > s {
            cut.push(c);
            left -= c;
        }
        cut.push(left);
        report.same("fragments", fragments, cut);
    }
}

/// No frame is shorter than the least, none longer than the 20 + Lmax that a VL is charged; and the
/// longest message of p packets has a last one that takes all of it.
pub fn lines_are_84_to_20_and_lmax(report: &mut Report) {
    for (lmax, message, fragments) in spread() {
        let lines: Vec<u64> = fragments.iter().map(|&bytes| frame::fragment_line(bytes)).collect();
        let charged = frame::full_line(lmax);
        report.holds("84 to 20 + Lmax", lines.iter().all(|line| (84..=charged).contains(line)));
        let packets = fragments.len() as u64;
        if message == messages::longest(packets, lmax) {
            report.same("at the edge", lines[lines.len() - 1], charged);
        }
    }
}

/// 01's payload rule stays "for a packet by itself": a payload of x bytes is a fragment of x + 8.
pub fn packet_alone_takes_the_line_of_its_fragment(report: &mut Report) {
    for payload in 1..=1_471 {
        let line = frame::fragment_line(payload + 8);
        report.same("line", frame::line_size(payload), Some(line));
    }
}

/// "takes 59 + f on the line, at least 84"
pub fn lines_of_fragments_by_hand(report: &mut Report) {
    for (bytes, line) in [(1, 84), (8, 84), (24, 84), (25, 84), (26, 85), (32, 91), (1_479, 1_538)]
    {
        report.same(&format!("fragment of {bytes}"), frame::fragment_line(bytes), line);
    }
}

/// What the made cases rest on: where a packet is full, and which messages have just so many.
pub fn longest_message_is_a_byte_short_of_a_packet_more(report: &mut Report) {
    for lmax in LMAX {
        let rng = &mut Rng::part(23, lmax);
        for packets in 1..=9 {
            let longest = messages::longest(packets, lmax);
            report.same("full", frame::packets(longest, lmax), packets);
            report.same("a byte more", frame::packets(longest + 1, lmax), packets + 1);
            let any = messages::any(rng, packets, lmax);
            report.same("any of so many", frame::packets(any, lmax), packets);
        }
    }
}

/// `held packets`: each Lmax from 64 to 1,518 in order, each M from 1 to 8,192 in order, two bytes
/// for each, the most significant first.
pub fn written_counts_stand_in_their_places(report: &mut Report) {
    let mut bytes = Vec::new();
    report.holds("written", counts::write(&mut bytes).is_ok());
    report.same("bytes", bytes.len(), 23_838_720);
    let at = |lmax: usize, message: usize| {
        let place = 2 * ((lmax - 64) * 8_192 + message - 1);
        bytes.get(place..place + 2)
    };
    for (lmax, message, packets) in [
        (64, 1, [0, 1]),
        (64, 18, [0, 2]),
        (64, 100, [0, 5]),
        (64, 8_192, [1, 86]),
        (65, 1, [0, 1]),
        (1_518, 1_471, [0, 1]),
        (1_518, 1_472, [0, 2]),
        (1_518, 8_192, [0, 6]),
    ] {
        let what = format!("M {message} at Lmax {lmax}");
        report.same(&what, at(lmax, message), Some(&packets[..]));
    }
}
