// 01's "Numbers to hold against", 1 to 10, as M-103 of 02 corrects them, and its whole case.
// Each comparison stands under the words it comes from.
use super::Report;
use crate::make::whole_case;
use crate::paper::frame;
use crate::paper::rows;
use crate::paper::station::{self, Flow, LIMIT};
use crate::paper::table::{self, Lists, answer};

const BAG: u64 = 12_500;

fn flow(period: u64, jitter: u64, cost: u64) -> Flow {
    Flow { period, jitter, cost }
}

/// Length and queue figure of flows on a VL with the gap of 1 ms.
fn queue(flows: &[Flow]) -> Option<(u64, u64)> {
    let length = station::busy_length(flows, LIMIT)?;
    Some((length, station::figure(flows, length) - BAG))
}

fn answer_number(lists: &Lists) -> (u64, u64, u64) {
    let bytes = table::written(lists).expect("records in range");
    let a = rows::rows(&bytes, 6_144).map_or_else(|a| a, |_| table::ACCEPTED);
    (a.number, a.section, a.row)
}

/// "payload 17: 84 bytes; 18: 85; 1,471: 1,538; 0 and 1,472 refused"
pub fn case_1_line_sizes(report: &mut Report) {
    for (payload, line) in
        [(17, Some(84)), (18, Some(85)), (1_471, Some(1_538)), (0, None), (1_472, None)]
    {
        report.same("payload", frame::line_size(payload), line);
    }
    report.same("a full frame's line", frame::line_size(1_518 - 47), Some(frame::full_line(1_518)));
}

/// "M 1,471 at Lmax 1,518: 1 packet; 1,472: 2"; 02, M-103: "Case 2's third line", M 100 at Lmax 64,
/// "becomes 5 packets; its first two stay".
pub fn case_2_packets(report: &mut Report) {
    for (m, lmax, packets) in [(1_471, 1_518, 1), (1_472, 1_518, 2), (100, 64, 5)] {
        report.same("packets", frame::packets(m, lmax), packets);
        report.same("fragments", frame::fragments(m, lmax).len() as u64, packets);
    }
}

/// "BAG 12,500, one stream p 3, T 50,000, J 0: L 37,500, queue 25,000"
pub fn case_3_length_and_queue(report: &mut Report) {
    report.same("3 packets", queue(&[flow(50_000, 0, 3 * BAG)]), Some((37_500, 25_000)));
}

/// "p 1, T 25,000, J 25,000: queue 12,500; J 24,999: 12,499"
pub fn case_4_both_end_ticks(report: &mut Report) {
    let four = |jitter| queue(&[flow(25_000, jitter, BAG)]).map(|pair| pair.1);
    report.same("J 25,000", four(25_000), Some(12_500));
    report.same("J 24,999", four(24_999), Some(12_499));
}

/// The stream of one packet, with this jitter, and the stream of two, as flows and as a table. Both
/// have as many bytes as their packets hold.
fn five(jitter: u64) -> ([Flow; 2], Lists) {
    let streams = [0, 0, 0, 17, 17, 25_000, jitter, 0, 0, 0, 41, 17, 50_000, 0];
    let six: [&[u64]; 6] =
        [&[1, 9, 9, 0, 0], &[100], &[0, 1, 1, 64], &streams, &[100, 0, 0], &[0, 0, 0]];
    ([flow(25_000, jitter, BAG), flow(50_000, 0, 2 * BAG)], whole_case::set_down(six))
}

/// "p 1, T 25,000 with p 2, T 50,000, both J 0: L 50,000, queue 25,000"
pub fn case_5_load_of_one(report: &mut Report) {
    let (flows, lists) = five(0);
    report.same("length and queue", queue(&flows), Some((50_000, 25_000)));
    report.same("as a table", answer_number(&lists), (0, 0, 0));
}

/// "the same with J 1 on the first: refused 9"
pub fn case_6_one_tick_of_jitter(report: &mut Report) {
    let (flows, lists) = five(1);
    report.same("no length", queue(&flows), None);
    report.same("as a table", answer_number(&lists), (9, 2, 0));
}

/// "two sub-links, p 1, T 50,000, J 0: queue 12,500"
pub fn case_7_one_turn_in_two(report: &mut Report) {
    report.same("queue", queue(&[flow(50_000, 0, 2 * BAG)]).map(|pair| pair.1), Some(12_500));
    let (_, mut lists) = five(0);
    lists[2][2] = 2;
    lists[3] = vec![0, 1, 0, 17, 17, 50_000, 0];
    let bytes = table::written(&lists).expect("records in range");
    report.same("as a table", rows::rows(&bytes, 6).map(|list| list[0][2]), Ok(12_500));
}

/// "port, one flow of cost 1,538, T 12,500, J 12,500: figure 3,076; J 12,499: 3,075"
pub fn case_8_port(report: &mut Report) {
    let eight = |jitter| station::offered(&[flow(12_500, jitter, 1_538)]).2;
    report.same("J 12,500", eight(12_500), 3_076);
    report.same("J 12,499", eight(12_499), 3_075);
}

/// "line sizes adding to 5,750 on a 100 Mbit/s end system pass 7; 5,751 refused"
pub fn case_9_end_system(report: &mut Report) {
    let nine = |last: u64| {
        let vls = [0, 128, 1, 1_518, 0, 128, 1, 1_518, 0, 128, 1, 1_518, 0, 128, 1, last];
        let hops = [0, 0, 0, 1, 0, 0, 2, 0, 0, 3, 0, 0];
        whole_case::set_down([&[1, 0, 0, 0, 0], &[100], &vls, &[], &[100, 0, 0], &hops])
    };
    report.same("5,750", answer_number(&nine(1_116)), (0, 0, 0));
    report.same("5,751", answer_number(&nine(1_117)), (7, 1, 0));
}

/// "13 bytes: 1. VL record of end system 0, BAG 2 ms, one sub-link, Lmax 516: bytes 00 22 04"
pub fn case_10_bytes(report: &mut Report) {
    report.same("13 bytes", table::read(&[1; 13]).err(), Some(answer(1, 0, 0)));
    let ten = whole_case::set_down([&[1, 0, 0, 0, 0], &[], &[0, 2, 1, 516], &[], &[], &[]]);
    let bytes = table::written(&ten).expect("records in range");
    report.same("VL record", &bytes[14..], &[0, 0x22, 4]);
}

fn whole_case() -> Vec<u8> {
    table::written(&whole_case::lists()).expect("01's own table")
}

/// "The header is 01 01 00 20 02 01 00 21 F4 3E 81 F4 1F 40, the table 59 bytes."
pub fn whole_case_bytes(report: &mut Report) {
    let bytes = whole_case();
    report.same("bytes", bytes.len(), 59);
    let header = [1, 1, 0, 0x20, 2, 1, 0, 0x21, 0xF4, 0x3E, 0x81, 0xF4, 0x1F, 0x40];
    report.same("header", &bytes[..14], &header[..]);
}

/// "writes, fields as in Result rows", and "On a refusal it writes one line".
pub fn whole_case_rows(report: &mut Report) {
    let bytes = whole_case();
    let printed = "stream hop queue worst best jitter\n\
                   0 0 12500 19398 2043 17355\n\
                   1 1 0 6898 2043 5855\n";
    report.same("printed", rows::printed(&bytes), printed.to_string());
    report.same("13 bytes printed", rows::printed(&bytes[..13]), "refused 1 0 0\n".to_string());
}

/// "(least packets − 1) × BAG": with a least M of 2,000 stream 0 has two packets at least.
pub fn best_counts_every_least_packet(report: &mut Report) {
    let mut lists = whole_case::lists();
    lists[3][4] = 2_000;
    let bytes = table::written(&lists).expect("records in range");
    let row = [0, 0, 12_500, 19_398, 2_043 + 12_500, 17_355 - 12_500];
    report.same("row", rows::rows(&bytes, 12).map(|list| list[0]), Ok(row));
}

/// "the lent result is shorter than 6 numbers a row", and what the lent result holds afterwards.
pub fn whole_case_lent_result(report: &mut Report) {
    let bytes = whole_case();
    let mut lent = vec![7; 11];
    report.same("11 numbers", rows::analyse(&bytes, &mut lent), (answer(8, 0, 0), 0));
    report.same("all zero", lent, vec![0; 11]);
    let mut lent = vec![7; 14];
    report.same("14 numbers", rows::analyse(&bytes, &mut lent), (table::ACCEPTED, 2));
    report.same("the rest zero", &lent[11..], &[5_855, 0, 0]);
}
