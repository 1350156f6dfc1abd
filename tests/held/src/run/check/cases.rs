// Every made case against the answer it was made for, each in a row that is not the first.
// 01: "Answers by number".
use super::Report;
use crate::make::edges::Case;
use crate::make::random::Rng;
use crate::make::{damage, heavy, mixture, sizes};
use crate::paper::rows;
use crate::paper::table::{ACCEPTED, Answer};

/// With room for far more than 1,024 rows, so that 8 is for their count alone.
fn answer_to(bytes: &[u8]) -> Answer {
    rows::rows(bytes, 2 * mixture::FULL_ROOM).map_or_else(|refusal| refusal, |_| ACCEPTED)
}

/// 1: "fewer than 14 bytes"
pub fn too_few_bytes_are_1(report: &mut Report) {
    let bytes = mixture::base(&mut Rng::part(17, 0)).bytes();
    for length in 0..14 {
        report.same("short", answer_to(&bytes[..length]).number, 1);
    }
    report.same("14 bytes", answer_to(&bytes[..14]).number, 3);
}

fn made_for(report: &mut Report, number: u64) {
    for (place, case) in mixture::cases().iter().enumerate() {
        if case.number == number {
            for turn in 0..3 {
                let rng = &mut Rng::part(4 + turn, place as u64);
                let answer = answer_to(&mixture::bent(rng, case).bytes());
                report.same(&case.name, answer.number, number);
                let in_row = [4, 5, 6, 7, 9, 10].contains(&number);
                report.same(&format!("{}: a later row", case.name), answer.row > 0, in_row);
                report.same(&format!("{}: section", case.name), section(&answer), true);
            }
        }
    }
}

/// The column "section, row": is the answer in a section that it can have?
fn section(answer: &Answer) -> bool {
    match answer.number {
        4 => (1..=5).contains(&answer.section),
        5 => [2, 3, 5].contains(&answer.section),
        6 => answer.section == 3,
        7 => answer.section == 1,
        9 => answer.section == 2,
        10 => answer.section == 4,
        _ => answer.section == 0,
    }
}

pub fn made_for_2(report: &mut Report) {
    made_for(report, 2);
}

pub fn made_for_3(report: &mut Report) {
    made_for(report, 3);
}

pub fn made_for_4(report: &mut Report) {
    made_for(report, 4);
}

pub fn made_for_5(report: &mut Report) {
    made_for(report, 5);
}

pub fn made_for_6(report: &mut Report) {
    made_for(report, 6);
}

pub fn made_for_7(report: &mut Report) {
    made_for(report, 7);
}

pub fn made_for_8(report: &mut Report) {
    made_for(report, 8);
}

pub fn made_for_9(report: &mut Report) {
    made_for(report, 9);
}

pub fn made_for_10(report: &mut Report) {
    made_for(report, 10);
}

/// The nearest good neighbours.
pub fn made_to_be_accepted(report: &mut Report) {
    made_for(report, 0);
}

/// "At most 64 end systems, 256 VLs, 512 streams, 128 ports, 1,024 hops, 1,024 result rows"
pub fn greatest_counts(report: &mut Report) {
    for number in 0..sizes::SIZES {
        let (wanted, raw) = sizes::table(&mut Rng::part(8, number), number);
        let bytes = raw.bytes();
        report.same(&format!("size {number}"), answer_to(&bytes).number, wanted);
        if [11, 12, 13].contains(&number) {
            report.same("bytes of the greatest table", bytes.len(), 12_110);
        }
    }
}

/// Faults that a second case can undo, by the first words of their names: it sets the header anew,
/// or brings the record that is named and not there.
const UNDONE: [&str; 6] =
    ["count", "header delay", "VL names", "the VL's only hop", "stream names no VL", "hop names"];

fn lasts(case: &Case) -> bool {
    !UNDONE.iter().any(|words| case.name.starts_with(words))
}

/// "They are tested in this order": a table with two faults never gives the higher number.
pub fn two_cases_at_once(report: &mut Report) {
    let cases = mixture::cases();
    let faults: Vec<&Case> = cases.iter().filter(|case| case.number > 0 && lasts(case)).collect();
    for number in 0..4_000 {
        let rng = &mut Rng::part(10, number);
        let (first, second) = (faults[number as usize % faults.len()], rng.pick(&faults));
        let answer = answer_to(&mixture::bent_twice(rng, first, second).bytes());
        let what = format!("{} and {}: {answer:?}", first.name, second.name);
        report.holds(&what, answer.number <= first.number.min(second.number));
    }
}

pub fn heavy_tables_pass_1_to_8(report: &mut Report) {
    let mut seen = Vec::new();
    for number in 0..3 * heavy::HEAVY {
        let raw = heavy::table(&mut Rng::part(9, number), number % heavy::HEAVY);
        let answer = answer_to(&raw.bytes()).number;
        report.holds("0, 9 or 10", [0, 9, 10].contains(&answer));
        seen.push(answer.to_string());
    }
    report.note(format!(", answers {}", seen.join(" ")));
}

/// Order, demand 1: "on a refusal every result place lent to it holds zero"
pub fn damaged_tables_end(report: &mut Report) {
    for number in 0..2_000 {
        let rng = &mut Rng::part(18, number);
        let bytes = mixture::shaped(rng).bytes();
        let bytes = damage::damage(rng, &bytes);
        let mut lent = vec![7; rng.index(200)];
        let (answer, count) = rows::analyse(&bytes, &mut lent);
        report.holds("0 to 10", answer.number <= 10);
        report.holds("rows on acceptance only", count == 0 || answer == ACCEPTED);
        report.holds("zero after the rows", lent[6 * count..].iter().all(|&number| number == 0));
    }
}
