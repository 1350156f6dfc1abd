// The writer of texts: what `unpack` prints for a table.
// examples/README.md: "the version, the delays and then the sections in their order, a line each,
// with one space between words."
use super::{LINES, Range, VERSION};
use crate::paper::table::{self, Lists, NUMBERS};

/// What is printed, and whether the table is one: otherwise it is the line of the refusal.
pub fn unpacked(bytes: &[u8]) -> (bool, String) {
    match table::read(bytes) {
        Ok(lists) => (true, text(&lists)),
        Err(a) => (false, format!("refused {} {} {}\n", a.number, a.section, a.row)),
    }
}

/// The text of lists that are whole records; their numbers may be out of range.
pub fn text(lists: &Lists) -> String {
    let mut text = line(VERSION, &lists[0][..1]);
    text += &line(0, &lists[0][1..]);
    for section in 1..6 {
        for record in lists[section].chunks(NUMBERS[section]) {
            text += &line(section, record);
        }
    }
    text
}

fn line(kind: usize, numbers: &[u64]) -> String {
    let mut line = LINES[kind].word.to_string();
    for ((_, range), &number) in LINES[kind].fields.iter().zip(numbers) {
        line += " ";
        line += &match (range, number) {
            (Range::Kind, 0) => "queuing".to_string(),
            (Range::Kind, _) => "sampling".to_string(),
            (Range::Parent, 0) => "none".to_string(),
            (Range::Parent, _) => format!("after {}", number - 1),
            _ => number.to_string(),
        };
    }
    line + "\n"
}
