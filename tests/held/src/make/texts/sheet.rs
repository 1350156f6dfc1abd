// A text before it is dressed: lines of words. Those of tables of many shapes, and one line of each
// kind to be bent.
use crate::make::random::Rng;
use crate::make::{sizes, whole_case, writes};
use crate::paper::table::{Lists, MOST};
use crate::paper::text::{LINES, Range, print};

pub type Words = Vec<Vec<u8>>;
pub type Sheet = Vec<Words>;

/// The lines of a table's text.
pub fn of(lists: &Lists) -> Sheet {
    let words = |line: &str| line.split(' ').map(|word| word.as_bytes().to_vec()).collect();
    print::text(lists).lines().map(words).collect()
}

/// The lines of a good table of any shape; at times with counts of nought, at times a large one.
pub fn any(rng: &mut Rng) -> Sheet {
    let lists = match rng.below(40) {
        0 => whole_case::lists(),
        1 => sizes::bare(rng).lists(),
        2 => {
            let number = rng.pick(&[0, 1, 3, 5, 7, 9, 11]);
            sizes::table(rng, number).1.lists()
        }
        3..=12 => writes::shaped(rng),
        13..=22 => writes::small(rng),
        _ => any_references(rng),
    };
    of(&lists)
}

/// Lists whose numbers are in their ranges, often at their limits; references lead anywhere.
pub fn any_references(rng: &mut Rng) -> Lists {
    let mut lists: Lists = Default::default();
    lists[0] = record(rng, 0);
    lists[0].insert(0, 1);
    for section in 1..6 {
        let most = rng.pick(&[0, 1, 3, 3, 6, 6, 20]);
        for _ in 0..rng.between(0, most).min(MOST[section] as u64) {
            let record = record(rng, section);
            lists[section].extend(record);
        }
    }
    lists
}

/// Numbers in range for a line of this kind, in the lists' form.
fn record(rng: &mut Rng, kind: usize) -> Vec<u64> {
    let mut numbers: Vec<u64> = Vec::new();
    for (_, range) in LINES[kind].fields {
        let (least, greatest) = ends(*range);
        let any = rng.between(least, greatest);
        let small = rng.between(least, greatest.min(least + 5));
        let number = rng.pick(&[least, greatest, any, any, small]);
        numbers.push(if range.has(number) { number } else { least });
    }
    for &(least, greatest) in LINES[kind].pairs {
        if numbers[least] > numbers[greatest] {
            numbers.swap(least, greatest);
        }
    }
    numbers
}

/// The least and the greatest number of a range.
pub fn ends(range: Range) -> (u64, u64) {
    match range {
        Range::To(least, greatest) => (least, greatest),
        Range::OneOf(list) => (*list.iter().min().unwrap(), *list.iter().max().unwrap()),
        Range::AtMost(greatest) => (0, greatest),
        Range::Kind => (0, 1),
        Range::Parent => (0, 4_095),
    }
}

/// A small good text with records of every section, and the place of its last line of this kind,
/// whose pairs are as wide as can be. A row that is changed there is not the first.
pub fn with_line(rng: &mut Rng, kind: usize) -> (Sheet, usize) {
    let mut sheet = of(&writes::small(rng));
    let word = LINES[kind].word.as_bytes();
    let place = sheet.iter().rposition(|line| line[0] == word).expect("a line of each kind");
    for &(least, greatest) in LINES[kind].pairs {
        for field in [least, greatest] {
            let (low, high) = ends(LINES[kind].fields[field].1);
            let number = if field == least { low } else { high };
            sheet[place][field + 1] = number.to_string().into_bytes();
        }
    }
    (sheet, place)
}
