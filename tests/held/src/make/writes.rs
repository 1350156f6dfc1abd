// Lists for the writer: every number of every record at its limits, past them and wider than its
// field, lists that are no whole number of records, counts past their limits.
use crate::make::mixture;
use crate::make::random::Rng;
use crate::make::sizes;
use crate::paper::table::{Lists, MOST, NUMBERS};

/// One bend of good lists: section, place in the record, value.
pub type Bend = (usize, usize, u64);

const TOP: u64 = u64::MAX;
const WIDE: u64 = 1 << 32;

/// The values to try, by section and place; good and bad ones together.
const VALUES: &[(usize, usize, &[u64])] = &[
    (0, 0, &[0, 1, 2, 255, 256, 257, WIDE + 1, TOP]),
    (0, 1, &[0, 1_875, 1_876, 4_096, TOP]),
    (0, 2, &[0, 1_875, 1_876, 4_095, 4_096, 4_096 + 1_875, WIDE + 1_875, TOP]),
    (0, 3, &[0, 1_875, 1_876, 4_096, TOP]),
    (0, 4, &[0, 1_875, 1_876, 4_095, 4_096, 4_096 + 1_875, WIDE + 1_875, TOP]),
    (1, 0, &[100, 10, 0, 1, 9, 11, 99, 101, 1_000, 256 + 10, WIDE + 100, TOP]),
    (2, 0, &[0, 63, 64, 255, 256, WIDE, TOP]),
    (2, 1, &[0, 1, 2, 3, 4, 6, 8, 16, 32, 64, 128, 129, 192, 256, 12_500, WIDE, WIDE + 1, TOP]),
    (2, 2, &[0, 1, 2, 3, 4, 5, 8, WIDE + 1, TOP]),
    (2, 3, &[0, 63, 64, 1_518, 1_519, 2_047, 2_048, 2_048 + 64, WIDE + 64, TOP]),
    (3, 0, &[0, 255, 256, 4_095, 4_096, WIDE, TOP]),
    (3, 1, &[0, 3, 4, 5, WIDE, TOP]),
    (3, 2, &[0, 1, 2, 3, WIDE, TOP]),
    (3, 3, &[0, 8_191, 8_192, 8_193, 16_384, 16_384 + 8_000, WIDE + 8_000, TOP]),
    (3, 4, &[0, 1, 16_384, 16_385, WIDE + 1, TOP]),
    (3, 5, &[0, 12_499, 12_500, 125_000_000, 125_000_001, (1 << 27) + 12_500, WIDE + 12_500, TOP]),
    (3, 6, &[0, 125_000_000, 125_000_001, (1 << 27) - 1, 1 << 27, WIDE, TOP]),
    (4, 0, &[100, 10, 0, 1, 2, 99, 1_000, WIDE + 10, TOP]),
    (4, 1, &[0, 1_251, 4_096, WIDE, TOP]),
    (4, 2, &[1_250, 1_251, 4_095, 4_096, 4_096 + 1_250, WIDE + 1_250, TOP]),
    (5, 0, &[0, 256, 4_095, 4_096, WIDE, TOP]),
    (5, 1, &[0, 128, 255, 256, WIDE, TOP]),
    (5, 2, &[0, 1_024, 1_025, 4_095, 4_096, WIDE, TOP]),
];

pub fn bends() -> Vec<Bend> {
    let mut list = Vec::new();
    for &(section, place, values) in VALUES {
        for &value in values {
            list.push((section, place, value));
        }
    }
    list
}

/// Sets the number in a row that is not the first, where there is a choice.
pub fn bend(rng: &mut Rng, lists: &mut Lists, (section, place, value): Bend) {
    let count = lists[section].len() / NUMBERS[section];
    if count == 0 {
        return;
    }
    let row = if count == 1 { 0 } else { 1 + rng.index(count - 1) };
    lists[section][NUMBERS[section] * row + place] = value;
}

/// Lists of a small good network with records in every section.
pub fn small(rng: &mut Rng) -> Lists {
    let mut raw = crate::make::raw::Raw::empty();
    let greatest = rng.between(0, 1_875);
    raw.delays((rng.between(0, greatest), greatest), (rng.between(0, 900), 900));
    for _ in 0..rng.between(2, 4) {
        raw.attach_whole(rng);
    }
    raw.lists()
}

/// A list that is no whole number of records, too long, too short or empty.
pub fn misshape(rng: &mut Rng, lists: &mut Lists) {
    let section = rng.index(6);
    match rng.below(4) {
        0 => {
            lists[section].pop();
        }
        1 => lists[section].push(1),
        2 if section == 0 => {
            let length = rng.pick(&[0, 1, 4, 6, 8]);
            lists[0].resize(length, 0);
        }
        2 => {
            // One record past the limit, all records good.
            let record = lists[section][..NUMBERS[section]].to_vec();
            while lists[section].len() / NUMBERS[section] <= MOST[section] {
                lists[section].extend(&record);
            }
        }
        _ => {
            // A bad number as well: 2 goes before 4.
            lists[section].push(TOP);
            let place = lists[4].len() - 1;
            lists[4][place] = TOP;
        }
    }
}

/// Lists of the greatest size, or at one greatest count.
pub fn large(rng: &mut Rng, number: u64) -> Lists {
    sizes::table(rng, number).1.lists()
}

/// Lists of a network of any shape.
pub fn shaped(rng: &mut Rng) -> Lists {
    mixture::shaped(rng).lists()
}
