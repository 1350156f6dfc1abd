// Which items a stream holds: a fixed round of kinds, filled from the cases in order and at random.
// A stream of 1,500 items holds every case, every size and every bend of the writer's lists.
use crate::make::damage;
use crate::make::edges::Case;
use crate::make::heavy;
use crate::make::mixture;
use crate::make::random::Rng;
use crate::make::sizes;
use crate::make::whole_case;
use crate::make::writes;
use crate::paper::rows;
use crate::paper::table::{self, Lists};
use crate::run::items::{Item, MOST_BYTES, MOST_NUMBERS, MOST_ROOMS};

/// Fifteen items make a round.
const ROUND: u64 = 15;

pub fn items(seed: u64, count: u64) -> Vec<Item> {
    let cases = mixture::cases();
    let bends = writes::bends();
    (0..count).map(|k| item(seed, k, &cases, &bends)).collect()
}

fn item(seed: u64, number: u64, cases: &[Case], bends: &[writes::Bend]) -> Item {
    let rng = &mut Rng::part(seed, number);
    let (round, place) = (number / ROUND, number % ROUND);
    match place {
        0..=4 => ordered(rng, 5 * round + place, cases),
        5..=7 => {
            let bytes = mixture::shaped(rng).bytes();
            with_room(rng, bytes)
        }
        8 => {
            let bytes = mixture::shaped(rng).bytes();
            let bytes = damage::damage(rng, &bytes);
            analyse(bytes)
        }
        9 => special(rng, round),
        10 | 11 => unpack(rng, 2 * round + place - 10, cases),
        _ => write(rng, 3 * round + place - 12, bends),
    }
}

fn analyse(bytes: Vec<u8>) -> Item {
    Item::Analyse { room: MOST_NUMBERS, bytes }
}

/// The cases in order; after that those of 5 to 10 by number, and every third time two at once.
fn ordered(rng: &mut Rng, number: u64, cases: &[Case]) -> Item {
    if number < cases.len() as u64 {
        return analyse(mixture::bent(rng, &cases[number as usize]).bytes());
    }
    let wanted = [5, 6, 7, 10, 6, 7, 10, 5, 9, 10, 8][(number % 11) as usize];
    let case = mixture::case_of(rng, cases, wanted);
    if number % 3 > 0 {
        return analyse(mixture::bent(rng, case).bytes());
    }
    let other = mixture::any_case(rng, cases);
    analyse(mixture::bent_twice(rng, case, other).bytes())
}

/// A lent result that is just long enough, one number short, empty or of any length: 8 by "the
/// lent result is shorter than 6 numbers a row".
fn with_room(rng: &mut Rng, bytes: Vec<u8>) -> Item {
    let needed = rows::rows(&bytes, MOST_NUMBERS).map_or(0, |list| 6 * list.len());
    let room = match rng.below(10) {
        0 | 1 => needed,
        2 => needed.saturating_sub(1),
        3 => needed.saturating_sub(6),
        4 => 0,
        5 => rng.index(needed + 10),
        _ => MOST_NUMBERS,
    };
    Item::Analyse { room, bytes }
}

/// Sizes and heavy tables in turn, each once; between and after them small odd ones.
fn special(rng: &mut Rng, round: u64) -> Item {
    if round % 2 == 0 && round / 2 < sizes::SIZES + 3 * heavy::HEAVY {
        let number = round / 2;
        if number < sizes::SIZES {
            let bytes = sizes::table(rng, number).1.bytes();
            // Of the two accepted tables of greatest size one has just room, one falls short.
            let room = match number {
                11 => 6 * rows::MOST_ROWS,
                12 => 6 * rows::MOST_ROWS - 1,
                _ => MOST_NUMBERS,
            };
            return Item::Analyse { room, bytes };
        }
        let bytes = heavy::table(rng, (number - sizes::SIZES) % heavy::HEAVY).bytes();
        return analyse(bytes);
    }
    match round {
        1 | 3 => {
            // 01's whole case, with room and with one number too few.
            let bytes = table::written(&whole_case::lists()).expect("01's own table");
            let room = if round == 1 { 12 } else { 11 };
            return Item::Analyse { room, bytes };
        }
        5 | 7 => {
            // More bytes than any table has.
            let mut bytes = sizes::table(rng, 11).1.bytes();
            bytes.resize(if round == 5 { 12_111 } else { MOST_BYTES }, 0);
            return analyse(bytes);
        }
        _ => {}
    }
    match rng.below(6) {
        0 => {
            let bytes = sizes::bare(rng).bytes();
            with_room(rng, bytes)
        }
        4 | 5 => analyse(mixture::reaching(rng)),
        1 => analyse(damage::noise(rng)),
        2 => {
            let bytes = sizes::bare(rng).bytes();
            analyse(damage::damage(rng, &bytes))
        }
        _ => {
            // Every length below 14 in turn, with a good header's bytes.
            let mut bytes = mixture::base(rng).bytes();
            bytes.truncate((round / 2 % 14) as usize);
            analyse(bytes)
        }
    }
}

/// Bytes for the unpacker with rooms that fit, are the greatest, or fall short in one list.
fn unpack(rng: &mut Rng, number: u64, cases: &[Case]) -> Item {
    let of_reader: Vec<&Case> = cases.iter().filter(|case| case.number <= 5).collect();
    let bytes = match number % 5 {
        0 | 1 => {
            let place = (11 * number) as usize % of_reader.len();
            mixture::bent(rng, of_reader[place]).bytes()
        }
        2 if number % 4 == 0 => damage::noise(rng),
        2 => {
            let bytes = mixture::base(rng).bytes();
            damage::damage(rng, &bytes)
        }
        _ if number % 40 == 4 => sizes::table(rng, 2 * (number / 40) + 5).1.bytes(),
        _ => mixture::shaped(rng).bytes(),
    };
    let mut rooms = MOST_ROOMS;
    if let Ok(lists) = table::read(&bytes) {
        let exact = [0, 1, 2, 3, 4, 5].map(|k| lists[k].len());
        match rng.below(6) {
            0 | 1 => rooms = exact,
            2 | 3 => {
                rooms = exact;
                let short = rng.index(6);
                rooms[short] = exact[short].saturating_sub(1);
            }
            4 => {
                for k in 0..6 {
                    rooms[k] = rng.index(MOST_ROOMS[k] + 1);
                }
            }
            _ => {}
        }
    } else if rng.chance(50) {
        // A refusal of 1 to 4 goes before 11.
        rooms = [0, 1, 2, 3, 4, 5].map(|k| rng.index(MOST_ROOMS[k].min(30) + 1));
    }
    Item::Unpack { rooms, bytes }
}

/// Lists for the writer: the bends in order, misshapen lists, whole networks, short rooms.
fn write(rng: &mut Rng, number: u64, bends: &[writes::Bend]) -> Item {
    let mut lists;
    if number % 3 < 2 {
        lists = writes::small(rng);
        let place = (number / 3 * 2 + number % 3) as usize;
        // At times a second bend; it comes first, so that it never stands over the other.
        if place >= bends.len() || rng.chance(5) {
            let other = bends[rng.index(bends.len())];
            writes::bend(rng, &mut lists, other);
        }
        writes::bend(rng, &mut lists, bends[place % bends.len()]);
    } else if number % 60 == 2 {
        // The first lot just fits, the next falls short by a byte, and so on.
        let lot = number / 60;
        lists = writes::large(rng, [11, 3, 5, 13, 9][(lot % 5) as usize]);
        let needed = table::written(&lists).map_or(0, |bytes| bytes.len());
        return Item::Write { lists, room: needed - (lot % 2) as usize };
    } else if number % 6 == 2 {
        lists = writes::small(rng);
        writes::misshape(rng, &mut lists);
    } else {
        lists = writes::shaped(rng);
    }
    let room = room_for(rng, &lists);
    Item::Write { lists, room }
}

fn room_for(rng: &mut Rng, lists: &Lists) -> usize {
    let needed = match table::written(lists) {
        Ok(bytes) => bytes.len(),
        Err(_) => 14,
    };
    match rng.below(10) {
        0 | 1 => needed,
        2 => needed - 1,
        3 => rng.index(needed),
        4 => rng.index(MOST_BYTES + 1),
        _ => needed + rng.index(40),
    }
}
