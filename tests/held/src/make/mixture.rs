// Tables of every kind from one source: shapes, limits, refusals, heavy ones, sizes, damage.
// Used for single tables, for table files and, piece by piece, for the item stream.
use crate::make::damage;
use crate::make::edges::{self, Case};
use crate::make::generate::{self, LOOSE, Wish};
use crate::make::heavy;
use crate::make::overloads;
use crate::make::random::Rng;
use crate::make::raw::Raw;
use crate::make::refusals;
use crate::make::sizes;
use crate::make::tight;
use crate::paper::rows;

/// Numbers lent to a result that is long enough for every table.
pub const FULL_ROOM: usize = 6 * rows::MOST_ROWS;

/// All changes of a good network, in order.
pub fn cases() -> Vec<Case> {
    let mut list = edges::cases();
    list.extend(refusals::cases());
    list.extend(overloads::cases());
    list
}

pub fn is_accepted(raw: &Raw) -> bool {
    rows::rows(&raw.bytes(), FULL_ROOM).is_ok()
}

/// A network after the wish that is accepted; the last try if none is.
pub fn accepted(rng: &mut Rng, wish: &Wish) -> Raw {
    let mut raw = generate::network(rng, wish);
    for _ in 0..50 {
        if is_accepted(&raw) {
            break;
        }
        raw = generate::network(rng, wish);
    }
    raw
}

/// An accepted network with at least one record in every section, for cases to bend.
pub fn base(rng: &mut Rng) -> Raw {
    let mut wish = LOOSE;
    if rng.chance(50) {
        (wish.systems, wish.ports, wish.vls, wish.streams) = (2, 4, 3, 3);
    }
    let mut raw = accepted(rng, &wish);
    for _ in 0..rng.between(1, 2) {
        raw.attach_whole(rng);
    }
    raw
}

/// A network of one of the shapes; about one in six need not be accepted.
pub fn shaped(rng: &mut Rng) -> Raw {
    let number = rng.below(generate::SHAPES);
    let wish = generate::shape(rng, number);
    if rng.chance(16) { generate::network(rng, &wish) } else { accepted(rng, &wish) }
}

/// A base with one case.
pub fn bent(rng: &mut Rng, case: &Case) -> Raw {
    let mut raw = base(rng);
    (case.apply)(rng, &mut raw);
    raw
}

/// A base with two cases, which then compete: "the first bad row of the lowest section first".
pub fn bent_twice(rng: &mut Rng, first: &Case, second: &Case) -> Raw {
    let mut raw = base(rng);
    // A case of the header's counts goes last, as each appended record sets them again.
    let counts_first = first.name.starts_with("count");
    let order = if counts_first { [second, first] } else { [first, second] };
    for case in order {
        (case.apply)(rng, &mut raw);
    }
    raw
}

/// Any case made for this answer number.
pub fn case_of<'a>(rng: &mut Rng, cases: &'a [Case], number: u64) -> &'a Case {
    let list: Vec<&Case> = cases.iter().filter(|case| case.number == number).collect();
    list[rng.index(list.len())]
}

/// Any case; first the answer number is drawn, so that each comes up.
pub fn any_case<'a>(rng: &mut Rng, cases: &'a [Case]) -> &'a Case {
    let number = rng.pick(&[0, 0, 2, 3, 4, 4, 5, 5, 6, 7, 8, 9, 10]);
    case_of(rng, cases, number)
}

/// A network made for a run that reaches a port's figure.
pub fn reaching(rng: &mut Rng) -> Vec<u8> {
    match (0..20).find_map(|_| tight::build(rng)) {
        Some(tight) => tight.bytes,
        None => base(rng).bytes(),
    }
}

/// Any table at all.
pub fn table(rng: &mut Rng, cases: &[Case]) -> Vec<u8> {
    match rng.below(100) {
        0..=31 => shaped(rng).bytes(),
        32..=34 => reaching(rng),
        35..=54 => {
            let case = any_case(rng, cases);
            bent(rng, case).bytes()
        }
        55..=64 => {
            let (first, second) = (any_case(rng, cases), any_case(rng, cases));
            bent_twice(rng, first, second).bytes()
        }
        65..=84 => {
            let bytes = shaped(rng).bytes();
            damage::damage(rng, &bytes)
        }
        85..=87 => sizes::bare(rng).bytes(),
        88..=90 => damage::noise(rng),
        91..=96 => {
            let number = rng.below(heavy::HEAVY);
            heavy::table(rng, number).bytes()
        }
        _ => {
            let number = rng.below(sizes::SIZES);
            let bytes = sizes::table(rng, number).1.bytes();
            if rng.chance(30) { damage::damage(rng, &bytes) } else { bytes }
        }
    }
}
