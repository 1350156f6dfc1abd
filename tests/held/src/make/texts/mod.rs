// Texts for `pack` and tables for `unpack`, from a seed: the edges in order, good texts in another
// dress, spoilt texts; tables of any references, each field at its limits, and the mixture's.
pub mod dress;
pub mod edges;
pub mod sheet;
pub mod spoil;
pub mod whole;

use crate::make::edges::Case;
use crate::make::random::Rng;
use crate::make::texts::edges::Edge;
use crate::make::{damage, mixture};
use crate::paper::table;

/// Four texts of five are the edges in order, and then any; 400 texts hold every edge.
pub fn text(seed: u64, number: u64, edges: &[Edge]) -> Vec<u8> {
    let rng = &mut Rng::part(seed, number);
    let (round, place) = (number / 5, number % 5);
    if place < 4 {
        if let Some(edge) = edges.get((4 * round + place) as usize) {
            return (edge.make)(rng);
        }
    }
    match (round + place) % 4 {
        0 => {
            let sheet = sheet::any(rng);
            dress::dressed(rng, &sheet)
        }
        1 => {
            let sheet = sheet::any(rng);
            let text = dress::either(rng, &sheet);
            spoil::bytes(rng, text)
        }
        2 if place < 4 => (edges[rng.index(edges.len())].make)(rng),
        _ => {
            let mut sheet = sheet::any(rng);
            for _ in 0..rng.pick(&[1, 1, 1, 2, 3]) {
                spoil::words(rng, &mut sheet);
            }
            dress::either(rng, &sheet)
        }
    }
}

/// Any bytes for `unpack`, out of the mixture's cases those made for 0 to 5 in order.
pub fn table(seed: u64, number: u64, cases: &[Case]) -> Vec<u8> {
    let rng = &mut Rng::part(seed ^ 0x7AB1_E000, number);
    match number % 4 {
        0 => {
            let lists = sheet::any_references(rng);
            table::written(&lists).expect("numbers in their ranges")
        }
        1 => {
            // Every eleventh, so that a few tables have some of each number.
            let seen: Vec<&Case> = cases.iter().filter(|case| case.number <= 5).collect();
            mixture::bent(rng, seen[(11 * (number / 4)) as usize % seen.len()]).bytes()
        }
        2 => mixture::table(rng, cases),
        _ => {
            let lists = sheet::any_references(rng);
            let bytes = table::written(&lists).expect("numbers in their ranges");
            if rng.chance(15) { damage::noise(rng) } else { damage::damage(rng, &bytes) }
        }
    }
}
