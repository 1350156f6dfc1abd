// Damaged bytes: flips, cuts, extensions, exchanged and overwritten bytes, and plain noise.
// Order, demand 1: "The software takes every table offered, damaged ones as well, and ends."
use crate::make::random::Rng;

pub fn damage(rng: &mut Rng, bytes: &[u8]) -> Vec<u8> {
    let mut b = bytes.to_vec();
    match rng.below(9) {
        0 => flip(rng, &mut b, 1),
        1 => {
            let many = rng.between(2, 8);
            flip(rng, &mut b, many);
        }
        2 => b.truncate(rng.index(bytes.len() + 1)),
        3 => {
            let less = rng.between(1, 4) as usize;
            b.truncate(bytes.len().saturating_sub(less));
        }
        4 => {
            for _ in 0..rng.between(1, 20) {
                let byte = if rng.chance(50) { 0 } else { rng.below(256) as u8 };
                b.push(byte);
            }
        }
        5 => {
            if b.len() >= 2 {
                let (i, k) = (rng.index(b.len()), rng.index(b.len()));
                b.swap(i, k);
            }
        }
        6 => {
            if !b.is_empty() {
                let place = rng.index(b.len());
                b[place] = rng.pick(&[0, 1, 127, 128, 255]);
            }
        }
        7 => {
            // A byte lost or doubled in the middle.
            if !b.is_empty() {
                let place = rng.index(b.len());
                if rng.chance(50) {
                    b.remove(place);
                } else {
                    b.insert(place, b[place]);
                }
            }
        }
        _ => {
            // Flips in the header alone.
            let end = b.len().min(14);
            let mut head = b[..end].to_vec();
            flip(rng, &mut head, 1);
            b[..end].copy_from_slice(&head);
        }
    }
    b
}

fn flip(rng: &mut Rng, bytes: &mut [u8], times: u64) {
    for _ in 0..times {
        if !bytes.is_empty() {
            let place = rng.index(8 * bytes.len());
            bytes[place / 8] ^= 1 << (place % 8);
        }
    }
}

/// Bytes that were never a table; often with a good header byte.
pub fn noise(rng: &mut Rng) -> Vec<u8> {
    let length = rng.pick(&[0, 1, 2, 7, 12, 13, 13, 14, 15, 40, 100]);
    let mut bytes: Vec<u8> = (0..length).map(|_| rng.below(256) as u8).collect();
    if rng.chance(50) && length > 0 {
        bytes[0] = 1;
    }
    bytes
}
