// A text in another dress: the same table with its lines in another order, with comments, blanks,
// tabs, CR LF, leading zeros, no newline at the end, the version anywhere or left out.
use crate::make::random::Rng;
use crate::make::texts::sheet::{Sheet, Words};

/// As `unpack` prints it.
pub fn plain(sheet: &Sheet) -> Vec<u8> {
    sheet.iter().map(|line| [&line.join(&b' ')[..], b"\n"].concat()).collect::<Vec<_>>().concat()
}

/// Plain or dressed.
pub fn either(rng: &mut Rng, sheet: &Sheet) -> Vec<u8> {
    if rng.chance(40) { plain(sheet) } else { dressed(rng, sheet) }
}

/// Plain or dressed, with every word as it stands.
pub fn as_it_stands(rng: &mut Rng, sheet: &Sheet) -> Vec<u8> {
    if rng.chance(40) { plain(sheet) } else { with_zeros(rng, sheet, 0) }
}

pub fn dressed(rng: &mut Rng, sheet: &Sheet) -> Vec<u8> {
    let mut sheet = sheet.clone();
    // "1 where there is no such line"
    if rng.chance(40) {
        sheet.retain(|line| *line != [b"version".to_vec(), b"1".to_vec()]);
    }
    let zeros = rng.pick(&[0, 0, 10, 50]);
    with_zeros(rng, &sheet, zeros)
}

/// How much of each a dress has, in hundredths.
struct Dress {
    wide: u64,
    zeros: u64,
    comments: u64,
    blanks: u64,
    returns: u64,
}

fn with_zeros(rng: &mut Rng, sheet: &Sheet, zeros: u64) -> Vec<u8> {
    let dress = Dress {
        wide: rng.pick(&[0, 10, 60]),
        zeros,
        comments: rng.pick(&[0, 10, 40]),
        blanks: rng.pick(&[0, 10, 30]),
        returns: rng.pick(&[0, 0, 50, 100]),
    };
    let sheet = if rng.chance(60) { mixed(rng, sheet) } else { sheet.clone() };
    let mut text = Vec::new();
    for line in &sheet {
        while rng.chance(dress.blanks) {
            blank(rng, &dress, &mut text);
        }
        words(rng, &dress, line, &mut text);
        end(rng, &dress, &mut text);
    }
    while rng.chance(dress.blanks) {
        blank(rng, &dress, &mut text);
    }
    if rng.chance(25) {
        text.pop();
    }
    text
}

/// The lines in another order; those with one first word keep theirs.
fn mixed(rng: &mut Rng, sheet: &Sheet) -> Sheet {
    let mut order: Vec<Option<&Vec<u8>>> = sheet.iter().map(|line| line.first()).collect();
    if rng.chance(50) {
        rng.shuffle(&mut order);
    } else {
        // Each kind of line in one piece, the kinds in any order.
        let mut kinds = order.clone();
        kinds.dedup();
        rng.shuffle(&mut kinds);
        order.sort_by_key(|kind| kinds.iter().position(|other| other == kind));
    }
    let mut taken = vec![false; sheet.len()];
    let mut mixed = Sheet::new();
    for first in order {
        let next = (0..sheet.len()).find(|&k| !taken[k] && sheet[k].first() == first);
        let next = next.expect("as many lines as before");
        taken[next] = true;
        mixed.push(sheet[next].clone());
    }
    mixed
}

/// A line without a record.
fn blank(rng: &mut Rng, dress: &Dress, text: &mut Vec<u8>) {
    gap(rng, 0, text);
    if rng.chance(50) {
        comment(rng, text);
    }
    end(rng, dress, text);
}

/// The words of a line, with gaps before, between and behind them, and a comment.
fn words(rng: &mut Rng, dress: &Dress, line: &Words, text: &mut Vec<u8>) {
    let wide = |rng: &mut Rng, least: u64, text: &mut Vec<u8>| {
        if rng.chance(dress.wide) {
            gap(rng, least, text);
        } else if least > 0 {
            text.push(b' ');
        }
    };
    wide(rng, 0, text);
    for (k, word) in line.iter().enumerate() {
        if k > 0 {
            wide(rng, 1, text);
        }
        if rng.chance(dress.zeros) && word.iter().all(u8::is_ascii_digit) {
            let zeros = rng.pick(&[1, 1, 2, 5, 20, 39, 40, 60]);
            text.extend(vec![b'0'; zeros]);
        }
        text.extend(word);
    }
    wide(rng, 0, text);
    if rng.chance(dress.comments) {
        comment(rng, text);
    }
}

/// Spaces and tabs.
fn gap(rng: &mut Rng, least: u64, text: &mut Vec<u8>) {
    for _ in 0..rng.between(least, 4) {
        text.push(rng.pick(b"  \t"));
    }
}

/// A comment of any bytes, of words that would be a record, or of nothing.
fn comment(rng: &mut Rng, text: &mut Vec<u8>) {
    text.push(b'#');
    match rng.below(4) {
        0 => {}
        1 => text.extend(b" delays 1 2 3 4"),
        2 => text.extend(b"## vl, # and \"more\" of it"),
        _ => {
            for _ in 0..rng.below(30) {
                let byte = rng.below(256) as u8;
                text.push(if byte == b'\n' { b'#' } else { byte });
            }
        }
    }
}

fn end(rng: &mut Rng, dress: &Dress, text: &mut Vec<u8>) {
    if rng.chance(dress.returns) {
        text.push(b'\r');
    }
    text.push(b'\n');
}
