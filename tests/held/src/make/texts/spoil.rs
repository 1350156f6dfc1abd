// Spoilt texts: words changed, dropped, doubled and added, lines doubled and dropped, bytes of
// every value thrown in, cuts, bytes that were never a text.
use crate::make::random::Rng;
use crate::make::texts::sheet::{self, Sheet};
use crate::make::{damage, mixture};
use crate::paper::text::LINES;

/// One change of the lines or words; the sheet may have no line.
pub fn words(rng: &mut Rng, sheet: &mut Sheet) {
    if sheet.is_empty() {
        return;
    }
    let place = rng.index(sheet.len());
    let line = &mut sheet[place];
    match rng.below(12) {
        0 => {
            let line = line.clone();
            let place = rng.index(sheet.len() + 1);
            sheet.insert(place, line);
        }
        1 => {
            sheet.remove(place);
        }
        2 => {
            // The delays or the version, whose lines are few, once more or not at all.
            let word = rng.pick(&[LINES[0].word, "version"]).as_bytes();
            let few = sheet.iter().position(|line| line.first().is_some_and(|first| first == word));
            match few {
                Some(few) if rng.chance(50) => drop(sheet.remove(few)),
                Some(few) => sheet.push(sheet[few].clone()),
                None => {}
            }
        }
        3..=8 if line.len() > 1 => {
            // A number at the limit of some field or beyond it; at times no number.
            let word = 1 + rng.index(line.len() - 1);
            line[word] = if rng.chance(70) { number(rng) } else { any_word(rng) };
        }
        9 => {
            let word = rng.index(line.len() + 1);
            line.insert(word, any_word(rng));
        }
        10 if !line.is_empty() => {
            let word = rng.index(line.len());
            if rng.chance(50) {
                line.remove(word);
            } else {
                line.insert(word, line[word].clone());
            }
        }
        _ if !line.is_empty() => {
            let word = rng.index(line.len());
            line[word] = other_letter(rng, &line[word]);
        }
        _ => {}
    }
}

/// The word with a letter changed, lost or added.
fn other_letter(rng: &mut Rng, word: &[u8]) -> Vec<u8> {
    let mut word = word.to_vec();
    let place = rng.index(word.len() + 1);
    let byte = rng.pick(b"0159aelxyzALVM-+.,\"'");
    match rng.below(4) {
        0 => word.insert(place, byte),
        1 if place < word.len() => drop(word.remove(place)),
        2 if place < word.len() => word[place] ^= 0x20,
        _ if place < word.len() => word[place] = byte,
        _ => word.push(byte),
    }
    // An empty word would be none.
    if word.is_empty() { vec![byte] } else { word }
}

/// A number at the limit of some field, one beyond, or far too large.
pub fn number(rng: &mut Rng) -> Vec<u8> {
    let line = &LINES[rng.index(LINES.len())];
    let (least, greatest) = sheet::ends(line.fields[rng.index(line.fields.len())].1);
    let limit = rng.pick(&[least, greatest]);
    match rng.below(8) {
        0 => limit.to_string().into_bytes(),
        1..=4 => (limit + 1).to_string().into_bytes(),
        5 => limit.saturating_sub(1).to_string().into_bytes(),
        6 => rng.pick(&[3, 5, 50, 99, 1_000]).to_string().into_bytes(),
        _ => huge(rng, limit),
    }
}

/// A number beyond the good one and mostly far too large: at the end of 64 bits, long, or with the
/// good one in its last bits.
pub fn huge(rng: &mut Rng, good: u64) -> Vec<u8> {
    let bits = rng.pick(&[8, 12, 14, 27, 32, 32, 64, 64, 64, 100]);
    match rng.below(6) {
        0 => b"18446744073709551615".to_vec(),
        1 => b"18446744073709551616".to_vec(),
        2 => vec![b'9'; rng.pick(&[20, 21, 39, 40, 41, 300])],
        3 => [&b"1"[..], &vec![b'0'; rng.pick(&[19, 20, 30, 45])], good.to_string().as_bytes()]
            .concat(),
        _ => ((1u128 << bits) + u128::from(good)).to_string().into_bytes(),
    }
}

/// A word from anywhere.
pub fn any_word(rng: &mut Rng) -> Vec<u8> {
    match rng.below(6) {
        0 => LINES[rng.index(LINES.len())].word.as_bytes().to_vec(),
        1 => rng.pick(&["none", "after", "queuing", "sampling", "version"]).as_bytes().to_vec(),
        2 => number(rng),
        3 => no_number(rng),
        4 => long_word(rng),
        _ => {
            let word =
                rng.pick(&["x", "Lmax", "\"", "a\"b", "%s", "\\n", "//", "NONE", "4,5", "é"]);
            word.as_bytes().to_vec()
        }
    }
}

/// A word that is nearly a number.
pub fn no_number(rng: &mut Rng) -> Vec<u8> {
    let word: &[u8] = rng.pick(&[
        b"-1",
        b"+5",
        b"1.5",
        b"0x10",
        b"1e3",
        b"12a",
        b"a12",
        b"1_000",
        b"1,000",
        b"-0",
        b"1-",
        b"1\x00",
        b"\x0b1",
        b"1\x0c",
        b"\xb2",
        b"\xef\xbc\x95",
        b"1\xa0",
        b"/",
        b":",
        b"1/",
        b"1:",
        b"none",
        b"\x7f",
        b"\xff",
        b"00000000000000000000000000000000000000001x",
    ]);
    word.to_vec()
}

/// A word of about 40 bytes or many more, with bytes of every value that does not end a word.
fn long_word(rng: &mut Rng) -> Vec<u8> {
    let length = rng.pick(&[38, 39, 40, 41, 42, 80, 2_000]);
    let byte = |rng: &mut Rng| match rng.below(4) {
        0 => rng.pick(b"\x00\x01\x1f\x7f\x80\xff!~\"?"),
        1 => rng.below(256) as u8,
        _ => rng.pick(b"abcxyz019"),
    };
    let bytes =
        (0..length).map(|_| byte(rng)).map(|b| if b" \t\r\n#".contains(&b) { b'_' } else { b });
    bytes.collect()
}

/// One change of the bytes of a text.
pub fn bytes(rng: &mut Rng, text: Vec<u8>) -> Vec<u8> {
    let mut text = text;
    let place = rng.index(text.len() + 1);
    match rng.below(12) {
        0 => text.truncate(place),
        1 => drop(text.drain(..place)),
        2 => {
            let raw = mixture::base(rng);
            let bytes = raw.bytes();
            text = if rng.chance(50) { bytes } else { damage::damage(rng, &bytes) };
        }
        3 => text = (0..rng.below(60)).map(|_| rng.below(256) as u8).collect(),
        4 => text.insert(place, b'\r'),
        5 => text.insert(place, b'#'),
        6 => text.insert(place, rng.pick(b" \t\n\n\x0b\x0c\0")),
        7 if place < text.len() => drop(text.remove(place)),
        8 if place < text.len() => text[place] = rng.below(256) as u8,
        9 if place < text.len() => text[place] ^= 1 << rng.below(8),
        10 => {
            // A space, a newline or a tab lost: two words or lines become one.
            let gaps: Vec<usize> =
                (0..text.len()).filter(|&k| b" \t\n".contains(&text[k])).collect();
            if !gaps.is_empty() {
                text.remove(gaps[rng.index(gaps.len())]);
            }
        }
        _ => {
            for _ in 0..rng.between(1, 6) {
                let place = rng.index(text.len() + 1);
                text.insert(place, rng.below(256) as u8);
            }
        }
    }
    text
}
