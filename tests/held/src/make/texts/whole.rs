// Texts made as a whole: without a line that has to be there, with several mistakes, of the
// greatest length, and a few bytes with CR, `#` and no newline at the end.
use crate::make::random::Rng;
use crate::make::texts::edges::{Edge, edge};
use crate::make::texts::sheet::{self, Sheet};
use crate::make::texts::{dress, spoil};
use crate::paper::text::read::MOST_BYTES;
use crate::paper::text::{LINES, Range};

const NO_DELAYS: &str = "there is no line of delays";

pub fn texts(list: &mut Vec<Edge>) {
    for (word, wanted) in [("delays", NO_DELAYS), ("version", "")] {
        list.push(edge(wanted, move |rng| {
            let (mut sheet, _) = sheet::with_line(rng, 0);
            sheet.retain(|words| words[0] != word.as_bytes());
            dress::as_it_stands(rng, &sheet)
        }));
    }
    list.push(edge(NO_DELAYS, |rng| {
        let (mut sheet, place) = sheet::with_line(rng, 1);
        sheet[place][1] = b"11".to_vec();
        sheet.retain(|words| words[0] != b"delays");
        dress::as_it_stands(rng, &sheet)
    }));
    for _ in 0..6 {
        list.push(Edge { wanted: None, make: Box::new(several) });
    }
    list.push(Edge { wanted: None, make: Box::new(word_before_a_good_line) });
    longest(list);
    short(list);
}

/// Numbers out of range in several lines: the order of the refusals decides, not that of the lines.
fn several(rng: &mut Rng) -> Vec<u8> {
    let (mut sheet, _) = sheet::with_line(rng, 0);
    for _ in 0..rng.between(2, 4) {
        put_out_of_range(rng, &mut sheet);
    }
    dress::dressed(rng, &sheet)
}

fn put_out_of_range(rng: &mut Rng, sheet: &mut Sheet) {
    let place = rng.index(sheet.len());
    let words = &mut sheet[place];
    let line = LINES.iter().find(|line| line.word.as_bytes() == words[0]).expect("a good line");
    let field = rng.index(line.fields.len());
    let (_, range) = line.fields[field];
    if !matches!(range, Range::Kind | Range::Parent) {
        words[field + 1] = (sheet::ends(range).1 + 1).to_string().into_bytes();
    }
}

fn word_before_a_good_line(rng: &mut Rng) -> Vec<u8> {
    let (mut sheet, place) = sheet::with_line(rng, 1);
    sheet.insert(place, vec![spoil::any_word(rng)]);
    dress::as_it_stands(rng, &sheet)
}

/// "A text has at most 262,144 bytes": at that length and beyond it, with a mistake as well.
fn longest(list: &mut Vec<Edge>) {
    let longer = "the text is longer than 262144 bytes";
    let begins = "a line begins with delays, system, vl, stream, port, hop or version, not \"x\"";
    for (more, first, wanted) in
        [(0, "", ""), (1, "", longer), (0, "x", begins), (1, "x", longer), (90_000, "", longer)]
    {
        list.push(edge(wanted, move |rng| {
            let (mut sheet, _) = sheet::with_line(rng, 0);
            sheet.insert(0, vec![format!("{first}#").into_bytes()]);
            let mut text = dress::as_it_stands(rng, &sheet);
            text.extend(b"\n#");
            text.resize(MOST_BYTES + more, b'-');
            text
        }));
    }
}

fn short(list: &mut Vec<Edge>) {
    let begins = "a line begins with delays, system, vl, stream, port, hop or version, not ";
    let more = "more words than a line of delays has: ";
    let texts: [(&[u8], &str, &str); 18] = [
        (b"", NO_DELAYS, ""),
        (b"\n", NO_DELAYS, ""),
        (b"\r\n", NO_DELAYS, ""),
        (b"#", NO_DELAYS, ""),
        (b"\r", NO_DELAYS, ""),
        (b"version 2\n", NO_DELAYS, ""),
        (b"\0", begins, "\"?\""),
        (b"delays", "send delay least is missing", ""),
        (b"delays 0 0 0 #0\n0\n", "receive delay greatest is missing", ""),
        (b"delays 0 0 0 0", "", ""),
        (b"delays 0 0 0 0\r", "", ""),
        (b"delays 0 0 0 0#x", "", ""),
        (b"\r\ndelays\t0\t0\t0\t0 \r\n\r\nversion 1", "", ""),
        (b"delays 0 0\r0 0\n", "", ""),
        (b"delays 0 0 0 0\rsystem 100\n", more, "\"system\""),
        (b"version 0\ndelays 9 8 7 6\n", "version is 1, not ", "\"0\""),
        (b"delays 9 8 7 6\nversion 256\n", "version is 1, not ", "\"256\""),
        (b"delays 9 8 7 6\nversion 1\n", "send delay least is above send delay greatest", ""),
    ];
    for (text, wanted, word) in texts {
        list.push(edge(&format!("{wanted}{word}"), move |_| text.to_vec()));
    }
}
