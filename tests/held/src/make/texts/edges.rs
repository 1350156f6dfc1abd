// Texts made one by one for a sentence of `pack`: each field at its limits and beyond them, missing
// and no number; words, lines and pairs. Each is plain or in another dress.
use crate::make::random::Rng;
use crate::make::texts::sheet::{self, Words};
use crate::make::texts::{dress, spoil, whole};
use crate::paper::table::MOST;
use crate::paper::text::{LINES, Range, VERSION};

type Make = dyn Fn(&mut Rng) -> Vec<u8>;

/// A text to be made, and the sentence it is made for, behind `pack: ` and the line: up to the word
/// where this is not known, nothing for a good text, and none where it can be any.
pub struct Edge {
    pub wanted: Option<String>,
    pub make: Box<Make>,
}

pub fn edge(wanted: &str, make: impl Fn(&mut Rng) -> Vec<u8> + 'static) -> Edge {
    Edge { wanted: Some(wanted.to_string()), make: Box::new(make) }
}

/// A change of the last line of this kind in a small good text.
fn of_line(wanted: &str, kind: usize, change: impl Fn(&mut Rng, &mut Words) + 'static) -> Edge {
    edge(wanted, move |rng| {
        let (mut sheet, place) = sheet::with_line(rng, kind);
        change(rng, &mut sheet[place]);
        dress::as_it_stands(rng, &sheet)
    })
}

/// All edges, in order.
pub fn edges() -> Vec<Edge> {
    let mut list = Vec::new();
    for (kind, line) in LINES.iter().enumerate() {
        for (field, (name, range)) in line.fields.iter().enumerate() {
            let missing = format!("{name} is missing");
            list.push(of_line(&missing, kind, move |_, words| words.truncate(field + 1)));
            if !matches!(range, Range::Kind | Range::Parent) {
                numbers(&mut list, kind, field);
            }
        }
        words_and_pairs(&mut list, kind);
        counts(&mut list, kind);
    }
    first_words(&mut list);
    kinds_and_parents(&mut list);
    whole::texts(&mut list);
    list
}

/// No number; the ends of the range, one beyond each; numbers far too large; words of more than 40
/// bytes, whether their number is good or not.
fn numbers(list: &mut Vec<Edge>, kind: usize, field: usize) {
    let (name, range) = LINES[kind].fields[field];
    list.push(of_line(&format!("{name} is not a number: \""), kind, move |rng, words| {
        words[field + 1] = spoil::no_number(rng);
    }));
    let (least, greatest) = sheet::ends(range);
    let mut numbers = vec![least, greatest, greatest + 1];
    numbers.extend(least.checked_sub(1));
    if let Range::OneOf(good) = range {
        numbers.extend(good.iter().filter(|&&number| number != least && number != greatest));
        numbers.push(3);
    }
    numbers.dedup();
    let beyond = format!("{name} {}, not \"", range.words());
    for number in numbers {
        let wanted = if range.has(number) { "" } else { &beyond };
        list.push(of_line(wanted, kind, move |_, words| {
            words[field + 1] = number.to_string().into_bytes();
        }));
    }
    list.push(of_line(&beyond, kind, move |rng, words| {
        words[field + 1] = spoil::huge(rng, greatest);
    }));
    for (number, wanted) in [(least, ""), (greatest + 1, &beyond)] {
        list.push(of_line(wanted, kind, move |rng, words| {
            let zeros = vec![b'0'; rng.pick(&[1, 19, 37, 38, 39, 40, 41, 90])];
            words[field + 1] = [&zeros, number.to_string().as_bytes()].concat();
        }));
    }
}

/// Words too many; pairs that are equal, and with the first one above.
fn words_and_pairs(list: &mut Vec<Edge>, kind: usize) {
    let line = &LINES[kind];
    let more = format!("more words than a line of {} has: \"", line.word);
    list.push(of_line(&more, kind, |rng, words| {
        for _ in 0..rng.between(1, 2) {
            words.push(spoil::any_word(rng));
        }
    }));
    for &(least, greatest) in line.pairs {
        let above = format!("{} is above {}", line.fields[least].0, line.fields[greatest].0);
        for (by, wanted) in [(0, ""), (1, &above)] {
            list.push(of_line(wanted, kind, move |rng, words| {
                let (low, high) = sheet::ends(LINES[kind].fields[least].1);
                let number = rng.between(low, high - 1);
                words[least + 1] = (number + by).to_string().into_bytes();
                words[greatest + 1] = number.to_string().into_bytes();
            }));
        }
    }
}

/// As many lines as there may be; one more; one more that is short of a word, or has one too many.
fn counts(list: &mut Vec<Edge>, kind: usize) {
    let line = &LINES[kind];
    let (word, most) = if kind == VERSION { ("version", 1) } else { (line.word, MOST[kind]) };
    let too_many = match most {
        1 => format!("a second line of {word}"),
        _ => format!("more than {most} {word} lines"),
    };
    let missing = format!("{} is missing", line.fields[line.fields.len() - 1].0);
    let more = format!("more words than a line of {word} has: \"1\"");
    for (step, wanted) in ["", &too_many, &missing, &more].into_iter().enumerate() {
        list.push(edge(wanted, move |rng| {
            let (mut sheet, place) = sheet::with_line(rng, kind);
            let words = sheet[place].clone();
            while sheet.iter().filter(|other| other[0] == words[0]).count() < most {
                sheet.insert(place, words.clone());
            }
            match step {
                0 => {}
                1 => sheet.push(words),
                2 => sheet.push(words[..words.len() - 1].to_vec()),
                _ => sheet.push([&words[..], &[b"1".to_vec()]].concat()),
            }
            dress::as_it_stands(rng, &sheet)
        }));
    }
}

fn first_words(list: &mut Vec<Edge>) {
    let begins = "a line begins with delays, system, vl, stream, port, hop or version, not ";
    let others = ["delay", "System", "VL", "streams", "por", "hops", "1", "\u{feff}delays"];
    let odd = ["vl:", "\"vl\"", "none", "de\0lays", "\x7f", "vl,"];
    for (k, other) in others.into_iter().chain(odd).enumerate() {
        let wanted = format!("{begins}\"{}\"", other.replace(['\0', '\x7f'], "?"));
        let kind = k % LINES.len();
        list.push(of_line(&wanted, kind, move |_, words| words[0] = other.as_bytes().to_vec()));
    }
}

fn kinds_and_parents(list: &mut Vec<Edge>) {
    let others = ["Queuing", "queueing", "sample", "0", "1", "samplingg", "none"];
    for (k, word) in ["queuing", "sampling"].into_iter().chain(others).enumerate() {
        let wanted = format!("kind is queuing or sampling, not \"{word}\"");
        let wanted = if k < 2 { "" } else { &wanted };
        list.push(of_line(wanted, 3, move |_, words| words[3] = word.as_bytes().to_vec()));
    }
    let no_parent = "parent is none, or after and a row of the hops, not ";
    let no_row = "parent is none, or after and a row below 4095, not ";
    let more = "more words than a line of hop has: ";
    for (parent, wanted, word) in [
        ("none", "", ""),
        ("after 0", "", ""),
        ("after 4093", "", ""),
        ("after 4094", "", ""),
        ("after 00000000000000000000000000000000000000000004094", "", ""),
        ("after 4095", no_row, "4095"),
        ("after 4096", no_row, "4096"),
        ("after 18446744073709551614", no_row, "18446744073709551614"),
        ("after 18446744073709551615", no_row, "18446744073709551615"),
        ("after 18446744073709551616", no_row, "18446744073709551616"),
        ("after 73786976294838206464", no_row, "73786976294838206464"),
        ("after 4294967296", no_row, "4294967296"),
        ("after", no_parent, "after"),
        ("after x", no_parent, "after"),
        ("after none", no_parent, "after"),
        ("after -1 2", no_parent, "after"),
        ("after after 1", no_parent, "after"),
        ("0", no_parent, "0"),
        ("1 2", no_parent, "1"),
        ("None", no_parent, "None"),
        ("After 1", no_parent, "After"),
        ("after1", no_parent, "after1"),
        ("none 1", more, "1"),
        ("none none", more, "none"),
        ("after 1 after 2", more, "after"),
    ] {
        let wanted = if word.is_empty() { wanted.into() } else { format!("{wanted}\"{word}\"") };
        list.push(of_line(&wanted, 5, move |_, words| {
            words.truncate(3);
            words.extend(parent.split(' ').map(|word| word.as_bytes().to_vec()));
        }));
    }
}
