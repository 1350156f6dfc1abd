// Texts and tables both ways: what is printed packs to the same bytes, in any dress; the edges give
// what they were made for, and the gate's texts and tables hold every sentence and refusal.
use super::Report;
use crate::make::random::Rng;
use crate::make::texts::edges::{self, Edge};
use crate::make::texts::{self, dress, sheet};
use crate::make::{mixture, sizes, whole_case, writes};
use crate::paper::table::{self, Lists, MOST};
use crate::paper::text::print::{text, unpacked};
use crate::paper::text::read::packed;
use crate::paper::text::{LINES, Range, VERSION};
use std::collections::BTreeSet;

/// Lists of good tables, the empty and the greatest ones among them.
fn good_lists() -> impl Iterator<Item = Lists> {
    (0..1_000).map(|number| {
        let rng = &mut Rng::part(17, number);
        match number {
            0..=9 => sizes::table(rng, 11 * (number % 2)).1.lists(),
            10..=300 => mixture::shaped(rng).lists(),
            _ => sheet::any_references(rng),
        }
    })
}

pub fn printed_text_packs_to_the_same_bytes(report: &mut Report) {
    for lists in good_lists() {
        let bytes = table::written(&lists).expect("a good table");
        let (taken, printed) = unpacked(&bytes);
        report.holds("printed", taken);
        report.same("bytes", packed(printed.as_bytes()), Ok(bytes));
    }
}

pub fn text_in_another_dress_packs_to_the_same_bytes(report: &mut Report) {
    for (number, lists) in good_lists().enumerate() {
        let rng = &mut Rng::part(18, number as u64);
        let bytes = table::written(&lists).expect("a good table");
        for _ in 0..3 {
            let dressed = dress::dressed(rng, &sheet::of(&lists));
            report.same("bytes", packed(&dressed), Ok(bytes.clone()));
        }
    }
}

/// "the version, the delays and then the sections in their order, a line each, with one space"
pub fn whole_case_is_printed_as_the_page_says(report: &mut Report) {
    let bytes = table::written(&whole_case::lists()).expect("01's own table");
    let wanted = "version 1\ndelays 500 1000 500 500\nsystem 100\nvl 0 1 1 1518\nvl 0 2 1 516\n\
                  stream 0 0 queuing 2000 1000 250000 0\nstream 1 0 sampling 469 10 500000 1000\n\
                  port 100 875 1250\nhop 0 0 none\nhop 1 0 none\n";
    report.same("printed", unpacked(&bytes), (true, wanted.to_string()));
    let mut lists = whole_case::lists();
    lists[1] = vec![10];
    lists[5] = vec![0, 3, 0, 4_095, 255, 3, 1, 0, 4_095];
    let bytes = table::written(&lists).expect("a table of any references");
    let printed = unpacked(&bytes).1;
    report.holds(
        "hops",
        printed.ends_with("hop 0 3 none\nhop 4095 255 after 2\nhop 1 0 after 4094\n"),
    );
    report.holds("speed", printed.contains("\nsystem 10\n"));
}

/// Each refusal in its words; none is printed as a text.
pub fn bad_tables_are_printed_as_their_refusal(report: &mut Report) {
    let mut seen = [0; 5];
    let cases = mixture::cases();
    for number in 0..800 {
        let bytes = texts::table(19, number, &cases);
        let (taken, printed) = unpacked(&bytes);
        let number = match table::read(&bytes) {
            Ok(lists) => {
                report.same("text", printed, text(&lists));
                0
            }
            Err(a) => {
                let wanted = format!("refused {} {} {}\n", a.number, a.section, a.row);
                report.same("refusal", printed, wanted);
                a.number as usize
            }
        };
        report.same("taken", taken, number == 0);
        seen[number] += 1;
    }
    report.holds("0 to 4 are seen", seen.iter().all(|&count| count > 15));
    report.note(format!(", by number {seen:?}"));
}

/// The sentence behind `pack: ` and the line, and the line where it has one.
fn behind_line(sentence: &[u8]) -> (Option<usize>, String) {
    let text = String::from_utf8_lossy(sentence);
    let text = text.strip_prefix("pack: ").and_then(|text| text.strip_suffix('\n'));
    let text = text.unwrap_or("no sentence of pack");
    match text.strip_prefix("line ").and_then(|text| text.split_once(": ")) {
        Some((line, rest)) => (line.parse().ok(), rest.to_string()),
        None => (None, text.to_string()),
    }
}

pub fn edges_give_what_they_are_made_for(report: &mut Report) {
    for (number, Edge { wanted, make }) in edges::edges().into_iter().enumerate() {
        for again in 0..5 {
            let rng = &mut Rng::part(20 + again, number as u64);
            let seen = packed(&make(rng)).err().map(|sentence| behind_line(&sentence).1);
            let Some(wanted) = &wanted else { continue };
            let seen = seen.unwrap_or_default();
            // Up to the word, where this is not known.
            let end = if wanted.ends_with(" \"") { wanted.len() } else { seen.len() };
            report.same(&format!("edge {number}"), seen.get(..end), Some(&**wanted));
        }
    }
}

/// All sentences that there are, by the first word of the line they name: the FIELDs put in, and
/// cut off before the word.
fn all_sentences() -> BTreeSet<(String, String)> {
    let mut all = BTreeSet::new();
    for (kind, line) in LINES.iter().enumerate() {
        let mut add = |sentence: String| all.insert((line.word.to_string(), sentence));
        for (name, range) in line.fields {
            add(format!("{name} is missing"));
            add(match range {
                Range::Kind => "kind is queuing or sampling, not ".to_string(),
                Range::Parent => "parent is none, or after and a row of the hops, not ".to_string(),
                _ => format!("{name} is not a number: "),
            });
            add(format!("{name} {}, not ", range.words()));
        }
        for &(least, greatest) in line.pairs {
            add(format!("{} is above {}", line.fields[least].0, line.fields[greatest].0));
        }
        add(format!("more words than a line of {} has: ", line.word));
        add(match kind {
            0 | VERSION => format!("a second line of {}", line.word),
            _ => format!("more than {} {} lines", MOST[kind], line.word),
        });
    }
    let begins = "a line begins with delays, system, vl, stream, port, hop or version, not ";
    for sentence in [begins, "there is no line of delays", "the text is longer than 262144 bytes"] {
        all.insert((String::new(), sentence.to_string()));
    }
    all
}

/// The gate's texts, those of seed 1, hold every sentence, of `speed` and `VL` in both their lines.
pub fn gate_texts_have_every_sentence(report: &mut Report) {
    let all = all_sentences();
    let edges = edges::edges();
    let mut seen = BTreeSet::new();
    let mut good = 0;
    for number in 0..400 {
        let text = texts::text(1, number, &edges);
        let Err(sentence) = packed(&text) else {
            good += 1;
            continue;
        };
        let (line, sentence) = behind_line(&sentence);
        let sentence = sentence.split('"').next().unwrap_or_default().to_string();
        let lines: Vec<&[u8]> = text.split(|&byte| byte == b'\n').collect();
        let named = line.map(|line| String::from_utf8_lossy(lines[line - 1]));
        let first_word = |line: &str| {
            let mut pieces = line.split([' ', '\t', '\r', '#']);
            pieces.find(|piece| !piece.is_empty()).map(str::to_string)
        };
        let first = named.and_then(|line| first_word(&line));
        let first = first.filter(|_| !sentence.starts_with("a line begins"));
        seen.insert((first.unwrap_or_default(), sentence));
    }
    for sentence in &all {
        report.holds(&format!("{sentence:?}"), seen.contains(sentence));
    }
    for sentence in &seen {
        report.holds(&format!("is there {sentence:?}"), all.contains(sentence));
    }
    report.holds("and good texts", good > 80);
    report.holds("400 texts have every edge", edges.len() <= 320);
    report.note(format!(", {} edges, {} sentences, {good} good texts", edges.len(), seen.len()));
}

/// Whatever is changed: a text is packed or has one sentence, and what is packed is a table.
pub fn spoilt_texts_end(report: &mut Report) {
    let edges = edges::edges();
    let mut counts = [0; 2];
    for number in 400..4_000 {
        match packed(&texts::text(21, number, &edges)) {
            Ok(bytes) => {
                report.holds("a table", table::read(&bytes).is_ok());
                counts[0] += 1;
            }
            Err(sentence) => {
                let lines = sentence.iter().filter(|&&byte| byte == b'\n').count();
                report.holds("one line", lines == 1 && sentence.ends_with(b"\n"));
                counts[1] += 1;
            }
        }
    }
    report.holds("both are seen", counts.iter().all(|&count| count > 500));
    report.note(format!(", {} packed, {} not", counts[0], counts[1]));
}

/// A bent number of the writer's lists is refused in the text as well, and by the line of its row.
pub fn bent_number_is_named_by_its_line(report: &mut Report) {
    for (number, bend) in writes::bends().into_iter().enumerate() {
        let rng = &mut Rng::part(22, number as u64);
        let good = writes::small(rng);
        let mut bent = good.clone();
        writes::bend(rng, &mut bent, bend);
        // A kind is a word in the text: no other number can be said.
        if bend.0 == 3 && bend.1 == 2 {
            continue;
        }
        let (one, two) = (text(&good), text(&bent));
        let changed = one.lines().zip(two.lines()).position(|(one, two)| one != two);
        let wanted = table::written(&bent).err().and(changed.map(|place| place + 1));
        let seen = packed(two.as_bytes()).err().and_then(|sentence| behind_line(&sentence).0);
        report.same(&format!("{bend:?}"), seen, wanted);
    }
}
