// The item stream: its binary form read back, its answers, and what the gate's stream holds.
// The gate's stream is that of seed 1 with 1,500 items.
use super::Report;
use crate::make::{mixture, writes};
use crate::paper::table::{self, BYTES, Lists, NUMBERS};
use crate::run::batch;
use crate::run::items::{self, Item};

fn encoded(list: &[Item]) -> Vec<u8> {
    let mut stream = Vec::new();
    for item in list {
        items::encode(item, &mut stream);
    }
    stream
}

pub fn stream_reads_back(report: &mut Report) {
    let list = batch::items(5, 300);
    let again = items::decode(&encoded(&list)).expect("a stream that was just made");
    report.same("count of items", again.len(), list.len());
    for (one, two) in list.iter().zip(&again) {
        report.same("answer", items::answered(one).1, items::answered(two).1);
    }
    report.same("bytes", encoded(&again), encoded(&list));
}

/// "Each refusal leaves every lent result all zero; an acceptance leaves zero after what it wrote."
pub fn answers_leave_no_lent_place(report: &mut Report) {
    for item in batch::items(6, 300) {
        report.holds("rest 0", items::answered(&item).1.ends_with("rest 0\n"));
    }
}

pub fn cut_stream_is_seen(report: &mut Report) {
    for item in batch::items(7, 60) {
        let stream = encoded(&[item]);
        for end in [1, 2, 5, 9, stream.len() / 2, stream.len() - 1] {
            report.holds("cut", items::decode(&stream[..end.min(stream.len() - 1)]).is_err());
        }
        let mut twice = stream.clone();
        twice.extend(&stream);
        report.same("two items", items::decode(&twice).map(|list| list.len()), Ok(2));
        twice[stream.len()] = b'X';
        report.holds("no such letter", items::decode(&twice).is_err());
    }
}

fn gate_stream() -> Vec<Item> {
    batch::items(1, 1_500)
}

pub fn gate_stream_has_every_answer(report: &mut Report) {
    let mut seen = [[0; 12]; 3];
    for item in gate_stream() {
        let kind = match item {
            Item::Analyse { .. } => 0,
            Item::Unpack { .. } => 1,
            Item::Write { .. } => 2,
        };
        seen[kind][items::answered(&item).0.number as usize] += 1;
    }
    // The reader, the unpacker and the writer, each with the answers that 01 lets it give.
    let wanted: [&[usize]; 3] =
        [&[0, 1, 2, 3, 4, 5, 6, 7, 8, 9, 10], &[0, 1, 2, 3, 4, 11], &[0, 2, 4, 11]];
    for (counts, wanted) in seen.iter().zip(wanted) {
        for (number, &count) in counts.iter().enumerate() {
            report.same(&format!("answer {number}"), count > 0, wanted.contains(&number));
        }
    }
    report.note(format!(", by number T {:?}, U {:?}, W {:?}", seen[0], seen[1], seen[2]));
}

/// The first five of fifteen items are the cases in order, each with the number it is made for.
pub fn gate_stream_has_every_case(report: &mut Report) {
    let stream = gate_stream();
    for (k, case) in mixture::cases().iter().enumerate() {
        let item = stream.get(k / 5 * 15 + k % 5);
        let number = item.map(|item| items::answered(item).0.number);
        report.same(&case.name, number, Some(case.number));
    }
}

/// Tables at and past the greatest counts; the greatest with just room for its rows, and without.
pub fn gate_stream_has_every_size(report: &mut Report) {
    let mut seen = Vec::new();
    for item in gate_stream() {
        if let Item::Analyse { room, bytes } = &item {
            seen.push((*room, bytes.len(), items::answered(&item).0.number));
        }
    }
    let full = mixture::FULL_ROOM;
    report.holds("greatest, just room", seen.contains(&(full, 12_110, 0)));
    report.holds("greatest, one number short", seen.contains(&(full - 1, 12_110, 8)));
    report.holds("greatest, too many rows", seen.contains(&(items::MOST_NUMBERS, 12_110, 8)));
    for bytes in BYTES[1..].iter().map(|record| 12_110 + record) {
        report.holds("one record more", seen.contains(&(items::MOST_NUMBERS, bytes, 2)));
    }
    report.holds("a byte more", seen.contains(&(items::MOST_NUMBERS, 12_111, 3)));
}

/// 11 of the unpacker by each of the six lists, one number short while the others are long enough.
pub fn gate_stream_has_every_short_list(report: &mut Report) {
    let mut seen = [false; 6];
    for item in gate_stream() {
        if let Item::Unpack { rooms, bytes } = item {
            if let Ok(lists) = table::read(&bytes) {
                let short: Vec<usize> = (0..6).filter(|&k| rooms[k] < lists[k].len()).collect();
                if let [k] = short[..] {
                    seen[k] |= rooms[k] + 1 == lists[k].len();
                }
            }
        }
    }
    report.same("lists", seen, [true; 6]);
}

/// Each bend of the writer's lists stands in one of its items, wrong versions among them.
pub fn gate_stream_has_every_bend(report: &mut Report) {
    let mut written = Vec::new();
    for item in gate_stream() {
        if let Item::Write { lists, .. } = item {
            written.push(lists);
        }
    }
    for (section, place, value) in writes::bends() {
        let is_there = |lists: &Lists| {
            let mut records = lists[section].chunks(NUMBERS[section]);
            records.any(|record| record.get(place) == Some(&value))
        };
        let what = format!("section {section}, place {place}, {value}");
        report.holds(&what, written.iter().any(is_there));
    }
}

/// A version that is not 1 is refused by the writer, also one that is wider than its field.
pub fn gate_stream_has_wrong_versions(report: &mut Report) {
    let mut seen = Vec::new();
    for item in gate_stream() {
        let answer = items::answered(&item).0.number;
        if let Item::Write { lists, .. } = item {
            if lists[0].len() == 5 {
                seen.push((lists[0][0], answer));
            }
        }
    }
    for version in [0, 2, 255, 256, 257] {
        report.holds("refused", seen.contains(&(version, 2)));
    }
    report.holds("version 1 is taken", seen.contains(&(1, 0)));
}
