// The item stream: its binary form, read and written, and the text answers to it.
// Items T (analyse), U (unpack) and W (write); all numbers of the stream are big-endian.
use crate::paper::rows;
use crate::paper::table::{self, Answer, Lists};
use std::fmt::Write;

pub enum Item {
    /// Analyse the bytes with a lent result of so many numbers.
    Analyse { room: usize, bytes: Vec<u8> },
    /// Unpack the bytes into six lent lists of so many numbers.
    Unpack { rooms: [usize; 6], bytes: Vec<u8> },
    /// Write the lists into so many lent bytes.
    Write { lists: Lists, room: usize },
}

/// What the lent places hold before a call.
const BEFORE: u8 = 7;

/// Greatest values of the stream.
pub const MOST_NUMBERS: usize = 6_150;
pub const MOST_BYTES: usize = 16_384;
pub const MOST_ROOMS: [usize; 6] = [8, 66, 1_030, 3_600, 390, 3_080];

fn put(out: &mut Vec<u8>, value: usize) {
    out.extend(u32::try_from(value).expect("a length of 32 bits").to_be_bytes());
}

/// The item as bytes of the stream.
pub fn encode(item: &Item, out: &mut Vec<u8>) {
    match item {
        Item::Analyse { room, bytes } => {
            assert!(*room <= MOST_NUMBERS && bytes.len() <= MOST_BYTES);
            out.push(b'T');
            put(out, *room);
            put(out, bytes.len());
            out.extend(bytes);
        }
        Item::Unpack { rooms, bytes } => {
            assert!((0..6).all(|k| rooms[k] <= MOST_ROOMS[k]) && bytes.len() <= MOST_BYTES);
            out.push(b'U');
            rooms.iter().for_each(|&room| put(out, room));
            put(out, bytes.len());
            out.extend(bytes);
        }
        Item::Write { lists, room } => {
            assert!((0..6).all(|k| lists[k].len() <= MOST_ROOMS[k]) && *room <= MOST_BYTES);
            out.push(b'W');
            lists.iter().for_each(|list| put(out, list.len()));
            put(out, *room);
            for number in lists.iter().flatten() {
                out.extend(number.to_be_bytes());
            }
        }
    }
}

/// The bytes of the stream that are still to be read.
struct Source<'a> {
    rest: &'a [u8],
}

impl<'a> Source<'a> {
    fn take(&mut self, count: usize) -> Result<&'a [u8], String> {
        if self.rest.len() < count {
            return Err("the stream ends inside an item".to_string());
        }
        let (taken, rest) = self.rest.split_at(count);
        self.rest = rest;
        Ok(taken)
    }

    fn length(&mut self, most: usize) -> Result<usize, String> {
        let four = self.take(4)?;
        let value = u32::from_be_bytes(four.try_into().unwrap()) as usize;
        if value > most {
            return Err(format!("a length of {} where {} is the most", value, most));
        }
        Ok(value)
    }

    fn lengths(&mut self) -> Result<[usize; 6], String> {
        let mut six = [0; 6];
        for k in 0..6 {
            six[k] = self.length(MOST_ROOMS[k])?;
        }
        Ok(six)
    }

    fn item(&mut self) -> Result<Item, String> {
        match self.take(1)?[0] {
            b'T' => {
                let room = self.length(MOST_NUMBERS)?;
                let length = self.length(MOST_BYTES)?;
                Ok(Item::Analyse { room, bytes: self.take(length)?.to_vec() })
            }
            b'U' => {
                let rooms = self.lengths()?;
                let length = self.length(MOST_BYTES)?;
                Ok(Item::Unpack { rooms, bytes: self.take(length)?.to_vec() })
            }
            b'W' => {
                let lengths = self.lengths()?;
                let room = self.length(MOST_BYTES)?;
                let mut lists: Lists = Default::default();
                for k in 0..6 {
                    for eight in self.take(8 * lengths[k])?.chunks(8) {
                        lists[k].push(u64::from_be_bytes(eight.try_into().unwrap()));
                    }
                }
                Ok(Item::Write { lists, room })
            }
            other => Err(format!("no item kind {}", other)),
        }
    }
}

/// All items of a stream.
pub fn decode(stream: &[u8]) -> Result<Vec<Item>, String> {
    let mut source = Source { rest: stream };
    let mut items = Vec::new();
    while !source.rest.is_empty() {
        items.push(source.item()?);
    }
    Ok(items)
}

fn line(numbers: &[u64]) -> String {
    numbers.iter().map(u64::to_string).collect::<Vec<_>>().join(" ")
}

fn head(kind: char, a: &Answer) -> String {
    format!("{} {} {} {}", kind, a.number, a.section, a.row)
}

/// The text of one item's answer, every line ended, and the answer itself.
pub fn answered(item: &Item) -> (Answer, String) {
    let mut text = String::new();
    let before = u64::from(BEFORE);
    match item {
        Item::Analyse { room, bytes } => {
            let mut lent = vec![before; *room];
            let (answer, count) = rows::analyse(bytes, &mut lent);
            writeln!(text, "{}", head('T', &answer)).unwrap();
            for row in lent[..6 * count].chunks(6) {
                writeln!(text, "{}", line(row)).unwrap();
            }
            let rest = lent[6 * count..].iter().filter(|&&n| n != 0).count();
            writeln!(text, "rest {}", rest).unwrap();
            (answer, text)
        }
        Item::Unpack { rooms, bytes } => {
            let mut lent: Lists = Default::default();
            for k in 0..6 {
                lent[k] = vec![before; rooms[k]];
            }
            let (answer, written) = table::unpack(bytes, &mut lent);
            writeln!(text, "{}", head('U', &answer)).unwrap();
            let mut rest = 0;
            for k in 0..6 {
                if answer.number == 0 {
                    writeln!(text, "{}", line(&lent[k][..written[k]])).unwrap();
                }
                rest += lent[k][written[k]..].iter().filter(|&&n| n != 0).count();
            }
            writeln!(text, "rest {}", rest).unwrap();
            (answer, text)
        }
        Item::Write { lists, room } => {
            let mut lent = vec![BEFORE; *room];
            let (answer, length) = table::write(lists, &mut lent);
            writeln!(text, "{} {}", head('W', &answer), length).unwrap();
            if answer.number == 0 {
                for byte in &lent[..length] {
                    write!(text, "{:02x}", byte).unwrap();
                }
                writeln!(text).unwrap();
            }
            let rest = lent[length..].iter().filter(|&&b| b != 0).count();
            writeln!(text, "rest {}", rest).unwrap();
            (answer, text)
        }
    }
}
