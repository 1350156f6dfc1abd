// The reader of texts: the bytes of the table, or the sentence of `pack`.
// examples/README.md, "Writing a table" and "What `pack` says".
use super::{LINES, Line, Range, VERSION};
use crate::paper::table::{self, Answer, Lists, MOST};

/// "A text has at most 262,144 bytes."
pub const MOST_BYTES: usize = 262_144;

/// A good line: its number from 1, the word of each field and its number in the lists. The word of
/// a parent behind `after` is the row's.
struct Record<'a> {
    line: usize,
    words: Vec<&'a [u8]>,
    numbers: Vec<u64>,
}

/// The good lines by kind, as in `LINES`.
type Records<'a> = [Vec<Record<'a>>; 7];

/// The table of a text, or what `pack` writes on standard error, its line ended.
pub fn packed(text: &[u8]) -> Result<Vec<u8>, Vec<u8>> {
    table_of(text).map_err(|mistake| [b"pack: ", &mistake[..], b"\n"].concat())
}

fn table_of(text: &[u8]) -> Result<Vec<u8>, Vec<u8>> {
    if text.len() > MOST_BYTES {
        return Err(format!("the text is longer than {MOST_BYTES} bytes").into_bytes());
    }
    // "goes through the lines, which count from 1, and names the first that is wrong"
    let mut records = Records::default();
    for (k, line) in text.split(|&byte| byte == b'\n').enumerate() {
        add(&mut records, k + 1, line).map_err(|mistake| of_line(k + 1, &mistake))?;
    }
    // "where all lines are good"
    if records[0].is_empty() {
        return Err(b"there is no line of delays".to_vec());
    }
    // "where none is, a number or a pair that no table can hold ... in the order of the table's
    // own refusals"
    table::written(&lists(&records)).map_err(|refusal| named(&records, refusal))
}

fn of_line(number: usize, mistake: &[u8]) -> Vec<u8> {
    [format!("line {number}: ").as_bytes(), mistake].concat()
}

/// "W is the word as the text has it: its first 40 bytes, with `?` for a byte below 32 or of 127."
fn with_word(what: &str, word: &[u8]) -> Vec<u8> {
    let shown =
        word.iter().take(40).map(|&byte| if byte < 32 || byte == 127 { b'?' } else { byte });
    let shown: Vec<u8> = shown.collect();
    [what.as_bytes(), b"\"", &shown, b"\""].concat()
}

/// "`#` begins a comment." "Words stand between spaces and tabs; a line may end in CR LF."
/// A CR that stands elsewhere, of which the page does not speak, is a blank as well.
fn words(line: &[u8]) -> Vec<&[u8]> {
    let end = line.iter().position(|&byte| byte == b'#').unwrap_or(line.len());
    let pieces = line[..end].split(|byte| b" \t\r".contains(byte));
    pieces.filter(|piece| !piece.is_empty()).collect()
}

/// "A number is digits alone." Of any length: one that 64 bits do not hold becomes their greatest,
/// which is out of every range.
fn number(word: &[u8]) -> Option<u64> {
    if !word.iter().all(u8::is_ascii_digit) {
        return None;
    }
    let digits = word.iter().map(|&digit| u64::from(digit - b'0'));
    Some(digits.fold(0, |value, digit| value.saturating_mul(10).saturating_add(digit)))
}

/// Adds the record of a line, where it has one.
fn add<'a>(records: &mut Records<'a>, number: usize, line: &'a [u8]) -> Result<(), Vec<u8>> {
    let words = words(line);
    let Some((first, rest)) = words.split_first() else {
        return Ok(());
    };
    let Some(kind) = LINES.iter().position(|line| line.word.as_bytes() == *first) else {
        let begins = "a line begins with delays, system, vl, stream, port, hop or version, not ";
        return Err(with_word(begins, first));
    };
    let record = record(&LINES[kind], number, rest)?;
    if kind == 0 || kind == VERSION {
        if !records[kind].is_empty() {
            return Err(format!("a second line of {}", LINES[kind].word).into_bytes());
        }
    } else if records[kind].len() == MOST[kind] {
        return Err(format!("more than {} {} lines", MOST[kind], LINES[kind].word).into_bytes());
    }
    records[kind].push(record);
    Ok(())
}

/// The record of the words behind the first.
fn record<'a>(kind: &Line, line: usize, words: &[&'a [u8]]) -> Result<Record<'a>, Vec<u8>> {
    let mut record = Record { line, words: Vec::new(), numbers: Vec::new() };
    let mut rest = words.iter().copied();
    for (name, range) in kind.fields {
        let mut word = rest.next().ok_or_else(|| format!("{name} is missing").into_bytes())?;
        let value = match (range, word) {
            (Range::Kind, b"queuing") => 0,
            (Range::Kind, b"sampling") => 1,
            (Range::Kind, _) => {
                return Err(with_word("kind is queuing or sampling, not ", word));
            }
            (Range::Parent, b"none") => 0,
            (Range::Parent, _) => {
                let row = rest.next().filter(|_| word == b"after");
                let Some((row, value)) = row.and_then(|row| Some((row, number(row)?))) else {
                    let parent = "parent is none, or after and a row of the hops, not ";
                    return Err(with_word(parent, word));
                };
                word = row;
                value.saturating_add(1)
            }
            _ => {
                number(word).ok_or_else(|| with_word(&format!("{name} is not a number: "), word))?
            }
        };
        record.words.push(word);
        record.numbers.push(value);
    }
    match rest.next() {
        Some(word) => {
            Err(with_word(&format!("more words than a line of {} has: ", kind.word), word))
        }
        None => Ok(record),
    }
}

/// "the version of the table; 1 where there is no such line"
fn lists(records: &Records) -> Lists {
    let mut lists: Lists = Default::default();
    lists[0].push(records[VERSION].first().map_or(1, |record| record.numbers[0]));
    for (list, records) in lists.iter_mut().zip(records) {
        list.extend(records.iter().flat_map(|record| &record.numbers));
    }
    lists
}

/// The writer's refusal in words, "by the line of its record": for a 2 that of the version or the
/// delays, for a 4 that of the refused row.
fn named(records: &Records, refusal: Answer) -> Vec<u8> {
    let section = refusal.section as usize;
    let kinds = if refusal.number == 2 { vec![VERSION, 0] } else { vec![section] };
    let mut refused = kinds.into_iter().filter_map(|kind| {
        let record = records[kind].get(refusal.row as usize)?;
        Some(of_line(record.line, &out_of_range(&LINES[kind], record)?))
    });
    refused.next().expect("a refused record has a field out of range or a pair out of order")
}

/// The first field out of range, then the first pair that is not in order.
fn out_of_range(kind: &Line, record: &Record) -> Option<Vec<u8>> {
    for (k, (name, range)) in kind.fields.iter().enumerate() {
        if !range.has(record.numbers[k]) {
            let what = format!("{name} {}, not ", range.words());
            return Some(with_word(&what, record.words[k]));
        }
    }
    let above = |pair: &&(usize, usize)| record.numbers[pair.0] > record.numbers[pair.1];
    let (least, greatest) = kind.pairs.iter().find(above)?;
    let (least, greatest) = (kind.fields[*least].0, kind.fields[*greatest].0);
    Some(format!("{least} is above {greatest}").into_bytes())
}
