// The packed table: its layout, the reader with answers 1 to 4, the unpacker and the writer.
// Answers 5 and 6 stand in refs.rs, 7 to 10 in rows.rs.
use crate::paper::bits::{Bits, Cursor};
use crate::paper::frame;

/// 01: "An answer carries number, section and row."
#[derive(Clone, Copy, Debug, PartialEq, Eq)]
pub struct Answer {
    pub number: u64,
    pub section: u64,
    pub row: u64,
}

pub const ACCEPTED: Answer = Answer { number: 0, section: 0, row: 0 };

pub fn answer(number: u64, section: usize, row: usize) -> Answer {
    Answer { number, section: section as u64, row: row as u64 }
}

/// Six lists of numbers: header, end systems, VLs, streams, ports, hops. A list has the index of
/// its section; the header's list holds the version and the four delays, its counts are those of
/// the other lists.
pub type Lists = [Vec<u64>; 6];

/// Numbers of one record in the lists.
pub const NUMBERS: [usize; 6] = [5, 1, 4, 7, 3, 3];

/// Bytes of one record in the table.
pub const BYTES: [usize; 6] = [14, 1, 3, 13, 4, 4];

/// 01: "At most 64 end systems, 256 VLs, 512 streams, 128 ports, 1,024 hops".
pub const MOST: [usize; 6] = [1, 64, 256, 512, 128, 1_024];

/// The fields of each section in bits, as 01's table lists them.
pub const WIDTHS: [&[usize]; 6] = [
    &[8, 8, 12, 12, 8, 12, 12, 12, 12, 12, 4],
    &[1, 7],
    &[8, 3, 2, 11],
    &[12, 2, 1, 14, 14, 27, 27, 7],
    &[1, 12, 12, 7],
    &[12, 8, 12],
];

fn speed_of_bit(bit: u64) -> u64 {
    if bit == 1 { 10 } else { 100 }
}

fn bit_of_speed(speed: u64) -> u64 {
    if speed == 10 { 1 } else { 0 }
}

/// A record's fields as numbers of the lists, and its padding.
pub fn numbers_of(section: usize, f: &[u64]) -> (Vec<u64>, u64) {
    match section {
        1 => (vec![speed_of_bit(f[0])], f[1]),
        2 => (vec![f[0], 1 << f[1], f[2] + 1, f[3]], 0),
        3 => (f[..7].to_vec(), f[7]),
        4 => (vec![speed_of_bit(f[0]), f[1], f[2]], f[3]),
        5 => (f.to_vec(), 0),
        _ => panic!("no record in section {}", section),
    }
}

/// The other way round; the record must be in range.
fn fields_of(section: usize, n: &[u64]) -> Vec<u64> {
    match section {
        1 => vec![bit_of_speed(n[0]), 0],
        2 => vec![n[0], frame::gap_code(n[1]), n[2] - 1, n[3]],
        3 => vec![n[0], n[1], n[2], n[3], n[4], n[5], n[6], 0],
        4 => vec![bit_of_speed(n[0]), n[1], n[2], 0],
        5 => n.to_vec(),
        _ => panic!("no record in section {}", section),
    }
}

/// 01: "Lmax 64 to 1,518; M 1 to 8,192; least M 1 to M; period 12,500 to 125,000,000; jitter 0 to
/// 125,000,000; ... switch delay at most 1,250; each least at most its greatest." References and
/// the kind only have to fit their fields; a record just read always fits.
fn record_is_good(section: usize, n: &[u64]) -> bool {
    match section {
        1 => n[0] == 100 || n[0] == 10,
        2 => {
            n[0] <= 255
                && frame::gap_is_good(n[1])
                && (1..=4).contains(&n[2])
                && (frame::LEAST_FRAME..=frame::GREATEST_FRAME).contains(&n[3])
        }
        3 => {
            n[0] <= 4_095
                && n[1] <= 3
                && n[2] <= 1
                && (1..=8_192).contains(&n[3])
                && (1..=n[3]).contains(&n[4])
                && (12_500..=125_000_000).contains(&n[5])
                && n[6] <= 125_000_000
        }
        4 => (n[0] == 100 || n[0] == 10) && n[1] <= n[2] && n[2] <= 1_250,
        5 => n[0] <= 4_095 && n[1] <= 255 && n[2] <= 4_095,
        _ => panic!("no record in section {}", section),
    }
}

/// 01: "version 8 (=1)", the counts, "send and receive delays at most 1,875", padding 0, "each least
/// at most its greatest". A header's eleven fields; a field may be wider than the table has it.
fn header_is_good(h: &[u64]) -> bool {
    h[0] == 1
        && (1..6).all(|section| h[section] <= MOST[section] as u64)
        && h[6..10].iter().all(|&delay| delay <= 1_875)
        && h[10] == 0
        && h[6] <= h[7]
        && h[8] <= h[9]
}

/// The numbers of the header's list.
pub fn numbers_of_header(h: &[u64]) -> Vec<u64> {
    vec![h[0], h[6], h[7], h[8], h[9]]
}

/// The bytes of a table with these counts (the header's own count is 1).
pub fn table_bytes(counts: &[usize; 6]) -> usize {
    counts.iter().zip(BYTES).map(|(&count, bytes)| count * bytes).sum()
}

/// Answers 1 to 4, or the lists. 01: "They are tested in this order, the first bad row of the
/// lowest section first."
pub fn read(bytes: &[u8]) -> Result<Lists, Answer> {
    // 1: "fewer than 14 bytes"
    if bytes.len() < BYTES[0] {
        return Err(answer(1, 0, 0));
    }
    // 2: "header version, count, delay or padding out of range"
    let header = Cursor::at_byte(bytes, 0).read_all(WIDTHS[0]);
    if !header_is_good(&header) {
        return Err(answer(2, 0, 0));
    }
    let mut counts = [1usize; 6];
    for section in 1..6 {
        counts[section] = header[section] as usize;
    }
    // 3: "length is not what the counts require"
    if bytes.len() != table_bytes(&counts) {
        return Err(answer(3, 0, 0));
    }
    // 4: "a record's field or padding out of range"
    let mut lists: Lists = Default::default();
    lists[0] = numbers_of_header(&header);
    let mut place = BYTES[0];
    for section in 1..6 {
        for row in 0..counts[section] {
            let fields = Cursor::at_byte(bytes, place).read_all(WIDTHS[section]);
            let (numbers, padding) = numbers_of(section, &fields);
            if padding != 0 || !record_is_good(section, &numbers) {
                return Err(answer(4, section, row));
            }
            lists[section].extend(numbers);
            place += BYTES[section];
        }
    }
    Ok(lists)
}

/// 01: "The unpacker gives 1 to 4 and 11, in that order." "Each refusal leaves every lent result
/// all zero; an acceptance leaves zero after what it wrote."
pub fn unpack(bytes: &[u8], lent: &mut [Vec<u64>; 6]) -> (Answer, [usize; 6]) {
    for list in lent.iter_mut() {
        list.fill(0);
    }
    let lists = match read(bytes) {
        Ok(lists) => lists,
        Err(refusal) => return (refusal, [0; 6]),
    };
    if (0..6).any(|k| lent[k].len() < lists[k].len()) {
        return (answer(11, 0, 0), [0; 6]);
    }
    let mut written = [0; 6];
    for k in 0..6 {
        written[k] = lists[k].len();
        lent[k][..written[k]].copy_from_slice(&lists[k]);
    }
    (ACCEPTED, written)
}

/// 01: "The writer takes its counts from its lists and gives 2 (also for a list that is no whole
/// number of records), 4 (also for a value wider than its field), 11." The version comes from its
/// list as well. The answer and the length.
pub fn write(lists: &Lists, lent: &mut [u8]) -> (Answer, usize) {
    lent.fill(0);
    let bytes = match written(lists) {
        Ok(bytes) => bytes,
        Err(refusal) => return (refusal, 0),
    };
    if lent.len() < bytes.len() {
        return (answer(11, 0, 0), 0);
    }
    lent[..bytes.len()].copy_from_slice(&bytes);
    (ACCEPTED, bytes.len())
}

/// Answers 2 and 4 of the writer, or the bytes.
pub fn written(lists: &Lists) -> Result<Vec<u8>, Answer> {
    let whole = (1..6).all(|section| lists[section].len() % NUMBERS[section] == 0);
    if lists[0].len() != NUMBERS[0] || !whole {
        return Err(answer(2, 0, 0));
    }
    let mut header = vec![lists[0][0]];
    for section in 1..6 {
        header.push((lists[section].len() / NUMBERS[section]) as u64);
    }
    header.extend(&lists[0][1..]);
    header.push(0);
    if !header_is_good(&header) {
        return Err(answer(2, 0, 0));
    }
    for section in 1..6 {
        for (row, record) in lists[section].chunks(NUMBERS[section]).enumerate() {
            if !record_is_good(section, record) {
                return Err(answer(4, section, row));
            }
        }
    }
    let mut bits = Bits::default();
    bits.push_all(&header, WIDTHS[0]);
    for section in 1..6 {
        for record in lists[section].chunks(NUMBERS[section]) {
            bits.push_all(&fields_of(section, record), WIDTHS[section]);
        }
    }
    Ok(bits.bytes())
}
