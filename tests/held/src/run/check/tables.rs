// The packed table against itself: fields, round trips, the unpacker's lists, the writer's bytes.
// Order, demand 2: "an accepted table, unpacked and written again, gives the same bytes."
use super::Report;
use crate::make::random::Rng;
use crate::make::{damage, mixture, sizes, whole_case, writes};
use crate::paper::bits::{Bits, Cursor};
use crate::paper::frame;
use crate::paper::table::{self, ACCEPTED, BYTES, Lists, MOST, NUMBERS, WIDTHS, answer};

/// "most significant bit first, with no gaps inside a record": 101, 01, 110 and eight more.
pub fn fields_stand_most_significant_bit_first(report: &mut Report) {
    let mut bits = Bits::default();
    bits.push_all(&[5, 1, 6, 0x81], &[3, 2, 3, 8]);
    report.same("bytes", bits.bytes(), vec![0b1010_1110, 0x81]);
    let read = Cursor::at_byte(&[0xFF, 0b1010_1110, 0x81], 1).read_all(&[3, 2, 3, 8]);
    report.same("fields", read, vec![5, 1, 6, 0x81]);
}

/// "Each read of a field hands on the place where the next begins."
pub fn fields_read_back(report: &mut Report) {
    for number in 0..2_000 {
        let rng = &mut Rng::part(13, number);
        let widths: Vec<usize> = (0..8).map(|_| rng.between(1, 27) as usize).collect();
        let values: Vec<u64> = widths.iter().map(|&width| rng.below(1 << width)).collect();
        let mut bits = Bits::default();
        bits.push_all(&values, &widths);
        bits.push(0, 7 - (widths.iter().sum::<usize>() + 7) % 8);
        report.same("fields", Cursor::at_byte(&bits.bytes(), 0).read_all(&widths), values);
    }
}

/// The widths of 01's table add to its bytes, and the greatest table has 12,110.
pub fn fields_fill_their_records(report: &mut Report) {
    for section in 0..6 {
        report.same("bits", WIDTHS[section].iter().sum(), 8 * BYTES[section]);
    }
    report.same("greatest size", table::table_bytes(&MOST), 12_110);
}

/// "a gap is good if it is 1 to 128 and exactly one of its bits is set"
pub fn gap_codes_double(report: &mut Report) {
    let good: Vec<u64> = (0..1_000).filter(|&ms| frame::gap_is_good(ms)).collect();
    report.same("good gaps", &good, &vec![1, 2, 4, 8, 16, 32, 64, 128]);
    for (code, &ms) in good.iter().enumerate() {
        report.same("code", frame::gap_code(ms), code as u64);
        report.same("ticks", frame::GAPS[code], ms * frame::TICKS_PER_MS);
    }
}

/// Bytes and lists of good tables of every shape, the greatest among them.
fn good_tables() -> impl Iterator<Item = (Vec<u8>, Lists)> {
    (0..1_500).map(|number| {
        let rng = &mut Rng::part(3, number);
        let raw = if number < 20 { sizes::table(rng, 11).1 } else { mixture::shaped(rng) };
        (raw.bytes(), raw.lists())
    })
}

/// Six lists of 7s, each longer than it has to be by so many numbers.
fn lent(lists: &Lists, more: usize) -> Lists {
    [0, 1, 2, 3, 4, 5].map(|k| vec![7; lists[k].len() + more])
}

fn all_zero(lists: &Lists) -> bool {
    lists.iter().flatten().all(|&number| number == 0)
}

pub fn numbers_written_read_back(report: &mut Report) {
    for (bytes, lists) in good_tables() {
        report.same("numbers read", &table::read(&bytes), &Ok(lists.clone()));
        report.same("bytes written", table::written(&lists), Ok(bytes));
    }
}

pub fn unpacked_and_written_is_the_same_table(report: &mut Report) {
    for (bytes, lists) in good_tables() {
        let mut lists = lent(&lists, 3);
        let (answer, written) = table::unpack(&bytes, &mut lists);
        report.same("unpacked", answer, ACCEPTED);
        for (list, count) in lists.iter_mut().zip(written) {
            report.same("zero after what it wrote", &list[count..], &[0, 0, 0]);
            list.truncate(count);
        }
        let mut room = vec![7; bytes.len() + 3];
        report.same("written", table::write(&lists, &mut room), (ACCEPTED, bytes.len()));
        report.same("the same bytes", &room[..bytes.len()], &bytes[..]);
        report.same("zero after them", &room[bytes.len()..], &[0, 0, 0]);
    }
}

/// 11: "a lent result is too short", for each list by itself; one that just fits is long enough.
pub fn short_list_is_11_and_all_zero(report: &mut Report) {
    for (bytes, lists) in good_tables().take(200) {
        let mut exact = lent(&lists, 0);
        report.same("just fits", table::unpack(&bytes, &mut exact).0, ACCEPTED);
        for short in (0..6).filter(|&k| !lists[k].is_empty()) {
            let mut lent = lent(&lists, 5);
            lent[short].truncate(lists[short].len() - 1);
            let seen = table::unpack(&bytes, &mut lent);
            report.same("one number short", seen, (answer(11, 0, 0), [0; 6]));
            report.holds("all zero", all_zero(&lent));
        }
    }
}

/// "Each refusal leaves every lent result all zero", and 1 to 4 go before 11.
pub fn refused_table_leaves_lists_zero(report: &mut Report) {
    let mut seen = [0; 5];
    for number in 0..3_000 {
        let rng = &mut Rng::part(14, number);
        let bytes = mixture::base(rng).bytes();
        let bytes = if rng.chance(10) { damage::noise(rng) } else { damage::damage(rng, &bytes) };
        let Err(refusal) = table::read(&bytes) else {
            continue;
        };
        seen[refusal.number as usize] += 1;
        let mut lent: Lists = [0, 1, 2, 3, 4, 5].map(|_| vec![7; rng.index(20)]);
        report.same("refused", table::unpack(&bytes, &mut lent), (refusal, [0; 6]));
        report.holds("all zero", all_zero(&lent));
    }
    report.holds("1 to 4 are seen", seen[1..].iter().all(|&count| count > 20));
}

pub fn short_room_is_11_and_all_zero(report: &mut Report) {
    for (bytes, lists) in good_tables().take(200) {
        let mut room = vec![7; bytes.len()];
        report.same("just fits", table::write(&lists, &mut room), (ACCEPTED, bytes.len()));
        let mut room = vec![7; bytes.len() - 1];
        report.same("one byte short", table::write(&lists, &mut room), (answer(11, 0, 0), 0));
        report.holds("all zero", room.iter().all(|&byte| byte == 0));
    }
}

/// Good lists and the same with one number bent.
fn bent_lists() -> impl Iterator<Item = (Lists, Lists, writes::Bend)> {
    writes::bends().into_iter().enumerate().map(|(number, bend)| {
        let rng = &mut Rng::part(15, number as u64);
        let good = writes::small(rng);
        let mut bent = good.clone();
        writes::bend(rng, &mut bent, bend);
        (good, bent, bend)
    })
}

/// 2 in the header's list, 4 with section and row elsewhere; good lists are taken.
pub fn bent_number_is_refused_where_it_stands(report: &mut Report) {
    let mut refused = [0; 6];
    for (good, bent, (section, place, value)) in bent_lists() {
        report.holds("good lists are taken", table::written(&good).is_ok());
        let Err(refusal) = table::written(&bent) else {
            continue;
        };
        refused[section] += 1;
        let changed = (0..bent[section].len()).find(|&k| bent[section][k] != good[section][k]);
        let row = changed.expect("a refused number is another one") / NUMBERS[section];
        let wanted = if section == 0 { answer(2, 0, 0) } else { answer(4, section, row) };
        report.same(&format!("section {section}, place {place}, {value}"), refusal, wanted);
    }
    report.holds("each section has bends that are refused", refused.iter().all(|&n| n > 3));
}

/// "4 (also for a value wider than its field)": nothing is cut off.
pub fn what_the_writer_takes_reads_back(report: &mut Report) {
    let mut taken = 0;
    for (_, bent, _) in bent_lists() {
        if let Ok(bytes) = table::written(&bent) {
            report.same("read back", table::read(&bytes), Ok(bent));
            taken += 1;
        }
    }
    report.holds("some bends are good", taken > 30);
}

/// "2 (also for a list that is no whole number of records)", and counts past their limits.
pub fn misshapen_lists_are_2(report: &mut Report) {
    for number in 0..600 {
        let rng = &mut Rng::part(16, number);
        let mut lists = writes::small(rng);
        writes::misshape(rng, &mut lists);
        let whole = (1..6).all(|k| lists[k].len() % NUMBERS[k] == 0);
        let few = (1..6).all(|k| lists[k].len() <= MOST[k] * NUMBERS[k]);
        let misshapen = !whole || !few || lists[0].len() != NUMBERS[0];
        report.same("refused", table::written(&lists) == Err(answer(2, 0, 0)), misshapen);
    }
}

/// The version, then the four delays: as the unpacker fills the list and the writer takes it.
pub fn header_list_begins_with_the_version(report: &mut Report) {
    let lists = whole_case::lists();
    let bytes = table::written(&lists).expect("01's own table");
    let mut lent = lent(&lists, 1);
    report.same("unpacked", table::unpack(&bytes, &mut lent).0, ACCEPTED);
    report.same("header", &lent[0], &vec![1, 500, 1_000, 500, 500, 0]);
    report.same("first byte", bytes[0], 1);
}

/// 2 of the writer for any other length; 11 of the unpacker for a lent list that is shorter.
pub fn header_list_has_five_numbers(report: &mut Report) {
    let good = whole_case::lists();
    let bytes = table::written(&good).expect("01's own table");
    for length in 0..9 {
        let mut lists = good.clone();
        lists[0].resize(length, 0);
        let wanted = if length == 5 { Ok(bytes.clone()) } else { Err(answer(2, 0, 0)) };
        report.same("written", table::written(&lists), wanted);
        let mut lent = lent(&good, 1);
        lent[0] = vec![7; length];
        let wanted = if length >= 5 { ACCEPTED } else { answer(11, 0, 0) };
        report.same("unpacked", table::unpack(&bytes, &mut lent).0, wanted);
        report.holds("all zero on 11", length >= 5 || all_zero(&lent));
    }
}

/// Also one whose last eight bits are 1, and before the records are looked at or the room.
pub fn wrong_version_is_2(report: &mut Report) {
    for version in [0, 2, 3, 129, 255, 256, 257, (1 << 32) + 1, u64::MAX] {
        let mut lists = whole_case::lists();
        lists[0][0] = version;
        report.same("refused", table::written(&lists), Err(answer(2, 0, 0)));
        lists[2][1] = 3;
        report.same("2 goes before 4", table::written(&lists), Err(answer(2, 0, 0)));
        let mut room = [7; 3];
        report.same("2 goes before 11", table::write(&lists, &mut room), (answer(2, 0, 0), 0));
        report.same("all zero", room, [0; 3]);
    }
}
