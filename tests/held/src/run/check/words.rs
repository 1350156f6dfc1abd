// What ends a word and a line, how a word is shown, and which mistake is named first.
// examples/README.md, "Writing a table" and "What `pack` says".
use super::Report;
use crate::paper::text::read::packed;

fn sentence(text: &[u8]) -> Vec<u8> {
    packed(text).err().unwrap_or_default()
}

/// "its first 40 bytes, with `?` for a byte below 32 or of 127": every byte that a word can have.
pub fn word_is_shown_as_the_page_says(report: &mut Report) {
    for byte in (0..=255).filter(|byte| !b" \t\r\n#".contains(byte)) {
        let shown = if byte < 32 || byte == 127 { b'?' } else { byte };
        let text = [b"delays 0 0 0 0\nsystem 1", &[byte, b'x'][..], b"\n"].concat();
        let wanted = [b"pack: line 2: speed is not a number: \"1", &[shown, b'x'][..], b"\"\n"];
        report.same(&format!("byte {byte}"), sentence(&text), wanted.concat());
    }
    for length in [1, 39, 40, 41, 42, 1_000] {
        let word = &"0123456789".repeat(100)[..length];
        let shown = &word[..length.min(40)];
        let wanted = format!("pack: line 1: version is 1, not \"{shown}\"\n");
        let text = format!("version {word}\ndelays 0 0 0 0");
        report.same("word of so many bytes", sentence(text.as_bytes()), wanted.into_bytes());
    }
}

/// Spaces, tabs and CR before, between and behind words; comments anywhere; no newline at the end.
pub fn blanks_and_comments_change_nothing(report: &mut Report) {
    let wanted = packed(b"version 1\ndelays 1 2 3 4\nsystem 100\nsystem 10\n");
    report.holds("packs", wanted.is_ok());
    let texts: [&[u8]; 10] = [
        b"delays 1 2 3 4\nsystem 100\nsystem 10",
        b"delays 1 2 3 4\r\nsystem 100\r\nsystem 10\r\n",
        b"\tdelays \t 1\t2   3 4 \t\r\n \nsystem\t100\n\r\n\nsystem 10\t",
        b"delays 1 2 3 4# 5\nsystem 100#0\nsystem 10 # 20\n#system 10\n",
        b"system 100\nsystem 10\nversion 1\ndelays 1 2 3 4\n",
        b"system 100\nversion 01\ndelays 001 002 003 0004\nsystem 0010\n",
        b"#\xff\x00\x7f\ndelays 1 2 3 4\n##\nsystem 100\nsystem 10\n\t#",
        b"delays 1 2 3 4\nsystem 100\nsystem 10\r",
        b"delays\r1\r2 3 4\nsystem 100\nsystem 10\n",
        b"\n\n\nsystem 100\ndelays 1 2 3 4\nsystem 10\n",
    ];
    for text in texts {
        report.same(&format!("{}", text.escape_ascii()), packed(text), wanted.clone());
    }
}

/// A word may hold any other byte: no blank but these three, no line but by LF.
pub fn no_other_byte_ends_a_word(report: &mut Report) {
    for byte in (0..=255).filter(|byte| !b" \t\r\n#".contains(byte) && !byte.is_ascii_digit()) {
        let text = [b"delays 0 0 0 0\nsystem 100", &[byte][..], b"\n"].concat();
        report.holds(&format!("byte {byte}"), packed(&text).is_err());
    }
}

/// The first line that is wrong; a number out of range only where none is.
pub fn first_wrong_line_is_named(report: &mut Report) {
    for (text, wanted) in [
        ("x\ny\n", "line 1: a line begins"),
        ("system 7\nsystem\n", "line 2: speed is missing"),
        ("system 7\nversion 2\nhop\n", "line 3: VL is missing"),
        ("vl 1 x\nx\n", "line 1: gap is not a number"),
        ("vl x\n", "line 1: end system is not a number"),
        ("stream 1 1 x x\n", "line 1: kind is"),
        ("system 7\n\n\nport 7 7 7 7 7", "line 4: more words than a line of port has: \"7\""),
        ("system 7\ndelays 9 8 7 6\ndelays\n", "line 3: send delay least is missing"),
        ("system 7\ndelays 9 8 7 6\ndelays 0 0 0 0 0\n", "line 3: more words"),
        ("system 7\n", "there is no line of delays"),
    ] {
        let seen = sentence(text.as_bytes());
        let wanted = format!("pack: {wanted}");
        report.holds(&format!("{text:?}: {wanted}"), seen.starts_with(wanted.as_bytes()));
    }
}

/// Without a wrong line: the version, the delays, then the sections, each from its first row; in a
/// record the fields, then the pairs. The lines of the text stand the other way round.
pub fn refusals_come_in_the_order_of_the_table(report: &mut Report) {
    let lines = [
        ("hop 0 256 none", "port is at most 255, not \"256\""),
        ("port 10 2 1", "switch delay least is above switch delay greatest"),
        ("stream 0 0 queuing 1 2 12500 0", "least M is above M"),
        ("vl 0 1 1 63", "Lmax is 64 to 1518, not \"63\""),
        ("system 11", "speed is 100 or 10, not \"11\""),
        ("delays 1 0 1876 0", "receive delay least is 0 to 1875, not \"1876\""),
        ("version 2", "version is 1, not \"2\""),
    ];
    let good = ["hop 0 0 none", "port 10 0 0", "stream 0 0 queuing 1 1 12500 0", "vl 0 1 1 64"];
    let good = [&good[..], &["system 10", "delays 0 0 0 0", "version 1"]].concat();
    for last in 0..lines.len() {
        // The lines up to the last are bad, the others good; a later row of a section is bad too.
        let mut text: Vec<&str> = lines[..=last].iter().map(|line| line.0).collect();
        text.extend(&good[last + 1..]);
        text.extend(["hop 4096 0 none", "hop 4097 0 none"]);
        let wanted = format!("pack: line {}: {}\n", last + 1, lines[last].1);
        report.same("refusal", sentence(text.join("\n").as_bytes()), wanted.into_bytes());
    }
}
