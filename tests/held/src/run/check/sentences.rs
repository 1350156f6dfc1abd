// Each sentence of `pack` by an example, for every field that it can name, and each number at its
// limits. examples/README.md, "What `pack` says", with the names and ranges of docs/TABLE.md.
use super::Report;
use crate::paper::text::read::packed;

/// What `pack` says behind `pack: `; of a text that packs, nothing.
fn said(text: &[u8]) -> Vec<u8> {
    let Err(sentence) = packed(text) else { return Vec::new() };
    let behind = sentence.strip_prefix(b"pack: ").and_then(|rest| rest.strip_suffix(b"\n"));
    behind.expect("a sentence of pack, its line ended").to_vec()
}

fn says(report: &mut Report, text: &str, wanted: &str) {
    report.same(text, String::from_utf8_lossy(&said(text.as_bytes())).as_ref(), wanted);
}

/// A good text in which one line at a time is put.
const LINES: [&str; 7] = [
    "version 1",
    "delays 500 1000 500 750",
    "system 100",
    "vl 0 2 1 516",
    "stream 0 0 sampling 469 10 500000 1000",
    "port 100 875 1250",
    "hop 0 0 none",
];

/// The good text with this line for its own of that first word, and the line's number.
fn with(line: &str) -> (String, usize) {
    let word = line.split(' ').next();
    let place = LINES.iter().position(|good| good.split(' ').next() == word);
    let place = place.expect("a line of the good text");
    let mut lines = LINES;
    lines[place] = line;
    (lines.join("\n") + "\n", place + 1)
}

/// The line in the good text is named with this sentence; nothing stands for a good line.
fn line_says(report: &mut Report, line: &str, wanted: &str) {
    let (text, number) = with(line);
    let wanted = if wanted.is_empty() { "".into() } else { format!("line {number}: {wanted}") };
    says(report, &text, &wanted);
}

pub fn first_word_that_is_none(report: &mut Report) {
    let begins = "a line begins with delays, system, vl, stream, port, hop or version, not ";
    for word in ["VL", "vls", "1", "\"vl\"", "delays,", "none", "Version"] {
        says(
            report,
            &format!("delays 0 0 0 0\n\n {word} 1\n"),
            &format!("line 3: {begins}\"{word}\""),
        );
    }
}

/// The fields of each line in order, by their names in TABLE.md.
const FIELDS: [(&str, &[&str]); 7] = [
    ("version", &["version"]),
    (
        "delays",
        &[
            "send delay least",
            "send delay greatest",
            "receive delay least",
            "receive delay greatest",
        ],
    ),
    ("system", &["speed"]),
    ("vl", &["end system", "gap", "sub-links", "Lmax"]),
    ("stream", &["VL", "sub-link", "kind", "M", "least M", "period", "jitter"]),
    ("port", &["speed", "switch delay least", "switch delay greatest"]),
    ("hop", &["VL", "port", "parent"]),
];

pub fn missing_field_is_named(report: &mut Report) {
    for ((word, fields), line) in FIELDS.into_iter().zip(LINES) {
        let words: Vec<&str> = line.split(' ').collect();
        report.same("first word", words[0], word);
        for (k, field) in fields.iter().enumerate() {
            line_says(report, &words[..=k].join(" "), &format!("{field} is missing"));
        }
        line_says(report, line, "");
    }
}

pub fn word_that_is_no_number_is_shown(report: &mut Report) {
    for ((_, fields), line) in FIELDS.into_iter().zip(LINES) {
        for (k, field) in fields.iter().enumerate().filter(|(_, field)| **field != "kind") {
            for bad in ["-1", "+1", "1.0", "1,000", "0x1", "x", "1e3", "\u{b2}"] {
                let mut words: Vec<&str> = line.split(' ').collect();
                words[k + 1] = bad;
                let wanted = match *field {
                    "parent" => {
                        format!("parent is none, or after and a row of the hops, not \"{bad}\"")
                    }
                    _ => format!("{field} is not a number: \"{bad}\""),
                };
                line_says(report, &words.join(" "), &wanted);
            }
        }
    }
}

pub fn kind_and_parent_have_their_words(report: &mut Report) {
    for (kind, good) in [("queuing", true), ("sampling", true), ("Queuing", false), ("1", false)] {
        let wanted = format!("kind is queuing or sampling, not \"{kind}\"");
        let line = format!("stream 0 0 {kind} 9 9 12500 0");
        line_says(report, &line, if good { "" } else { &wanted });
    }
    let no_parent = "parent is none, or after and a row of the hops, not ";
    for (parent, word) in [
        ("after", "after"),
        ("after x", "after"),
        ("after none", "after"),
        ("after -1", "after"),
        ("0", "0"),
        ("before 1", "before"),
        ("None", "None"),
    ] {
        line_says(report, &format!("hop 0 0 {parent}"), &format!("{no_parent}\"{word}\""));
    }
    line_says(report, "hop 0 0 after 0", "");
    line_says(report, "hop 0 0 after 4094", "");
    let no_row = "parent is none, or after and a row below 4095, not ";
    for row in ["4095", "04095", "4096", "18446744073709551615", "18446744073709551616"] {
        line_says(report, &format!("hop 0 0 after {row}"), &format!("{no_row}\"{row}\""));
    }
}

pub fn word_too_many_is_shown(report: &mut Report) {
    for (line, (word, _)) in LINES.into_iter().zip(FIELDS) {
        for more in ["1", "x", "1 2", "none"] {
            let shown = more.split(' ').next().unwrap();
            let wanted = format!("more words than a line of {word} has: \"{shown}\"");
            line_says(report, &format!("{line} {more}"), &wanted);
        }
    }
    line_says(report, "hop 0 0 after 0 0", "more words than a line of hop has: \"0\"");
}

/// As many as may be are good; the line after them is named, if all its fields are said.
pub fn line_too_many_is_named(report: &mut Report) {
    for (place, most) in [(2, 64), (3, 256), (4, 512), (5, 128), (6, 1_024)] {
        let (word, fields) = FIELDS[place];
        let good = "delays 0 0 0 0\n".to_string() + &format!("{}\n", LINES[place]).repeat(most);
        says(report, &good, "");
        let number = most + 2;
        let wanted = format!("line {number}: more than {most} {word} lines");
        says(report, &format!("{good}{}", LINES[place]), &wanted);
        let (short, last) = (LINES[place].rsplit_once(' ').unwrap().0, fields[fields.len() - 1]);
        says(report, &format!("{good}{short}"), &format!("line {number}: {last} is missing"));
    }
    for word in ["delays 0 0 0 0", "version 1"] {
        let text = format!("delays 0 0 0 0\nversion 1\n\n{word}\n");
        let name = word.split(' ').next().unwrap();
        says(report, &text, &format!("line 4: a second line of {name}"));
    }
}

/// "as the text has it", with the zeros before it, and never cut off.
pub fn number_out_of_range_is_shown(report: &mut Report) {
    let huge = ["18446744073709551615", "18446744073709551616", "1267650600228229401496703205376"];
    let speed: &[&str] = &["0", "1", "9", "11", "99", "101", "1000"];
    let delay: &[&str] = &["1876", "4096", "5971"];
    let switch: &[&str] = &["1251", "4096", "5346"];
    let size: &[&str] = &["0", "8193", "16385"];
    let row: &[&str] = &["4096", "8192"];
    let ranges: &[(&str, &str, &[&str])] = &[
        ("version _", "version is 1", &["0", "2", "255", "256", "257"]),
        ("delays _ 1875 0 0", "send delay least is 0 to 1875", delay),
        ("delays 0 _ 0 0", "send delay greatest is 0 to 1875", delay),
        ("delays 0 0 _ 1875", "receive delay least is 0 to 1875", delay),
        ("delays 0 0 0 _", "receive delay greatest is 0 to 1875", delay),
        ("system _", "speed is 100 or 10", speed),
        ("vl _ 1 1 64", "end system is at most 255", &["256", "512"]),
        ("vl 0 _ 1 64", "gap is 1, 2, 4, 8, 16, 32, 64 or 128", &["0", "3", "127", "129", "256"]),
        ("vl 0 1 _ 64", "sub-links is 1 to 4", &["0", "5", "8"]),
        ("vl 0 1 1 _", "Lmax is 64 to 1518", &["0", "63", "1519", "2112"]),
        ("stream _ 0 queuing 9 9 12500 0", "VL is at most 4095", row),
        ("stream 0 _ queuing 9 9 12500 0", "sub-link is at most 3", &["4", "5"]),
        ("stream 0 0 queuing _ 9 12500 0", "M is 1 to 8192", size),
        ("stream 0 0 queuing 9 _ 12500 0", "least M is 1 to 8192", size),
        (
            "stream 0 0 queuing 9 9 _ 0",
            "period is 12500 to 125000000",
            &["0", "12499", "125000001", "134230228"],
        ),
        ("stream 0 0 queuing 9 9 12500 _", "jitter is 0 to 125000000", &["125000001", "134217728"]),
        ("port _ 0 0", "speed is 100 or 10", speed),
        ("port 100 _ 1250", "switch delay least is 0 to 1250", switch),
        ("port 100 0 _", "switch delay greatest is 0 to 1250", switch),
        ("hop _ 0 none", "VL is at most 4095", row),
        ("hop 0 _ none", "port is at most 255", &["256", "511"]),
    ];
    for (line, range, numbers) in ranges {
        for number in numbers.iter().chain(&huge) {
            for zeros in ["", "0", "000"] {
                let wanted = format!("{range}, not \"{zeros}{number}\"");
                line_says(report, &line.replace('_', &format!("{zeros}{number}")), &wanted);
            }
        }
    }
}

pub fn number_at_its_limit_packs(report: &mut Report) {
    for line in [
        "delays 0 0 0 0",
        "delays 1875 1875 1875 1875",
        "system 10",
        "vl 255 128 4 1518",
        "vl 0 1 1 64",
        "stream 4095 3 queuing 8192 8192 125000000 125000000",
        "stream 0 0 sampling 1 1 12500 0",
        "port 10 1250 1250",
        "port 100 0 0",
        "hop 4095 255 after 4094",
        "version 00000000000000000000000000000000000000000000000000000000001",
    ] {
        line_says(report, line, "");
    }
    for gap in [1, 2, 4, 8, 16, 32, 64, 128] {
        line_says(report, &format!("vl 0 {gap} 1 64"), "");
    }
}

pub fn pair_out_of_order_is_named(report: &mut Report) {
    for (line, wanted) in [
        ("delays 1 0 0 0", "send delay least is above send delay greatest"),
        ("delays 0 0 1875 1874", "receive delay least is above receive delay greatest"),
        ("stream 0 0 queuing 9 10 12500 0", "least M is above M"),
        ("port 10 1250 1249", "switch delay least is above switch delay greatest"),
        // A field out of range goes before a pair.
        ("delays 9 8 7 1876", "receive delay greatest is 0 to 1875, not \"1876\""),
        ("stream 0 0 queuing 9 10 12499 0", "period is 12500 to 125000000, not \"12499\""),
    ] {
        line_says(report, line, wanted);
    }
}

pub fn text_without_delays_or_too_long(report: &mut Report) {
    for text in ["", "\n", "# delays 0 0 0 0\n", "system 100\n"] {
        says(report, text, "there is no line of delays");
    }
    let mut text = b"delays 0 0 0 0\n#".to_vec();
    text.resize(262_144, b'-');
    report.same("262,144 bytes", said(&text), Vec::new());
    text.push(b'-');
    report.same("one more", said(&text), b"the text is longer than 262144 bytes".to_vec());
}
