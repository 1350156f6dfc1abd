// The text of a table: which lines there are, their fields by name, and what a field may hold.
// examples/README.md, "Writing a table"; the names, the ranges and the pairs are docs/TABLE.md's.
pub mod print;
pub mod read;

use Range::{AtMost, Kind, OneOf, Parent, To};

/// What a field may hold.
#[derive(Clone, Copy)]
pub enum Range {
    To(u64, u64),
    OneOf(&'static [u64]),
    /// A row or a sub-link: any number that the field's bits hold.
    AtMost(u64),
    /// `queuing` or `sampling`, in the table 0 or 1.
    Kind,
    /// `none`, or `after` and a row, in the table 0 or the row plus 1: 12 bits.
    Parent,
}

/// A kind of line: its first word, its fields, and the pairs of fields of which the first is at
/// most the second.
pub struct Line {
    pub word: &'static str,
    pub fields: &'static [(&'static str, Range)],
    pub pairs: &'static [(usize, usize)],
}

/// The place of the version in `LINES`; every other line has that of its section, the delays 0.
pub const VERSION: usize = 6;

const SPEED: Range = OneOf(&[100, 10]);
const DELAY: Range = To(0, 1_875);
const SWITCH_DELAY: Range = To(0, 1_250);
const SIZE: Range = To(1, 8_192);

/// "a line begins with delays, system, vl, stream, port, hop or version"
pub const LINES: [Line; 7] = [
    Line {
        word: "delays",
        fields: &[
            ("send delay least", DELAY),
            ("send delay greatest", DELAY),
            ("receive delay least", DELAY),
            ("receive delay greatest", DELAY),
        ],
        pairs: &[(0, 1), (2, 3)],
    },
    Line { word: "system", fields: &[("speed", SPEED)], pairs: &[] },
    Line {
        word: "vl",
        fields: &[
            ("end system", AtMost(255)),
            ("gap", OneOf(&[1, 2, 4, 8, 16, 32, 64, 128])),
            ("sub-links", To(1, 4)),
            ("Lmax", To(64, 1_518)),
        ],
        pairs: &[],
    },
    Line {
        word: "stream",
        fields: &[
            ("VL", AtMost(4_095)),
            ("sub-link", AtMost(3)),
            ("kind", Kind),
            ("M", SIZE),
            ("least M", SIZE),
            ("period", To(12_500, 125_000_000)),
            ("jitter", To(0, 125_000_000)),
        ],
        pairs: &[(4, 3)],
    },
    Line {
        word: "port",
        fields: &[
            ("speed", SPEED),
            ("switch delay least", SWITCH_DELAY),
            ("switch delay greatest", SWITCH_DELAY),
        ],
        pairs: &[(1, 2)],
    },
    Line {
        word: "hop",
        fields: &[("VL", AtMost(4_095)), ("port", AtMost(255)), ("parent", Parent)],
        pairs: &[],
    },
    Line { word: "version", fields: &[("version", OneOf(&[1]))], pairs: &[] },
];

impl Range {
    /// Is this number of the lists in the range?
    pub fn has(self, number: u64) -> bool {
        match self {
            To(least, greatest) => (least..=greatest).contains(&number),
            OneOf(list) => list.contains(&number),
            AtMost(greatest) => number <= greatest,
            Kind => number <= 1,
            Parent => number <= 4_095,
        }
    }

    /// The words between a field's name and ", not": "is 100 or 10".
    pub fn words(self) -> String {
        match self {
            To(least, greatest) => format!("is {least} to {greatest}"),
            OneOf(list) => {
                let words: Vec<String> = list.iter().map(u64::to_string).collect();
                match words.split_last() {
                    Some((last, [])) => format!("is {last}"),
                    Some((last, others)) => format!("is {} or {last}", others.join(", ")),
                    None => panic!("a range without numbers"),
                }
            }
            AtMost(greatest) => format!("is at most {greatest}"),
            Kind => "is queuing or sampling".to_string(),
            Parent => "is none, or after and a row below 4095".to_string(),
        }
    }
}
