// The count of packets of every message on every VL, for holding another implementation to all of
// them: it is 23,838,720 bytes, so it is written and never kept.
use crate::paper::frame;
use std::io::{self, Write};

/// 01: "Lmax 64 to 1,518; M 1 to 8,192".
pub const LMAX: std::ops::RangeInclusive<u64> = frame::LEAST_FRAME..=frame::GREATEST_FRAME;
pub const M: std::ops::RangeInclusive<u64> = 1..=8_192;

/// For each Lmax in order and each M in order two bytes, the most significant first.
pub fn write(out: impl Write) -> io::Result<()> {
    let mut out = io::BufWriter::new(out);
    for lmax in LMAX {
        for message in M {
            let packets = u16::try_from(frame::packets(message, lmax)).expect("at most 342");
            out.write_all(&packets.to_be_bytes())?;
        }
    }
    out.flush()
}
