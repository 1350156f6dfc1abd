// 01's whole case as the six lists of a table, and how lists of a network are set down.
// 01: "Whole case", from "Send delay 500 to 1,000" to "no parents".
use crate::paper::table::Lists;

/// Lists of one network: version and delays, end systems, VLs, streams, ports, hops.
pub fn set_down(six: [&[u64]; 6]) -> Lists {
    six.map(|list| list.to_vec())
}

pub fn lists() -> Lists {
    set_down([
        &[1, 500, 1_000, 500, 500],
        &[100],
        &[0, 1, 1, 1_518, 0, 2, 1, 516],
        &[0, 0, 0, 2_000, 1_000, 250_000, 0, 1, 0, 1, 469, 10, 500_000, 1_000],
        &[100, 875, 1_250],
        &[0, 0, 0, 1, 0, 0],
    ])
}
