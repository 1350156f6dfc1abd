// Answers 5 and 6: bad references, and sampling messages of more than one packet.
// 01: "Bad references (5)" and row 6 of "Answers by number".
use crate::paper::frame;
use crate::paper::network::Network;
use crate::paper::table::{Answer, answer};

/// The first bad reference of the lowest section, if there is one.
pub fn bad_reference(net: &Network) -> Option<Answer> {
    for (row, vl) in net.vls.iter().enumerate() {
        // "a VL names no end system, or has no hop (on the VL)"
        let has_hop = net.hops.iter().any(|hop| hop.vl == row);
        if vl.system >= net.systems.len() || !has_hop {
            return Some(answer(5, 2, row));
        }
    }
    for (row, stream) in net.streams.iter().enumerate() {
        // "a stream names no VL or no sub-link of it"
        if stream.vl >= net.vls.len() || stream.sub_link >= net.vls[stream.vl].sub_links {
            return Some(answer(5, 3, row));
        }
    }
    for row in 0..net.hops.len() {
        if !hop_is_good(net, row) {
            return Some(answer(5, 5, row));
        }
    }
    None
}

/// All earlier hops must be good already: then their routes end.
fn hop_is_good(net: &Network, row: usize) -> bool {
    let hop = &net.hops[row];
    // "a hop names no VL or port"
    if hop.vl >= net.vls.len() || hop.port >= net.ports.len() {
        return false;
    }
    // "its parent is not an earlier row of the same VL on a lower-numbered port"
    if let Some(parent) = hop.parent {
        if parent >= row {
            return false;
        }
        let above = &net.hops[parent];
        if above.vl != hop.vl || above.port >= hop.port {
            return false;
        }
    }
    // "an earlier hop has the same VL and port"
    if net.hops[..row].iter().any(|other| other.vl == hop.vl && other.port == hop.port) {
        return false;
    }
    // "or it is deeper than 8"
    net.route(row).len() <= 8
}

/// 6: "a sampling message needs more than one packet".
pub fn long_sample(net: &Network) -> Option<Answer> {
    for (row, stream) in net.streams.iter().enumerate() {
        let lmax = net.vls[stream.vl].lmax;
        if stream.sampling && frame::packets(stream.most, lmax) > 1 {
            return Some(answer(6, 3, row));
        }
    }
    None
}
