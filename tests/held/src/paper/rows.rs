// The analysis: answers 7 to 10, queue figures, mux waits, port figures and the result rows.
// 01: "Answers by number", "One station" and "Result rows"; signed 128 bits for every sum.
use crate::paper::frame;
use crate::paper::network::{Network, network};
use crate::paper::refs;
use crate::paper::station::{Flow, LIMIT, busy_length, figure};
use crate::paper::table::{ACCEPTED, Answer, answer, read};

/// 01: "At most ... 1,024 result rows".
pub const MOST_ROWS: usize = 1_024;

/// One result row: stream, hop, queue, worst, best, jitter.
pub type Row = [u64; 6];

/// Every answer from 1 to 10, or the rows. `room` is the count of numbers of the lent result.
pub fn rows(bytes: &[u8], room: usize) -> Result<Vec<Row>, Answer> {
    let lists = read(bytes)?;
    let net = network(&lists);
    if let Some(refusal) = refs::bad_reference(&net) {
        return Err(refusal);
    }
    if let Some(refusal) = refs::long_sample(&net) {
        return Err(refusal);
    }
    if let Some(refusal) = crowded_system(&net) {
        return Err(refusal);
    }
    // 8: "more than 1,024 rows, or the lent result is shorter than 6 numbers a row"
    let destinations = destinations(&net);
    if destinations.len() > MOST_ROWS || room < 6 * destinations.len() {
        return Err(answer(8, 0, 0));
    }
    let queues = queue_figures(&net)?;
    let ports = port_figures(&net)?;
    let row = |&(stream, hop): &(usize, usize)| {
        let s = &net.streams[stream];
        let queue = queues[s.vl][s.sub_link as usize].expect("a sub-link with a stream");
        result_row(&net, stream, hop, queue, &ports)
    };
    Ok(destinations.iter().map(row).collect())
}

/// The same with a lent result. "Each refusal leaves every lent result all zero; an acceptance
/// leaves zero after what it wrote." The answer and the count of rows.
pub fn analyse(bytes: &[u8], lent: &mut [u64]) -> (Answer, usize) {
    lent.fill(0);
    match rows(bytes, lent.len()) {
        Err(refusal) => (refusal, 0),
        Ok(list) => {
            for (k, row) in list.iter().enumerate() {
                lent[6 * k..6 * k + 6].copy_from_slice(row);
            }
            (ACCEPTED, list.len())
        }
    }
}

/// 7: "500 + the sum of (20 + Lmax) × ticks per byte over an end system's VLs exceeds 6,250
/// (equation 1)", on the end system.
fn crowded_system(net: &Network) -> Option<Answer> {
    for (row, per_byte) in net.systems.iter().enumerate() {
        let mut sum = frame::TICKS_40_US;
        for vl in net.vls.iter().filter(|vl| vl.system == row) {
            sum += frame::full_line(vl.lmax) * per_byte;
        }
        if sum > frame::TICKS_500_US {
            return Some(answer(7, 1, row));
        }
    }
    None
}

/// 01: "For each stream in order, each hop of its VL that is nobody's parent, in order".
pub fn destinations(net: &Network) -> Vec<(usize, usize)> {
    let leaves: Vec<Vec<usize>> = (0..net.vls.len()).map(|vl| net.leaves(vl)).collect();
    let mut list = Vec::new();
    for (stream, s) in net.streams.iter().enumerate() {
        for &hop in &leaves[s.vl] {
            list.push((stream, hop));
        }
    }
    list
}

/// The flows of a sub-link's queue: "flows are its streams, J raised by (greatest − least send
/// delay), C = p × n × BAG where n is the VL's number of sub-links".
pub fn queue_flows(net: &Network, vl: usize, sub_link: u64) -> Vec<Flow> {
    let link = &net.vls[vl];
    let mut flows = Vec::new();
    for s in net.streams.iter().filter(|s| s.vl == vl && s.sub_link == sub_link) {
        flows.push(Flow {
            period: s.period,
            jitter: s.jitter + net.send_greatest - net.send_least,
            cost: frame::packets(s.most, link.lmax) * link.sub_links * link.bag,
        });
    }
    flows
}

/// The queue figure of every sub-link with a stream: "the station figure less one BAG". 9: "a
/// sub-link's queue has no busy length", on the VL.
pub fn queue_figures(net: &Network) -> Result<Vec<[Option<u64>; 4]>, Answer> {
    let mut all = Vec::new();
    for (row, vl) in net.vls.iter().enumerate() {
        let mut of_vl = [None; 4];
        for sub_link in 0..vl.sub_links {
            let flows = queue_flows(net, row, sub_link);
            if !flows.is_empty() {
                let length = busy_length(&flows, LIMIT).ok_or(answer(9, 2, row))?;
                of_vl[sub_link as usize] = Some(figure(&flows, length) - vl.bag);
            }
        }
        all.push(of_vl);
    }
    Ok(all)
}

/// "Mux wait of a VL: sum of (20 + Lmax) × ticks per byte over the other VLs of its end system."
fn mux_wait(net: &Network, vl: usize) -> i128 {
    let system = net.vls[vl].system;
    let mut sum = 0;
    for (row, other) in net.vls.iter().enumerate() {
        if row != vl && other.system == system {
            sum += frame::full_line(other.lmax) * net.systems[system];
        }
    }
    i128::from(sum)
}

/// "(20 + Lmax) × ticks per byte" of a VL on a link.
fn full_time(net: &Network, vl: usize, per_byte: u64) -> i128 {
    i128::from(frame::full_line(net.vls[vl].lmax) * per_byte)
}

/// "84 bytes" on a link.
fn least_time(per_byte: u64) -> i128 {
    i128::from(frame::LEAST_LINE * per_byte)
}

/// The figure of every port, in port order; parents stand on lower-numbered ports. 10: "a port
/// has no busy length", on the port.
pub fn port_figures(net: &Network) -> Result<Vec<i128>, Answer> {
    let mut jitters = vec![0i128; net.hops.len()];
    let mut figures: Vec<i128> = Vec::new();
    for (row, port) in net.ports.iter().enumerate() {
        let spread = i128::from(port.greatest) - i128::from(port.least);
        let mut flows = Vec::new();
        for (h, hop) in net.hops.iter().enumerate().filter(|(_, hop)| hop.port == row) {
            let before = match hop.parent {
                // "mux wait + (20 + Lmax − 84) × ticks per byte of the end system"
                None => {
                    let per_byte = net.systems[net.vls[hop.vl].system];
                    mux_wait(net, hop.vl) + full_time(net, hop.vl, per_byte) - least_time(per_byte)
                }
                // "the parent's jitter + parent port's figure − 84 × its ticks per byte"
                Some(parent) => {
                    let above = net.hops[parent].port;
                    jitters[parent] + figures[above] - least_time(net.ports[above].per_byte)
                }
            };
            // "+ this port's switch delay greatest − least"
            jitters[h] = before + spread;
            flows.push(Flow {
                period: net.vls[hop.vl].bag,
                jitter: u64::try_from(jitters[h]).expect("a jitter is never negative"),
                cost: full_time(net, hop.vl, port.per_byte) as u64,
            });
        }
        let length = busy_length(&flows, LIMIT).ok_or(answer(10, 4, row))?;
        figures.push(i128::from(figure(&flows, length)));
    }
    Ok(figures)
}

/// One row of 01's "Result rows".
fn result_row(net: &Network, stream: usize, hop: usize, queue: u64, ports: &[i128]) -> Row {
    let s = &net.streams[stream];
    let vl = &net.vls[s.vl];
    let system = net.systems[vl.system];
    let least_packets = frame::packets(s.least, vl.lmax);
    // "greatest send delay + queue + mux wait + (20 + Lmax) × ticks per byte + over the route
    // (greatest switch delay + port figure) + greatest receive delay"
    let mut worst = i128::from(net.send_greatest) + i128::from(queue) + mux_wait(net, s.vl);
    worst += full_time(net, s.vl, system) + i128::from(net.receive_greatest);
    // "least send delay + (least packets − 1) × BAG + 84 bytes on every link + least switch
    // delays + least receive delay"
    let mut best = i128::from(net.send_least) + i128::from((least_packets - 1) * vl.bag);
    best += least_time(system) + i128::from(net.receive_least);
    for h in net.route(hop) {
        let number = net.hops[h].port;
        let port = &net.ports[number];
        worst += i128::from(port.greatest) + ports[number];
        best += least_time(port.per_byte) + i128::from(port.least);
    }
    // "the stream's jitter + worst − best"
    let jitter = i128::from(s.jitter) + worst - best;
    let number = |value: i128| u64::try_from(value).expect("no figure is negative");
    [stream as u64, hop as u64, queue, number(worst), number(best), number(jitter)]
}

/// What the latency program writes for a table.
pub fn printed(bytes: &[u8]) -> String {
    match rows(bytes, 6 * MOST_ROWS) {
        Err(a) => format!("refused {} {} {}\n", a.number, a.section, a.row),
        Ok(list) => {
            let mut text = String::from("stream hop queue worst best jitter\n");
            for r in list {
                text += &format!("{} {} {} {} {} {}\n", r[0], r[1], r[2], r[3], r[4], r[5]);
            }
            text
        }
    }
}
