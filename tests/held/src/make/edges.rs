// Each field at its limits and one past them, in rows that are not the first.
// 01: "The packed table", its ranges and its paddings.
use crate::make::messages;
use crate::make::random::Rng;
use crate::make::raw::Raw;

/// A change of a good network.
pub type Change = dyn Fn(&mut Rng, &mut Raw);

/// A change, with the answer number it is made for.
pub struct Case {
    pub name: String,
    pub number: u64,
    pub apply: Box<Change>,
}

pub fn case(name: &str, number: u64, apply: impl Fn(&mut Rng, &mut Raw) + 'static) -> Case {
    Case { name: name.to_string(), number, apply: Box::new(apply) }
}

/// All limit cases.
pub fn cases() -> Vec<Case> {
    let mut list = Vec::new();
    header(&mut list);
    systems_and_vls(&mut list);
    streams(&mut list);
    ports(&mut list);
    list
}

fn header(list: &mut Vec<Case>) {
    for version in [0, 2, 3, 129, 255] {
        list.push(case("version", 2, move |_, raw| raw.header[0] = version));
    }
    for padding in [1, 2, 8, 15] {
        list.push(case("header padding", 2, move |_, raw| raw.header[10] = padding));
    }
    // "send and receive delays at most 1,875; each least at most its greatest"
    for place in [6, 8] {
        for (least, greatest) in [(0, 0), (1_875, 1_875), (0, 1_875), (1_874, 1_875)] {
            list.push(case("header delay good", 0, move |_, raw| {
                raw.header[place] = least;
                raw.header[place + 1] = greatest;
            }));
        }
        for (least, greatest) in
            [(0, 1_876), (1_876, 1_876), (1_875, 1_874), (1, 0), (0, 4_095), (4_095, 4_095)]
        {
            list.push(case("header delay bad", 2, move |_, raw| {
                raw.header[place] = least;
                raw.header[place + 1] = greatest;
            }));
        }
    }
    // "At most 64 end systems, 256 VLs, 512 streams, 128 ports, 1,024 hops": one past, and far
    // past, in the count alone; 2 comes before 3.
    for (section, most, widest) in
        [(1, 64, 255), (2, 256, 4_095), (3, 512, 4_095), (4, 128, 255), (5, 1_024, 4_095)]
    {
        list.push(case("count at its limit", 3, move |_, raw| raw.header[section] = most));
        list.push(case("count past", 2, move |_, raw| raw.header[section] = most + 1));
        list.push(case("count far past", 2, move |_, raw| raw.header[section] = widest));
        list.push(case("count one more", 3, move |_, raw| {
            raw.header[section] = raw.count(section) + 1;
        }));
        list.push(case("count one less", 3, move |_, raw| {
            raw.header[section] = raw.count(section) - 1;
        }));
    }
}

fn systems_and_vls(list: &mut Vec<Case>) {
    for padding in [1, 2, 64, 127] {
        list.push(case("end system padding", 4, move |rng, raw| {
            raw.attach_whole(rng);
            raw.sections[1].last_mut().unwrap()[1] = padding;
            raw.attach_whole(rng);
        }));
    }
    for slow in [0, 1] {
        list.push(case("end system speed", 0, move |rng, raw| {
            raw.attach(rng, 7, 1, 64);
            raw.sections[1].last_mut().unwrap()[0] = slow;
            raw.attach_whole(rng);
        }));
    }
    for code in 0..8 {
        for sub_links in [1, 2, 3, 4] {
            list.push(case("BAG code and sub-links", 0, move |rng, raw| {
                let vl = raw.attach(rng, code, sub_links, 100);
                let (most, least) = (messages::longest(3, 100), messages::longest(1, 100));
                raw.add_stream([vl, sub_links - 1, 0, most, least, 125_000_000, 0]);
                raw.attach_whole(rng);
            }));
        }
    }
    // "Lmax 64 to 1,518"; below it also where S, C or the room of a packet by itself is nought, and
    // where S would be less.
    for (lmax, number) in [
        (0, 4),
        (38, 4),
        (39, 4),
        (46, 4),
        (47, 4),
        (63, 4),
        (64, 0),
        (65, 0),
        (1_517, 0),
        (1_518, 0),
        (1_519, 4),
        (2_047, 4),
    ] {
        list.push(case("Lmax", number, move |rng, raw| {
            let vl = raw.attach(rng, 3, 1, lmax);
            raw.add_stream([vl, 0, 1, 17, 1, 1_000_000, 0]);
            raw.attach_whole(rng);
        }));
    }
}

fn streams(list: &mut Vec<Case>) {
    // "M 1 to 8,192; least M 1 to M"
    for (most, least, number) in [
        (0, 0, 4),
        (0, 1, 4),
        (1, 0, 4),
        (1, 1, 0),
        (1, 2, 4),
        (8_192, 1, 0),
        (8_192, 8_192, 0),
        (8_192, 8_193, 4),
        (8_193, 1, 4),
        (8_193, 8_193, 4),
        (16_383, 1, 4),
        (16_383, 16_383, 4),
        (500, 0, 4),
        (500, 500, 0),
        (500, 501, 4),
        (500, 16_383, 4),
    ] {
        for lmax in [64, 1_518] {
            list.push(case("M and least M", number, move |rng, raw| {
                let vl = raw.attach(rng, 0, 2, lmax);
                let jitter = rng.below(2_000_000);
                raw.add_stream([vl, 1, 0, most, least, 125_000_000, jitter]);
                raw.attach_whole(rng);
            }));
        }
    }
    // "period 12,500 to 125,000,000; jitter 0 to 125,000,000"
    let widest = (1 << 27) - 1;
    for (period, number) in [
        (0, 4),
        (1, 4),
        (12_499, 4),
        (12_500, 0),
        (12_501, 0),
        (124_999_999, 0),
        (125_000_000, 0),
        (125_000_001, 4),
        (widest, 4),
    ] {
        list.push(case("period", number, move |rng, raw| {
            raw.delays((300, 300), (0, 1_875));
            let vl = raw.attach(rng, 0, 1, 500);
            raw.add_stream([vl, 0, 1, 453, 1, period, 0]);
            raw.attach_whole(rng);
        }));
    }
    for (jitter, number) in
        [(0, 0), (1, 0), (124_999_999, 0), (125_000_000, 0), (125_000_001, 4), (widest, 4)]
    {
        list.push(case("jitter", number, move |rng, raw| {
            let vl = raw.attach(rng, 1, 1, 500);
            let period = rng.between(60_000, 1_000_000);
            raw.add_stream([vl, 0, 0, 453, 1, period, jitter]);
            raw.attach_whole(rng);
        }));
    }
    for padding in [1, 2, 64, 127] {
        list.push(case("stream padding", 4, move |rng, raw| {
            raw.attach_whole(rng);
            raw.sections[3].last_mut().unwrap()[7] = padding;
            raw.attach_whole(rng);
        }));
    }
    for kind in [0, 1] {
        list.push(case("kind", 0, move |rng, raw| {
            let vl = raw.attach(rng, 2, 3, 1_518);
            raw.add_stream([vl, 2, kind, 1_471, 1_471, 1_000_000, 5_000]);
            raw.attach_whole(rng);
        }));
    }
}

fn ports(list: &mut Vec<Case>) {
    // "switch delay at most 1,250; each least at most its greatest"
    for (least, greatest, number) in [
        (0, 0, 0),
        (1_250, 1_250, 0),
        (0, 1_250, 0),
        (1_249, 1_250, 0),
        (0, 1_251, 4),
        (1_251, 1_251, 4),
        (1_250, 1_249, 4),
        (1, 0, 4),
        (0, 4_095, 4),
        (4_095, 4_095, 4),
    ] {
        list.push(case("switch delay", number, move |rng, raw| {
            raw.attach_whole(rng);
            let port = raw.sections[4].last_mut().unwrap();
            (port[1], port[2]) = (least, greatest);
            raw.attach_whole(rng);
        }));
    }
    for slow in [0, 1] {
        list.push(case("port speed", 0, move |rng, raw| {
            let vl = raw.attach(rng, 1, 1, 1_518);
            raw.sections[4].last_mut().unwrap()[0] = slow;
            raw.add_stream([vl, 0, 1, 1_000, 10, 1_000_000, 0]);
            raw.attach_whole(rng);
        }));
    }
    for padding in [1, 2, 64, 127] {
        list.push(case("port padding", 4, move |rng, raw| {
            raw.attach_whole(rng);
            raw.sections[4].last_mut().unwrap()[3] = padding;
            raw.attach_whole(rng);
        }));
    }
}
