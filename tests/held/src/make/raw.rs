// A table as its bare fields, good or bad: what the generator builds, bends and then packs.
// Fields as 01's table lists them, paddings among them; only the widths bind.
use crate::make::random::Rng;
use crate::paper::bits::Bits;
use crate::paper::frame;
use crate::paper::table::{Lists, WIDTHS, numbers_of, numbers_of_header};

#[derive(Clone)]
pub struct Raw {
    /// The eleven header fields.
    pub header: Vec<u64>,
    /// The records of sections 1 to 5, each a list of fields; section 0 stays empty.
    pub sections: [Vec<Vec<u64>>; 6],
}

impl Raw {
    pub fn empty() -> Raw {
        Raw { header: vec![1, 0, 0, 0, 0, 0, 0, 0, 0, 0, 0], sections: Default::default() }
    }

    pub fn count(&self, section: usize) -> u64 {
        self.sections[section].len() as u64
    }

    /// Sets the header's counts to those of the records.
    pub fn settle(&mut self) {
        for section in 1..6 {
            self.header[section] = self.count(section);
        }
    }

    pub fn delays(&mut self, send: (u64, u64), receive: (u64, u64)) {
        self.header[6..10].copy_from_slice(&[send.0, send.1, receive.0, receive.1]);
    }

    /// The bytes, with the header as it stands.
    pub fn bytes(&self) -> Vec<u8> {
        let mut bits = Bits::default();
        bits.push_all(&self.header, WIDTHS[0]);
        for (records, widths) in self.sections.iter().zip(WIDTHS) {
            for record in records {
                bits.push_all(record, widths);
            }
        }
        bits.bytes()
    }

    /// The numbers of the lists; paddings and header counts are left out.
    pub fn lists(&self) -> Lists {
        let mut lists: Lists = Default::default();
        lists[0] = numbers_of_header(&self.header);
        for (section, records) in self.sections.iter().enumerate() {
            for record in records {
                lists[section].extend(numbers_of(section, record).0);
            }
        }
        lists
    }

    /// Each of the following appends a record and gives its row.
    fn add(&mut self, section: usize, record: Vec<u64>) -> u64 {
        self.sections[section].push(record);
        self.header[section] = self.count(section);
        self.count(section) - 1
    }

    pub fn add_system(&mut self, slow: u64) -> u64 {
        self.add(1, vec![slow, 0])
    }

    pub fn add_vl(&mut self, system: u64, code: u64, sub_links: u64, lmax: u64) -> u64 {
        self.add(2, vec![system, code, sub_links - 1, lmax])
    }

    /// The list: VL, sub-link, kind, M, least M, period, jitter.
    pub fn add_stream(&mut self, s: [u64; 7]) -> u64 {
        self.add(3, vec![s[0], s[1], s[2], s[3], s[4], s[5], s[6], 0])
    }

    pub fn add_port(&mut self, slow: u64, least: u64, greatest: u64) -> u64 {
        self.add(4, vec![slow, least, greatest, 0])
    }

    /// The parent is given as in the table: 0 or row + 1.
    pub fn add_hop(&mut self, vl: u64, port: u64, parent: u64) -> u64 {
        self.add(5, vec![vl, port, parent])
    }

    /// An end system, a port, a VL and a hop of their own, all at 100 Mbit/s: a place where a
    /// record can be bent without touching the others. Gives the VL.
    pub fn attach(&mut self, rng: &mut Rng, code: u64, sub_links: u64, lmax: u64) -> u64 {
        let system = self.add_system(0);
        let greatest = rng.between(0, 1_250);
        let least = rng.between(0, greatest);
        let port = self.add_port(0, least, greatest);
        let vl = self.add_vl(system, code, sub_links, lmax);
        self.add_hop(vl, port, 0);
        vl
    }

    /// The same with a small stream that fits any queue.
    pub fn attach_whole(&mut self, rng: &mut Rng) -> u64 {
        let code = rng.below(8);
        let lmax = rng.between(64, 1_518);
        let vl = self.attach(rng, code, 1, lmax);
        let most = rng.between(1, lmax - frame::PROTOCOL_OVERHEAD);
        let least = rng.between(1, most);
        let period = rng.between(2 * frame::GAPS[code as usize], 125_000_000);
        let jitter = rng.below(period);
        let kind = rng.below(2);
        self.add_stream([vl, 0, kind, most, least, period, jitter]);
        vl
    }
}
