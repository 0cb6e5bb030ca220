//! Blocks that no manager wrote, with a right check: they test the reader's table and its look at the
//! content. Demand 3 does not speak of them.

use crate::kinds::*;
use crate::log;
use crate::reader::{self, Reader};
use crate::rules;
use crate::shapes::{both_busy_shapes, edges, sound_shapes};
use crate::streams::Random;

/// A block's fields before its check is worked out.
#[derive(Clone)]
pub struct Draft {
    pub number: u32,
    pub block: u32,
    pub used: u16,
    pub before: u32,
    pub records: Vec<Record>,
}

impl Draft {
    /// The next block that this reader waits for, with these records.
    pub fn next_for(r: &Reader, records: Vec<Record>) -> Draft {
        Draft {
            number: r.number,
            block: r.next,
            used: records.len() as u16,
            before: r.state.count,
            records,
        }
    }

    /// More records at a place; what is too much for a block falls off its end.
    fn put_in(&mut self, at: usize, records: &[Record]) {
        self.records.splice(at..at, records.iter().copied());
        self.records.truncate(log::CAPACITY);
        self.used = self.records.len() as u16;
    }

    pub fn bytes(&self) -> Vec<u8> {
        let mut out = vec![0; log::BLOCK];
        out[0..4].copy_from_slice(&self.number.to_be_bytes());
        out[4..8].copy_from_slice(&self.block.to_be_bytes());
        out[8..10].copy_from_slice(&self.used.to_be_bytes());
        out[10..14].copy_from_slice(&self.before.to_be_bytes());
        for (place, record) in self.records.iter().take(log::CAPACITY).enumerate() {
            let at = log::RECORDS_AT + 8 * place;
            out[at..at + 8].copy_from_slice(&record.bytes());
        }
        seal(&mut out);
        out
    }
}

/// Makes the check right.
pub fn seal(block: &mut [u8]) {
    let check = log::check(&block[..log::CHECK_AT]);
    block[log::CHECK_AT..].copy_from_slice(&check.to_be_bytes());
}

/// The records of one event, at most 10, that bring any state to this shape; armed becomes count + 1.
pub fn records_to(shape: &State, count: u32) -> Vec<Record> {
    let mut records = vec![Record::new(record::SIUREBOOT, 0, 0)];
    let mut put = |code, d, v| records.push(Record::new(code, d, v));
    put(record::OPMODE, shape.mode, 0);
    put(record::LCISTATE, shape.lci, 0);
    put(record::LPASTATE, shape.lpa, 0);
    if shape.lpa_awaited == 1 {
        put(record::LPASTART, shape.lpa_mode, 9);
    } else {
        put(record::LPAMODE, shape.lpa_mode, 0);
    }
    put(record::SAACHANGE, shape.saa, 0);
    if shape.lci_awaited == 1 {
        put(record::CALSTART, 0, 0);
    }
    if shape.too != too::NONE {
        put(record::TOOTIMER, 1, 600);
        put(record::TOOSTATE, shape.too, 0);
    }
    put(record::STATUS, answer::SUCCESS, count + 1);
    records
}

/// The records of two events: a reboot, and one that brings BOOT to this shape and then has this change
/// before its STATUS. With the reboot in the same event, an event for TOO would have 11 records.
fn records_through(shape: &State, change: Record, count: u32) -> Vec<Record> {
    let mut records = records_to(shape, count + 1);
    records.insert(records.len() - 1, change);
    records.insert(1, Record::new(record::STATUS, answer::SUCCESS, count + 1));
    records
}

/// The strings of `Forger::both_busy` and `Forger::earlier_releases`, by hand. NONSENSE: the 140 shapes of
/// `shapes::BOTH_BUSY`; the 32 of CALIBRATION and 20 of PHYSICS that lose their own task; 8 shapes of
/// QUIESCENT by LPASTART and by TOOSTART, 16 of TOO by LPASTART. APPLIED: the 140 with LCI made IDLE but
/// for CALIBRATION, with LPA made IDLE but for PHYSICS, and all of them rebooted.
pub const BUSY_NONSENSE: usize = 140 + 32 + 20 + 2 * 8 + 16;
pub const BUSY_APPLIED: usize = (140 - 32) + (140 - 20) + 140;

/// Two records that make both tasks busy.
fn make_both_busy(random: &mut Random) -> [Record; 2] {
    let mut busy = || random.pick(&[task::RUNNING, task::STOPPING]);
    [
        Record::new(record::LCISTATE, busy(), 0),
        Record::new(record::LPASTATE, busy(), 0),
    ]
}

/// Strings for a reader, delivered one after the other.
pub struct Forger {
    pub reader: Reader,
    pub strings: Vec<Vec<u8>>,
    /// The model's answer to each string.
    pub answers: Vec<u16>,
}

impl Forger {
    pub fn new(number: u32) -> Forger {
        Forger {
            reader: reader::fresh(number),
            strings: Vec::new(),
            answers: Vec::new(),
        }
    }

    pub fn deliver(&mut self, bytes: Vec<u8>) -> u16 {
        let read = reader::read(&self.reader, &bytes);
        self.reader = read.reader;
        self.strings.push(bytes);
        self.answers.push(read.answer);
        read.answer
    }

    /// From every sound shape, every record of its range alone in an event: what it does to the state,
    /// and whether the state after it is sound.
    pub fn effects(&mut self) {
        let mut tried = Vec::new();
        for code in 1..=28u16 {
            for d in [0, 1, 2, 3, 4, 5, 6, ALERT_SHED] {
                for v in [0, 1, 5] {
                    let r = Record::new(code, d, v);
                    if rules::record_in_range(&r) {
                        tried.push(r);
                    }
                }
            }
        }
        for shape in sound_shapes() {
            for r in &tried {
                let count = self.reader.state.count;
                let mut records = records_to(&shape, count);
                records.push(*r);
                records.push(Record::new(record::STATUS, answer::FWD, count + 2));
                let draft = Draft::next_for(&self.reader, records);
                self.deliver(draft.bytes());
            }
        }
    }

    /// Delivers a block with these records. The answer that is wanted was worked out by hand.
    fn expect(&mut self, records: Vec<Record>, wanted: u16) -> Result<(), String> {
        let draft = Draft::next_for(&self.reader, records);
        let before = self.reader.state;
        let answer = self.deliver(draft.bytes());
        if answer != wanted {
            return Err(format!(
                "{} to a forged block, {} expected\n  state {before:?}\n  records {:?}",
                reading::NAMES[usize::from(answer)],
                reading::NAMES[usize::from(wanted)],
                draft.records
            ));
        }
        Ok(())
    }

    /// Every shape that breaks (e) alone: NONSENSE where an event ends in it; where an event only passes
    /// through it, what counts is the state at the STATUS.
    pub fn both_busy(&mut self) -> Result<(), String> {
        for shape in both_busy_shapes() {
            let records = records_to(&shape, self.reader.state.count);
            self.expect(records, reading::NONSENSE)?;
            let lci_idle = Record::new(record::LCISTATE, task::IDLE, 0);
            let lpa_idle = Record::new(record::LPASTATE, task::IDLE, 0);
            let reboot = Record::new(record::SIUREBOOT, 0, 0);
            for (change, sound) in [
                (lci_idle, shape.mode != mode::CALIBRATION), // (a)
                (lpa_idle, shape.mode != mode::PHYSICS),     // (b)
                (reboot, true),
            ] {
                let wanted = if sound {
                    reading::APPLIED
                } else {
                    reading::NONSENSE
                };
                let records = records_through(&shape, change, self.reader.state.count);
                self.expect(records, wanted)?;
            }
        }
        Ok(())
    }

    /// Blocks as earlier releases closed them: physics started while LCI was STOPPING, and the
    /// calibration over by the next event, which is too late.
    pub fn earlier_releases(&mut self) -> Result<(), String> {
        let lpastart = Event::new(event::LPASTART, 8, 0);
        let toostart = Event::new(event::TOOSTART, 7, 600);
        let mut shapes = sound_shapes();
        shapes.retain(|s| s.lci == task::STOPPING && s.saa == 0);
        for shape in shapes {
            let starts: &[Event] = match shape.mode {
                mode::QUIESCENT => &[lpastart, toostart],
                mode::TOO => &[lpastart],
                _ => &[],
            };
            for e in starts {
                let count = self.reader.state.count;
                let mut records = records_to(&shape, count);
                // They did not ask for LCI: what they wrote is what is written now while LCI is IDLE.
                let unasked = State {
                    lci: task::IDLE,
                    count: count + 1,
                    ..shape
                };
                records.extend(rules::outcome(&unasked, e).records);
                records.extend([
                    Record::new(record::CALCOMP, 0, 0),
                    Record::new(record::LCISTATE, task::IDLE, 0),
                    Record::new(record::STATUS, answer::SUCCESS, count + 3),
                ]);
                self.expect(records, reading::NONSENSE)?;
            }
        }
        Ok(())
    }

    /// Every code with values in and out of range, in an event that is sound whatever the record did.
    pub fn ranges(&mut self) {
        let codes = (0..=33u16).chain([0x100, 0x101, 0x1D00, 0x8001, u16::MAX]);
        let ds = [
            0,
            1,
            2,
            3,
            6,
            7,
            11,
            12,
            0x100,
            0x345,
            0x346,
            0x347,
            u16::MAX,
        ];
        for code in codes {
            for d in ds {
                for v in [
                    0,
                    1,
                    2,
                    4,
                    5,
                    6,
                    DWELL_MOST,
                    DWELL_MOST + 1,
                    0x0001_0000,
                    u32::MAX,
                ] {
                    let count = self.reader.state.count;
                    let records = vec![
                        Record::new(code, d, v),
                        Record::new(record::SIUREBOOT, 0, 0),
                        Record::new(record::STATUS, 0, count + 1),
                    ];
                    let draft = Draft::next_for(&self.reader, records);
                    self.deliver(draft.bytes());
                }
            }
        }
        for status in 0..=13 {
            for v in [-2i64, -1, 0, 1, 2, 256] {
                let count = i64::from(self.reader.state.count);
                let records = vec![Record::new(record::STATUS, status, (count + v) as u32)];
                let draft = Draft::next_for(&self.reader, records);
                self.deliver(draft.bytes());
            }
        }
    }

    /// Each row of the table and each way the content can be wrong, at random.
    pub fn anything(&mut self, random: &mut Random, strings: usize) {
        for _ in 0..strings {
            let mut draft = self.draft(random);
            self.spoil(random, &mut draft);
            let mut bytes = draft.bytes();
            match random.below(12) {
                0 => bytes[log::CHECK_AT + random.below(2)] ^= 1 << random.below(8),
                1 => {
                    // any one bit before the check, and the check right again
                    let bit = random.below(8 * log::CHECK_AT);
                    bytes[bit / 8] ^= 1 << (bit % 8);
                    seal(&mut bytes);
                }
                2 => {
                    // a byte beyond used
                    let end = log::RECORDS_AT + 8 * draft.records.len().min(log::CAPACITY);
                    if end < log::CHECK_AT {
                        let at = random.pick(&[end, log::CHECK_AT - 1]);
                        bytes[at] = 1;
                        seal(&mut bytes);
                    }
                }
                _ => {}
            }
            self.deliver(bytes);
        }
    }

    /// The highest number that can be a GAP, and what comes after it.
    pub fn far_gap(&mut self, random: &mut Random) {
        let mut draft = self.draft(random);
        draft.block = END - 1;
        self.deliver(draft.bytes());
        self.anything(random, 6);
    }

    /// A block that is right: events by the mode rules, some with harmless records put in.
    fn draft(&self, random: &mut Random) -> Draft {
        let mut state = self.reader.state;
        let mut records = Vec::new();
        let wanted = random.pick(&[1, 2, 10, 53, 60, 62]);
        loop {
            let e = random.pick(&edges(&state));
            let outcome = rules::outcome(&state, &e);
            let mut own = outcome.records;
            if random.one_in(3) {
                let most = random.pick(&[RECORDS_MOST, RECORDS_MOST, 5]);
                while own.len() < most {
                    let harmless = random.pick(&[
                        Record::new(record::CALABORT, 0, 0),
                        Record::new(record::POWERON, 0, 0x0102_0304),
                        Record::new(record::WAIT, 0, 5),
                        Record::new(record::ALERT, ALERT_SHED, 0),
                    ]);
                    own.insert(random.below(own.len()), harmless);
                }
            }
            if records.len() + own.len() > log::CAPACITY {
                break;
            }
            records.extend(own);
            state = outcome.state;
            if records.len() >= wanted {
                break;
            }
        }
        Draft::next_for(&self.reader, records)
    }

    /// In most cases one thing is made wrong.
    fn spoil(&self, random: &mut Random, draft: &mut Draft) {
        let n = draft.records.len();
        let some = random.below(n);
        match random.below(24) {
            0 => draft.number ^= 1 << random.below(32),
            1 => draft.block = END,
            2 => draft.block = draft.block.saturating_sub(1 + random.below(3) as u32),
            3 => draft.block += 1 + random.below(3) as u32,
            4 => draft.used = random.pick(&[0, 63, 64, 0x100, u16::MAX]),
            5 => draft.used = draft.used.wrapping_sub(1),
            6 => draft.used += 1,
            7 => draft.before = random.pick(&[END, draft.before.wrapping_sub(1), draft.before + 1]),
            8 => draft.records[some].code = random.pick(&[0, 30, 0x100, u16::MAX]),
            9 => draft.records[some].d = random.pick(&[1, 2, 3, 7, 12, u16::MAX]),
            10 => draft.records[some].v ^= 1 << random.below(32),
            11 => {
                // an event of 11 records, or of 10
                let most = 10 + random.below(2);
                let first = draft
                    .records
                    .iter()
                    .position(|r| r.code == record::STATUS)
                    .unwrap_or(0);
                let mut own = draft.records[..=first].to_vec();
                while own.len() < most {
                    own.insert(0, Record::new(record::LPAOTHER, 0, 0));
                }
                draft.used = own.len() as u16;
                draft.records = own;
            }
            12 => {
                draft.records.swap_remove(some);
                draft.used -= 1;
            }
            13 => {
                let copy = draft.records[some];
                draft.put_in(some, &[copy]);
            }
            14 => {
                draft.records.pop();
                draft.used -= 1;
            }
            15 => draft.records.swap(some, n - 1),
            16 => {
                // any change of the state before the last STATUS: often not sound
                let code = 1 + random.below(7) as u16;
                let d = random.below(3) as u16;
                draft.put_in(n - 1, &[Record::new(code, d, 0)]);
            }
            17 => {
                // both tasks busy at the last STATUS
                draft.put_in(n - 1, &make_both_busy(random));
            }
            18 => {
                // both tasks busy within the first event, then again as they were: no fault
                let s = &self.reader.state;
                let as_before = [
                    Record::new(record::LCISTATE, s.lci, 0),
                    Record::new(record::LPASTATE, s.lpa, 0),
                ];
                draft.put_in(0, &as_before);
                draft.put_in(0, &make_both_busy(random));
            }
            _ => {}
        }
    }
}
