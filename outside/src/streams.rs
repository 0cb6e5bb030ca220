//! A seeded generator of random numbers, and what it is used for: streams of event strings, and
//! deliveries of the closed blocks.

use crate::kinds::*;
use crate::log;
use crate::rules;
use crate::shapes::{edges, shape_of, Graph};

/// splitmix64.
#[derive(Clone)]
pub struct Random(u64);

impl Random {
    pub fn new(seed: u64) -> Random {
        Random(seed)
    }

    pub fn u64(&mut self) -> u64 {
        self.0 = self.0.wrapping_add(0x9E37_79B9_7F4A_7C15);
        let mut z = self.0;
        z = (z ^ (z >> 30)).wrapping_mul(0xBF58_476D_1CE4_E5B9);
        z = (z ^ (z >> 27)).wrapping_mul(0x94D0_49BB_1331_11EB);
        z ^ (z >> 31)
    }

    /// 0 to n - 1.
    pub fn below(&mut self, n: usize) -> usize {
        (self.u64() % n as u64) as usize
    }

    pub fn one_in(&mut self, n: usize) -> bool {
        self.below(n) == 0
    }

    pub fn pick<T: Copy>(&mut self, from: &[T]) -> T {
        from[self.below(from.len())]
    }

    pub fn u32(&mut self) -> u32 {
        (self.u64() >> 32) as u32
    }
}

// ---- event streams ----

#[derive(Clone, Copy, PartialEq, Eq, Debug)]
pub enum Style {
    /// Any event at any time.
    Random,
    /// Events that lead on from the mode the model is in.
    Biased,
    /// The planner picks a shape, goes there, and fires a few edges.
    Planned,
    /// As biased, with many strings that are no events.
    Spoiled,
}

pub const STYLES: [Style; 4] = [Style::Planned, Style::Biased, Style::Random, Style::Spoiled];

/// The planner looks at the model's state and remembers old armed numbers.
struct Planner<'a> {
    random: &'a mut Random,
    graph: &'a Graph,
    state: State,
    armed_once: Vec<u32>,
    /// Edges still to be fired on the way to a shape.
    way: Vec<usize>,
}

impl Planner<'_> {
    /// Where Q-1 matters: physics can be asked for while the calibration is not over.
    fn still_stopping(&self) -> bool {
        let s = &self.state;
        s.lci == task::STOPPING && [mode::QUIESCENT, mode::TOO].contains(&s.mode)
    }

    /// A code that leads on from this mode, as a person at a bench would want to go.
    fn biased_code(&mut self) -> u16 {
        use event::*;
        let codes: &[u16] = match self.state.mode {
            mode::BOOT => &[STARTED, STARTED, STARTED, STARTED, NOOP],
            mode::TERMINAL => &[MAINFEEDON, MAINFEEDON, MAINFEEDON, SAAENTER, SAAEXIT],
            // The SAA comes and goes, since it is asked before LCI is.
            mode::QUIESCENT if self.still_stopping() => &[
                LPASTART,
                LPASTART,
                LPASTART,
                TOOSTART,
                TOOSTART,
                TOOSTART,
                SAAENTER,
                SAAEXIT,
                CALSTART,
                CALABORT,
                CALCOMPLETE,
                HOLDENTER,
            ],
            mode::TOO if self.still_stopping() => &[
                LPASTART,
                LPASTART,
                LPASTART,
                SAAENTER,
                SAAEXIT,
                CALCOMPLETE,
                CALCOMPLETE,
                CALABORT,
                TOOSTART,
                TOOEXPIRED,
                TOOABORT,
            ],
            mode::QUIESCENT => &[
                CALSTART,
                CALSTART,
                CALSTART,
                LPASTART,
                LPASTART,
                LPASTART,
                TOOSTART,
                TOOSTART,
                TOOSTART,
                HOLDENTER,
                POWERON,
                POWEROFF,
                SAAENTER,
                SAAEXIT,
                SAAEXIT,
                LPACOMPLETE,
                CALCOMPLETE,
            ],
            mode::HOLD => &[
                HOLDEXIT,
                HOLDEXIT,
                HOLDEXIT,
                LPACOMPLETE,
                CALCOMPLETE,
                SAAEXIT,
                NOOP,
            ],
            mode::CALIBRATION => &[
                CALSTATUS,
                CALSTATUS,
                CALABORT,
                CALOTHER,
                CALCOMPLETE,
                SAAENTER,
                HOLDENTER,
                HOLDENTER,
                HOLDENTER,
            ],
            mode::PHYSICS => &[
                TOOSTART,
                TOOSTART,
                LPASTATUS,
                LPASTATUS,
                LPASTOP,
                LPAOTHER,
                SAAENTER,
                LPACOMPLETE,
                HOLDENTER,
            ],
            _ => &[
                TOOEXPIRED,
                TOOEXPIRED,
                TOOABORT,
                TOOSTART,
                LPASTART,
                LPASTART,
                LPASTOP,
                LPAOTHER,
                LPASTATUS,
                LPASTATUS,
                LPACOMPLETE,
                SAAENTER,
                SAAEXIT,
                SAAEXIT,
                HOLDENTER,
            ],
        };
        self.random.pick(codes)
    }

    /// Fields for a code, mostly at their edges. May be out of range where the manager must say so.
    fn fields(&mut self, code: u16) -> (u32, u32) {
        let any = self.random.u32();
        match code {
            event::POWERON | event::POWEROFF => {
                (self.random.pick(&[0, 1, u32::MAX, any, any >> 8]), 0)
            }
            event::LPASTART => (self.random.pick(&[0, 1, u32::MAX, any]), 0),
            event::TOOSTART => {
                let dwell = [
                    1,
                    DWELL_MOST,
                    600,
                    1 + any % DWELL_MOST,
                    0,
                    DWELL_MOST + 1,
                    any,
                ];
                let run = self.random.pick(&[0, 7, u32::MAX, any]);
                (run, self.random.pick(&dwell))
            }
            event::TOOEXPIRED => {
                let old = if self.armed_once.is_empty() {
                    0
                } else {
                    let recent = self.armed_once.len().min(4);
                    self.armed_once[self.armed_once.len() - 1 - self.random.below(recent)]
                };
                let s = &self.state;
                let right = s.armed;
                (
                    self.random
                        .pick(&[right, right, right, old, old, 0, s.count, any]),
                    0,
                )
            }
            event::CALSTATUS | event::LPASTATUS => {
                let a = self.random.pick(&[0, 0, 0, 1, 1, 1, 2, u32::MAX]);
                (if self.random.one_in(4) { a } else { a & 1 }, 0)
            }
            _ => (0, 0),
        }
    }

    fn event(&mut self, style: Style) -> Event {
        if style == Style::Planned {
            if self.way.is_empty() && self.random.one_in(4) {
                self.plan();
            }
            if let Some(edge) = self.way.pop() {
                return edges(&self.state)[edge];
            }
            if !self.still_stopping() || self.random.one_in(2) {
                let all = edges(&self.state);
                return self.random.pick(&all);
            }
        }
        let anything = style == Style::Random || self.random.one_in(6);
        let code = if anything {
            1 + self.random.below(23) as u16
        } else {
            self.biased_code()
        };
        // A load shed ends all that was reached, so it is held back but in the random style.
        if code == event::LOADSHED && style != Style::Random && !self.random.one_in(4) {
            return Event::new(event::NOOP, 0, 0);
        }
        let (a, b) = self.fields(code);
        Event::new(code, a, b)
    }

    fn plan(&mut self) {
        let target = self.random.below(self.graph.shapes.len());
        let from = self.graph.place[&shape_of(&self.state)];
        self.way = self.graph.way(from, |at| at == target).unwrap_or_default();
        self.way.reverse(); // fired from the end
    }

    /// A string of 12 bytes that looks like an event and may not be one.
    fn spoil(&mut self, e: &Event) -> [u8; 12] {
        let mut bytes = e.bytes();
        let any = self.random.u32();
        match self.random.below(6) {
            0 => {
                let code =
                    self.random
                        .pick(&[0, 24, 25, 0x100, 0x101, 0x1700, u16::MAX, any as u16]);
                bytes[0..2].copy_from_slice(&code.to_be_bytes());
            }
            1 => bytes[2 + self.random.below(2)] = self.random.pick(&[1, 0x80, 0xFF]),
            2 => bytes[4 + self.random.below(4)] ^= self.random.pick(&[1, 0x80, 0xFF]),
            3 => bytes[8 + self.random.below(4)] ^= self.random.pick(&[1, 0x80, 0xFF]),
            4 => bytes.reverse(),
            _ => {
                for byte in &mut bytes {
                    *byte = self.random.u64() as u8;
                }
            }
        }
        bytes
    }

    fn string(&mut self, style: Style) -> [u8; 12] {
        let e = self.event(style);
        let spoiled_in = if style == Style::Spoiled { 3 } else { 40 };
        let bytes = if self.random.one_in(spoiled_in) && self.way.is_empty() {
            self.spoil(&e)
        } else {
            e.bytes()
        };
        if let Some(e) = Event::read(&bytes) {
            self.state = rules::outcome(&self.state, &e).state;
            if self.state.armed != 0 && self.armed_once.last() != Some(&self.state.armed) {
                self.armed_once.push(self.state.armed);
            }
        }
        bytes
    }
}

/// `length` groups of 12 bytes; in one stream of three a short last group.
pub fn stream(random: &mut Random, graph: &Graph, style: Style, length: usize) -> Vec<u8> {
    let tail = if random.one_in(3) {
        1 + random.below(11)
    } else {
        0
    };
    let mut planner = Planner {
        random,
        graph,
        state: State::default(),
        armed_once: Vec::new(),
        way: Vec::new(),
    };
    let mut out = Vec::with_capacity(12 * length + 12);
    for _ in 0..length {
        let string = planner.string(style);
        out.extend_from_slice(&string);
    }
    if tail > 0 {
        let string = planner.string(style);
        out.extend_from_slice(&string[..tail]);
    }
    out
}

/// For every number of records used near the end of a block, and events of 1 to 6, 8 and 10 records:
/// the event that comes just there.
pub fn block_edges() -> Vec<u8> {
    use event::*;
    // Events, each with what leads to it from BOOT.
    let e = Event::new;
    let started = [e(STARTED, 0, 0), e(MAINFEEDON, 0, 0)];
    let physics = [started[0], started[1], e(LPASTART, 8, 0)];
    let too = [started[0], started[1], e(TOOSTART, 7, 600)];
    let events: [(&[Event], Event); 9] = [
        (&[], e(NOOP, 0, 0)),
        (&[], e(STARTED, 0, 0)),
        (&started[..1], e(MAINFEEDON, 0, 0)),
        (&started, e(CALSTART, 0, 0)),
        (&too, e(TOOABORT, 0, 0)),
        (&physics, e(SAAENTER, 0, 0)),
        (&started, e(TOOSTART, 7, 600)),
        (&started, e(LOADSHED, 0, 0)),
        (&physics, e(LOADSHED, 0, 0)),
    ];
    let mut m = log::fresh(0);
    let mut out = Vec::new();
    let mut fire = |m: &mut log::Manager, event: Event| {
        let stepped = log::step(m, &event.bytes(), &mut [0; log::BLOCK]);
        assert!(stepped.answer <= answer::STALE, "each event is logged");
        *m = stepped.manager;
        out.extend_from_slice(&event.bytes());
    };
    for used in 52..=log::CAPACITY as u16 {
        for (before, last) in events {
            for event in before {
                fire(&mut m, *event);
            }
            while m.log.used != used {
                // one record: NOTRUN in BOOT, else SUCCESS
                fire(&mut m, e(NOOP, 0, 0));
            }
            fire(&mut m, last);
            if m.state.mode != mode::BOOT {
                fire(&mut m, e(LOADSHED, 0, 0));
            }
        }
    }
    out
}

// ---- deliveries ----

/// Where a delivered string comes from: a closed block, by its place, or elsewhere.
#[derive(Clone, Copy, PartialEq, Eq, Debug)]
pub enum Source {
    Own(usize),
    Stray,
}

#[derive(Clone)]
pub struct Delivered {
    pub source: Source,
    pub bytes: Vec<u8>,
}

/// What a delivery is made from.
pub struct Sender<'a> {
    pub number: u32,
    pub blocks: &'a [Vec<u8>],
    /// Whether strings may have any length, or 512 bytes alone as `desk` cuts them.
    pub any_length: bool,
}

impl Sender<'_> {
    fn own(&self, place: usize) -> Delivered {
        Delivered {
            source: Source::Own(place),
            bytes: self.blocks[place].clone(),
        }
    }

    /// A block of this log, or something of the same form where there is none.
    fn some_block(&self, random: &mut Random) -> Vec<u8> {
        if self.blocks.is_empty() {
            let mut m = log::fresh(self.number);
            let mut lent = vec![0; log::BLOCK];
            m = log::step(&m, &Event::new(event::STARTED, 0, 0).bytes(), &mut lent).manager;
            log::flush(&m, &mut lent);
            return lent;
        }
        self.blocks[random.below(self.blocks.len())].clone()
    }

    /// A string that is no block of this log: other log number, wrong check, wrong length.
    fn stray(&self, random: &mut Random) -> Delivered {
        let mut bytes = self.some_block(random);
        match random.below(if self.any_length { 11 } else { 7 }) {
            0 | 1 => {
                // another log's block, its check right
                let near = [self.number ^ 1, self.number.wrapping_add(1), !self.number];
                let far = random.u32() | 1;
                let other = if random.one_in(2) {
                    random.pick(&near)
                } else {
                    self.number ^ far
                };
                bytes[0..4].copy_from_slice(&other.to_be_bytes());
                if random.one_in(3) {
                    bytes[4..8].copy_from_slice(&u32::MAX.to_be_bytes());
                }
                let check = log::check(&bytes[..log::CHECK_AT]);
                bytes[log::CHECK_AT..].copy_from_slice(&check.to_be_bytes());
            }
            2 | 3 => {
                for _ in 0..1 + random.below(4) {
                    let bit = random.below(8 * log::BLOCK);
                    bytes[bit / 8] ^= 1 << (bit % 8);
                }
            }
            4 => {
                // the front of one block and the end of another, as a torn copy has
                let other = self.some_block(random);
                let cut = 1 + random.below(log::BLOCK - 1);
                bytes[cut..].copy_from_slice(&other[cut..]);
                if log::whole(&bytes) {
                    bytes[cut] ^= 0x10;
                }
            }
            5 => {
                for byte in &mut bytes {
                    *byte = random.u64() as u8;
                }
            }
            6 => bytes = vec![random.pick(&[0, 0xFF]); log::BLOCK],
            7 => bytes.truncate(random.below(log::BLOCK)),
            8 => bytes.clear(),
            9 => bytes.truncate(random.pick(&[1, 14, 510, 511])),
            _ => {
                let more = 1 + random.below(600);
                bytes.resize(log::BLOCK + more, random.pick(&[0, 0xA5]));
            }
        }
        // A chance hit on a right check would be no stray: it is spoiled once more.
        let ours = log::whole(&bytes) && log::u32_at(&bytes, 0) == self.number;
        if ours {
            bytes[20] ^= 1;
        }
        Delivered {
            source: Source::Stray,
            bytes,
        }
    }

    /// Loss, repeats, disorder and strays; then all blocks in order, repeats and strays between.
    pub fn delivery(&self, random: &mut Random) -> Vec<Delivered> {
        let mut out: Vec<Delivered> = Vec::new();
        let n = self.blocks.len();
        let mut at = 0;
        for _ in 0..n + 12 {
            match random.below(20) {
                _ if n == 0 => out.push(self.stray(random)),
                0..=9 if at < n => {
                    out.push(self.own(at));
                    at += 1;
                }
                10 => at += 1 + random.below(3), // lost
                11 | 12 => out.push(self.own(random.below(n.min(at + 1)))), // once more
                13 => out.push(self.own(random.below(n))), // from anywhere
                14 if at < n => {
                    // two that changed places
                    out.push(self.own((at + 1).min(n - 1)));
                    out.push(self.own(at));
                    at += 2;
                }
                15 => at -= at.min(random.below(8)), // sent again from an earlier place
                16 | 17 => {
                    // what was asked for again comes
                    let missing = first_missing(&out);
                    if missing < n {
                        out.push(self.own(missing));
                    }
                }
                _ => out.push(self.stray(random)),
            }
        }
        for place in 0..n {
            while random.one_in(6) {
                let again = random.one_in(2);
                out.push(if again {
                    self.own(random.below(place + 1))
                } else {
                    self.stray(random)
                });
            }
            out.push(self.own(place));
        }
        for _ in 0..random.below(4) {
            out.push(self.stray(random));
        }
        out
    }
}

/// The block that is next to come, counted from block 0 upward with anything in between.
fn first_missing(delivery: &[Delivered]) -> usize {
    let mut missing = 0;
    for d in delivery {
        missing += usize::from(d.source == Source::Own(missing));
    }
    missing
}
