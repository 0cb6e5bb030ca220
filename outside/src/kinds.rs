//! The numbers of document 01, each written once, in a module for the kind it belongs to.
//!
//! Every value is a plain unsigned number, so that states which are not sound can be held too.

/// 01 State: mode.
pub mod mode {
    pub const BOOT: u16 = 0;
    pub const TERMINAL: u16 = 1;
    pub const QUIESCENT: u16 = 2;
    pub const HOLD: u16 = 3;
    pub const CALIBRATION: u16 = 4;
    pub const PHYSICS: u16 = 5;
    pub const TOO: u16 = 6;
    pub const NAMES: [&str; 7] = [
        "BOOT",
        "TERMINAL",
        "QUIESCENT",
        "HOLD",
        "CALIBRATION",
        "PHYSICS",
        "TOO",
    ];
}

/// 01 State: LCI and LPA.
pub mod task {
    pub const IDLE: u16 = 0;
    pub const RUNNING: u16 = 1;
    pub const STOPPING: u16 = 2;
}

/// 01 State: LPA mode.
pub mod lpa_mode {
    pub const NORMAL: u16 = 0;
    pub const TOO: u16 = 1;
}

/// 01 State: TOO state.
pub mod too {
    pub const NONE: u16 = 0;
    pub const WAITING: u16 = 1;
    pub const STARTED: u16 = 2;
}

/// 01 Events.
pub mod event {
    pub const STARTED: u16 = 1;
    pub const MAINFEEDON: u16 = 2;
    pub const POWERON: u16 = 3;
    pub const POWEROFF: u16 = 4;
    pub const HOLDENTER: u16 = 5;
    pub const HOLDEXIT: u16 = 6;
    pub const SAAENTER: u16 = 7;
    pub const SAAEXIT: u16 = 8;
    pub const LOADSHED: u16 = 9;
    pub const NOOP: u16 = 10;
    pub const CALSTART: u16 = 11;
    pub const CALABORT: u16 = 12;
    pub const CALOTHER: u16 = 13;
    pub const LPASTART: u16 = 14;
    pub const LPASTOP: u16 = 15;
    pub const LPAOTHER: u16 = 16;
    pub const TOOSTART: u16 = 17;
    pub const TOOABORT: u16 = 18;
    pub const TOOEXPIRED: u16 = 19;
    pub const CALSTATUS: u16 = 20;
    pub const CALCOMPLETE: u16 = 21;
    pub const LPASTATUS: u16 = 22;
    pub const LPACOMPLETE: u16 = 23;
    pub const NAMES: [&str; 24] = [
        "?",
        "STARTED",
        "MAINFEEDON",
        "POWERON",
        "POWEROFF",
        "HOLDENTER",
        "HOLDEXIT",
        "SAAENTER",
        "SAAEXIT",
        "LOADSHED",
        "NOOP",
        "CALSTART",
        "CALABORT",
        "CALOTHER",
        "LPASTART",
        "LPASTOP",
        "LPAOTHER",
        "TOOSTART",
        "TOOABORT",
        "TOOEXPIRED",
        "CALSTATUS",
        "CALCOMPLETE",
        "LPASTATUS",
        "LPACOMPLETE",
    ];
}

/// 01 Records.
pub mod record {
    pub const OPMODE: u16 = 1;
    pub const LCISTATE: u16 = 2;
    pub const LPASTATE: u16 = 3;
    pub const LPAMODE: u16 = 4;
    pub const SAACHANGE: u16 = 5;
    pub const TOOSTATE: u16 = 6;
    pub const TOOTIMER: u16 = 7;
    pub const CALSTART: u16 = 8;
    pub const CALABORT: u16 = 9;
    pub const CALOTHER: u16 = 10;
    pub const CALSTATUS: u16 = 11;
    pub const CALCOMP: u16 = 12;
    pub const LPASTART: u16 = 13;
    pub const LPASTOP: u16 = 14;
    pub const LPAOTHER: u16 = 15;
    pub const LPASTATUS: u16 = 16;
    pub const LPACOMP: u16 = 17;
    pub const SAACFG: u16 = 18;
    pub const NONSAACFG: u16 = 19;
    pub const MAINFEED: u16 = 20;
    pub const POWERON: u16 = 21;
    pub const POWEROFF: u16 = 22;
    pub const LTCSTOP: u16 = 23;
    pub const SHEDBEGIN: u16 = 24;
    pub const SHEDEND: u16 = 25;
    pub const SIUREBOOT: u16 = 26;
    pub const WAIT: u16 = 27;
    pub const ALERT: u16 = 28;
    pub const STATUS: u16 = 29;
}

/// 01 Answers of the manager: 0 to 11 are logged as status, 12 to 16 are not logged.
pub mod answer {
    pub const SUCCESS: u16 = 0;
    pub const PKTSENT: u16 = 1;
    pub const FWD: u16 = 2;
    pub const NOTRUN: u16 = 3;
    pub const BADMODE: u16 = 4;
    pub const TOOACT: u16 = 5;
    pub const BADPARAM: u16 = 6;
    pub const SAA: u16 = 7;
    pub const OTHRUN: u16 = 8;
    pub const OTHSTOP: u16 = 9;
    pub const OTHIDLE: u16 = 10;
    pub const STALE: u16 = 11;
    pub const FULL: u16 = 12;
    pub const BADSTATE: u16 = 13;
    pub const BADEVENT: u16 = 14;
    pub const BADBUF: u16 = 15;
    pub const EMPTY: u16 = 16;
    pub const NAMES: [&str; 17] = [
        "SUCCESS", "PKTSENT", "FWD", "NOTRUN", "BADMODE", "TOOACT", "BADPARAM", "SAA", "OTHRUN",
        "OTHSTOP", "OTHIDLE", "STALE", "FULL", "BADSTATE", "BADEVENT", "BADBUF", "EMPTY",
    ];
}

/// 01 The ground reader: its answers.
pub mod reading {
    pub const APPLIED: u16 = 0;
    pub const ALREADY: u16 = 1;
    pub const GAP: u16 = 2;
    pub const DAMAGED: u16 = 3;
    pub const OTHERLOG: u16 = 4;
    pub const NONSENSE: u16 = 5;
    pub const RSTATE: u16 = 6;
    pub const NAMES: [&str; 7] = [
        "APPLIED", "ALREADY", "GAP", "DAMAGED", "OTHERLOG", "NONSENSE", "RSTATE",
    ];
}

/// 01 State: the end of count (and of block numbers).
pub const END: u32 = 4_294_967_295;
/// 01 Records, ranges: the longest dwell in seconds; the shortest is 1.
pub const DWELL_MOST: u32 = 86_400;
/// 01 Records, ranges: the one alert.
pub const ALERT_SHED: u16 = 0x346;
/// 01 Records: the most that an event can have, its STATUS counted (D-7).
pub const RECORDS_MOST: usize = 10;

/// 01 State. The log's own fields stand in `log::Log`.
#[derive(Clone, Copy, PartialEq, Eq, Hash, Debug, Default)]
pub struct State {
    pub mode: u16,
    pub lci: u16,
    pub lpa: u16,
    pub lpa_mode: u16,
    pub saa: u16,
    pub lci_awaited: u16,
    pub lpa_awaited: u16,
    pub too: u16,
    pub armed: u32,
    pub count: u32,
}

/// An event as it is sent (01 Events).
#[derive(Clone, Copy, PartialEq, Eq, Debug)]
pub struct Event {
    pub code: u16,
    pub a: u32,
    pub b: u32,
}

impl Event {
    pub fn new(code: u16, a: u32, b: u32) -> Event {
        Event { code, a, b }
    }

    pub fn bytes(&self) -> [u8; 12] {
        let mut out = [0; 12];
        out[0..2].copy_from_slice(&self.code.to_be_bytes());
        out[4..8].copy_from_slice(&self.a.to_be_bytes());
        out[8..12].copy_from_slice(&self.b.to_be_bytes());
        out
    }

    /// 01 Answers, 14 BADEVENT: nothing comes back for a string that is not an event.
    pub fn read(bytes: &[u8]) -> Option<Event> {
        if bytes.len() != 12 {
            return None;
        }
        let code = u16::from_be_bytes([bytes[0], bytes[1]]);
        let zero = u16::from_be_bytes([bytes[2], bytes[3]]);
        let a = u32::from_be_bytes([bytes[4], bytes[5], bytes[6], bytes[7]]);
        let b = u32::from_be_bytes([bytes[8], bytes[9], bytes[10], bytes[11]]);
        let (a_named, b_named) = match code {
            event::POWERON | event::POWEROFF => (true, false),
            event::LPASTART => (true, false),
            event::TOOSTART => (true, true),
            event::TOOEXPIRED => (true, false),
            event::CALSTATUS | event::LPASTATUS => (true, false),
            1..=23 => (false, false),
            _ => return None,
        };
        // Zero fields: the second u16, and a or b wherever the table gives it no meaning (D-1).
        if zero != 0 || (!a_named && a != 0) || (!b_named && b != 0) {
            return None;
        }
        if (code == event::CALSTATUS || code == event::LPASTATUS) && a > 1 {
            return None;
        }
        Some(Event { code, a, b })
    }
}

/// A record as it is logged (01 Records).
#[derive(Clone, Copy, PartialEq, Eq, Debug)]
pub struct Record {
    pub code: u16,
    pub d: u16,
    pub v: u32,
}

impl Record {
    pub fn new(code: u16, d: u16, v: u32) -> Record {
        Record { code, d, v }
    }

    pub fn bytes(&self) -> [u8; 8] {
        let mut out = [0; 8];
        out[0..2].copy_from_slice(&self.code.to_be_bytes());
        out[2..4].copy_from_slice(&self.d.to_be_bytes());
        out[4..8].copy_from_slice(&self.v.to_be_bytes());
        out
    }

    /// Of exactly 8 bytes.
    pub fn read(bytes: &[u8]) -> Record {
        Record {
            code: u16::from_be_bytes([bytes[0], bytes[1]]),
            d: u16::from_be_bytes([bytes[2], bytes[3]]),
            v: u32::from_be_bytes([bytes[4], bytes[5], bytes[6], bytes[7]]),
        }
    }
}
