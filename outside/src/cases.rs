//! Starts of physics around a calibration that is still stopping, which Q-1 is about. The tour fires each of
//! them; streams must meet them too, since there they come with all that can stand before and after them.

use crate::kinds::*;
use crate::rules::{self, Outcome};

/// A state before an event, the event, and what 01 and Q-1 say of it: worked out by hand, so that a case
/// which the model answers in another way is never met.
pub struct Case {
    mode: u16,
    lci: u16,
    saa: u16,
    /// TOO state before and after.
    too: (u16, u16),
    code: u16,
    status: u16,
}

pub const CASES: [Case; 9] = {
    use answer::*;
    use event::{CALCOMPLETE, LPASTART, TOOSTART};
    use mode::{QUIESCENT, TOO};
    use task::{IDLE, STOPPING};
    use too::{NONE, STARTED, WAITING};
    [
        case(QUIESCENT, STOPPING, 0, (NONE, NONE), LPASTART, OTHSTOP),
        case(QUIESCENT, STOPPING, 1, (NONE, NONE), LPASTART, SAA),
        case(TOO, STOPPING, 0, (WAITING, WAITING), LPASTART, OTHSTOP),
        case(TOO, STOPPING, 1, (WAITING, WAITING), LPASTART, SAA),
        case(QUIESCENT, STOPPING, 0, (NONE, WAITING), TOOSTART, SUCCESS),
        case(QUIESCENT, STOPPING, 1, (NONE, WAITING), TOOSTART, SUCCESS),
        case(QUIESCENT, STOPPING, 0, (NONE, NONE), TOOSTART, BADPARAM),
        // The end of the calibration starts nothing by itself; the next LPASTART is taken.
        case(TOO, STOPPING, 0, (WAITING, WAITING), CALCOMPLETE, SUCCESS),
        case(TOO, IDLE, 0, (WAITING, STARTED), LPASTART, PKTSENT),
    ]
};

pub type Met = [usize; CASES.len()];

const fn case(mode: u16, lci: u16, saa: u16, too: (u16, u16), code: u16, status: u16) -> Case {
    Case {
        mode,
        lci,
        saa,
        too,
        code,
        status,
    }
}

impl Case {
    fn is_met(&self, s: &State, e: &Event, outcome: &Outcome) -> bool {
        (self.mode, self.lci, self.saa) == (s.mode, s.lci, s.saa)
            && self.too == (s.too, outcome.state.too)
            && (self.code, self.status) == (e.code, outcome.status)
    }

    pub fn title(&self) -> String {
        format!(
            "{} in {}, LCI {}, SAA {}, TOO state {} to {}: {}",
            event::NAMES[usize::from(self.code)],
            mode::NAMES[usize::from(self.mode)],
            self.lci,
            self.saa,
            self.too.0,
            self.too.1,
            answer::NAMES[usize::from(self.status)]
        )
    }
}

/// Counts the cases that a stream of event strings meets.
pub fn count(input: &[u8], met: &mut Met) {
    let mut s = State::default();
    for e in input.chunks(12).filter_map(Event::read) {
        let outcome = rules::outcome(&s, &e);
        for (case, n) in CASES.iter().zip(met.iter_mut()) {
            *n += usize::from(case.is_met(&s, &e, &outcome));
        }
        s = outcome.state;
    }
}
