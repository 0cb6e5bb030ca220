//! Making an input that fails shorter: the fewest groups from its beginning that fail in the same way.

use std::time::{Duration, Instant};

/// In what way a run falls short of the model. While an input is made shorter only the same way counts,
/// so that a run that is merely slow is not taken for one that writes something wrong.
#[derive(Clone, Copy, PartialEq, Eq, Debug)]
pub enum Kind {
    /// Standard output is not the model's.
    Output,
    /// Standard error is empty, and should not be.
    Silence,
    /// A status other than 0, or a signal.
    Ending,
    /// It did not end in the time it was given.
    Late,
    /// It could not be started, or its pipes failed.
    NotRun,
}

#[derive(Clone, Debug)]
pub struct Fault {
    pub kind: Kind,
    pub told: String,
}

impl Fault {
    pub fn new(kind: Kind, told: impl Into<String>) -> Fault {
        Fault {
            kind,
            told: told.into(),
        }
    }
}

impl From<Fault> for String {
    fn from(fault: Fault) -> String {
        fault.told
    }
}

pub struct Shortest {
    /// How many groups it has.
    pub groups: usize,
    pub fault: Fault,
    /// How many shorter ones there was no time for.
    pub untried: usize,
    /// How many shorter ones did not end in time, where another kind of fault was looked for.
    pub late: usize,
    /// The first shorter one that failed in another way.
    pub other: Option<(usize, Fault)>,
}

impl Shortest {
    /// Whether every shorter one was tried, and ended.
    pub fn certain(&self) -> bool {
        self.untried == 0 && self.late == 0
    }
}

/// `whole` groups failed with this fault; `attempt` tries so many of them. Failing need not be monotone (a
/// block that is lost only at the end of an input is there again when more comes), so halving gives a
/// bound from above and no more; under it every number of groups is tried, from none on, until one fails.
/// `bound` is for that second part.
pub fn shortest(
    whole: usize,
    fault: Fault,
    bound: Duration,
    mut attempt: impl FnMut(usize) -> Result<(), Fault>,
) -> Shortest {
    let kind = fault.kind;
    let mut found = Shortest {
        groups: whole,
        fault,
        untried: 0,
        late: 0,
        other: None,
    };
    let mut good = 0;
    while good + 1 < found.groups {
        let middle = (good + found.groups) / 2;
        match attempt(middle) {
            Err(fault) if fault.kind == kind => {
                found.groups = middle;
                found.fault = fault;
            }
            _ => good = middle,
        }
    }
    let began = Instant::now();
    for groups in 0..found.groups {
        if began.elapsed() >= bound {
            found.untried = found.groups - groups;
            break;
        }
        match attempt(groups) {
            Ok(()) => {}
            Err(fault) if fault.kind == kind => {
                found.groups = groups;
                found.fault = fault;
                break;
            }
            Err(fault) => {
                found.late += usize::from(fault.kind == Kind::Late);
                found.other.get_or_insert((groups, fault));
            }
        }
    }
    found
}
