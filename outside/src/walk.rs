//! All sound shapes of the small fields and all events with their parameter edges, in the model:
//! soundness is kept, ten records are enough, and the reader rebuilds what the manager did.

use std::collections::BTreeSet;

use crate::kinds::*;
use crate::reader::{self, Reader};
use crate::shapes::{by_mode, combinations, edges, sound_shapes, ByMode};
use crate::{log, rules};

/// (mode, event, status)
pub type Combination = (u16, u16, u16);

pub struct Walked {
    pub shapes: ByMode,
    /// The shapes that were refused and break (e) alone.
    pub both_busy: ByMode,
    pub steps: usize,
    pub most_records: usize,
    pub reached: BTreeSet<Combination>,
}

pub fn walk() -> Result<Walked, String> {
    let shapes = sound_shapes();
    let mut walked = Walked {
        shapes: by_mode(&shapes),
        both_busy: [0; 7],
        steps: 0,
        most_records: 0,
        reached: BTreeSet::new(),
    };
    for shape in shapes {
        for s in with_numbers(&shape) {
            for e in edges(&s) {
                let n = one(&s, &e, &mut walked.reached)
                    .map_err(|what| format!("{what}\n  state {s:?}\n  event {e:?}"))?;
                walked.most_records = walked.most_records.max(n);
                walked.steps += 1;
            }
            at_the_end(&s)?;
        }
    }
    for s in combinations().iter().filter(|s| !rules::sound(s)) {
        unsound(s)?;
        walked.both_busy[usize::from(s.mode)] += usize::from(rules::sound_a_to_d(s));
    }
    for s in out_of_range() {
        unsound(&s)?;
    }
    Ok(walked)
}

/// The shape with counts and armed numbers at their edges; FULL is asked apart.
fn with_numbers(shape: &State) -> Vec<State> {
    let mut all = Vec::new();
    for count in [0, 1, 2, 700_000, END - 1] {
        let mut armed = vec![0];
        if shape.mode == mode::TOO {
            armed = vec![1, count / 2, count];
            armed.retain(|a| *a >= 1 && *a <= count);
            armed.dedup();
        }
        for armed in armed {
            all.push(State {
                armed,
                count,
                ..*shape
            });
        }
    }
    all.retain(rules::sound);
    all
}

/// A manager in this state with an empty open block.
fn manager_in(s: &State) -> log::Manager {
    let mut m = log::fresh(5);
    m.state = *s;
    m.log.before = s.count;
    m
}

/// One step, held to what 01 says of every step. The number of its records comes back.
fn one(s: &State, e: &Event, reached: &mut BTreeSet<Combination>) -> Result<usize, String> {
    let mut lent = [0xA5; log::BLOCK];
    let stepped = log::step(&manager_in(s), &e.bytes(), &mut lent);
    let m = &stepped.manager;
    let ask = |holds: bool, what: &str| holds.then_some(()).ok_or(what.to_string());
    ask(stepped.answer <= answer::STALE, "an event was not logged")?;
    ask(!stepped.written, "an empty block did not take an event")?;
    ask(rules::sound(&m.state), "the state after it is not sound")?;
    ask(m.log.sound(m.state.count), "the log after it is not sound")?;
    ask(m.state.count == s.count + 1, "count did not go up by one")?;
    let n = usize::from(m.log.used);
    ask((1..=RECORDS_MOST).contains(&n), "not 1 to 10 records")?;
    let records: Vec<Record> = m.log.area[..8 * n].chunks(8).map(Record::read).collect();
    ask(
        records.iter().all(rules::record_in_range),
        "a record is out of range",
    )?;
    let statuses = records.iter().filter(|r| r.code == record::STATUS).count();
    let last = Record::new(record::STATUS, stepped.answer, s.count + 1);
    ask(
        statuses == 1 && records[n - 1] == last,
        "the records do not end with their one STATUS",
    )?;
    if stepped.answer >= answer::NOTRUN {
        let counted = State {
            count: s.count + 1,
            ..*s
        };
        ask(
            n == 1 && m.state == counted,
            "a refusal did more than count",
        )?;
    }
    let flushed = log::flush(m, &mut lent);
    ask(
        flushed.written && flushed.answer == answer::SUCCESS,
        "the flush did not close the block",
    )?;
    let ground = Reader {
        number: 5,
        state: *s,
        next: 0,
        heard: 0,
    };
    let read = reader::read(&ground, &lent);
    ask(
        read.answer == reading::APPLIED && read.reader.state == m.state,
        "the reader does not rebuild the state",
    )?;
    reached.insert((s.mode, e.code, stepped.answer));
    Ok(n)
}

/// With count at its end every event is FULL and changes nothing, and a flush still closes.
fn at_the_end(s: &State) -> Result<(), String> {
    let s = State { count: END, ..*s };
    let mut m = manager_in(&s);
    for e in edges(&s) {
        let mut lent = [0xA5; log::BLOCK];
        let stepped = log::step(&m, &e.bytes(), &mut lent);
        if stepped.answer != answer::FULL || stepped.manager != m || lent != [0xA5; log::BLOCK] {
            return Err(format!("not FULL, or something changed: {s:?} {e:?}"));
        }
    }
    m.log.before = END - 1;
    m.log.used = 1;
    if log::flush(&m, &mut [0; log::BLOCK]).answer != answer::SUCCESS {
        return Err(format!("FULL stopped a flush: {s:?}"));
    }
    Ok(())
}

/// A state that is not sound is refused by step, flush and reader, and nothing changes.
fn unsound(s: &State) -> Result<(), String> {
    let m = manager_in(s);
    let mut lent = [0xA5; log::BLOCK];
    let ground = Reader {
        number: 5,
        state: *s,
        next: 0,
        heard: 0,
    };
    let stepped = log::step(&m, &Event::new(event::NOOP, 0, 0).bytes(), &mut lent);
    let flushed = log::flush(&m, &mut lent);
    let read = reader::read(&ground, &lent);
    let refused = stepped.answer == answer::BADSTATE
        && flushed.answer == answer::BADSTATE
        && read.answer == reading::RSTATE;
    let unchanged = stepped.manager == m
        && flushed.manager == m
        && read.reader == ground
        && lent == [0xA5; log::BLOCK];
    if !refused || !unchanged {
        return Err(format!("a state that is not sound was taken: {s:?}"));
    }
    Ok(())
}

/// One field too high at a time, and numbers of (c) that do not fit.
fn out_of_range() -> Vec<State> {
    let quiet = State {
        mode: mode::QUIESCENT,
        count: 9,
        ..State::default()
    };
    let too = State {
        mode: mode::TOO,
        too: too::WAITING,
        armed: 3,
        ..quiet
    };
    vec![
        State { mode: 7, ..quiet },
        State { lci: 3, ..quiet },
        State { lpa: 3, ..quiet },
        State {
            lpa_mode: 2,
            ..quiet
        },
        State { saa: 2, ..quiet },
        State {
            lci_awaited: 2,
            ..quiet
        },
        State {
            lpa_awaited: 2,
            ..quiet
        },
        State { too: 3, ..too },
        State { armed: 1, ..quiet },
        State { armed: 0, ..too },
        State { armed: 10, ..too },
        State { too: 0, ..too },
    ]
}
