//! Demand 3, said once more beside the reader: it is checked at every moment of a delivery, from what
//! the manager did and what was delivered, without a look at the reader's own next and heard.

use crate::kinds::*;
use crate::streams::{Delivered, Source};
use crate::{log, reader};

/// What is done to a manager.
#[derive(Clone)]
pub enum Op {
    Event(Vec<u8>),
    Flush,
}

/// What a fresh manager did.
pub struct Run {
    /// The state right after each event, by its number; place 0 is the fresh state.
    pub history: Vec<State>,
    pub blocks: Vec<Vec<u8>>,
    /// For each closed block the number of the last event in it.
    pub last_event: Vec<u32>,
    /// For each closed block the place of the call that closed it.
    closed_by: Vec<usize>,
}

/// What the lent bytes hold before a call, so that "stay" can be seen.
const LENT_BEFORE: u8 = 0xA5;

/// Runs a manager and holds each answer to demands 1 and 2 as far as they show here: lent bytes,
/// unlogged refusals, that one task at most is busy, and that the records read back are those written. An
/// error names the place of the call: the calls up to it are the shortest prefix that fails, since every
/// shorter one went well.
pub fn run(number: u32, ops: &[Op]) -> Result<Run, (usize, String)> {
    let mut m = log::fresh(number);
    let mut run = Run {
        history: vec![m.state],
        blocks: Vec::new(),
        last_event: Vec::new(),
        closed_by: Vec::new(),
    };
    // The records written since the last closed block.
    let mut written: Vec<u8> = Vec::new();
    for (place, op) in ops.iter().enumerate() {
        let fail = |what: &str| Err((place, what.to_string()));
        let mut lent = vec![LENT_BEFORE; log::BLOCK];
        let (stepped, own) = match op {
            Op::Event(bytes) => {
                let own = Event::read(bytes)
                    .map(|e| crate::rules::outcome(&m.state, &e).records)
                    .unwrap_or_default();
                (log::step(&m, bytes, &mut lent), own)
            }
            Op::Flush => (log::flush(&m, &mut lent), Vec::new()),
        };
        if stepped.written {
            if log::records(&lent) != written {
                return fail("the closed block does not give back the records written");
            }
            run.blocks.push(lent);
            run.last_event.push(m.state.count);
            run.closed_by.push(place);
            written.clear();
        } else if lent.iter().any(|b| *b != LENT_BEFORE) {
            return fail("no block was written, and the lent bytes changed");
        }
        for record in &own {
            written.extend_from_slice(&record.bytes());
        }
        if stepped.answer == answer::BADSTATE {
            return fail("a manager that started fresh is not sound");
        }
        if stepped.answer > answer::STALE && stepped.manager != m {
            return fail("an unlogged refusal changed the manager");
        }
        m = stepped.manager;
        // Q-1 in its own words, beside the soundness that step and reader ask for
        if m.state.lci != task::IDLE && m.state.lpa != task::IDLE {
            return fail("calibration and physics are busy at once");
        }
        if matches!(op, Op::Event(_)) && stepped.answer <= answer::STALE {
            run.history.push(m.state);
        }
        if m.state.count as usize + 1 != run.history.len() {
            return fail("count is not the number of events closed");
        }
    }
    Ok(run)
}

/// Checks (a), (b) and (c) after each string. An error names the place of the string in the delivery:
/// what came up to it is the shortest prefix that fails.
pub fn check(number: u32, run: &Run, delivery: &[Delivered]) -> Result<(), (usize, String)> {
    let mut r = reader::fresh(number);
    let mut met = vec![false; run.blocks.len()];
    let mut applied = vec![false; run.blocks.len()];
    // How far the delivery has got from block 0 upward, with anything in between.
    let mut in_order = 0;
    for (place, delivered) in delivery.iter().enumerate() {
        let fail = |what: String| Err((place, what));
        let read = reader::read(&r, &delivered.bytes);
        r = read.reader;
        match delivered.source {
            Source::Own(block) => {
                met[block] = true;
                applied[block] |= read.answer == reading::APPLIED;
                if block == in_order {
                    in_order += 1;
                }
            }
            Source::Stray if read.answer == reading::APPLIED => {
                return fail("a stray string was applied".to_string());
            }
            Source::Stray => {}
        }
        // (a) what the reader shows, against the manager's history at the reader's count
        if run.history.get(r.state.count as usize) != Some(&r.state) {
            return fail(format!(
                "(a) {:?} is not what the manager had at that count",
                r.state
            ));
        }
        // (b) behind, against what has come and was never answered APPLIED
        let owed = (0..met.len()).any(|block| met[block] && !applied[block]);
        if reader::behind(&r) != owed {
            return fail(format!("(b) behind is {}, owed is {owed}", !owed));
        }
        // (c) against the history at the end of the blocks that came one after the other
        let last = match in_order {
            0 => 0,
            n => run.last_event[n - 1],
        };
        if r.state != run.history[last as usize] {
            return fail(format!(
                "(c) {in_order} blocks came in order; {:?} is not the state after event {last}",
                r.state
            ));
        }
    }
    if in_order != run.blocks.len() {
        return Err((
            delivery.len(),
            "the delivery does not bring all blocks in order".to_string(),
        ));
    }
    Ok(())
}

// ---- telling, so that a failure can be played again ----

/// How many calls it takes to close the blocks that are in this delivery: with fewer it could not be.
pub fn calls_needed(run: &Run, delivery: &[Delivered]) -> usize {
    let last = delivery.iter().filter_map(|d| match d.source {
        Source::Own(block) => Some(run.closed_by[block] + 1),
        Source::Stray => None,
    });
    last.max().unwrap_or(0)
}

/// The log number and the calls, a line each: an event's bytes, or a flush.
pub fn told_calls(number: u32, ops: &[Op]) -> String {
    let mut out = format!(
        "log number {number}, a fresh manager, {} calls:\n",
        ops.len()
    );
    for op in ops {
        match op {
            Op::Event(bytes) => out += &format!("event {}\n", hex(bytes)),
            Op::Flush => out += "flush\n",
        }
    }
    out
}

/// The strings delivered, a line each.
pub fn told_delivery(delivery: &[Delivered]) -> String {
    let mut out = format!("a fresh reader, {} strings:\n", delivery.len());
    for d in delivery {
        match d.source {
            Source::Own(block) => out += &format!("block {block} {}\n", hex(&d.bytes)),
            Source::Stray => out += &format!("stray {}\n", hex(&d.bytes)),
        }
    }
    out
}

pub fn hex(bytes: &[u8]) -> String {
    bytes.iter().map(|byte| format!("{byte:02x}")).collect()
}
