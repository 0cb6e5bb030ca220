//! The small fields of the state ("shapes"), the events with their parameter edges, and the ways from
//! shape to shape. A shape is a state whose armed and count are reduced to the least that is sound.

use std::collections::{HashMap, VecDeque};

use crate::kinds::*;
use crate::rules;

/// A number for each mode.
pub type ByMode = [usize; 7];

/// The sound shapes, worked out by hand from 01's clauses and Q-1's (e). Free in every mode but BOOT are
/// the two awaited flags (4), and LPA mode and SAA (4) unless LPA is RUNNING, which binds both (1).
///
/// | mode | LCI and LPA | shapes |
/// |---|---|---|
/// | BOOT | all zero, by (d) | 1 |
/// | TERMINAL, QUIESCENT, HOLD | none RUNNING, one STOPPING at most: 3 pairs | 3 * 4 * 4 = 48 each |
/// | CALIBRATION | LCI RUNNING or STOPPING, so LPA IDLE: 2 pairs | 2 * 4 * 4 = 32 |
/// | PHYSICS | LPA RUNNING (1) or STOPPING (4), so LCI IDLE | (1 + 4) * 4 = 20 |
/// | TOO, LCI IDLE | LPA RUNNING (1), STOPPING (4) or IDLE (4), in 2 TOO states | 9 * 4 * 2 = 72 |
/// | TOO, LCI STOPPING | LPA IDLE (4), in 2 TOO states | 4 * 4 * 2 = 32 |
pub const SOUND: ByMode = [1, 48, 48, 48, 32, 20, 72 + 32];

/// The shapes that break (e) alone, by hand: (a) to (d) as above, and both tasks busy.
///
/// | mode | LCI and LPA | shapes |
/// |---|---|---|
/// | TERMINAL, QUIESCENT, HOLD | both STOPPING | 4 * 4 = 16 each |
/// | CALIBRATION | LCI RUNNING or STOPPING, LPA STOPPING | 2 * 4 * 4 = 32 |
/// | PHYSICS | LCI STOPPING, LPA RUNNING (1) or STOPPING (4) | 5 * 4 = 20 |
/// | TOO | as PHYSICS, in 2 TOO states | 5 * 4 * 2 = 40 |
pub const BOTH_BUSY: ByMode = [0, 16, 16, 16, 32, 20, 40];

/// The shapes that can be reached from fresh, by hand. A task that is awaited is never IDLE there: what
/// makes it IDLE ends the waiting too. So LCI with its flag has 1 form if IDLE, else 2, and so has LPA.
///
/// | mode | what is reached | shapes |
/// |---|---|---|
/// | BOOT | all zero | 1 |
/// | TERMINAL | comes after BOOT alone: all zero but SAA | 2 |
/// | QUIESCENT, HOLD | both IDLE (1), LCI STOPPING (2), LPA STOPPING (2); LPA mode, SAA | 5 * 4 = 20 each |
/// | CALIBRATION | LCI RUNNING (2) or STOPPING (2); LPA mode, SAA | 4 * 4 = 16 |
/// | PHYSICS | LPA mode NORMAL; RUNNING with SAA 0 (2), STOPPING with SAA 0 or 1 (4) | 6 |
/// | TOO STARTED | LCI IDLE, LPA mode TOO; LPA RUNNING (2), STOPPING (4), IDLE (2) | 8 |
/// | TOO WAITING | LPA mode, SAA: LPA STOPPING (2), both IDLE (1), LCI STOPPING (2) | 5 * 4 = 20 |
pub const REACHED: ByMode = [1, 2, 20, 20, 16, 6, 8 + 20];

pub fn by_mode(shapes: &[State]) -> ByMode {
    let mut numbers = [0; 7];
    for s in shapes {
        numbers[usize::from(s.mode)] += 1;
    }
    numbers
}

pub fn shape_of(s: &State) -> State {
    State {
        armed: u32::from(s.too != too::NONE),
        count: 1,
        ..*s
    }
}

/// Every combination of the small fields in range, sound or not.
pub fn combinations() -> Vec<State> {
    let mut all = Vec::new();
    for n in 0..7 * 3 * 3 * 2 * 2 * 2 * 2 * 3 {
        let mut rest = n;
        let mut take = |size: u16| {
            let digit = rest % size;
            rest /= size;
            digit
        };
        all.push(State {
            mode: take(7),
            lci: take(3),
            lpa: take(3),
            lpa_mode: take(2),
            saa: take(2),
            lci_awaited: take(2),
            lpa_awaited: take(2),
            too: take(3),
            armed: 0,
            count: 1,
        });
    }
    for s in &mut all {
        s.armed = u32::from(s.too != too::NONE);
    }
    all
}

pub fn sound_shapes() -> Vec<State> {
    combinations().into_iter().filter(rules::sound).collect()
}

/// Clause (e) alone is broken.
pub fn both_busy_shapes() -> Vec<State> {
    let mut all = combinations();
    all.retain(|s| rules::sound_a_to_d(s) && !rules::sound(s));
    all
}

/// All events with their parameter edges. The same place in the list means the same thing in every
/// state of one shape (the right armed number, a wrong one, and so on).
pub fn edges(s: &State) -> Vec<Event> {
    let mut all = Vec::new();
    let mut add = |code, a, b| all.push(Event::new(code, a, b));
    for code in 1..=23 {
        match code {
            event::POWERON | event::POWEROFF => {
                for mask in [0, 1, 0x8000_0000, u32::MAX] {
                    add(code, mask, 0);
                }
            }
            event::LPASTART => {
                for run in [0, 8, u32::MAX] {
                    add(code, run, 0);
                }
            }
            event::TOOSTART => {
                for dwell in [0, 1, 600, DWELL_MOST, DWELL_MOST + 1, u32::MAX] {
                    add(code, 7, dwell);
                }
                add(code, 0, 1);
                add(code, u32::MAX, DWELL_MOST);
            }
            event::TOOEXPIRED => {
                add(code, s.armed, 0);
                add(code, s.armed.wrapping_add(1), 0);
                add(code, s.armed ^ 0x8000_0000, 0);
                add(code, s.armed ^ 0x0001_0000, 0);
                add(code, 0, 0);
            }
            event::CALSTATUS | event::LPASTATUS => {
                add(code, 0, 0);
                add(code, 1, 0);
            }
            _ => add(code, 0, 0),
        }
    }
    all
}

/// The shapes that can be reached from fresh, and where each edge leads.
pub struct Graph {
    pub shapes: Vec<State>,
    pub place: HashMap<State, usize>,
    /// `next[shape][edge]`
    pub next: Vec<Vec<usize>>,
}

impl Graph {
    pub fn reachable() -> Graph {
        let first = shape_of(&State::default());
        let mut graph = Graph {
            shapes: vec![first],
            place: HashMap::from([(first, 0)]),
            next: Vec::new(),
        };
        while graph.next.len() < graph.shapes.len() {
            let s = graph.shapes[graph.next.len()];
            let mut row = Vec::new();
            for e in edges(&s) {
                let to = shape_of(&rules::outcome(&s, &e).state);
                let known = graph.shapes.len();
                let place = *graph.place.entry(to).or_insert(known);
                if place == known {
                    graph.shapes.push(to);
                }
                row.push(place);
            }
            graph.next.push(row);
        }
        graph
    }

    /// The edges of a shortest way from a shape to one that is wanted, if there is one.
    pub fn way(&self, from: usize, wanted: impl Fn(usize) -> bool) -> Option<Vec<usize>> {
        let mut came: HashMap<usize, (usize, usize)> = HashMap::new();
        let mut queue = VecDeque::from([from]);
        let mut found = None;
        while let Some(at) = queue.pop_front() {
            if wanted(at) {
                found = Some(at);
                break;
            }
            for (edge, to) in self.next[at].iter().enumerate() {
                if *to != from && !came.contains_key(to) {
                    came.insert(*to, (at, edge));
                    queue.push_back(*to);
                }
            }
        }
        let mut at = found?;
        let mut way = Vec::new();
        while at != from {
            let (before, edge) = came[&at];
            way.push(edge);
            at = before;
        }
        way.reverse();
        Some(way)
    }

    /// One stream of events from fresh that fires every edge in every shape that can be reached.
    pub fn tour(&self) -> Vec<Event> {
        let mut left: Vec<Vec<usize>> = self
            .next
            .iter()
            .map(|row| (0..row.len()).collect())
            .collect();
        let mut state = State::default();
        let mut events = Vec::new();
        let mut fire = |state: &mut State, edge: usize| {
            let e = edges(state)[edge];
            *state = rules::outcome(state, &e).state;
            events.push(e);
        };
        while let Some(way) = self.way(self.place[&shape_of(&state)], |at| !left[at].is_empty()) {
            for edge in way {
                fire(&mut state, edge);
            }
            let at = self.place[&shape_of(&state)];
            let edge = left[at].pop().expect("the way ends where an edge is left");
            fire(&mut state, edge);
        }
        events
    }
}
