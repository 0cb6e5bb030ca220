//! The model against the examples and words of document 01 and of request Q-1.

use std::collections::BTreeSet;

use outside::cases::{self, CASES};
use outside::expected;
use outside::forge::{self, records_to, seal, Draft, Forger};
use outside::kinds::*;
use outside::log::{self, Manager};
use outside::reader::{self, Reader};
use outside::{rules, shapes};

const LENT: [u8; 512] = [0xA5; 512];

fn e(code: u16, a: u32, b: u32) -> Event {
    Event::new(code, a, b)
}

fn input(events: &[Event]) -> Vec<u8> {
    events.iter().flat_map(|e| e.bytes()).collect()
}

/// Steps on, each event being logged; the statuses.
fn go(m: &mut Manager, events: &[Event]) -> Vec<u16> {
    let mut lent = LENT;
    let mut answers = Vec::new();
    for event in events {
        let stepped = log::step(m, &event.bytes(), &mut lent);
        answers.push(stepped.answer);
        *m = stepped.manager;
    }
    answers
}

/// A fresh manager brought to QUIESCENT.
fn quiescent() -> Manager {
    let mut m = log::fresh(7);
    go(
        &mut m,
        &[e(event::STARTED, 0, 0), e(event::MAINFEEDON, 0, 0)],
    );
    assert_eq!(m.state.mode, mode::QUIESCENT);
    m
}

/// The records in the open block from a place on.
fn open_records(m: &Manager, from: usize) -> Vec<Record> {
    m.log.area[8 * from..8 * usize::from(m.log.used)]
        .chunks(8)
        .map(Record::read)
        .collect()
}

// ---- the check ----

#[test]
fn published_check_vector() {
    assert_eq!(log::check(b"123456789"), 0x29B1);
    assert_eq!(log::check(b""), 0xFFFF);
}

#[test]
fn a_cut_last_string_has_no_check() {
    let whole = b"\x00\x09123456789\x00\x00";
    assert_eq!(expected::checks(whole), "29b1\nffff\n");
    for cut in [&b"\x00\x0312"[..], b"\x00\x03", b"\x00"] {
        let input = [whole, cut].concat();
        assert_eq!(expected::checks(&input), "29b1\nffff\n");
    }
}

// ---- One listing, whole ----

#[test]
fn the_nine_lines() {
    let text = expected::listing(&expected::EXAMPLE.input());
    assert_eq!(text, expected::EXAMPLE.text);
    assert!(expected::EXAMPLE.agrees(), "what desk writes");
}

#[test]
fn listing_of_refusals_and_of_a_short_group() {
    let mut bytes = input(&[e(event::STARTED, 0, 0), e(24, 0, 0), e(event::NOOP, 0, 1)]);
    bytes.extend([0, 10, 0]);
    let text = "ev st mode lci lpa saa too arm rec
1 0 1 0 0 0 0 0 2
- 14 1 0 0 0 0 0 0
- 14 1 0 0 0 0 0 0
- 14 1 0 0 0 0 0 0
";
    assert_eq!(expected::listing(&bytes), text);
    assert_eq!(expected::listing(&[]), expected::LISTING_HEADER);
}

// ---- Easy to get wrong ----

#[test]
fn saaenter_leaves_physics_in_place() {
    let mut m = quiescent();
    go(
        &mut m,
        &[e(event::LPASTART, 8, 0), e(event::SAAENTER, 0, 0)],
    );
    assert_eq!((m.state.mode, m.state.lpa), (mode::PHYSICS, task::STOPPING));
    let last: Vec<u16> = open_records(&m, 9).iter().map(|r| r.code).collect();
    use record::*;
    assert_eq!(last, [SAACHANGE, LPASTOP, LPASTATE, WAIT, SAACFG, STATUS]);
}

#[test]
fn lpastart_in_physics_is_badmode_with_saa_too() {
    let mut m = quiescent();
    let answers = go(
        &mut m,
        &[
            e(event::LPASTART, 8, 0),
            e(event::SAAENTER, 0, 0),
            e(event::LPASTART, 8, 0),
        ],
    );
    assert_eq!(answers[2], answer::BADMODE);
}

#[test]
fn the_first_timer_expires_in_vain_after_a_second_start() {
    let mut m = quiescent();
    let answers = go(
        &mut m,
        &[
            e(event::TOOSTART, 7, 600), // 3
            e(event::TOOABORT, 0, 0),   // 4: PHYSICS
            e(event::TOOSTART, 7, 600), // 5
            e(event::TOOEXPIRED, 3, 0), // names the first
            e(event::TOOEXPIRED, 5, 0),
            e(event::TOOEXPIRED, 0, 0), // no timer: STALE, not a match of 0 with 0
        ],
    );
    use answer::*;
    assert_eq!(answers, [PKTSENT, SUCCESS, SUCCESS, STALE, SUCCESS, STALE]);
}

/// A manager in QUIESCENT with this many records in its open block.
fn with_used(used: u16) -> Manager {
    let mut m = quiescent();
    while m.log.used < used {
        go(&mut m, &[e(event::NOOP, 0, 0)]);
    }
    assert_eq!((m.log.used, m.log.block), (used, 0));
    m
}

#[test]
fn at_62_used_one_more_event_closes_first() {
    let m = with_used(62);
    let mut lent = LENT;
    let stepped = log::step(&m, &e(event::NOOP, 0, 0).bytes(), &mut lent);
    assert_eq!((stepped.answer, stepped.written), (0, true));
    assert_eq!(lent, m.log.closed());
    let log = &stepped.manager.log;
    assert_eq!((log.block, log.used, log.before), (1, 1, m.state.count));
    assert!(log.area[8..].iter().all(|b| *b == 0));
}

#[test]
fn at_61_used_a_lone_status_fits() {
    let m = with_used(61);
    let mut lent = LENT;
    let stepped = log::step(&m, &e(event::NOOP, 0, 0).bytes(), &mut lent);
    assert_eq!((stepped.answer, stepped.written), (0, false));
    assert_eq!(
        (stepped.manager.log.used, stepped.manager.log.block),
        (62, 0)
    );
    assert_eq!(lent, LENT);
    // and an event of two records does not
    let stepped = log::step(&m, &e(event::POWEROFF, 1, 0).bytes(), &mut lent);
    assert!(stepped.written);
    assert_eq!(stepped.manager.log.used, 2);
}

#[test]
fn dwell_edges() {
    for (dwell, status) in [
        (0, answer::BADPARAM),
        (1, answer::PKTSENT),
        (86_400, answer::PKTSENT),
        (86_401, answer::BADPARAM),
    ] {
        let answers = go(&mut quiescent(), &[e(event::TOOSTART, 7, dwell)]);
        assert_eq!(answers, [status], "dwell {dwell}");
    }
}

// ---- physics while a calibration is still stopping ----

/// QUIESCENT with LCI STOPPING: a calibration that HOLDENTER stopped.
fn still_stopping() -> Manager {
    let mut m = quiescent();
    let stopped = [
        e(event::CALSTART, 0, 0),
        e(event::HOLDENTER, 0, 0),
        e(event::HOLDEXIT, 0, 0),
    ];
    go(&mut m, &stopped);
    assert_eq!(
        (m.state.mode, m.state.lci),
        (mode::QUIESCENT, task::STOPPING)
    );
    m
}

/// The answer to one event and the records that it left in the open block.
fn answer_and_records(m: &mut Manager, event: Event) -> (u16, Vec<Record>) {
    let from = usize::from(m.log.used);
    let answers = go(m, &[event]);
    (answers[0], open_records(m, from))
}

#[test]
fn the_sessions_of_q1() {
    for session in [expected::STILL_STOPPING, expected::STILL_STOPPING_IN_SAA] {
        assert_eq!(expected::listing(&session.input()), session.text);
        assert!(session.agrees(), "what desk writes");
    }
}

#[test]
fn toostart_waits_and_lpastart_is_taken_when_the_calibration_is_over() {
    let lpastart = e(event::LPASTART, 8, 0);
    let refused = |n| vec![Record::new(record::STATUS, answer::OTHSTOP, n)];
    let mut m = still_stopping(); // after event 5
    let before = m.state;
    let found = answer_and_records(&mut m, lpastart);
    assert_eq!(found, (answer::OTHSTOP, refused(6)));
    assert_eq!(m.state, State { count: 6, ..before });

    let waits = vec![
        Record::new(record::TOOTIMER, 1, 600),
        Record::new(record::TOOSTATE, too::WAITING, 0),
        Record::new(record::OPMODE, mode::TOO, 0),
        Record::new(record::STATUS, answer::SUCCESS, 7),
    ];
    let found = answer_and_records(&mut m, e(event::TOOSTART, 7, 600));
    assert_eq!(found, (answer::SUCCESS, waits));
    let found = answer_and_records(&mut m, lpastart);
    assert_eq!(found, (answer::OTHSTOP, refused(8)));

    // The end of the calibration starts nothing by itself.
    let over = vec![
        Record::new(record::CALCOMP, 0, 0),
        Record::new(record::LCISTATE, task::IDLE, 0),
        Record::new(record::STATUS, answer::SUCCESS, 9),
    ];
    let found = answer_and_records(&mut m, e(event::CALCOMPLETE, 0, 0));
    assert_eq!(found, (answer::SUCCESS, over));
    assert_eq!((m.state.lpa, m.state.too), (task::IDLE, too::WAITING));

    let taken = vec![
        Record::new(record::LPASTART, lpa_mode::TOO, 8),
        Record::new(record::LPASTATE, task::RUNNING, 0),
        Record::new(record::TOOSTATE, too::STARTED, 0),
        Record::new(record::STATUS, answer::PKTSENT, 10),
    ];
    let found = answer_and_records(&mut m, lpastart);
    assert_eq!(found, (answer::PKTSENT, taken));
    assert_eq!((m.state.mode, m.state.armed), (mode::TOO, 7));
}

#[test]
fn lpastart_is_taken_in_quiescent_when_the_calibration_is_over() {
    let mut m = still_stopping();
    let answers = go(
        &mut m,
        &[
            e(event::CALSTATUS, 0, 0), // failed, but not in CALIBRATION: LCI stays STOPPING
            e(event::LPASTART, 8, 0),
            e(event::CALCOMPLETE, 0, 0),
            e(event::LPASTART, 8, 0),
        ],
    );
    use answer::*;
    assert_eq!(answers, [SUCCESS, OTHSTOP, SUCCESS, PKTSENT]);
    assert_eq!((m.state.mode, m.state.lpa), (mode::PHYSICS, task::RUNNING));
}

#[test]
fn saa_comes_before_othstop() {
    let lpastart = e(event::LPASTART, 8, 0);
    let mut m = still_stopping();
    let answers = go(&mut m, &[e(event::SAAENTER, 0, 0), lpastart]);
    assert_eq!(answers[1], answer::SAA);
    let answers = go(&mut m, &[e(event::TOOSTART, 7, 600), lpastart]);
    assert_eq!(answers, [answer::SUCCESS, answer::SAA]);
    assert_eq!((m.state.mode, m.state.too), (mode::TOO, too::WAITING));
    let answers = go(&mut m, &[e(event::SAAEXIT, 0, 0), lpastart]);
    assert_eq!(answers[1], answer::OTHSTOP);
}

#[test]
fn badmode_and_badparam_come_before_the_wait_for_lci() {
    let mut m = quiescent();
    let answers = go(
        &mut m,
        &[
            e(event::CALSTART, 0, 0),
            e(event::LPASTART, 8, 0), // CALIBRATION, LCI RUNNING
            e(event::TOOSTART, 7, 600),
            e(event::HOLDENTER, 0, 0),
            e(event::LPASTART, 8, 0), // HOLD, LCI STOPPING
            e(event::TOOSTART, 7, 600),
        ],
    );
    for place in [1, 2, 4, 5] {
        assert_eq!(answers[place], answer::BADMODE);
    }
    let answers = go(&mut still_stopping(), &[e(event::TOOSTART, 7, 86_401)]);
    assert_eq!(answers, [answer::BADPARAM]);
}

#[test]
fn toostart_takes_a_run_over_as_before() {
    let mut m = quiescent();
    go(&mut m, &[e(event::LPASTART, 8, 0)]);
    let taken_over = vec![
        Record::new(record::TOOTIMER, 1, 600),
        Record::new(record::LPAMODE, lpa_mode::TOO, 0),
        Record::new(record::TOOSTATE, too::STARTED, 0),
        Record::new(record::OPMODE, mode::TOO, 0),
        Record::new(record::STATUS, answer::SUCCESS, 4),
    ];
    let found = answer_and_records(&mut m, e(event::TOOSTART, 7, 600));
    assert_eq!(found, (answer::SUCCESS, taken_over));
}

#[test]
fn every_case_is_on_the_tour() {
    let mut met = [0; CASES.len()];
    cases::count(&input(&shapes::Graph::reachable().tour()), &mut met);
    for (case, n) in CASES.iter().zip(met) {
        assert!(n > 0, "{}", case.title());
    }
}

// ---- Answers of the manager ----

#[test]
fn the_lowest_number_that_applies() {
    let mut m = log::fresh(7);
    let boot = [
        e(event::NOOP, 0, 0),
        e(event::POWERON, 0, 0),
        e(event::TOOEXPIRED, 0, 0),
        e(event::LOADSHED, 0, 0),
    ];
    assert_eq!(go(&mut m, &boot), [answer::NOTRUN; 4]);
    go(&mut m, &[e(event::STARTED, 0, 0)]);
    // mask 0 outside QUIESCENT
    assert_eq!(go(&mut m, &[e(event::POWERON, 0, 0)]), [answer::BADMODE]);
    let mut m = quiescent();
    assert_eq!(go(&mut m, &[e(event::POWERON, 0, 0)]), [answer::BADPARAM]);
    // a bad dwell in TOO
    let answers = go(
        &mut m,
        &[e(event::TOOSTART, 7, 1), e(event::TOOSTART, 7, 0)],
    );
    assert_eq!(answers, [answer::PKTSENT, answer::TOOACT]);
}

#[test]
fn unlogged_refusals_in_their_order() {
    let mut m = quiescent();
    let good = e(event::NOOP, 0, 0).bytes();
    m.state.count = END;
    let mut unsound = m.clone();
    unsound.state.saa = 2;
    let ask = |m: &Manager, event: &[u8], length: usize| {
        let mut lent = vec![0xA5; length];
        let stepped = log::step(m, event, &mut lent);
        assert_eq!(&stepped.manager, m);
        assert!(!stepped.written && lent.iter().all(|b| *b == 0xA5));
        stepped.answer
    };
    for length in [0, 511, 513, 1024] {
        assert_eq!(ask(&unsound, &[], length), answer::BADBUF);
    }
    for bad in [
        vec![],
        vec![0; 11],
        [&good[..], &[0]].concat(),
        e(0, 0, 0).bytes().to_vec(),
        e(24, 0, 0).bytes().to_vec(),
        e(event::NOOP, 1, 0).bytes().to_vec(),
        e(event::POWERON, 1, 1).bytes().to_vec(),
        e(event::CALSTATUS, 2, 0).bytes().to_vec(),
        e(event::LPASTATUS, 2, 0).bytes().to_vec(),
        vec![0, 10, 0, 1, 0, 0, 0, 0, 0, 0, 0, 0],
        vec![0, 10, 1, 0, 0, 0, 0, 0, 0, 0, 0, 0],
    ] {
        assert_eq!(ask(&unsound, &bad, 512), answer::BADEVENT, "{bad:?}");
    }
    assert_eq!(ask(&unsound, &good, 512), answer::BADSTATE);
    assert_eq!(ask(&m, &good, 512), answer::FULL);
    m.state.count = END - 1;
    assert_eq!(
        log::step(&m, &good, &mut [0; 512]).answer,
        answer::SUCCESS,
        "the last event"
    );
}

#[test]
fn a_log_that_is_not_sound() {
    let good = quiescent();
    let changes: [fn(&mut Manager); 7] = [
        |m| m.log.used = 63,
        |m| m.log.used -= 1, // a byte beyond used is not zero
        |m| m.log.area[495] = 1,
        |m| m.log.block = m.log.before + 1,
        |m| m.log.before = m.state.count + 1,
        |m| m.log.before = m.state.count, // used is not 0
        |m| {
            m.log.used = 0;
            m.log.area = [0; 496]; // before < count
        },
    ];
    for change in changes {
        let mut m = good.clone();
        change(&mut m);
        let mut lent = LENT;
        let stepped = log::step(&m, &e(event::NOOP, 0, 0).bytes(), &mut lent);
        assert_eq!((stepped.answer, lent), (answer::BADSTATE, LENT));
        assert_eq!(stepped.manager, m);
        let flushed = log::flush(&m, &mut lent);
        assert_eq!((flushed.answer, lent), (answer::BADSTATE, LENT));
        assert_eq!(flushed.manager, m);
    }
}

#[test]
fn full_and_the_last_flush() {
    let mut m = quiescent();
    m.state.count = END - 1;
    let mut lent = LENT;
    let stepped = log::step(&m, &e(event::NOOP, 0, 0).bytes(), &mut lent);
    m = stepped.manager;
    assert_eq!(m.state.count, END);
    let full = log::step(&m, &e(event::LOADSHED, 0, 0).bytes(), &mut lent);
    assert_eq!((full.answer, full.written), (answer::FULL, false));
    assert_eq!((&full.manager, lent), (&m, LENT));
    let flushed = log::flush(&m, &mut lent);
    assert_eq!((flushed.answer, flushed.written), (0, true));
    assert_eq!(flushed.manager.state, m.state);
    assert_eq!(flushed.manager.log.before, END);
}

#[test]
fn flush() {
    let mut lent = LENT;
    let m = log::fresh(3);
    let empty = log::flush(&m, &mut lent);
    assert_eq!((empty.answer, empty.written), (answer::EMPTY, false));
    assert_eq!((&empty.manager, lent), (&m, LENT));
    assert_eq!(log::flush(&m, &mut [0; 511]).answer, answer::BADBUF);
    let mut unsound = m.clone();
    unsound.state.mode = 9;
    assert_eq!(log::flush(&unsound, &mut [0; 511]).answer, answer::BADBUF);
    assert_eq!(log::flush(&unsound, &mut lent).answer, answer::BADSTATE);

    let m = quiescent();
    let flushed = log::flush(&m, &mut lent);
    assert_eq!((flushed.answer, flushed.written), (0, true));
    let log = &flushed.manager.log;
    assert_eq!((log.number, log.block, log.used, log.before), (7, 1, 0, 2));
    assert_eq!(log.area, [0; 496]);
    assert_eq!(flushed.manager.state, m.state);
    assert_eq!(
        log::flush(&flushed.manager, &mut lent).answer,
        answer::EMPTY
    );
}

// ---- Log blocks ----

#[test]
fn the_layout_byte_by_byte() {
    let m = quiescent();
    let mut lent = LENT;
    log::flush(&m, &mut lent);
    let mut bytes = vec![0, 0, 0, 7, 0, 0, 0, 0, 0, 5, 0, 0, 0, 0];
    bytes.extend([0, 1, 0, 1, 0, 0, 0, 0]); // OPMODE 1
    bytes.extend([0, 29, 0, 0, 0, 0, 0, 1]); // STATUS 0, 1
    bytes.extend([0, 20, 0, 0, 0, 0, 0, 0]); // MAINFEED
    bytes.extend([0, 1, 0, 2, 0, 0, 0, 0]); // OPMODE 2
    bytes.extend([0, 29, 0, 0, 0, 0, 0, 2]); // STATUS 0, 2
    bytes.resize(510, 0);
    let check = log::check(&bytes);
    bytes.extend(check.to_be_bytes());
    assert_eq!(&lent[..], &bytes[..]);
    assert_eq!(log::records(&lent), &lent[14..54]);
}

#[test]
fn records_of_a_block() {
    let mut block = quiescent().log.closed();
    assert_eq!(log::records(&block).len(), 40);
    for used in [1u16, 62] {
        block[8..10].copy_from_slice(&used.to_be_bytes());
        seal(&mut block);
        assert_eq!(log::records(&block), &block[14..14 + 8 * usize::from(used)]);
    }
    for used in [0u16, 63, 0x0101, u16::MAX] {
        block[8..10].copy_from_slice(&used.to_be_bytes());
        seal(&mut block);
        assert!(log::records(&block).is_empty());
    }
    let mut block = quiescent().log.closed();
    assert!(log::records(&block[..511]).is_empty());
    assert!(log::records(&[&block[..], &[0]].concat()).is_empty());
    assert!(log::records(&[]).is_empty());
    block[511] ^= 1;
    assert!(log::records(&block).is_empty());
}

// ---- The ground reader ----

fn status(v: u32) -> Record {
    Record::new(record::STATUS, 0, v)
}

/// A reader that waits for block 2 after 10 events, in QUIESCENT.
fn waiting() -> Reader {
    let mut r = reader::fresh(7);
    r.state.mode = mode::QUIESCENT;
    r.state.count = 10;
    r.next = 2;
    r.heard = 2;
    r
}

fn one_noop(r: &Reader) -> Draft {
    Draft::next_for(r, vec![status(r.state.count + 1)])
}

fn ask(r: &Reader, block: &[u8]) -> u16 {
    let read = reader::read(r, block);
    if read.answer != reading::APPLIED && read.answer != reading::GAP {
        assert_eq!(
            &read.reader, r,
            "answer {} leaves all unchanged",
            read.answer
        );
    }
    read.answer
}

#[test]
fn rstate_comes_first() {
    let good = waiting();
    let changes: [fn(&mut Reader); 3] = [
        |r| r.state.lci = task::RUNNING,
        |r| (r.next, r.heard) = (11, 11),
        |r| r.heard = 1,
    ];
    for change in changes {
        let mut r = good.clone();
        change(&mut r);
        assert_eq!(ask(&r, &[]), reading::RSTATE);
        assert_eq!(ask(&r, &one_noop(&r).bytes()), reading::RSTATE);
    }
}

#[test]
fn damaged_before_otherlog() {
    let r = waiting();
    let mut draft = one_noop(&r);
    draft.number = 8;
    let mut bytes = draft.bytes();
    assert_eq!(ask(&r, &bytes[..511]), reading::DAMAGED);
    assert_eq!(ask(&r, &[&bytes[..], &[0]].concat()), reading::DAMAGED);
    assert_eq!(ask(&r, &[]), reading::DAMAGED);
    bytes[510] ^= 0x80;
    assert_eq!(ask(&r, &bytes), reading::DAMAGED);
}

#[test]
fn otherlog_before_the_number() {
    let r = waiting();
    let mut draft = one_noop(&r);
    draft.number = 8;
    for block in [END, 0, 2, 9] {
        draft.block = block;
        assert_eq!(ask(&r, &draft.bytes()), reading::OTHERLOG);
    }
}

#[test]
fn nonsense_number_already_and_gap() {
    let r = waiting();
    let mut draft = one_noop(&r);
    draft.used = 0; // neither looks at the content
    draft.block = END;
    assert_eq!(ask(&r, &draft.bytes()), reading::NONSENSE);
    draft.block = 1;
    assert_eq!(ask(&r, &draft.bytes()), reading::ALREADY);
    draft.block = END - 1;
    let read = reader::read(&r, &draft.bytes());
    assert_eq!((read.answer, read.reader.heard), (reading::GAP, END));
    assert_eq!((read.reader.next, read.reader.state), (r.next, r.state));
    assert!(reader::behind(&read.reader) && !reader::behind(&r));
    // a lower one does not lower heard
    draft.block = 3;
    let again = reader::read(&read.reader, &draft.bytes());
    assert_eq!((again.answer, again.reader), (reading::GAP, read.reader));
}

#[test]
fn applied() {
    let mut r = waiting();
    r.heard = 5;
    let read = reader::read(&r, &one_noop(&r).bytes());
    assert_eq!(read.answer, reading::APPLIED);
    assert_eq!((read.reader.next, read.reader.heard), (3, 5));
    assert_eq!(
        read.reader.state,
        State {
            count: 11,
            ..r.state
        }
    );
    let r = waiting();
    let read = reader::read(&r, &one_noop(&r).bytes());
    assert_eq!((read.reader.next, read.reader.heard), (3, 3));
    assert!(!reader::behind(&read.reader));
}

#[test]
fn wrong_content() {
    let r = waiting();
    let other = Record::new(record::LPAOTHER, 0, 0);
    let wrong = |change: &dyn Fn(&mut Draft)| {
        let mut draft = one_noop(&r);
        change(&mut draft);
        assert_eq!(ask(&r, &draft.bytes()), reading::NONSENSE);
    };
    wrong(&|d| d.used = 0);
    wrong(&|d| d.used = 63);
    wrong(&|d| d.before = 9);
    wrong(&|d| d.before = 11);
    wrong(&|d| d.before = END);
    wrong(&|d| d.records.push(other)); // beyond used
    wrong(&|d| d.used = 2); // a record of zero bytes
    wrong(&|d| d.records[0].code = 30);
    wrong(&|d| d.records[0].d = 12);
    wrong(&|d| d.records[0].v = 10);
    wrong(&|d| d.records[0].v = 12);
    let with = |records: Vec<Record>| ask(&r, &Draft::next_for(&r, records).bytes());
    assert_eq!(with(vec![other]), reading::NONSENSE); // no STATUS
    assert_eq!(with(vec![status(11), other]), reading::NONSENSE); // not the last
    assert_eq!(with(vec![status(11), status(11)]), reading::NONSENSE);
    assert_eq!(with(vec![status(11), status(13)]), reading::NONSENSE);
    assert_eq!(with(vec![status(11), status(12)]), reading::APPLIED);
    // over 10 records, the STATUS counted
    let mut records = vec![other; 9];
    records.push(status(11));
    assert_eq!(with(records.clone()), reading::APPLIED);
    records.insert(0, other);
    assert_eq!(with(records), reading::NONSENSE);
    // the state after a STATUS is not sound, though a later event would mend it
    let run = Record::new(record::LCISTATE, task::RUNNING, 0);
    let idle = Record::new(record::LCISTATE, task::IDLE, 0);
    assert_eq!(
        with(vec![run, status(11), idle, status(12)]),
        reading::NONSENSE
    );
    // within an event it may be anything
    assert_eq!(with(vec![run, idle, status(11)]), reading::APPLIED);
}

/// A reader in QUIESCENT after 10 events, with LCI STOPPING.
fn waiting_with_lci_stopping() -> Reader {
    let mut r = waiting();
    r.state.lci = task::STOPPING;
    r
}

#[test]
fn logs_of_earlier_releases() {
    let r = waiting_with_lci_stopping();
    let with = |records: &[Record]| ask(&r, &Draft::next_for(&r, records.to_vec()).bytes());
    let sent = |v| Record::new(record::STATUS, answer::PKTSENT, v);
    let lpastart = |mode| Record::new(record::LPASTART, mode, 8);
    let running = Record::new(record::LPASTATE, task::RUNNING, 0);
    let over = [
        Record::new(record::CALCOMP, 0, 0),
        Record::new(record::LCISTATE, task::IDLE, 0),
    ];
    // LPASTART as it was taken in QUIESCENT, while the calibration was stopping
    let physics = Record::new(record::OPMODE, mode::PHYSICS, 0);
    let taken = [lpastart(lpa_mode::NORMAL), running, physics];
    assert_eq!(with(&[&taken[..], &[sent(11)]].concat()), reading::NONSENSE);
    // TOOSTART that started physics then
    let timer = Record::new(record::TOOTIMER, 1, 600);
    let started = Record::new(record::TOOSTATE, too::STARTED, 0);
    let in_too = Record::new(record::OPMODE, mode::TOO, 0);
    let toostart = [
        timer,
        lpastart(lpa_mode::TOO),
        running,
        started,
        in_too,
        sent(11),
    ];
    assert_eq!(with(&toostart), reading::NONSENSE);
    // CALCOMPLETE in the event after it does not help, in the event before it does
    let late = [&toostart[..], &over, &[status(12)]].concat();
    assert_eq!(with(&late), reading::NONSENSE);
    let early = [&over[..], &[status(11)], &taken, &[sent(12)]].concat();
    assert_eq!(with(&early), reading::APPLIED);
}

#[test]
fn clause_e_is_asked_at_a_status_alone() {
    let r = waiting();
    let with = |records: Vec<Record>| ask(&r, &Draft::next_for(&r, records).bytes());
    let lci = |d| Record::new(record::LCISTATE, d, 0);
    let lpa = |d| Record::new(record::LPASTATE, d, 0);
    let both = [lci(task::STOPPING), lpa(task::STOPPING)];
    let then = |more: &[Record]| [&both[..], more].concat();
    assert_eq!(with(then(&[status(11)])), reading::NONSENSE);
    let late = [status(11), lpa(task::IDLE), status(12)];
    assert_eq!(with(then(&late)), reading::NONSENSE);
    for mend in [lci(task::IDLE), lpa(task::IDLE)] {
        assert_eq!(with(then(&[mend, status(11)])), reading::APPLIED);
    }
}

#[test]
fn count_at_its_end() {
    let mut r = waiting();
    r.state.count = END - 1;
    let timer = Record::new(record::TOOTIMER, 1, 1);
    let block = |records: Vec<Record>| Draft::next_for(&r, records).bytes();
    assert_eq!(ask(&r, &block(vec![status(END)])), reading::APPLIED);
    // beyond the end nothing is consecutive, and the timer's count + 1 does no harm
    for next in [0, END] {
        let records = vec![status(END), timer, status(next)];
        assert_eq!(ask(&r, &block(records)), reading::NONSENSE);
    }
    r.state.count = END;
    let draft = Draft {
        records: vec![status(0)],
        used: 1,
        ..one_noop(&waiting())
    };
    assert_eq!(
        ask(
            &r,
            &Draft {
                before: END,
                ..draft
            }
            .bytes()
        ),
        reading::NONSENSE
    );
}

// ---- shapes ----

#[test]
fn shapes_as_worked_out_by_hand() {
    let sound = shapes::sound_shapes();
    let both_busy = shapes::both_busy_shapes();
    let reached = shapes::Graph::reachable().shapes;
    assert_eq!(shapes::by_mode(&sound), shapes::SOUND);
    assert_eq!(shapes::by_mode(&both_busy), shapes::BOTH_BUSY);
    assert_eq!(shapes::by_mode(&reached), shapes::REACHED);
    assert_eq!(
        (sound.len(), both_busy.len(), reached.len()),
        (301, 140, 93)
    );
}

#[test]
fn a_forged_event_leads_to_each_sound_shape() {
    for shape in shapes::sound_shapes() {
        let mut r = waiting();
        let records = records_to(&shape, r.state.count);
        assert!(records.len() <= RECORDS_MOST);
        let read = reader::read(&r, &Draft::next_for(&r, records).bytes());
        assert_eq!(read.answer, reading::APPLIED);
        r = read.reader;
        assert_eq!(shapes::shape_of(&r.state), shape);
        assert!(rules::sound(&r.state));
    }
}

/// 01's (a) and (b) leave nine ways in which both tasks are busy: mode, LCI, LPA.
#[test]
fn the_nine_ways_to_break_clause_e_alone() {
    use mode::*;
    use task::{RUNNING, STOPPING};
    let nine = [
        (TERMINAL, STOPPING, STOPPING),
        (QUIESCENT, STOPPING, STOPPING),
        (HOLD, STOPPING, STOPPING),
        (CALIBRATION, RUNNING, STOPPING),
        (CALIBRATION, STOPPING, STOPPING),
        (PHYSICS, STOPPING, RUNNING),
        (PHYSICS, STOPPING, STOPPING),
        (TOO, STOPPING, RUNNING),
        (TOO, STOPPING, STOPPING),
    ];
    let all = shapes::both_busy_shapes();
    let found: BTreeSet<_> = all.iter().map(|s| (s.mode, s.lci, s.lpa)).collect();
    assert_eq!(found, BTreeSet::from(nine));
    for s in all {
        let mut m = log::fresh(7);
        (m.state, m.log.before) = (s, s.count);
        assert_eq!(go(&mut m, &[e(event::NOOP, 0, 0)]), [answer::BADSTATE]);
        let r = Reader {
            state: s,
            ..reader::fresh(7)
        };
        assert_eq!(ask(&r, &one_noop(&r).bytes()), reading::RSTATE);
    }
}

#[test]
fn forged_blocks_around_clause_e() {
    let mut forger = Forger::new(7);
    assert_eq!(forger.both_busy(), Ok(()));
    assert_eq!(forger.earlier_releases(), Ok(()));
    let number = |answer| forger.answers.iter().filter(|a| **a == answer).count();
    assert_eq!(number(reading::NONSENSE), forge::BUSY_NONSENSE);
    assert_eq!(number(reading::APPLIED), forge::BUSY_APPLIED);
    assert_eq!(forger.strings.len(), 224 + 368);
}

#[test]
fn log_numbers() {
    use expected::log_number;
    assert_eq!(log_number("0"), Some(0));
    assert_eq!(log_number("4294967295"), Some(END));
    assert_eq!(log_number("0xfFfFFFff"), Some(END));
    for word in ["", "0x", "-1", "+1", "4294967296", "0x100000000", "1x"] {
        assert_eq!(log_number(word), None);
    }
}
