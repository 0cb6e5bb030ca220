#!/usr/bin/env python3
"""Shows that the driver sees wrong programs: builds stand-ins from copies of the model with one thing
made wrong, and runs the driver against each. Every line should end with `seen`.

usage: mutants.py [WORDS]   (only the mutants whose name has one of the words)
"""
import os
import resource
import shutil
import subprocess
import sys

HERE = os.path.dirname(os.path.abspath(__file__))
ROOM = os.path.join(HERE, "target", "mutants")
DRIVER = os.path.join(HERE, "target", "release", "outside")

# Clause (e), and the nine ways in which both tasks are busy and (a) to (d) hold: mode, LCI, LPA.
CLAUSE_E = "s.lci == task::IDLE || s.lpa == task::IDLE"
BOTH_BUSY = [
    ("TERMINAL", "STOPPING", "STOPPING"),
    ("QUIESCENT", "STOPPING", "STOPPING"),
    ("HOLD", "STOPPING", "STOPPING"),
    ("CALIBRATION", "RUNNING", "STOPPING"),
    ("CALIBRATION", "STOPPING", "STOPPING"),
    ("PHYSICS", "STOPPING", "RUNNING"),
    ("PHYSICS", "STOPPING", "STOPPING"),
    ("TOO", "STOPPING", "RUNNING"),
    ("TOO", "STOPPING", "STOPPING"),
]

# name, file, what stands there, what is put in its place
MUTANTS = [
    # 01, Strength of the promises
    ("BADMODE to all", "rules.rs", "match rule.refusals.iter().min() {", "match [answer::BADMODE].iter().min() {"),
    ("returns the state it got", "log.rs", "            state: outcome.state,\n            log,", "            state: State { count: outcome.state.count, ..m.state },\n            log,"),
    ("logs only its first event", "log.rs", "log.put(&outcome.records);", "if m.state.count == 0 { log.put(&outcome.records); } else { log.put(&outcome.records[outcome.records.len() - 1..]); }"),
    ("reader always GAP", "reader.rs", "if number > r.next {", "if number >= r.next {"),
    ("reader stays fresh", "reader.rs", "                state,\n                next: r.next + 1,", "                state: State { count: state.count, ..r.state },\n                next: r.next + 1,"),
    ("applies block 0, then raises next", "reader.rs", "                state,\n                next: r.next + 1,", "                state: if r.next == 0 { state } else { r.state },\n                next: r.next + 1,"),
    ("made-up used", "log.rs", "out[8..10].copy_from_slice(&self.used.to_be_bytes());", "out[8..10].copy_from_slice(&self.used.max(2).to_be_bytes());"),
    ("made-up count before", "log.rs", "            used: 0,\n            before: count,", "            used: 0,\n            before: count - u32::from(count % 64 == 0),"),
    # the cut copy of the complaint: the check over a block with half an event in it
    ("half of an event in a block", "log.rs", "out[RECORDS_AT..CHECK_AT].copy_from_slice(&self.area);", "out[RECORDS_AT..CHECK_AT].copy_from_slice(&self.area); if self.used == 62 { out[CHECK_AT - 8..CHECK_AT].fill(0); out[9] = 61; }"),
    # mode rules
    ("SAAENTER leaves PHYSICS", "rules.rs", "r.put_dv(record::WAIT, 0, 5);\n            }\n            if", "r.put_dv(record::WAIT, 0, 5); r.put_d(record::OPMODE, mode::QUIESCENT);\n            }\n            if"),
    ("LPASTART in PHYSICS is SAA", "rules.rs", "r.refuse(answer::BADMODE, !mode_is(&[mode::QUIESCENT, mode::TOO]));", "r.refuse(answer::BADMODE, s.saa == 0 && !mode_is(&[mode::QUIESCENT, mode::TOO]));"),
    ("any expiry is right", "rules.rs", "!in_too || e.a != s.armed", "!in_too"),
    ("dwell 86,401", "kinds.rs", "86_400", "86_401"),
    ("dwell 0", "rules.rs", "e.b < 1 || e.b > DWELL_MOST", "e.b > DWELL_MOST"),
    ("NOOP in HOLD", "rules.rs", "mode_is(&[mode::HOLD])),", "false),"),
    ("NOOP in TERMINAL", "rules.rs", "mode_is(&[mode::HOLD])),", "!mode_is(&[mode::TERMINAL])),"),
    ("CALSTART while LPA stops", "rules.rs", "s.lci == task::STOPPING || s.lpa == task::STOPPING", "s.lci == task::STOPPING"),
    ("CALABORT of an idle LCI", "rules.rs", "if s.lci == task::IDLE {\n                    task::IDLE", "if s.lci == task::RUNNING {\n                    task::IDLE"),
    ("a failed report not awaited", "rules.rs", "s.mode == mode::CALIBRATION && s.lci_awaited == 1 && e.a == 0", "s.mode == mode::CALIBRATION && e.a == 0"),
    ("a failed LPA report in TOO", "rules.rs", "if mode_is(&[mode::PHYSICS, mode::TOO]) && s.lpa_awaited == 1", "if mode_is(&[mode::PHYSICS]) && s.lpa_awaited == 1"),
    ("TOOSTATE 2 though not waiting", "rules.rs", "} else if s.too == too::WAITING {", "} else {"),
    ("highest refusal", "rules.rs", "rule.refusals.iter().min()", "rule.refusals.iter().max()"),
    ("HOLDENTER keeps the timer", "rules.rs", "if s.mode == mode::TOO {\n                r.put_d(record::TOOTIMER, 0);", "if s.mode == mode::TOO && s.saa == 0 {\n                r.put_d(record::TOOTIMER, 0);"),
    ("a reboot keeps SAA", "rules.rs", "                count: s.count,\n                ..State::default()\n            }\n        }\n        record::STATUS", "                count: s.count, saa: s.saa & u16::from(s.mode == 0),\n                ..State::default()\n            }\n        }\n        record::STATUS"),
    ("armed is count", "rules.rs", "s.armed = s.count.wrapping_add(1)", "s.armed = s.count"),
    ("POWERON with b", "kinds.rs", "event::POWERON | event::POWEROFF => (true, false)", "event::POWERON | event::POWEROFF => (true, true)"),
    ("report 2", "kinds.rs", "&& a > 1", "&& a > 2"),
    ("zero field's high byte", "kinds.rs", "if zero != 0 ||", "if zero & 0xFF != 0 ||"),
    # physics while a calibration is still stopping
    ("LPASTART while LCI stops", "rules.rs", "s.lpa == task::STOPPING || s.lci != task::IDLE", "s.lpa == task::STOPPING"),
    ("LPASTART in QUIESCENT while LCI stops", "rules.rs", "s.lpa == task::STOPPING || s.lci != task::IDLE", "s.lpa == task::STOPPING || (s.lci != task::IDLE && s.mode == mode::TOO)"),
    ("LPASTART in TOO while LCI stops", "rules.rs", "s.lpa == task::STOPPING || s.lci != task::IDLE", "s.lpa == task::STOPPING || (s.lci != task::IDLE && s.mode == mode::QUIESCENT)"),
    ("LPASTART asks whether LCI is STOPPING", "rules.rs", "s.lpa == task::STOPPING || s.lci != task::IDLE", "s.lpa == task::STOPPING || s.lci == task::STOPPING"),
    ("OTHSTOP before SAA", "rules.rs", "r.refuse(answer::SAA, s.saa == 1);", "r.refuse(answer::SAA, s.saa == 1 && s.lci == task::IDLE);"),
    ("OTHSTOP before BADMODE", "rules.rs", "r.refuse(answer::BADMODE, !mode_is(&[mode::QUIESCENT, mode::TOO]));", "r.refuse(answer::BADMODE, s.lci == task::IDLE && !mode_is(&[mode::QUIESCENT, mode::TOO]));"),
    ("OTHRUN while LCI stops", "rules.rs", "r.refuse(answer::OTHRUN, s.lpa == task::RUNNING);", "r.refuse(answer::OTHRUN, s.lpa == task::RUNNING || s.lci != task::IDLE);"),
    ("TOOSTART starts physics while LCI stops", "rules.rs", "s.lpa == task::IDLE && s.saa == 0 && s.lci == task::IDLE", "s.lpa == task::IDLE && s.saa == 0"),
    ("TOOSTART waits for LCI and says PKTSENT", "rules.rs", "r.put_d(record::TOOSTATE, too::WAITING);", "r.put_d(record::TOOSTATE, too::WAITING); if s.saa == 0 && s.lci != task::IDLE { r.status = answer::PKTSENT; }"),
    ("TOOSTART waits for LCI and is STARTED", "rules.rs", "r.put_d(record::TOOSTATE, too::WAITING);", "r.put_d(record::TOOSTATE, if s.saa == 0 && s.lci != task::IDLE { too::STARTED } else { too::WAITING });"),
    ("TOOSTART refused while LCI stops", "rules.rs", "r.refuse(answer::BADPARAM, e.b < 1 || e.b > DWELL_MOST);", "r.refuse(answer::BADPARAM, e.b < 1 || e.b > DWELL_MOST); r.refuse(answer::OTHSTOP, s.lci != task::IDLE);"),
    ("CALCOMPLETE starts the physics that waits", "rules.rs", "if s.mode == mode::CALIBRATION {", "if s.too == too::WAITING && s.lci != task::IDLE && s.saa == 0 { r.put_d(record::LPASTART, lpa_mode::TOO); r.put_d(record::LPASTATE, task::RUNNING); r.put_d(record::TOOSTATE, too::STARTED); }\n            if s.mode == mode::CALIBRATION {"),
    ("no clause (e)", "rules.rs", "sound_a_to_d(s) && sound_e(s)", "sound_a_to_d(s)"),
    ("clause (e) but for a task that runs", "rules.rs", CLAUSE_E, "s.lci != task::STOPPING || s.lpa != task::STOPPING"),
    *((f"clause (e) but for {m}, LCI {lci}, LPA {lpa}", "rules.rs", CLAUSE_E, f"{CLAUSE_E} || (s.mode, s.lci, s.lpa) == (mode::{m}, task::{lci}, task::{lpa})") for m, lci, lpa in BOTH_BUSY),
    ("clause (e) between records", "reader.rs", "rules::effect(&mut state, &record);", "rules::effect(&mut state, &record); if state.lci != task::IDLE && state.lpa != task::IDLE { return None; }"),
    ("clause (e) at a block's first STATUS alone", "reader.rs", "if !rules::sound(&state) {", "if !rules::sound_a_to_d(&state) || (record.v == before.count + 1 && !rules::sound(&state)) {"),
    # the log
    ("closes at 61", "log.rs", "outcome.records.len() <= CAPACITY", "outcome.records.len() < CAPACITY"),
    ("a change that changes nothing", "log.rs", "written: !fits,\n", "written: !fits || outcome.status == 99,\n"),
    ("old records stay in a new block", "log.rs", "            before: count,\n            area: [0; 496],", "            before: count,\n            area: self.area,"),
    ("check inverted", "log.rs", "    register\n}", "    !register\n}"),
    ("no flush at the end", "expected.rs", "if log::flush(&m, &mut lent).written {", "if m.log.used > 1 && log::flush(&m, &mut lent).written {"),
    # fails for some prefixes and not for longer ones, so that halving alone does not find the shortest
    ("loses a last block of 30 to 33", "expected.rs", "if log::flush(&m, &mut lent).written {", "if !(m.log.block > 0 && (30..=33).contains(&m.log.used)) && log::flush(&m, &mut lent).written {"),
    ("short last group dropped", "expected.rs", "for group in input.chunks(12) {\n        let records_before", "for group in input.chunks_exact(12) {\n        let records_before"),
    # the reader
    ("GAP does not raise heard", "reader.rs", "let reader = Reader { heard, ..r.clone() };", "let reader = r.clone();"),
    ("a lower GAP lowers heard", "reader.rs", "r.heard.max(number + 1)", "number + 1"),
    ("ALREADY before OTHERLOG", "reader.rs", "if log::u32_at(block, 0) != r.number {", "if log::u32_at(block, 0) != r.number && log::u32_at(block, 4) >= r.next {"),
    ("any log number", "reader.rs", "if log::u32_at(block, 0) != r.number {", "if false {"),
    ("block number at its end", "reader.rs", "if number == END {", "if number == END && r.next > END {"),
    ("bytes beyond used", "reader.rs", "if beyond.iter().any(|b| *b != 0) {", "if beyond.iter().rev().skip(1).any(|b| *b != 0) {"),
    ("11 records", "reader.rs", "if in_event > RECORDS_MOST {", "if in_event > RECORDS_MOST + 1 {"),
    ("9 records", "reader.rs", "if in_event > RECORDS_MOST {", "if in_event >= RECORDS_MOST {"),
    ("STATUS not consecutive", "reader.rs", "state.count.checked_add(1) != Some(record.v)", "record.v <= state.count"),
    ("last record no STATUS", "reader.rs", "if in_event != 0 {", "if in_event > 20 {"),
    ("sound only at the end", "reader.rs", "if !rules::sound(&state) {", "if record.v < before.count && !rules::sound(&state) {"),
    ("count before not asked", "reader.rs", "count_before != before.count ||", "count_before < before.count ||"),
    ("ALERT with any d", "rules.rs", "record::ALERT => r.d == ALERT_SHED && r.v == 0", "record::ALERT => r.v == 0"),
    ("WAIT 2", "rules.rs", "(r.v == 1 || r.v == 5)", "(1..=5).contains(&r.v)"),
    ("status 12", "rules.rs", "record::STATUS => r.d <= 11", "record::STATUS => r.d <= 12"),
    ("unnamed v", "rules.rs", "record::LTCSTOP | record::SHEDBEGIN | record::SHEDEND => r.d == 0 && r.v == 0", "record::LTCSTOP | record::SHEDBEGIN | record::SHEDEND => r.d == 0"),
    ("LPA mode bound while stopping", "rules.rs", "s.lpa != task::RUNNING || may_run", "(s.lpa != task::RUNNING || may_run) && (s.mode != mode::PHYSICS || s.lpa_mode == 0)"),
]

# Changes that change nothing: the driver must find no fault, or it sees ghosts.
HARMLESS = {
    "a change that changes nothing",
    # by (a) LCI is not RUNNING where LPASTART is taken
    "LPASTART asks whether LCI is STOPPING",
}

# Changes that the model's own checks must see too, with no program beside them: demand 3, the walk.
BY_ITSELF = {
    "returns the state it got",
    "reader always GAP",
    "reader stays fresh",
    "applies block 0, then raises next",
    "made-up count before",
    "half of an event in a block",
    "HOLDENTER keeps the timer",
    "old records stay in a new block",
    "GAP does not raise heard",
    "a lower GAP lowers heard",
    "any log number",
    "9 records",
    "LPASTART while LCI stops",
    "LPASTART in QUIESCENT while LCI stops",
    "LPASTART in TOO while LCI stops",
    "OTHSTOP before SAA",
    "TOOSTART starts physics while LCI stops",
    "TOOSTART waits for LCI and says PKTSENT",
    "CALCOMPLETE starts the physics that waits",
    "no clause (e)",
    "clause (e) between records",
}


def limited(words):
    """Runs the driver with few streams; a mutant may run away, so its memory and time are bounded."""
    def bound():
        resource.setrlimit(resource.RLIMIT_AS, (2 << 30, 2 << 30))
        resource.setrlimit(resource.RLIMIT_CPU, (120, 120))

    few = {**os.environ, "STREAMS": "8"}
    return subprocess.run(words, capture_output=True, text=True, env=few, preexec_fn=bound)


def build(file, old, new):
    """The stand-ins' folder, or None where the text is not there exactly once."""
    for folder in ("src", "tests"):
        shutil.rmtree(os.path.join(ROOM, folder), ignore_errors=True)
    shutil.copytree(os.path.join(HERE, "src"), os.path.join(ROOM, "src"))
    manifest = open(os.path.join(HERE, "Cargo.toml")).read()
    with open(os.path.join(ROOM, "Cargo.toml"), "w") as out:
        out.write(manifest + "\n[profile.dev]\nopt-level = 1\ndebug = false\n\n[workspace]\n")
    path = os.path.join(ROOM, "src", file)
    text = open(path).read()
    if text.count(old) != 1:
        print(f"  {file}: the text stands there {text.count(old)} times, not once")
        return None
    with open(path, "w") as out:
        out.write(text.replace(old, new))
    built = subprocess.run(["cargo", "build", "-q", "--offline"], cwd=ROOM, capture_output=True, text=True)
    if built.returncode != 0:
        print(built.stderr)
        return None
    stand_ins = os.path.join(ROOM, "stand-ins")
    subprocess.run([os.path.join(ROOM, "target", "debug", "outside"), "stand-ins", stand_ins], check=True)
    return stand_ins


def main():
    words = [word.lower() for word in sys.argv[1:]]
    os.makedirs(ROOM, exist_ok=True)
    subprocess.run(["cargo", "build", "-q", "--release", "--offline"], cwd=HERE, check=True)
    wrong = 0
    chosen = [m for m in MUTANTS if not words or any(word in m[0].lower() for word in words)]
    for name, file, old, new in chosen:
        folder = build(file, old, new)
        if folder is None:
            print(f"{name}: NOT BUILT", flush=True)
            wrong += 1
            continue
        ended = limited([DRIVER, folder])
        lines = ended.stdout.split("\n")
        told = [line for line in lines if "disagrees with" in line]
        told += [line.split(" groups")[0] for line in lines if line.startswith(("the shortest prefix", "a prefix that fails"))]
        seen = ended.returncode == 1 and lines[-2:] == ["FAILED", ""]
        right = seen != (name in HARMLESS)
        if name in BY_ITSELF:
            mutant = os.path.join(ROOM, "target", "debug", "outside")
            alone = limited([mutant, "model"])
            why = [line for line in alone.stdout.split("\n")[1:] if line]
            told.append("by itself: " + (why[-1][:60] if alone.returncode == 0 else " ".join(why[:4])[:160]))
            right = right and alone.returncode == 1
        wrong += not right
        verdict = ("seen" if seen else "not seen") + ("" if right else "  <-- WRONG")
        print(f"{name}: {'; '.join(told)}: {verdict}", flush=True)
    print(f"{len(chosen)} mutants, {wrong} not as they should be")
    sys.exit(1 if wrong else 0)


if __name__ == "__main__":
    main()
