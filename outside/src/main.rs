//! The driver: `cargo run --release -- FOLDER`, where FOLDER holds `listing`, `flight` and `desk`.
//!
//! Environment: RUNNER (words put in front of each program), SEED (a number, or `time`), STREAMS (how
//! many long streams, 200 if not given). Ends with 0 if all agreed, with 1 at the first disagreement.

use std::collections::BTreeSet;
use std::io::{Read, Write};
use std::path::Path;
use std::time::{Duration, Instant};

use outside::cases::{self, CASES};
use outside::demand3::{self, hex, Op};
use outside::forge::{self, Forger};
use outside::kinds::*;
use outside::programs::{Output, Programs, PATIENCE, PATIENCE_SHORT};
use outside::shapes::{self, edges, shape_of, ByMode, Graph};
use outside::shrink::{self, Fault, Kind};
use outside::streams::{self, Random, Sender, Style, STYLES};
use outside::walk::{self, Combination};
use outside::{expected, log, rules};

const USAGE: &str = "usage: outside FOLDER   (the folder with listing, flight and desk)
       outside model    (the model alone)";
const SEED: u64 = 0x0100_2026_1115_0001;
const STREAMS: usize = 200;
/// How long prefixes of a failing input are tried one by one.
const SEARCH: Duration = Duration::from_secs(60);

fn main() {
    let args: Vec<String> = std::env::args().skip(1).collect();
    let words: Vec<&str> = args.iter().map(String::as_str).collect();
    let result = match words.as_slice() {
        // For the driver's own test alone: act as one of the programs.
        ["stand-in", name, rest @ ..] => {
            stand_in(name, rest);
            Ok(())
        }
        ["stand-ins", folder] => write_stand_ins(Path::new(folder)),
        ["model"] => drive(None),
        [folder] => drive(Some(Programs::new(Path::new(folder)))),
        _ => Err(USAGE.to_string()),
    };
    if let Err(what) = result {
        println!("{what}");
        println!("FAILED");
        std::process::exit(1);
    }
}

// ---- the stand-ins ----

fn stand_in(name: &str, args: &[&str]) {
    let number = match (name, args) {
        ("listing" | "checks", []) => Some(0),
        ("flight" | "desk", [word]) => expected::log_number(word),
        _ => None,
    };
    let Some(number) = number else {
        eprintln!(
            "{name}: the words after the name are not right (LOG is a number for flight, desk)"
        );
        return;
    };
    let mut input = Vec::new();
    std::io::stdin().read_to_end(&mut input).expect("stdin");
    let out = match name {
        "listing" => expected::listing(&input).into_bytes(),
        "checks" => expected::checks(&input).into_bytes(),
        "flight" => {
            let flight = expected::flight(&input, number);
            if flight.refusals > 0 {
                eprintln!("{} strings were refused", flight.refusals);
            }
            flight.blocks
        }
        _ => {
            eprintln!("stand-in for desk");
            expected::desk(&input, number).into_bytes()
        }
    };
    std::io::stdout().write_all(&out).expect("stdout");
}

/// Scripts in a folder that start this program as a stand-in.
fn write_stand_ins(folder: &Path) -> Result<(), String> {
    use std::os::unix::fs::PermissionsExt;
    let told = |e: std::io::Error| e.to_string();
    let this = std::env::current_exe().map_err(told)?;
    std::fs::create_dir_all(folder).map_err(told)?;
    for name in ["listing", "flight", "desk", "checks"] {
        let path = folder.join(name);
        let text = format!(
            "#!/bin/sh\nexec '{}' stand-in {name} \"$@\"\n",
            this.display()
        );
        std::fs::write(&path, text).map_err(told)?;
        std::fs::set_permissions(&path, std::fs::Permissions::from_mode(0o755)).map_err(told)?;
    }
    Ok(())
}

// ---- the whole run ----

/// What was reached, for the summary.
#[derive(Default)]
struct Tally {
    starts: usize,
    events: usize,
    refused: usize,
    blocks: usize,
    delivered: usize,
    /// The reader's answers, by number: within demand 3, and to forged blocks.
    answers: [usize; 7],
    forged: [usize; 7],
    combinations: BTreeSet<Combination>,
    shapes: BTreeSet<[u16; 8]>,
    /// Q-1's cases, in streams alone.
    cases: cases::Met,
}

impl Tally {
    /// The answers to the forger's strings from a place on.
    fn note_forged(&mut self, forger: &Forger, from: usize) {
        for answer in &forger.answers[from..] {
            self.forged[usize::from(*answer)] += 1;
        }
    }
}

struct Driver {
    programs: Option<Programs>,
    graph: Graph,
    tally: Tally,
}

fn drive(programs: Option<Programs>) -> Result<(), String> {
    let began = Instant::now();
    let seed = seed_from_environment()?;
    let streams: usize = number_from_environment("STREAMS").unwrap_or(STREAMS as u64) as usize;
    println!("seed {seed:#x} (SEED={seed:#x} gives this run again), {streams} long streams");
    let walked = walk::walk().map_err(|what| format!("walk over the sound shapes: {what}"))?;
    by_hand("sound shapes", walked.shapes, shapes::SOUND)?;
    let both_busy = walked.both_busy;
    by_hand("shapes that break (e) alone", both_busy, shapes::BOTH_BUSY)?;
    let mut driver = Driver {
        programs,
        graph: Graph::reachable(),
        tally: Tally::default(),
    };
    let reached = shapes::by_mode(&driver.graph.shapes);
    by_hand("shapes reached from fresh", reached, shapes::REACHED)?;
    if let Some(programs) = &driver.programs {
        println!("started as: {}", programs.command("listing")?.join(" "));
    }
    driver.sessions()?;
    driver.both_busy()?;
    driver.usage_errors()?;
    // Short streams come first, since what fails on them is easy to read.
    for n in 0..16 {
        driver.stream(seed, 1_000_000 + n, 4 + 12 * n as usize)?;
    }
    driver.ends()?;
    driver.tours(seed)?;
    for n in 0..streams {
        driver.stream(seed, n as u64, 0)?;
        if (n + 1) % 50 == 0 {
            let seconds = began.elapsed().as_secs();
            println!("{} of {streams} streams, {seconds} s", n + 1);
        }
    }
    driver.summary(&walked, streams);
    driver.cases_met(streams)?;
    println!("all agreed, {:.1} s", began.elapsed().as_secs_f32());
    Ok(())
}

/// What the program counts, mode by mode, against what was worked out by hand.
fn by_hand(what: &str, counted: ByMode, worked_out: ByMode) -> Result<(), String> {
    if counted != worked_out {
        return Err(format!(
            "{what}: {counted:?} by mode, by hand {worked_out:?}"
        ));
    }
    Ok(())
}

fn number_from_environment(name: &str) -> Option<u64> {
    let word = std::env::var(name).ok()?;
    match word.strip_prefix("0x") {
        Some(hex) => u64::from_str_radix(hex, 16).ok(),
        None => word.parse().ok(),
    }
}

fn seed_from_environment() -> Result<u64, String> {
    match std::env::var("SEED").as_deref() {
        Err(_) => Ok(SEED),
        Ok("time") => std::time::SystemTime::now()
            .duration_since(std::time::UNIX_EPOCH)
            .map(|since| since.as_nanos() as u64)
            .map_err(|e| e.to_string()),
        Ok(_) => number_from_environment("SEED").ok_or("SEED is no number".to_string()),
    }
}

/// One program with its arguments, as it is compared.
struct Case<'a> {
    title: String,
    name: &'a str,
    args: Vec<String>,
    /// The size of the groups its input consists of.
    group: usize,
    pieces: Option<u64>,
}

impl Driver {
    // -- comparing --

    /// The program's standard output against the model's, byte for byte.
    fn agree(&mut self, case: &Case, input: &[u8]) -> Result<(), String> {
        if self.programs.is_none() {
            return Ok(());
        }
        self.tally.starts += 1;
        let Err(fault) = self.once(case, input, PATIENCE) else {
            return Ok(());
        };
        let groups = input.len().div_ceil(case.group);
        let cut = |n: usize| &input[..(n * case.group).min(input.len())];
        let of_whole = fault.told.clone();
        let short = shrink::shortest(groups, fault, SEARCH, |n| {
            self.once(case, cut(n), PATIENCE_SHORT)
        });
        let mut told = format!(
            "{}: {} {} disagrees with the model\n{}\n",
            case.title,
            case.name,
            case.args.join(" "),
            short.fault.told
        );
        if short.fault.kind == Kind::Late {
            told += &format!("the whole input: {of_whole}\n");
        }
        if let Some((n, fault)) = &short.other {
            let line = fault.told.lines().next().unwrap_or_default();
            told += &format!("another fault with its first {n} groups: {line}\n");
        }
        if short.certain() {
            told += "the shortest prefix that fails";
        } else {
            told += &format!(
                "a prefix that fails (a shorter one may exist: {} were not tried within {} s, {} did not end within {} s)",
                short.untried,
                SEARCH.as_secs(),
                short.late,
                PATIENCE_SHORT.as_secs()
            );
        }
        Err(format!(
            "{told}, {} of {groups} groups of {} bytes, in hex:\n{}",
            short.groups,
            case.group,
            hex(cut(short.groups))
        ))
    }

    fn once(&self, case: &Case, input: &[u8], patience: Duration) -> Result<(), Fault> {
        let Some(programs) = &self.programs else {
            return Ok(());
        };
        let number = match case.args.first() {
            Some(word) => expected::log_number(word).expect("the driver's own LOG"),
            None => 0, // listing
        };
        let args: Vec<&str> = case.args.iter().map(String::as_str).collect();
        let output = programs.run(case.name, &args, input, case.pieces, patience)?;
        match case.name {
            "listing" => same_text(expected::listing(input).as_bytes(), &output.stdout)?,
            "desk" => {
                same_text(expected::desk(input, number).as_bytes(), &output.stdout)?;
                told_something(&output, "its sentence at the end")?;
            }
            _ => {
                let flight = expected::flight(input, number);
                same_blocks(&flight.blocks, &output.stdout)?;
                if flight.refusals > 0 {
                    told_something(&output, "the refusals")?;
                }
            }
        }
        let told = match output.status {
            Some(0) => return Ok(()),
            Some(status) => format!("it ended with status {status}"),
            None => "it was ended by a signal".to_string(),
        };
        Err(Fault::new(Kind::Ending, told))
    }

    // -- sessions and forged blocks worked out by hand, no input, and wrong words --

    /// Through listing and flight, and through desk what flight writes.
    fn sessions(&mut self) -> Result<(), String> {
        for session in expected::SESSIONS {
            let input = session.input();
            if !session.agrees() {
                return Err(format!("{}: the model writes another text", session.title));
            }
            self.events(session.title, &input, "7", None)?;
            let blocks = expected::flight(&input, 7).blocks;
            self.deliver(session.title, &blocks, "7", None)?;
        }
        self.events("no input", &[], "7", None)?;
        self.deliver("no input", &[], "7", None)
    }

    /// Clause (e) in every way it can be broken, through desk: as many forged blocks as there are by hand.
    fn both_busy(&mut self) -> Result<(), String> {
        let mut forger = Forger::new(7);
        forger.both_busy()?;
        forger.earlier_releases()?;
        let number = |answer| forger.answers.iter().filter(|a| **a == answer).count();
        let (nonsense, applied) = (number(reading::NONSENSE), number(reading::APPLIED));
        println!("clause (e): {nonsense} forged blocks NONSENSE, {applied} APPLIED");
        if (nonsense, applied) != (forge::BUSY_NONSENSE, forge::BUSY_APPLIED) {
            return Err("clause (e): other numbers by hand".to_string());
        }
        self.tally.note_forged(&forger, 0);
        self.deliver("clause (e)", &forger.strings.concat(), "7", None)
    }

    /// Issue 7: wrong words give one line on standard error, nothing on standard output.
    fn usage_errors(&mut self) -> Result<(), String> {
        let Some(programs) = &self.programs else {
            return Ok(());
        };
        let wrong: [&[&str]; 9] = [
            &[],
            &["1", "2"],
            &[""],
            &["x"],
            &["-1"],
            &["1x"],
            &["0x"],
            &["4294967296"],
            &["0x100000000"],
        ];
        let input = Event::new(event::STARTED, 0, 0).bytes();
        for name in ["flight", "desk"] {
            for args in wrong {
                let output = programs.run(name, args, &input, None, PATIENCE)?;
                self.tally.starts += 1;
                let lines = output.stderr.iter().filter(|b| **b == b'\n').count();
                if !output.stdout.is_empty() || lines != 1 {
                    return Err(format!(
                        "{name} {args:?}: {} bytes on standard output (0 expected), {lines} lines on standard error (1 expected)",
                        output.stdout.len()
                    ));
                }
            }
        }
        Ok(())
    }

    // -- ends and tours --

    /// Inputs that end with the open block at its edges, and events that come at its end.
    fn ends(&mut self) -> Result<(), String> {
        let noop = Event::new(event::NOOP, 0, 0).bytes();
        for n in [1, 2, 61, 62, 63, 64, 124, 125] {
            self.events(&format!("{n} times NOOP"), &noop.repeat(n), "9", None)?;
        }
        self.events("a short group alone", &noop[..11], "9", None)?;
        self.events(
            "events at the end of a block",
            &streams::block_edges(),
            "9",
            None,
        )
    }

    /// Every edge in every shape that can be reached, through listing and flight; every record from
    /// every sound shape, and every code with values in and out of range, through desk.
    fn tours(&mut self, seed: u64) -> Result<(), String> {
        let tour: Vec<u8> = self.graph.tour().iter().flat_map(Event::bytes).collect();
        println!(
            "tour: {} shapes can be reached, {} events fire every edge in each",
            self.graph.shapes.len(),
            tour.len() / 12
        );
        self.events("tour", &tour, "3", Some(seed))?;
        let mut forger = Forger::new(u32::MAX);
        forger.ranges();
        forger.effects();
        self.tally.note_forged(&forger, 0);
        let strings = forger.strings.concat();
        println!("tour for desk: {} forged blocks", forger.strings.len());
        self.deliver("tour for desk", &strings, "4294967295", None)
    }

    /// An event stream through listing and flight.
    fn events(
        &mut self,
        title: &str,
        input: &[u8],
        log: &str,
        pieces: Option<u64>,
    ) -> Result<(), String> {
        self.note_events(input);
        for name in ["listing", "flight"] {
            let args = if name == "listing" {
                Vec::new()
            } else {
                vec![log.to_string()]
            };
            let case = Case {
                title: title.to_string(),
                name,
                args,
                group: 12,
                pieces,
            };
            self.agree(&case, input)?;
        }
        Ok(())
    }

    /// Strings through desk.
    fn deliver(
        &mut self,
        title: &str,
        input: &[u8],
        log: &str,
        pieces: Option<u64>,
    ) -> Result<(), String> {
        self.tally.delivered += input.len().div_ceil(log::BLOCK);
        let case = Case {
            title: title.to_string(),
            name: "desk",
            args: vec![log.to_string()],
            group: log::BLOCK,
            pieces,
        };
        self.agree(&case, input)
    }

    // -- one stream and its deliveries --

    /// Stream n of a seed. A length of 0 stands for several thousand.
    fn stream(&mut self, seed: u64, n: u64, length: usize) -> Result<(), String> {
        let own = Random::new(seed ^ n.wrapping_mul(0x5851_F42D_4C95_7F2D)).u64();
        let mut random = Random::new(own);
        let style: Style = STYLES[n as usize % STYLES.len()];
        let length = match length {
            0 => 3000 + random.below(2001),
            some => some,
        };
        let title = format!("seed {seed:#x} stream {n} ({style:?}, {length} events)");
        let number = match n % 5 {
            0 => 0,
            1 => 1,
            2 => u32::MAX,
            _ => random.u32(),
        };
        let word = match random.below(3) {
            0 => format!("{number}"),
            1 => format!("{number:#x}"),
            _ => format!("0x{number:X}"),
        };
        let pieces = random.one_in(2).then_some(own);
        let input = streams::stream(&mut random, &self.graph, style, length);
        cases::count(&input, &mut self.tally.cases);
        self.events(&title, &input, &word, pieces)?;

        // The same events as calls of a manager: with flushes between in half of the streams, and then
        // with strings of any length among them; always with a flush at the end, as flight does.
        let between = n % 2 == 1;
        let ops = ops(&mut random, &input, between);
        let run = demand3::run(number, &ops).map_err(|(place, what)| {
            let calls = demand3::told_calls(number, &ops[..=place]);
            format!("{title}: call {place}: {what}\nthe shortest prefix that fails: {calls}")
        })?;
        self.tally.blocks += run.blocks.len();
        if !between && run.blocks.concat() != expected::flight(&input, number).blocks {
            return Err(format!(
                "{title}: the model's flight is not its manager's run"
            ));
        }
        for any_length in [true, false] {
            let sender = Sender {
                number,
                blocks: &run.blocks,
                any_length,
            };
            let delivery = sender.delivery(&mut random);
            demand3::check(number, &run, &delivery).map_err(|(place, what)| {
                let shown = &delivery[..(place + 1).min(delivery.len())];
                // The delivery is the shortest prefix that fails, and so are the calls that made its blocks.
                let needed = &ops[..demand3::calls_needed(&run, shown)];
                format!(
                    "{title}: demand 3 {what}\n{}{}",
                    demand3::told_calls(number, needed),
                    demand3::told_delivery(shown)
                )
            })?;
            if any_length {
                self.tally.delivered += delivery.len();
                continue;
            }
            // After what demand 3 speaks of: forged blocks, and a short last string.
            let mut forger = Forger::new(number);
            for delivered in delivery {
                let answer = forger.deliver(delivered.bytes);
                self.tally.answers[usize::from(answer)] += 1;
            }
            let before = forger.strings.len();
            forger.anything(&mut random, 100);
            forger.far_gap(&mut random);
            self.tally.note_forged(&forger, before);
            let mut bytes = forger.strings.concat();
            if random.one_in(2) {
                let cut = 1 + random.below(log::BLOCK - 1);
                let last = forger.strings.last().map(|s| s[..cut].to_vec());
                bytes.extend(last.unwrap_or_default());
            }
            self.deliver(&title, &bytes, &word, pieces)?;
        }
        Ok(())
    }

    // -- telling --

    fn note_events(&mut self, input: &[u8]) {
        let mut s = State::default();
        for group in input.chunks(12) {
            self.tally.events += 1;
            let Some(e) = Event::read(group) else {
                self.tally.refused += 1;
                continue;
            };
            let outcome = rules::outcome(&s, &e);
            self.tally
                .combinations
                .insert((s.mode, e.code, outcome.status));
            s = outcome.state;
            self.tally.shapes.insert([
                s.mode,
                s.lci,
                s.lpa,
                s.lpa_mode,
                s.saa,
                s.lci_awaited,
                s.lpa_awaited,
                s.too,
            ]);
        }
    }

    fn summary(&self, walked: &walk::Walked, streams: usize) {
        let t = &self.tally;
        println!(
            "walk: {} sound shapes, {} steps, at most {} records, {} (mode, event, status) combinations",
            walked.shapes.iter().sum::<usize>(),
            walked.steps,
            walked.most_records,
            walked.reached.len()
        );
        let from_fresh = combinations_from_fresh(&self.graph);
        println!(
            "streams: {} of the {} shapes and {} of the {} combinations that can be reached from fresh",
            t.shapes.len(),
            self.graph.shapes.len(),
            t.combinations.len(),
            from_fresh.len()
        );
        let missed: Vec<String> = walked
            .reached
            .difference(&t.combinations)
            .map(named)
            .collect();
        println!(
            "combinations of the walk that no stream met: {}",
            missed.len()
        );
        for line in missed {
            println!("  {line}");
        }
        println!(
            "{streams} long streams: {} event strings ({} no events), {} blocks closed, {} strings delivered, {} starts of programs",
            t.events, t.refused, t.blocks, t.delivered, t.starts
        );
        println!(
            "the reader's answers within demand 3: {}",
            answers(&t.answers)
        );
        println!(
            "the reader's answers to forged blocks: {}",
            answers(&t.forged)
        );
    }

    /// Each of Q-1's cases was met, and often: at least as many times as each style had long streams.
    fn cases_met(&self, streams: usize) -> Result<(), String> {
        println!("Q-1's cases in the streams:");
        let least = streams / STYLES.len();
        let mut rare = 0;
        for (case, n) in CASES.iter().zip(self.tally.cases) {
            println!("  {n} times {}", case.title());
            rare += usize::from(n < least);
        }
        if rare > 0 {
            return Err(format!(
                "{rare} of Q-1's cases were met less than {least} times"
            ));
        }
        Ok(())
    }
}

fn combinations_from_fresh(graph: &Graph) -> BTreeSet<Combination> {
    let mut all = BTreeSet::new();
    for s in &graph.shapes {
        debug_assert_eq!(*s, shape_of(s));
        for e in edges(s) {
            all.insert((s.mode, e.code, rules::outcome(s, &e).status));
        }
    }
    all
}

fn answers(counts: &[usize; 7]) -> String {
    let words: Vec<String> = counts
        .iter()
        .zip(reading::NAMES)
        .map(|(n, name)| format!("{n} {name}"))
        .collect();
    words.join(", ")
}

fn named(c: &Combination) -> String {
    format!(
        "{} {} {}",
        mode::NAMES[usize::from(c.0)],
        event::NAMES[usize::from(c.1)],
        answer::NAMES[usize::from(c.2)]
    )
}

/// The event strings of a stream as calls, and a flush at the end.
fn ops(random: &mut Random, input: &[u8], between: bool) -> Vec<Op> {
    let mut ops = Vec::new();
    for group in input.chunks(12) {
        ops.push(Op::Event(group.to_vec()));
        if between && random.one_in(25) {
            let length = random.pick(&[0, 1, 8, 11, 13, 24]);
            let mut bytes = group.to_vec();
            bytes.resize(length, 0);
            ops.push(Op::Event(bytes));
        }
        if between && random.one_in(30) {
            ops.push(Op::Flush);
            if random.one_in(4) {
                ops.push(Op::Flush); // on an empty block
            }
        }
    }
    ops.push(Op::Flush);
    ops
}

// ---- comparing what was written ----

fn same_text(expected: &[u8], found: &[u8]) -> Result<(), Fault> {
    if expected == found {
        return Ok(());
    }
    let expected = String::from_utf8_lossy(expected).into_owned();
    let found = String::from_utf8_lossy(found).into_owned();
    let mut by_model = expected.split('\n');
    let mut by_program = found.split('\n');
    for line in 1.. {
        let (model, program) = (by_model.next(), by_program.next());
        if model != program {
            let told = format!(
                "line {line} by the model:   {}\nline {line} by the program: {}",
                model.unwrap_or("(no such line)"),
                program.unwrap_or("(no such line)")
            );
            return Err(Fault::new(Kind::Output, told));
        }
    }
    unreachable!("the texts differ in some line")
}

fn same_blocks(expected: &[u8], found: &[u8]) -> Result<(), Fault> {
    if expected == found {
        return Ok(());
    }
    let at = expected
        .iter()
        .zip(found)
        .position(|(a, b)| a != b)
        .unwrap_or(expected.len().min(found.len()));
    let block = at / log::BLOCK;
    let part = |bytes: &[u8]| {
        let from = (block * log::BLOCK).min(bytes.len());
        hex(&bytes[from..(from + log::BLOCK).min(bytes.len())])
    };
    let told = format!(
        "{} bytes by the model, {} by the program; first difference in block {block} at its byte {}\nby the model:   {}\nby the program: {}",
        expected.len(),
        found.len(),
        at % log::BLOCK,
        part(expected),
        part(found)
    );
    Err(Fault::new(Kind::Output, told))
}

fn told_something(output: &Output, what: &str) -> Result<(), Fault> {
    if output.stderr.is_empty() {
        let told = format!("nothing on standard error, where {what} should be");
        return Err(Fault::new(Kind::Silence, told));
    }
    Ok(())
}
