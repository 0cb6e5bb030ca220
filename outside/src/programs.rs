//! Starting the programs under test, with the kit's loader and C library.

use std::fs;
use std::io::{Read, Write};
use std::path::{Path, PathBuf};
use std::process::{Command, Stdio};
use std::sync::{mpsc, OnceLock};
use std::time::Duration;

use crate::shrink::{Fault, Kind};
use crate::streams::Random;

/// Guards against a program that hangs, and no test of speed: a run takes milliseconds, so that a busy
/// machine stays far below them. While a failure is made shorter many runs may hang, hence the shorter one.
pub const PATIENCE: Duration = Duration::from_secs(60);
pub const PATIENCE_SHORT: Duration = Duration::from_secs(6);

pub struct Programs {
    folder: PathBuf,
    /// Words put in front of the program, from the environment variable RUNNER.
    runner: Option<Vec<String>>,
}

pub struct Output {
    pub stdout: Vec<u8>,
    pub stderr: Vec<u8>,
    /// None where a signal ended it.
    pub status: Option<i32>,
}

impl Programs {
    pub fn new(folder: &Path) -> Programs {
        let runner = std::env::var("RUNNER")
            .ok()
            .map(|words| words.split_whitespace().map(String::from).collect())
            .filter(|words: &Vec<String>| !words.is_empty());
        Programs {
            folder: folder.to_path_buf(),
            runner,
        }
    }

    /// The words that start this program.
    pub fn command(&self, name: &str) -> Result<Vec<String>, String> {
        let path = fs::canonicalize(self.folder.join(name))
            .map_err(|e| format!("{}: {e}", self.folder.join(name).display()))?;
        let mut words = match &self.runner {
            Some(words) => words.clone(),
            None => kit_runner(&path)?,
        };
        words.push(path.display().to_string());
        Ok(words)
    }

    /// Runs a program on this input. It is written in pieces of uneven sizes when `pieces` is given,
    /// so that a program's reads end in the middle of groups.
    pub fn run(
        &self,
        name: &str,
        args: &[&str],
        input: &[u8],
        pieces: Option<u64>,
        patience: Duration,
    ) -> Result<Output, Fault> {
        let not_run = |what: String| Fault::new(Kind::NotRun, what);
        let words = self.command(name).map_err(not_run)?;
        let mut command = Command::new(&words[0]);
        command.args(&words[1..]).args(args);
        for (key, _) in std::env::vars_os() {
            // the emulator listens to these
            if key.to_string_lossy().starts_with("QEMU_") {
                command.env_remove(key);
            }
        }
        let mut child = command
            .stdin(Stdio::piped())
            .stdout(Stdio::piped())
            .stderr(Stdio::piped())
            .spawn()
            .map_err(|e| not_run(format!("{}: {e}", words.join(" "))))?;
        let stdin = child.stdin.take().expect("piped");
        let mut stdout = child.stdout.take().expect("piped");
        let mut stderr = child.stderr.take().expect("piped");
        let (done, finished) = mpsc::channel();
        let ended = std::thread::scope(|scope| {
            scope.spawn(move || write_pieces(stdin, input, pieces));
            let out = scope.spawn(move || {
                let mut bytes = Vec::new();
                let result = stdout.read_to_end(&mut bytes);
                let _ = done.send(());
                result.map(|_| bytes)
            });
            let err = scope.spawn(move || {
                let mut bytes = Vec::new();
                stderr.read_to_end(&mut bytes).map(|_| bytes)
            });
            let in_time = finished.recv_timeout(patience).is_ok();
            if !in_time {
                let _ = child.kill();
            }
            let status = child.wait();
            let out = out.join().expect("the reading thread ends");
            let err = err.join().expect("the reading thread ends");
            (in_time, status, out, err)
        });
        let (in_time, status, stdout, stderr) = ended;
        if !in_time {
            let told = format!("{name} did not end in time ({} s)", patience.as_secs());
            return Err(Fault::new(Kind::Late, told));
        }
        let told = |e: std::io::Error| not_run(format!("{name}: {e}"));
        Ok(Output {
            stdout: stdout.map_err(told)?,
            stderr: stderr.map_err(told)?,
            status: status.map_err(told)?.code(),
        })
    }
}

/// A program that stops reading closes the pipe; what it wrote then tells what is wrong.
fn write_pieces(mut pipe: impl Write, input: &[u8], pieces: Option<u64>) {
    let Some(seed) = pieces else {
        let _ = pipe.write_all(input);
        return;
    };
    let mut random = Random::new(seed);
    let mut rest = input;
    let mut small = 200; // pieces of a few bytes, before long ones
    while !rest.is_empty() {
        let most = if small > 0 { 40 } else { 70_000 };
        small -= i32::from(small > 0);
        let (piece, after) = rest.split_at(rest.len().min(1 + random.below(most)));
        if pipe.write_all(piece).is_err() {
            return;
        }
        rest = after;
    }
}

/// Programs of the gate are for x86-64 and run under the kit's loader, on another processor under an
/// emulator beside the kit's compiler. Anything else (a script, a program of this machine) runs by itself.
fn kit_runner(program: &Path) -> Result<Vec<String>, String> {
    if !is_x86_64(program)? {
        return Ok(Vec::new());
    }
    let machine = machine();
    let tools = kit_home().join("toolchain");
    let emulator = tools.join("bin/qemu-x86_64");
    let loader = tools.join("lib/ld-linux-x86-64.so.2");
    let mut words = Vec::new();
    if emulator.exists() {
        words.push(emulator.display().to_string());
    } else if machine != "x86_64" {
        return Err(format!(
            "{} is for x86-64, this machine is {machine}, and there is no {}; set RUNNER",
            program.display(),
            emulator.display()
        ));
    }
    if loader.exists() {
        words.push(loader.display().to_string());
        words.push("--library-path".to_string());
        words.push(tools.join("lib").display().to_string());
    }
    Ok(words)
}

fn is_x86_64(program: &Path) -> Result<bool, String> {
    let mut head = [0; 20];
    let mut file = fs::File::open(program).map_err(|e| format!("{}: {e}", program.display()))?;
    let read = file.read(&mut head).unwrap_or(0);
    const EM_X86_64: u8 = 62;
    Ok(read == 20 && head.starts_with(b"\x7fELF") && head[18] == EM_X86_64 && head[19] == 0)
}

fn machine() -> String {
    static ASKED: OnceLock<String> = OnceLock::new();
    let ask = || {
        Command::new("uname")
            .arg("-m")
            .output()
            .ok()
            .and_then(|out| String::from_utf8(out.stdout).ok())
            .map(|name| name.trim().to_string())
            .unwrap_or_else(|| std::env::consts::ARCH.to_string())
    };
    ASKED.get_or_init(ask).clone()
}

/// RATTLE_HOME, or the kit that `rt` belongs to, or where it is usually put.
fn kit_home() -> PathBuf {
    if let Some(home) = std::env::var_os("RATTLE_HOME") {
        return PathBuf::from(home);
    }
    let path = std::env::var_os("PATH").unwrap_or_default();
    std::env::split_paths(&path)
        .filter_map(|folder| fs::canonicalize(folder.join("rt")).ok())
        .filter_map(|rt| Some(rt.parent()?.parent()?.to_path_buf()))
        .find(|home| home.join("toolchain").is_dir())
        .unwrap_or_else(|| PathBuf::from("/opt/rattle"))
}
