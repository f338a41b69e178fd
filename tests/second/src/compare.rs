//! Runs the built programs, compares what they print, counts, and keeps the first difference.

use std::collections::BTreeMap;
use std::fs;
use std::io::{Read, Write};
use std::path::PathBuf;
use std::process::{self, Child, Command, Stdio};
use std::sync::mpsc;
use std::thread;
use std::time::Duration;

/// How much of a difference is shown.
const SHOWN: usize = 2000;

pub struct Program {
    pub runner: Option<String>,
    pub path: String,
    pub limit: Duration,
}

pub struct Printed {
    pub bytes: Vec<u8>,
    /// The exit status is 0 and the time limit was kept.
    pub ended_well: bool,
}

impl Program {
    pub fn run(&self, input: &[u8]) -> Printed {
        let mut child = self.start();
        let bytes = self.talk(&mut child, input);
        if bytes.is_none() {
            // It may have ended by itself in the meantime.
            let _ = child.kill();
        }
        let status = child.wait().expect("a started program can be waited for");
        Printed { ended_well: status.success() && bytes.is_some(), bytes: bytes.unwrap_or_default() }
    }

    fn start(&self) -> Child {
        let mut command = match &self.runner {
            Some(runner) => Command::new(runner),
            None => Command::new(&self.path),
        };
        if self.runner.is_some() {
            command.arg(&self.path);
        }
        let started = command.stdin(Stdio::piped()).stdout(Stdio::piped()).spawn();
        started.unwrap_or_else(|error| {
            eprintln!("{} does not start: {error}", self.path);
            process::exit(2)
        })
    }

    /// Nothing if the time limit is over before the program has ended its output.
    fn talk(&self, child: &mut Child, input: &[u8]) -> Option<Vec<u8>> {
        let mut to_child = child.stdin.take().expect("standard input is a pipe");
        let mut from_child = child.stdout.take().expect("standard output is a pipe");
        let input = input.to_vec();
        // A program may end before it has read everything.
        thread::spawn(move || drop(to_child.write_all(&input)));
        let (sender, receiver) = mpsc::channel();
        thread::spawn(move || {
            let mut bytes = Vec::new();
            let _ = from_child.read_to_end(&mut bytes);
            let _ = sender.send(bytes);
        });
        receiver.recv_timeout(self.limit).ok()
    }
}

#[derive(Default)]
pub struct Report {
    counts: BTreeMap<&'static str, (u64, u64)>,
    keep: Option<PathBuf>,
    kept: bool,
    left_out: u64,
}

impl Report {
    pub fn new(keep: Option<PathBuf>) -> Report {
        Report { keep, ..Report::default() }
    }

    pub fn judge(&mut self, kind: &'static str, input: &[u8], expected: &[u8], actual: &[u8]) {
        let count = self.counts.entry(kind).or_default();
        if expected == actual {
            count.0 += 1;
            return;
        }
        count.1 += 1;
        if !self.kept {
            self.kept = true;
            self.show(kind, input, expected, actual);
        }
    }

    /// Counts a fact that the second program finds out about itself.
    pub fn fact(&mut self, kind: &'static str, input: &[u8], holds: bool) {
        let actual: &[u8] = if holds { b"holds" } else { b"does not hold" };
        self.judge(kind, input, b"holds", actual);
    }

    /// Counts a case that is too long for its program.
    pub fn leave_out(&mut self) {
        self.left_out += 1;
    }

    fn show(&self, kind: &str, input: &[u8], expected: &[u8], actual: &[u8]) {
        println!("first difference, {kind}");
        println!("expected:\n{}", shown(expected));
        println!("actual:\n{}", shown(actual));
        if let Some(directory) = &self.keep {
            let files = [("input", input), ("expected", expected), ("actual", actual)];
            fs::create_dir_all(directory).expect("the directory of --keep can be made");
            for (name, bytes) in files {
                fs::write(directory.join(name), bytes).expect("the directory of --keep can be written");
            }
            println!("kept in {}", directory.display());
        }
    }

    /// Prints the counts and the last line; whether nothing failed.
    pub fn close(&self) -> bool {
        let (mut passed, mut failed) = (0, 0);
        for (kind, count) in &self.counts {
            println!("{kind}: {} passed, {} failed", count.0, count.1);
            passed += count.0;
            failed += count.1;
        }
        if self.left_out > 0 {
            println!("left out, too long: {}", self.left_out);
        }
        println!("{passed} passed, {failed} failed");
        failed == 0
    }
}

fn shown(bytes: &[u8]) -> String {
    let mut text = String::from_utf8_lossy(&bytes[..bytes.len().min(SHOWN)]).into_owned();
    if bytes.len() > SHOWN {
        text.push_str(" ...");
    }
    text
}
