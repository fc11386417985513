//! Runs a program on random traces and compares its listings or reports with those of this program, byte for byte.

use crate::cover::{self, Counts};
use crate::listing;
use crate::random::Dice;
use crate::report;
use crate::stored::{self, STORED, WORKED};
use crate::wide;
use std::fs::{self, File};
use std::io::{self, Read, Write};
use std::process::{Command, Stdio};

/// The seeds of the gate, each with as many traces.
const SEEDS: [u64; 6] = [7, 80, 900, 1_000, 11_000, 120_000];
const TRACES: u64 = 2_000;

/// The folder for traces that are handed over as a file, and for those that differ.
const FOLDER: &str = "target/compare";

/// What a program writes for a trace: the listing, or the capacity report.
#[derive(Clone, Copy)]
pub enum Kind {
    Listing,
    Report,
}

impl Kind {
    /// What this program writes.
    fn write(self, trace: &[u8], out: &mut Vec<u8>) -> io::Result<()> {
        match self {
            Kind::Listing => listing::list(trace, out),
            Kind::Report => report::report(trace, out),
        }
    }

    /// What a line is of, and what it is called.
    fn words(self) -> (&'static str, &'static str) {
        match self {
            Kind::Listing => ("ticks", "listing"),
            Kind::Report => ("stretches", "report"),
        }
    }
}

/// What was compared.
struct Figures {
    kind: Kind,
    traces: u64,
    bytes: u64,
    lines: u64,
    counts: Counts,
}

/// Compares the traces of the gate, which must reach every refusal and every branch, or those of a seed. The gate also
/// has the worked trace cut at every byte.
pub fn compare(kind: Kind, program: &str, chosen: Option<(u64, u64)>) -> io::Result<()> {
    fs::create_dir_all(FOLDER)?;
    let mut figures = Figures {
        kind,
        traces: 0,
        bytes: 0,
        lines: 0,
        counts: Counts::new(),
    };
    match chosen {
        Some((seed, count)) => compare_seed(program, seed, count, &mut figures)?,
        None => {
            let worked = STORED
                .iter()
                .find(|stored| stored.name == WORKED)
                .map(stored::trace);
            let worked = worked.expect("it is stored");
            for length in 0..=worked.len() {
                let name = format!("worked-cut-at-{}", length);
                compare_one(program, &name, &worked[..length], &mut figures)?;
            }
            for seed in SEEDS {
                compare_seed(program, seed, TRACES, &mut figures)?;
            }
            if let Some(missed) = figures.counts.unreached(1..=16).first() {
                return Err(io::Error::other(format!("no trace reaches `{}`", missed)));
            }
        }
    }
    let refusals: Vec<String> = (1..=16)
        .map(|number| format!("{}: {}", number, figures.counts.refusal(number)))
        .collect();
    let (lines, name) = kind.words();
    println!(
        "random traces: {} of {} bytes, {} {} listed, refused by number {}: every {} is that of the second program",
        figures.traces,
        figures.bytes,
        figures.lines,
        lines,
        refusals.join(", "),
        name
    );
    Ok(())
}

/// Compares the traces of one seed.
fn compare_seed(program: &str, seed: u64, count: u64, figures: &mut Figures) -> io::Result<()> {
    for index in 0..count {
        let name = format!("seed-{}-index-{}", seed, index);
        compare_one(program, &name, &wide::trace(seed, index), figures)?;
    }
    Ok(())
}

/// Compares the listings of one trace, which is kept under its name where they differ.
fn compare_one(program: &str, name: &str, trace: &[u8], figures: &mut Figures) -> io::Result<()> {
    cover::take();
    let mut expected = Vec::new();
    figures.kind.write(trace, &mut expected)?;
    figures.counts.add(&cover::take());
    let mut dice = Dice::new(figures.traces);
    let (answer, broken) = run(program, trace, expected.len(), &mut dice)?;
    if broken || answer != expected {
        let kept = format!("{}/{}.trace", FOLDER, name);
        fs::write(&kept, trace)?;
        println!("{}: the trace is kept in {}", name.replace('-', " "), kept);
        show_difference(&answer, &expected);
        return Err(io::Error::other(format!(
            "the {}s differ",
            figures.kind.words().1
        )));
    }
    figures.traces += 1;
    figures.bytes += trace.len() as u64;
    // The heading and the last line are of no tick and no stretch.
    figures.lines += expected.iter().filter(|byte| **byte == b'\n').count() as u64 - 2;
    Ok(())
}

/// The first line that differs, on both sides.
fn show_difference(answer: &[u8], expected: &[u8]) {
    let mut here = expected.split_inclusive(|byte| *byte == b'\n');
    let mut there = answer.split_inclusive(|byte| *byte == b'\n');
    for line in 1.. {
        let (mine, other) = (here.next(), there.next());
        if mine.is_none() && other.is_none() {
            println!("the program did not end as it should");
            return;
        }
        if mine != other {
            println!("line {}: the program wrote {}", line, shown(other));
            println!("line {}: the second program {}", line, shown(mine));
            return;
        }
    }
}

/// A line as text.
fn shown(line: Option<&[u8]>) -> String {
    line.map_or(String::from("nothing"), |line| {
        format!("{:?}", String::from_utf8_lossy(&line[..line.len().min(200)]))
    })
}

/// What the program writes for a trace, and whether a signal ended it.
///
/// The trace comes by a pipe, at once or in pieces, or from a file, so that reads give less than was asked for and all
/// of it.
fn run(program: &str, trace: &[u8], expected: usize, dice: &mut Dice) -> io::Result<(Vec<u8>, bool)> {
    let by_file = trace.len() > 5_000 && dice.percent(50);
    let input = if by_file {
        let name = format!("{}/given.trace", FOLDER);
        fs::write(&name, trace)?;
        Stdio::from(File::open(name)?)
    } else {
        Stdio::piped()
    };
    let mut child = Command::new(program)
        .stdin(input)
        .stdout(Stdio::piped())
        .spawn()?;
    let pieces = if dice.percent(30) {
        dice.pick(&[1, 7, 1_000, 30_000, 70_000]).max(trace.len() / 300)
    } else {
        trace.len()
    };
    let given = child.stdin.take();
    let output = child.stdout.take().expect("a pipe");
    let mut answer = Vec::with_capacity(expected + 1);
    std::thread::scope(|scope| {
        if let Some(pipe) = given {
            // What fits into a pipe is written before anything is read.
            if trace.len() <= 30_000 {
                hand_over(pipe, trace, pieces);
            } else {
                scope.spawn(move || hand_over(pipe, trace, pieces));
            }
        }
        // One byte more than is right is enough to know.
        let read = output.take(expected as u64 + 1).read_to_end(&mut answer);
        if answer.len() > expected {
            child.kill()?;
        }
        read
    })?;
    let status = child.wait()?;
    Ok((answer, status.code().is_none()))
}

/// Writes a trace in pieces; a program that has refused a record may stop reading.
fn hand_over<P: Write>(mut pipe: P, trace: &[u8], pieces: usize) {
    for piece in trace.chunks(pieces.max(1)) {
        if pipe.write_all(piece).is_err() {
            return;
        }
    }
}
