//! A second implementation of document 01, written from its text alone, for comparison.

mod calls;
mod compare;
mod cover;
mod listing;
mod random;
mod report;
mod schedule;
mod stored;
#[cfg(test)]
mod tests;
mod trace;
mod wide;
mod words;

use random::Size;
use std::io::{self, Read, Write};
use std::process;

/// What the commands are.
const USAGE: &str = "\
second list                      the listing of the trace on standard input
second capacity                  the capacity report of the trace on standard input
second make SEED [small]         a random trace
second calls SEED                random direct calls with their answers and states
second pick SEED COUNT EACH      seeds of small random traces that reach each refusal and branch EACH times
second compare KIND PROGRAM      compares the program's listings (or reports: KIND is listing or report) of the random traces of
                                 the gate with its own
second compare KIND PROGRAM SEED COUNT  the same for other random traces
second stored FOLDER             writes the stored traces, their listings and their reports
second show                      the trace on standard input in words
second places                    the same, each record with the byte at which it starts
second write                     the trace whose words are on standard input
second wide SEED INDEX           one of these random traces
second cover SEED COUNT [small]  how often each refusal and branch is reached over COUNT random traces
";

fn main() {
    let words: Vec<String> = std::env::args().skip(1).collect();
    let words: Vec<&str> = words.iter().map(|word| word.as_str()).collect();
    let done = match words.as_slice() {
        ["list"] => list(listing::list),
        ["capacity"] => list(report::report),
        ["make", seed] => number(seed).map_or_else(usage, |seed| make(seed, Size::Usual)),
        ["make", seed, "small"] => number(seed).map_or_else(usage, |seed| make(seed, Size::Small)),
        ["compare", kind, program] => match kind_of(kind) {
            Some(kind) => compare::compare(kind, program, None),
            None => usage(),
        },
        ["compare", kind, program, seed, count] => match (kind_of(kind), number(seed), number(count)) {
            (Some(kind), Some(seed), Some(count)) => compare::compare(kind, program, Some((seed, count))),
            _ => usage(),
        },
        ["stored", folder] => stored::write(folder),
        ["show"] => show(words::shown),
        ["places"] => show(words::placed),
        ["write"] => write(),
        ["wide", seed, index] => match (number(seed), number(index)) {
            (Some(seed), Some(index)) => io::stdout().write_all(&wide::trace(seed, index)),
            _ => usage(),
        },
        ["cover", seed, count] => cover_both(seed, count, Size::Usual),
        ["cover", seed, count, "small"] => cover_both(seed, count, Size::Small),
        ["calls", seed] => number(seed).map_or_else(usage, |seed| {
            io::stdout().write_all(calls::calls(seed).as_bytes())
        }),
        ["pick", seed, count, each] => match (number(seed), number(count), number(each)) {
            (Some(seed), Some(count), Some(each)) => pick(seed, count, each),
            _ => usage(),
        },
        _ => usage(),
    };
    if let Err(error) = done {
        eprintln!("second: {}", error);
        process::exit(1);
    }
}

/// Tells how the program is called.
fn usage() -> io::Result<()> {
    eprint!("{}", USAGE);
    process::exit(2);
}

/// What is compared.
fn kind_of(word: &str) -> Option<compare::Kind> {
    match word {
        "listing" => Some(compare::Kind::Listing),
        "report" => Some(compare::Kind::Report),
        _ => None,
    }
}

/// A number among the words of the command.
fn number(word: &str) -> Option<u64> {
    word.parse().ok()
}

/// Where a listing or a report goes.
type Output = io::BufWriter<io::StdoutLock<'static>>;

/// Lists the trace on standard input, or reports on it.
fn list(told: fn(&[u8], &mut Output) -> io::Result<()>) -> io::Result<()> {
    let mut input = Vec::new();
    io::stdin().read_to_end(&mut input)?;
    let mut out = io::BufWriter::new(io::stdout().lock());
    told(&input, &mut out)?;
    out.flush()
}

/// Shows the trace on standard input in words.
fn show(shown: fn(&[u8]) -> String) -> io::Result<()> {
    let mut input = Vec::new();
    io::stdin().read_to_end(&mut input)?;
    io::stdout().write_all(shown(&input).as_bytes())
}

/// Writes the trace whose words are on standard input.
fn write() -> io::Result<()> {
    let mut text = String::new();
    io::stdin().read_to_string(&mut text)?;
    let trace = words::trace(text.trim_end().trim_end_matches(';')).map_err(io::Error::other)?;
    io::stdout().write_all(&trace)
}

/// Writes a random trace.
fn make(seed: u64, size: Size) -> io::Result<()> {
    io::stdout().write_all(&random::trace(seed, size))
}

/// Reads the two numbers of the command `cover` and obeys it.
fn cover_both(seed: &str, count: &str, size: Size) -> io::Result<()> {
    match (number(seed), number(count)) {
        (Some(seed), Some(count)) => cover(seed, count, size),
        _ => usage(),
    }
}

/// Lists random traces and prints what they reached, the making of them left out.
fn cover(seed: u64, count: u64, size: Size) -> io::Result<()> {
    let traces = (0..count).map(|i| random::trace(seed.wrapping_add(i), size));
    let mut total = cover::Counts::new();
    for trace in traces {
        cover::take();
        listing::list(&trace, &mut io::sink())?;
        total.add(&cover::take());
    }
    print!("{}", total.report());
    Ok(())
}

/// Prints the seeds of those small random traces that reach something not yet reached by enough of them.
fn pick(seed: u64, count: u64, each: u64) -> io::Result<()> {
    let mut total = cover::Counts::new();
    for i in 0..count {
        let seed = seed.wrapping_add(i);
        let trace = random::trace(seed, Size::Small);
        cover::take();
        listing::list(&trace, &mut io::sink())?;
        let counts = cover::take().once();
        if total.lacks(&counts, each) {
            total.add(&counts);
            writeln!(io::stdout(), "{}", seed)?;
        }
    }
    Ok(())
}
