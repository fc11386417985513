//! The program's output for a trace.

use crate::cover::{hit, hit_refusal, Branch};
use crate::schedule::{Refusal, Schedule, Table, Tick};
use crate::trace::{Item, Reader};
use std::io::{self, Write};

/// The heading line.
pub const HEADING: &str = "tick thread app deadline virtual";

/// Why a listing or a report stops early.
pub enum Stop {
    Refused(Refusal),
    Output(io::Error),
}

impl From<Refusal> for Stop {
    fn from(refusal: Refusal) -> Stop {
        Stop::Refused(refusal)
    }
}

impl From<io::Error> for Stop {
    fn from(error: io::Error) -> Stop {
        Stop::Output(error)
    }
}

/// What is told of a trace while it is played.
pub trait Teller<W: Write> {
    /// The table has all its rows.
    fn begin(&mut self, schedule: &mut Schedule);
    /// A tick was taken.
    fn tick(&mut self, schedule: &mut Schedule, tick: u32, answer: Tick, out: &mut W) -> io::Result<()>;
    /// An event was accepted.
    fn event(&mut self, schedule: &mut Schedule, out: &mut W) -> io::Result<()>;
    /// The input has ended.
    fn end(&mut self, schedule: &Schedule, out: &mut W) -> io::Result<()>;
}

/// Plays a trace: what is told of it, and the last line.
pub fn tell<W: Write, T: Teller<W>>(input: &[u8], teller: &mut T, out: &mut W) -> io::Result<()> {
    let mut reader = Reader::new(input);
    match play(&mut reader, teller, out) {
        Ok(clock) => {
            hit(Branch::Ended);
            writeln!(out, "end {}", clock)
        }
        Err(Stop::Refused(Refusal(number))) => {
            hit_refusal(number);
            writeln!(out, "refused {} at {}", number, reader.start())
        }
        Err(Stop::Output(error)) => Err(error),
    }
}

/// The lines of the ticks.
struct Lines;

impl<W: Write> Teller<W> for Lines {
    fn begin(&mut self, _: &mut Schedule) {}

    fn tick(&mut self, schedule: &mut Schedule, tick: u32, answer: Tick, out: &mut W) -> io::Result<()> {
        match answer {
            Tick::Idle => writeln!(out, "{} - - - -", tick),
            Tick::Grant(number) => {
                let thread = &schedule.threads()[usize::from(number)];
                let amounts = thread.amounts();
                writeln!(
                    out,
                    "{} {} {} {} {}",
                    tick,
                    number,
                    thread.application(),
                    amounts.e,
                    amounts.w
                )
            }
        }
    }

    fn event(&mut self, _: &mut Schedule, _: &mut W) -> io::Result<()> {
        Ok(())
    }

    fn end(&mut self, _: &Schedule, _: &mut W) -> io::Result<()> {
        Ok(())
    }
}

/// Writes the listing of a trace.
pub fn list<W: Write>(input: &[u8], out: &mut W) -> io::Result<()> {
    writeln!(out, "{}", HEADING)?;
    tell(input, &mut Lines, out)
}

/// The listing of a trace as bytes.
#[cfg(test)]
pub fn listing(input: &[u8]) -> Vec<u8> {
    let mut out = Vec::new();
    list(input, &mut out).expect("writing to memory does not fail");
    out
}

/// Reads the table, then plays the events; gives the clock at the end of input.
fn play<W: Write, T: Teller<W>>(reader: &mut Reader, teller: &mut T, out: &mut W) -> Result<u32, Stop> {
    let mut schedule = read_table(reader)?;
    teller.begin(&mut schedule);
    while let Some(item) = reader.read()? {
        match item {
            Item::Head { .. } | Item::Row(_) => unreachable!("refused 16"),
            Item::RunTo { tick } => {
                schedule.admit_tick(tick)?;
                if tick == schedule.clock() {
                    hit(Branch::RunToPresent);
                }
                run(&mut schedule, tick, teller, out)?;
            }
            Item::Arrival { tick, thread } => {
                approach(&mut schedule, tick, thread, teller, out)?;
                schedule.arrival(thread)?;
            }
            Item::Completion { tick, thread } => {
                approach(&mut schedule, tick, thread, teller, out)?;
                schedule.completion(thread)?;
            }
            Item::Drop { tick, thread } => {
                approach(&mut schedule, tick, thread, teller, out)?;
                schedule.drop_jobs(thread)?;
            }
        }
        teller.event(&mut schedule, out)?;
    }
    teller.end(&schedule, out)?;
    Ok(schedule.clock())
}

/// Reads the head and its rows.
fn read_table(reader: &mut Reader) -> Result<Schedule, Refusal> {
    let mut table = match reader.read()? {
        Some(Item::Head { parts, count }) => Table::head(parts, count)?,
        _ => unreachable!("refused 14 or 16"),
    };
    while table.missing() > 0 {
        match reader.read()? {
            Some(Item::Row(row)) => table.row(row)?,
            _ => unreachable!("refused 14 or 16"),
        }
    }
    Ok(table.start())
}

/// Checks a record's tick and thread, then takes the ticks before its moment.
fn approach<W: Write, T: Teller<W>>(
    schedule: &mut Schedule,
    tick: u32,
    thread: u16,
    teller: &mut T,
    out: &mut W,
) -> Result<(), Stop> {
    schedule.admit_tick(tick)?;
    schedule.admit_thread(thread)?;
    run(schedule, tick, teller, out)
}

/// Takes the ticks before a moment.
fn run<W: Write, T: Teller<W>>(
    schedule: &mut Schedule,
    to: u32,
    teller: &mut T,
    out: &mut W,
) -> Result<(), Stop> {
    while schedule.clock() < to {
        let tick = schedule.clock();
        let answer = schedule.step()?;
        teller.tick(schedule, tick, answer, out)?;
    }
    Ok(())
}
