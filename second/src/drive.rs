//! Drives the static library with random direct calls, and compares the answer, the state and the lent row after every
//! call with those of the second schedule.
//!
//! `drive` takes a fixed list of seeds; `drive SEED COUNT` any others.

#[path = "../../bindings/bollardine.rs"]
mod bollardine;
#[allow(dead_code)]
mod cover;
#[allow(dead_code)]
mod random;
#[allow(dead_code)]
mod schedule;
#[allow(dead_code)]
mod trace;

use random::{faulty_table, table, Dice};
use schedule::{Phase, Refusal, Row, Schedule, Tick, CLOCK_END, IDLE_ENTRY, JOBS_MOST};
use std::process;

/// The seeds of the gate, each with as many sequences of calls.
const SEEDS: [u64; 6] = [1, 20, 300, 4_000, 50_000, 600_000];
const SEQUENCES: u64 = 700;

/// What was compared.
#[derive(Default)]
struct Figures {
    tables: u64,
    tables_refused: u64,
    calls: u64,
    refused: [u64; 18],
    ticks: u64,
}

/// All that a state shows.
#[derive(Clone, PartialEq)]
struct Shown {
    threads: [bollardine::Thread; 64],
    count: usize,
    had: usize,
    q: u32,
    clock: u32,
    completed: bool,
    closed: bool,
}

/// The two schedules side by side.
struct Pair {
    here: Schedule,
    library: bollardine::State,
}

fn main() {
    let words: Option<Vec<u64>> = std::env::args().skip(1).map(|word| word.parse().ok()).collect();
    let mut figures = Figures::default();
    match words.as_deref() {
        Some([]) => SEEDS.iter().for_each(|seed| sequences(*seed, SEQUENCES, &mut figures)),
        Some([seed, count]) => sequences(*seed, *count, &mut figures),
        _ => {
            eprintln!("usage: compare-calls [SEED COUNT]");
            process::exit(2);
        }
    }
    let refused: u64 = figures.refused.iter().sum();
    let numbers: Vec<String> = (8..18).filter(|n| figures.refused[*n] > 0).map(|n| n.to_string()).collect();
    println!(
        "direct calls: {} tables, {} of them refused; {} calls, {} of them refused ({}); {} ticks: every answer, state and row is that of the second program",
        figures.tables,
        figures.tables_refused,
        figures.calls,
        refused,
        numbers.join(" "),
        figures.ticks
    );
}

/// Random sequences of calls, one for each of the seeds from `seed` on.
fn sequences(seed: u64, count: u64, figures: &mut Figures) {
    for i in 0..count {
        let seed = seed.wrapping_add(i);
        let mut dice = Dice::new(seed ^ 0x5e_c0_4d);
        if let Some(mut pair) = begin(&mut dice, seed, figures) {
            prepare(&mut dice, &mut pair, figures);
            for k in 0..dice.between(10, 400) {
                let told = call(&mut dice, &mut pair, figures);
                compare(&pair, seed, k, &told);
            }
        }
    }
}

/// Says what differs, and ends.
fn differ(seed: u64, k: usize, told: &str, what: &str) -> ! {
    println!("seed {}, call {}, {}: {}", seed, k, told, what);
    process::exit(1);
}

/// A table, good or faulty, for both; `None` where it is refused by both.
fn begin(dice: &mut Dice, seed: u64, figures: &mut Figures) -> Option<Pair> {
    let most = dice.pick(&[2, 4, 8, 64]);
    let (parts, count, rows) = if dice.percent(80) {
        let (parts, rows) = table(dice, most);
        (parts, rows.len() as u16, rows)
    } else {
        faulty_table(dice, most)
    };
    let given = fitting_rows(count, rows);
    let answered = bollardine::begin(written(parts, count, &given));
    figures.tables += 1;
    match Schedule::admit(parts, &given) {
        Ok(here) => {
            if answered.refusal != 0 {
                differ(seed, 0, "table", &format!("refused {}", answered.refusal));
            }
            let pair = Pair { here, library: answered.state };
            compare(&pair, seed, 0, "table");
            Some(pair)
        }
        Err(Refusal(number)) => {
            figures.tables_refused += 1;
            if answered.refusal != number || seen(&answered.state) != no_schedule() {
                differ(seed, 0, "table", &format!("refused {} and not {}", answered.refusal, number));
            }
            without_schedule(seed, answered.state);
            None
        }
    }
}

/// What a refused table hands out takes calls too: it has no thread, and its ticks are idle.
fn without_schedule(seed: u64, s: bollardine::State) {
    for answered in [bollardine::arrive(s, 0), bollardine::complete(s, 0), bollardine::drop_waiting(s, 0)] {
        if answered.refusal != 8 || answered.state != s {
            differ(seed, 0, "no schedule", "a thread is found");
        }
    }
    let stepped = bollardine::step(s);
    let next = Shown { clock: 1, ..seen(&s) };
    if (stepped.refusal, stepped.thread) != (0, IDLE_ENTRY) || seen(&stepped.state) != next {
        differ(seed, 0, "no schedule", "a tick is not idle");
    }
}

/// As many rows as the head says, so that the two tables are one; a head of no thread, or of too many, has any.
fn fitting_rows(count: u16, rows: Vec<Row>) -> Vec<Row> {
    let mut rows = rows;
    if let Some(last) = rows.last().copied() {
        rows.resize(usize::from(count).min(65), last);
    }
    rows
}

fn written(parts: u16, count: u16, rows: &[Row]) -> bollardine::Table {
    let blank = bollardine::Row { app: 0, share: 0, period: 0 };
    let mut t = bollardine::Table { q: parts, threads: count, rows: [blank; 64] };
    for (x, row) in t.rows.iter_mut().zip(rows) {
        *x = bollardine::Row { app: row.application, share: row.share, period: row.period };
    }
    t
}

const BLANK: bollardine::Thread = bollardine::Thread { app: 0, phase: 0, share: 0, period: 0, jobs: 0, w: 0, e: 0 };

/// What stands in the state's place where a table is refused.
fn no_schedule() -> Shown {
    Shown { threads: [BLANK; 64], count: 0, had: 64, q: 0, clock: 0, completed: false, closed: false }
}

/// Brings some pairs near the clock's end, where only idle ticks lie between, or near the most jobs.
fn prepare(dice: &mut Dice, pair: &mut Pair, figures: &mut Figures) {
    if dice.percent(10) {
        let clock = CLOCK_END - dice.below(40) as u32;
        pair.here = pair.here.idle_until(clock);
        let x = Shown { clock, ..seen(&pair.library) };
        // Idle ticks give this very state: nothing has happened yet.
        pair.library = unsafe { bollardine::State::from_parts(x.threads, x.count, x.had, x.q, x.clock, x.completed, x.closed) };
    }
    if dice.percent(2) {
        let thread = dice.below(pair.here.threads().len()) as u16;
        for _ in 0..JOBS_MOST - dice.below(3) {
            pair.here.arrival(thread).expect("at most so many jobs");
            pair.library = bollardine::arrive(pair.library, thread).state;
            figures.calls += 1;
        }
    }
}

/// One random call of both; what it was, where the answers are alike.
fn call(dice: &mut Dice, pair: &mut Pair, figures: &mut Figures) -> String {
    let count = pair.here.threads().len();
    let thread = if dice.percent(3) {
        dice.pick(&[count as u16, 64, 65_535])
    } else {
        dice.below(count) as u16
    };
    let had = pair.here.had().map_or(thread, |j| j as u16);
    figures.calls += 1;
    match dice.below(20) {
        0..=5 => {
            let here = pair.here.arrival(thread);
            event(pair, figures, format!("arrive {}", thread), here, bollardine::arrive(pair.library, thread))
        }
        6..=9 => {
            let i = if dice.percent(80) { had } else { thread };
            let here = pair.here.completion(i);
            event(pair, figures, format!("complete {}", i), here, bollardine::complete(pair.library, i))
        }
        10 => {
            let here = pair.here.drop_jobs(thread);
            event(pair, figures, format!("drop {}", thread), here, bollardine::drop_waiting(pair.library, thread))
        }
        11..=16 => step(pair, figures),
        _ => run(dice, pair, figures),
    }
}

fn number(answer: Result<(), Refusal>) -> u8 {
    match answer {
        Ok(()) => 0,
        Err(Refusal(number)) => number,
    }
}

fn event(pair: &mut Pair, figures: &mut Figures, told: String, here: Result<(), Refusal>, there: bollardine::Answered) -> String {
    let n = number(here);
    if n > 0 {
        figures.refused[usize::from(n)] += 1;
    }
    pair.library = there.state;
    if n == there.refusal {
        told
    } else {
        format!("{} answers {} and not {}!", told, there.refusal, n)
    }
}

fn step(pair: &mut Pair, figures: &mut Figures) -> String {
    let there = bollardine::step(pair.library);
    let here = match pair.here.step() {
        Ok(Tick::Grant(j)) => (0, j),
        Ok(Tick::Idle) => (0, IDLE_ENTRY),
        Err(Refusal(number)) => (number, IDLE_ENTRY),
    };
    if here.0 > 0 {
        figures.refused[usize::from(here.0)] += 1;
    } else {
        figures.ticks += 1;
    }
    pair.library = there.state;
    if here == (there.refusal, there.thread) {
        String::from("step")
    } else {
        format!("step answers {} {} and not {:?}!", there.refusal, there.thread, here)
    }
}

/// A run into a row that is longer than the run, just as long, or too short.
fn run(dice: &mut Dice, pair: &mut Pair, figures: &mut Figures) -> String {
    let clock = pair.here.clock();
    let ticks = dice.pick(&[0, 1, 2, 5, 30, 200]);
    let to = if dice.percent(90) {
        clock.saturating_add(ticks)
    } else {
        dice.pick(&[0, clock.saturating_sub(1), CLOCK_END, CLOCK_END + 1, u32::MAX])
    };
    let length = (ticks as usize + dice.below(4)).saturating_sub(1);
    let mut mine: Vec<u16> = (0..length).map(|i| 500 + i as u16).collect();
    let mut lent = mine.clone();
    let there = bollardine::run(pair.library, to, &mut lent);
    let n = number(pair.here.run(to, &mut mine));
    if n > 0 {
        figures.refused[usize::from(n)] += 1;
    } else {
        figures.ticks += u64::from(to - clock);
    }
    pair.library = there.state;
    if n == there.refusal && mine == lent {
        format!("run {} into {}", to, length)
    } else {
        format!("run {} into {} answers {} and not {}, {:?} and not {:?}!", to, length, there.refusal, n, lent, mine)
    }
}

/// What a state of the library shows.
fn seen(s: &bollardine::State) -> Shown {
    Shown {
        threads: *s.threads(),
        count: s.count(),
        had: s.had(),
        q: s.q(),
        clock: s.clock(),
        completed: s.completed(),
        closed: s.closed(),
    }
}

/// The state of the second schedule as the library shows one.
fn shown(here: &Schedule) -> Shown {
    let mut threads = [BLANK; 64];
    for (x, thread) in threads.iter_mut().zip(here.threads()) {
        let (share, period) = thread.row();
        let amounts = thread.amounts();
        let phase = match thread.phase() {
            Phase::Inactive => 0,
            Phase::Contending => 1,
            Phase::NonContending => 2,
        };
        *x = bollardine::Thread {
            app: thread.application() as u8,
            phase,
            share: share as u32,
            period: period as u32,
            jobs: thread.jobs() as u32,
            w: i64::try_from(amounts.w).expect("W fits"),
            e: i64::try_from(amounts.e).expect("E fits"),
        };
    }
    Shown {
        threads,
        count: here.threads().len(),
        had: here.had().unwrap_or(64),
        q: here.parts() as u32,
        clock: here.clock(),
        completed: here.completed(),
        closed: here.arrived(),
    }
}

/// Ends unless answer, row and state are alike.
fn compare(pair: &Pair, seed: u64, k: usize, told: &str) {
    if told.ends_with('!') {
        differ(seed, k, told, "the answers differ");
    }
    let here = shown(&pair.here);
    let there = seen(&pair.library);
    if here != there {
        let which = (0..64).find(|i| here.threads[*i] != there.threads[*i]);
        match which {
            Some(i) => differ(seed, k, told, &format!("thread {}: {:?} and not {:?}", i, there.threads[i], here.threads[i])),
            None => differ(seed, k, told, "the numbers beside the threads differ"),
        }
    }
    let a = (k % 17) as u16;
    let free: i128 = pair
        .here
        .threads()
        .iter()
        .filter(|t| t.phase() == Phase::Inactive && t.application() == usize::from(a))
        .map(|t| t.row().0)
        .sum();
    if i128::from(bollardine::free_share(pair.library, a)) != free {
        differ(seed, k, told, "the free share differs");
    }
}
