//! Random direct calls with their answers, as lines of text.
//!
//! `table Q (APPLICATION SHARE PERIOD)...` is followed by `gave` and the table's answer. `begin` stands before the state
//! that the calls start from, which is not always the fresh one. Each `call` is followed by `gave` and `state`. An
//! answer is 0 or the refusal's number; a step gives the thread, or 65535 for idle, after a 0; a run gives the row.

use crate::cover::hit_refusal;
use crate::random::{faulty_table, table, Dice};
use crate::schedule::{Phase, Refusal, Row, Schedule, Tick, CLOCK_END, IDLE_ENTRY, JOBS_MOST};

/// The random calls of a seed, with what they give.
pub fn calls(seed: u64) -> String {
    let mut dice = Dice::new(seed ^ 0x00ca_1100);
    let mut text = String::new();
    let (parts, rows) = any_table(&mut dice);
    text.push_str(&format!("table {}", parts));
    for row in &rows {
        text.push_str(&format!(" {} {} {}", row.application, row.share, row.period));
    }
    text.push('\n');
    let schedule = Schedule::admit(parts, &rows);
    text.push_str(&format!(
        "gave {}\n",
        number(schedule.as_ref().map(|_| ()).map_err(|refusal| *refusal))
    ));
    if let Ok(mut schedule) = schedule {
        prepare(&mut dice, &mut schedule);
        text.push_str(&format!("begin {}\n", state(&schedule)));
        for _ in 0..dice.between(4, 24) {
            call(&mut dice, &mut schedule, &mut text);
        }
    }
    text
}

/// A good table, or now and then a faulty one.
fn any_table(dice: &mut Dice) -> (u16, Vec<Row>) {
    if dice.percent(85) {
        return table(dice, 4);
    }
    let (parts, count, mut rows) = faulty_table(dice, 4);
    match count {
        0 => rows.clear(),
        65..=65_535 => rows.resize(65, rows[0]),
        _ => {}
    }
    (parts, rows)
}

/// Brings some schedules near the end of the clock or near the most jobs.
fn prepare(dice: &mut Dice, schedule: &mut Schedule) {
    if dice.percent(15) {
        *schedule = schedule.idle_until(CLOCK_END - dice.below(12) as u32);
    } else if dice.percent(10) {
        *schedule = schedule.idle_until(dice.below(CLOCK_END as usize) as u32);
    }
    if dice.percent(12) {
        let thread = dice.below(schedule.threads().len()) as u16;
        for _ in 0..JOBS_MOST - dice.below(3) {
            schedule.arrival(thread).expect("at most so many jobs");
        }
    }
}

/// The number of an answer.
fn number(answer: Result<(), Refusal>) -> u8 {
    match answer {
        Ok(()) => 0,
        Err(Refusal(number)) => {
            hit_refusal(number);
            number
        }
    }
}

/// One random call, its answer and the state after it.
fn call(dice: &mut Dice, schedule: &mut Schedule, text: &mut String) {
    let count = schedule.threads().len();
    let any = dice.below(count) as u16;
    let thread = if dice.percent(5) {
        dice.pick(&[count as u16, 64, 65_535])
    } else {
        any
    };
    let had = schedule.had().map_or(thread, |j| j as u16);
    let (name, gave) = match dice.below(20) {
        0..=5 => (
            format!("arrive {}", thread),
            format!("{}", number(schedule.arrival(thread))),
        ),
        6..=8 => (
            format!("complete {}", had),
            format!("{}", number(schedule.completion(had))),
        ),
        9 => (
            format!("complete {}", thread),
            format!("{}", number(schedule.completion(thread))),
        ),
        10 | 11 => (
            format!("drop {}", thread),
            format!("{}", number(schedule.drop_jobs(thread))),
        ),
        12..=17 => {
            let gave = match schedule.step() {
                Ok(Tick::Grant(j)) => format!("0 {}", j),
                Ok(Tick::Idle) => format!("0 {}", IDLE_ENTRY),
                Err(refusal) => format!("{}", number(Err(refusal))),
            };
            (String::from("step"), gave)
        }
        _ => run(dice, schedule),
    };
    text.push_str(&format!(
        "call {}\ngave {}\nstate {}\n",
        name,
        gave,
        state(schedule)
    ));
}

/// A run of a few ticks into a row that mostly has room for them.
fn run(dice: &mut Dice, schedule: &mut Schedule) -> (String, String) {
    let clock = schedule.clock();
    let near = (clock + dice.below(6) as u32).saturating_sub(1);
    let far = dice.pick(&[0, CLOCK_END, CLOCK_END + 1, u32::MAX]);
    let to = if dice.percent(85) { near } else { far };
    let mut row: Vec<u16> = (0..dice.below(7)).map(|i| 500 + i as u16).collect();
    let name = format!("run {}{}", to, spaced(&row));
    let answer = number(schedule.run(to, &mut row));
    (name, format!("{}{}", answer, spaced(&row)))
}

/// Numbers with a space before each.
fn spaced(row: &[u16]) -> String {
    row.iter().map(|entry| format!(" {}", entry)).collect()
}

/// The state: count, had (64 for nobody), Q, clock, completed, arrived, then seven numbers for each thread.
fn state(schedule: &Schedule) -> String {
    let mut text = format!(
        "{} {} {} {} {} {}",
        schedule.threads().len(),
        schedule.had().unwrap_or(64),
        schedule.parts(),
        schedule.clock(),
        u8::from(schedule.completed()),
        u8::from(schedule.arrived()),
    );
    for thread in schedule.threads() {
        let phase = match thread.phase() {
            Phase::Inactive => 0,
            Phase::Contending => 1,
            Phase::NonContending => 2,
        };
        let (share, period) = thread.row();
        let amounts = thread.amounts();
        text.push_str(&format!(
            " {} {} {} {} {} {} {}",
            thread.application(),
            phase,
            share,
            period,
            thread.jobs(),
            amounts.w,
            amounts.e,
        ));
    }
    text
}
