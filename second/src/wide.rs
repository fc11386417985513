//! The random traces of the comparison of listings: those of `random`, and more at the limits of tables, records, bursts,
//! windows of the input and long outputs.

use crate::random::{self, furthest, lopsided_table, starts, table, Dice, Maker, Size, TICKS_MOST};
use crate::schedule::{Row, Schedule, CLOCK_END, JOBS_MOST};
use crate::trace::{encode, Item, Kind};

/// The bytes that the program under test reads at a time.
const WINDOW: usize = 131_072;

/// A family of traces with its weight.
type Family = (usize, fn(&mut Maker));

/// The families, with weights of a thousand together.
const FAMILIES: &[Family] = &[
    (210, usual),
    (50, gifts),
    (40, drop_first),
    (120, table_limits),
    (110, many_threads),
    (15, long_run),
    (90, bursts),
    (4, most_jobs),
    (90, cut),
    (90, forms),
    (15, wide_record),
    (60, out_of_place),
    (86, refused_event),
    (20, long_input),
];

/// The random trace of a seed and an index.
pub fn trace(seed: u64, index: u64) -> Vec<u8> {
    let mut dice = Dice::new(seed ^ index.rotate_left(32));
    loop {
        let mut choice = dice.below(1_000);
        let mut maker = Maker::new(dice.bits(), Size::Usual);
        for (weight, make) in FAMILIES {
            if choice < *weight {
                make(&mut maker);
                break;
            }
            choice -= weight;
        }
        if furthest(&maker.bytes) <= TICKS_MOST {
            return maker.bytes;
        }
    }
}

/// A trace of `random`.
fn usual(maker: &mut Maker) {
    maker.bytes = random::trace(maker.dice.bits(), Size::Usual);
}

/// Many completions beside a busy application, whose ticks let the others fall behind and have amounts to give.
fn gifts(maker: &mut Maker) {
    let (parts, rows) = lopsided_table(&mut maker.dice, 6);
    let ticks = maker.dice.between(200, 600);
    maker.play(parts, &rows, ticks, 20_000);
}

/// Short stretches of a few threads of one application, with a drop before most completions: a thread that is due to
/// leave at that moment still takes what the completion frees, though another could.
fn drop_first(maker: &mut Maker) {
    let dice = &mut maker.dice;
    let shares = [dice.between(3, 5), dice.between(1, 3), dice.between(3, 5), 1];
    let parts = shares.iter().sum::<usize>() + dice.below(3);
    let mut rows = Vec::new();
    for (i, share) in shares.into_iter().enumerate() {
        let period = [13, 6, 13, 30][i] + dice.below(3);
        rows.push(Row {
            application: if i == 1 { 3 } else { 0 },
            share: share as u16,
            period: period.max(parts.div_ceil(share)) as u32,
        });
    }
    let parts = parts as u16;
    maker.write_table(parts, rows.len() as u16, &rows);
    let mut schedule = Schedule::admit(parts, &rows).expect("a good table");
    for _ in 0..60 {
        let begin = schedule.clock();
        let arrivals: Vec<u32> = rows.iter().map(|_| begin + maker.dice.below(4) as u32).collect();
        for _ in 0..maker.dice.between(4, 9) {
            let tick = schedule.clock();
            if let Some(j) = schedule.had() {
                let thread = maker.dice.below(rows.len()) as u16;
                maker.write(Item::Drop { tick, thread });
                schedule.drop_jobs(thread).expect("a good drop");
                if maker.dice.percent(60) {
                    let thread = j as u16;
                    maker.write(Item::Completion { tick, thread });
                    schedule.completion(thread).expect("a good completion");
                }
            }
            for thread in 0..rows.len() as u16 {
                if arrivals[usize::from(thread)] == tick {
                    maker.write(Item::Arrival { tick, thread });
                    schedule.arrival(thread).expect("a good arrival");
                }
            }
            pass(&mut schedule, 1);
        }
        // All is forgotten before the next stretch.
        while let Some(j) = schedule.had() {
            let tick = schedule.clock();
            let thread = j as u16;
            maker.write(Item::Drop { tick, thread });
            maker.write(Item::Completion { tick, thread });
            schedule.drop_jobs(thread).expect("a good drop");
            schedule.completion(thread).expect("a good completion");
            pass(&mut schedule, 1);
        }
    }
}

/// A table of 1 to 64 threads in 1 to 16 applications, whose shares fill the processor or do not.
fn spread_table(dice: &mut Dice) -> (u16, Vec<Row>) {
    let any = dice.between(1, 64);
    let count = dice.pick(&[1, 2, 3, 8, 16, 17, 63, 64, 64, any, any, any, any, any]);
    let parts = match dice.below(4) {
        0 => count,
        1 => 4_096,
        2 => dice.between(count, 4_096),
        _ => dice.between(count, (8 * count).min(4_096)),
    };
    let applications = dice.between(1, 16);
    let full = dice.percent(60);
    let mut left = parts;
    let mut rows = Vec::new();
    for i in 0..count {
        let room = left - (count - i - 1);
        let share = if i + 1 == count && full {
            room
        } else {
            dice.between(1, room.min((2 * parts / count).max(1)))
        };
        left -= share;
        let least = parts.div_ceil(share);
        let period = match dice.below(8) {
            0 | 1 => least,
            2 if 100 * share >= parts => 0,
            3 => dice.pick(&[65_535, 65_536]),
            _ => (least * dice.between(1, 6) + dice.below(5)).min(65_536),
        };
        rows.push(Row {
            application: dice.below(applications) as u16,
            share: share as u16,
            period: period as u32,
        });
    }
    (parts as u16, rows)
}

/// A table with a number just inside or just outside one or two of the limits 1 to 7, and some events after it.
fn table_limits(maker: &mut Maker) {
    let dice = &mut maker.dice;
    let (mut parts, mut rows) = if dice.percent(70) {
        table(dice, 6)
    } else {
        spread_table(dice)
    };
    let mut count = rows.len();
    for _ in 0..dice.pick(&[1, 1, 1, 2]) {
        let last = rows.len() - 1;
        let at = if dice.percent(50) {
            last
        } else {
            dice.below(rows.len())
        };
        let all: u32 = rows.iter().map(|row| u32::from(row.share)).sum();
        let row = &mut rows[at];
        let share = u32::from(row.share.max(1));
        match dice.below(8) {
            0 => {
                parts = dice.pick(&[0, 1, 4_095, 4_096, 4_097, 65_535]);
                if dice.percent(60) {
                    rows.truncate(1);
                    count = 1;
                    rows[0].share = parts.clamp(1, 4_096);
                }
            }
            1 => {
                count = dice.pick(&[0, 1, 63, 64, 65, 65_535]);
                parts = dice.pick(&[64, 100, 4_096]);
                let spread = Row {
                    application: dice.below(16) as u16,
                    share: 1,
                    period: u32::from(parts),
                };
                rows = vec![spread; count.min(66).max(1)];
            }
            2 => row.application = dice.pick(&[14, 15, 16, 17, 256, 65_535]),
            3 => row.share = dice.pick(&[0, 1, parts, parts.saturating_add(1), 65_535]),
            4 => row.period = dice.pick(&[65_535, 65_536, 65_537, 131_072, 1 << 31, u32::MAX]),
            5 => {
                let least = u32::from(parts).div_ceil(share);
                row.period = dice.pick(&[least, least.saturating_sub(1), least + 1, 1, 0]);
            }
            6 => {
                // u × P = Q, or one part less.
                let period = dice.pick(&[1u32, 2, 7, 64, 100]);
                let whole = (share * period).min(4_096) as u16;
                parts = whole.saturating_add(dice.pick(&[0, 1]));
                row.period = if period == 100 { 0 } else { period };
            }
            _ => {
                // The shares together Q, or one more or less.
                let excess = i64::from(parts) - i64::from(all) + dice.pick(&[-1, 0, 1]);
                let share = i64::from(rows[last].share) + excess;
                rows[last].share = share.clamp(0, 65_535) as u16;
            }
        }
    }
    maker.write_table(parts, count as u16, &rows);
    for thread in 0..rows.len().min(3) as u16 {
        maker.write(Item::Arrival { tick: 0, thread });
    }
    let tick = maker.dice.below(12) as u32;
    maker.write(Item::RunTo { tick });
}

/// Events that make sense, of up to 64 threads in up to 16 applications.
fn many_threads(maker: &mut Maker) {
    let (parts, rows) = spread_table(&mut maker.dice);
    let ticks = maker.dice.between(1, 120);
    let mut schedule = maker.play(parts, &rows, ticks, 20_000);
    if maker.dice.percent(30) {
        maker.bad_ending(&mut schedule);
    }
}

/// Some thousands of ticks, with events or as one run, whose listing is longer than the output's window.
fn long_run(maker: &mut Maker) {
    let (parts, rows) = if maker.dice.percent(50) {
        table(&mut maker.dice, 6)
    } else {
        spread_table(&mut maker.dice)
    };
    let ticks = maker.dice.between(2_500, 9_000);
    if maker.dice.percent(60) {
        let mut schedule = maker.play(parts, &rows, ticks, 120_000);
        if maker.dice.percent(50) {
            maker.bad_ending(&mut schedule);
        }
        return;
    }
    maker.write_table(parts, rows.len() as u16, &rows);
    for thread in 0..rows.len() as u16 {
        if maker.dice.percent(80) {
            maker.write(Item::Arrival { tick: 0, thread });
        }
    }
    let item = maker.event(ticks as u32, 0);
    maker.write(item);
}

/// Many arrivals and drops at one moment, some by threads that do not contend yet, and what may stand before and after.
fn bursts(maker: &mut Maker) {
    let (parts, rows) = if maker.dice.percent(60) {
        table(&mut maker.dice, 6)
    } else {
        spread_table(&mut maker.dice)
    };
    maker.write_table(parts, rows.len() as u16, &rows);
    let mut schedule = Schedule::admit(parts, &rows).expect("a good table");
    for _ in 0..maker.dice.between(1, 7) {
        let records = maker.dice.pick(&[1, 3, 20, 200, 700]);
        burst(maker, &mut schedule, records);
        let ticks = maker.dice.pick(&[0, 1, 1, 2, 6, 40]);
        pass(&mut schedule, ticks);
    }
    let tick = schedule.clock();
    match maker.dice.below(4) {
        0 => maker.write(Item::RunTo { tick: tick + 3 }),
        1 => maker.bad_ending(&mut schedule),
        _ => {}
    }
}

/// Takes some ticks.
fn pass(schedule: &mut Schedule, ticks: usize) {
    for _ in 0..ticks {
        schedule.step().expect("far from the clock's end");
    }
}

/// Records of one moment: drops, a completion, then arrivals and drops in any order, also a run to the present.
fn burst(maker: &mut Maker, schedule: &mut Schedule, records: usize) {
    let tick = schedule.clock();
    let threads = schedule.threads().len();
    if maker.dice.percent(30) {
        let thread = schedule.had().unwrap_or(0) as u16;
        maker.write(Item::Drop { tick, thread });
        schedule.drop_jobs(thread).expect("a good drop");
    }
    if let Some(j) = schedule.had() {
        if !schedule.completed() && !schedule.arrived() && maker.dice.percent(60) {
            let thread = j as u16;
            maker.write(Item::Completion { tick, thread });
            schedule.completion(thread).expect("a good completion");
        }
    }
    let few = maker.dice.between(1, threads.min(64));
    let drops = maker.dice.pick(&[0, 2, 30, 70]);
    for _ in 0..records {
        let thread = maker.dice.below(few) as u16;
        let full = schedule.threads()[usize::from(thread)].jobs() == JOBS_MOST;
        if full || maker.dice.percent(drops) {
            maker.write(Item::Drop { tick, thread });
            schedule.drop_jobs(thread).expect("a good drop");
        } else {
            maker.write(Item::Arrival { tick, thread });
            schedule.arrival(thread).expect("a good arrival");
        }
    }
    if maker.dice.percent(20) {
        maker.write(Item::RunTo { tick });
    }
}

/// Jobs of one thread up to the limit and past it, at once or after drops.
fn most_jobs(maker: &mut Maker) {
    if maker.dice.percent(50) {
        maker.flood();
        return;
    }
    let (parts, rows) = table(&mut maker.dice, 3);
    maker.write_table(parts, rows.len() as u16, &rows);
    let thread = maker.dice.below(rows.len()) as u16;
    for _ in 0..maker.dice.below(5_000) {
        maker.write(Item::Arrival { tick: 0, thread });
    }
    maker.write(Item::Drop { tick: 0, thread });
    let over = maker.dice.below(3);
    for job in 0..JOBS_MOST + over {
        // The first arrival may be of a thread without a job, which the drop left as it was.
        let tick = if job > 60_000 { 2 } else { 0 };
        maker.write(Item::Arrival { tick, thread });
    }
    maker.write(Item::RunTo { tick: 4 });
}

/// A small trace.
fn small(maker: &mut Maker) -> Schedule {
    let (parts, rows) = table(&mut maker.dice, 4);
    let ticks = maker.dice.between(1, 30);
    maker.play(parts, &rows, ticks, 300)
}

/// A place between two records, or before the first or after the last.
fn between_records(maker: &mut Maker) -> usize {
    let mut places = starts(&maker.bytes);
    places.push(maker.bytes.len());
    if maker.dice.percent(40) {
        places.truncate(6);
    }
    maker.dice.pick(&places)
}

/// A trace that ends inside a record, at any byte of it, or between two.
fn cut(maker: &mut Maker) {
    small(maker);
    if maker.dice.percent(5) {
        maker.bytes.clear();
        return;
    }
    let start = between_records(maker);
    let inside = maker.dice.below(13);
    maker.bytes.truncate(start + inside);
}

/// A trace with a record of any length and kind at any place, whole or cut.
fn forms(maker: &mut Maker) {
    small(maker);
    let at = between_records(maker);
    let rest = maker.bytes.split_off(at);
    let kind = maker
        .dice
        .pick(&[0, 1, 2, 3, 4, 5, 6, 7, 8, 255, 256, 257, 258, 261, 1_024, 65_535]);
    let right = Kind::of(kind).map_or(8, Kind::length);
    let length = match maker.dice.below(4) {
        0 => maker.dice.pick(&[0, 1]),
        1 => maker.dice.between(2, 14) as u16,
        2 => maker.dice.pick(&[right - 1, right, right + 1, right + 256]),
        _ => maker.dice.pick(&[2, 3, 254, 255, 256, 257, 512]),
    };
    let body = usize::from(length).saturating_sub(2);
    if maker.dice.percent(25) {
        let missing = maker.dice.between(0, body);
        maker.write_raw(length, kind, body - missing);
    } else {
        maker.write_raw(length, kind, body);
        maker.bytes.extend(rest);
    }
}

/// A record of up to 65,537 bytes, mostly of an unknown kind, whole or cut, at the start of a trace or across a window.
fn wide_record(maker: &mut Maker) {
    let mut schedule = small(maker);
    match maker.dice.below(3) {
        0 => {
            let at = between_records(maker);
            maker.bytes.truncate(at);
        }
        1 => {}
        _ => {
            let window = WINDOW * maker.dice.between(1, 2);
            let before = maker.dice.pick(&[0, 2, 6, 12, 40_000, 65_534, 65_536, 65_538]);
            fill(maker, &mut schedule, window - before);
        }
    }
    let length = maker
        .dice
        .pick(&[65_535, 65_535, 65_534, 65_533, 32_768, 40_000, 60_001]);
    let kind = maker.dice.pick(&[0, 7, 7, 300, 65_535, 3, 1]);
    let missing = maker.dice.pick(&[0, 0, 0, 1, 2, 30_000]);
    maker.write_raw(length, kind, usize::from(length) - 2 - missing);
    if missing == 0 && maker.dice.percent(40) {
        let tick = schedule.clock();
        maker.write(Item::RunTo { tick });
    }
}

/// A trace with a head, a row or an event where it may not stand.
fn out_of_place(maker: &mut Maker) {
    small(maker);
    let at = between_records(maker);
    let rest = maker.bytes.split_off(at);
    match maker.dice.below(3) {
        0 => maker.write(Item::Head { parts: 10, count: 1 }),
        1 => maker.write(Item::Row(Row {
            application: 0,
            share: 1,
            period: 100,
        })),
        _ => {
            let item = maker.event(0, 0);
            maker.write(item);
        }
    }
    maker.bytes.extend(rest);
}

/// A trace whose last event, or one of its last, is refused.
fn refused_event(maker: &mut Maker) {
    let (parts, rows) = if maker.dice.percent(70) {
        table(&mut maker.dice, 6)
    } else {
        spread_table(&mut maker.dice)
    };
    let ticks = maker.dice.between(1, 40);
    let mut schedule = maker.play(parts, &rows, ticks, 3_000);
    let tick = schedule.clock();
    match maker.dice.below(6) {
        0 => {
            // A completion by any thread some ticks later, right or wrong.
            let later = maker.dice.below(4);
            pass(&mut schedule, later);
            let tick = schedule.clock();
            let right = schedule.had().unwrap_or(0);
            let any = maker.dice.below(rows.len());
            let thread = maker.dice.pick(&[right, any]) as u16;
            maker.write(Item::Completion { tick, thread });
            maker.write(Item::Completion { tick, thread });
        }
        1 => {
            let tick = maker
                .dice
                .pick(&[CLOCK_END + 1, CLOCK_END + 2, 3_000_000_000, u32::MAX]);
            let thread = maker.dice.pick(&[0, rows.len() as u16]);
            let item = maker.event(tick, thread);
            maker.write(item);
        }
        2 if tick > 0 => {
            let before = maker.dice.below(tick as usize) as u32;
            let item = maker.event(before, 0);
            maker.write(item);
        }
        _ => maker.bad_ending(&mut schedule),
    }
}

/// Good records up to a length, the last of them a record that just reaches or passes it.
fn fill(maker: &mut Maker, schedule: &mut Schedule, length: usize) {
    while maker.bytes.len() + 40 < length {
        let room = (length - maker.bytes.len() - 30) / 10;
        let records = maker.dice.between(1, room.clamp(1, 9_000));
        let records = records.min(room.max(1));
        burst(maker, schedule, records);
        let ticks = maker.dice.pick(&[0, 1, 2, 3, 30]);
        pass(schedule, ticks);
    }
    while maker.bytes.len() < length {
        let tick = schedule.clock();
        let item = maker.event(tick, 0);
        match item {
            Item::Completion { thread, .. } => {
                let accepted = schedule.clone().completion(thread).is_ok();
                if accepted {
                    schedule.completion(thread).expect("tried before");
                } else {
                    continue;
                }
            }
            Item::Arrival { thread, .. } => {
                if schedule.arrival(thread).is_err() {
                    continue;
                }
            }
            Item::Drop { thread, .. } => schedule.drop_jobs(thread).expect("a good drop"),
            _ => {}
        }
        maker.write(item);
    }
}

/// An input longer than one window or two, with something to refuse near the end of a window, or nothing.
fn long_input(maker: &mut Maker) {
    let (parts, rows) = if maker.dice.percent(70) {
        table(&mut maker.dice, 6)
    } else {
        spread_table(&mut maker.dice)
    };
    maker.write_table(parts, rows.len() as u16, &rows);
    let mut schedule = Schedule::admit(parts, &rows).expect("a good table");
    for _ in 0..maker.dice.below(5) {
        // Records of 8 bytes among those of 10, so that windows end at any byte of a record.
        maker.write(Item::RunTo { tick: 0 });
    }
    if maker.dice.percent(30) {
        let thread = maker.dice.below(rows.len()) as u16;
        maker.write(Item::Arrival { tick: 0, thread });
        schedule.arrival(thread).expect("a good arrival");
        pass(&mut schedule, 4_000);
    }
    let windows = maker.dice.pick(&[1, 1, 2, 2, 3]);
    let near = maker.dice.below(24);
    fill(maker, &mut schedule, windows * WINDOW - near);
    let tick = schedule.clock();
    match maker.dice.below(6) {
        0 => {}
        1 => {
            let left = maker.bytes.len() - maker.dice.between(1, 11);
            maker.bytes.truncate(left);
        }
        2 => maker.bad_ending(&mut schedule),
        3 => {
            let (length, kind) =
                maker
                    .dice
                    .pick(&[(0, 3), (1, 3), (9, 3), (8, 9), (8, 1), (200, 7), (6, 1), (10, 2)]);
            maker.write_raw(length, kind, usize::from(length).max(2) - 2);
        }
        4 => {
            let to = tick + maker.dice.pick(&[1, 50, 3_000]);
            maker.write(Item::RunTo { tick: to });
        }
        _ => {
            let more = maker.dice.between(1, 30_000);
            let length = maker.bytes.len() + more;
            fill(maker, &mut schedule, length);
        }
    }
    if maker.dice.percent(20) {
        encode(Item::RunTo { tick }, &mut maker.bytes);
    }
}
