//! Random traces from a seed: good ones that make sense, ones at the limits, and damaged ones.

use crate::schedule::{Phase, Row, Schedule, CLOCK_END, JOBS_MOST};
use crate::trace::{encode, Item, Kind, Reader};

/// A small generator of random numbers (splitmix64).
pub struct Dice {
    state: u64,
}

impl Dice {
    /// The generator of a seed.
    pub fn new(seed: u64) -> Dice {
        Dice { state: seed }
    }

    /// The next 64 random bits.
    pub fn bits(&mut self) -> u64 {
        self.state = self.state.wrapping_add(0x9e37_79b9_7f4a_7c15);
        let mut z = self.state;
        z = (z ^ (z >> 30)).wrapping_mul(0xbf58_476d_1ce4_e5b9);
        z = (z ^ (z >> 27)).wrapping_mul(0x94d0_49bb_1331_11eb);
        z ^ (z >> 31)
    }

    /// A number from 0 up to but not with the bound.
    pub fn below(&mut self, bound: usize) -> usize {
        (self.bits() % bound as u64) as usize
    }

    /// A number from the first to the last.
    pub fn between(&mut self, first: usize, last: usize) -> usize {
        first + self.below(last - first + 1)
    }

    /// Yes in so many of a hundred cases.
    pub fn percent(&mut self, chance: usize) -> bool {
        self.below(100) < chance
    }

    /// One of the values given.
    pub fn pick<T: Copy>(&mut self, values: &[T]) -> T {
        values[self.below(values.len())]
    }
}

/// How large a random trace may be.
#[derive(Clone, Copy, PartialEq, Eq, Debug)]
pub enum Size {
    /// At most about 200 bytes and 40 ticks.
    Small,
    /// Mostly tens of ticks, some with thousands, and some with very many records.
    Usual,
}

/// The greatest tick that a random trace runs to.
pub const TICKS_MOST: u32 = 20_000;

/// The random trace of a seed.
pub fn trace(seed: u64, size: Size) -> Vec<u8> {
    let mut maker = Maker::new(seed, size);
    let choice = maker.dice.below(1_000);
    if size == Size::Usual && choice < 4 {
        maker.flood();
    } else if choice < 110 {
        maker.bad_table();
    } else {
        maker.good();
        if choice < 330 {
            maker.damage();
        }
    }
    debug_assert!(furthest(&maker.bytes) <= TICKS_MOST);
    maker.bytes
}

/// A good random table, often one that makes much free share.
pub fn table(dice: &mut Dice, threads_most: usize) -> (u16, Vec<Row>) {
    if threads_most >= 3 && dice.percent(45) {
        lopsided_table(dice, threads_most.min(6))
    } else {
        any_table(dice, threads_most)
    }
}

/// A table of one application with many threads of long periods beside one thread with a short period.
pub fn lopsided_table(dice: &mut Dice, threads_most: usize) -> (u16, Vec<Row>) {
    let count = dice.between(3, threads_most);
    let parts = dice.between(2 * count, 24);
    let busy = dice.below(count);
    let mut left = parts;
    let mut rows = Vec::new();
    for i in 0..count {
        let room = left - (count - i - 1);
        let most = if i == busy {
            parts / 2
        } else {
            (2 * parts / count).max(1)
        };
        let share = dice.between(1, room.min(most));
        left -= share;
        let least = parts.div_ceil(share);
        let period = if i == busy {
            least + dice.below(2)
        } else {
            least * dice.between(1, 5) + dice.below(3)
        };
        rows.push(Row {
            application: if i == busy { BUSY } else { 0 },
            share: share as u16,
            period: period as u32,
        });
    }
    (parts as u16, rows)
}

/// The application of the thread with the short period in a lopsided table.
const BUSY: u16 = 3;

/// A table of any kind.
fn any_table(dice: &mut Dice, threads_most: usize) -> (u16, Vec<Row>) {
    let parts = match dice.below(10) {
        0 | 1 => dice.pick(&[1, 2, 10, 12, 60, 100, 4_095, 4_096]),
        2 => dice.between(1, 4_096),
        _ => dice.between(3, 20),
    };
    let wanted = if threads_most >= 64 && dice.percent(5) {
        dice.pick(&[16, 63, 64])
    } else {
        dice.between(1, threads_most.min(6))
    };
    let count = wanted.min(parts);
    let applications = dice.pick(&[1, 1, 2, 2, 2, 3, 3, 16]);
    let even = dice.percent(30);
    let full = dice.percent(60);
    let mut left = parts;
    let mut rows = Vec::new();
    for i in 0..count {
        let room = left - (count - i - 1);
        let share = if i + 1 == count && full {
            room
        } else if even {
            (parts / count).min(room)
        } else {
            let even_more = (2 * parts / count).max(1);
            dice.between(1, room.min(even_more))
        };
        left -= share;
        let application = if dice.percent(2) {
            15
        } else {
            dice.below(applications)
        };
        rows.push(Row {
            application: application as u16,
            share: share as u16,
            period: period(dice, parts, share) as u32,
        });
    }
    (parts as u16, rows)
}

/// A good period for a share.
fn period(dice: &mut Dice, parts: usize, share: usize) -> usize {
    let least = parts.div_ceil(share);
    match dice.below(20) {
        0..=5 => least,
        6..=10 => least + dice.below(4),
        11..=15 => least + dice.below(12),
        16 if 100 * share >= parts => 0,
        17 => dice.pick(&[65_535, 65_536]),
        _ => dice.between(least, (4 * least).min(65_536)),
    }
}

/// A table with one or two faults: Q, the count of the head, and the rows.
pub fn faulty_table(dice: &mut Dice, threads_most: usize) -> (u16, u16, Vec<Row>) {
    let (good_parts, mut rows) = table(dice, threads_most);
    let mut parts = good_parts;
    let mut count = rows.len() as u16;
    let last = rows.len() - 1;
    for _ in 0..dice.between(1, 2) {
        let at = if dice.percent(50) {
            last
        } else {
            dice.below(rows.len())
        };
        let row = &mut rows[at];
        match dice.below(8) {
            0 => parts = dice.pick(&[0, 4_097, 65_535]),
            1 => count = dice.pick(&[0, 65, 65_535]),
            2 => row.application = dice.pick(&[16, 17, 255, 256, 65_535]),
            3 => row.share = dice.pick(&[0, good_parts + 1, 65_535]),
            4 => row.period = dice.pick(&[65_537, 131_072, u32::MAX]),
            5 => {
                let share = u32::from(row.share.max(1));
                let least = u32::from(good_parts).div_ceil(share);
                row.period = if least > 1 { least - 1 } else { 65_537 };
            }
            6 => {
                let all = rows
                    .iter()
                    .map(|row| row.share.min(good_parts))
                    .fold(0, u16::saturating_add);
                let excess = good_parts.saturating_sub(all) + 1;
                rows[last].share = rows[last].share.saturating_add(excess);
            }
            _ => count = dice.pick(&[count.wrapping_sub(1), count.wrapping_add(1)]),
        }
    }
    (parts, count, rows)
}

/// A trace in the making.
pub struct Maker {
    pub dice: Dice,
    pub bytes: Vec<u8>,
    size: Size,
}

impl Maker {
    /// A trace of a seed, still without a record.
    pub fn new(seed: u64, size: Size) -> Maker {
        Maker {
            dice: Dice::new(seed),
            bytes: Vec::new(),
            size,
        }
    }

    /// Writes one record.
    pub fn write(&mut self, item: Item) {
        encode(item, &mut self.bytes);
    }

    /// Writes a head and its rows.
    pub fn write_table(&mut self, parts: u16, count: u16, rows: &[Row]) {
        self.write(Item::Head { parts, count });
        for row in rows {
            self.write(Item::Row(*row));
        }
    }

    /// The most threads of a table of this size.
    fn threads_most(&self) -> usize {
        match self.size {
            Size::Small => 4,
            Size::Usual => 64,
        }
    }

    /// A trace in which every event makes sense, mostly up to its end.
    fn good(&mut self) {
        let threads_most = self.threads_most();
        let (parts, rows) = table(&mut self.dice, threads_most);
        let (ticks, bytes_most) = match self.size {
            Size::Small => (self.dice.between(3, 38), 150),
            Size::Usual if self.dice.percent(3) => (self.dice.between(1_000, 8_000), 200_000),
            Size::Usual => (self.dice.between(1, 90), 20_000),
        };
        let mut schedule = self.play(parts, &rows, ticks, bytes_most);
        if self.dice.percent(30) {
            self.bad_ending(&mut schedule);
        }
    }

    /// A good table and events that make sense, up to a tick or to a number of bytes.
    pub fn play(&mut self, parts: u16, rows: &[Row], ticks: usize, bytes_most: usize) -> Schedule {
        self.write_table(parts, rows.len() as u16, rows);
        let mut schedule = Schedule::admit(parts, rows).expect("a good table");
        let habits = Habits::new(&mut self.dice);
        while (schedule.clock() as usize) < ticks && self.bytes.len() < bytes_most {
            self.moment(&mut schedule, &habits);
            self.advance(&mut schedule, &habits, ticks);
        }
        if self.dice.percent(60) {
            let to = schedule.clock();
            self.write(Item::RunTo { tick: to });
        }
        schedule
    }

    /// The events of one moment.
    fn moment(&mut self, schedule: &mut Schedule, habits: &Habits) {
        let threads = schedule.threads().len();
        let now = schedule.clock();
        if self.dice.percent(habits.early_drop) {
            let thread = match schedule.had() {
                Some(j) if self.dice.percent(70) => j,
                _ => self.dice.below(threads),
            } as u16;
            self.write(Item::Drop { tick: now, thread });
            schedule.drop_jobs(thread).expect("a good drop");
        }
        if let Some(j) = schedule.had() {
            let busy = schedule.threads()[j].application() == usize::from(BUSY);
            let chance = if busy {
                habits.completion / 4
            } else {
                habits.completion
            };
            if !schedule.completed() && !schedule.arrived() && self.dice.percent(chance) {
                let thread = j as u16;
                self.write(Item::Completion { tick: now, thread });
                schedule.completion(thread).expect("a good completion");
            }
        }
        let tries = if now == 0 { 3 } else { habits.tries };
        for _ in 0..tries {
            if self.dice.percent(habits.arrival) {
                let thread = self.arriving(schedule);
                self.write(Item::Arrival { tick: now, thread });
                schedule.arrival(thread).expect("a good arrival");
            }
            if self.dice.percent(habits.late_drop) {
                let thread = self.dice.below(threads) as u16;
                self.write(Item::Drop { tick: now, thread });
                schedule.drop_jobs(thread).expect("a good drop");
            }
        }
    }

    /// A thread to arrive, with some liking for a non-contending one.
    fn arriving(&mut self, schedule: &Schedule) -> u16 {
        let threads = schedule.threads();
        if self.dice.percent(25) {
            let found = threads
                .iter()
                .position(|thread| thread.phase() == Phase::NonContending);
            if let Some(j) = found {
                return j as u16;
            }
        }
        self.dice.below(threads.len()) as u16
    }

    /// Takes some ticks, with or without a record that says so.
    fn advance(&mut self, schedule: &mut Schedule, habits: &Habits, ticks: usize) {
        let far = if self.dice.percent(habits.jump) {
            self.dice.between(2, 9)
        } else {
            1
        };
        let to = (schedule.clock() as usize + far).min(ticks.max(schedule.clock() as usize + 1));
        while (schedule.clock() as usize) < to {
            schedule.step().expect("far from the clock's end");
        }
        if self.dice.percent(5) {
            let tick = schedule.clock();
            self.write(Item::RunTo { tick });
        }
    }

    /// One refused event at the end, and perhaps good ones after it.
    pub fn bad_ending(&mut self, schedule: &mut Schedule) {
        let now = schedule.clock();
        let soon = now + self.dice.below(3) as u32;
        let threads = schedule.threads().len() as u16;
        let thread = self.dice.below(usize::from(threads)) as u16;
        match self.dice.below(14) {
            0 => {
                let beyond = self.dice.pick(&[threads, threads + 1, 64, 65_535]);
                let tick = self.dice.pick(&[now, soon]);
                let item = self.event(tick, beyond);
                self.write(item);
            }
            1 => {
                let other = schedule.had().map_or(thread, |j| (j as u16 + 1) % threads);
                self.write(Item::Completion {
                    tick: soon,
                    thread: other,
                });
            }
            2 => {
                if let Some(j) = schedule.had() {
                    self.write(Item::Completion {
                        tick: now,
                        thread: j as u16,
                    });
                    self.write(Item::Completion {
                        tick: now,
                        thread: j as u16,
                    });
                }
            }
            3 | 4 => {
                let had = schedule.had().map_or(thread, |j| j as u16);
                let who = self.dice.pick(&[had, thread]);
                self.write(Item::Arrival { tick: now, thread });
                if self.dice.percent(30) {
                    self.write(Item::RunTo { tick: now });
                }
                self.write(Item::Completion {
                    tick: now,
                    thread: who,
                });
            }
            5 | 6 if now > 0 => {
                let tick = self.dice.pick(&[now - 1, 0, now / 2]);
                let number = self.dice.pick(&[thread, threads]);
                let item = self.event(tick, number);
                self.write(item);
            }
            7 | 8 => {
                let tick = self.dice.pick(&[CLOCK_END + 1, CLOCK_END + 2, u32::MAX]);
                let number = self.dice.pick(&[thread, threads]);
                let item = self.event(tick, number);
                self.write(item);
            }
            9 => {
                self.write(Item::Head { parts: 10, count: 1 });
            }
            10 => {
                self.write(Item::Row(Row {
                    application: 0,
                    share: 1,
                    period: 100,
                }));
            }
            11 => {
                let kind = self.dice.pick(&[0u16, 7, 8, 255, 256, 257, 65_535]);
                let length = self.dice.pick(&[2u16, 3, 6, 8, 10]);
                self.write_raw(length, kind, usize::from(length) - 2);
            }
            12 => {
                let kind = self.dice.between(1, 6) as u16;
                let right = Kind::of(kind).map_or(0, Kind::length);
                let length = self.dice.pick(&[2u16, 3, 5, 6, 7, 8, 9, 10, 11]);
                let wrong = if length == right { length + 1 } else { length };
                self.write_raw(wrong, kind, usize::from(wrong) - 2);
            }
            _ if self.size == Size::Usual => {
                let kind = self.dice.pick(&[0u16, 3, 5, 7]);
                let body = self.dice.pick(&[65_533, 65_533, 65_532]);
                self.write_raw(65_535, kind, body);
            }
            _ => {
                let length = self.dice.pick(&[0u16, 1]);
                self.write_raw(length, 3, 6);
            }
        }
        if self.dice.percent(40) {
            self.write(Item::RunTo { tick: now + 3 });
        }
    }

    /// An event of any kind that bears a tick.
    pub fn event(&mut self, tick: u32, thread: u16) -> Item {
        match self.dice.below(4) {
            0 => Item::Arrival { tick, thread },
            1 => Item::Completion { tick, thread },
            2 => Item::Drop { tick, thread },
            _ => Item::RunTo { tick },
        }
    }

    /// Writes a record of any length and kind with a random body.
    pub fn write_raw(&mut self, length: u16, kind: u16, body: usize) {
        self.bytes.extend_from_slice(&length.to_le_bytes());
        self.bytes.extend_from_slice(&kind.to_le_bytes());
        for _ in 0..body {
            let byte = self.dice.below(256) as u8;
            self.bytes.push(byte);
        }
    }

    /// A table with one or two faults, and some events after it.
    fn bad_table(&mut self) {
        let threads_most = self.threads_most();
        let (parts, count, rows) = faulty_table(&mut self.dice, threads_most);
        self.write_table(parts, count, &rows);
        for _ in 0..self.dice.below(4) {
            let item = self.event(2, 0);
            self.write(item);
        }
    }

    /// Very many jobs of one thread, up to the limit or past it.
    pub fn flood(&mut self) {
        let (parts, rows) = table(&mut self.dice, 3);
        self.write_table(parts, rows.len() as u16, &rows);
        let thread = self.dice.below(rows.len()) as u16;
        let early = self.dice.below(3);
        let mut tick = 0;
        for job in 0..JOBS_MOST {
            self.write(Item::Arrival { tick, thread });
            if job < early {
                tick += 1;
            }
        }
        match self.dice.below(4) {
            0 => self.write(Item::RunTo { tick: tick + 5 }),
            1 => {
                self.write(Item::Drop {
                    tick: tick + 1,
                    thread,
                });
                self.write(Item::Arrival {
                    tick: tick + 1,
                    thread,
                });
                self.write(Item::RunTo { tick: tick + 5 });
            }
            2 => {
                self.write(Item::RunTo { tick: tick + 1 });
                self.write(Item::Completion {
                    tick: tick + 1,
                    thread,
                });
                self.write(Item::Arrival {
                    tick: tick + 1,
                    thread,
                });
                self.write(Item::Arrival {
                    tick: tick + 1,
                    thread,
                });
            }
            _ => self.write(Item::Arrival {
                tick: tick + 2,
                thread,
            }),
        }
    }

    /// Damages the bytes once or twice, but not so that the trace would run for ever.
    fn damage(&mut self) {
        for _ in 0..self.dice.between(1, 2) {
            let before = self.bytes.clone();
            self.damage_once();
            if furthest(&self.bytes) > self.ticks_most() {
                self.bytes = before;
            }
        }
    }

    /// The furthest tick that a damaged trace may run to.
    fn ticks_most(&self) -> u32 {
        match self.size {
            Size::Small => 45,
            Size::Usual => TICKS_MOST,
        }
    }

    /// Damages the bytes in one way.
    fn damage_once(&mut self) {
        let starts = starts(&self.bytes);
        if starts.is_empty() {
            self.bytes.push(0);
            return;
        }
        let which = self.dice.below(starts.len());
        let (start, end) = (
            starts[which],
            starts.get(which + 1).map_or(self.bytes.len(), |next| *next),
        );
        match self.dice.below(12) {
            0 => {
                let length = self.dice.below(self.bytes.len() + 1);
                self.bytes.truncate(length);
            }
            1 => self.bytes.truncate(start),
            2 | 3 => {
                let at = self.dice.below(self.bytes.len());
                let bit = self.dice.below(8);
                self.bytes[at] ^= 1 << bit;
            }
            4 => {
                let at = self.dice.below(self.bytes.len());
                self.bytes[at] = self.dice.pick(&[0, 1, 2, 127, 128, 255]);
            }
            5 => {
                self.bytes[start] = self.dice.pick(&[0, 1, 2, 5, 6, 7, 8, 10, 255]);
            }
            6 => {
                self.bytes[start + 2] = self.dice.pick(&[0, 1, 2, 3, 4, 5, 6, 7, 255]);
            }
            7 => {
                self.bytes.drain(start..end);
            }
            8 => {
                let copy: Vec<u8> = self.bytes[start..end].to_vec();
                let at = self.dice.pick(&starts);
                self.bytes.splice(at..at, copy);
            }
            9 => {
                let at = self.dice.below(self.bytes.len() + 1);
                let byte = self.dice.below(256) as u8;
                self.bytes.insert(at, byte);
            }
            10 => {
                let at = self.dice.below(self.bytes.len());
                self.bytes.remove(at);
            }
            _ => {
                let byte = self.dice.below(256) as u8;
                self.bytes.push(byte);
            }
        }
    }
}

/// How likely each event of a trace is, in percent.
struct Habits {
    completion: usize,
    arrival: usize,
    tries: usize,
    early_drop: usize,
    late_drop: usize,
    jump: usize,
}

impl Habits {
    fn new(dice: &mut Dice) -> Habits {
        Habits {
            completion: dice.pick(&[5, 25, 50, 50, 80, 80, 95]),
            arrival: dice.pick(&[5, 15, 30, 45, 60]),
            tries: dice.pick(&[1, 1, 2, 3]),
            early_drop: dice.pick(&[0, 0, 3, 20]),
            late_drop: dice.pick(&[0, 0, 3, 15]),
            jump: dice.pick(&[0, 5, 20, 50]),
        }
    }
}

/// Where each record starts, as far as the lengths lead.
pub fn starts(bytes: &[u8]) -> Vec<usize> {
    let mut found = Vec::new();
    let mut at = 0;
    while at + 4 <= bytes.len() {
        found.push(at);
        at += 2 + usize::from(bytes[at]) + 256 * usize::from(bytes[at + 1]);
    }
    found
}

/// The furthest tick within the clock's range that the readable records name.
pub fn furthest(bytes: &[u8]) -> u32 {
    let mut reader = Reader::new(bytes);
    let mut most = 0;
    while let Ok(Some(item)) = reader.read() {
        match item {
            Item::Arrival { tick, .. }
            | Item::Completion { tick, .. }
            | Item::Drop { tick, .. }
            | Item::RunTo { tick }
                if tick <= CLOCK_END =>
            {
                most = most.max(tick);
            }
            _ => {}
        }
    }
    most
}
