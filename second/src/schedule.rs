//! The schedule of document 01: the table, the state and the direct calls.

use crate::cover::{hit, Branch};
use std::cmp::Ordering;
use std::collections::VecDeque;

/// The greatest number of parts a processor is cut into.
pub const PARTS_MOST: u16 = 4_096;
/// The greatest number of threads.
pub const THREADS_MOST: u16 = 64;
/// The greatest application number.
pub const APPLICATION_LAST: u16 = 15;
/// The greatest period in ticks.
pub const PERIOD_MOST: u32 = 65_536;
/// The period that a 0 in a row stands for.
pub const PERIOD_FOR_ZERO: u32 = 100;
/// The greatest number of jobs of one thread, neither completed nor dropped.
pub const JOBS_MOST: usize = 65_535;
/// The last moment of the clock.
pub const CLOCK_END: u32 = 2_147_483_647;
/// The entry of an idle tick in a lent row.
pub const IDLE_ENTRY: u16 = 65_535;

/// A refusal, by its number in the document.
#[derive(Clone, Copy, PartialEq, Eq, Debug)]
pub struct Refusal(pub u8);

/// One row of a table, as it is handed in.
#[derive(Clone, Copy, PartialEq, Eq, Debug)]
pub struct Row {
    pub application: u16,
    pub share: u16,
    pub period: u32,
}

/// A table under admission: the head is accepted, and rows up to now.
#[derive(Clone, PartialEq, Debug)]
pub struct Table {
    parts: u16,
    count: u16,
    rows: Vec<Row>,
}

impl Table {
    /// Admits a head, or refuses 1 or 2.
    pub fn head(parts: u16, count: u16) -> Result<Table, Refusal> {
        if parts == 0 || parts > PARTS_MOST {
            return Err(Refusal(1));
        }
        if count == 0 || count > THREADS_MOST {
            return Err(Refusal(2));
        }
        Ok(Table {
            parts,
            count,
            rows: Vec::new(),
        })
    }

    /// Admits the next row, or refuses 3, 4, 5, 6 or 7 and leaves the table as it was.
    pub fn row(&mut self, row: Row) -> Result<(), Refusal> {
        assert!(self.missing() > 0, "a row more than the head said");
        if row.application > APPLICATION_LAST {
            return Err(Refusal(3));
        }
        if row.share == 0 || row.share > self.parts {
            return Err(Refusal(4));
        }
        if row.period > PERIOD_MOST {
            return Err(Refusal(5));
        }
        let period = if row.period == 0 {
            hit(Branch::PeriodZero);
            PERIOD_FOR_ZERO
        } else {
            row.period
        };
        let capacity = u64::from(row.share) * u64::from(period);
        if capacity < u64::from(self.parts) {
            return Err(Refusal(6));
        }
        if capacity == u64::from(self.parts) {
            hit(Branch::PeriodLeast);
        }
        let before: u64 = self.rows.iter().map(|r| u64::from(r.share)).sum();
        if before + u64::from(row.share) > u64::from(self.parts) {
            return Err(Refusal(7));
        }
        self.rows.push(Row { period, ..row });
        Ok(())
    }

    /// How many rows are still to come.
    pub fn missing(&self) -> usize {
        usize::from(self.count) - self.rows.len()
    }

    /// The fresh schedule of a table that has all its rows.
    pub fn start(self) -> Schedule {
        assert!(self.missing() == 0, "rows are missing");
        let threads = self.rows.iter().map(|row| Thread::new(*row)).collect();
        Schedule {
            parts: i128::from(self.parts),
            threads,
            clock: 0,
            had: None,
            completed: false,
            arrived: false,
            notes: None,
        }
    }
}

/// The two amounts of an active thread, in share-ticks.
#[derive(Clone, Copy, PartialEq, Eq, Debug)]
pub struct Amounts {
    /// The virtual time times the share.
    pub w: i128,
    /// The deadline times the share.
    pub e: i128,
}

/// The three states of a thread.
#[derive(Clone, Copy, PartialEq, Eq, Debug)]
pub enum Phase {
    Inactive,
    Contending,
    NonContending,
}

/// A thread: an inactive one has no amounts, and a contending one has a job.
#[derive(Clone, PartialEq, Debug)]
pub struct Thread {
    application: usize,
    share: i128,
    period: i128,
    active: Option<Amounts>,
    /// The arrival of each job neither completed nor dropped, the head first.
    jobs: VecDeque<u32>,
    /// The ticks granted to the job at the head.
    length: i128,
    /// The share times the dedicated completion time of the last completed job.
    figure: Option<i128>,
}

impl Thread {
    fn new(row: Row) -> Thread {
        Thread {
            application: usize::from(row.application),
            share: i128::from(row.share),
            period: i128::from(row.period),
            active: None,
            jobs: VecDeque::new(),
            length: 0,
            figure: None,
        }
    }

    /// The state, read off the amounts and the jobs.
    pub fn phase(&self) -> Phase {
        match (self.active, self.jobs.is_empty()) {
            (None, _) => Phase::Inactive,
            (Some(_), true) => Phase::NonContending,
            (Some(_), false) => Phase::Contending,
        }
    }

    /// W and E, both 0 for an inactive thread.
    pub fn amounts(&self) -> Amounts {
        self.active.unwrap_or(Amounts { w: 0, e: 0 })
    }

    /// The number of jobs neither completed nor dropped.
    pub fn jobs(&self) -> usize {
        self.jobs.len()
    }

    /// The number of the thread's application.
    pub fn application(&self) -> usize {
        self.application
    }

    /// The share and the period of the thread.
    pub fn row(&self) -> (i128, i128) {
        (self.share, self.period)
    }

    /// One period of the thread in share-ticks.
    fn stretch(&self) -> i128 {
        self.share * self.period
    }

    /// A moment in share-ticks of this thread.
    fn scaled(&self, tick: u32) -> i128 {
        self.share * i128::from(tick)
    }

    /// Compares the deadlines of two active threads, as document 01 says it and as Item 3 of document 02 does; they must agree.
    fn earlier(&self, other: &Thread) -> Ordering {
        let (mine, others) = (self.amounts().e, other.amounts().e);
        let order = as_fractions(mine, self.share, others, other.share);
        let parts = whole_parts_first(mine, self.share, others, other.share);
        assert!(
            order == parts,
            "{}/{} against {}/{}",
            mine,
            self.share,
            others,
            other.share
        );
        order
    }

    /// Whether two deadlines are in one whole tick and not equal.
    fn parted_by_remainder(&self, other: &Thread) -> bool {
        let whole = |thread: &Thread| thread.amounts().e / thread.share;
        whole(self) == whole(other) && self.earlier(other) != Ordering::Equal
    }
}

/// "Deadlines of two threads are compared as fractions, E1 x u2 against E2 x u1."
pub fn as_fractions(e1: i128, u1: i128, e2: i128, u2: i128) -> Ordering {
    (e1 * u2).cmp(&(e2 * u1))
}

/// "Compare the whole parts first and multiply only the remainders when those are equal. Deadlines are not negative here."
pub fn whole_parts_first(e1: i128, u1: i128, e2: i128, u2: i128) -> Ordering {
    assert!(e1 >= 0 && e2 >= 0, "a deadline is negative");
    let whole_parts = (e1 / u1).cmp(&(e2 / u2));
    whole_parts.then_with(|| (e1 % u1 * u2).cmp(&(e2 % u2 * u1)))
}

/// The first thread with the earliest deadline of several.
#[derive(Clone, Copy)]
struct Earliest {
    thread: usize,
    /// Another has an equal deadline.
    tie: bool,
    /// Another's deadline is later by its remainder alone.
    by_remainder: bool,
}

/// What one step answers when it is not refused.
#[derive(Clone, Copy, PartialEq, Eq, Debug)]
pub enum Tick {
    Grant(u16),
    Idle,
}

/// What the capacity report wants to know of a call.
#[derive(Clone, PartialEq, Debug)]
pub enum Note {
    /// The thread became active.
    Active(usize),
    /// The thread became inactive, and so much of its capacity went to nobody.
    Inactive(usize, i128),
    /// The thread was granted a tick.
    Granted(usize),
    /// An idle tick, and what W is above the clock over the active threads of each application that it forgets.
    Idle([i128; APPLICATION_LAST as usize + 1]),
}

/// The whole state of a schedule.
#[derive(Clone, PartialEq, Debug)]
pub struct Schedule {
    parts: i128,
    threads: Vec<Thread>,
    clock: u32,
    /// The thread that had the tick just ended.
    had: Option<usize>,
    /// A completion was accepted at this moment.
    completed: bool,
    /// An arrival was accepted at this moment.
    arrived: bool,
    /// What happened since the notes were taken last, where they are wanted.
    notes: Option<Vec<Note>>,
}

impl Schedule {
    /// Admits a whole table, or refuses it by the first number that applies.
    pub fn admit(parts: u16, rows: &[Row]) -> Result<Schedule, Refusal> {
        let count = rows.len().min(usize::from(u16::MAX)) as u16;
        let mut table = Table::head(parts, count)?;
        for row in rows {
            table.row(*row)?;
        }
        Ok(table.start())
    }

    /// What a schedule without active threads is after idle ticks up to a moment, none of them taken one by one.
    pub fn idle_until(&self, clock: u32) -> Schedule {
        assert!(self.clock <= clock && clock <= CLOCK_END, "a moment to come");
        assert!(
            self.threads.iter().all(|thread| thread.active.is_none()),
            "an active thread"
        );
        if clock == self.clock {
            return self.clone();
        }
        Schedule {
            clock,
            had: None,
            completed: false,
            arrived: false,
            ..self.clone()
        }
    }

    /// From now on notes are kept.
    pub fn keep_notes(&mut self) {
        self.notes = Some(Vec::new());
    }

    /// The notes since they were taken last.
    pub fn take_notes(&mut self) -> Vec<Note> {
        self.notes.as_mut().map_or_else(Vec::new, std::mem::take)
    }

    fn note(&mut self, note: Note) {
        if let Some(notes) = self.notes.as_mut() {
            notes.push(note);
        }
    }

    /// What W is above the clock, over the active threads of each application.
    pub fn ahead(&self) -> [i128; APPLICATION_LAST as usize + 1] {
        let mut sums = [0; APPLICATION_LAST as usize + 1];
        for thread in &self.threads {
            if let Some(amounts) = thread.active {
                sums[thread.application] += amounts.w - thread.scaled(self.clock);
            }
        }
        sums
    }

    /// The number of parts of the processor.
    pub fn parts(&self) -> i128 {
        self.parts
    }

    /// The present moment.
    pub fn clock(&self) -> u32 {
        self.clock
    }

    /// The threads in row order.
    pub fn threads(&self) -> &[Thread] {
        &self.threads
    }

    /// The thread that had the tick just ended.
    pub fn had(&self) -> Option<usize> {
        self.had
    }

    /// Whether a completion was accepted at this moment.
    pub fn completed(&self) -> bool {
        self.completed
    }

    /// Whether an arrival was accepted at this moment.
    pub fn arrived(&self) -> bool {
        self.arrived
    }

    /// The place of a thread number, or refusal 8.
    fn find(&self, number: u16) -> Result<usize, Refusal> {
        let j = usize::from(number);
        if j < self.threads.len() {
            Ok(j)
        } else {
            Err(Refusal(8))
        }
    }

    /// A tick of a record, refused 13 beyond the clock's end and 12 before the clock.
    pub fn admit_tick(&self, tick: u32) -> Result<(), Refusal> {
        if tick > CLOCK_END {
            return Err(Refusal(13));
        }
        if tick < self.clock {
            return Err(Refusal(12));
        }
        Ok(())
    }

    /// A thread number of a record, refused 8 when it is not in the table.
    pub fn admit_thread(&self, number: u16) -> Result<(), Refusal> {
        self.find(number).map(|_| ())
    }

    /// A completion at the present moment, refused 8, 10 or 9.
    pub fn completion(&mut self, number: u16) -> Result<(), Refusal> {
        let j = self.find(number)?;
        if self.arrived {
            return Err(Refusal(10));
        }
        if self.had != Some(j) || self.completed {
            return Err(Refusal(9));
        }
        self.completed = true;
        self.enter_in_ledger(j);
        let clock = self.clock;
        let thread = &mut self.threads[j];
        let stretch = thread.stretch();
        let now = thread.scaled(clock);
        let amounts = thread.active.as_mut().expect("a thread with a job is active");
        if !thread.jobs.is_empty() {
            let fresh = amounts.w + stretch;
            hit(if fresh > amounts.e {
                Branch::NextJobLater
            } else {
                Branch::NextJobKept
            });
            amounts.e = amounts.e.max(fresh);
        } else if amounts.w > now {
            hit(Branch::BecomesNonContending);
        } else {
            let gift = now - amounts.w;
            let lost = self.hand_on(j, gift);
            self.threads[j].active = None;
            self.note(Note::Inactive(j, lost));
        }
        Ok(())
    }

    /// Takes the freed amount of a completing thread from the W of its receiver, if there is one; gives what is lost.
    fn hand_on(&mut self, giver: usize, gift: i128) -> i128 {
        let from = &self.threads[giver];
        let mut receiver: Option<usize> = None;
        let mut passed_over = false;
        let mut tie = false;
        let mut by_remainder = false;
        let mut passed_by_remainder = false;
        for (j, other) in self.threads.iter().enumerate() {
            if j == giver || other.application != from.application || other.active.is_none() {
                continue;
            }
            if other.earlier(from) == Ordering::Less {
                passed_over = true;
                passed_by_remainder |= other.parted_by_remainder(from);
                debug_assert!(other.phase() == Phase::NonContending);
                continue;
            }
            let order = receiver.map_or(Ordering::Less, |best| other.earlier(&self.threads[best]));
            by_remainder |= receiver.map_or(false, |best| other.parted_by_remainder(&self.threads[best]));
            match order {
                Ordering::Less => {
                    receiver = Some(j);
                    tie = false;
                }
                Ordering::Equal => tie = true,
                Ordering::Greater => {}
            }
        }
        if gift == 0 {
            hit(Branch::GiftOfNothing);
        }
        match receiver {
            None if passed_over => hit(Branch::GiftLostPassedOver),
            None => hit(Branch::GiftLostAlone),
            Some(j) => {
                let clock = self.clock;
                if gift > 0 {
                    let to = &self.threads[j];
                    let due = to.amounts().w <= to.scaled(clock);
                    let after = to.amounts().w - gift <= to.scaled(clock);
                    hit(match (to.phase(), due, after) {
                        (Phase::NonContending, true, _) => Branch::GiftToOneLeaving,
                        (Phase::NonContending, false, true) => Branch::GiftMakesLeave,
                        (Phase::NonContending, false, false) => Branch::GiftToNonContending,
                        _ => Branch::GiftToContending,
                    });
                    if passed_over {
                        hit(Branch::GiftPassedOver);
                    }
                    if to.earlier(&self.threads[giver]) == Ordering::Equal {
                        hit(Branch::GiftToEqualDeadline);
                    }
                    if tie {
                        hit(Branch::GiftTie);
                    }
                    if by_remainder {
                        hit(Branch::GiftByRemainder);
                    }
                    if passed_by_remainder {
                        hit(Branch::GiftPassedByRemainder);
                    }
                }
                let amounts = self.threads[j].active.as_mut().expect("a receiver is active");
                amounts.w -= gift;
                return 0;
            }
        }
        gift
    }

    /// Removes the job at the head, sets its dedicated figure and checks demand 3 for it.
    fn enter_in_ledger(&mut self, j: usize) {
        let clock = self.clock;
        let parts = self.parts;
        let thread = &mut self.threads[j];
        let arrival = thread
            .jobs
            .pop_front()
            .expect("the thread that had the tick has a job");
        let arrived = thread.scaled(arrival);
        let begin = thread.figure.map_or(arrived, |before| before.max(arrived));
        let figure = begin + parts * thread.length;
        debug_assert!(thread.length > 0);
        debug_assert!(thread.scaled(clock) < figure + thread.stretch(), "demand 3");
        thread.figure = Some(figure);
        thread.length = 0;
        hit(Branch::JobCompleted);
    }

    /// An arrival at the present moment, refused 8 or 11.
    pub fn arrival(&mut self, number: u16) -> Result<(), Refusal> {
        let j = self.find(number)?;
        if self.threads[j].jobs.len() == JOBS_MOST {
            return Err(Refusal(11));
        }
        if !self.arrived {
            if self.leave() {
                hit(Branch::LeavingAtArrival);
            }
            self.arrived = true;
        }
        if self.threads[j].active.is_none() {
            self.note(Note::Active(j));
        }
        let clock = self.clock;
        let thread = &mut self.threads[j];
        let stretch = thread.stretch();
        match thread.phase() {
            Phase::Inactive => {
                hit(Branch::ArrivalInactive);
                let w = thread.scaled(clock);
                thread.active = Some(Amounts { w, e: w + stretch });
            }
            Phase::NonContending => {
                hit(Branch::ArrivalNonContending);
                let w = thread.amounts().w;
                thread.active = Some(Amounts { w, e: w + stretch });
            }
            Phase::Contending => hit(Branch::ArrivalContending),
        }
        thread.jobs.push_back(clock);
        Ok(())
    }

    /// A drop at the present moment, refused 8.
    pub fn drop_jobs(&mut self, number: u16) -> Result<(), Refusal> {
        let j = self.find(number)?;
        hit(match self.threads[j].jobs.len() {
            0 => Branch::DropOfNone,
            1 => Branch::DropOfOne,
            _ if self.had == Some(j) && !self.completed && !self.arrived => Branch::DropBeforeCompletion,
            _ => Branch::DropOfMany,
        });
        self.threads[j].jobs.truncate(1);
        Ok(())
    }

    /// Step 2; tells whether a thread left.
    fn leave(&mut self) -> bool {
        let clock = self.clock;
        let mut left = false;
        for j in 0..self.threads.len() {
            let thread = &mut self.threads[j];
            let rest = thread.scaled(clock) - thread.amounts().w;
            if thread.phase() == Phase::NonContending && rest >= 0 {
                thread.active = None;
                left = true;
                self.note(Note::Inactive(j, rest));
            }
        }
        left
    }

    /// The free share of each application.
    fn free_shares(&self) -> [i128; APPLICATION_LAST as usize + 1] {
        let mut free = [0; APPLICATION_LAST as usize + 1];
        for thread in &self.threads {
            if thread.active.is_none() {
                free[thread.application] += thread.share;
            }
        }
        free
    }

    /// The first thread with the earliest deadline among those wanted.
    fn earliest<F: Fn(&Thread) -> bool>(&self, wanted: F) -> Option<Earliest> {
        let mut found: Option<Earliest> = None;
        for (j, thread) in self
            .threads
            .iter()
            .enumerate()
            .filter(|(_, thread)| wanted(thread))
        {
            let order = found.map_or(Ordering::Less, |best| thread.earlier(&self.threads[best.thread]));
            found = match order {
                Ordering::Less => Some(Earliest {
                    thread: j,
                    tie: false,
                    by_remainder: false,
                }),
                Ordering::Equal => found.map(|best| Earliest { tie: true, ..best }),
                Ordering::Greater => found,
            };
        }
        found.map(|best| Earliest {
            by_remainder: self
                .threads
                .iter()
                .any(|thread| wanted(thread) && thread.parted_by_remainder(&self.threads[best.thread])),
            ..best
        })
    }

    /// One tick: steps 2 (if no arrival brought it on), 4, 5 and 6; refused 13 at the clock's end.
    pub fn step(&mut self) -> Result<Tick, Refusal> {
        if self.clock == CLOCK_END {
            return Err(Refusal(13));
        }
        if !self.arrived && self.leave() {
            hit(Branch::LeavingAtTick);
        }
        let free = self.free_shares();
        let fitted = self.fit(&free);
        let answer = match self.earliest(|thread| thread.phase() == Phase::Contending) {
            None => {
                self.idle();
                Tick::Idle
            }
            Some(Earliest {
                thread: chosen,
                tie,
                by_remainder,
            }) => {
                if tie {
                    hit(Branch::ChoiceTie);
                }
                if by_remainder {
                    hit(Branch::ChoiceByRemainder);
                }
                for j in fitted {
                    hit(if j == chosen {
                        Branch::FittedChosen
                    } else {
                        Branch::FittedOther
                    });
                }
                self.charge(chosen, &free);
                self.note(Note::Granted(chosen));
                Tick::Grant(chosen as u16)
            }
        };
        self.had = match answer {
            Tick::Grant(j) => Some(usize::from(j)),
            Tick::Idle => None,
        };
        self.completed = false;
        self.arrived = false;
        self.clock += 1;
        debug_assert!(self.sound());
        Ok(answer)
    }

    /// Step 4; tells which threads had their deadline postponed.
    fn fit(&mut self, free: &[i128]) -> Vec<usize> {
        let mut fitted = Vec::new();
        let parts = self.parts;
        for (j, thread) in self.threads.iter_mut().enumerate() {
            if thread.phase() != Phase::Contending {
                continue;
            }
            let need = parts - free[thread.application];
            let stretch = thread.stretch();
            let amounts = thread.active.as_mut().expect("a contending thread is active");
            if amounts.e - amounts.w < need {
                amounts.e += stretch;
                fitted.push(j);
            }
            debug_assert!(amounts.e - amounts.w >= need, "fitting");
        }
        fitted
    }

    /// The idle case of step 5.
    fn idle(&mut self) {
        let forgotten = self.threads.iter().any(|thread| thread.active.is_some());
        hit(if forgotten {
            Branch::IdleForgets
        } else {
            Branch::IdlePlain
        });
        if self.notes.is_some() {
            self.note(Note::Idle(self.ahead()));
        }
        for thread in &mut self.threads {
            thread.active = None;
        }
    }

    /// Step 6 without the clock.
    fn charge(&mut self, chosen: usize, free: &[i128]) {
        let own = self.threads[chosen].application;
        for (application, r) in free.iter().copied().enumerate() {
            if application == own {
                continue;
            }
            let first = self.earliest(|thread| thread.application == application && thread.active.is_some());
            match first {
                None if r > 0 => hit(Branch::OtherAllInactive),
                None => {}
                Some(Earliest {
                    thread: j,
                    tie,
                    by_remainder,
                }) => {
                    let thread = &mut self.threads[j];
                    if r > 0 {
                        hit(match thread.phase() {
                            Phase::NonContending => Branch::FreeToNonContending,
                            _ => Branch::FreeToContending,
                        });
                        if tie {
                            hit(Branch::FreeTie);
                        }
                        if by_remainder {
                            hit(Branch::FreeByRemainder);
                        }
                    } else {
                        hit(Branch::OtherWithoutFree);
                    }
                    let amounts = thread.active.as_mut().expect("a receiver is active");
                    amounts.w -= r;
                    if amounts.w < 0 {
                        hit(Branch::NegativeW);
                    }
                }
            }
        }
        let end = self.clock + 1;
        let parts = self.parts;
        let thread = &mut self.threads[chosen];
        let bound = thread.scaled(end);
        thread.length += 1;
        let amounts = thread.active.as_mut().expect("the chosen thread is active");
        hit(if free[own] > 0 {
            Branch::ChargedLess
        } else {
            Branch::ChargedWhole
        });
        if amounts.w < 0 {
            hit(Branch::ChosenNegativeW);
        }
        amounts.w += parts - free[own];
        debug_assert!(amounts.e >= bound, "a granted tick ends by its deadline");
    }

    /// The invariants that hold after every charge.
    fn sound(&self) -> bool {
        self.threads.iter().all(|thread| match thread.active {
            None => thread.jobs.is_empty(),
            Some(amounts) => amounts.e >= amounts.w && amounts.e >= 0,
        })
    }

    /// Runs to a moment into a lent row, one entry a tick; refused 12, 13 or 17.
    pub fn run(&mut self, to: u32, row: &mut [u16]) -> Result<(), Refusal> {
        if to < self.clock {
            return Err(Refusal(12));
        }
        if to > CLOCK_END {
            return Err(Refusal(13));
        }
        let span = (to - self.clock) as usize;
        if row.len() < span {
            return Err(Refusal(17));
        }
        for entry in &mut row[..span] {
            *entry = match self.step()? {
                Tick::Grant(j) => j,
                Tick::Idle => IDLE_ENTRY,
            };
        }
        Ok(())
    }
}
