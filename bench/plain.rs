// The schedule of document 01 in plain Rust, written for comparison of speed alone.
#[derive(Clone, Copy, PartialEq)]
enum Phase {
    Inactive,
    Contending,
    NonContending,
}

#[derive(Clone, Copy)]
struct Thread {
    app: u8,
    phase: Phase,
    share: u32,
    period: u32,
    jobs: u32,
    w: i64,
    e: i64,
}

#[derive(Clone, Copy)]
pub struct State {
    threads: [Thread; 64],
    count: usize,
    had: usize,
    q: u32,
    clock: u32,
    completed: bool,
    closed: bool,
}

// Who is told what becomes of the threads of an application; `()` does not listen.
pub trait Watch {
    fn awake(&mut self, _app: usize, _now: u32) {}
    fn asleep(&mut self, _app: usize, _now: u32, _lost: i64) {}
    fn granted(&mut self, _app: usize) {}
    fn idle(&mut self, _now: u32) {}
}

impl Watch for () {}

const NOBODY: usize = 64;
const MAX_JOBS: u32 = 65_535;
const BLANK: Thread = Thread { app: 0, phase: Phase::Inactive, share: 0, period: 0, jobs: 0, w: 0, e: 0 };

impl State {
    pub fn begin(q: u16, rows: &[(u16, u16, u32)]) -> State {
        let mut threads = [BLANK; 64];
        for (t, r) in threads.iter_mut().zip(rows) {
            *t = Thread { app: r.0 as u8, share: r.1 as u32, period: r.2, ..BLANK };
        }
        State { threads, count: rows.len(), had: NOBODY, q: q as u32, clock: 0, completed: false, closed: false }
    }

    pub fn clock(&self) -> u32 {
        self.clock
    }

    pub fn count(&self) -> usize {
        self.count
    }

    // Jobs of a thread, neither completed nor dropped.
    pub fn jobs(&self, i: usize) -> u32 {
        self.threads[i].jobs
    }

    // What a line shows of a thread: application, E and W.
    pub fn shown(&self, i: usize) -> (u8, i64, i64) {
        let t = &self.threads[i];
        (t.app, t.e, t.w)
    }

    // The share and the application of a thread.
    pub fn row(&self, i: usize) -> (u32, usize) {
        (self.threads[i].share, self.threads[i].app as usize)
    }

    pub fn q(&self) -> u32 {
        self.q
    }

    // The refusal of an arrival, or 0.
    #[inline]
    pub fn arrive<W: Watch>(&mut self, i: usize, watch: &mut W) -> u8 {
        if self.threads[i].jobs == MAX_JOBS {
            return 11;
        }
        if !self.closed {
            self.leave(watch);
            self.closed = true;
        }
        let now = self.clock as i64;
        let t = &mut self.threads[i];
        if t.phase != Phase::Contending {
            if t.phase == Phase::Inactive {
                t.w = t.share as i64 * now;
                watch.awake(t.app as usize, self.clock);
            }
            t.e = t.w + t.share as i64 * t.period as i64;
            t.phase = Phase::Contending;
        }
        t.jobs += 1;
        0
    }

    // The refusal of a completion, or 0.
    pub fn complete<W: Watch>(&mut self, i: usize, watch: &mut W) -> u8 {
        if self.closed {
            return 10;
        }
        if self.had != i || self.completed {
            return 9;
        }
        self.completed = true;
        let now = self.clock as i64;
        let t = &mut self.threads[i];
        t.jobs -= 1;
        if t.jobs > 0 {
            t.e = t.e.max(t.w + t.share as i64 * t.period as i64);
        } else if t.w > t.share as i64 * now {
            t.phase = Phase::NonContending;
        } else {
            let from = *t;
            *t = Thread { phase: Phase::Inactive, w: 0, e: 0, ..from };
            let lost = self.hand_on(&from, from.share as i64 * now - from.w);
            watch.asleep(from.app as usize, self.clock, lost);
        }
        0
    }

    // Takes what a completion freed from the thread of its application that receives it, if there is one; what is lost.
    fn hand_on(&mut self, from: &Thread, amount: i64) -> i64 {
        let threads = &mut self.threads[..self.count];
        let mut best = NOBODY;
        for i in 0..threads.len() {
            let t = &threads[i];
            let takes = t.phase != Phase::Inactive && t.app == from.app && !earlier(t, from);
            if takes && (best == NOBODY || earlier(t, &threads[best])) {
                best = i;
            }
        }
        if best == NOBODY {
            return amount;
        }
        threads[best].w -= amount;
        0
    }

    // A drop, which is never refused.
    pub fn drop_waiting(&mut self, i: usize) -> u8 {
        let t = &mut self.threads[i];
        t.jobs = t.jobs.min(1);
        0
    }

    fn leave<W: Watch>(&mut self, watch: &mut W) {
        let now = self.clock as i64;
        for t in self.threads[..self.count].iter_mut() {
            if t.phase == Phase::NonContending && t.w <= t.share as i64 * now {
                watch.asleep(t.app as usize, self.clock, t.share as i64 * now - t.w);
                *t = Thread { phase: Phase::Inactive, w: 0, e: 0, ..*t };
            }
        }
    }

    // One tick in place; the entry of the row.
    pub fn step(&mut self) -> u16 {
        self.step_watched(&mut ())
    }

    pub fn step_watched<W: Watch>(&mut self, watch: &mut W) -> u16 {
        let q = self.q as i64;
        let n = self.count;
        if !self.closed {
            self.leave(watch);
        }
        let threads = &mut self.threads[..n];
        let mut free = [0i64; 16];
        for t in threads.iter() {
            if t.phase == Phase::Inactive {
                free[t.app as usize & 15] += t.share as i64;
            }
        }
        for t in threads.iter_mut() {
            if t.phase == Phase::Contending && t.e - t.w < q - free[t.app as usize & 15] {
                t.e += t.share as i64 * t.period as i64;
            }
        }
        let mut best = NOBODY;
        for i in 0..n {
            if threads[i].phase == Phase::Contending && (best == NOBODY || earlier(&threads[i], &threads[best])) {
                best = i;
            }
        }
        self.clock += 1;
        self.completed = false;
        self.closed = false;
        self.had = best;
        if best == NOBODY {
            watch.idle(self.clock - 1);
            for t in threads.iter_mut() {
                *t = Thread { phase: Phase::Inactive, w: 0, e: 0, ..*t };
            }
            return 65535;
        }
        let own = threads[best].app as usize & 15;
        watch.granted(own);
        let mut first = [NOBODY; 16];
        for i in 0..n {
            if threads[i].phase != Phase::Inactive {
                let a = threads[i].app as usize & 15;
                if first[a] == NOBODY || earlier(&threads[i], &threads[first[a]]) {
                    first[a] = i;
                }
            }
        }
        for a in 0..16 {
            if a != own && first[a] != NOBODY {
                threads[first[a]].w -= free[a];
            }
        }
        threads[best].w += q - free[own];
        best as u16
    }
}

fn earlier(x: &Thread, y: &Thread) -> bool {
    x.e * (y.share as i64) < y.e * (x.share as i64)
}

// The same tick with the state in and out by value.
#[inline(never)]
pub fn step_by_value(s: State) -> (State, u16) {
    let mut z = s;
    let had = z.step();
    (z, had)
}
