// Writes the traces that tools/bench lists, to the folder that its argument names.
//
// Two are like traces of a machine: each thread is released every so many ticks, a third more or less,
// with a job of random length, and completes once it has had that many ticks; the releases keep the
// processor busy for four ticks of five; one release in fifty is followed by a drop. Together that is
// about one record to 20 ticks. Two are one run over the same number of ticks, in which all threads
// contend all along. The last is arrivals and drops alone, at ten moments.
#[allow(dead_code)]
mod plain;

use plain::State;
use std::collections::VecDeque;
use std::fs::File;
use std::io::{self, BufWriter, Write};

const HEAD: u16 = 1;
const ROW: u16 = 2;
const ARRIVAL: u16 = 3;
const COMPLETION: u16 = 4;
const RUN: u16 = 5;
const DROP: u16 = 6;

// Random numbers (splitmix64).
struct Dice(u64);

impl Dice {
    fn below(&mut self, bound: u64) -> u64 {
        self.0 = self.0.wrapping_add(0x9e37_79b9_7f4a_7c15);
        let mut z = self.0;
        z = (z ^ (z >> 30)).wrapping_mul(0xbf58_476d_1ce4_e5b9);
        z = (z ^ (z >> 27)).wrapping_mul(0x94d0_49bb_1331_11eb);
        (z ^ (z >> 31)) % bound
    }

    // A number about as great as another, a third more or less.
    fn about(&mut self, n: u64) -> u64 {
        (n - n / 3 + self.below(2 * (n / 3) + 1)).max(1)
    }
}

type Rows = Vec<(u16, u16, u32)>;

struct Writer {
    to: BufWriter<File>,
    records: u64,
}

impl Writer {
    fn new(folder: &str, name: &str) -> io::Result<Writer> {
        Ok(Writer { to: BufWriter::new(File::create(format!("{}/{}.trace", folder, name))?), records: 0 })
    }

    fn record(&mut self, kind: u16, body: &[&[u8]]) -> io::Result<()> {
        let length: usize = body.iter().map(|b| b.len()).sum();
        self.to.write_all(&(2 + length as u16).to_le_bytes())?;
        self.to.write_all(&kind.to_le_bytes())?;
        for b in body {
            self.to.write_all(b)?;
        }
        self.records += 1;
        Ok(())
    }

    fn table(&mut self, q: u16, rows: &Rows) -> io::Result<()> {
        self.record(HEAD, &[&q.to_le_bytes(), &(rows.len() as u16).to_le_bytes()])?;
        for (app, share, period) in rows {
            self.record(ROW, &[&app.to_le_bytes(), &share.to_le_bytes(), &period.to_le_bytes()])?;
        }
        Ok(())
    }

    fn event(&mut self, kind: u16, tick: u32, thread: usize) -> io::Result<()> {
        self.record(kind, &[&tick.to_le_bytes(), &(thread as u16).to_le_bytes()])
    }

    fn run(&mut self, tick: u32) -> io::Result<()> {
        self.record(RUN, &[&tick.to_le_bytes()])
    }
}

fn three() -> (u16, Rows) {
    (10, vec![(0, 3, 10), (0, 2, 10), (1, 5, 4)])
}

fn sixty_four() -> (u16, Rows) {
    (4_096, (0..64).map(|i| (i % 16, 60 + i % 5, 80 + u32::from(i))).collect())
}

// All threads contend from 0 on, and nothing else happens.
fn one_run(folder: &str, name: &str, (q, rows): (u16, Rows), ticks: u32) -> io::Result<()> {
    let mut w = Writer::new(folder, name)?;
    w.table(q, &rows)?;
    for i in 0..rows.len() {
        w.event(ARRIVAL, 0, i)?;
    }
    w.run(ticks)?;
    w.to.flush()
}

// Releases and completions of jobs, about one record to 20 ticks.
fn machine(folder: &str, name: &str, (q, rows): (u16, Rows), ticks: u32) -> io::Result<()> {
    let mut w = Writer::new(folder, name)?;
    w.table(q, &rows)?;
    let mut dice = Dice(1);
    let mut s = State::begin(q, &rows);
    let shares: u64 = rows.iter().map(|r| u64::from(r.1)).sum();
    // An arrival and a completion for each job.
    let apart = 40 * rows.len() as u64;
    let mut release: Vec<u64> = rows.iter().map(|_| dice.below(apart)).collect();
    let mut left: Vec<VecDeque<u64>> = vec![VecDeque::new(); rows.len()];
    let table_records = w.records;
    for tick in 0..ticks {
        for i in 0..rows.len() {
            if release[i] == u64::from(tick) {
                let length = dice.about(apart * 4 * u64::from(rows[i].1) / (5 * shares));
                w.event(ARRIVAL, tick, i)?;
                assert!(s.arrive(i, &mut ()) == 0);
                left[i].push_back(length);
                if dice.below(50) == 0 {
                    w.event(DROP, tick, i)?;
                    s.drop_waiting(i);
                    left[i].truncate(1);
                }
                release[i] += dice.about(apart);
            }
        }
        let had = s.step() as usize;
        if had < rows.len() {
            left[had][0] -= 1;
            if left[had][0] == 0 {
                left[had].pop_front();
                w.event(COMPLETION, tick + 1, had)?;
                assert!(s.complete(had, &mut ()) == 0);
            }
        }
    }
    w.run(ticks)?;
    println!("{}: a record to {:.1} ticks", name, f64::from(ticks) / (w.records - table_records) as f64);
    w.to.flush()
}

// Arrivals and drops, three drops in ten records, at ten moments.
fn reading(folder: &str, name: &str, (q, rows): (u16, Rows), records: u32) -> io::Result<()> {
    let mut w = Writer::new(folder, name)?;
    w.table(q, &rows)?;
    let mut dice = Dice(2);
    let mut jobs = vec![0; rows.len()];
    for k in 0..records {
        let i = dice.below(rows.len() as u64) as usize;
        let tick = k / (records / 10);
        if jobs[i] > 60_000 || dice.below(10) < 3 {
            w.event(DROP, tick, i)?;
            jobs[i] = jobs[i].min(1);
        } else {
            w.event(ARRIVAL, tick, i)?;
            jobs[i] += 1;
        }
    }
    w.run(10)?;
    w.to.flush()
}

fn main() -> io::Result<()> {
    let folder = std::env::args().nth(1).expect("a folder");
    machine(&folder, "three-machine", three(), 5_000_000)?;
    one_run(&folder, "three-run", three(), 5_000_000)?;
    machine(&folder, "sixty-four-machine", sixty_four(), 1_000_000)?;
    one_run(&folder, "sixty-four-run", sixty_four(), 1_000_000)?;
    reading(&folder, "reading", three(), 5_000_000)
}
