// How fast a run into a lent row is, beside the same schedule in plain Rust: once with the state by
// value, as the library has it, and once in place. All three take the same ticks in one process, in
// turns, by processor time, and must agree on every entry.
#[path = "../bindings/bollardine.rs"]
mod bollardine;
#[allow(dead_code)]
mod plain;

use bollardine::{Answered, Row, Table};
use plain::State;

// Threads that contend all along, spread over the applications.
struct Load {
    name: &'static str,
    threads: usize,
    apps: usize,
    ticks: usize,
}

const LOADS: [Load; 3] = [
    Load { name: "64 threads in 16 applications", threads: 64, apps: 16, ticks: 2_000_000 },
    Load { name: "3 threads", threads: 3, apps: 2, ticks: 8_000_000 },
    Load { name: "1 thread", threads: 1, apps: 1, ticks: 8_000_000 },
];
const Q: u16 = 4096;
// Entries lent to one run.
const ROW: usize = 50_000;

#[repr(C)]
struct Timespec {
    seconds: i64,
    nanoseconds: i64,
}

extern "C" {
    fn clock_gettime(clock: i32, time: *mut Timespec) -> i32;
}

// The processor time of this process, in seconds.
fn processor_time() -> f64 {
    let mut t = Timespec { seconds: 0, nanoseconds: 0 };
    // 2 is CLOCK_PROCESS_CPUTIME_ID.
    unsafe { clock_gettime(2, &mut t) };
    t.seconds as f64 + t.nanoseconds as f64 * 1e-9
}

// What one of the three has done so far.
#[derive(Default)]
struct Spent {
    seconds: f64,
}

fn rows(load: &Load) -> Vec<(u16, u16, u32)> {
    let share = Q / load.threads as u16;
    (0..load.threads).map(|i| ((i % load.apps) as u16, share, 100 + 7 * i as u32)).collect()
}

fn written(rows: &[(u16, u16, u32)]) -> Table {
    let mut t = Table { q: Q, threads: rows.len() as u16, rows: [Row { app: 0, share: 0, period: 0 }; 64] };
    for (x, r) in t.rows.iter_mut().zip(rows) {
        *x = Row { app: r.0, share: r.1, period: r.2 };
    }
    t
}

fn accepted(r: Answered) -> bollardine::State {
    assert!(r.refusal == 0, "refused {}", r.refusal);
    r.state
}

fn measure(load: &Load) {
    let table = rows(load);
    let mut library = accepted(bollardine::begin(written(&table)));
    let mut in_place = State::begin(Q, &table);
    for i in 0..load.threads {
        library = accepted(bollardine::arrive(library, i as u16));
        in_place.arrive(i, &mut ());
    }
    let mut by_value = in_place.clone();
    let (mut a, mut b, mut c) = (vec![0u16; ROW], vec![0u16; ROW], vec![0u16; ROW]);
    let (mut spent_library, mut spent_place, mut spent_value) = (Spent::default(), Spent::default(), Spent::default());
    let mut done = 0;
    while done < load.ticks {
        let start = processor_time();
        library = accepted(bollardine::run(library, (done + ROW) as u32, &mut a));
        let first = processor_time();
        for entry in b.iter_mut() {
            *entry = in_place.step();
        }
        let second = processor_time();
        for entry in c.iter_mut() {
            let (next, had) = plain::step_by_value(by_value);
            by_value = next;
            *entry = had;
        }
        let third = processor_time();
        assert!(a == b && b == c, "the three differ before tick {}", done + ROW);
        spent_library.seconds += first - start;
        spent_place.seconds += second - first;
        spent_value.seconds += third - second;
        done += ROW;
    }
    let rate = |s: &Spent| done as f64 / s.seconds / 1e6;
    println!(
        "{:<30} {:>8.2} {:>8.2} {:>8.2}   {:>5.2} {:>5.2}",
        load.name,
        rate(&spent_library),
        rate(&spent_value),
        rate(&spent_place),
        spent_place.seconds / spent_library.seconds,
        spent_value.seconds / spent_library.seconds
    );
}

fn main() {
    println!("{:<30} {:>8} {:>8} {:>8}   {:>5} {:>5}", "million ticks a second", "library", "by value", "in place", "ratio", "ratio");
    println!("{:<30} {:>8} {:>8} {:>8}   {:>5} {:>5}", "", "", "(Rust)", "(Rust)", "place", "value");
    for load in &LOADS {
        measure(load);
    }
}
