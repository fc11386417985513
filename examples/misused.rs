//! Calls from Rust that are wrong, and what is answered. With `wrong` set it is a program that no compiler takes: `made` makes a
//! state up, `set` changes one, and `parts` makes one from its parts outside of an unsafe block.
#[path = "../bindings/bollardine.rs"]
mod bollardine;

use bollardine::{arrive, begin, complete, free_share, run, step, Row, State, Table};

fn worked() -> Table {
    let mut t = Table { q: 10, threads: 3, rows: [Row { app: 0, share: 0, period: 0 }; 64] };
    t.rows[0] = Row { app: 0, share: 3, period: 10 };
    t.rows[1] = Row { app: 0, share: 2, period: 10 };
    t.rows[2] = Row { app: 1, share: 5, period: 4 };
    t
}

/// A refused table hands out a state that has no thread.
fn without_schedule() {
    let a = begin(Table { q: 0, ..worked() });
    println!("a table of no parts: refused {}", a.refusal);
    println!("an arrival there: refused {}", arrive(a.state, 0).refusal);
    let x = step(a.state);
    println!("a step there: refused {}, thread {}", x.refusal, x.thread);
}

fn rows(s: State) {
    let mut row = [7; 3];
    print!("a run of 5 ticks into 3: refused {}", run(s, 5, &mut row).refusal);
    println!(", the row is {} {} {}", row[0], row[1], row[2]);
    println!("no row, to the present clock: refused {}", run(s, 0, &mut []).refusal);
    println!("no row, one tick: refused {}", run(s, 1, &mut []).refusal);
    println!("no row, beyond the clock's end: refused {}", run(s, 2_147_483_648, &mut []).refusal);
}

#[cfg(wrong = "made")]
fn wrong(s: State) -> State {
    State { threads: *s.threads(), count: 65, had: 64, q: 10, clock: 0, completed: false, closed: false }
}

#[cfg(wrong = "set")]
fn wrong(mut s: State) -> State {
    s.count = 65;
    s
}

#[cfg(wrong = "parts")]
fn wrong(s: State) -> State {
    State::from_parts(*s.threads(), 65, 64, 10, 0, false, false)
}

#[cfg(not(any(wrong = "made", wrong = "set", wrong = "parts")))]
fn wrong(s: State) -> State {
    s
}

fn main() {
    without_schedule();
    let old = wrong(begin(worked()).state);
    println!("thread 3 of 3: refused {}", arrive(old, 3).refusal);
    println!("a completion before any tick: refused {}", complete(old, 0).refusal);
    rows(old);
    arrive(old, 0);
    println!("an answer that is not taken: jobs {}", old.threads()[0].jobs);
    println!("application 65,535: free share {}", free_share(old, 65535));
}
