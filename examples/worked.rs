//! The worked example of document 01 by direct calls from Rust: a table, arrivals, single steps,
//! completions, a job that is dropped again, and a run into a lent row. It writes the number and the
//! thread of each tick.
#[path = "../bindings/bollardine.rs"]
mod bollardine;

use bollardine::{Answered, Row, State, Table};

/// The state that a call gave, or the end of the program with the refusal's number.
fn accepted(a: Answered) -> State {
    if a.refusal != 0 {
        println!("refused {}", a.refusal);
        std::process::exit(1);
    }
    a.state
}

/// Steps to the moment `to` and writes the ticks.
fn run(mut s: State, to: u32) -> State {
    while s.clock() < to {
        let x = bollardine::step(s);
        match x.thread {
            65535 => println!("{} -", s.clock()),
            thread => println!("{} {}", s.clock(), thread),
        }
        s = x.state;
    }
    s
}

fn main() {
    let none = Row { app: 0, share: 0, period: 0 };
    let mut table = Table { q: 10, threads: 3, rows: [none; 64] };
    table.rows[0] = Row { app: 0, share: 3, period: 10 };
    table.rows[1] = Row { app: 0, share: 2, period: 10 };
    table.rows[2] = Row { app: 1, share: 5, period: 4 };
    let s = accepted(bollardine::begin(table));
    let s = accepted(bollardine::arrive(s, 0));
    let s = accepted(bollardine::arrive(s, 2));
    println!("free share of application 0: {}", bollardine::free_share(s, 0));
    let s = accepted(bollardine::arrive(s, 2));
    print!("jobs of thread 2: {}", s.threads()[2].jobs);
    let s = accepted(bollardine::drop_waiting(s, 2));
    println!(", after a drop {}", s.threads()[2].jobs);
    let s = run(s, 2);
    let s = accepted(bollardine::arrive(s, 1));
    let s = run(s, 5);
    let s = accepted(bollardine::complete(s, 0));
    let s = run(s, 6);
    let s = accepted(bollardine::complete(s, 1));
    let s = run(s, 7);
    let s = accepted(bollardine::complete(s, 2));
    let mut row = [0];
    let s = accepted(bollardine::run(s, 8, &mut row));
    println!("7 {}, clock {}", if row == [65535] { "-" } else { "?" }, s.clock());
    println!("thread 1 a second time: refused {}", bollardine::complete(s, 1).refusal);
}
