//! The calls of the static library `libcapi.a`, as Rust declares them. A compiler that lays a struct out in another way than
//! the library refuses this file; beside that nothing checks these declarations against the library's source but the programs
//! that use them.
#![allow(dead_code)]

use std::mem::{offset_of, size_of};

#[cfg(not(all(target_arch = "x86_64", target_os = "linux", target_pointer_width = "64")))]
compile_error!("libcapi.a is for Linux on x86-64");

/// A thread; phase 0 is inactive, 1 contending, 2 non-contending.
#[repr(C)]
#[derive(Clone, Copy, PartialEq, Debug)]
pub struct Thread {
    pub app: u8,
    pub phase: u8,
    pub share: u32,
    pub period: u32,
    pub jobs: u32,
    pub w: i64,
    pub e: i64,
}

const _: () = {
    assert!(size_of::<Thread>() == 32);
    assert!(offset_of!(Thread, app) == 0 && offset_of!(Thread, phase) == 1);
    assert!(offset_of!(Thread, share) == 4 && offset_of!(Thread, period) == 8 && offset_of!(Thread, jobs) == 12);
    assert!(offset_of!(Thread, w) == 16 && offset_of!(Thread, e) == 24);
};

/// A state. Its fields are read by functions and cannot be set, so that every state is one that the calls gave.
#[repr(C)]
#[derive(Clone, Copy, PartialEq, Debug)]
pub struct State {
    threads: [Thread; 64],
    count: usize,
    had: usize,
    q: u32,
    clock: u32,
    completed: bool,
    closed: bool,
}

const _: () = {
    assert!(size_of::<State>() == 2080);
    assert!(offset_of!(State, threads) == 0);
    assert!(offset_of!(State, count) == 2048 && offset_of!(State, had) == 2056);
    assert!(offset_of!(State, q) == 2064 && offset_of!(State, clock) == 2068);
    assert!(offset_of!(State, completed) == 2072 && offset_of!(State, closed) == 2073);
};

impl State {
    /// The threads of the table; those from `count` on are blank.
    pub fn threads(&self) -> &[Thread; 64] {
        &self.threads
    }

    /// How many threads the table has.
    pub fn count(&self) -> usize {
        self.count
    }

    /// Who had the tick just ended; 64 where nobody had.
    pub fn had(&self) -> usize {
        self.had
    }

    pub fn q(&self) -> u32 {
        self.q
    }

    pub fn clock(&self) -> u32 {
        self.clock
    }

    /// Whether a completion was accepted at this moment.
    pub fn completed(&self) -> bool {
        self.completed
    }

    /// Whether the moment is closed to completions: an arrival was accepted.
    pub fn closed(&self) -> bool {
        self.closed
    }

    /// A state from its parts, as for one that was written to a file.
    ///
    /// # Safety
    ///
    /// Some calls give this very state. A call on another is outside of every promise, and may read and write outside of its memory.
    pub unsafe fn from_parts(threads: [Thread; 64], count: usize, had: usize, q: u32, clock: u32, completed: bool, closed: bool) -> State {
        State { threads, count, had, q, clock, completed, closed }
    }
}

/// A row as it is written; period 0 stands for 100.
#[repr(C)]
#[derive(Clone, Copy, PartialEq, Debug)]
pub struct Row {
    pub app: u16,
    pub share: u16,
    pub period: u32,
}

const _: () = {
    assert!(size_of::<Row>() == 8);
    assert!(offset_of!(Row, app) == 0 && offset_of!(Row, share) == 2 && offset_of!(Row, period) == 4);
};

/// A table; its rows are the first `threads` of `rows`.
#[repr(C)]
#[derive(Clone, Copy, PartialEq, Debug)]
pub struct Table {
    pub q: u16,
    pub threads: u16,
    pub rows: [Row; 64],
}

const _: () = {
    assert!(size_of::<Table>() == 516);
    assert!(offset_of!(Table, q) == 0 && offset_of!(Table, threads) == 2 && offset_of!(Table, rows) == 4);
};

/// An answer: the refusal's number, or 0, and the state.
#[repr(C)]
#[derive(Clone, Copy)]
pub struct Answered {
    pub refusal: u8,
    pub state: State,
}

const _: () = {
    assert!(size_of::<Answered>() == 2088);
    assert!(offset_of!(Answered, refusal) == 0 && offset_of!(Answered, state) == 8);
};

/// A step's answer: the refusal's number, or 0; the thread that has the tick, or 65,535; and the state.
#[repr(C)]
#[derive(Clone, Copy)]
pub struct Stepped {
    pub refusal: u8,
    pub thread: u16,
    pub state: State,
}

const _: () = {
    assert!(size_of::<Stepped>() == 2088);
    assert!(offset_of!(Stepped, refusal) == 0 && offset_of!(Stepped, thread) == 2 && offset_of!(Stepped, state) == 8);
};

mod raw {
    use super::*;

    extern "C" {
        pub fn bollardine_begin(t: Table) -> Answered;
        pub fn bollardine_complete(s: State, i: u16) -> Answered;
        pub fn bollardine_arrive(s: State, i: u16) -> Answered;
        pub fn bollardine_drop(s: State, i: u16) -> Answered;
        pub fn bollardine_step(s: State) -> Stepped;
        pub fn bollardine_run(s: State, to: u32, row: *mut u16, length: usize) -> Answered;
        pub fn bollardine_free_share(s: State, a: u16) -> u32;
    }
}

// Every call but `begin` asks for a state that these calls gave, and for nothing else. Outside of this file only an unsafe block can
// make another, so the calls are safe.

/// A table with all its rows begins a schedule.
pub fn begin(t: Table) -> Answered {
    unsafe { raw::bollardine_begin(t) }
}

/// Thread i completes the job at its head.
pub fn complete(s: State, i: u16) -> Answered {
    unsafe { raw::bollardine_complete(s, i) }
}

/// A job of thread i arrives.
pub fn arrive(s: State, i: u16) -> Answered {
    unsafe { raw::bollardine_arrive(s, i) }
}

/// Thread i keeps only the job at its head.
pub fn drop_waiting(s: State, i: u16) -> Answered {
    unsafe { raw::bollardine_drop(s, i) }
}

/// One tick.
pub fn step(s: State) -> Stepped {
    unsafe { raw::bollardine_step(s) }
}

/// The ticks up to the moment `to`, an entry of the row for each.
pub fn run(s: State, to: u32, row: &mut [u16]) -> Answered {
    unsafe { raw::bollardine_run(s, to, row.as_mut_ptr(), row.len()) }
}

/// The free share of the application a.
pub fn free_share(s: State, a: u16) -> u32 {
    unsafe { raw::bollardine_free_share(s, a) }
}
