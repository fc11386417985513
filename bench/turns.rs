// Lists the traces of a folder with the program in plain Rust and with bollardine, in turns, the listing to /dev/null,
// and prints the least processor time (user and system) of each over five turns and their ratio. Before that the two
// listings of each trace are compared. Then the same of the capacity reports.
//
// usage: turns FOLDER PLAIN BOLLARDINE CAPACITY
use std::fs::File;
use std::io::Read;
use std::process::{exit, Child, Command, Stdio};

const TURNS: usize = 5;

// The traces, what they are, and the ratio that is asked for.
const TRACES: [(&str, &str, f64); 5] = [
    ("three-machine", "3 threads, 5 million ticks, a record to 20", 0.3),
    ("three-run", "3 threads, 5 million ticks in one run", 0.3),
    ("sixty-four-machine", "64 threads in 16, 1 million ticks, a record to 20", 0.5),
    ("sixty-four-run", "64 threads in 16, 1 million ticks in one run", 0.5),
    ("reading", "5 million arrivals and drops at 10 moments", 0.7),
];

#[repr(C)]
#[derive(Default)]
struct Usage {
    user: [i64; 2],
    system: [i64; 2],
    rest: [i64; 14],
}

extern "C" {
    fn getrusage(who: i32, usage: *mut Usage) -> i32;
}

// The processor time of the children that were waited for, in seconds.
fn spent_by_children() -> f64 {
    let mut u = Usage::default();
    // -1 is RUSAGE_CHILDREN.
    unsafe { getrusage(-1, &mut u) };
    (u.user[0] + u.system[0]) as f64 + (u.user[1] + u.system[1]) as f64 * 1e-6
}

// A program and its words.
type Called<'a> = (&'a str, &'a [&'a str]);

fn started(program: Called, trace: &str, output: Stdio) -> Child {
    let input = File::open(trace).expect("a trace");
    Command::new(program.0).args(program.1).stdin(input).stdout(output).spawn().expect("a program")
}

fn time(program: Called, trace: &str) -> f64 {
    let before = spent_by_children();
    let ended = started(program, trace, Stdio::null()).wait().expect("it ends");
    if !ended.success() {
        println!("{} fails on {}", program.0, trace);
        exit(1);
    }
    spent_by_children() - before
}

// Ends unless both programs write the same; the number of bytes.
fn compare(plain: Called, program: Called, trace: &str) -> usize {
    let mut children = [plain, program].map(|p| started(p, trace, Stdio::piped()));
    let [mut a, mut b] = [0, 1].map(|i| children[i].stdout.take().expect("a pipe"));
    let (mut x, mut y) = (vec![0; 65_536], vec![0; 65_536]);
    let mut bytes = 0;
    loop {
        let n = a.read(&mut x).expect("a listing");
        let same = if n == 0 {
            b.read(&mut y).expect("a listing") == 0
        } else {
            b.read_exact(&mut y[..n]).is_ok() && x[..n] == y[..n]
        };
        if !same {
            println!("what is written of {} differs after byte {}", trace, bytes);
            exit(1);
        }
        bytes += n;
        if n == 0 {
            break;
        }
    }
    children.iter_mut().for_each(|c| {
        c.wait().expect("it ends");
    });
    bytes
}

// Compares and measures two programs over all traces; whether there are ratios that are asked for.
fn turns(what: &str, folder: &str, plain: Called, program: Called, asked: bool) {
    println!("{:<52} {:>8} {:>10} {:>6} {:>6}", what, "Rust", "ours", "ratio", if asked { "target" } else { "" });
    for (name, what, target) in TRACES {
        let trace = format!("{}/{}.trace", folder, name);
        compare(plain, program, &trace);
        let (mut least_plain, mut least) = (f64::MAX, f64::MAX);
        for _ in 0..TURNS {
            least_plain = least_plain.min(time(plain, &trace));
            least = least.min(time(program, &trace));
        }
        let target = if asked { target.to_string() } else { String::new() };
        println!("{:<52} {:>8.3} {:>10.3} {:>6.2} {:>6}", what, least_plain, least, least_plain / least, target);
    }
}

fn main() {
    let words: Vec<String> = std::env::args().skip(1).collect();
    let [folder, plain, listing, report] = words.as_slice() else {
        eprintln!("turns FOLDER PLAIN BOLLARDINE CAPACITY");
        exit(2);
    };
    turns("listing a trace, seconds", folder, (plain, &[]), (listing, &[]), true);
    println!();
    turns("reporting on a trace, seconds", folder, (plain, &["report"]), (report, &[]), false);
}
