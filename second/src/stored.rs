//! The stored traces: each with a name, what it shows, and its records in words.

use crate::listing;
use crate::report;
use crate::words;
use std::fs;
use std::io;
use std::path::Path;

/// A stored trace.
pub struct Stored {
    pub name: &'static str,
    pub shows: &'static str,
    pub records: &'static str,
}

/// The trace of the worked example of document 01.
pub const WORKED: &str = "worked";

/// The listing of the worked example, copied from document 01.
pub const WORKED_LISTING: &str = "\
tick thread app deadline virtual
0 2 1 20 10
1 2 1 20 20
2 2 1 40 30
3 2 1 40 40
4 0 0 30 6
5 1 0 24 2
6 2 1 60 50
7 - - - -
end 8
";

/// Declares the stored traces as name, what is shown, and records.
macro_rules! stored {
    ($($name:literal, $shows:literal, $records:expr;)*) => {
        /// The stored traces in the order of the list.
        pub const STORED: &[Stored] = &[$(Stored { name: $name, shows: $shows, records: $records },)*];
    };
}

/// The table of the worked example.
macro_rules! worked_table {
    ($rest:literal) => {
        concat!("head 10 3; row 0 3 10; row 0 2 10; row 1 5 4; ", $rest)
    };
}

/// The smallest table: Q 1 and one thread of share 1 and period 1.
macro_rules! smallest_table {
    ($rest:literal) => {
        concat!("head 1 1; row 0 1 1; ", $rest)
    };
}

stored! {
    "worked", "the worked example of document 01; its listing is copied from the document",
        worked_table!("arr 0 0; arr 0 2; arr 2 1; done 5 0; done 6 1; done 7 2; run 8");

    // Tables.
    "table-01-q-0", "Q 0 is refused 1", "head 0 1; row 0 1 1; run 1";
    "table-01-q-4096", "Q 4,096 is admitted", "head 4096 1; row 0 1 4096; arr 0 0; run 3";
    "table-01-q-4097", "Q 4,097 is refused 1", "head 4097 1; row 0 1 4097; run 1";
    "table-02-no-thread", "a head of no thread is refused 2", "head 10 0; run 1";
    "table-02-64-threads", "64 threads are admitted, and thread 63 has ticks",
        "head 64 64; times 63 row 0 1 100; row 15 1 64; times 2 arr 0 63; arr 0 0; run 5; done 5 0; run 9";
    "table-02-65-threads", "a head of 65 threads is refused 2 before its rows", "head 65 65; times 65 row 0 1 100; run 1";
    "table-03-application-15", "application 15 is admitted", "head 4 2; row 15 2 2; row 0 2 2; arr 0 0; arr 0 1; run 4";
    "table-03-application-16", "application 16 is refused 3", "head 4 2; row 15 2 2; row 16 2 2; run 4";
    "table-04-share-0", "a share of 0 is refused 4", "head 10 2; row 0 4 10; row 0 0 10; run 1";
    "table-04-share-q", "a share of Q is admitted", "head 10 1; row 3 10 1; arr 2 0; run 4; done 4 0; run 6";
    "table-04-share-above-q", "a share above Q is refused 4, not 7", "head 10 2; row 0 4 10; row 0 11 10; run 1";
    "table-05-period-65536", "a period of 65,536 is admitted", "head 10 1; row 0 1 65536; arr 0 0; run 3";
    "table-05-period-65537", "a period of 65,537 is refused 5", "head 10 1; row 0 1 65537; run 3";
    "table-06-least-period", "u x P = Q is admitted (M8), and every tick of the thread is fitted",
        "head 10 1; row 0 2 5; arr 0 0; run 12";
    "table-06-period-too-short", "u x P below Q is refused 6 (M8)", "head 10 1; row 0 2 4; run 1";
    "table-06-period-0", "a period of 0 stands for 100, just enough for Q 100", "head 100 1; row 0 1 0; arr 0 0; run 3";
    "table-06-period-0-too-short", "a period of 0 stands for 100, too short for Q 101", "head 101 1; row 0 1 0; run 3";
    "table-07-shares-q", "shares of 6 and 4 of 10 are admitted (M9)", "head 10 2; row 0 6 5; row 0 4 5; arr 0 1; arr 0 0; run 8";
    "table-07-shares-above-q", "shares of 6 and 5 of 10 are refused 7 (M9)", "head 10 2; row 0 6 5; row 0 5 5; run 8";
    "table-07-third-row", "the shares of three rows are above Q: 7 at the third row",
        "head 10 4; row 0 5 5; row 1 4 5; row 2 2 5; row 3 1 10; run 1";
    "table-order-1-2", "1 is given before 2", "head 0 0";
    "table-order-3-4", "3 is given before 4 and 5", "head 10 1; row 16 0 65537";
    "table-order-4-5", "4 is given before 5", "head 10 1; row 15 0 65537";
    "table-order-6-7", "6 is given before 7", "head 10 2; row 0 9 2; row 0 2 4";
    "table-shares-below-q", "parts of Q that no thread has are handed to nobody",
        "head 20 2; row 0 3 10; row 0 2 10; arr 0 0; arr 1 1; run 9; done 9 0; run 12";

    // Step 1, completion.
    "completion-job-waits-later", "a job waits and E is moved to W + u x P (M6)",
        worked_table!("times 2 arr 0 0; arr 0 2; arr 2 1; done 5 0; run 12");
    "completion-job-waits-kept", "a job waits, W is below 0, and E is kept (M6)",
        "head 10 3; row 1 2 5; row 0 3 10; row 0 5 2; arr 0 0; times 2 arr 0 1; done 3 1; run 9";
    "completion-non-contending", "no job waits and W is above u x t: non-contending; an idle tick ends that",
        "head 8 1; row 0 2 8; arr 0 0; done 1 0; run 3";
    "completion-amount-0", "no job waits and W = u x t: inactive, with nothing to give",
        "head 9 2; row 1 6 3; row 1 3 3; arr 0 0; arr 0 1; done 3 1; run 5";
    "completion-inactive-gift", "the amount goes to a contending thread of the application",
        "head 4 2; row 9 3 8; row 9 1 4; arr 0 0; arr 3 1; done 5 0; run 9";
    "completion-gift-non-contending", "the amount goes to a non-contending thread, which stays",
        "head 11 2; row 0 6 4; row 0 4 4; arr 0 0; arr 0 1; done 5 0; done 6 1; arr 6 1; run 9";
    "completion-gift-makes-leave", "the amount makes a non-contending thread leave",
        "head 3 2; row 0 1 3; row 0 2 5; arr 1 0; arr 2 1; done 3 0; done 4 1; arr 4 1; run 7";
    "completion-gift-to-one-leaving", "the amount goes to a thread that is due to leave at this moment, though another could take it",
        "head 11 4; row 0 4 15; row 3 2 7; row 0 4 14; row 0 1 35; arr 0 1; arr 0 0; done 1 1; arr 1 2; done 3 0; arr 3 3; \
         done 4 2; run 12";
    "completion-gift-passed-over", "the amount passes over an earlier deadline, which is non-contending, to a later one",
        "head 9 3; row 1 5 6; row 1 3 3; row 1 1 9; arr 0 2; arr 0 1; arr 0 0; done 1 1; done 2 0; run 8";
    "completion-gift-remainder", "of the deadlines 132/5 and 104/4, both 26 in whole ticks, the lesser fraction receives the amount",
        "head 17 4; row 0 6 12; row 3 1 18; row 0 5 10; row 0 4 16; arr 0 3; arr 1 3; arr 2 2; done 4 2; arr 4 2; arr 5 0; done 6 3; \
         done 9 0; run 16";
    "completion-gift-passed-over-remainder", "33/3 is earlier than the completing thread's 95/8 by the remainder alone: it gets nothing",
        "head 18 3; row 0 8 4; row 0 7 4; row 0 3 6; arr 2 0; arr 2 1; done 3 0; arr 3 0; arr 5 2; done 8 2; done 9 0; run 14";
    "completion-gift-equal-deadline", "a thread with an equal deadline receives the amount",
        "head 12 2; row 0 6 8; row 0 6 2; arr 0 1; arr 8 0; done 20 0; run 24";
    "completion-gift-tie", "two threads could receive; the lower number does",
        "head 10 3; row 0 2 5; row 0 2 5; row 0 4 5; arr 0 0; arr 0 1; arr 0 2; done 3 2; run 8";
    "completion-gift-lost", "no other thread of the application is active: the amount is lost (M4)",
        worked_table!("arr 0 0; arr 0 2; done 4 2; run 6; done 6 0; arr 6 1; arr 6 2; run 12");
    "completion-gift-lost-earlier", "only an earlier deadline is there: the amount is lost",
        "head 8 2; row 0 5 5; row 0 3 3; arr 1 1; arr 1 0; done 2 1; done 3 0; arr 3 0; run 7";
    "completion-then-arrival", "the completing thread arrives again at the same moment",
        worked_table!("arr 0 0; arr 0 2; done 3 2; arr 3 2; run 6; done 6 0; arr 6 0; run 9");

    // Step 2, leaving.
    "leaving-at-arrival", "a non-contending thread with W = u x t leaves before an arrival, and arrives anew",
        "head 8 2; row 0 4 2; row 2 4 2; arr 0 0; done 1 0; arr 1 1; arr 2 0; run 5";
    "leaving-at-tick", "a non-contending thread leaves when the tick is taken; from then on its share is free",
        "head 10 3; row 0 5 10; row 0 2 30; row 1 3 10; arr 0 0; arr 0 1; done 2 0; run 7";
    "leaving-not-yet", "a non-contending thread with W above u x t does not leave at an arrival",
        "head 10 2; row 0 5 10; row 1 5 20; arr 0 0; arr 0 1; done 2 0; arr 3 0; run 6";
    "leaving-not-by-drop", "a drop before the completion does not bring the leaving on: the one leaving still takes the amount",
        "head 11 4; row 0 4 15; row 3 2 7; row 0 4 14; row 0 1 35; arr 0 1; arr 0 0; done 1 1; arr 1 2; done 3 0; arr 3 3; \
         drop 4 0; done 4 2; run 12";

    // Step 3, arrivals.
    "arrival-inactive", "an inactive thread gets W = u x t", "head 7 2; row 0 1 7; row 0 2 4; arr 6 0; arr 9 1; run 14";
    "arrival-non-contending", "a non-contending thread gets E = W + u x P", "head 8 1; row 0 2 8; arr 0 0; done 1 0; arr 1 0; run 3";
    "arrival-contending", "a contending thread has one more job waiting, and completes three",
        "head 2 1; row 0 1 2; times 3 arr 0 0; done 1 0; done 2 0; done 3 0; run 5";
    "arrivals-and-drops-mixed", "arrivals and drops of one moment in any order",
        "head 10 2; row 0 6 5; row 1 4 5; arr 0 0; drop 0 0; arr 0 1; times 3 arr 0 0; drop 0 1; drop 0 0; arr 0 0; arr 0 1; \
         done 1 0; done 2 1; done 3 0; done 4 1; run 6";

    // Step 4, fitting.
    "fitting-chosen", "the coming tick does not fit and the deadline is postponed", "head 7 1; row 0 1 7; arr 6 0; run 9";
    "fitting-by-arrival", "an arrival in the application lowers r, and the deadline of a waiting thread is postponed",
        "head 10 3; row 0 5 3; row 0 3 5; row 1 2 5; arr 0 0; arr 0 2; arr 1 1; run 6";
    "fitting-not-chosen", "a thread that does not have the tick is fitted too", "head 12 2; row 3 2 6; row 0 4 9; arr 0 1; arr 2 0; run 8";

    // Step 5, choice.
    "choice-tie", "equal deadlines as fractions, 24/2 and 60/5: the lower number has the tick (M3)",
        worked_table!("arr 0 0; arr 0 2; arr 2 1; done 5 0; run 6");
    "choice-tie-all", "all of four threads tie", "head 8 4; row 0 2 8; row 1 1 8; row 2 3 8; row 3 1 8; \
         arr 0 3; arr 0 2; arr 0 1; arr 0 0; run 9";
    "choice-fractions", "at 2 the deadlines 27/4 and 19/3 are both 6 in whole ticks: the lesser fraction has the tick",
        "head 7 2; row 0 4 5; row 1 3 3; arr 0 0; done 1 0; arr 1 0; arr 1 1; done 2 1; arr 2 1; run 8";
    "choice-remainder-higher", "at 5 the deadlines are 63/4 and 93/6, 15 and three quarters and 15 and a half: the higher number has the tick",
        "head 15 3; row 0 4 12; row 3 6 4; row 0 2 24; arr 0 2; arr 0 0; done 1 0; arr 1 1; done 2 1; arr 2 1; arr 3 0; run 9";
    "choice-remainder-lower", "the same with the numbers exchanged: the lower number has the tick",
        "head 15 3; row 3 6 4; row 0 4 12; row 0 2 24; arr 0 2; arr 0 1; done 1 1; arr 1 0; done 2 0; arr 2 0; arr 3 1; run 9";
    "choice-remainder-tie", "at 6 the deadlines 124/12 and 62/6 are both 10 and a third: the lower number has the tick",
        "head 19 3; row 2 12 2; row 0 1 23; row 0 6 4; arr 0 1; arr 0 2; arr 1 2; done 2 2; arr 2 0; done 6 0; arr 6 0; run 10";
    "choice-idle", "no thread is active: idle ticks", "head 9 1; row 0 9 4; run 7";
    "choice-idle-forgets", "an idle tick makes a non-contending thread inactive, which arrives with W = u x t",
        "head 3 1; row 2 1 3; arr 0 0; done 1 0; arr 2 0; run 4";

    // Step 6, charge.
    "charge-own-free-share", "the chosen thread is charged Q less the free share of its application",
        "head 7 2; row 0 4 8; row 0 2 4; arr 6 1; run 9";
    "charge-beneficiary-contending", "the free share of another application goes to its contending thread",
        "head 5 3; row 1 1 5; row 1 1 5; row 2 2 3; arr 4 2; arr 6 0; run 14";
    "charge-beneficiary-non-contending", "the free share of another application goes to a non-contending thread",
        "head 7 3; row 0 4 8; row 3 1 8; row 0 2 4; arr 6 2; arr 6 1; done 7 2; arr 9 2; run 14";
    "charge-beneficiary-earliest", "of a contending thread and an earlier non-contending one the latter gets the free share",
        "head 12 4; row 0 2 6; row 0 3 20; row 0 1 12; row 1 6 10; arr 0 0; arr 0 1; arr 0 3; done 1 0; run 14";
    "charge-beneficiary-remainder", "at 4 the deadlines 62/4 and 154/10 are both 15 in whole ticks: the lesser fraction gets the free share",
        "head 21 4; row 0 4 12; row 3 2 12; row 0 10 10; row 0 4 31; arr 0 0; arr 1 0; done 2 0; arr 2 2; arr 2 1; arr 3 2; done 4 2; \
         arr 7 0; run 12";
    "charge-beneficiary-tie", "two threads tie for the free share; the lower number gets it",
        "head 8 4; row 0 3 3; row 0 2 0; row 1 2 7; row 0 1 9; arr 0 0; arr 6 2; arr 6 3; run 14";
    "charge-other-full", "another application without free share loses nothing", "head 7 2; row 3 1 8; row 0 2 4; arr 6 1; arr 6 0; run 12";
    "charge-other-inactive", "another application without an active thread gets nothing",
        "head 7 2; row 2 3 3; row 0 1 7; arr 6 1; run 13; arr 13 0; run 16";
    "charge-w-below-zero", "W falls below 0 and is listed so (M1)",
        "head 10 3; row 1 2 5; row 0 3 10; row 0 5 2; arr 0 0; arr 0 1; run 6";
    "charge-w-minus-1", "W = -1 is listed", "head 3 3; row 0 1 12; row 0 1 12; row 1 1 3; arr 0 0; arr 0 2; run 6";
    "charge-16-applications", "16 applications with two threads each, one of them inactive",
        "head 4096 32; row 0 128 32; row 0 128 0; row 1 128 33; row 1 128 0; row 2 128 34; row 2 128 0; row 3 128 35; row 3 128 0; \
         row 4 128 36; row 4 128 0; row 5 128 37; row 5 128 0; row 6 128 38; row 6 128 0; row 7 128 39; row 7 128 0; \
         row 8 128 40; row 8 128 0; row 9 128 41; row 9 128 0; row 10 128 42; row 10 128 0; row 11 128 43; row 11 128 0; \
         row 12 128 44; row 12 128 0; row 13 128 45; row 13 128 0; row 14 128 46; row 14 128 0; row 15 128 47; row 15 128 0; \
         arr 0 0; arr 0 2; arr 0 4; arr 0 6; arr 0 8; arr 0 10; arr 0 12; arr 0 14; arr 0 16; arr 0 18; arr 0 20; arr 0 22; \
         arr 0 24; arr 0 26; arr 0 28; arr 0 30; run 300";

    // Drops.
    "drop-before-completion", "a drop before the completion: no job waits then",
        "head 10 2; row 0 6 5; row 0 4 5; times 3 arr 0 0; arr 0 1; drop 2 0; done 2 0; run 5";
    "drop-after-completion", "a drop after the completion leaves the next job, now at the head",
        "head 10 2; row 0 6 5; row 0 4 5; times 3 arr 0 0; arr 0 1; done 2 0; drop 2 0; run 5; done 5 0; run 8";
    "drop-of-none", "a drop of a thread without a job changes nothing", "head 7 1; row 2 7 3; drop 0 0; arr 1 0; done 2 0; drop 2 0; run 3";
    "drop-of-one", "a drop of a thread with one job changes nothing", "head 7 1; row 2 7 3; arr 0 0; drop 1 0; run 2; done 2 0; run 3";
    "drop-after-arrival", "a drop after an arrival of the same moment; then a completion is refused 10",
        "head 7 1; row 2 7 3; times 5 arr 0 0; run 1; arr 1 0; drop 1 0; done 1 0";

    // Runs.
    "run-to-present", "a run to the present does nothing, also before a completion", "head 8 1; row 0 2 4; arr 0 0; run 0; run 2; run 2; done 2 0; run 2; run 4; run 4";
    "run-long", "a listing longer than 65,536 bytes, from a short trace", worked_table!("arr 0 0; arr 0 2; arr 2 1; run 4000");

    // What is promised in time.
    "own-share-two-beginnings", "application 0, all of it active from 1,000 on but not since one moment, has 250 of the 1,000 ticks from there",
        "head 10 3; row 0 4 5; row 0 1 10; row 1 5 4; arr 0 0; arr 1000 1; arr 1000 2; run 2000";

    // Events refused.
    "event-08-thread", "a thread number not in the table is refused 8; nothing is listed for it", worked_table!("arr 0 0; run 2; arr 4 3; run 6");
    "event-08-thread-65535", "thread 65,535 is refused 8", worked_table!("drop 0 65535");
    "event-09-at-0", "a completion at moment 0 is refused 9 (M10)", worked_table!("done 0 0; arr 0 0");
    "event-09-other-thread", "a completion by a thread that did not have the tick is refused 9; the ticks before it stay listed",
        worked_table!("arr 0 0; arr 0 2; done 3 0; run 5");
    "event-09-second", "a second completion at a moment is refused 9", worked_table!("times 2 arr 0 0; run 2; done 2 0; done 2 0");
    "event-09-after-idle", "after an idle tick nobody may complete", worked_table!("arr 0 0; done 1 0; run 2; done 2 0");
    "event-10-after-arrival", "a completion after an arrival is refused 10; the ticks before it stay listed",
        worked_table!("arr 0 0; arr 3 1; done 3 0");
    "event-10-before-9", "10 is given before 9", worked_table!("arr 0 0; arr 0 2; arr 4 1; run 4; done 4 1");
    "event-11-after-ticks", "the 65,536th job is refused 11; the ticks before it stay listed (longer than a window)",
        "head 2 1; row 0 1 2; times 65535 arr 0 0; run 2; arr 4 0";
    "event-12-before-clock", "a tick before the clock is refused 12, before 8", worked_table!("arr 0 0; run 4; arr 3 3");
    "event-12-run-back", "a run to a moment before the clock is refused 12", worked_table!("run 3; run 2");
    "event-13-beyond-end", "a tick of 2,147,483,648 is refused 13, before 8; nothing is listed for it",
        worked_table!("arr 0 0; run 1; done 2147483648 9");
    "event-13-run-beyond-end", "a run to 4,294,967,295 is refused 13", worked_table!("arr 0 0; run 4294967295");

    // Damaged and cut inputs.
    "input-empty", "an empty input is refused 14 at 0", "bytes";
    "input-one-byte", "an input of one byte", "bytes 6";
    "input-head-only", "the head alone: rows are missing, at the input's length", "head 10 3";
    "input-rows-missing", "one of three rows is missing", "head 10 3; row 0 3 10; row 0 2 10";
    "input-table-only", "a table without events ends at 0", worked_table!("bytes");
    "input-cut-in-head", "the input ends inside the head", "head 10 3; cut 1";
    "input-cut-in-row", "the input ends inside a row: at the row's start", "head 10 3; row 0 3 10; row 0 2 10; cut 5";
    "input-cut-in-length", "the input ends inside the length of a record", worked_table!("arr 0 0; run 2; bytes 8");
    "input-cut-after-length", "the input ends after the length of a record", worked_table!("arr 0 0; run 2; bytes 8 0");
    "input-cut-in-kind", "the input ends inside the kind of a record", worked_table!("arr 0 0; run 2; bytes 8 0 3");
    "input-cut-after-kind", "the input ends after the kind of a record", worked_table!("arr 0 0; run 2; bytes 8 0 3 0");
    "input-cut-in-body", "the input ends one byte before the end of a record", worked_table!("arr 0 0; arr 2 1; cut 1");
    "input-length-0", "a length of 0 is refused 14", worked_table!("arr 0 0; raw 0 3 6; run 3");
    "input-length-1", "a length of 1 is refused 14", worked_table!("arr 0 0; raw 1 7 6; run 3");
    "input-length-too-small", "a length of 7 for an arrival is refused 14", worked_table!("raw 7 3 5; run 3");
    "input-length-too-great", "a length of 9 for an arrival is refused 14", worked_table!("raw 9 3 7; run 3");
    "input-length-out-of-place", "a head of wrong length among events is refused 14, before 16", worked_table!("raw 7 1 5");
    "input-kind-unknown", "a record of kind 7 is refused 15", worked_table!("arr 0 0; raw 8 7 6; run 3");
    "input-kind-unknown-shortest", "a record of two bytes of kind 0 is refused 15", worked_table!("raw 2 0 0");
    "input-kind-unknown-first", "an unknown kind before the head is refused 15", "raw 6 9 4; head 10 1; row 0 5 2";
    "input-kind-unknown-cut", "a cut record of unknown kind is refused 14", worked_table!("raw 8 7 5");
    "input-kind-high-byte", "kind 259 is unknown, though its low byte is 3", worked_table!("raw 8 259 6");
    "input-kind-unknown-wide", "a record of 65,537 bytes of unknown kind is refused 15", worked_table!("arr 0 0; run 2; raw 65535 7 65533");
    "input-kind-unknown-wide-cut", "the same record cut by its last byte is refused 14", worked_table!("arr 0 0; run 2; raw 65535 7 65532");

    // Records out of place.
    "place-event-first", "an event before the head is refused 16", "arr 0 0; head 10 1; row 0 5 2";
    "place-row-first", "a row before the head is refused 16", "row 0 5 2; head 10 1";
    "place-event-among-rows", "an event among the rows is refused 16", "head 10 2; row 0 5 2; arr 0 0; row 0 5 2";
    "place-head-among-rows", "a second head among the rows is refused 16", "head 10 2; row 0 5 2; head 10 2";
    "place-head-among-events", "a second head among events is refused 16", worked_table!("arr 0 0; run 2; head 10 1");
    "place-row-among-events", "a row more than the head says is refused 16", worked_table!("row 1 1 10; arr 0 0");

    // Just at a limit, or where two refusals hold at once, on small tables.
    "table-04-share-4096", "the greatest share, 4,096, is admitted", "head 4096 1; row 0 4096 1";
    "table-06-one-below-q", "u x P = Q - 1 is refused 6", "head 10 1; row 0 3 3";
    "arrival-last", "an arrival at the clock is the last record: no tick is run", smallest_table!("arr 0 0");
    "event-08-drop", "a drop of the number after the last thread's is refused 8", smallest_table!("drop 0 1");
    "event-08-before-9", "8 is given before 9", smallest_table!("done 0 1");
    "event-08-before-10", "8 is given before 10", smallest_table!("arr 0 0; done 0 1");
    "event-09-second-no-job", "a second completion at a moment is refused 9, where no job is left",
        smallest_table!("arr 0 0; done 1 0; done 1 0");
    "event-10-at-0", "10 is given before 9 at moment 0 too", smallest_table!("arr 0 0; done 0 0");
    "event-10-own-arrival", "a completion after an arrival of the same thread is refused 10",
        smallest_table!("arr 0 0; arr 1 0; done 1 0");
    "event-12-arrival", "an arrival one tick before the clock is refused 12", smallest_table!("run 5; arr 4 0");
    "event-13-arrival", "an arrival at 2,147,483,648 is refused 13", smallest_table!("arr 2147483648 0");
    "event-13-run", "a run to 2,147,483,648 is refused 13", smallest_table!("run 2147483648");
    "input-head-of-64-only", "a head of 64 threads is taken, and then its rows are missing", "head 64 64";
    "input-cut-in-last-row", "the input ends one byte before the end of the last row", "head 10 1; row 0 10 1; cut 1";
    "input-length-0-kind-unknown", "a length of 0 is refused 14, before 15", smallest_table!("raw 0 7 0");
    "input-length-2", "a length of 2 for an arrival is refused 14", smallest_table!("raw 2 3 0");
    "input-length-5-out-of-place", "a head of length 5 among events is refused 14, before 16",
        smallest_table!("bytes 5 0 1 0 1 0 1");
    "input-kind-0", "a record of kind 0, long as an arrival, is refused 15", smallest_table!("raw 8 0 6");
    "place-event-after-head", "an event in the place of the first row is refused 16", "head 10 1; arr 0 0";
    "place-head-after-head", "a second head in the place of the first row is refused 16", "head 10 1; head 10 1";
    "place-head-after-rows", "a second head in the place of the first event is refused 16", smallest_table!("head 1 1");
    "place-order-16-1", "16 is given before 1", smallest_table!("head 0 1");
    "place-order-16-3", "16 is given before 3", smallest_table!("row 16 1 1");
    "place-order-16-13", "16 is given before 13", "head 10 1; arr 2147483648 0";

    // Longer than a window.
    "window-arrivals-and-drops", "an input longer than 131,072 bytes, with a record across its 131,072nd byte, then ticks",
        worked_table!("arr 0 0; times 4 run 0; times 6000 arr 0 0; drop 0 0; times 7200 arr 300 1; arr 301 2; drop 301 1; \
         done 302 2; run 320; times 30 arr 320 1; run 325");
}

/// The bytes of a stored trace.
pub fn trace(stored: &Stored) -> Vec<u8> {
    words::trace(stored.records).expect("records in words")
}

/// The listing of a stored trace, that of the worked example from the document.
pub fn listing(stored: &Stored) -> Vec<u8> {
    if stored.name == WORKED {
        return WORKED_LISTING.as_bytes().to_vec();
    }
    let mut listing = Vec::new();
    listing::list(&trace(stored), &mut listing).expect("writing to memory does not fail");
    listing
}

/// The capacity report of a stored trace.
pub fn report(stored: &Stored) -> Vec<u8> {
    let mut report = Vec::new();
    report::report(&trace(stored), &mut report).expect("writing to memory does not fail");
    report
}

/// The page that says what each stored trace shows.
pub fn page() -> String {
    let mut page = String::from(
        "\
# Stored traces

`NAME.trace` is a trace, `NAME.listing` its listing and `NAME.report` its capacity report. `worked.listing` is copied from
document 01; the other files, and this page, are written by the second program (`second stored traces`) from the list in
`second/src/stored.rs`, which has the records in words. `tools/run-traces` runs both programs on each, and `tools/show`
writes one in words.

| Trace | Shows |
|---|---|
",
    );
    for stored in STORED {
        page.push_str(&format!("| `{}` | {} |\n", stored.name, stored.shows));
    }
    page
}

/// Writes the traces, their listings and reports, and the page to a folder.
pub fn write(folder: &str) -> io::Result<()> {
    let folder = Path::new(folder);
    fs::create_dir_all(folder)?;
    for stored in STORED {
        fs::write(folder.join(format!("{}.trace", stored.name)), trace(stored))?;
        fs::write(folder.join(format!("{}.listing", stored.name)), listing(stored))?;
        fs::write(folder.join(format!("{}.report", stored.name)), report(stored))?;
    }
    fs::write(folder.join("README.md"), page())
}
