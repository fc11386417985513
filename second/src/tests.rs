//! The document's listing, its marked examples M1 to M10, its limits, and random checks.

use crate::calls::calls;
use crate::cover;
use crate::listing::listing;
use crate::random::{self, Dice, Size};
use crate::schedule::{
    as_fractions, whole_parts_first, Amounts, Phase, Refusal, Row, Schedule, Tick, CLOCK_END, IDLE_ENTRY,
    JOBS_MOST,
};
use crate::stored::{self, STORED};
use crate::trace::{encode, Item};
use crate::wide;
use crate::words;
use std::collections::BTreeSet;
use std::fs;

/// A row from its three numbers.
fn row(application: u16, share: u16, period: u32) -> Row {
    Row {
        application,
        share,
        period,
    }
}

/// The bytes of a trace.
fn bytes(items: &[Item]) -> Vec<u8> {
    let mut bytes = Vec::new();
    for item in items {
        encode(*item, &mut bytes);
    }
    bytes
}

/// The table of the document's listing.
fn example_rows() -> Vec<Row> {
    vec![row(0, 3, 10), row(0, 2, 10), row(1, 5, 4)]
}

/// The trace of the document's listing.
fn example() -> Vec<Item> {
    let rows = example_rows();
    vec![
        Item::Head { parts: 10, count: 3 },
        Item::Row(rows[0]),
        Item::Row(rows[1]),
        Item::Row(rows[2]),
        Item::Arrival { tick: 0, thread: 0 },
        Item::Arrival { tick: 0, thread: 2 },
        Item::Arrival { tick: 2, thread: 1 },
        Item::Completion { tick: 5, thread: 0 },
        Item::Completion { tick: 6, thread: 1 },
        Item::Completion { tick: 7, thread: 2 },
        Item::RunTo { tick: 8 },
    ]
}

/// The heading and the lines given, as text.
fn text(lines: &[&str]) -> String {
    let mut text = String::from("tick thread app deadline virtual\n");
    for line in lines {
        text.push_str(line);
        text.push('\n');
    }
    text
}

/// The listing of a trace as text.
fn listed(input: &[u8]) -> String {
    String::from_utf8(listing(input)).expect("plain text")
}

/// The document's run up to the moment before the completion at 5.
fn example_at_five() -> Schedule {
    let mut schedule = Schedule::admit(10, &example_rows()).unwrap();
    schedule.arrival(0).unwrap();
    schedule.arrival(2).unwrap();
    schedule.step().unwrap();
    schedule.step().unwrap();
    schedule.arrival(1).unwrap();
    let mut entries = [7; 4];
    schedule.run(5, &mut entries).unwrap();
    assert_eq!(entries, [2, 2, 0, 7]);
    schedule
}

#[test]
fn the_listing_of_the_document() {
    let lines = [
        "0 2 1 20 10",
        "1 2 1 20 20",
        "2 2 1 40 30",
        "3 2 1 40 40",
        "4 0 0 30 6",
        "5 1 0 24 2",
        "6 2 1 60 50",
        "7 - - - -",
        "end 8",
    ];
    assert_eq!(listed(&bytes(&example())), text(&lines));
}

#[test]
fn the_record_of_the_document() {
    let record = bytes(&[Item::Arrival { tick: 2, thread: 1 }]);
    assert_eq!(record, [8, 0, 3, 0, 2, 0, 0, 0, 1, 0]);
}

#[test]
fn m1_a_negative_virtual_time() {
    let mut schedule = Schedule::admit(10, &example_rows()).unwrap();
    schedule.arrival(0).unwrap();
    schedule.arrival(2).unwrap();
    schedule.step().unwrap();
    schedule.step().unwrap();
    assert_eq!(schedule.threads()[0].amounts().w, -4);
}

#[test]
fn m2_a_gift() {
    let mut schedule = example_at_five();
    assert_eq!(schedule.threads()[0].amounts().w, 6);
    assert_eq!(schedule.threads()[1].amounts().w, 4);
    schedule.completion(0).unwrap();
    assert_eq!(schedule.threads()[1].amounts().w, -5);
    assert_eq!(schedule.threads()[0].phase(), Phase::Inactive);
}

#[test]
fn m3_to_m5_tie_loss_and_idle() {
    let mut schedule = example_at_five();
    schedule.completion(0).unwrap();
    assert_eq!(schedule.step(), Ok(Tick::Grant(1)));
    assert_eq!(schedule.threads()[1].amounts(), Amounts { w: 2, e: 24 });
    assert_eq!(schedule.threads()[2].amounts().e, 60);
    let others = (schedule.threads()[0].amounts(), schedule.threads()[2].amounts());
    schedule.completion(1).unwrap();
    assert_eq!(schedule.threads()[1].phase(), Phase::Inactive);
    assert_eq!(
        (schedule.threads()[0].amounts(), schedule.threads()[2].amounts()),
        others
    );
    assert_eq!(schedule.step(), Ok(Tick::Grant(2)));
    schedule.completion(2).unwrap();
    assert_eq!(schedule.threads()[2].amounts().w, 50);
    assert_eq!(schedule.threads()[2].phase(), Phase::NonContending);
    assert_eq!(schedule.step(), Ok(Tick::Idle));
    assert_eq!(schedule.threads()[2].phase(), Phase::Inactive);
}

#[test]
fn m6_a_job_waits() {
    // Thread 1 (u 3, P 10) gains 5 in each of two ticks of another application, then has one.
    let rows = [row(1, 2, 5), row(0, 3, 10), row(0, 5, 2)];
    let mut schedule = Schedule::admit(10, &rows).unwrap();
    schedule.arrival(0).unwrap();
    schedule.arrival(1).unwrap();
    schedule.arrival(1).unwrap();
    let mut entries = [9; 3];
    schedule.run(3, &mut entries).unwrap();
    assert_eq!(entries, [0, 0, 1]);
    assert_eq!(schedule.threads()[1].amounts(), Amounts { w: -5, e: 30 });
    schedule.completion(1).unwrap();
    assert_eq!(schedule.threads()[1].amounts(), Amounts { w: -5, e: 30 });
    // The document's table, with a second job of thread 0, has W = 6 at its completion.
    let mut schedule = Schedule::admit(10, &example_rows()).unwrap();
    schedule.arrival(0).unwrap();
    schedule.arrival(0).unwrap();
    schedule.arrival(2).unwrap();
    schedule.step().unwrap();
    schedule.step().unwrap();
    schedule.arrival(1).unwrap();
    schedule.run(5, &mut [0; 3]).unwrap();
    assert_eq!(schedule.threads()[0].amounts(), Amounts { w: 6, e: 30 });
    schedule.completion(0).unwrap();
    assert_eq!(schedule.threads()[0].amounts(), Amounts { w: 6, e: 36 });
}

#[test]
fn m7_leaving() {
    // Thread 0 (u 5) has two ticks at once and stands at W = 20 from moment 2 on.
    let rows = [row(0, 5, 10), row(1, 5, 65_536)];
    let mut schedule = Schedule::admit(10, &rows).unwrap();
    schedule.arrival(0).unwrap();
    schedule.arrival(1).unwrap();
    schedule.run(2, &mut [0; 2]).unwrap();
    schedule.completion(0).unwrap();
    assert_eq!(schedule.threads()[0].amounts().w, 20);
    schedule.step().unwrap();
    assert_eq!(schedule.threads()[0].phase(), Phase::NonContending);
    let mut at_three = schedule.clone();
    at_three.arrival(1).unwrap();
    assert_eq!(at_three.threads()[0].phase(), Phase::NonContending);
    schedule.step().unwrap();
    assert_eq!(schedule.clock(), 4);
    assert_eq!(schedule.threads()[0].phase(), Phase::NonContending);
    schedule.arrival(1).unwrap();
    assert_eq!(schedule.threads()[0].phase(), Phase::Inactive);
}

#[test]
fn m8_least_period() {
    assert!(Schedule::admit(10, &[row(0, 2, 5)]).is_ok());
    assert_eq!(Schedule::admit(10, &[row(0, 2, 4)]), Err(Refusal(6)));
}

#[test]
fn m9_shares_together() {
    assert!(Schedule::admit(10, &[row(0, 6, 5), row(0, 4, 5)]).is_ok());
    assert_eq!(
        Schedule::admit(10, &[row(0, 6, 5), row(0, 5, 5)]),
        Err(Refusal(7))
    );
}

#[test]
fn m10_a_completion_at_moment_0() {
    let mut schedule = Schedule::admit(10, &example_rows()).unwrap();
    assert_eq!(schedule.completion(0), Err(Refusal(9)));
    let mut items = example();
    items.insert(4, Item::Completion { tick: 0, thread: 0 });
    assert_eq!(listed(&bytes(&items)), text(&["refused 9 at 44"]));
}

#[test]
fn limits_of_the_table() {
    assert!(Schedule::admit(4_096, &[row(0, 1, 4_096)]).is_ok());
    assert_eq!(Schedule::admit(4_097, &[row(0, 1, 4_097)]), Err(Refusal(1)));
    assert_eq!(Schedule::admit(0, &[row(16, 0, 0)]), Err(Refusal(1)));
    assert!(Schedule::admit(64, &[row(15, 1, 65_536); 64]).is_ok());
    assert_eq!(Schedule::admit(65, &[row(0, 1, 100); 65]), Err(Refusal(2)));
    assert_eq!(Schedule::admit(1, &[]), Err(Refusal(2)));
    assert_eq!(Schedule::admit(1, &[row(16, 0, 65_537)]), Err(Refusal(3)));
    assert_eq!(Schedule::admit(1, &[row(15, 0, 65_537)]), Err(Refusal(4)));
    assert_eq!(Schedule::admit(1, &[row(15, 2, 65_537)]), Err(Refusal(4)));
    assert_eq!(Schedule::admit(1, &[row(15, 1, 65_537)]), Err(Refusal(5)));
    assert!(Schedule::admit(100, &[row(0, 1, 0)]).is_ok());
    assert_eq!(Schedule::admit(101, &[row(0, 1, 0)]), Err(Refusal(6)));
}

#[test]
fn limit_of_the_jobs() {
    let mut schedule = Schedule::admit(1, &[row(0, 1, 1)]).unwrap();
    for _ in 0..JOBS_MOST {
        schedule.arrival(0).unwrap();
    }
    let before = schedule.clone();
    assert_eq!(schedule.arrival(0), Err(Refusal(11)));
    assert_eq!(schedule, before);
    schedule.drop_jobs(0).unwrap();
    assert_eq!(schedule.threads()[0].jobs(), 1);
    schedule.arrival(0).unwrap();
}

#[test]
fn a_refused_arrival_does_not_count_for_10() {
    let mut schedule = Schedule::admit(1, &[row(0, 1, 1)]).unwrap();
    for _ in 0..JOBS_MOST {
        schedule.arrival(0).unwrap();
    }
    schedule.step().unwrap();
    assert_eq!(schedule.arrival(0), Err(Refusal(11)));
    assert_eq!(schedule.arrival(1), Err(Refusal(8)));
    assert_eq!(schedule.completion(0), Ok(()));
    assert_eq!(schedule.completion(0), Err(Refusal(9)));
    assert_eq!(schedule.arrival(0), Ok(()));
    assert_eq!(schedule.completion(0), Err(Refusal(10)));
    assert_eq!(schedule.completion(1), Err(Refusal(8)));
}

#[test]
fn limits_of_a_lent_row() {
    let mut schedule = Schedule::admit(2, &[row(0, 1, 2)]).unwrap();
    schedule.arrival(0).unwrap();
    let before = schedule.clone();
    let mut entries = [9; 3];
    assert_eq!(schedule.run(4, &mut entries), Err(Refusal(17)));
    assert_eq!(schedule.run(CLOCK_END + 1, &mut entries), Err(Refusal(13)));
    assert_eq!(schedule.run(0, &mut []), Ok(()));
    assert_eq!((&schedule, entries), (&before, [9; 3]));
    assert_eq!(schedule.run(2, &mut entries), Ok(()));
    assert_eq!(entries, [0, 0, 9]);
    assert_eq!(schedule.run(1, &mut entries), Err(Refusal(12)));
    schedule.completion(0).unwrap();
    assert_eq!(schedule.run(5, &mut entries), Ok(()));
    assert_eq!(entries, [IDLE_ENTRY; 3]);
}

#[test]
fn forms_of_records() {
    let good = bytes(&example());
    assert_eq!(listed(&[]), text(&["refused 14 at 0"]));
    assert_eq!(listed(&[6]), text(&["refused 14 at 0"]));
    assert_eq!(listed(&good[..8]), text(&["refused 14 at 8"]));
    assert_eq!(listed(&good[..9]), text(&["refused 14 at 8"]));
    assert_eq!(listed(&good[..32]), text(&["refused 14 at 32"]));
    assert_eq!(listed(&good[..44]), text(&["end 0"]));
    assert_eq!(listed(&[1, 0, 9]), text(&["refused 14 at 0"]));
    assert_eq!(listed(&[2, 0, 9, 0]), text(&["refused 15 at 0"]));
    assert_eq!(listed(&[3, 0, 9, 0]), text(&["refused 14 at 0"]));
    assert_eq!(listed(&[2, 0, 3, 0]), text(&["refused 14 at 0"]));
    assert_eq!(listed(&good[8..]), text(&["refused 16 at 0"]));
    let mut long = good[..44].to_vec();
    long.extend_from_slice(&[255, 255, 0, 0]);
    long.resize(44 + 65_537, 0);
    assert_eq!(listed(&long), text(&["refused 15 at 44"]));
    long[46] = 3;
    assert_eq!(listed(&long), text(&["refused 14 at 44"]));
    long.pop();
    long[46] = 0;
    assert_eq!(listed(&long), text(&["refused 14 at 44"]));
}

#[test]
fn order_within_an_event() {
    let table = bytes(&example()[..4]);
    let with = |items: &[Item]| {
        let mut input = table.clone();
        input.extend(bytes(items));
        listed(&input)
    };
    let beyond = Item::Completion {
        tick: CLOCK_END + 1,
        thread: 3,
    };
    assert_eq!(with(&[beyond]), text(&["refused 13 at 44"]));
    let late = [Item::RunTo { tick: 2 }, Item::Drop { tick: 1, thread: 3 }];
    assert_eq!(with(&late), text(&["0 - - - -", "1 - - - -", "refused 12 at 52"]));
    assert_eq!(
        with(&[Item::Drop { tick: 1, thread: 3 }]),
        text(&["refused 8 at 44"])
    );
    let nine = [Item::Completion { tick: 1, thread: 2 }];
    assert_eq!(with(&nine), text(&["0 - - - -", "refused 9 at 44"]));
    let ten = [
        Item::Arrival { tick: 0, thread: 0 },
        Item::Completion { tick: 0, thread: 2 },
    ];
    assert_eq!(with(&ten), text(&["refused 10 at 54"]));
}

#[test]
fn random_traces_hold_the_invariants() {
    for seed in 0..3_000 {
        let input = random::trace(seed, Size::Usual);
        let out = listed(&input);
        assert!(out.starts_with("tick thread app deadline virtual\n"));
        assert!(out.ends_with('\n'));
    }
}

#[test]
fn small_traces_are_small() {
    for seed in 0..2_000 {
        assert!(random::trace(seed, Size::Small).len() < 320);
    }
}

#[test]
fn refused_calls_change_nothing() {
    let mut dice = Dice::new(1);
    for _ in 0..300 {
        let (parts, rows) = random::table(&mut dice, 6);
        let mut schedule = Schedule::admit(parts, &rows).unwrap();
        for _ in 0..200 {
            let before = schedule.clone();
            let thread = dice.below(rows.len() + 1) as u16;
            let mut entries = [77; 3];
            let answer = match dice.below(6) {
                0 => schedule.arrival(thread),
                1 => schedule.completion(thread),
                2 => schedule.completion(schedule.had().map_or(thread, |j| j as u16)),
                3 => schedule.drop_jobs(thread),
                4 => schedule.step().map(|_| ()),
                _ => {
                    let to = (schedule.clock() + dice.below(5) as u32).saturating_sub(1);
                    schedule.run(to, &mut entries)
                }
            };
            if answer.is_err() {
                assert_eq!(schedule, before);
                assert_eq!(entries, [77; 3]);
            }
        }
    }
}

#[test]
fn idle_ticks_at_once_and_one_by_one() {
    let mut schedule = example_at_five();
    schedule.completion(0).unwrap();
    while schedule.had().is_some() {
        schedule.step().unwrap();
        if let Some(j) = schedule.had() {
            schedule.completion(j as u16).unwrap();
        }
    }
    for ahead in 0..4 {
        let mut stepped = schedule.clone();
        for _ in 0..ahead {
            stepped.step().unwrap();
        }
        assert_eq!(schedule.idle_until(schedule.clock() + ahead), stepped);
    }
}

#[test]
fn random_calls_hold_the_invariants() {
    for seed in 0..1_000 {
        assert!(calls(seed).starts_with("table "));
    }
}

/// The folder of the stored traces.
const TRACES: &str = concat!(env!("CARGO_MANIFEST_DIR"), "/../traces");

#[test]
fn stored_traces_are_those_of_the_list() {
    let mut names = BTreeSet::from([String::from("README.md")]);
    for stored in STORED {
        let trace = format!("{}.trace", stored.name);
        let listing = format!("{}.listing", stored.name);
        let kept = fs::read(format!("{}/{}", TRACES, trace)).expect("a stored trace");
        assert!(kept == stored::trace(stored), "{}", trace);
        let listed_then = fs::read(format!("{}/{}", TRACES, listing)).expect("a stored listing");
        assert!(listed_then == crate::listing::listing(&kept), "{}", listing);
        let report = format!("{}.report", stored.name);
        let reported_then = fs::read(format!("{}/{}", TRACES, report)).expect("a stored report");
        assert!(reported_then == stored::report(stored), "{}", report);
        assert!(
            names.insert(trace) && names.insert(listing) && names.insert(report),
            "{} twice",
            stored.name
        );
    }
    let files = fs::read_dir(TRACES).expect("the folder of the stored traces");
    let files: BTreeSet<String> = files
        .map(|file| {
            file.expect("a file")
                .file_name()
                .into_string()
                .expect("a plain name")
        })
        .collect();
    assert_eq!(files, names);
    let page = fs::read_to_string(format!("{}/README.md", TRACES)).expect("the page");
    assert_eq!(page, stored::page());
}

#[test]
fn the_worked_trace_is_that_of_the_document() {
    let worked = STORED
        .iter()
        .find(|stored| stored.name == stored::WORKED)
        .expect("it is stored");
    assert_eq!(stored::trace(worked), bytes(&example()));
    assert_eq!(listed(&stored::trace(worked)), stored::WORKED_LISTING);
}

#[test]
fn the_report_of_the_document() {
    let mut report = Vec::new();
    crate::report::report(&bytes(&example()), &mut report).expect("writing to memory does not fail");
    let text = String::from_utf8(report).expect("plain text");
    // request 8: "application 0 gives 5 x 6 = 10 x 2 + 10"
    assert_eq!(
        text,
        "app from to granted lost share sum end\n0 0 6 2 10 30 0 over\n1 0 7 5 0 35 15 idle\nend 8\n"
    );
}

#[test]
fn every_stretch_is_accounted_for() {
    // The sum is that of the state, the rest is counted: request 8 says how they stand to each other.
    let mut ends = [0; 3];
    let mut losses = 0;
    for index in 0..3_000 {
        let trace = wide::trace(8, index);
        let mut report = Vec::new();
        crate::report::report(&trace, &mut report).expect("writing to memory does not fail");
        let text = String::from_utf8(report).expect("plain text");
        for line in text.lines().skip(1) {
            let words: Vec<&str> = line.split(' ').collect();
            if words.len() != 8 {
                continue;
            }
            let numbers: Vec<i128> = words[..7]
                .iter()
                .map(|word| word.parse().expect("a number"))
                .collect();
            let parts = i128::from(u16::from_le_bytes([trace[4], trace[5]]));
            assert_eq!(
                parts * numbers[3] + numbers[4] - numbers[5],
                numbers[6],
                "{}",
                line
            );
            let end = ["over", "idle", "open"].iter().position(|word| *word == words[7]);
            ends[end.expect("an end")] += 1;
            losses += i32::from(numbers[4] > 0);
            assert!(words[7] == "open" || numbers[1] < numbers[2], "{}", line);
            assert!(words[7] != "over" || numbers[6] == 0, "{}", line);
        }
    }
    assert!(
        ends.iter().all(|count| *count > 100) && losses > 100,
        "{:?} {}",
        ends,
        losses
    );
}

#[test]
fn whole_parts_first_is_the_order_of_fractions() {
    let small: Vec<(i128, i128)> = (1..=12).flat_map(|u| (0..=60).map(move |e| (e, u))).collect();
    let far = |u: i128| {
        [
            0,
            1,
            u - 1,
            u,
            2 * u - 1,
            (1 << 43) / u * u - 1,
            (1 << 43) / u * u,
            (1 << 44) - 1,
        ]
        .map(|e| (e, u))
    };
    let great: Vec<(i128, i128)> = [1, 2, 3, 2047, 2048, 4095, 4096]
        .into_iter()
        .flat_map(far)
        .collect();
    let mut told = [0; 3];
    for pairs in [small, great] {
        for (e1, u1) in &pairs {
            for (e2, u2) in &pairs {
                let order = as_fractions(*e1, *u1, *e2, *u2);
                assert_eq!(
                    order,
                    whole_parts_first(*e1, *u1, *e2, *u2),
                    "{}/{} {}/{}",
                    e1,
                    u1,
                    e2,
                    u2
                );
                told[usize::from(e1 / u1 == e2 / u2) * (1 + usize::from(order.is_eq()))] += 1;
            }
        }
    }
    assert!(told.iter().all(|count| *count > 1000), "{:?}", told);
}

#[test]
fn stored_traces_reach_every_refusal_and_branch() {
    cover::take();
    for stored in STORED {
        listing(&stored::trace(stored));
    }
    let missed = cover::take().unreached(1..=16);
    assert!(missed.is_empty(), "{:?}", missed);
}

#[test]
fn traces_in_words_are_read_back() {
    for seed in 0..300 {
        let trace = random::trace(seed, Size::Small);
        let shown = words::shown(&trace);
        if trace.is_empty() {
            continue;
        }
        assert_eq!(words::trace(&shown), Ok(trace), "{}", shown);
    }
    assert!(words::trace("arr 0").is_err());
    assert!(words::trace("row 0 65536 1").is_err());
}

#[test]
fn traces_of_the_comparison_hold_the_invariants() {
    for index in 0..1_500 {
        let out = listed(&wide::trace(3, index));
        assert!(out.starts_with("tick thread app deadline virtual\n"));
        assert!(out.ends_with('\n'));
    }
}

/// Takes half a minute in a release build: every tick of the clock, then a step at its end.
#[test]
#[ignore]
fn end_of_the_clock() {
    let mut schedule = Schedule::admit(1, &[row(0, 1, 1)]).unwrap();
    while schedule.clock() < CLOCK_END {
        assert_eq!(schedule.step(), Ok(Tick::Idle));
    }
    let before = schedule.clone();
    assert_eq!(schedule.step(), Err(Refusal(13)));
    assert_eq!(schedule, before);
    assert_eq!(schedule.run(CLOCK_END, &mut []), Ok(()));
    assert_eq!(schedule.run(CLOCK_END - 1, &mut []), Err(Refusal(12)));
    assert_eq!(schedule.run(CLOCK_END + 1, &mut []), Err(Refusal(13)));
    assert_eq!(schedule.arrival(0), Ok(()));
}
