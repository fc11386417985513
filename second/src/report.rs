//! The capacity report of a trace: one line for each stretch of an application, written from the words of request 8.

use crate::listing::{tell, Teller};
use crate::schedule::{Note, Schedule, Tick, APPLICATION_LAST};
use std::collections::BTreeSet;
use std::io::{self, Write};

/// The heading line.
pub const HEADING: &str = "app from to granted lost share sum end";

const APPLICATIONS: usize = APPLICATION_LAST as usize + 1;

/// A stretch that holds: the moment at which it began, its active threads, the ticks granted and the capacity lost since.
struct Stretch {
    from: u32,
    active: BTreeSet<usize>,
    granted: i128,
    lost: i128,
}

/// The stretches that hold, by application, and the total share of each application.
struct Report {
    open: [Option<Stretch>; APPLICATIONS],
    shares: [i128; APPLICATIONS],
}

impl Report {
    /// Takes the notes of a call that was made at a moment.
    fn take<W: Write>(&mut self, schedule: &mut Schedule, moment: u32, out: &mut W) -> io::Result<()> {
        for note in schedule.take_notes() {
            let of = |thread: usize| schedule.threads()[thread].application();
            match note {
                Note::Active(thread) => {
                    let stretch = self.open[of(thread)].get_or_insert_with(|| Stretch {
                        from: moment,
                        active: BTreeSet::new(),
                        granted: 0,
                        lost: 0,
                    });
                    assert!(stretch.active.insert(thread), "it was inactive");
                }
                Note::Granted(thread) => {
                    self.open[of(thread)]
                        .as_mut()
                        .expect("a thread that runs is active")
                        .granted += 1;
                }
                Note::Inactive(thread, lost) => {
                    let application = of(thread);
                    let stretch = self.open[application].as_mut().expect("it was active");
                    assert!(stretch.active.remove(&thread), "it was active");
                    stretch.lost += lost;
                    if stretch.active.is_empty() {
                        self.close(application, moment, 0, "over", out)?;
                    }
                }
                Note::Idle(sums) => {
                    for (application, sum) in sums.iter().enumerate() {
                        self.close(application, moment, *sum, "idle", out)?;
                    }
                }
            }
        }
        Ok(())
    }

    /// Writes the line of the stretch of an application that holds, if one does; it holds no longer.
    fn close<W: Write>(
        &mut self,
        application: usize,
        to: u32,
        sum: i128,
        end: &str,
        out: &mut W,
    ) -> io::Result<()> {
        match self.open[application].take() {
            None => Ok(()),
            Some(stretch) => writeln!(
                out,
                "{} {} {} {} {} {} {} {}",
                application,
                stretch.from,
                to,
                stretch.granted,
                stretch.lost,
                self.shares[application] * i128::from(to - stretch.from),
                sum,
                end
            ),
        }
    }
}

impl<W: Write> Teller<W> for Report {
    fn begin(&mut self, schedule: &mut Schedule) {
        schedule.keep_notes();
        for thread in schedule.threads() {
            self.shares[thread.application()] += thread.row().0;
        }
    }

    fn tick(&mut self, schedule: &mut Schedule, tick: u32, _: Tick, out: &mut W) -> io::Result<()> {
        self.take(schedule, tick, out)
    }

    fn event(&mut self, schedule: &mut Schedule, out: &mut W) -> io::Result<()> {
        let moment = schedule.clock();
        self.take(schedule, moment, out)
    }

    fn end(&mut self, schedule: &Schedule, out: &mut W) -> io::Result<()> {
        for (application, sum) in schedule.ahead().iter().enumerate() {
            self.close(application, schedule.clock(), *sum, "open", out)?;
        }
        Ok(())
    }
}

/// Writes the report of a trace.
pub fn report<W: Write>(input: &[u8], out: &mut W) -> io::Result<()> {
    writeln!(out, "{}", HEADING)?;
    let mut report = Report {
        open: Default::default(),
        shares: [0; APPLICATIONS],
    };
    tell(input, &mut report, out)
}
