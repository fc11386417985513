//! Counts of how often each refusal and each branch of the steps was reached.

use std::cell::RefCell;
use std::ops::RangeInclusive;

/// Declares the branches and their printed names side by side.
macro_rules! branches {
    ($($name:ident: $text:expr,)*) => {
        /// A branch worth reaching.
        #[derive(Clone, Copy, PartialEq, Eq, Debug)]
        pub enum Branch { $($name,)* }
        /// The printed names, in the order of the branches.
        pub const NAMES: &[&str] = &[$($text,)*];
    };
}

branches! {
    PeriodZero: "table: period 0 stands for 100",
    PeriodLeast: "table: u x P exactly Q",
    Cut: "14: input ends inside a record",
    Short: "14: length below 2",
    WrongLength: "14: length not that of the kind",
    RowsMissing: "14: input ends before the last row",
    JobCompleted: "1: a job completed",
    NextJobLater: "1: a job waits, E raised",
    NextJobKept: "1: a job waits, E kept",
    BecomesNonContending: "1: becomes non-contending",
    GiftOfNothing: "1: becomes inactive, amount 0",
    GiftToContending: "1: gift to a contending thread",
    GiftToNonContending: "1: gift to a non-contending thread that stays",
    GiftMakesLeave: "1: gift makes a non-contending thread leave",
    GiftToOneLeaving: "1: gift to a thread due to leave anyway",
    GiftPassedOver: "1: gift passed over an earlier deadline to a later one",
    GiftToEqualDeadline: "1: gift to an equal deadline",
    GiftTie: "1: gift with a tie between receivers",
    GiftByRemainder: "1: receivers told apart by the remainder",
    GiftPassedByRemainder: "1: gift passed over a deadline earlier by the remainder",
    GiftLostPassedOver: "1: gift lost, only an earlier deadline there",
    GiftLostAlone: "1: gift lost, no other active thread",
    LeavingAtArrival: "2: leaving before an arrival",
    LeavingAtTick: "2: leaving when the tick is taken",
    ArrivalInactive: "3: arrival of an inactive thread",
    ArrivalNonContending: "3: arrival of a non-contending thread",
    ArrivalContending: "3: arrival of a contending thread",
    FittedChosen: "4: fitting of the chosen thread",
    FittedOther: "4: fitting of another thread",
    ChoiceTie: "5: tie of the earliest deadline",
    ChoiceByRemainder: "5: the earliest deadline by the remainder",
    IdlePlain: "5: idle, all inactive",
    IdleForgets: "5: idle makes a non-contending thread inactive",
    ChargedWhole: "6: charged Q",
    ChargedLess: "6: charged less than Q",
    ChosenNegativeW: "6: the chosen thread had a negative W",
    FreeToContending: "6: free share to a contending thread",
    FreeToNonContending: "6: free share to a non-contending thread",
    FreeTie: "6: free share with a tie",
    FreeByRemainder: "6: free share to the earliest by the remainder",
    OtherWithoutFree: "6: another application without free share",
    OtherAllInactive: "6: another application all inactive",
    NegativeW: "6: W falls below 0",
    DropOfNone: "drop: no job",
    DropOfOne: "drop: one job",
    DropOfMany: "drop: several jobs",
    DropBeforeCompletion: "drop: several jobs, by the thread that may complete",
    RunToPresent: "run to the present clock",
    Ended: "listing ends with `end`",
}

/// One more than the greatest refusal number.
const REFUSALS: usize = 18;

/// A count for each refusal and each branch.
#[derive(Clone)]
pub struct Counts {
    refusals: [u64; REFUSALS],
    branches: [u64; NAMES.len()],
}

impl Counts {
    /// Counts of 0.
    pub const fn new() -> Counts {
        Counts {
            refusals: [0; REFUSALS],
            branches: [0; NAMES.len()],
        }
    }

    /// Adds other counts to these.
    pub fn add(&mut self, other: &Counts) {
        for (sum, count) in self.refusals.iter_mut().zip(&other.refusals) {
            *sum += count;
        }
        for (sum, count) in self.branches.iter_mut().zip(&other.branches) {
            *sum += count;
        }
    }

    /// These counts, with 1 for every greater one.
    pub fn once(mut self) -> Counts {
        for count in self.refusals.iter_mut().chain(self.branches.iter_mut()) {
            *count = (*count).min(1);
        }
        self
    }

    /// Whether other counts reach something that these have less than so many times.
    pub fn lacks(&self, other: &Counts, each: u64) -> bool {
        let here = self.refusals.iter().chain(&self.branches);
        let there = other.refusals.iter().chain(&other.branches);
        here.zip(there).any(|(have, more)| *have < each && *more > 0)
    }

    /// How often a refusal was given.
    pub fn refusal(&self, number: usize) -> u64 {
        self.refusals[number]
    }

    /// The names of those refusals and of all branches that were not reached.
    pub fn unreached(&self, numbers: RangeInclusive<usize>) -> Vec<String> {
        let refusals = numbers.filter(|number| self.refusals[*number] == 0);
        let branches = NAMES.iter().zip(&self.branches).filter(|(_, count)| **count == 0);
        refusals
            .map(|number| format!("refusal {}", number))
            .chain(branches.map(|(name, _)| name.to_string()))
            .collect()
    }

    /// The counts, one per line.
    pub fn report(&self) -> String {
        let mut text = String::new();
        for number in 1..REFUSALS {
            text.push_str(&format!("{:>10} refusal {}\n", self.refusals[number], number));
        }
        for (name, count) in NAMES.iter().zip(&self.branches) {
            text.push_str(&format!("{:>10} {}\n", count, name));
        }
        text
    }
}

thread_local! {
    static SEEN: RefCell<Counts> = const { RefCell::new(Counts::new()) };
}

/// Counts a branch.
pub fn hit(branch: Branch) {
    SEEN.with(|seen| seen.borrow_mut().branches[branch as usize] += 1);
}

/// Counts a refusal.
pub fn hit_refusal(number: u8) {
    SEEN.with(|seen| seen.borrow_mut().refusals[usize::from(number)] += 1);
}

/// The counts since the last taking, which begin again at 0.
pub fn take() -> Counts {
    SEEN.with(|seen| seen.replace(Counts::new()))
}
