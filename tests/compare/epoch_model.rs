//! The rules of document 02's Ask 7, which is "Algorithm 3 of document 000 at the end of an epoch,
//! in whole numbers".
//!
//! Independent of the library's code. Averages, imbalances and targets are exact fractions here,
//! and two fractions are compared by their whole parts and what is left of them, not by cross
//! products. Words in quotes are document 02's, or another document's where it is said.

use crate::model::{number_at, put_number, Answer, Fault, Model, Path};
use std::cmp::Ordering;

/// "lookups to each of 1 to 64 stores"
pub const MOST_STORES: usize = 64;
/// "a count over 1,048,576, a fraction part over that"
pub const MOST_COUNT: u64 = 1_048_576;
/// "C at least 1"
pub const LEAST_LINES: u64 = 1;
/// "K over C and at most 1,024"
pub const MOST_RECORDS: u64 = 1_024;
/// "the tolerance in thousandths"
pub const THOUSANDTHS: u64 = 1_000;
/// "or a tolerance over 999"
pub const MOST_TOLERANCE: u64 = 999;
/// "a number in 8 bytes": the lookups to a store.
pub const LOOKUPS_BYTES: usize = 8;
/// The new C and K, and the new target's two parts, each "a number in 8 bytes".
pub const SCALE_BYTES: usize = 32;

/// A fraction as it is given: the part over the line, and the part under it.
#[derive(Clone, Copy, Debug, PartialEq, Eq)]
pub struct Parts {
    pub over: u64,
    pub under: u64,
}

impl Parts {
    fn fraction(self) -> Fraction {
        Fraction::of(self.over, self.under)
    }
}

/// "Inputs", in their order.
#[derive(Clone, Debug, PartialEq, Eq)]
pub struct Epoch {
    /// "lookups to each of 1 to 64 stores", as lent.
    pub lookups: Vec<u8>,
    /// "hits on lines"
    pub on: u64,
    /// "and off them"
    pub off: u64,
    /// C
    pub lines: u64,
    /// K
    pub records: u64,
    /// "target imbalance as a fraction"
    pub imbalance: Parts,
    /// "the target hits per line as a fraction"
    pub target: Parts,
    /// "the tolerance in thousandths"
    pub tolerance: u64,
}

impl Epoch {
    /// The whole numbers of the lookups.
    pub fn stores(&self) -> Vec<u64> {
        (0..self.lookups.len() / LOOKUPS_BYTES)
            .map(|place| number_at(&self.lookups, LOOKUPS_BYTES * place))
            .collect()
    }

    /// The hits per line: "Averages are over C".
    pub fn on_average(&self) -> Fraction {
        Fraction::of(self.on, self.lines)
    }

    /// The hits per record without a line: "and off the lines over K less C".
    pub fn off_average(&self) -> Fraction {
        Fraction::of(self.off, self.records - self.lines)
    }

    /// Document 000: the target times one less epsilon. Epsilon is the tolerance, "in thousandths".
    pub fn tolerated(&self) -> Fraction {
        let epsilon = Fraction::of(self.tolerance, THOUSANDTHS);
        epsilon.from_one().times(self.target.fraction())
    }

    /// Document 000: "the workload ratio between the most loaded server and the least loaded
    /// server". None where no store had a lookup: "all 0 is within it".
    pub fn current_imbalance(&self) -> Option<Fraction> {
        let stores = self.stores();
        let greatest = *stores.iter().max().expect("a store at least");
        let least = *stores.iter().min().expect("a store at least");
        (greatest > 0).then(|| Fraction::of(greatest, least))
    }

    /// The target imbalance.
    pub fn target_imbalance(&self) -> Fraction {
        self.imbalance.fraction()
    }
}

/// The bytes of lookups.
pub fn lookups_of(stores: &[u64]) -> Vec<u8> {
    let mut lookups = vec![0; LOOKUPS_BYTES * stores.len()];
    for (place, number) in stores.iter().enumerate() {
        put_number(&mut lookups, LOOKUPS_BYTES * place, *number);
    }
    lookups
}

/// An exact number, 0 or more. Something over 0 is more than every other: "Greatest lookups above 0
/// with least 0 is over every target".
#[derive(Clone, Copy, Debug)]
pub struct Fraction {
    over: u128,
    under: u128,
}

impl Fraction {
    /// Not both may be 0.
    pub fn of(over: u64, under: u64) -> Fraction {
        Fraction {
            over: over.into(),
            under: under.into(),
        }
    }

    /// What it lacks of 1. It is at most 1.
    fn from_one(self) -> Fraction {
        Fraction {
            over: self.under - self.over,
            under: self.under,
        }
    }

    /// What 1 and it make.
    fn and_one(self) -> Fraction {
        Fraction {
            over: self.under + self.over,
            under: self.under,
        }
    }

    fn times(self, other: Fraction) -> Fraction {
        Fraction {
            over: self.over * other.over,
            under: self.under * other.under,
        }
    }

    /// The same, without a divisor that both parts have.
    fn reduced(self) -> Fraction {
        let (mut divisor, mut rest) = (self.over, self.under);
        while rest > 0 {
            (divisor, rest) = (rest, divisor % rest);
        }
        Fraction {
            over: self.over / divisor,
            under: self.under / divisor,
        }
    }

    /// What is left without the whole part, upside down.
    fn rest_upside_down(self) -> Fraction {
        Fraction {
            over: self.under,
            under: self.over % self.under,
        }
    }

    /// Which one is larger: the one with the larger whole part, or with the larger rest. Of two
    /// rests, which are below 1, the one that is smaller upside down is the larger.
    pub fn compare(self, other: Fraction) -> Ordering {
        if self.under == 0 || other.under == 0 {
            return (self.under == 0).cmp(&(other.under == 0));
        }
        let whole = |fraction: Fraction| fraction.over / fraction.under;
        match whole(self).cmp(&whole(other)) {
            Ordering::Equal => other.rest_upside_down().compare(self.rest_upside_down()),
            different => different,
        }
    }

    fn is_over(self, other: Fraction) -> bool {
        self.compare(other) == Ordering::Greater
    }

    fn is_below(self, other: Fraction) -> bool {
        self.compare(other) == Ordering::Less
    }
}

/// Cause 1: "Sizes out of bounds give 1." Names the parts that hold.
pub fn wrong_sizes(epoch: &Epoch, out: &[u8]) -> Path {
    let mut path = Path::new();
    if out.len() != SCALE_BYTES {
        path.push("1: out bytes not 32");
    }
    if epoch.lines < LEAST_LINES {
        path.push("1: C under 1");
    }
    if epoch.records <= epoch.lines {
        path.push("1: K not over C");
    }
    if epoch.records > MOST_RECORDS {
        path.push("1: K over 1,024");
    }
    path
}

/// Cause 13, in its words. Names the parts that hold.
pub fn wrong_numbers(epoch: &Epoch) -> Path {
    let mut path = Path::new();
    // "stores outside 1 to 64". Document 01: "A length that isn't whole is refused as a wrong
    // count."
    if epoch.lookups.is_empty() {
        path.push("13: no store");
    }
    if epoch.lookups.len() % LOOKUPS_BYTES != 0 {
        path.push("13: lookups not whole");
    }
    if epoch.lookups.len() / LOOKUPS_BYTES > MOST_STORES {
        path.push("13: over 64 stores");
    }
    // "a count over 1,048,576"
    if epoch.stores().iter().any(|number| *number > MOST_COUNT) {
        path.push("13: a store's lookups over 1,048,576");
    }
    if epoch.on > MOST_COUNT {
        path.push("13: hits on lines over 1,048,576");
    }
    if epoch.off > MOST_COUNT {
        path.push("13: hits off lines over 1,048,576");
    }
    // "a fraction part over that"
    if epoch.imbalance.over > MOST_COUNT || epoch.imbalance.under > MOST_COUNT {
        path.push("13: a part of the imbalance over 1,048,576");
    }
    if epoch.target.over > MOST_COUNT || epoch.target.under > MOST_COUNT {
        path.push("13: a part of the target over 1,048,576");
    }
    // "or a denominator of 0"
    if epoch.imbalance.under == 0 {
        path.push("13: the imbalance's denominator 0");
    }
    if epoch.target.under == 0 {
        path.push("13: the target's denominator 0");
    }
    // "an imbalance below 1"
    if epoch.imbalance.under > 0 && epoch.target_imbalance().is_below(Fraction::of(1, 1)) {
        path.push("13: imbalance below 1");
    }
    // "or a tolerance over 999"
    if epoch.tolerance > MOST_TOLERANCE {
        path.push("13: tolerance over 999");
    }
    path
}

impl Model {
    /// Asks what to do at the end of an epoch. A grow and a shrink write into `out`.
    pub fn scale(&self, epoch: &Epoch, out: &mut [u8], path: &mut Path) -> Answer {
        // "13, after 1"
        let mut tests = [(1, wrong_sizes(epoch, out)), (13, wrong_numbers(epoch))];
        if self.fault == Some(Fault::ScaleSizesLast) {
            tests.reverse();
        }
        for (number, causes) in tests {
            if !causes.is_empty() {
                if causes.len() == 1 {
                    path.push(causes[0]);
                }
                return Answer::Refused(number);
            }
        }

        let answer = self.algorithm_3(epoch, path);
        // "Grow and shrink answer the new C and K: twice each, or C halved down and K halved up."
        let (c, k) = (epoch.lines, epoch.records);
        match answer {
            Answer::Grow => {
                put_number(out, 0, 2 * c);
                put_number(out, 8, 2 * k);
                // "Grow also answers the new target, hits on lines over C, not reduced"
                let target = match self.fault {
                    Some(Fault::ScaleNewLinesInTarget) => Fraction::of(epoch.on, 2 * c),
                    Some(Fault::ScaleTargetReduced) => epoch.on_average().reduced(),
                    _ => epoch.on_average(),
                };
                put_number(out, 16, target.over as u64);
                put_number(out, 24, target.under as u64);
            }
            Answer::Shrink => {
                put_number(out, 0, c / 2);
                let down = self.fault == Some(Fault::ScaleHalvedDown);
                put_number(out, 8, if down { k / 2 } else { k / 2 + k % 2 });
            }
            _ => {}
        }
        answer
    }

    /// Document 000's Algorithm 3, with its line numbers.
    fn algorithm_3(&self, epoch: &Epoch, path: &mut Path) -> Answer {
        let (on, off) = (epoch.on_average(), epoch.off_average());
        let tolerated = if self.fault == Some(Fault::ScaleToleranceAdded) {
            let epsilon = Fraction::of(epoch.tolerance, THOUSANDTHS);
            epsilon.and_one().times(epoch.target.fraction())
        } else {
            epoch.tolerated()
        };
        // Line 1: the imbalance is over its target, and the average on the lines is at least that
        // off them.
        let is_over = self.is_over_target(epoch, path);
        let lines_colder = if self.fault == Some(Fault::ScaleStrictAverage) {
            !on.is_over(off)
        } else {
            on.is_below(off)
        };
        if is_over && lines_colder {
            path.push("over, and the lines colder");
        }
        if is_over && !lines_colder {
            // Line 2.
            if 2 * epoch.records <= MOST_RECORDS {
                path.push("grow");
                return Answer::Grow;
            }
            // "a grow with twice K over 1,024 ... becomes stay"
            if self.fault != Some(Fault::ScaleFallsThrough) {
                path.push("stay: a grow with twice K over 1,024");
                return Answer::Stay;
            }
        }
        // "Unless grow is due, an off-line average exactly at the tolerated target means stay."
        if !off.is_below(tolerated) && !off.is_over(tolerated) {
            path.push("stay: off the lines exactly at the tolerated target");
            return Answer::Stay;
        }
        if on.is_below(tolerated) {
            // Line 8.
            if off.is_over(tolerated) {
                path.push("age");
                return Answer::Age;
            }
            // Lines 6 and 7. "a shrink with C 1, becomes stay"
            if epoch.lines == LEAST_LINES {
                path.push("stay: a shrink with C 1");
                return Answer::Stay;
            }
            path.push("shrink");
            return Answer::Shrink;
        }
        // Case 3 after the algorithm, and its last sentence.
        if off.is_below(tolerated) {
            path.push("stay: the lines reach the tolerated target");
        } else {
            path.push("stay: both reach the tolerated target");
        }
        Answer::Stay
    }

    /// Whether the current imbalance is over the target. "Greatest lookups above 0 with least 0 is
    /// over every target; all 0 is within it."
    fn is_over_target(&self, epoch: &Epoch, path: &mut Path) -> bool {
        let Some(current) = epoch.current_imbalance() else {
            path.push("imbalance: all 0");
            return false;
        };
        if current.under == 0 {
            path.push("imbalance: greatest above 0, least 0");
            return self.fault != Some(Fault::ScaleZeroLeastWithin);
        }
        current.is_over(epoch.target_imbalance())
    }
}
