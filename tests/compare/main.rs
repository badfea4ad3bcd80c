//! Compares libcot.a with an independent implementation of documents 01 and 02: every returned
//! number and every lent byte, with guard bytes around each buffer.
//!
//!     compare [--seed N] [--calls N] [--verbose] [--part NAME] [--fault NAME]
//!
//! --calls is the number of single calls in group (a); lists, random rings, random epochs and
//! single resizes grow with it. Fewer than 200,000 may be too few for every answer to come.
//! --verbose prints the counts and the names of the tests. --part runs the groups of one part alone
//! (PARTS). --fault gives the model a deliberate fault (FAULTS): the groups of its part are run,
//! and the comparison must then fail.

mod damaged;
mod epoch_model;
mod examples;
mod harness;
mod lists;
mod model;
mod random;
mod resize;
mod resize_model;
mod ring;
mod scale;

use model::{Fault, Model, Part};
use std::collections::BTreeMap;
use std::process::exit;

const SEED: u64 = 20_210_323;
const CALLS: u64 = 400_000;
const USAGE: &str = "compare [--seed N] [--calls N] [--verbose] [--part NAME] [--fault NAME]";
const PARTS: [(&str, Part); 4] = [
    ("tables", Part::Tables),
    ("rings", Part::Rings),
    ("epochs", Part::Epochs),
    ("sizes", Part::Sizes),
];
const FAULTS: [(&str, Fault); 40] = [
    ("admit-equal", Fault::AdmitEqual),
    ("fresh-keeps", Fault::FreshKeeps),
    ("sum-heat", Fault::SumHeat),
    ("look-warms", Fault::LookWarms),
    ("keeps-ticket", Fault::KeepsTicket),
    ("ticket-on-hit", Fault::TicketOnHit),
    ("any-ticket", Fault::AnyTicket),
    ("free-takes-line", Fault::FreeTakesLine),
    ("victim-by-heat", Fault::VictimByHeat),
    ("victim-least-slack", Fault::VictimLeastSlack),
    ("victim-low-half", Fault::VictimLowHalf),
    ("coldest-by-slack", Fault::ColdestBySlack),
    ("ring-key-minus-point", Fault::RingKeyMinusPoint),
    ("ring-no-wrap", Fault::RingNoWrap),
    ("ring-low-half", Fault::RingLowHalf),
    ("ring-largest", Fault::RingLargest),
    ("ring-doubled-first", Fault::RingDoubledFirst),
    ("ring-neighbours-only", Fault::RingNeighboursOnly),
    ("scale-strict-average", Fault::ScaleStrictAverage),
    ("scale-new-lines-in-target", Fault::ScaleNewLinesInTarget),
    ("scale-target-reduced", Fault::ScaleTargetReduced),
    ("scale-halved-down", Fault::ScaleHalvedDown),
    ("scale-tolerance-added", Fault::ScaleToleranceAdded),
    ("scale-falls-through", Fault::ScaleFallsThrough),
    ("scale-zero-least-within", Fault::ScaleZeroLeastWithin),
    ("scale-sizes-last", Fault::ScaleSizesLast),
    ("sizes-hottest-dropped", Fault::SizesHottestDropped),
    ("sizes-ceiling-left", Fault::SizesCeilingLeft),
    ("sizes-ceiling-to-first", Fault::SizesCeilingToFirst),
    ("sizes-old-numbers", Fault::SizesOldNumbers),
    ("sizes-spare-filled", Fault::SizesSpareFilled),
    ("sizes-tickets-renewed", Fault::SizesTicketsRenewed),
    ("sizes-victims-by-heat", Fault::SizesVictimsByHeat),
    ("sizes-lines-not-copied", Fault::SizesLinesNotCopied),
    ("sizes-copied-by-new-number", Fault::SizesCopiedByNewNumber),
    ("sizes-coldest-last", Fault::SizesColdestLast),
    ("sizes-hottest-last", Fault::SizesHottestLast),
    ("sizes-serial-if-given", Fault::SizesSerialIfGiven),
    ("sizes-rest-kept", Fault::SizesRestKept),
    ("sizes-target-last", Fault::SizesTargetLast),
];

/// How often each answer and each step came.
#[derive(Default)]
pub struct Counts {
    counts: BTreeMap<String, u64>,
}

impl Counts {
    pub fn add(&mut self, name: &str) {
        match self.counts.get_mut(name) {
            Some(count) => *count += 1,
            None => {
                self.counts.insert(name.to_string(), 1);
            }
        }
    }

    pub fn add_if(&mut self, name: &str, holds: bool) {
        if holds {
            self.add(name);
        }
    }

    pub fn of(&self, name: &str) -> u64 {
        self.counts.get(name).copied().unwrap_or(0)
    }

    fn print(&self) {
        for (name, count) in &self.counts {
            println!("    {count:>8} {name}");
        }
    }
}

/// The outcome of all groups so far.
#[derive(Default)]
struct Tally {
    passed: u64,
    failed: u64,
    /// The first failures of the group that is running.
    failures: Vec<String>,
}

impl Tally {
    /// Counts one test. Gives what it came to.
    fn test<T>(&mut self, result: Result<T, String>) -> Option<T> {
        match result {
            Ok(outcome) => {
                self.passed += 1;
                Some(outcome)
            }
            Err(text) => {
                self.failed += 1;
                self.failures.push(text);
                None
            }
        }
    }

    /// One test more where all of the group's lists passed: each of these steps came in them.
    fn steps_came(&mut self, steps: &[&str], counts: &Counts, seed: u64) {
        if self.failures.is_empty() {
            let missing = steps.iter().find(|name| counts.of(name) == 0);
            self.test(match missing {
                None => Ok(()),
                Some(name) => Err(format!("seed {seed}, lists: '{name}' never came")),
            });
        }
    }

    /// Prints the group's line and its first failure.
    fn end_group(&mut self, line: &str) {
        let failures = std::mem::take(&mut self.failures);
        match failures.first() {
            None => println!("{line}: ok"),
            Some(text) => println!("{line}: {} FAILED, the first:\n{text}", failures.len()),
        }
    }
}

struct Options {
    seed: u64,
    calls: u64,
    verbose: bool,
    part: Option<Part>,
    model: Model,
}

fn options() -> Result<Options, String> {
    let mut options = Options {
        seed: SEED,
        calls: CALLS,
        verbose: false,
        part: None,
        model: Model::default(),
    };
    let mut words = std::env::args().skip(1);
    while let Some(word) = words.next() {
        let mut number = || {
            let value = words.next().unwrap_or_default();
            value
                .parse()
                .map_err(|_| format!("{word} '{value}': a number is due"))
        };
        match word.as_str() {
            "--seed" => options.seed = number()?,
            "--calls" => options.calls = number()?,
            "--verbose" => options.verbose = true,
            "--part" => {
                let name = words.next().unwrap_or_default();
                options.part = Some(named(&PARTS, &word, &name)?);
            }
            "--fault" => {
                let name = words.next().unwrap_or_default();
                let fault = named(&FAULTS, &word, &name)?;
                options.model.fault = Some(fault);
                options.part = Some(fault.part());
            }
            _ => return Err(format!("unknown word '{word}'")),
        }
    }
    Ok(options)
}

/// What has this name, of all that may stand behind the word.
fn named<T: Copy>(all: &[(&str, T)], word: &str, name: &str) -> Result<T, String> {
    let own = all.iter().find(|(own, _)| *own == name);
    own.map(|(_, found)| *found).ok_or_else(|| {
        let names: Vec<&str> = all.iter().map(|(name, _)| *name).collect();
        format!("{word} '{name}': one of {} is due", names.join(", "))
    })
}

fn main() {
    let options = options().unwrap_or_else(|text| {
        eprintln!("compare: {text}");
        eprintln!("{USAGE}");
        exit(2);
    });
    let mut tally = Tally::default();
    let is_run = |part| options.part.map_or(true, |own| own == part);
    if is_run(Part::Tables) {
        single_calls(&options, &mut tally);
        lists_from_fresh(&options, &mut tally);
        lists_past_the_limit(&options, &mut tally);
        paper_examples(&options, &mut tally);
    }
    if is_run(Part::Rings) {
        random_rings(&options, &mut tally);
        ring_examples(&options, &mut tally);
    }
    if is_run(Part::Epochs) {
        random_epochs(&options, &mut tally);
        epoch_examples(&options, &mut tally);
    }
    if is_run(Part::Sizes) {
        single_resizes(&options, &mut tally);
        lists_with_resizes(&options, &mut tally);
        resize_examples(&options, &mut tally);
    }
    println!("{} passed, {} failed", tally.passed, tally.failed);
    exit(if tally.failed == 0 { 0 } else { 1 });
}

/// Group (a).
fn single_calls(options: &Options, tally: &mut Tally) {
    let mut counts = Counts::default();
    let lengths = tally.test(damaged::every_length(options.seed, &options.model));
    tally.test(damaged::run(
        options.seed,
        options.calls,
        &options.model,
        &mut counts,
    ));
    let mut line = format!(
        "(a) {} single calls on damaged memory, and a fresh and a levelled sum on each",
        options.calls
    );
    if let Some(lengths) = lengths {
        line += &format!(", {lengths} calls with every length");
    }
    let mut kind = "";
    for name in damaged::ANSWERS {
        let (own, answer) = name.split_once(' ').expect("two words");
        line += if own == kind { ", " } else { "; " };
        if own != kind {
            line += &format!("{own} ");
            kind = own;
        }
        line += &format!("{answer}: {}", counts.of(name));
    }
    tally.end_group(&line);
    if options.verbose {
        counts.print();
    }
}

/// Group (b).
fn lists_from_fresh(options: &Options, tally: &mut Tally) {
    let mut counts = Counts::default();
    let calls = (options.calls / 100).max(2_000);
    let end = lists::End::Calls(calls);
    let plans = lists::plans_from_fresh();
    for (number, plan) in plans.iter().enumerate() {
        let (seed, model) = (options.seed, &options.model);
        tally.test(lists::run(
            seed,
            number as u64,
            plan,
            end,
            model,
            &mut counts,
        ));
    }
    let steps = [&lists::STEPS[..], &lists::FETCHES, &lists::WITHDRAWALS].concat();
    tally.steps_came(&steps, &counts, options.seed);
    tally.end_group(&format!(
        "(b) {} lists of {calls} calls, looks, withdrawals and late fills among them, each from a \
         fresh on any bytes; demand 3, tickets and the library's levelled sum after each call",
        plans.len()
    ));
    if options.verbose {
        counts.print();
    }
}

/// Group (c).
fn lists_past_the_limit(options: &Options, tally: &mut Tally) {
    let mut counts = Counts::default();
    let agings = (options.calls * 3 / CALLS).max(3);
    let end = lists::End::AgedFirst(agings);
    let plans = lists::plans_past_the_limit();
    let mut calls = 0;
    for (number, plan) in plans.iter().enumerate() {
        let (seed, model) = (options.seed, &options.model);
        let result = lists::run(seed, number as u64, plan, end, model, &mut counts);
        calls += tally.test(result).unwrap_or(0);
    }
    let steps = [lists::STEPS_AT_THE_LIMIT, lists::FETCHES_AT_THE_LIMIT].concat();
    tally.steps_came(&steps, &counts, options.seed);
    tally.end_group(&format!(
        "(c) {} lists with reads of 65,535, looks and withdrawals, each to its aging number \
         {agings}, {calls} calls in all",
        plans.len()
    ));
    if options.verbose {
        counts.print();
    }
}

/// Group (d).
fn paper_examples(options: &Options, tally: &mut Tally) {
    examples(&examples::EXAMPLES, options, tally);
    tally.end_group(&format!(
        "(d) {} examples of documents 01 and 02",
        examples::EXAMPLES.len()
    ));
}

/// Group (e).
fn random_rings(options: &Options, tally: &mut Tally) {
    let mut counts = Counts::default();
    let rings = (options.calls / 80).max(5_000);
    let result = ring::run(options.seed, rings, &options.model, &mut counts);
    let calls = tally.test(result).unwrap_or(0);
    let answers = ring::ANSWERS.map(|name| {
        let (_, answer) = name.split_once(' ').expect("two words");
        format!("{answer}: {}", counts.of(name))
    });
    tally.end_group(&format!(
        "(e) {calls} calls for a store on {rings} random rings; store {}",
        answers.join(", ")
    ));
    if options.verbose {
        counts.print();
    }
}

/// Group (f).
fn ring_examples(options: &Options, tally: &mut Tally) {
    examples(&ring::EXAMPLES, options, tally);
    tally.end_group(&format!(
        "(f) {} examples of stores and rings, with every wrong length of a ring",
        ring::EXAMPLES.len()
    ));
}

/// Group (g).
fn random_epochs(options: &Options, tally: &mut Tally) {
    let mut counts = Counts::default();
    let epochs = (options.calls / 10 * 3).max(60_000);
    let result = scale::run(options.seed, epochs, &options.model, &mut counts);
    let calls = tally.test(result).unwrap_or(0);
    let answers = scale::ANSWERS.map(|name| {
        let (_, answer) = name.split_once(' ').expect("two words");
        format!("{answer}: {}", counts.of(name))
    });
    tally.end_group(&format!(
        "(g) {calls} calls at the end of random epochs; scale {}",
        answers.join(", ")
    ));
    if options.verbose {
        counts.print();
    }
}

/// Group (h).
fn epoch_examples(options: &Options, tally: &mut Tally) {
    examples(&scale::EXAMPLES, options, tally);
    tally.end_group(&format!(
        "(h) {} examples of epochs, with every wrong length of lookups and of out",
        scale::EXAMPLES.len()
    ));
}

/// Group (i).
fn single_resizes(options: &Options, tally: &mut Tally) {
    let mut counts = Counts::default();
    let resizes = (options.calls / 4 * 3).max(150_000);
    let lengths = tally.test(resize::every_length(options.seed, &options.model));
    tally.test(resize::run(
        options.seed,
        resizes,
        &options.model,
        &mut counts,
    ));
    let answers = resize::ANSWERS.map(|name| {
        let (_, answer) = name.split_once(' ').expect("two words");
        format!("{answer}: {}", counts.of(name))
    });
    let mut line = format!("(i) {resizes} single resizes of damaged memory");
    if let Some(lengths) = lengths {
        line += &format!(", {lengths} resizes with every length");
    }
    tally.end_group(&format!("{line}; resize {}", answers.join(", ")));
    if options.verbose {
        counts.print();
    }
}

/// Group (j).
fn lists_with_resizes(options: &Options, tally: &mut Tally) {
    let mut counts = Counts::default();
    let calls = (options.calls / 100).max(2_000);
    let to_calls = lists::plans_with_resizes().into_iter();
    let to_calls = to_calls.map(|plan| (plan, lists::End::Calls(calls)));
    let to_agings = lists::plans_with_resizes_past_the_limit().into_iter();
    let to_agings = to_agings.map(|plan| (plan, lists::End::AgedFirst(1)));
    let plans: Vec<_> = to_calls.chain(to_agings).collect();
    let mut all = 0;
    for (number, (plan, end)) in plans.iter().enumerate() {
        let (seed, model) = (options.seed, &options.model);
        let result = lists::run(seed, number as u64, plan, *end, model, &mut counts);
        all += tally.test(result).unwrap_or(0);
    }
    let steps = [&resize::STEPS[..], &lists::RESIZES].concat();
    tally.steps_came(&steps, &counts, options.seed);
    tally.end_group(&format!(
        "(j) {} lists with resizes, most of {calls} calls, {all} calls in all, each from a fresh; \
         demand 3 at the new sizes after each call",
        plans.len()
    ));
    if options.verbose {
        counts.print();
    }
}

/// Group (k).
fn resize_examples(options: &Options, tally: &mut Tally) {
    examples(&resize::EXAMPLES, options, tally);
    tally.end_group(&format!(
        "(k) {} examples of resizes, to every K and every C",
        resize::EXAMPLES.len()
    ));
}

fn examples(examples: &[examples::Example], options: &Options, tally: &mut Tally) {
    for (name, sentence, test) in examples {
        let result = test(&options.model, options.seed);
        if options.verbose {
            let word = if result.is_ok() { "ok" } else { "FAILED" };
            println!("    {word}: {name}: \"{sentence}\"");
        }
        tally.test(result.map_err(|text| format!("{name}: \"{sentence}\"\n{text}")));
    }
}
