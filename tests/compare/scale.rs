//! Groups (g) and (h): grow, shrink, age or stay. Random ends of epochs, and the rules of document
//! 02's Ask 7 and of document 000's Algorithm 3 on epochs worked out by hand.

use crate::epoch_model::{
    lookups_of, wrong_numbers, wrong_sizes, Epoch, Fraction, Parts, LOOKUPS_BYTES, MOST_COUNT,
    MOST_RECORDS, MOST_STORES, MOST_TOLERANCE, SCALE_BYTES, THOUSANDTHS,
};
use crate::examples::Example;
use crate::harness;
use crate::model::{put_number, Model, Path};
use crate::random::Random;
use crate::Counts;
use std::cmp::Ordering;

// ---------------------------------------------------------------------------------------------
// Group (g): random epochs
// ---------------------------------------------------------------------------------------------

/// Every answer. Each must come.
pub const ANSWERS: [&str; 6] = [
    "scale 106",
    "scale 107",
    "scale 108",
    "scale 109",
    "scale 1",
    "scale 13",
];

/// What the model names of an answer, and of a refusal with one cause only. Each must come.
const STEPS: [&str; 25] = [
    "1: out bytes not 32",
    "1: C under 1",
    "1: K not over C",
    "1: K over 1,024",
    "13: no store",
    "13: lookups not whole",
    "13: over 64 stores",
    "13: a store's lookups over 1,048,576",
    "13: hits on lines over 1,048,576",
    "13: hits off lines over 1,048,576",
    "13: a part of the imbalance over 1,048,576",
    "13: a part of the target over 1,048,576",
    "13: the imbalance's denominator 0",
    "13: the target's denominator 0",
    "13: imbalance below 1",
    "13: tolerance over 999",
    "imbalance: all 0",
    "imbalance: greatest above 0, least 0",
    "grow",
    "stay: a grow with twice K over 1,024",
    "stay: off the lines exactly at the tolerated target",
    "age",
    "stay: a shrink with C 1",
    "shrink",
    "stay: the lines reach the tolerated target",
];

/// What the model names too, and what is named of the numbers of an accepted epoch. Each must come.
const ACCEPTED: [&str; 31] = [
    "stay: both reach the tolerated target",
    "over, and the lines colder: 107",
    "over, and the lines colder: 108",
    "over, and the lines colder: 109",
    "not over, and the lines not colder: 107",
    "a grow past 1,024, and a shrink otherwise",
    "grow: K 2",
    "grow: K 512",
    "grow past 1,024: K 513",
    "grow past 1,024: K 1,023",
    "grow past 1,024: K 1,024",
    "grow: hits on lines 0",
    "grow: a new target that could be reduced",
    "shrink: C 2",
    "shrink: C odd",
    "shrink: C even",
    "shrink: K odd",
    "shrink: K even",
    "shrink: K 1,023",
    "shrink: K 1,024",
    "shrink: K one over C",
    "K one over C",
    "K 1,023",
    "K 1,024",
    "target 0",
    "tolerance 0",
    "tolerance 999",
    "one store",
    "two stores",
    "64 stores",
    "imbalance: target 1",
];

/// The causes that hold. Every set of them must come.
const CAUSES: [&str; 4] = ["no cause", "cause 1", "cause 13", "cause 1 and 13"];

/// Where a number stands to the one at which the answer turns.
const STANDS: [&str; 5] = ["at", "one above", "one below", "far above", "far below"];

/// What is compared, and where the other comparisons stand then, so that the answer turns here.
/// Each must come with each of STANDS.
const TURNS: [&str; 6] = [
    "on to tolerated, off below",
    "on to tolerated, off above",
    "off to tolerated, on below",
    "off to tolerated, on not below",
    "on to off, imbalance over",
    "greatest to imbalance, lines not colder",
];

/// A number of an epoch.
type Number = fn(&mut Epoch) -> &mut u64;

/// The numbers of an epoch with the most that each may be, C under a K of 1,024. Each must be
/// accepted at its most, and refused one over it and at each of HUGE.
const NUMBERS: [(&str, Number, u64); 9] = [
    ("on", |epoch| &mut epoch.on, MOST_COUNT),
    ("off", |epoch| &mut epoch.off, MOST_COUNT),
    ("lines", |epoch| &mut epoch.lines, MOST_RECORDS - 1),
    ("records", |epoch| &mut epoch.records, MOST_RECORDS),
    (
        "imbalance over",
        |epoch| &mut epoch.imbalance.over,
        MOST_COUNT,
    ),
    (
        "imbalance under",
        |epoch| &mut epoch.imbalance.under,
        MOST_COUNT,
    ),
    ("target over", |epoch| &mut epoch.target.over, MOST_COUNT),
    ("target under", |epoch| &mut epoch.target.under, MOST_COUNT),
    ("tolerance", |epoch| &mut epoch.tolerance, MOST_TOLERANCE),
];

/// The lookups to one store, as in NUMBERS.
const LOOKUPS: &str = "lookups";

/// Numbers whose low bits alone would be good, or which are below 0 if read as signed.
const HUGE: [(&str, u64); 3] = [("2^32", 1 << 32), ("2^63", 1 << 63), ("2^64 - 1", u64::MAX)];

/// An epoch as it is given, and the length of the bytes to write into.
struct Case {
    epoch: Epoch,
    length: usize,
}

/// Runs the random epochs. Stops at the first difference. Gives how many calls.
pub fn run(seed: u64, epochs: u64, model: &Model, counts: &mut Counts) -> Result<u64, String> {
    for number in 0..epochs {
        let mut random = Random::new(seed, 8, number);
        let case = some_case(&mut random);
        let out = random.bytes(case.length);
        let mut path = Path::new();
        let (found, _) = harness::scale(model, &case.epoch, &out, &mut random, &mut path)
            .map_err(|text| format!("seed {seed}, random epoch {number}: {text}"))?;
        count(&case, found, &path, counts);
    }
    let mut names: Vec<String> = Vec::new();
    let numbers = NUMBERS.iter().map(|(name, _, _)| *name);
    for name in numbers.chain([LOOKUPS]) {
        names.push(format!("{name} at most"));
        names.push(format!("{name} one over"));
        names.extend(HUGE.map(|(huge, _)| format!("{name} {huge}")));
    }
    for turn in TURNS {
        names.extend(STANDS.map(|stand| format!("{turn}: {stand}")));
    }
    let rest = ANSWERS.iter().chain(&STEPS).chain(&ACCEPTED).chain(&CAUSES);
    names.extend(rest.map(|name| name.to_string()));
    match names.iter().find(|name| counts.of(name) == 0) {
        None => Ok(epochs),
        Some(name) => Err(format!("seed {seed}, {epochs} epochs: '{name}' never came")),
    }
}

/// Counts what came in a call.
fn count(case: &Case, found: u64, path: &Path, counts: &mut Counts) {
    counts.add(&format!("scale {found}"));
    for step in path {
        counts.add(step);
    }
    let out = vec![0; case.length];
    let held: Vec<&str> = [
        ("1", !wrong_sizes(&case.epoch, &out).is_empty()),
        ("13", !wrong_numbers(&case.epoch).is_empty()),
    ]
    .into_iter()
    .filter_map(|(number, holds)| holds.then_some(number))
    .collect();
    if held.is_empty() {
        counts.add("no cause");
        count_accepted(&case.epoch, found, path, counts);
    } else {
        counts.add(&format!("cause {}", held.join(" and ")));
    }
    // Numbers at their most, and numbers that alone are refused.
    let mut epoch = case.epoch.clone();
    let numbers = NUMBERS.map(|(name, number, most)| (name, *number(&mut epoch), most));
    let greatest = epoch.stores().into_iter().max();
    let lookups = greatest.map(|greatest| (LOOKUPS, greatest, MOST_COUNT));
    for (name, number, most) in numbers.into_iter().chain(lookups) {
        counts.add_if(
            &format!("{name} at most"),
            held.is_empty() && number == most,
        );
        if held.len() == 1 && number > most {
            counts.add_if(&format!("{name} one over"), number == most + 1);
            for (huge, due) in HUGE {
                counts.add_if(&format!("{name} {huge}"), number == due);
            }
        }
    }
}

/// Counts what came in an accepted call.
fn count_accepted(epoch: &Epoch, found: u64, path: &Path, counts: &mut Counts) {
    let (c, k) = (epoch.lines, epoch.records);
    let (on, off) = (epoch.on_average(), epoch.off_average());
    let tolerated = epoch.tolerated();
    let to_tolerated = [on.compare(tolerated), off.compare(tolerated)];
    let colder = path.contains(&"over, and the lines colder");
    let past = path.contains(&"stay: a grow with twice K over 1,024");
    let is_over = colder || past || found == 106;
    counts.add_if(&format!("over, and the lines colder: {found}"), colder);
    counts.add_if(
        "not over, and the lines not colder: 107",
        found == 107 && on.compare(off) != Ordering::Less,
    );
    counts.add_if(
        "a grow past 1,024, and a shrink otherwise",
        past && c > 1 && to_tolerated == [Ordering::Less; 2],
    );
    if found == 106 {
        counts.add_if("grow: K 2", k == 2);
        counts.add_if("grow: K 512", k == 512);
        counts.add_if("grow: hits on lines 0", epoch.on == 0);
        counts.add_if(
            "grow: a new target that could be reduced",
            epoch.on > 0 && divisor(epoch.on, c) > 1,
        );
    }
    if past {
        counts.add_if("grow past 1,024: K 513", k == 513);
        counts.add_if("grow past 1,024: K 1,023", k == 1_023);
        counts.add_if("grow past 1,024: K 1,024", k == 1_024);
    }
    if found == 107 {
        counts.add_if("shrink: C 2", c == 2);
        counts.add(if c % 2 == 1 {
            "shrink: C odd"
        } else {
            "shrink: C even"
        });
        counts.add(if k % 2 == 1 {
            "shrink: K odd"
        } else {
            "shrink: K even"
        });
        counts.add_if("shrink: K 1,023", k == 1_023);
        counts.add_if("shrink: K 1,024", k == 1_024);
        counts.add_if("shrink: K one over C", k == c + 1);
    }
    let stores = epoch.stores();
    counts.add_if("K one over C", k == c + 1);
    counts.add_if("K 1,023", k == 1_023);
    counts.add_if("K 1,024", k == 1_024);
    counts.add_if("target 0", epoch.target.over == 0);
    counts.add_if("tolerance 0", epoch.tolerance == 0);
    counts.add_if("tolerance 999", epoch.tolerance == 999);
    counts.add_if("one store", stores.len() == 1);
    counts.add_if("two stores", stores.len() == 2);
    counts.add_if("64 stores", stores.len() == MOST_STORES);
    counts.add_if(
        "imbalance: target 1",
        epoch.imbalance.over == epoch.imbalance.under,
    );

    let on_to_tolerated = |on| Fraction::of(on, c).compare(tolerated);
    let off_to_tolerated = |off| Fraction::of(off, k - c).compare(tolerated);
    let on_to_off = |on| Fraction::of(on, c).compare(off);
    let mut turn = |name, stand: &str| counts.add(&format!("{name}: {stand}"));
    if found != 106 && !past {
        let on = stand(epoch.on, on_to_tolerated);
        match to_tolerated[1] {
            Ordering::Less => turn(TURNS[0], on),
            Ordering::Greater => turn(TURNS[1], on),
            Ordering::Equal => {}
        }
        let off = stand(epoch.off, off_to_tolerated);
        let on_below = to_tolerated[0] == Ordering::Less;
        turn(if on_below { TURNS[2] } else { TURNS[3] }, off);
    }
    if is_over {
        turn(TURNS[4], stand(epoch.on, on_to_off));
    }
    let greatest = stores.iter().max().copied().unwrap_or(0);
    let least = stores.iter().min().copied().unwrap_or(0);
    if least > 0 && !colder && on.compare(off) != Ordering::Less {
        let target = epoch.target_imbalance();
        let to_target = |greatest| Fraction::of(greatest, least).compare(target);
        turn(TURNS[5], stand(greatest, to_target));
    }
}

/// Where a number stands to the one at which the comparison turns.
fn stand(number: u64, compare: impl Fn(u64) -> Ordering) -> &'static str {
    match compare(number) {
        Ordering::Equal => "at",
        Ordering::Greater if compare(number - 1) != Ordering::Greater => "one above",
        Ordering::Greater => "far above",
        Ordering::Less if compare(number + 1) != Ordering::Less => "one below",
        Ordering::Less => "far below",
    }
}

/// The largest number that divides both.
fn divisor(mut one: u64, mut other: u64) -> u64 {
    while other > 0 {
        (one, other) = (other, one % other);
    }
    one
}

/// An epoch at a turn or anywhere, in three of four times with nothing wrong.
fn some_case(random: &mut Random) -> Case {
    let (lines, records) = some_sizes(random);
    let tolerance = match random.below(3) {
        0 => random.pick(&[0, 1, 50, 100, 125, 200, 500, 750, 900, 998, 999]),
        1 => 10 * random.below(100),
        _ => random.between(0, MOST_TOLERANCE),
    };
    let imbalance = some_imbalance(random);
    let target = some_target(lines, records - lines, tolerance, random);
    let (on, off) = some_hits(lines, records - lines, target, tolerance, random);
    let mut case = Case {
        epoch: Epoch {
            lookups: lookups_of(&some_lookups(imbalance, random)),
            on,
            off,
            lines,
            records,
            imbalance,
            target,
            tolerance,
        },
        length: SCALE_BYTES,
    };
    if random.chance(25) {
        for _ in 0..random.pick(&[1, 1, 1, 2, 3]) {
            spoil(&mut case, random);
        }
    }
    case
}

/// C and K.
fn some_sizes(random: &mut Random) -> (u64, u64) {
    let records = match random.below(8) {
        0 | 1 => random.between(2, 12),
        2 | 3 => random.pick(&[2, 3, 4, 5, 511, 512, 513, 1_022, 1_023, 1_024]),
        4 | 5 => random.between(2, MOST_RECORDS / 2),
        _ => random.between(2, MOST_RECORDS),
    };
    let lines = match random.below(7) {
        0 => 1,
        1 => records - 1,
        2 => records / 2,
        3 => records.div_ceil(4),
        4 => 2.min(records - 1),
        _ => random.between(1, records - 1),
    };
    (lines, records)
}

/// A target imbalance of 1 or more.
fn some_imbalance(random: &mut Random) -> Parts {
    let under = match random.below(6) {
        0 => 1,
        1 => MOST_COUNT,
        2 => random.pick(&[10, 100, 1_000]),
        3 => random.between(1, 20),
        _ => random.between(1, MOST_COUNT),
    };
    let over = match random.below(6) {
        0 => under,
        1 => MOST_COUNT,
        2 => under + random.below(4),
        3 => under + under.div_ceil(2),
        4 => random.between(under, 4 * under),
        _ => random.between(under, MOST_COUNT),
    };
    let over = over.min(MOST_COUNT);
    Parts { over, under }
}

/// Lookups to 1 to 64 stores, whose greatest is often at the imbalance times the least, or near.
fn some_lookups(imbalance: Parts, random: &mut Random) -> Vec<u64> {
    let stores = match random.below(3) {
        0 => random.pick(&[1, 2, 3, MOST_STORES]),
        _ => random.between(1, MOST_STORES as u64) as usize,
    };
    let Parts { over, under } = imbalance;
    let (least, greatest) = match random.below(12) {
        0 => (0, 0),
        1 => (0, random.pick(&[1, 2, 1_000, MOST_COUNT])),
        2 => {
            let all = random.pick(&[1, 1_000, MOST_COUNT]);
            (all, all)
        }
        3..=6 => {
            let times = random.between(1, MOST_COUNT / over);
            (under * times, near(over * times, random))
        }
        7..=8 => {
            let least = random.between(1, MOST_COUNT * under / over);
            (least, near(least * over / under, random))
        }
        9 => (random.between(1, 1_000), MOST_COUNT),
        _ => {
            let least = random.between(1, 2_000);
            (least, random.between(least, 4 * least))
        }
    };
    let (least, greatest) = (least.min(greatest), least.max(greatest).min(MOST_COUNT));
    let mut list: Vec<u64> = (0..stores)
        .map(|_| random.between(least, greatest))
        .collect();
    let place = random.place(stores);
    list[place] = least;
    list[(place + 1 + random.place(stores.max(2) - 1)) % stores] = greatest;
    list
}

/// The number, one above or one below it.
fn near(number: u64, random: &mut Random) -> u64 {
    match random.below(4) {
        0 => number + 1,
        1 => number.saturating_sub(1),
        _ => number,
    }
}

/// A target that hits on the lines, off them, or both can often be exactly at, the tolerance taken
/// off.
fn some_target(lines: u64, rest: u64, tolerance: u64, random: &mut Random) -> Parts {
    let left = THOUSANDTHS - tolerance;
    let whole = THOUSANDTHS * random.between(1, 40);
    let (over, under) = match random.below(10) {
        0 => (0, random.pick(&[1, 2, 1_000, MOST_COUNT])),
        1 | 2 => (whole, left * lines),
        3 | 4 => (whole, left * rest),
        5 | 6 => (whole, left),
        7 => (random.between(1, 60), random.between(1, 10)),
        8 => (random.between(1, 1_000_000), random.between(1, 2_000)),
        _ => (random.between(1, MOST_COUNT), random.between(1, MOST_COUNT)),
    };
    // The same in other words.
    let common = divisor(over, under);
    match random.below(4) {
        0 => written(over / common, under / common, MOST_COUNT),
        1 => {
            let most = MOST_COUNT / (over.max(under) / common);
            written(over / common, under / common, random.between(1, most))
        }
        _ => Parts { over, under },
    }
}

/// A fraction with both parts times a number, but not over the most that a part may be.
fn written(over: u64, under: u64, times: u64) -> Parts {
    let times = times.min(MOST_COUNT / over.max(under));
    Parts {
        over: over * times,
        under: under * times,
    }
}

/// Hits on lines and off them: at the tolerated target, near it, with averages that meet, or any.
fn some_hits(
    lines: u64,
    rest: u64,
    target: Parts,
    tolerance: u64,
    random: &mut Random,
) -> (u64, u64) {
    let left = THOUSANDTHS - tolerance;
    let turn = |of: u64| of * left * target.over / (THOUSANDTHS * target.under);
    let mut some = |of: u64| match random.below(10) {
        0..=4 => near(turn(of), random),
        5 => turn(of) / 2,
        6 => 2 * turn(of) + 1,
        7 => random.pick(&[0, 1, MOST_COUNT - 1, MOST_COUNT]),
        8 => random.between(0, 20 * of),
        _ => random.between(0, MOST_COUNT),
    };
    let (mut on, mut off) = (some(lines), some(rest));
    match random.below(6) {
        0 => {
            let average = random.between(0, 1_000);
            on = near(lines * average, random);
            off = near(rest * average, random);
        }
        1 => on = near(off.min(MOST_COUNT) * lines / rest, random),
        _ => {}
    }
    (on.min(MOST_COUNT), off.min(MOST_COUNT))
}

/// Makes something wrong, in most cases.
fn spoil(case: &mut Case, random: &mut Random) {
    let epoch = &mut case.epoch;
    match random.below(20) {
        0 | 1 => {
            case.length = random.pick(&[0, 1, 7, 8, 16, 24, 31, 33, 40, 64, 256 + SCALE_BYTES]);
        }
        2 => epoch.lines = 0,
        3 => epoch.records = epoch.lines.wrapping_sub(random.below(2)),
        4 => {
            epoch.records = random.pick(&[0, 1, 1_025, 1_026, 2_048, (1 << 16) + 2, u64::MAX - 1]);
        }
        5 => spoil_length(&mut epoch.lookups, random),
        6 => epoch.imbalance.under = 0,
        7 => epoch.target.under = 0,
        8 => {
            // Below 1, often by one part only.
            let under = random.between(1, MOST_COUNT);
            let over = random.pick(&[0, 1, under / 2, under - 1]).min(under - 1);
            epoch.imbalance = Parts { over, under };
        }
        9 => {
            // Both parts are over the most, and the imbalance is not below 1.
            let under = epoch.imbalance.under | random.pick(&[1 << 32, 1 << 63, u64::MAX]);
            let over = under | random.next();
            epoch.imbalance = Parts { over, under };
        }
        10 | 11 => {
            let stores = epoch.stores();
            if !stores.is_empty() {
                let place = random.place(stores.len());
                let number = some_wrong(stores[place], MOST_COUNT, random);
                put_number(&mut epoch.lookups, LOOKUPS_BYTES * place, number);
            }
        }
        12 => {
            let (_, number, most) = random.pick(&NUMBERS);
            *number(epoch) = most;
        }
        _ => {
            let (_, number, most) = random.pick(&NUMBERS);
            let number = number(epoch);
            *number = some_wrong(*number, most, random);
        }
    }
}

/// A number over the most, whose low bits alone may be good.
fn some_wrong(number: u64, most: u64, random: &mut Random) -> u64 {
    match random.below(8) {
        0 | 1 => most + 1,
        2..=4 => random.pick(&HUGE).1,
        5 => number | 1 << random.between(32, 63),
        6 => random.between(most + 1, 4 * most),
        _ => random.next() | 1 << 40,
    }
}

/// Makes the lookups' length a wrong one, by bytes cut off or any bytes added.
fn spoil_length(lookups: &mut Vec<u8>, random: &mut Random) {
    match random.below(4) {
        0 => lookups.clear(),
        1 => {
            let less = 1 + random.place(LOOKUPS_BYTES - 1);
            lookups.truncate(lookups.len().saturating_sub(less));
        }
        2 => {
            let more = 1 + random.place(LOOKUPS_BYTES - 1);
            lookups.extend(random.bytes(more));
        }
        _ => {
            // The lookups to 65 stores or more, each good, and bytes beyond them.
            let mut stores = vec![random.between(1, 1_000); MOST_STORES];
            stores.extend(vec![1_000; random.pick(&[1, 2, 64, 192, 448])]);
            *lookups = lookups_of(&stores);
            if random.chance(20) {
                lookups.push(0);
            }
        }
    }
}

// ---------------------------------------------------------------------------------------------
// Group (h): examples
// ---------------------------------------------------------------------------------------------

/// Document 02's sentences on the end of an epoch.
const ALGORITHM: &str = "Algorithm 3 of document 000 at the end of an epoch, in whole numbers.";
const INPUTS: &str = "Inputs: lookups to each of 1 to 64 stores, hits on lines and off them, C at \
                      least 1, K over C and at most 1,024, target imbalance as a fraction, the \
                      target hits per line as a fraction, and the tolerance in thousandths.";
const CROSS: &str = "Ratios are compared by cross products.";
const LEAST_0: &str =
    "Greatest lookups above 0 with least 0 is over every target; all 0 is within \
                       it.";
const EXACTLY: &str = "Unless grow is due, an off-line average exactly at the tolerated target \
                       means stay.";
const AVERAGES: &str = "Averages are over C, and off the lines over K less C.";
const NEW_SIZES: &str =
    "Grow and shrink answer the new C and K: twice each, or C halved down and K \
                         halved up.";
const NEW_TARGET: &str = "Grow also answers the new target, hits on lines over C, not reduced; a \
                          grow with twice K over 1,024, or a shrink with C 1, becomes stay.";
const SIZES: &str = "Sizes out of bounds give 1.";
const THIRTEEN: &str = "New numbers: 13, after 1, for stores outside 1 to 64, a count over \
                        1,048,576, a fraction part over that or a denominator of 0, an imbalance \
                        below 1, or a tolerance over 999.";

/// Document 000's sentences on Algorithm 3, its signs written as words.
const LINE_1: &str = "(1) I_c > I_t and alpha_c >= alpha_k-c (Line 1), this means that the target \
                      load-imbalance is not achieved and cached keys observe more hits than the \
                      keys in the tracker.";
const LINE_4: &str = "CoT then sets alpha_t to the average hits per cache-line alpha_c during the \
                      current epoch (Line 4).";
const LINE_5: &str = "(2) I_c <= I_t (Line 5), this means that the target load-imbalance has been \
                      achieved.";
const LINE_6: &str =
    "In Line 6, we compare the average hits per key in both S_c and S_k-c to (1 - \
                      epsilon) times alpha_t instead of alpha_t.";
const CASE_1: &str = "Case 1: keys in S_c, on the average, do not achieve alpha_t hits per \
                      cacheline and keys in S_k-c do not achieve alpha_t hits as well (Line 6).";
const CASE_2: &str = "Case 2: keys in S_c do not achieve alpha_t while keys in S_k-c achieve \
                      alpha_t (Line 8).";
const CASE_3: &str = "Case 3: keys in S_c achieve alpha_t while keys in S_k-c do not achieve \
                      alpha_t. This means that the quality of the cached keys has not changed and \
                      therefore, CoT does not take any action.";
const BOTH: &str = "Similarly, if keys in both sets S_c and S_k-c achieve alpha_t, CoT does not \
                    take any action";
const FIRST_TARGET: &str = "Initially, alpha_t = 0.";
const LOAD: &str =
    "CoT calculates the current load-imbalance I_c as the ratio between the highest \
                    and the lowest load on back-end servers during this epoch.";
const UNTIL: &str = "The cache and tracker sizes are doubled until either I_t is achieved or a \
                     configurable upper limit cache size is hit.";
const DOUBLES_AGAIN: &str = "If shrinking both cache and tracker sizes results in a violation of \
                             the inequality I_c < I_t, Algorithm 3 doubles both tracker and cache \
                             sizes in the following epoch and alpha_t is reset as a result.";

/// Document 01's sentences on lengths, on numbers and on what stays.
const COUNT: &str = "A length that isn't whole is refused as a wrong count.";
const FIELDS: &str =
    "Any other lent list has its fields in the order named: a number in 8 bytes in \
                      the same byte order";
const STAYS: &str = "Lent bytes that no rule changes keep their values.";

pub const EXAMPLES: [Example; 44] = [
    ("scale: grow", LINE_1, grow),
    (
        "scale: imbalance at its target",
        LINE_5,
        imbalance_at_target,
    ),
    (
        "scale: imbalance of large counts",
        CROSS,
        imbalance_of_large,
    ),
    ("scale: averages equal", LINE_1, averages_equal),
    ("scale: averages of large counts", CROSS, averages_of_large),
    ("scale: over, and the lines colder", ALGORITHM, lines_colder),
    ("scale: grow before all else", ALGORITHM, grow_before_all),
    ("scale: greatest and least", LOAD, greatest_and_least),
    ("scale: order of the stores", LOAD, order_of_stores),
    ("scale: one store", INPUTS, one_store),
    (
        "scale: every count of stores",
        INPUTS,
        every_count_of_stores,
    ),
    ("scale: least 0", LEAST_0, least_0),
    ("scale: all 0", LEAST_0, all_0),
    ("scale: shrink", CASE_1, shrink),
    ("scale: age", CASE_2, age),
    ("scale: stay", CASE_3, stay),
    ("scale: stay, both achieve", BOTH, both_achieve),
    ("scale: on the lines exactly at it", LINE_6, on_exactly),
    ("scale: off the lines exactly at it", EXACTLY, off_exactly),
    ("scale: both exactly at it", EXACTLY, both_exactly),
    ("scale: every tolerance", LINE_6, every_tolerance),
    ("scale: thousandths", INPUTS, thousandths),
    (
        "scale: tolerated of large counts",
        CROSS,
        tolerated_of_large,
    ),
    ("scale: target 0", FIRST_TARGET, target_0),
    (
        "scale: averages over C and K less C",
        AVERAGES,
        averages_over,
    ),
    ("scale: fractions in other words", CROSS, other_words),
    ("scale: new sizes of a grow", NEW_SIZES, every_grow),
    ("scale: new sizes of a shrink", NEW_SIZES, every_shrink),
    ("scale: new target", LINE_4, new_target),
    ("scale: new target not reduced", NEW_TARGET, not_reduced),
    ("scale: grow past 1,024", NEW_TARGET, grow_past_most),
    ("scale: shrink with C 1", NEW_TARGET, shrink_with_one_line),
    ("scale: the new target used", LINE_4, target_used),
    (
        "scale: grown to the limit and shrunk",
        UNTIL,
        grown_and_shrunk,
    ),
    ("scale: grown again", DOUBLES_AGAIN, grown_again),
    ("scale: bytes of a grow", FIELDS, bytes_of_grow),
    ("scale: bytes that stay", STAYS, bytes_that_stay),
    ("scale: every length of out", COUNT, every_out_length),
    (
        "scale: every length of lookups",
        COUNT,
        every_lookups_length,
    ),
    ("scale: sizes out of bounds", SIZES, sizes_out_of_bounds),
    ("scale: counts", THIRTEEN, counts_at_most),
    ("scale: parts of fractions", THIRTEEN, parts_at_most),
    (
        "scale: imbalance and tolerance",
        THIRTEEN,
        imbalance_and_tolerance,
    ),
    ("scale: 1 before 13", THIRTEEN, sizes_before_thirteen),
];

/// The most that a count or a part may be.
const MOST: u64 = 1_048_576;

/// A fraction.
fn parts(over: u64, under: u64) -> Parts {
    Parts { over, under }
}

/// C 4 and K 12. The imbalance is exactly at 3/2. The tolerated target is 9, that is 36 hits on the
/// lines and 72 off them; there are 40 and 16, averages of 10 and 2. So it stays.
fn plain() -> Epoch {
    Epoch {
        lookups: lookups_of(&[120, 150, 100]),
        on: 40,
        off: 16,
        lines: 4,
        records: 12,
        imbalance: parts(3, 2),
        target: parts(10, 1),
        tolerance: 100,
    }
}

/// As `plain`, with the imbalance over 3/2. So it grows.
fn over() -> Epoch {
    Epoch {
        lookups: lookups_of(&[120, 151, 100]),
        ..plain()
    }
}

/// As `plain`, with averages of 8.75 and 8.875. So it shrinks.
fn cold() -> Epoch {
    Epoch {
        on: 35,
        off: 71,
        ..plain()
    }
}

/// Asks the library and the model.
struct Desk<'a> {
    model: &'a Model,
    random: Random,
}

impl<'a> Desk<'a> {
    fn new(model: &'a Model, seed: u64) -> Desk<'a> {
        Desk {
            model,
            random: Random::new(seed, 9, 0),
        }
    }

    /// The number and the bytes after the call.
    fn ask(&mut self, epoch: &Epoch, out: &[u8]) -> Result<(u64, Vec<u8>), String> {
        let mut path = Path::new();
        harness::scale(self.model, epoch, out, &mut self.random, &mut path)
    }

    /// The call must return the number and write these numbers; all other bytes must stay.
    fn gives(&mut self, epoch: &Epoch, number: u64, written: &[u64]) -> Result<(), String> {
        let mut out = self.random.bytes(SCALE_BYTES);
        let (found, after) = self.ask(epoch, &out)?;
        for (place, number) in written.iter().enumerate() {
            out[8 * place..8 * place + 8].copy_from_slice(&number.to_le_bytes());
        }
        if found != number || after != out {
            return Err(format!(
                "{epoch:?}\nreturned {found} with {after:02x?}, and {number} with {out:02x?} is due"
            ));
        }
        Ok(())
    }

    /// The new C and K, and the new target's two parts.
    fn grows(&mut self, epoch: &Epoch, written: [u64; 4]) -> Result<(), String> {
        self.gives(epoch, 106, &written)
    }

    /// The new C and K.
    fn shrinks(&mut self, epoch: &Epoch, written: [u64; 2]) -> Result<(), String> {
        self.gives(epoch, 107, &written)
    }

    fn ages(&mut self, epoch: &Epoch) -> Result<(), String> {
        self.gives(epoch, 108, &[])
    }

    fn stays(&mut self, epoch: &Epoch) -> Result<(), String> {
        self.gives(epoch, 109, &[])
    }

    /// With out bytes of the right length.
    fn refuses(&mut self, number: u64, epoch: &Epoch) -> Result<(), String> {
        self.gives(epoch, number, &[])
    }

    /// With so many out bytes, of which none may change.
    fn refuses_out(&mut self, number: u64, epoch: &Epoch, length: usize) -> Result<(), String> {
        let out = self.random.bytes(length);
        let (found, after) = self.ask(epoch, &out)?;
        if found != number || after != out {
            return Err(format!(
                "out of {length} bytes: returned {found}, and {number} is due"
            ));
        }
        Ok(())
    }
}

fn grow(model: &Model, seed: u64) -> Result<(), String> {
    let mut desk = Desk::new(model, seed);
    desk.grows(&over(), [8, 24, 40, 4])?;
    // The averages are 10 and 9.875.
    desk.grows(&Epoch { off: 79, ..over() }, [8, 24, 40, 4])?;
    // None off the lines, and none at all.
    desk.grows(&Epoch { off: 0, ..over() }, [8, 24, 40, 4])?;
    let none = Epoch {
        on: 0,
        off: 0,
        ..over()
    };
    desk.grows(&none, [8, 24, 0, 4])
}

fn imbalance_at_target(model: &Model, seed: u64) -> Result<(), String> {
    let mut desk = Desk::new(model, seed);
    // 3/2 is a ratio of 1.5.
    for (least, at) in [(2, 3), (100, 150), (1_000, 1_500), (699_050, 1_048_575)] {
        let mut epoch = plain();
        epoch.lookups = lookups_of(&[least, at - 1]);
        desk.stays(&epoch)?;
        epoch.lookups = lookups_of(&[least, at]);
        desk.stays(&epoch)?;
        epoch.lookups = lookups_of(&[least, at + 1]);
        desk.grows(&epoch, [8, 24, 40, 4])?;
        epoch.lookups = lookups_of(&[least - 1, at]);
        desk.grows(&epoch, [8, 24, 40, 4])?;
    }
    // 3 times 1.5 is 4.5.
    let mut epoch = plain();
    epoch.lookups = lookups_of(&[3, 4]);
    desk.stays(&epoch)?;
    epoch.lookups = lookups_of(&[3, 5]);
    desk.grows(&epoch, [8, 24, 40, 4])?;
    // Below its target it is not over it either, and a target of 1 is one.
    epoch.lookups = lookups_of(&[100, 100]);
    desk.stays(&epoch)?;
    epoch.imbalance = parts(1, 1);
    desk.stays(&epoch)?;
    epoch.lookups = lookups_of(&[100, 101]);
    desk.grows(&epoch, [8, 24, 40, 4])
}

fn imbalance_of_large(model: &Model, seed: u64) -> Result<(), String> {
    let mut desk = Desk::new(model, seed);
    for (stores, imbalance, is_over) in [
        // 1.00000095... of both, and the next ones.
        ([1_048_575, 1_048_576], parts(1_048_576, 1_048_575), false),
        ([1_048_574, 1_048_575], parts(1_048_576, 1_048_575), true),
        ([1_048_575, 1_048_576], parts(1_048_575, 1_048_574), false),
        ([1_048_575, 1_048_576], parts(1_048_576, 1_048_576), true),
        ([1_048_576, 1_048_576], parts(1_048_576, 1_048_576), false),
        // 1,048,576 of both, and the next ones.
        ([1, 1_048_576], parts(1_048_576, 1), false),
        ([1, 1_048_576], parts(1_048_575, 1), true),
        ([2, 1_048_576], parts(524_287, 1), true),
        ([2, 1_048_576], parts(524_288, 1), false),
        // 2^20 times 2^12 is 2^32.
        ([4_096, 1_048_576], parts(256, 1), false),
        ([4_095, 1_048_576], parts(256, 1), true),
        ([524_288, 1_048_576], parts(1_048_576, 524_288), false),
        ([524_287, 1_048_576], parts(1_048_576, 524_288), true),
        // 665,857 over 470,832 is 1.4142135623747, and 275,807 over 195,025 is 1.4142135623638.
        ([470_832, 665_857], parts(275_807, 195_025), true),
        ([195_025, 275_807], parts(665_857, 470_832), false),
        ([470_832, 665_857], parts(665_857, 470_832), false),
    ] {
        let mut epoch = plain();
        epoch.lookups = lookups_of(&stores);
        epoch.imbalance = imbalance;
        if is_over {
            desk.grows(&epoch, [8, 24, 40, 4])?;
        } else {
            desk.stays(&epoch)?;
        }
    }
    Ok(())
}

fn averages_equal(model: &Model, seed: u64) -> Result<(), String> {
    let mut desk = Desk::new(model, seed);
    // 40 over 4 and 80 over 8.
    desk.grows(&Epoch { off: 80, ..over() }, [8, 24, 40, 4])?;
    // 40 over 4 and 81 over 8: no grow, and Case 3's last sentence.
    desk.stays(&Epoch { off: 81, ..over() })?;
    // 39 over 4 and 80 over 8.
    let mut epoch = Epoch {
        on: 39,
        off: 80,
        ..over()
    };
    desk.stays(&epoch)?;
    epoch.off = 78;
    desk.grows(&epoch, [8, 24, 39, 4])?;
    // None on the lines and none off them are equal; one off them is more.
    epoch.on = 0;
    epoch.off = 0;
    desk.grows(&epoch, [8, 24, 0, 4])?;
    epoch.off = 1;
    desk.shrinks(&epoch, [2, 6])
}

fn averages_of_large(model: &Model, seed: u64) -> Result<(), String> {
    let mut desk = Desk::new(model, seed);
    // The target is 0, so that it stays where no grow is due.
    for (lines, records, on, off, due) in [
        (256, 512, 1_048_576, 1_048_576, true),
        (256, 512, 1_048_575, 1_048_576, false),
        // Over 255 and over 257.
        (255, 512, 1_040_400, 1_048_560, true),
        (255, 512, 1_040_399, 1_048_560, false),
        (255, 512, 1_040_400, 1_048_561, false),
        (255, 512, 1_040_401, 1_048_561, true),
        // Over 1 and over 511: 2,052.0078... off the lines.
        (1, 512, 2_052, 1_048_576, false),
        (1, 512, 2_053, 1_048_576, true),
        (511, 512, 1_048_576, 2_052, true),
        (511, 512, 1_048_576, 2_053, false),
        (511, 512, 1_048_572, 2_052, true),
        (511, 512, 1_048_571, 2_052, false),
        // 257 times the one is 255 times the other and 1 more, then 1 less.
        (255, 512, 1_020_128, 1_028_129, true),
        (255, 512, 1_020_127, 1_028_128, false),
    ] {
        let epoch = Epoch {
            on,
            off,
            lines,
            records,
            target: parts(0, 1),
            ..over()
        };
        if due {
            desk.grows(&epoch, [2 * lines, 1_024, on, lines])?;
        } else {
            desk.stays(&epoch)?;
        }
    }
    Ok(())
}

/// Where the imbalance is over its target and the lines are colder, lines 6 to 9 are what is left.
fn lines_colder(model: &Model, seed: u64) -> Result<(), String> {
    let mut desk = Desk::new(model, seed);
    // 8.5 and 8.875, then 8.75 and 8.875, both below 9.
    for on in [34, 35] {
        let epoch = Epoch {
            on,
            off: 71,
            ..over()
        };
        desk.shrinks(&epoch, [2, 6])?;
    }
    // 9 off the lines, exactly, and over it.
    let mut epoch = Epoch {
        on: 35,
        off: 72,
        ..over()
    };
    desk.stays(&epoch)?;
    epoch.off = 73;
    desk.ages(&epoch)?;
    // 9 on the lines.
    epoch.on = 36;
    desk.stays(&epoch)?;
    // With K 1,024 too: a grow is not due, and so none becomes stay.
    epoch.records = 1_024;
    epoch.off = 9_181;
    epoch.on = 35;
    desk.ages(&epoch)?;
    epoch.off = 9_179;
    desk.shrinks(&epoch, [2, 512])
}

/// A grow that is due comes whatever the tolerated target is.
fn grow_before_all(model: &Model, seed: u64) -> Result<(), String> {
    let mut desk = Desk::new(model, seed);
    // Both below it; on the lines at it; off them at it; both at it; both above it.
    for (on, off) in [(35, 70), (36, 71), (40, 72), (36, 72), (40, 80)] {
        let epoch = Epoch { on, off, ..over() };
        desk.grows(&epoch, [8, 24, on, 4])?;
    }
    // With C 1 also.
    let epoch = Epoch {
        on: 8,
        off: 5,
        lines: 1,
        records: 2,
        ..over()
    };
    desk.grows(&epoch, [2, 4, 8, 1])
}

fn greatest_and_least(model: &Model, seed: u64) -> Result<(), String> {
    let mut desk = Desk::new(model, seed);
    // Neither neighbours nor first and last, nor the sum, nor the mean.
    for stores in [
        [100, 151, 120, 120, 120],
        [120, 151, 120, 100, 120],
        [120, 120, 100, 120, 151],
        [120, 100, 151, 100, 120],
        [151, 151, 151, 100, 151],
        [100, 100, 151, 100, 100],
    ] {
        let mut epoch = plain();
        epoch.lookups = lookups_of(&stores);
        desk.grows(&epoch, [8, 24, 40, 4])?;
        epoch.lookups = lookups_of(&stores.map(|number: u64| number.min(150)));
        desk.stays(&epoch)?;
        epoch.lookups = lookups_of(&stores.map(|number: u64| number.max(101)));
        desk.stays(&epoch)?;
    }
    // Each place for the greatest, and each other one for the least.
    for greatest in 0..MOST_STORES {
        for least in (0..MOST_STORES).filter(|least| *least != greatest) {
            let mut stores = [120; MOST_STORES];
            stores[greatest] = 151;
            stores[least] = 100;
            let mut epoch = plain();
            epoch.lookups = lookups_of(&stores);
            desk.grows(&epoch, [8, 24, 40, 4])?;
        }
    }
    // Each byte of a number counts.
    for (one, other) in [(1, 256), (255, 256), (256, 65_536), (65_535, 65_536)] {
        let mut epoch = plain();
        epoch.imbalance = parts(other, one);
        epoch.lookups = lookups_of(&[other, one]);
        desk.stays(&epoch)?;
        epoch.lookups = lookups_of(&[one, other + 1]);
        desk.grows(&epoch, [8, 24, 40, 4])?;
    }
    Ok(())
}

/// Stores in any order give the same answer and the same bytes.
fn order_of_stores(model: &Model, seed: u64) -> Result<(), String> {
    let mut desk = Desk::new(model, seed);
    for (mut stores, grows) in [
        ([100, 150, 149, 101, 120, 130], false),
        ([100, 151, 149, 101, 120, 130], true),
    ] {
        for first in 0..stores.len() {
            for second in 0..stores.len() {
                stores.swap(first, second);
                let epoch = Epoch {
                    lookups: lookups_of(&stores),
                    ..plain()
                };
                if grows {
                    desk.grows(&epoch, [8, 24, 40, 4])?;
                } else {
                    desk.stays(&epoch)?;
                }
            }
        }
    }
    // Epochs of any kind.
    for number in 0..2_000 {
        let mut epoch = some_case(&mut Random::new(seed, 10, number)).epoch;
        let mut stores = epoch.stores();
        epoch.lookups = lookups_of(&stores);
        let out = desk.random.bytes(SCALE_BYTES);
        let before = desk.ask(&epoch, &out)?;
        match number % 3 {
            0 => stores.reverse(),
            1 => stores.sort(),
            _ => {
                let count = stores.len().max(1);
                stores.rotate_left(desk.random.place(count));
            }
        }
        epoch.lookups = lookups_of(&stores);
        if desk.ask(&epoch, &out)? != before {
            return Err(format!("{epoch:?}\nnot {before:02x?} as in another order"));
        }
    }
    Ok(())
}

/// One store's greatest and least are the same, which is over no target.
fn one_store(model: &Model, seed: u64) -> Result<(), String> {
    let mut desk = Desk::new(model, seed);
    for number in [0, 1, 2, 1_000, MOST] {
        for imbalance in [parts(1, 1), parts(3, 2), parts(MOST, MOST), parts(MOST, 1)] {
            let epoch = Epoch {
                lookups: lookups_of(&[number]),
                imbalance,
                ..plain()
            };
            desk.stays(&epoch)?;
            let epoch = Epoch {
                on: 35,
                off: 71,
                ..epoch
            };
            desk.shrinks(&epoch, [2, 6])?;
        }
    }
    Ok(())
}

fn every_count_of_stores(model: &Model, seed: u64) -> Result<(), String> {
    let mut desk = Desk::new(model, seed);
    for count in 2..=MOST_STORES {
        let mut stores = vec![120; count];
        stores[0] = 100;
        stores[count - 1] = 150;
        let mut epoch = plain();
        epoch.lookups = lookups_of(&stores);
        desk.stays(&epoch)?;
        stores[count - 1] = 151;
        epoch.lookups = lookups_of(&stores);
        desk.grows(&epoch, [8, 24, 40, 4])?;
        // Turned round, the least is last.
        stores.reverse();
        epoch.lookups = lookups_of(&stores);
        desk.grows(&epoch, [8, 24, 40, 4])?;
    }
    Ok(())
}

fn least_0(model: &Model, seed: u64) -> Result<(), String> {
    let mut desk = Desk::new(model, seed);
    for stores in [
        &[0, 1][..],
        &[1, 0],
        &[0, MOST],
        &[5, 5, 0, 5],
        &[0, 0, 0, 1],
        &[1, 0, 0, 0],
    ] {
        for imbalance in [parts(1, 1), parts(3, 2), parts(MOST, 1), parts(MOST, MOST)] {
            let mut epoch = Epoch {
                lookups: lookups_of(stores),
                imbalance,
                ..plain()
            };
            desk.grows(&epoch, [8, 24, 40, 4])?;
            // The averages count as before: 8.75 and 8.875, then 8.75 and 9.125.
            epoch.on = 35;
            epoch.off = 71;
            desk.shrinks(&epoch, [2, 6])?;
            epoch.off = 73;
            desk.ages(&epoch)?;
        }
    }
    Ok(())
}

fn all_0(model: &Model, seed: u64) -> Result<(), String> {
    let mut desk = Desk::new(model, seed);
    for count in [1, 2, 3, 63, 64] {
        for imbalance in [parts(1, 1), parts(3, 2), parts(MOST, 1), parts(MOST, MOST)] {
            let mut epoch = Epoch {
                lookups: lookups_of(&vec![0; count]),
                imbalance,
                ..plain()
            };
            desk.stays(&epoch)?;
            // 8.75 and 8.75, which would be a grow if it were over.
            epoch.on = 35;
            epoch.off = 70;
            desk.shrinks(&epoch, [2, 6])?;
            epoch.off = 73;
            desk.ages(&epoch)?;
        }
    }
    Ok(())
}

fn shrink(model: &Model, seed: u64) -> Result<(), String> {
    let mut desk = Desk::new(model, seed);
    desk.shrinks(&cold(), [2, 6])?;
    // The lines warmer than what is off them, as warm, and colder; and none at all.
    for (on, off) in [(35, 16), (35, 70), (1, 71), (0, 71), (35, 0), (0, 0)] {
        desk.shrinks(&Epoch { on, off, ..plain() }, [2, 6])?;
    }
    Ok(())
}

fn age(model: &Model, seed: u64) -> Result<(), String> {
    let mut desk = Desk::new(model, seed);
    for (on, off) in [(35, 73), (0, 73), (35, 1_000), (35, MOST), (0, MOST)] {
        desk.ages(&Epoch { on, off, ..plain() })?;
    }
    // With C 1 and with K 1,024 too.
    let epoch = Epoch {
        on: 8,
        off: 100,
        lines: 1,
        ..plain()
    };
    desk.ages(&epoch)?;
    let epoch = Epoch {
        on: 4_607,
        off: 4_609,
        lines: 512,
        records: 1_024,
        ..plain()
    };
    desk.ages(&epoch)
}

fn stay(model: &Model, seed: u64) -> Result<(), String> {
    let mut desk = Desk::new(model, seed);
    desk.stays(&plain())?;
    for (on, off) in [(36, 71), (37, 71), (36, 0), (MOST, 71), (MOST, 0)] {
        desk.stays(&Epoch { on, off, ..plain() })?;
    }
    Ok(())
}

fn both_achieve(model: &Model, seed: u64) -> Result<(), String> {
    let mut desk = Desk::new(model, seed);
    // The last three have the lines colder.
    for (on, off) in [
        (37, 73),
        (40, 80),
        (MOST, 73),
        (37, 75),
        (37, MOST),
        (40, 90),
    ] {
        desk.stays(&Epoch { on, off, ..plain() })?;
    }
    Ok(())
}

fn on_exactly(model: &Model, seed: u64) -> Result<(), String> {
    let mut desk = Desk::new(model, seed);
    // 35 is below 9 times 4, and 36 is not, whether what is off the lines is below or above.
    desk.shrinks(
        &Epoch {
            on: 35,
            off: 71,
            ..plain()
        },
        [2, 6],
    )?;
    desk.stays(&Epoch {
        on: 36,
        off: 71,
        ..plain()
    })?;
    desk.ages(&Epoch {
        on: 35,
        off: 73,
        ..plain()
    })?;
    desk.stays(&Epoch {
        on: 36,
        off: 73,
        ..plain()
    })
}

fn off_exactly(model: &Model, seed: u64) -> Result<(), String> {
    let mut desk = Desk::new(model, seed);
    // 72 is 9 times 8. On the lines: none, one step below, exactly, one step above, many.
    for on in [0, 35, 36, 37, MOST] {
        desk.stays(&Epoch {
            on,
            off: 72,
            ..plain()
        })?;
    }
    desk.shrinks(
        &Epoch {
            on: 35,
            off: 71,
            ..plain()
        },
        [2, 6],
    )?;
    desk.ages(&Epoch {
        on: 35,
        off: 73,
        ..plain()
    })?;
    // A grow is due with it, and one with the lines colder is not.
    desk.grows(
        &Epoch {
            on: 36,
            off: 72,
            ..over()
        },
        [8, 24, 36, 4],
    )?;
    desk.stays(&Epoch {
        on: 35,
        off: 72,
        ..over()
    })?;
    // With C 1 and with K 1,024.
    let epoch = Epoch {
        on: 8,
        off: 99,
        lines: 1,
        ..plain()
    };
    desk.stays(&epoch)?;
    let epoch = Epoch {
        on: 0,
        off: 9_180,
        records: 1_024,
        ..plain()
    };
    desk.stays(&epoch)
}

fn both_exactly(model: &Model, seed: u64) -> Result<(), String> {
    let mut desk = Desk::new(model, seed);
    desk.stays(&Epoch {
        on: 36,
        off: 72,
        ..plain()
    })?;
    desk.grows(
        &Epoch {
            on: 36,
            off: 72,
            ..over()
        },
        [8, 24, 36, 4],
    )
}

/// With a target of 1,000 the tolerated target is 1,000 less the tolerance.
fn every_tolerance(model: &Model, seed: u64) -> Result<(), String> {
    let mut desk = Desk::new(model, seed);
    for tolerance in 0..=999 {
        let at = 1_000 - tolerance;
        let mut epoch = Epoch {
            lines: 2,
            records: 3,
            target: parts(1_000, 1),
            tolerance,
            ..plain()
        };
        for (on, off, number) in [
            (2 * at - 1, at - 1, 107),
            (2 * at - 1, at, 109),
            (2 * at - 1, at + 1, 108),
            (2 * at, at - 1, 109),
            (2 * at, at, 109),
            (2 * at, at + 1, 109),
        ] {
            epoch.on = on;
            epoch.off = off;
            let written = if number == 107 { &[1, 2][..] } else { &[] };
            desk.gives(&epoch, number, written)?;
        }
    }
    Ok(())
}

fn thousandths(model: &Model, seed: u64) -> Result<(), String> {
    let mut desk = Desk::new(model, seed);
    // No tolerance: 10 itself, which is 40 hits on the lines and 80 off them.
    let mut epoch = Epoch {
        tolerance: 0,
        ..plain()
    };
    for (on, off, number) in [(39, 79, 107), (40, 79, 109), (39, 80, 109), (39, 81, 108)] {
        (epoch.on, epoch.off) = (on, off);
        let written = if number == 107 { &[2, 6][..] } else { &[] };
        desk.gives(&epoch, number, written)?;
    }
    // One thousandth: 9.99, which is 39.96 and 79.92.
    epoch.tolerance = 1;
    for (on, off, number) in [(39, 79, 107), (40, 79, 109), (39, 80, 108), (40, 80, 109)] {
        (epoch.on, epoch.off) = (on, off);
        let written = if number == 107 { &[2, 6][..] } else { &[] };
        desk.gives(&epoch, number, written)?;
    }
    // 999 thousandths: 0.01, which is 0.04 and 0.08.
    epoch.tolerance = 999;
    for (on, off, number) in [(0, 0, 107), (1, 0, 109), (0, 1, 108), (1, 1, 109)] {
        (epoch.on, epoch.off) = (on, off);
        let written = if number == 107 { &[2, 6][..] } else { &[] };
        desk.gives(&epoch, number, written)?;
    }
    // And 1 exactly with C 100, and 2 with 200 off them.
    epoch.lines = 100;
    epoch.records = 300;
    for (on, off, number) in [
        (0, 1, 107),
        (0, 2, 109),
        (0, 3, 108),
        (1, 1, 109),
        (1, 2, 109),
        (1, 3, 109),
    ] {
        (epoch.on, epoch.off) = (on, off);
        let written = if number == 107 { &[50, 150][..] } else { &[] };
        desk.gives(&epoch, number, written)?;
    }
    Ok(())
}

fn tolerated_of_large(model: &Model, seed: u64) -> Result<(), String> {
    let mut desk = Desk::new(model, seed);
    for (lines, records, target, tolerance, on, off, number) in [
        // 2,048: 1,048,576 on 512 lines and 1,048,576 off them.
        (512, 1_024, parts(2_048, 1), 0, 1_048_575, 1_048_575, 107),
        (512, 1_024, parts(2_048, 1), 0, 1_048_575, 1_048_576, 109),
        (512, 1_024, parts(2_048, 1), 0, 1_048_576, 1_048_575, 109),
        (
            512,
            1_024,
            parts(1_048_576, 512),
            0,
            1_048_575,
            1_048_575,
            107,
        ),
        (
            512,
            1_024,
            parts(1_048_576, 513),
            0,
            1_046_531,
            1_046_531,
            107,
        ),
        (
            512,
            1_024,
            parts(1_048_576, 513),
            0,
            1_046_531,
            1_046_532,
            108,
        ),
        (
            512,
            1_024,
            parts(1_048_576, 513),
            0,
            1_046_532,
            1_046_531,
            109,
        ),
        // The most of all, far over every average; a tolerance of 999 leaves 1,048.576.
        (
            512,
            1_024,
            parts(1_048_576, 1),
            0,
            1_048_576,
            1_048_576,
            107,
        ),
        (512, 1_024, parts(1_048_576, 1), 999, 536_870, 536_870, 107),
        (512, 1_024, parts(1_048_576, 1), 999, 536_870, 536_871, 108),
        (512, 1_024, parts(1_048_576, 1), 999, 536_871, 536_870, 109),
        (
            1_023,
            1_024,
            parts(1_048_576, 1),
            999,
            1_048_576,
            1_048,
            107,
        ),
        (
            1_023,
            1_024,
            parts(1_048_576, 1),
            999,
            1_048_576,
            1_049,
            108,
        ),
        // 1 with the largest parts, and the least of all, which is over 0.
        (500, 1_000, parts(1_048_576, 1_048_576), 0, 499, 499, 107),
        (500, 1_000, parts(1_048_576, 1_048_576), 0, 499, 500, 109),
        (500, 1_000, parts(1_048_576, 1_048_576), 0, 499, 501, 108),
        (500, 1_000, parts(1_048_575, 1_048_576), 0, 499, 500, 108),
        (500, 1_000, parts(1_048_576, 1_048_575), 0, 500, 500, 107),
        (1_000, 1_024, parts(1, 1_048_576), 999, 0, 0, 107),
        (1_000, 1_024, parts(1, 1_048_576), 999, 1, 0, 109),
        (1_000, 1_024, parts(1, 1_048_576), 999, 0, 1, 108),
    ] {
        let epoch = Epoch {
            on,
            off,
            lines,
            records,
            target,
            tolerance,
            ..plain()
        };
        let halves = [lines / 2, records.div_ceil(2)];
        let written = if number == 107 { &halves[..] } else { &[] };
        desk.gives(&epoch, number, written)?;
    }
    Ok(())
}

/// No average is below a target of 0, and one of no hits off the lines is exactly at it.
fn target_0(model: &Model, seed: u64) -> Result<(), String> {
    let mut desk = Desk::new(model, seed);
    for under in [1, 2, 1_000, MOST] {
        for tolerance in [0, 100, 999] {
            for (on, off) in [(0, 0), (0, 1), (1, 0), (0, MOST), (MOST, 0), (40, 80)] {
                let epoch = Epoch {
                    on,
                    off,
                    target: parts(0, under),
                    tolerance,
                    ..plain()
                };
                desk.stays(&epoch)?;
            }
            let epoch = Epoch {
                target: parts(0, under),
                tolerance,
                ..over()
            };
            desk.grows(&epoch, [8, 24, 40, 4])?;
        }
    }
    Ok(())
}

/// K less C, and not K: 8 and not 12.
fn averages_over(model: &Model, seed: u64) -> Result<(), String> {
    let mut desk = Desk::new(model, seed);
    // 81 over 8 is over 10, and over 12 it is not.
    desk.stays(&Epoch { off: 81, ..over() })?;
    desk.stays(&Epoch { off: 120, ..over() })?;
    // 73 over 8 is over 9. Over 12, 73 and 107 are below 9, and 108 is exactly 9.
    for off in [73, 107, 108] {
        desk.ages(&Epoch {
            on: 35,
            off,
            ..plain()
        })?;
    }
    // All records but one on lines, and all but one off them.
    let mut epoch = Epoch {
        lines: 11,
        ..plain()
    };
    for (on, off, number) in [(98, 8, 107), (98, 9, 109), (98, 10, 108), (99, 8, 109)] {
        (epoch.on, epoch.off) = (on, off);
        let written = if number == 107 { &[5, 6][..] } else { &[] };
        desk.gives(&epoch, number, written)?;
    }
    epoch.lines = 1;
    for (on, off, number) in [(8, 98, 109), (8, 99, 109), (8, 100, 108), (9, 98, 109)] {
        (epoch.on, epoch.off) = (on, off);
        desk.gives(&epoch, number, &[])?;
    }
    Ok(())
}

/// Both parts of a fraction times one number give the same answer and the same bytes.
fn other_words(model: &Model, seed: u64) -> Result<(), String> {
    let mut desk = Desk::new(model, seed);
    for times in [1, 2, 3, 7, 10, 256, 1_000, 65_536, 104_857] {
        let words = |epoch: Epoch| Epoch {
            imbalance: parts(3 * times, 2 * times),
            target: parts(10 * times, times),
            ..epoch
        };
        desk.stays(&words(plain()))?;
        desk.stays(&words(Epoch {
            on: 36,
            off: 72,
            ..plain()
        }))?;
        desk.grows(&words(over()), [8, 24, 40, 4])?;
        desk.shrinks(&words(cold()), [2, 6])?;
        desk.ages(&words(Epoch {
            on: 35,
            off: 73,
            ..plain()
        }))?;
    }
    // Epochs of any kind.
    for number in 0..2_000 {
        let mut epoch = some_case(&mut Random::new(seed, 11, number)).epoch;
        let out = desk.random.bytes(SCALE_BYTES);
        let before = desk.ask(&epoch, &out)?;
        for fraction in [&mut epoch.imbalance, &mut epoch.target] {
            let largest = fraction.over.max(fraction.under);
            if (1..=MOST).contains(&largest) {
                let times = desk.random.between(1, MOST / largest);
                fraction.over *= times;
                fraction.under *= times;
            }
        }
        if desk.ask(&epoch, &out)? != before {
            return Err(format!("{epoch:?}\nnot {before:02x?} as in other words"));
        }
    }
    Ok(())
}

fn every_grow(model: &Model, seed: u64) -> Result<(), String> {
    let mut desk = Desk::new(model, seed);
    for (lines, records, new_lines, new_records) in [
        (1, 2, 2, 4),
        (1, 3, 2, 6),
        (2, 3, 4, 6),
        (3, 4, 6, 8),
        (64, 256, 128, 512),
        (127, 128, 254, 256),
        (128, 129, 256, 258),
        (1, 512, 2, 1_024),
        (255, 511, 510, 1_022),
        (256, 512, 512, 1_024),
        (510, 511, 1_020, 1_022),
        (511, 512, 1_022, 1_024),
    ] {
        let epoch = Epoch {
            on: 1_000,
            off: 1,
            lines,
            records,
            ..over()
        };
        let due = [new_lines, new_records, 1_000, lines];
        desk.grows(&epoch, due)?;
    }
    // Every K up to 512.
    for records in 2..=512 {
        for lines in [1, records / 2, records - 1] {
            let epoch = Epoch {
                off: 0,
                lines,
                records,
                ..over()
            };
            desk.grows(&epoch, [2 * lines, 2 * records, 40, lines])?;
        }
    }
    Ok(())
}

fn every_shrink(model: &Model, seed: u64) -> Result<(), String> {
    let mut desk = Desk::new(model, seed);
    let none = Epoch {
        on: 0,
        off: 0,
        ..plain()
    };
    for (lines, records, new_lines, new_records) in [
        (2, 3, 1, 2),
        (2, 4, 1, 2),
        (2, 5, 1, 3),
        (3, 4, 1, 2),
        (3, 5, 1, 3),
        (4, 5, 2, 3),
        (5, 6, 2, 3),
        (5, 11, 2, 6),
        (255, 256, 127, 128),
        (256, 257, 128, 129),
        (2, 1_023, 1, 512),
        (2, 1_024, 1, 512),
        (511, 512, 255, 256),
        (511, 1_023, 255, 512),
        (512, 513, 256, 257),
        (1_022, 1_023, 511, 512),
        (1_022, 1_024, 511, 512),
        (1_023, 1_024, 511, 512),
    ] {
        let epoch = Epoch {
            lines,
            records,
            ..none.clone()
        };
        desk.shrinks(&epoch, [new_lines, new_records])?;
    }
    // Every K, and the new K is over the new C, which is at least 1.
    for records in 3..=1_024_u64 {
        for lines in [2, records.div_ceil(2).max(2), records - 1] {
            let new_lines = (0..).find(|new| 2 * new + 1 >= lines).expect("a half");
            let new_records = (0..).find(|new| 2 * new >= records).expect("a half");
            if new_lines < 1 || new_records <= new_lines {
                return Err(format!("C {new_lines} and K {new_records} are no sizes"));
            }
            let epoch = Epoch {
                lines,
                records,
                ..none.clone()
            };
            desk.shrinks(&epoch, [new_lines, new_records])?;
        }
    }
    Ok(())
}

/// Over the old C. The old target and the tolerance are not in it.
fn new_target(model: &Model, seed: u64) -> Result<(), String> {
    let mut desk = Desk::new(model, seed);
    for (on, lines) in [
        (0, 1),
        (1, 1),
        (7, 3),
        (1_000, 7),
        (1_048_576, 1),
        (1_048_576, 511),
    ] {
        for (target, tolerance) in [(parts(10, 1), 100), (parts(0, 9), 0), (parts(MOST, 1), 999)] {
            let epoch = Epoch {
                on,
                off: 0,
                lines,
                records: 512,
                target,
                tolerance,
                ..over()
            };
            desk.grows(&epoch, [2 * lines, 1_024, on, lines])?;
        }
    }
    Ok(())
}

fn not_reduced(model: &Model, seed: u64) -> Result<(), String> {
    let mut desk = Desk::new(model, seed);
    for (on, lines) in [
        (0, 4),
        (4, 4),
        (40, 4),
        (6, 4),
        (2, 4),
        (512, 256),
        (MOST, 2),
        (MOST, 256),
        (1_000, 500),
    ] {
        let epoch = Epoch {
            on,
            off: 0,
            lines,
            records: 512,
            ..over()
        };
        desk.grows(&epoch, [2 * lines, 1_024, on, lines])?;
    }
    Ok(())
}

fn grow_past_most(model: &Model, seed: u64) -> Result<(), String> {
    let mut desk = Desk::new(model, seed);
    let mut epoch = Epoch {
        lines: 4,
        records: 512,
        ..over()
    };
    epoch.off = 0;
    desk.grows(&epoch, [8, 1_024, 40, 4])?;
    for records in [513, 514, 600, 1_022, 1_023, 1_024] {
        for lines in [1, 2, 4, records / 2, records - 1] {
            // Both averages above the tolerated target, off the lines below, both below, and none.
            for (on, off) in [
                (20 * lines, 20 * (records - lines)),
                (9 * lines, 9 * (records - lines) - 1),
                (9 * lines - 1, 8 * (records - lines)),
                (0, 0),
            ] {
                let epoch = Epoch {
                    on,
                    off,
                    lines,
                    records,
                    ..over()
                };
                desk.stays(&epoch)?;
            }
        }
    }
    // With both below, it would shrink if the imbalance were within its target.
    let within = Epoch {
        on: 0,
        off: 0,
        records: 513,
        ..plain()
    };
    desk.shrinks(&within, [2, 257])
}

fn shrink_with_one_line(model: &Model, seed: u64) -> Result<(), String> {
    let mut desk = Desk::new(model, seed);
    for records in [2, 3, 4, 512, 513, 1_023, 1_024] {
        let mut epoch = Epoch {
            on: 8,
            off: 9 * (records - 1) - 1,
            lines: 1,
            records,
            ..plain()
        };
        desk.stays(&epoch)?;
        epoch.on = 0;
        epoch.off = 0;
        desk.stays(&epoch)?;
        // With the imbalance over its target and the lines colder.
        epoch.off = 9 * (records - 1) - 1;
        epoch.lookups = over().lookups;
        desk.stays(&epoch)?;
        // Off the lines above the tolerated target it ages; with two lines it shrinks.
        epoch.off = 9 * (records - 1) + 1;
        desk.ages(&epoch)?;
        if records > 2 {
            epoch.lines = 2;
            epoch.off = 9 * (records - 2) - 1;
            desk.shrinks(&epoch, [1, records.div_ceil(2)])?;
        }
    }
    Ok(())
}

/// A grow with averages of 10 and 2; then the new target, 40 over 4, decides.
fn target_used(model: &Model, seed: u64) -> Result<(), String> {
    let mut desk = Desk::new(model, seed);
    let first = Epoch {
        target: parts(0, 1),
        ..over()
    };
    desk.grows(&first, [8, 24, 40, 4])?;
    // 10 less a tenth is 9: 72 on 8 lines, and 144 off them.
    let next = Epoch {
        lines: 8,
        records: 24,
        target: parts(40, 4),
        ..plain()
    };
    for (on, off, number) in [
        (71, 143, 107),
        (71, 144, 109),
        (71, 145, 108),
        (72, 143, 109),
        (72, 144, 109),
        (72, 145, 109),
    ] {
        let epoch = Epoch {
            on,
            off,
            ..next.clone()
        };
        let written = if number == 107 { &[4, 12][..] } else { &[] };
        desk.gives(&epoch, number, written)?;
    }
    // A target of no hits means that it never shrinks or ages.
    let first = Epoch {
        on: 0,
        off: 0,
        ..over()
    };
    desk.grows(&first, [8, 24, 0, 4])?;
    let next = Epoch {
        target: parts(0, 4),
        on: 0,
        ..next
    };
    for off in [0, 1, MOST] {
        desk.stays(&Epoch {
            off,
            ..next.clone()
        })?;
    }
    Ok(())
}

/// What a call wrote: the first numbers of out.
fn numbers(out: &[u8]) -> Vec<u64> {
    out.chunks_exact(8)
        .map(|bytes| u64::from_le_bytes(bytes.try_into().expect("8 bytes")))
        .collect()
}

/// From C 1 and K 2, epoch after epoch with what the one before answered.
fn grown_and_shrunk(model: &Model, seed: u64) -> Result<(), String> {
    let mut desk = Desk::new(model, seed);
    let mut epoch = Epoch {
        lines: 1,
        records: 2,
        target: parts(0, 1),
        ..over()
    };
    for (lines, records) in [
        (2, 4),
        (4, 8),
        (8, 16),
        (16, 32),
        (32, 64),
        (64, 128),
        (128, 256),
        (256, 512),
        (512, 1_024),
    ] {
        // 20 hits per line.
        epoch.on = 20 * epoch.lines;
        epoch.off = epoch.records - epoch.lines;
        desk.grows(&epoch, [lines, records, 10 * lines, lines / 2])?;
        let (_, out) = desk.ask(&epoch, &[0; SCALE_BYTES])?;
        let out = numbers(&out);
        (epoch.lines, epoch.records) = (out[0], out[1]);
        epoch.target = parts(out[2], out[3]);
    }
    if (epoch.lines, epoch.records, epoch.target) != (512, 1_024, parts(5_120, 256)) {
        return Err(format!(
            "{epoch:?}\nC 512, K 1,024 and 5,120 over 256 are due"
        ));
    }
    // The limit: over its target still, and no grow.
    epoch.on = 20 * 512;
    desk.stays(&epoch)?;
    // The imbalance is within its target, and averages are below 18: it shrinks.
    epoch.lookups = plain().lookups;
    for (lines, records) in [
        (256, 512),
        (128, 256),
        (64, 128),
        (32, 64),
        (16, 32),
        (8, 16),
        (4, 8),
        (2, 4),
        (1, 2),
    ] {
        epoch.on = 18 * epoch.lines - 1;
        epoch.off = 18 * (epoch.records - epoch.lines) - 1;
        desk.shrinks(&epoch, [lines, records])?;
        let (_, out) = desk.ask(&epoch, &[0; SCALE_BYTES])?;
        let out = numbers(&out);
        if (out[2], out[3]) != (0, 0) {
            return Err(format!("a shrink wrote a target, {out:?}"));
        }
        (epoch.lines, epoch.records) = (out[0], out[1]);
    }
    (epoch.on, epoch.off) = (17, 17);
    desk.stays(&epoch)?;
    (epoch.on, epoch.off) = (17, 19);
    desk.ages(&epoch)?;
    // From the most, where C and K are odd on the way.
    (epoch.lines, epoch.records) = (1_023, 1_024);
    for (lines, records) in [
        (511, 512),
        (255, 256),
        (127, 128),
        (63, 64),
        (31, 32),
        (15, 16),
        (7, 8),
        (3, 4),
        (1, 2),
    ] {
        (epoch.on, epoch.off) = (0, 0);
        desk.shrinks(&epoch, [lines, records])?;
        (epoch.lines, epoch.records) = (lines, records);
    }
    desk.stays(&epoch)
}

fn grown_again(model: &Model, seed: u64) -> Result<(), String> {
    let mut desk = Desk::new(model, seed);
    desk.shrinks(&cold(), [2, 6])?;
    // The next epoch, with C 2 and K 6: over its target, 7 on the lines and 5 off them.
    let epoch = Epoch {
        on: 14,
        off: 20,
        lines: 2,
        records: 6,
        ..over()
    };
    desk.grows(&epoch, [4, 12, 14, 2])?;
    // The target is 7 now, and 6.3 tolerated: 25.2 on 4 lines, 50.4 off them.
    let epoch = Epoch {
        lines: 4,
        records: 12,
        target: parts(14, 2),
        ..plain()
    };
    for (on, off, number) in [(25, 50, 107), (26, 50, 109), (25, 51, 108), (26, 51, 109)] {
        let epoch = Epoch {
            on,
            off,
            ..epoch.clone()
        };
        let written = if number == 107 { &[2, 6][..] } else { &[] };
        desk.gives(&epoch, number, written)?;
    }
    Ok(())
}

/// All 32 bytes, least significant first: C 510, K 772, 1,000,000 hits on lines over the old C 255.
fn bytes_of_grow(model: &Model, seed: u64) -> Result<(), String> {
    let mut desk = Desk::new(model, seed);
    let epoch = Epoch {
        on: 1_000_000,
        off: 0,
        lines: 255,
        records: 386,
        ..over()
    };
    let due = [
        0xfe, 0x01, 0, 0, 0, 0, 0, 0, // 510
        0x04, 0x03, 0, 0, 0, 0, 0, 0, // 772
        0x40, 0x42, 0x0f, 0, 0, 0, 0, 0, // 1,000,000
        0xff, 0x00, 0, 0, 0, 0, 0, 0, // 255
    ];
    for byte in 0..=255 {
        let found = desk.ask(&epoch, &[byte; SCALE_BYTES])?;
        if found != (106, due.to_vec()) {
            return Err(format!("{found:02x?}, and 106 with {due:02x?} is due"));
        }
    }
    Ok(())
}

/// A shrink leaves the last 16 bytes, and all else the 32, whatever they held.
fn bytes_that_stay(model: &Model, seed: u64) -> Result<(), String> {
    let mut desk = Desk::new(model, seed);
    let shrink = Epoch {
        on: 0,
        off: 0,
        lines: 516,
        records: 773,
        ..plain()
    };
    let age = Epoch {
        on: 35,
        off: 73,
        ..plain()
    };
    let past = Epoch {
        records: 513,
        ..over()
    };
    let one_line = Epoch {
        on: 0,
        off: 0,
        lines: 1,
        ..plain()
    };
    let one = Epoch { lines: 0, ..over() };
    let thirteen = Epoch {
        tolerance: 1_000,
        ..over()
    };
    for byte in 0..=255 {
        let mut halves = vec![0x02, 0x01, 0, 0, 0, 0, 0, 0, 0x83, 0x01, 0, 0, 0, 0, 0, 0];
        halves.extend([byte; 16]);
        let same = vec![byte; SCALE_BYTES];
        for (epoch, number, due) in [
            (&shrink, 107, &halves),
            (&age, 108, &same),
            (&plain(), 109, &same),
            (&past, 109, &same),
            (&one_line, 109, &same),
            (&one, 1, &same),
            (&thirteen, 13, &same),
        ] {
            let (found, after) = desk.ask(epoch, &same)?;
            if found != number || after != *due {
                return Err(format!(
                    "{found} with {after:02x?}, and {number} with {due:02x?} is due"
                ));
            }
        }
    }
    Ok(())
}

/// Lengths of out: to three times 32, and some whose low bits alone would be good.
fn every_out_length(model: &Model, seed: u64) -> Result<(), String> {
    let mut desk = Desk::new(model, seed);
    for length in (0..=96).chain([128, 256 + 32, 1_024 + 32, 65_536 + 32]) {
        if length != 32 {
            for epoch in [over(), cold(), plain()] {
                desk.refuses_out(1, &epoch, length)?;
            }
        }
    }
    desk.grows(&over(), [8, 24, 40, 4])
}

/// Every length from none to past 64 stores, and some whose low bits alone would be good.
fn every_lookups_length(model: &Model, seed: u64) -> Result<(), String> {
    let mut desk = Desk::new(model, seed);
    let lookups = lookups_of(&vec![100; 40_000]);
    let mut wrong = 0;
    for length in (0..=600).chain([
        1_024,
        2_048,
        65_536 + 8,
        65_536 + 512,
        262_144 + 16,
        300_007,
    ]) {
        let epoch = Epoch {
            lookups: lookups[..length].to_vec(),
            ..plain()
        };
        if length % 8 == 0 && (8..=512).contains(&length) {
            desk.stays(&epoch)?;
        } else {
            desk.refuses(13, &epoch)?;
            wrong += 1;
        }
    }
    // 601 less 64, and the six.
    if wrong != 543 {
        return Err(format!("{wrong} lengths, and 543 are due"));
    }
    Ok(())
}

/// Wrong sizes with their good neighbours.
fn sizes_out_of_bounds(model: &Model, seed: u64) -> Result<(), String> {
    let mut desk = Desk::new(model, seed);
    for (lines, records, number) in [
        (0, 0, 1),
        (0, 1, 1),
        (0, 2, 1),
        (0, 1_024, 1),
        (0, 1_025, 1),
        (1, 0, 1),
        (1, 1, 1),
        (1, 2, 109),
        (2, 1, 1),
        (2, 2, 1),
        (2, 3, 109),
        (511, 511, 1),
        (511, 512, 109),
        (4, 1_023, 109),
        (4, 1_024, 109),
        (4, 1_025, 1),
        (4, 1_026, 1),
        (4, 2_048, 1),
        (1_022, 1_023, 109),
        (1_023, 1_023, 1),
        (1_023, 1_024, 109),
        (1_024, 1_024, 1),
        (1_024, 1_025, 1),
        (1_025, 1_024, 1),
        (1_025, 1_026, 1),
    ] {
        let epoch = Epoch {
            on: MOST,
            lines,
            records,
            ..plain()
        };
        desk.gives(&epoch, number, &[])?;
    }
    // Numbers whose low bits alone would be good, or which are below 0 if read as signed.
    for high in [1 << 16, 1 << 32, 1 << 33, 1 << 62, 1 << 63, u64::MAX << 10] {
        for (lines, records) in [(4, 12), (1, 2), (511, 512)] {
            for (lines, records) in [
                (lines | high, records),
                (lines, records | high),
                (lines | high, records | high),
            ] {
                let epoch = Epoch {
                    lines,
                    records,
                    ..over()
                };
                desk.refuses(1, &epoch)?;
            }
        }
    }
    for (lines, records) in [
        (u64::MAX, 0),
        (u64::MAX, 1_024),
        (0, u64::MAX),
        (1, u64::MAX),
        (u64::MAX - 1, u64::MAX),
        (u64::MAX, u64::MAX),
    ] {
        let epoch = Epoch {
            lines,
            records,
            ..over()
        };
        desk.refuses(1, &epoch)?;
    }
    Ok(())
}

/// Numbers over 1,048,576: one over, twice, and some whose low bits alone would be good.
const OVER_MOST: [u64; 9] = [
    1_048_577,
    2_097_152,
    4_294_967_295,
    1 << 32,
    (1 << 32) + 100,
    1 << 40,
    1 << 63,
    (1 << 63) + 100,
    u64::MAX,
];

fn counts_at_most(model: &Model, seed: u64) -> Result<(), String> {
    let mut desk = Desk::new(model, seed);
    for number in [1_048_575, 1_048_576] {
        desk.stays(&Epoch {
            on: number,
            ..plain()
        })?;
        desk.stays(&Epoch {
            off: number,
            ..plain()
        })?;
        let epoch = Epoch {
            lookups: lookups_of(&[number, number, number]),
            ..plain()
        };
        desk.stays(&epoch)?;
    }
    for number in OVER_MOST {
        desk.refuses(
            13,
            &Epoch {
                on: number,
                ..plain()
            },
        )?;
        desk.refuses(
            13,
            &Epoch {
                off: number,
                ..plain()
            },
        )?;
        // In the first store, one between, and the last; the others are near it, or far.
        for others in [100, MOST] {
            for count in [1, 2, 3, 64] {
                for place in [0, count / 2, count - 1] {
                    let mut stores = vec![others; count];
                    stores[place] = number;
                    let epoch = Epoch {
                        lookups: lookups_of(&stores),
                        ..plain()
                    };
                    desk.refuses(13, &epoch)?;
                }
            }
        }
    }
    Ok(())
}

fn parts_at_most(model: &Model, seed: u64) -> Result<(), String> {
    let mut desk = Desk::new(model, seed);
    let imbalance = |over, under| Epoch {
        imbalance: parts(over, under),
        ..plain()
    };
    let target = |over, under| Epoch {
        target: parts(over, under),
        ..plain()
    };
    for number in [1_048_575, 1_048_576] {
        desk.stays(&imbalance(number, 1))?;
        desk.stays(&imbalance(number, 2))?;
        desk.grows(&imbalance(number, number), [8, 24, 40, 4])?;
        desk.shrinks(&target(number, 1), [2, 6])?;
        desk.stays(&target(number, number))?;
        desk.stays(&target(1, number))?;
        desk.stays(&target(0, number))?;
    }
    for number in OVER_MOST {
        desk.refuses(13, &imbalance(number, 1))?;
        desk.refuses(13, &imbalance(number, MOST))?;
        // Over 1,048,576 under the line, it is not below 1 only with another over it above.
        desk.refuses(13, &imbalance(number, number))?;
        desk.refuses(13, &imbalance(u64::MAX, number))?;
        desk.refuses(13, &imbalance(MOST, number))?;
        desk.refuses(13, &target(number, 1))?;
        desk.refuses(13, &target(number, number))?;
        desk.refuses(13, &target(10, number))?;
        desk.refuses(13, &target(0, number))?;
    }
    // A denominator of 0, whatever is over it.
    for over in [0, 1, 10, MOST, MOST + 1, u64::MAX] {
        desk.refuses(13, &imbalance(over, 0))?;
        desk.refuses(13, &target(over, 0))?;
    }
    Ok(())
}

fn imbalance_and_tolerance(model: &Model, seed: u64) -> Result<(), String> {
    let mut desk = Desk::new(model, seed);
    for (over, under, is_good) in [
        (0, 1, false),
        (0, MOST, false),
        (1, 1, true),
        (1, 2, false),
        (2, 2, true),
        (2, 3, false),
        (3, 2, true),
        (9, 10, false),
        (10, 10, true),
        (999_999, 1_000_000, false),
        (1_000_000, 1_000_000, true),
        (1_048_574, 1_048_575, false),
        (1_048_575, 1_048_575, true),
        (1_048_575, 1_048_576, false),
        (1_048_576, 1_048_576, true),
        (1, 1_048_576, false),
    ] {
        let epoch = Epoch {
            lookups: lookups_of(&[100, 100]),
            imbalance: parts(over, under),
            ..plain()
        };
        if is_good {
            desk.stays(&epoch)?;
        } else {
            desk.refuses(13, &epoch)?;
        }
    }
    for tolerance in [0, 1, 500, 998, 999] {
        desk.stays(&Epoch {
            tolerance,
            ..plain()
        })?;
    }
    for tolerance in [
        1_000,
        1_001,
        1_999,
        2_000,
        1 << 16,
        1 << 32,
        (1 << 32) + 100,
    ] {
        desk.refuses(
            13,
            &Epoch {
                tolerance,
                ..plain()
            },
        )?;
    }
    for tolerance in [1 << 63, (1 << 63) + 100, u64::MAX - 999, u64::MAX] {
        desk.refuses(
            13,
            &Epoch {
                tolerance,
                ..plain()
            },
        )?;
    }
    Ok(())
}

/// Each part of cause 13 alone, by what it changes.
fn thirteens() -> Vec<fn(&mut Epoch)> {
    vec![
        |epoch| epoch.lookups.clear(),
        |epoch| epoch.lookups.truncate(23),
        |epoch| epoch.lookups = lookups_of(&[100; 65]),
        |epoch| epoch.lookups = lookups_of(&[1_048_577, 1_048_576]),
        |epoch| epoch.on = 1_048_577,
        |epoch| epoch.off = 1_048_577,
        |epoch| epoch.imbalance.over = 1_048_577,
        |epoch| epoch.imbalance = parts(1_048_577, 1_048_577),
        |epoch| epoch.imbalance.under = 0,
        |epoch| epoch.imbalance.over = 1,
        |epoch| epoch.target.over = 1_048_577,
        |epoch| epoch.target.under = 1_048_577,
        |epoch| epoch.target.under = 0,
        |epoch| epoch.tolerance = 1_000,
    ]
}

/// Each part of cause 13 gives 13 alone and with each other one, and 1 with each part of cause 1.
fn sizes_before_thirteen(model: &Model, seed: u64) -> Result<(), String> {
    let mut desk = Desk::new(model, seed);
    for base in [plain(), over(), cold()] {
        for first in thirteens() {
            for second in thirteens() {
                let mut epoch = base.clone();
                first(&mut epoch);
                desk.refuses(13, &epoch)?;
                second(&mut epoch);
                desk.refuses(13, &epoch)?;
                for (lines, records) in [
                    (0, 12),
                    (4, 4),
                    (4, 3),
                    (4, 1_025),
                    (0, 0),
                    (4, u64::MAX),
                    (u64::MAX, 12),
                ] {
                    let epoch = Epoch {
                        lines,
                        records,
                        ..epoch.clone()
                    };
                    desk.refuses(1, &epoch)?;
                    desk.refuses_out(1, &epoch, 31)?;
                }
                for length in [0, 16, 31, 33, 64] {
                    desk.refuses_out(1, &epoch, length)?;
                }
            }
        }
    }
    Ok(())
}
