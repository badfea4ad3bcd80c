//! Groups (i) and (k): single resizes of damaged memory, and document 02's Ask 8 on tables worked
//! out by hand. The lists of group (j) have what a resize promises of a list's table from here.

use crate::damaged::{
    damage, doubled, flip, give_tickets, good_records, good_total, in_order_of, some_keys,
    some_serial, ORDER, SIZES,
};
use crate::examples::{fill, plain, read, record, rows, update, withdraw, Desk, Example};
use crate::harness::{self, Both, Memory};
use crate::model::{
    gauge_of, is_refused, not_in_order, put_gauge, put_number, put_records, records_of,
    wrong_sizes, Call, Model, Path, Record, FREE, GAUGE_BYTES, L, LINE_BYTES, MOST_RECORDS,
    RECORD_BYTES, SERIAL_LIMIT,
};
use crate::random::Random;
use crate::resize_model::{fates, Fates};
use crate::Counts;

// ---------------------------------------------------------------------------------------------
// Group (i): single resizes
// ---------------------------------------------------------------------------------------------

/// Every answer. Each must come.
pub const ANSWERS: [&str; 4] = ["resize 0", "resize 1", "resize 3", "resize 10"];

/// What the model names of a resize that is done. Each must come here, and in the lists of group
/// (j) together.
pub const STEPS: [&str; 46] = [
    "lines lost",
    "lines lost: all, and C is 0",
    "lines lost: all but one",
    "lines lost: first among equals",
    "lines lost: one on the first line of the source",
    "lines lost: one filled",
    "lines lost: one empty",
    "lines lost: in front of all that keep theirs",
    "lines lost: behind all that keep theirs",
    "dropped: none",
    "dropped: one",
    "dropped: several",
    "dropped: one that lost its line",
    "dropped: none of those that lost their lines",
    "dropped: with several heats",
    "dropped: by slack",
    "dropped: by slack, behind an equally cold one",
    "dropped: first among equal slack",
    "dropped: one on a line as cold or colder stays",
    "dropped: ceiling raised",
    "dropped: ceiling raised, not by the first dropped",
    "dropped: hottest at the ceiling",
    "dropped: hottest under the ceiling",
    "dropped: the first record",
    "dropped: the last record",
    "kept: none, no record tracked",
    "kept: all of K",
    "kept: fewer than K",
    "kept: moved forward over a free one",
    "kept: behind one dropped",
    "kept: behind a record with more heat, in old order",
    "line kept: its number stays",
    "line kept: a lower number",
    "line kept: a higher number",
    "line kept: not in the order of the old numbers",
    "line kept: filled",
    "line kept: empty",
    "line kept: its old number past the lines of the target",
    "spare: none, every line is kept",
    "spare: one given",
    "spare: several given",
    "spare: one left, all are on lines",
    "spare: all given, one stays without",
    "spare: first among equals",
    "spare: not in the order of the table",
    "spare: equals in the order of the table",
];

/// The same, which must come here alone: in lists some are rare, and some cannot come.
const RARE_STEPS: [&str; 9] = [
    "dropped: by slack, one that lost its line leaves and one that had none stays",
    "dropped: by slack, one that had none leaves and one that lost its line stays",
    "spare: another as hot has more slack",
    "spare: in front of one that keeps its line",
    "spare: a line kept below them",
    "spare: after one dropped",
    "spare: 1,023 given",
    "spare: the serial comes to 2^63",
    "spare: the serial passes 2^63",
];

/// The buffers whose sizes may be wrong.
const BUFFERS: [&str; 6] = [
    "source table",
    "source lines",
    "source gauge",
    "target table",
    "target lines",
    "target gauge",
];

/// What holds besides cause 1 where one buffer's sizes alone are wrong. Each must come with each
/// buffer.
const BESIDES: [&str; 4] = ["", " and 3", " and 10", ", 3 and 10"];

/// Causes of other resizes. Each must come.
const CAUSES: [&str; 8] = [
    "no cause",
    "3",
    "10",
    "3 and 10",
    "1 by two buffers of the source",
    "1 by two buffers of the target",
    "1 by source and target",
    "1 by source and target, 3 and 10",
];

/// Record counts at the ends of what is allowed. Each must come with each in a resize that is done,
/// as the source's and the target's.
const ENDS: [usize; 4] = [1, 2, 1_023, 1_024];

/// Line counts that must come in a resize that is done, of the source and of the target.
const LINES: [usize; 4] = [0, 1, 1_022, 1_023];

/// Lengths in bytes that must be refused, of the source and of the target.
const LENGTHS: [(&str, usize); 11] = [
    ("table", 0),
    ("table", 39),
    ("table", 41),
    ("table", 41_000),
    ("lines", 63),
    ("lines", 65),
    ("gauge", 0),
    ("gauge", 16),
    ("gauge", 23),
    ("gauge", 25),
    ("gauge", 32),
];

/// Special inputs: good ones in a resize that is done, bad ones in a refused one. Each must come.
const INPUTS: [&str; 47] = [
    "same K and C",
    "same K and C, and lines change places",
    "same K and more lines",
    "same K and fewer lines",
    "more records and fewer lines",
    "fewer records and more lines",
    "total 0",
    "total L - 1",
    "total L",
    "3: total L + 1",
    "ceiling at total",
    "ceiling raised to total",
    "a heat at total, kept",
    "a heat at total, dropped",
    "a slack 2^64 - 1, kept",
    "a slack 2^64 - 1, dropped",
    "slacks 2^64 - 1 and less decide",
    "a state 1 + 2 C, kept",
    "key 0, kept",
    "key 2^64 - 1, kept",
    "a ticket 0 on a line, kept",
    "a ticket over the serial, kept",
    "a ticket 2^64 - 1, kept",
    "a kept ticket is given again",
    "C records on lines, C over 0",
    "doubled key, both kept",
    "doubled key, one dropped",
    "doubled line, both kept",
    "doubled line, both kept, one filled",
    "doubled line, one lost",
    "doubled line, three kept",
    "serial 2^63 - 1, none given",
    "serial 2^63 - 1, one given",
    "serial 2^63 - 1, several given",
    "serial 2^63 - 2, one given",
    "10: serial 2^63, none to give",
    "10: serial 2^63, one to give",
    "10: serial 2^63 + 1",
    "10: serial 2^64 - 1, none to give",
    "10: serial 2^64 - 1, one to give",
    "10: no record tracked",
    "10: target with no lines",
    "over 500 lines lost, first among equals",
    "over 500 dropped, by slack",
    "over 500 dropped that lost their lines",
    "over 500 lines kept, not in the order of the old numbers",
    "over 500 spare lines given, first among equals",
];

/// What the target's own bytes were, in a resize that is done or refused. Each must come.
const TARGETS: [&str; 12] = [
    "done: target in order",
    "done: target not in order",
    "done: target's serial 2^63 or more",
    "done: target's serial 2^63, same K and C",
    "done: target's total over L, same K and C",
    "done: target all zero",
    "done: target as the source was",
    "done: a line given keeps bytes other than 0",
    "done: a line left keeps bytes other than 0",
    "done: a free record where bytes were",
    "3: target in order",
    "10: target's serial under 2^63",
];

/// A source and a target: table, gauge and lines of each.
struct Case {
    source: [Vec<u8>; 3],
    target: [Vec<u8>; 3],
}

impl Case {
    /// The six buffers, in the order of BUFFERS.
    fn buffers(&mut self) -> [&mut Vec<u8>; 6] {
        let [table, gauge, lines] = &mut self.source;
        let [to_table, to_gauge, to_lines] = &mut self.target;
        [table, lines, gauge, to_table, to_lines, to_gauge]
    }
}

fn slices(three: &[Vec<u8>; 3]) -> (&[u8], &[u8], &[u8]) {
    let [table, gauge, lines] = three;
    (table, gauge, lines)
}

/// Lends every length from 0 to past the good ones for each of the six buffers. Gives how many
/// resizes.
pub fn every_length(seed: u64, model: &Model) -> Result<u64, String> {
    // All else fits K = 3, C = 1.
    let good = [120, 24, 64];
    let mut threes = Vec::new();
    let tables = (0..=250).chain(40_900..=41_041);
    threes.extend(tables.map(|n| [n, 24, 64]));
    threes.extend((0..=50).map(|n| [120, n, 64]));
    threes.extend((0..=260).map(|n| [120, 24, n]));
    // C = K - 1, K and K + 1 at the largest K and past it.
    for k in [1_023, 1_024, 1_025] {
        threes.extend((k - 2..=k + 1).map(|c| [40 * k, 24, 64 * c]));
    }
    let mut calls = 0;
    for three in threes {
        for [from, to] in [[three, good], [good, three], [three, three]] {
            let mut random = Random::new(seed, 10, calls);
            let (table, gauge) = in_order_of(from[0], from[1]);
            let lines = random.bytes(from[2]);
            let memory = Memory::new(&table, &gauge, &lines, &mut random);
            let mut source = Both::new(model, memory);
            let [table, gauge, lines] = to.map(|length| random.bytes(length));
            let memory = Memory::new(&table, &gauge, &lines, &mut random);
            let mut target = Both::new(model, memory);
            harness::resize(&mut source, &mut target, &mut Path::new())
                .map_err(|text| format!("seed {seed}, every length, resize {calls}: {text}"))?;
            calls += 1;
        }
    }
    Ok(calls)
}

/// Runs the single resizes. Stops at the first difference.
pub fn run(seed: u64, resizes: u64, model: &Model, counts: &mut Counts) -> Result<(), String> {
    for number in 0..resizes {
        let mut random = Random::new(seed, 9, number);
        let case = some_case(&mut random);
        let mut both = |three: &[Vec<u8>; 3]| {
            let (table, gauge, lines) = slices(three);
            Both::new(model, Memory::new(table, gauge, lines, &mut random))
        };
        let (mut source, mut target) = (both(&case.source), both(&case.target));
        let mut path = Path::new();
        let found = harness::resize(&mut source, &mut target, &mut path)
            .map_err(|text| format!("seed {seed}, single resize {number}: {text}"))?;
        counts.add(&format!("resize {found}"));
        count(&case, found, &path, &target, counts);
    }
    let mut names: Vec<String> = Vec::new();
    for of in ["source", "target"] {
        names.extend(SIZES.map(|part| format!("{of} {part}")));
        names.extend(LENGTHS.map(|(name, length)| format!("{of} {name} of {length} bytes")));
        names.extend(LINES.map(|c| format!("{of} C {c}")));
    }
    for buffer in BUFFERS {
        names.extend(BESIDES.map(|besides| format!("1 by {buffer}{besides}")));
    }
    for from in ENDS {
        names.extend(ENDS.map(|to| format!("K {from} to {to}")));
    }
    let rest = ANSWERS
        .iter()
        .chain(&STEPS)
        .chain(&RARE_STEPS)
        .chain(&ORDER);
    let rest = rest.chain(&CAUSES).chain(&INPUTS).chain(&TARGETS);
    names.extend(rest.map(|name| name.to_string()));
    match names.iter().find(|name| counts.of(name) == 0) {
        None => Ok(()),
        Some(name) => Err(format!(
            "seed {seed}, {resizes} single resizes: '{name}' never came"
        )),
    }
}

/// Counts what came in a resize; the target is as it is after it.
fn count(case: &Case, found: u64, path: &Path, target: &Both, counts: &mut Counts) {
    for step in path {
        counts.add(step);
    }
    let wrong = count_sizes(case, counts);
    let (three, serial) = read_off(case);
    let out_of_order = !not_in_order(&three[0], &three[1], &three[2]).is_empty();
    let at_limit = serial >= SERIAL_LIMIT;
    let others = match (out_of_order, at_limit) {
        (false, false) => "",
        (true, false) => "3",
        (false, true) => "10",
        (true, true) => "3 and 10",
    };
    let of_source = wrong.iter().filter(|place| **place < 3).count();
    let of_target = wrong.len() - of_source;
    match wrong[..] {
        [] if others.is_empty() => counts.add("no cause"),
        [] => counts.add(others),
        [place] => {
            let besides = match others {
                "" => "",
                "3" => " and 3",
                "10" => " and 10",
                _ => ", 3 and 10",
            };
            counts.add(&format!("1 by {}{besides}", BUFFERS[place]));
        }
        _ => {
            let all = out_of_order && at_limit;
            let both = of_source > 0 && of_target > 0;
            counts.add_if("1 by two buffers of the source", of_source > 1);
            counts.add_if("1 by two buffers of the target", of_target > 1);
            counts.add_if("1 by source and target", both);
            counts.add_if("1 by source and target, 3 and 10", both && all);
        }
    }
    if wrong.is_empty() {
        count_whole(case, found, path, target, counts);
    }
}

/// Counts the parts of cause 1 that hold alone, and lengths. Gives the buffers that are wrong, by
/// their places in BUFFERS. Where the table's record count is wrong, the lines are not if they are
/// whole.
fn count_sizes(case: &Case, counts: &mut Counts) -> Vec<usize> {
    let threes = [("source", &case.source), ("target", &case.target)];
    let parts = threes.map(|(_, three)| {
        let (table, gauge, lines) = slices(three);
        wrong_sizes(table, gauge, lines)
    });
    let mut wrong = Vec::new();
    for (number, (of, three)) in threes.into_iter().enumerate() {
        let (own, other) = (&parts[number], &parts[1 - number]);
        if own.len() == 1 && other.is_empty() {
            counts.add(&format!("{of} {}", own[0]));
        }
        let (table, gauge, lines) = slices(three);
        let k = table.len() / RECORD_BYTES;
        let wrong_table = table.len() % RECORD_BYTES != 0 || k < 1 || k > MOST_RECORDS;
        let fits = lines.len() / LINE_BYTES < k || k < 1 || k > MOST_RECORDS;
        let wrong_lines = lines.len() % LINE_BYTES != 0 || !fits;
        let wrong_gauge = gauge.len() != GAUGE_BYTES;
        let own = [wrong_table, wrong_lines, wrong_gauge];
        wrong.extend((0..3).filter(|at| own[*at]).map(|at| 3 * number + at));
        let lengths = [
            ("table", table.len(), wrong_table),
            ("lines", lines.len(), wrong_lines),
            ("gauge", gauge.len(), wrong_gauge),
        ];
        for (name, length, wrong) in lengths {
            if wrong && own.iter().filter(|wrong| **wrong).count() == 1 && other.is_empty() {
                let named = LENGTHS.contains(&(name, length));
                counts.add_if(&format!("{of} {name} of {length} bytes"), named);
            }
        }
    }
    wrong
}

/// The source as causes 3 and 10 are read off it where sizes are wrong: whole records, whole lines,
/// and the gauge's first 24 bytes, those that are missing being 0. With its serial.
fn read_off(case: &Case) -> ([Vec<u8>; 3], u64) {
    let [table, gauge, lines] = &case.source;
    let mut gauge = gauge.clone();
    gauge.resize(GAUGE_BYTES, 0);
    let serial = gauge_of(&gauge).2;
    ([table.clone(), gauge, lines.clone()], serial)
}

/// Counts what came where no size is wrong.
fn count_whole(case: &Case, found: u64, path: &Path, target: &Both, counts: &mut Counts) {
    let (table, gauge, lines) = slices(&case.source);
    let (to_table, to_gauge, to_lines) = slices(&case.target);
    let records = records_of(table);
    let (total, ceiling, serial) = gauge_of(gauge);
    let (k, c) = (records.len(), lines.len() / LINE_BYTES);
    let (to_k, to_c) = (to_table.len() / RECORD_BYTES, to_lines.len() / LINE_BYTES);
    let to_serial = gauge_of(to_gauge).2;
    let target_in_order = not_in_order(to_table, to_gauge, to_lines).is_empty();
    let mut count = |name: &str, holds: bool| counts.add_if(name, holds);
    if found == 3 {
        count("3: total L + 1", total == L + 1);
        count("3: target in order", target_in_order);
        return;
    }
    let fates = fates(&records, to_k, to_c, None);
    let given = fates.spare.len();
    if found == 10 {
        let (none, one) = (given == 0, given > 0);
        count(
            "10: serial 2^63, none to give",
            serial == SERIAL_LIMIT && none,
        );
        count(
            "10: serial 2^63, one to give",
            serial == SERIAL_LIMIT && one,
        );
        count("10: serial 2^63 + 1", serial == SERIAL_LIMIT + 1);
        count(
            "10: serial 2^64 - 1, none to give",
            serial == u64::MAX && none,
        );
        count(
            "10: serial 2^64 - 1, one to give",
            serial == u64::MAX && one,
        );
        count("10: no record tracked", fates.kept.is_empty());
        count("10: target with no lines", to_c == 0);
        count("10: target's serial under 2^63", to_serial < SERIAL_LIMIT);
        return;
    }
    if is_refused(found) {
        return;
    }

    for (of, own) in [("source", c), ("target", to_c)] {
        count(&format!("{of} C {own}"), LINES.contains(&own));
    }
    let ends = ENDS.contains(&k) && ENDS.contains(&to_k);
    count(&format!("K {k} to {to_k}"), ends);
    let same = (k, c) == (to_k, to_c);
    let changed = |(number, place): (usize, &usize)| records[*place].line() != Some(number as u64);
    count("same K and C", same);
    count(
        "same K and C, and lines change places",
        same && fates.on_lines.iter().enumerate().any(changed),
    );
    count("same K and more lines", k == to_k && c < to_c);
    count("same K and fewer lines", k == to_k && c > to_c);
    count("more records and fewer lines", k < to_k && c > to_c);
    count("fewer records and more lines", k > to_k && c < to_c);
    count("total 0", total == 0);
    count("total L - 1", total == L - 1);
    count("total L", total == L);
    count("ceiling at total", total > 0 && ceiling == total);

    let Fates {
        lost,
        dropped,
        kept,
        on_lines,
        ..
    } = &fates;
    let lost_and_dropped = dropped
        .iter()
        .filter(|place| records[**place].line().is_some());
    for (name, of, number) in [
        (
            "over 500 lines lost, first among equals",
            "lines lost: first among equals",
            lost.len(),
        ),
        (
            "over 500 dropped, by slack",
            "dropped: by slack",
            dropped.len(),
        ),
        (
            "over 500 dropped that lost their lines",
            "dropped: one that lost its line",
            lost_and_dropped.count(),
        ),
        (
            "over 500 lines kept, not in the order of the old numbers",
            "line kept: not in the order of the old numbers",
            on_lines.len(),
        ),
        (
            "over 500 spare lines given, first among equals",
            "spare: first among equals",
            given,
        ),
    ] {
        count(name, number > 500 && path.contains(&of));
    }
    let any = |places: &[usize], holds: &dyn Fn(&Record) -> bool| {
        places.iter().any(|place| holds(&records[*place]))
    };
    let at_total = |record: &Record| total > 0 && record.heat == total;
    let most_slack = |record: &Record| record.slack == u64::MAX;
    count(
        "ceiling raised to total",
        ceiling < total && any(dropped, &at_total),
    );
    count("a heat at total, kept", any(kept, &at_total));
    count("a heat at total, dropped", any(dropped, &at_total));
    count("a slack 2^64 - 1, kept", any(kept, &most_slack));
    count("a slack 2^64 - 1, dropped", any(dropped, &most_slack));
    if let Some(last) = dropped.last().map(|place| &records[*place]) {
        let own = |place: &&usize| records[**place].line().is_none() || lost.contains(place);
        let equal = kept.iter().filter(own).any(|place| {
            let other = &records[*place];
            other.heat == last.heat && other.slack < last.slack
        });
        count("slacks 2^64 - 1 and less decide", equal && most_slack(last));
    }
    let most = 1 + 2 * c as u64;
    count(
        "a state 1 + 2 C, kept",
        c > 0 && any(on_lines, &|r| r.state == most),
    );
    count("key 0, kept", any(kept, &|r| r.key == 0));
    count("key 2^64 - 1, kept", any(kept, &|r| r.key == u64::MAX));
    count(
        "a ticket 0 on a line, kept",
        any(on_lines, &|r| r.ticket == 0),
    );
    count(
        "a ticket over the serial, kept",
        any(on_lines, &|r| r.ticket > serial),
    );
    count(
        "a ticket 2^64 - 1, kept",
        any(on_lines, &|r| r.ticket == u64::MAX),
    );
    let after = serial + given as u64;
    count(
        "a kept ticket is given again",
        any(on_lines, &|r| r.ticket > serial && r.ticket <= after),
    );
    let all_on = records.iter().filter(|r| r.line().is_some()).count();
    count("C records on lines, C over 0", c > 0 && all_on == c);

    let keys = |places: &[usize]| places.iter().map(|place| records[*place].key).collect();
    let both_kept = doubled(keys(kept));
    count("doubled key, both kept", both_kept);
    let is_kept = |key: u64| any(kept, &|r| r.key == key);
    count(
        "doubled key, one dropped",
        any(dropped, &|r| is_kept(r.key)),
    );
    let lines_of = |places: &[usize]| -> Vec<u64> {
        let own = places.iter().filter_map(|place| records[*place].line());
        own.collect()
    };
    let mut on = lines_of(on_lines);
    count("doubled line, both kept", doubled(on.clone()));
    let lost_lines = lines_of(lost);
    count(
        "doubled line, one lost",
        lost_lines.iter().any(|line| on.contains(line)),
    );
    let own = |line, filled| {
        any(on_lines, &|r| {
            r.line() == Some(line) && r.is_filled() == filled
        })
    };
    count(
        "doubled line, both kept, one filled",
        on.iter().any(|line| own(*line, true) && own(*line, false)),
    );
    on.sort_unstable();
    count(
        "doubled line, three kept",
        on.windows(3).any(|three| three[0] == three[2]),
    );

    count(
        "serial 2^63 - 1, none given",
        serial == SERIAL_LIMIT - 1 && given == 0,
    );
    count(
        "serial 2^63 - 1, one given",
        serial == SERIAL_LIMIT - 1 && given == 1,
    );
    count(
        "serial 2^63 - 1, several given",
        serial == SERIAL_LIMIT - 1 && given > 1,
    );
    count(
        "serial 2^63 - 2, one given",
        serial == SERIAL_LIMIT - 2 && given == 1,
    );

    count("done: target in order", target_in_order);
    count("done: target not in order", !target_in_order);
    let at_limit = to_serial >= SERIAL_LIMIT;
    count("done: target's serial 2^63 or more", at_limit);
    count(
        "done: target's serial 2^63, same K and C",
        same && to_serial == SERIAL_LIMIT,
    );
    count(
        "done: target's total over L, same K and C",
        same && gauge_of(to_gauge).0 > L,
    );
    let zero = |bytes: &[u8]| bytes.iter().all(|byte| *byte == 0);
    count("done: target all zero", zero(to_table) && zero(to_gauge));
    count(
        "done: target as the source was",
        (to_table, to_gauge) == (table, gauge),
    );
    let (_, _, lines_after) = target.librarys.three();
    let other_than_0 =
        |from: usize, to: usize| !zero(&lines_after[LINE_BYTES * from..LINE_BYTES * to]);
    let own = on_lines.len();
    count(
        "done: a line given keeps bytes other than 0",
        other_than_0(own, own + given),
    );
    count(
        "done: a line left keeps bytes other than 0",
        other_than_0(own + given, to_c),
    );
    count(
        "done: a free record where bytes were",
        !zero(&to_table[RECORD_BYTES * kept.len()..]),
    );
}

/// A source that is near good and a target of any bytes, with lengths that may be wrong.
fn some_case(random: &mut Random) -> Case {
    let large = random.chance(2);
    let [k, to_k] = [(); 2].map(|()| some_records(large, random));
    let to_k = if random.chance(15) { k } else { to_k };
    let [c, to_c] = if large && random.chance(15) {
        // Many spare lines.
        [0, to_k - 1]
    } else {
        [k, to_k].map(|k| some_lines(k, random))
    };
    let to_c = if k == to_k && random.chance(30) {
        c
    } else {
        to_c
    };

    let total = good_total(random);
    let ceiling = match random.below(5) {
        0 | 1 => 0,
        2 => total,
        3 => random.between(0, total.min(9)),
        _ => random.between(0, total),
    };
    let serial = match random.below(10) {
        0 => SERIAL_LIMIT - 1 - random.below(1 + to_c as u64),
        1 => SERIAL_LIMIT - 1 - random.below(3),
        2 if random.chance(50) => random.pick(&[SERIAL_LIMIT, SERIAL_LIMIT + 1, u64::MAX]),
        _ => some_serial(random),
    };
    let keys = some_keys(k, random);
    let mut records = good_records(k, c, total, ceiling, &keys, random);
    if random.chance(6) {
        triple_line(&mut records, random);
    }
    give_tickets(&mut records, serial, random);
    let mut gauge = vec![0; GAUGE_BYTES];
    put_gauge(&mut gauge, total, ceiling, serial);
    if random.chance(25) {
        for _ in 0..random.between(1, 2) {
            damage(&mut records, &mut gauge, c, total, random);
        }
    }
    let mut table = vec![0; RECORD_BYTES * k];
    put_records(&mut table, &records);
    match random.below(100) {
        // Any bytes at all.
        0 => table = random.bytes(table.len()),
        1 => gauge = random.bytes(GAUGE_BYTES),
        // One bit of the table or gauge changed.
        2 => flip(&mut table, random),
        3 => flip(&mut gauge, random),
        // No record tracked: fresh, or after withdrawals.
        4 | 5 => {
            table.fill(0);
            if random.chance(50) {
                gauge.fill(0);
            }
        }
        _ => {}
    }
    let lines = random.bytes(LINE_BYTES * c);
    let source = [table, gauge, lines];
    let target = some_target([k, to_k], [c, to_c], &source, random);
    let mut case = Case { source, target };
    if random.chance(14) {
        let first = random.place(6);
        wrong_length(&mut case, first, random);
        match random.below(10) {
            0 => wrong_length(&mut case, (first + 3) % 6, random),
            1 => {
                for place in 0..6 {
                    if random.chance(50) {
                        wrong_length(&mut case, place, random);
                    }
                }
            }
            _ => {}
        }
    }
    case
}

/// K. Most tables are small; of the large ones most are at the ends.
fn some_records(large: bool, random: &mut Random) -> usize {
    if large {
        return match random.below(10) {
            0..=6 => random.pick(&ENDS),
            7 => random.between(513, 1_022) as usize,
            _ => random.between(100, 512) as usize,
        };
    }
    match random.below(100) {
        0..=4 => 1,
        5..=11 => 2,
        12..=59 => random.between(3, 7) as usize,
        60..=95 => random.between(4, 12) as usize,
        _ => random.between(13, 40) as usize,
    }
}

/// C, under K.
fn some_lines(k: usize, random: &mut Random) -> usize {
    match random.below(10) {
        0 => 0,
        1 => 1.min(k - 1),
        2..=4 => k - 1,
        5 => k / 2,
        _ => random.place(k),
    }
}

/// Puts up to four records on lines on one line.
fn triple_line(records: &mut [Record], random: &mut Random) {
    let on = |records: &[Record]| records.iter().position(|r| r.line().is_some());
    let Some(state) = on(records).map(|place| records[place].state) else {
        return;
    };
    let others = records.iter_mut().filter(|r| r.line().is_some());
    for record in others.take(random.between(3, 4) as usize) {
        record.state = (state & !1) | random.below(2);
    }
}

/// What stands in the target before the call: any bytes, zeros, ones, what the source has, or
/// another table in order.
fn some_target(
    [k, to_k]: [usize; 2],
    [c, to_c]: [usize; 2],
    source: &[Vec<u8>; 3],
    random: &mut Random,
) -> [Vec<u8>; 3] {
    let lengths = [RECORD_BYTES * to_k, GAUGE_BYTES, LINE_BYTES * to_c];
    let of = |byte: u8| lengths.map(|length| vec![byte; length]);
    let mut target = match random.below(12) {
        0 => of(0x00),
        1 => of(0xff),
        2 if (k, c) == (to_k, to_c) => source.clone(),
        2 => {
            // What the source has, as far as it goes.
            let mut target = source.clone();
            for (bytes, length) in target.iter_mut().zip(lengths) {
                bytes.resize(length, 0xa5);
            }
            target
        }
        3 => {
            let total = good_total(random);
            let keys = some_keys(to_k, random);
            let records = good_records(to_k, to_c, total, 0, &keys, random);
            let mut target = lengths.map(|length| random.bytes(length));
            put_records(&mut target[0], &records);
            put_gauge(&mut target[1], total, 0, random.between(0, 99));
            target
        }
        4 => {
            // Zeros, and lines of any bytes.
            let mut target = of(0x00);
            target[2] = random.bytes(lengths[2]);
            target
        }
        _ => lengths.map(|length| random.bytes(length)),
    };
    // A gauge that no source may have.
    match random.below(20) {
        0 => {
            let serial = random.pick(&[SERIAL_LIMIT, SERIAL_LIMIT + 1, u64::MAX]);
            put_number(&mut target[1], 16, serial);
        }
        1 => put_number(&mut target[1], 0, random.pick(&[L + 1, u64::MAX])),
        _ => {}
    }
    target
}

/// Gives one of the six buffers a wrong length, of the place given in BUFFERS.
fn wrong_length(case: &mut Case, place: usize, random: &mut Random) {
    let tables = [0, 3].map(|table| case.buffers()[table].len() / RECORD_BYTES);
    let k = tables[place / 3];
    let byte = random.next() as u8;
    let buffer = &mut case.buffers()[place];
    let whole = buffer.len();
    match place % 3 {
        0 => match random.below(6) {
            0 => buffer.clear(),
            1 if random.chance(20) => buffer.resize(41_000, byte),
            2 => buffer.resize(random.pick(&[39, 41]), byte),
            3 => buffer.truncate(whole.saturating_sub(1 + random.place(RECORD_BYTES - 1))),
            _ => buffer.resize(whole + 1 + random.place(RECORD_BYTES - 1), byte),
        },
        1 => match random.below(5) {
            0 => buffer.resize(random.pick(&[63, 65]), byte),
            1 => buffer.resize(LINE_BYTES * k, byte),
            2 => buffer.resize(LINE_BYTES * (k + 1), byte),
            3 => buffer.truncate(whole.saturating_sub(1)),
            _ => buffer.resize(whole + 1 + random.place(LINE_BYTES - 1), byte),
        },
        _ => match random.below(4) {
            0 => buffer.truncate(random.pick(&[0, 1, 8, 16])),
            1 => buffer.truncate(23),
            2 => buffer.resize(25, 0),
            _ => buffer.resize(random.pick(&[32, 40, 48]), byte),
        },
    }
}

// ---------------------------------------------------------------------------------------------
// Group (j): what a resize promises of the table of a list
// ---------------------------------------------------------------------------------------------

/// Table, gauge and lines.
type Three<'a> = (&'a [u8], &'a [u8], &'a [u8]);

/// Checks what the document says of a resize, on the source, the target's lines before it, and the
/// target after it. In the source no key, no line and no ticket is doubled, as after a list.
pub fn promised(source: Three, lines_before: &[u8], target: Three) -> Result<(), String> {
    let before = records_of(source.0);
    let after = records_of(target.0);
    let (total, ceiling, serial) = gauge_of(source.1);
    let c = target.2.len() / LINE_BYTES;
    let tracked: Vec<usize> = (0..before.len())
        .filter(|place| !before[*place].is_free())
        .collect();
    let with_line = tracked
        .iter()
        .filter(|place| before[**place].line().is_some());
    let with_line = with_line.count();

    // "Kept records are packed in their old order, the rest free".
    let count = tracked.len().min(after.len());
    if let Some(place) = (0..after.len()).find(|place| after[*place].is_free() != (*place >= count))
    {
        return Err(format!(
            "of {count} kept records, record {place} is {:?}",
            after[place]
        ));
    }
    let mut old_places = Vec::new();
    let mut left = tracked.iter().copied();
    for record in &after[..count] {
        let old = left.find(|place| before[*place].key == record.key);
        let old = old.ok_or(format!("{record:?} is not at its rank"))?;
        let was = &before[old];
        if (record.heat, record.slack) != (was.heat, was.slack) {
            return Err(format!("{was:?} became {record:?}"));
        }
        old_places.push(old);
    }

    // Lines kept, with number, bytes, ticket, and filled or empty.
    let mut kept_lines = Vec::new();
    let mut given = Vec::new();
    let mut lost = Vec::new();
    for (place, old) in old_places.iter().copied().enumerate() {
        let (was, is) = (&before[old], &after[place]);
        match (was.line(), is.line()) {
            (Some(from), Some(to)) => {
                let number = kept_lines.len();
                if to != number as u64
                    || (is.ticket, is.is_filled()) != (was.ticket, was.is_filled())
                {
                    return Err(format!(
                        "{was:?} became {is:?}, and line {number} is the next"
                    ));
                }
                let bytes = |lines: &[u8], line: u64| {
                    lines[LINE_BYTES * line as usize..][..LINE_BYTES].to_vec()
                };
                if bytes(source.2, from) != bytes(target.2, to) {
                    return Err(format!(
                        "{was:?} became {is:?}, and the line's bytes differ"
                    ));
                }
                kept_lines.push(old);
            }
            (Some(_), None) => lost.push(old),
            (None, Some(_)) => given.push((place, old)),
            (None, None) => {}
        }
    }
    if kept_lines.len() != with_line.min(c) {
        return Err(format!(
            "{} of {with_line} on lines keep one of {c}",
            kept_lines.len()
        ));
    }
    let from = LINE_BYTES * kept_lines.len();
    if lines_before[from..] != target.2[from..] {
        return Err("the bytes of a line that none kept changed".to_string());
    }

    // "the coldest lose them, first among equals": of those dropped too.
    let dropped: Vec<usize> = {
        let gone = |place: &&usize| old_places.binary_search(place).is_err();
        tracked.iter().filter(gone).copied().collect()
    };
    let rank = |place: &usize| (before[*place].heat, *place);
    let had = dropped
        .iter()
        .filter(|place| before[**place].line().is_some());
    let warmest_lost = lost.iter().chain(had).map(rank).max();
    let coldest_kept = kept_lines.iter().map(rank).min();
    if let (Some(lost), Some(kept)) = (warmest_lost, coldest_kept) {
        if lost > kept {
            return Err(format!(
                "heat and place {lost:?} lost a line, and {kept:?} kept one"
            ));
        }
    }

    // "victims of the Ask 5 order go"
    let rank = |place: &usize| {
        let record = &before[*place];
        (record.heat, u64::MAX - record.slack, *place)
    };
    let stays = old_places
        .iter()
        .filter(|place| kept_lines.binary_search(place).is_err());
    if let (Some(gone), Some(stays)) = (dropped.iter().map(rank).max(), stays.map(rank).min()) {
        if gone > stays {
            return Err(format!(
                "heat, 2^64 - 1 less slack and place: {gone:?} left, and {stays:?} stays"
            ));
        }
    }

    // "Spare lines, lowest first, go one by one to the hottest tracked without one".
    let spare = (c - kept_lines.len()).min(count - kept_lines.len());
    given.sort_by_key(|(place, _)| after[*place].line());
    let in_order = |pair: &[(usize, usize)]| {
        let [one, other] = [pair[0], pair[1]].map(|(_, old)| (u64::MAX - before[old].heat, old));
        one < other
    };
    if given.len() != spare || !given.windows(2).all(in_order) {
        return Err(format!(
            "spare lines are given to {given:?}, and there are {spare}"
        ));
    }
    for (number, (place, _)) in given.iter().enumerate() {
        let is = &after[*place];
        let line = (kept_lines.len() + number) as u64;
        let ticket = serial + 1 + number as u64;
        if (is.line(), is.is_filled(), is.ticket) != (Some(line), false, ticket) {
            return Err(format!("{is:?} has spare line {line} with ticket {ticket}"));
        }
    }
    let without = old_places.iter().enumerate();
    let without = without.filter(|(place, _)| after[*place].line().is_none());
    let hottest = without.map(|(_, old)| before[*old].heat).max();
    let coldest = given.iter().map(|(_, old)| before[*old].heat).min();
    if let (Some(hottest), Some(coldest)) = (hottest, coldest) {
        if hottest > coldest {
            return Err(format!(
                "heat {coldest} got a spare line, and heat {hottest} none"
            ));
        }
    }

    // "and the ceiling rises to the hottest one dropped if that is higher"
    let hottest = dropped.iter().map(|place| before[*place].heat).max();
    let due = (
        total,
        ceiling.max(hottest.unwrap_or(0)),
        serial + spare as u64,
    );
    let found = gauge_of(target.1);
    if found != due {
        return Err(format!("gauge {found:?}, and {due:?} is due"));
    }
    Ok(())
}

// ---------------------------------------------------------------------------------------------
// Group (k): examples
// ---------------------------------------------------------------------------------------------

/// Document 02's sentences on resizing.
const COPY: &str = "Copy a table, gauge and lines into others of another K and C.";
const LOSE: &str =
    "If more are on lines than the new C, the coldest lose them, first among equals.";
const LEAVE: &str = "Then, if more are tracked than the new K, victims of the Ask 5 order go";
const EQUALLY_COLD: &str =
    "Among equally cold records without a line, the victim is now the one with the largest slack, \
     then the first.";
const RISES: &str = "and the ceiling rises to the hottest one dropped if that is higher.";
const PACKED: &str = "Kept records are packed in their old order, the rest free";
const NUMBERED: &str =
    "and each kept record on a line gets the next line number in that order, with its line's 64 \
     bytes, its ticket, and filled or empty as before.";
const SPARE: &str =
    "Spare lines, lowest first, go one by one to the hottest tracked without one, first among \
     equals, empty and with new tickets.";
const REFUSED: &str =
    "Refusal 1 applies to source or target sizes, 3 and 10 to the source, and they leave both.";
const FEWEST: &str =
    "After resizing, the product with the ceiling and the levelled sum's bound use the smallest \
     record count since fresh, the sum over any that many records";
const HISTORY: &str = "all else in demand 3 holds at the new sizes, with the source's history";

/// Document 02's sentence on the serial, and document 01's sentences on what stays and on doubled
/// keys.
const LIMIT: &str = "10, a read over 0, update or fill when the serial is \
                     9,223,372,036,854,775,808 or more, tested after 3";
const STAYS: &str = "Lent bytes that no rule changes keep their values.";
const DOUBLED: &str = "Doubled keys or lines are not tested; the rules then use the first record.";

pub const EXAMPLES: [Example; 40] = [
    ("resize: larger", COPY, larger),
    ("resize: fresh table", COPY, fresh_table),
    ("resize: all numbers", COPY, all_numbers),
    ("resize: 1,024 to 1 and back", COPY, most_to_one_and_back),
    ("resize: every K", COPY, every_k),
    ("resize: every C", COPY, every_c),
    ("resize: coldest lose lines", LOSE, coldest_lose_lines),
    ("resize: first of the coldest", LOSE, first_of_the_coldest),
    ("resize: no line left", LOSE, no_line_left),
    ("resize: coldest leave", LEAVE, coldest_leave),
    ("resize: lost its line and leaves", LEAVE, lost_and_left),
    ("resize: on a line and stays", LEAVE, on_a_line_and_stays),
    ("resize: no more than K", LEAVE, no_more_than_k),
    ("resize: slack", EQUALLY_COLD, slack_decides),
    (
        "resize: first of equal slack",
        EQUALLY_COLD,
        first_of_equal_slack,
    ),
    ("resize: ceiling", RISES, ceiling_rises),
    (
        "resize: ceiling by a lost line",
        RISES,
        ceiling_by_a_lost_line,
    ),
    ("resize: packed", PACKED, packed),
    ("resize: rest free", PACKED, rest_free),
    (
        "resize: numbers in table order",
        NUMBERED,
        numbers_in_table_order,
    ),
    ("resize: same K and C", NUMBERED, same_size),
    (
        "resize: bytes of the old number",
        NUMBERED,
        bytes_of_the_old_number,
    ),
    ("resize: filled or empty", NUMBERED, filled_or_empty),
    ("resize: other bytes stay", STAYS, other_bytes_stay),
    ("resize: spare to the hottest", SPARE, spare_to_the_hottest),
    ("resize: spare among equals", SPARE, spare_among_equals),
    (
        "resize: spare above kept lines",
        SPARE,
        spare_above_kept_lines,
    ),
    ("resize: spare left over", SPARE, spare_left_over),
    ("resize: new tickets", SPARE, new_tickets),
    ("resize: serial past 2^63", LIMIT, serial_past_the_limit),
    ("resize: sizes", REFUSED, refused_sizes),
    ("resize: order", REFUSED, refused_order),
    ("resize: serial", REFUSED, refused_serial),
    ("resize: order of tests", REFUSED, order_of_tests),
    (
        "resize: target's own numbers",
        REFUSED,
        numbers_of_the_target,
    ),
    ("resize: doubled", DOUBLED, doubled_keys_and_lines),
    ("resize: fetch under way", NUMBERED, fetch_under_way),
    ("resize: withdrawal and look", SPARE, withdrawal_and_look),
    ("resize: smallest K", FEWEST, smallest_k),
    ("resize: history", HISTORY, history),
];

/// Where a line's bytes come from: the source's line of this number, or none, and they stay.
type OldLine = Option<usize>;

/// What a target must be: its records, its gauge, and where the bytes of its lines come from.
struct Due<'a> {
    records: &'a [Record],
    gauge: (u64, u64, u64),
    lines: &'a [OldLine],
}

impl<'a> Desk<'a> {
    /// Resizes into K and C. The number must be 0, the source stays as it was, and the desk goes on
    /// with the target. Gives the source's lines and the target's before.
    fn resized(&mut self, k: usize, c: usize) -> Result<[Vec<u8>; 2], String> {
        let memory = Memory::dirty(k, c, &mut self.random);
        let mut target = Both::new(self.both.model(), memory);
        let source = self.both.librarys.clone();
        let to_lines = target.librarys.lines.bytes().to_vec();
        let found = harness::resize(&mut self.both, &mut target, &mut Path::new())?;
        if found != 0 {
            return Err(format!(
                "resize to K {k}, C {c} returned {found}, and 0 is due"
            ));
        }
        if self.both.librarys.three() != source.three() {
            return Err(format!("resize to K {k}, C {c} changed its source"));
        }
        self.both = target;
        if let Some(replay) = &mut self.replay {
            replay.resized(k);
            let (table, gauge, lines) = self.both.librarys.three();
            replay.compare(table, gauge, lines)?;
            promised(source.three(), &to_lines, self.both.librarys.three())?;
        }
        Ok([source.lines.bytes().to_vec(), to_lines])
    }

    /// Resizes as above; the target must be as given, and so K and C.
    fn becomes(&mut self, due: Due) -> Result<(), String> {
        let old = self.resized(due.records.len(), due.lines.len())?;
        let found = records_of(self.both.librarys.table.bytes());
        for (place, (found, due)) in found.iter().zip(due.records).enumerate() {
            if found != due {
                return Err(format!("record {place} is {found:?}, and {due:?} is due"));
            }
        }
        let (total, ceiling, serial) = due.gauge;
        self.gauge(total, ceiling, serial)?;
        let lines = self.both.librarys.lines.bytes();
        for (line, from) in due.lines.iter().enumerate() {
            let (of, number) = match from {
                Some(number) => (&old[0], *number),
                None => (&old[1], line),
            };
            let is = &lines[LINE_BYTES * line..][..LINE_BYTES];
            if *is != of[LINE_BYTES * number..][..LINE_BYTES] {
                return Err(format!(
                    "line {line} has other bytes than {from:?} gives it"
                ));
            }
        }
        Ok(())
    }

    /// A resize into K and C must be refused with the number and leave source and target.
    fn refused(&mut self, number: u64, k: usize, c: usize) -> Result<(), String> {
        let memory = Memory::dirty(k, c, &mut self.random);
        let mut target = Both::new(self.both.model(), memory);
        self.refused_into(number, &mut target)
    }

    /// The same into a target as given.
    fn refused_into(&mut self, number: u64, target: &mut Both) -> Result<(), String> {
        let (from, to) = (self.both.librarys.clone(), target.librarys.clone());
        let found = harness::resize(&mut self.both, target, &mut Path::new())?;
        if found != number {
            return Err(format!("a resize returned {found}, and {number} is due"));
        }
        let stays = self.both.librarys.three() == from.three();
        if !stays || target.librarys.three() != to.three() {
            return Err(format!("a resize refused with {number} changed lent bytes"));
        }
        Ok(())
    }
}

/// A record on a line: its key, heat, slack, line and ticket, filled.
fn filled(key: u64, heat: u64, slack: u64, line: u64, ticket: u64) -> Record {
    record(key, heat, slack, 3 + 2 * line, ticket)
}

/// The same, empty.
fn empty(key: u64, heat: u64, slack: u64, line: u64, ticket: u64) -> Record {
    record(key, heat, slack, 2 + 2 * line, ticket)
}

/// So many records without a line, the heat of each its place, and no slack.
fn by_place(count: usize) -> Vec<Record> {
    let places = 0..count as u64;
    places.map(|place| plain(7_000 - place, place, 0)).collect()
}

fn larger(model: &Model, seed: u64) -> Result<(), String> {
    let records = [filled(5, 4, 0, 0, 7), plain(7, 3, 1), plain(9, 4, 0)];
    let mut desk = Desk::with(model, seed, (20, 1, 9), &records, 1);
    desk.becomes(Due {
        records: &[
            filled(5, 4, 0, 0, 7),
            empty(7, 3, 1, 2, 11),
            empty(9, 4, 0, 1, 10),
            FREE,
            FREE,
        ],
        gauge: (20, 1, 11),
        lines: &[Some(0), None, None, None],
    })?;
    desk.sum(4 + 3 + 4 + 1 + 1)
}

fn fresh_table(model: &Model, seed: u64) -> Result<(), String> {
    for (k, c) in [(1, 0), (2, 1), (8, 2), (1_024, 1_023)] {
        for (to_k, to_c) in [(1, 0), (3, 1), (8, 7), (1_023, 0), (1_024, 1_023)] {
            let mut desk = Desk::fresh(model, seed, k, c)?;
            desk.becomes(Due {
                records: &vec![FREE; to_k],
                gauge: (0, 0, 0),
                lines: &vec![None; to_c],
            })?;
            desk.gives(if to_c == 0 { 104 } else { 4_000 }, read(5, 3))?;
        }
    }
    // No record is tracked, and the gauge is not zero.
    let mut desk = Desk::with(model, seed, (9, 2, 5), &[FREE; 4], 3);
    desk.becomes(Due {
        records: &[FREE; 2],
        gauge: (9, 2, 5),
        lines: &[None],
    })
}

fn all_numbers(model: &Model, seed: u64) -> Result<(), String> {
    let most = 4_294_967_295;
    let serial = 9_223_372_036_854_775_807;
    let records = [
        plain(u64::MAX, most, u64::MAX),
        filled(0, most, 1 << 63, 1, u64::MAX),
        empty(1 << 32, 1 << 31, u64::MAX, 0, 0),
        plain(255, 0, 0),
    ];
    let mut desk = Desk::with(model, seed, (most, most, serial), &records, 2);
    desk.becomes(Due {
        records: &[
            records[0],
            filled(0, most, 1 << 63, 0, u64::MAX),
            empty(1 << 32, 1 << 31, u64::MAX, 1, 0),
            records[3],
            FREE,
        ],
        gauge: (most, most, serial),
        lines: &[Some(1), Some(0)],
    })
}

fn most_to_one_and_back(model: &Model, seed: u64) -> Result<(), String> {
    let (k, c) = (1_024, 1_023);
    // Place 600 is the hottest; all but the last two places are on lines, from the last line down.
    let mut records = by_place(k);
    records[600].heat = 5_000;
    for (place, record) in records.iter_mut().enumerate().take(1_022) {
        (record.state, record.ticket) = (2 + 2 * (1_022 - place as u64), 1 + place as u64);
    }
    let hottest = records[600];
    let mut desk = Desk::with(model, seed, (9_000, 7, 2_000), &records, c);
    desk.becomes(Due {
        records: &[plain(hottest.key, 5_000, 0)],
        gauge: (9_000, 1_023, 2_000),
        lines: &[],
    })?;
    let mut back = vec![FREE; k];
    back[0] = empty(hottest.key, 5_000, 0, 0, 2_001);
    desk.becomes(Due {
        records: &back,
        gauge: (9_000, 1_023, 2_001),
        lines: &[None; 1_023],
    })?;
    // A class that left may have any heat up to the ceiling.
    desk.gives(4_001, read(7_000, 1))?;
    desk.record(1, empty(7_000, 1_024, 1_023, 1, 2_002))
}

fn every_k(model: &Model, seed: u64) -> Result<(), String> {
    let records = by_place(1_024);
    for k in 1..=1_024 {
        let gone = 1_024 - k;
        let mut desk = Desk::with(model, seed, (5_000, 3, 1), &records, 0);
        desk.becomes(Due {
            records: &records[gone..],
            gauge: (5_000, (gone as u64).saturating_sub(1).max(3), 1),
            lines: &[],
        })
        .map_err(|text| format!("K {k}: {text}"))?;
    }
    Ok(())
}

fn every_c(model: &Model, seed: u64) -> Result<(), String> {
    // Place 0 alone has no line. The line of each is the one under its place.
    let mut records = by_place(1_024);
    for (place, record) in records.iter_mut().enumerate().skip(1) {
        let line = place as u64 - 1;
        (record.state, record.ticket) = (2 + 2 * line + line % 2, 2_000 - line);
    }
    for c in 0..=1_023 {
        let lost = 1_023 - c;
        let mut due = records.clone();
        for (place, record) in due.iter_mut().enumerate().skip(1) {
            if place <= lost {
                (record.state, record.ticket) = (1, 0);
            } else {
                record.state -= 2 * lost as u64;
            }
        }
        let lines: Vec<OldLine> = (lost..1_023).map(Some).collect();
        let mut desk = Desk::with(model, seed, (5_000, 3, 2_000), &records, 1_023);
        desk.becomes(Due {
            records: &due,
            gauge: (5_000, 3, 2_000),
            lines: &lines,
        })
        .map_err(|text| format!("C {c}: {text}"))?;
    }
    Ok(())
}

fn coldest_lose_lines(model: &Model, seed: u64) -> Result<(), String> {
    let records = [
        filled(5, 4, 0, 2, 7),
        empty(7, 3, 9, 0, 8),
        filled(9, 6, 1, 1, 6),
        plain(11, 2, 0),
    ];
    let mut desk = Desk::with(model, seed, (20, 1, 9), &records, 3);
    desk.becomes(Due {
        records: &[
            filled(5, 4, 0, 0, 7),
            plain(7, 3, 9),
            filled(9, 6, 1, 1, 6),
            plain(11, 2, 0),
        ],
        gauge: (20, 1, 9),
        lines: &[Some(2), Some(1)],
    })?;
    let mut desk = Desk::with(model, seed, (20, 1, 9), &records, 3);
    desk.becomes(Due {
        records: &[
            plain(5, 4, 0),
            plain(7, 3, 9),
            filled(9, 6, 1, 0, 6),
            plain(11, 2, 0),
        ],
        gauge: (20, 1, 9),
        lines: &[Some(1)],
    })
}

fn first_of_the_coldest(model: &Model, seed: u64) -> Result<(), String> {
    // All are equally hot; neither slack nor ticket nor line counts.
    let records = [
        filled(5, 4, 0, 3, 9),
        empty(7, 4, 9, 0, 8),
        filled(9, 4, 1, 1, 6),
        empty(11, 4, u64::MAX, 2, 7),
        plain(13, 4, 0),
    ];
    let old = [3, 0, 1, 2];
    for c in 0..=4 {
        let lost = 4 - c;
        let mut due = records;
        for (place, record) in due.iter_mut().enumerate().take(4) {
            (record.state, record.ticket) = if place < lost {
                (1, 0)
            } else {
                let line = (place - lost) as u64;
                (2 + 2 * line + record.state % 2, record.ticket)
            };
        }
        let mut desk = Desk::with(model, seed, (20, 1, 9), &records, 4);
        desk.becomes(Due {
            records: &due,
            gauge: (20, 1, 9),
            lines: &old[lost..].iter().copied().map(Some).collect::<Vec<_>>(),
        })
        .map_err(|text| format!("C {c}: {text}"))?;
    }
    // The coldest in every place, and one as cold behind it.
    for place in 0..4 {
        for equal in place + 1..5 {
            let mut records: Vec<Record> = (0..5)
                .map(|place| filled(20 + place, 6, 0, place, 30 - place))
                .collect();
            records.push(plain(5, 6, 0));
            records[place].heat = 5;
            records[equal].heat = 5;
            let mut due = records.clone();
            due[place] = plain(20 + place as u64, 5, 0);
            for later in &mut due[place + 1..5] {
                later.state -= 2;
            }
            let lines: Vec<OldLine> = (0..5).filter(|line| *line != place).map(Some).collect();
            let mut desk = Desk::with(model, seed, (40, 0, 30), &records, 5);
            desk.becomes(Due {
                records: &due,
                gauge: (40, 0, 30),
                lines: &lines,
            })
            .map_err(|text| format!("places {place} and {equal}: {text}"))?;
        }
    }
    Ok(())
}

fn no_line_left(model: &Model, seed: u64) -> Result<(), String> {
    let records = [filled(5, 4, 2, 1, 7), empty(7, 3, 1, 0, 8), plain(9, 1, 0)];
    let mut desk = Desk::with(model, seed, (20, 0, 8), &records, 2);
    desk.becomes(Due {
        records: &[plain(5, 4, 2), plain(7, 3, 1), plain(9, 1, 0)],
        gauge: (20, 0, 8),
        lines: &[],
    })?;
    desk.gives(104, read(5, 1))
}

fn coldest_leave(model: &Model, seed: u64) -> Result<(), String> {
    let records = [
        plain(5, 4, 0),
        plain(7, 1, 0),
        plain(9, 6, 0),
        plain(11, 2, 0),
        plain(13, 3, 0),
    ];
    for (k, stay, ceiling) in [
        (5, vec![0, 1, 2, 3, 4], 0),
        (4, vec![0, 2, 3, 4], 1),
        (3, vec![0, 2, 4], 2),
        (2, vec![0, 2], 3),
        (1, vec![2], 4),
    ] {
        let due: Vec<Record> = stay.iter().map(|place| records[*place]).collect();
        let mut desk = Desk::with(model, seed, (20, 0, 0), &records, 0);
        desk.becomes(Due {
            records: &due,
            gauge: (20, ceiling, 0),
            lines: &[],
        })
        .map_err(|text| format!("K {k}: {text}"))?;
    }
    Ok(())
}

fn lost_and_left(model: &Model, seed: u64) -> Result<(), String> {
    // Classes 5 and 7 lose their lines. Class 5 is the coldest without one then, and leaves.
    let records = [
        filled(5, 3, 0, 0, 4),
        plain(9, 4, 8),
        empty(7, 5, 0, 1, 5),
        filled(11, 9, 0, 2, 6),
    ];
    let mut desk = Desk::with(model, seed, (30, 1, 6), &records, 3);
    desk.becomes(Due {
        records: &[plain(9, 4, 8), plain(7, 5, 0), filled(11, 9, 0, 0, 6)],
        gauge: (30, 3, 6),
        lines: &[Some(2)],
    })?;
    // Class 9 leaves too, and then class 7.
    let mut desk = Desk::with(model, seed, (30, 1, 6), &records, 3);
    desk.becomes(Due {
        records: &[plain(7, 5, 0), filled(11, 9, 0, 0, 6)],
        gauge: (30, 4, 6),
        lines: &[Some(2)],
    })?;
    let mut desk = Desk::with(model, seed, (30, 1, 6), &records, 3);
    desk.becomes(Due {
        records: &[plain(11, 9, 0)],
        gauge: (30, 5, 6),
        lines: &[],
    })
}

fn on_a_line_and_stays(model: &Model, seed: u64) -> Result<(), String> {
    // No list makes such a table: classes on lines are the coldest, and have the largest slack.
    let records = [
        filled(5, 0, u64::MAX, 1, 4),
        plain(7, 5, 0),
        empty(9, 1, u64::MAX, 0, 5),
        plain(11, 4, 0),
        plain(13, 6, 0),
    ];
    let mut desk = Desk::with(model, seed, (30, 2, 6), &records, 2);
    desk.becomes(Due {
        records: &[
            filled(5, 0, u64::MAX, 0, 4),
            empty(9, 1, u64::MAX, 1, 5),
            plain(13, 6, 0),
        ],
        gauge: (30, 5, 6),
        lines: &[Some(1), Some(0)],
    })
}

fn no_more_than_k(model: &Model, seed: u64) -> Result<(), String> {
    // Three are tracked and K is 3: the coldest stays, and the ceiling.
    let records = [FREE, plain(5, 0, 9), FREE, plain(7, 5, 0), plain(9, 2, 0)];
    let mut desk = Desk::with(model, seed, (30, 2, 6), &records, 0);
    desk.becomes(Due {
        records: &[plain(5, 0, 9), plain(7, 5, 0), plain(9, 2, 0)],
        gauge: (30, 2, 6),
        lines: &[],
    })
}

fn slack_decides(model: &Model, seed: u64) -> Result<(), String> {
    for (less, more) in [
        (0, 1),
        (1, 2),
        (3, u64::MAX),
        (u64::MAX - 1, u64::MAX),
        ((1 << 32) - 1, 1 << 32),
        ((1 << 63) - 1, 1 << 63),
        (0xffff_ffff, 0x1_0000_0000),
        (5, (1 << 32) + 4),
    ] {
        let (sure, unsure) = (plain(5, 4, less), plain(7, 4, more));
        // Class 9 loses its line and is as cold; class 11 keeps its line.
        let (on, hot) = (filled(9, 4, more, 0, 3), filled(11, 6, u64::MAX, 1, 2));
        let was_on = plain(9, 4, more);
        let on_0 = filled(11, 6, u64::MAX, 0, 2);
        for (records, due) in [
            ([sure, unsure, on, hot], [sure, was_on, on_0]),
            ([unsure, sure, on, hot], [sure, was_on, on_0]),
            ([on, sure, unsure, hot], [sure, unsure, on_0]),
            ([on, hot, unsure, sure], [on_0, unsure, sure]),
            ([hot, sure, on, unsure], [on_0, sure, unsure]),
        ] {
            let mut desk = Desk::with(model, seed, (30, 4, 6), &records, 2);
            desk.becomes(Due {
                records: &due,
                gauge: (30, 4, 6),
                lines: &[Some(1)],
            })
            .map_err(|text| format!("slacks {less} and {more}: {text}"))?;
            // With the other of these two, both of the larger slack have left.
            let rest: Vec<Record> = due
                .iter()
                .filter(|r| r.key == 5 || r.key == 11)
                .copied()
                .collect();
            let mut desk = Desk::with(model, seed, (30, 1, 6), &records, 2);
            desk.becomes(Due {
                records: &rest,
                gauge: (30, 4, 6),
                lines: &[Some(1)],
            })
            .map_err(|text| format!("slacks {less} and {more}: {text}"))?;
        }
    }
    // A warmer one stays, whatever its slack.
    let records = [plain(5, 5, u64::MAX), plain(7, 4, 0), plain(9, 6, 7)];
    let mut desk = Desk::with(model, seed, (30, 0, 6), &records, 0);
    desk.becomes(Due {
        records: &[records[0], records[2]],
        gauge: (30, 4, 6),
        lines: &[],
    })
}

fn first_of_equal_slack(model: &Model, seed: u64) -> Result<(), String> {
    for slack in [0, 1, 1 << 32, u64::MAX] {
        // Class 7 was on a line.
        let records = [
            plain(5, 4, slack),
            filled(7, 4, slack, 0, 3),
            plain(9, 4, slack),
            plain(11, 4, slack),
        ];
        let without = [records[0], plain(7, 4, slack), records[2], records[3]];
        for k in 1..=4 {
            let mut desk = Desk::with(model, seed, (30, 1, 6), &records, 1);
            desk.becomes(Due {
                records: &without[4 - k..],
                gauge: (30, if k < 4 { 4 } else { 1 }, 6),
                lines: &[],
            })
            .map_err(|text| format!("slack {slack}, K {k}: {text}"))?;
        }
    }
    Ok(())
}

fn ceiling_rises(model: &Model, seed: u64) -> Result<(), String> {
    let records = [
        plain(5, 3, 0),
        plain(7, 5, 0),
        plain(9, 9, 0),
        plain(11, 4, 0),
    ];
    // Of those dropped, 3, 4 and 5 in turn, the hottest counts, and not the stay.
    for (k, hottest) in [(4, 0), (3, 3), (2, 4), (1, 5)] {
        for ceiling in 0..=10 {
            let mut desk = Desk::with(model, seed, (30, ceiling, 6), &records, 0);
            desk.resized(k, 0)?;
            desk.gauge(30, ceiling.max(hottest), 6)
                .map_err(|text| format!("K {k}, ceiling {ceiling}: {text}"))?;
        }
    }
    Ok(())
}

fn ceiling_by_a_lost_line(model: &Model, seed: u64) -> Result<(), String> {
    // Losing lines alone leaves the ceiling.
    let records = [filled(5, 8, 0, 0, 3), empty(7, 9, 0, 1, 4), plain(9, 2, 0)];
    let mut desk = Desk::with(model, seed, (30, 1, 6), &records, 2);
    desk.resized(3, 0)?;
    desk.gauge(30, 1, 6)?;
    // The hottest of those dropped was on a line.
    let mut desk = Desk::with(model, seed, (30, 1, 6), &records, 2);
    desk.becomes(Due {
        records: &[plain(7, 9, 0)],
        gauge: (30, 8, 6),
        lines: &[],
    })
}

fn packed(model: &Model, seed: u64) -> Result<(), String> {
    let records = [
        FREE,
        plain(9, 2, 1),
        FREE,
        FREE,
        filled(5, 7, 2, 0, 3),
        plain(7, 4, 3),
        FREE,
        plain(0, 3, 4),
        FREE,
    ];
    let (nine, five, seven, zero) = (records[1], records[4], records[5], records[7]);
    for (k, due) in [
        (
            9,
            vec![nine, five, seven, zero, FREE, FREE, FREE, FREE, FREE],
        ),
        (5, vec![nine, five, seven, zero, FREE]),
        (4, vec![nine, five, seven, zero]),
        (3, vec![five, seven, zero]),
        (2, vec![five, seven]),
    ] {
        let ceiling = match k {
            3 => 2,
            2 => 3,
            _ => 1,
        };
        let mut desk = Desk::with(model, seed, (30, 1, 6), &records, 2);
        desk.becomes(Due {
            records: &due,
            gauge: (30, ceiling, 6),
            lines: &[Some(0)],
        })
        .map_err(|text| format!("K {k}: {text}"))?;
    }
    Ok(())
}

fn rest_free(model: &Model, seed: u64) -> Result<(), String> {
    // The target had a full table in order, or ones; records behind the kept one are zero.
    let records = [FREE, plain(5, 4, 0), FREE];
    for dirty in [0x00, 0xff, 0x01] {
        let mut desk = Desk::with(model, seed, (9, 0, 0), &records, 0);
        let mut target = Desk::with(model, seed, (20, 7, 3), &by_place(20), 6)
            .both
            .librarys;
        if dirty > 0 {
            target.table.bytes_mut().fill(dirty);
            target.gauge.bytes_mut().fill(dirty);
        }
        let mut target = Both::new(model, target);
        let found = harness::resize(&mut desk.both, &mut target, &mut Path::new())?;
        let mut due = vec![FREE; 20];
        due[0] = empty(5, 4, 0, 0, 1);
        let (table, gauge, _) = target.librarys.three();
        if found != 0 || records_of(table) != due || gauge_of(gauge) != (9, 0, 1) {
            return Err(format!("returned {found}, with {:?}", records_of(table)));
        }
    }
    Ok(())
}

fn numbers_in_table_order(model: &Model, seed: u64) -> Result<(), String> {
    let records = [
        filled(5, 4, 0, 4, 7),
        plain(11, 1, 0),
        empty(7, 5, 0, 2, 8),
        FREE,
        filled(9, 6, 0, 3, 9),
        empty(13, 2, 0, 1, 6),
    ];
    let mut desk = Desk::with(model, seed, (30, 1, 9), &records, 5);
    desk.becomes(Due {
        records: &[
            filled(5, 4, 0, 0, 7),
            empty(11, 1, 0, 4, 10),
            empty(7, 5, 0, 1, 8),
            filled(9, 6, 0, 2, 9),
            empty(13, 2, 0, 3, 6),
            FREE,
            FREE,
        ],
        gauge: (30, 1, 10),
        lines: &[Some(4), Some(2), Some(3), Some(1), None, None],
    })?;
    // Class 13 loses its line, the lowest one in use, and class 11 leaves.
    let mut desk = Desk::with(model, seed, (30, 1, 9), &records, 5);
    desk.becomes(Due {
        records: &[
            filled(5, 4, 0, 0, 7),
            empty(7, 5, 0, 1, 8),
            filled(9, 6, 0, 2, 9),
            plain(13, 2, 0),
        ],
        gauge: (30, 1, 9),
        lines: &[Some(4), Some(2), Some(3)],
    })
}

fn same_size(model: &Model, seed: u64) -> Result<(), String> {
    // Lines change places; hits tell the new numbers.
    let records = [filled(5, 4, 0, 1, 7), filled(7, 5, 0, 0, 8), plain(9, 1, 0)];
    let mut desk = Desk::with(model, seed, (30, 1, 9), &records, 2);
    desk.look(2_001, 5)?;
    desk.becomes(Due {
        records: &[filled(5, 4, 0, 0, 7), filled(7, 5, 0, 1, 8), plain(9, 1, 0)],
        gauge: (30, 1, 9),
        lines: &[Some(1), Some(0)],
    })?;
    desk.look(2_000, 5)?;
    desk.look(2_001, 7)?;
    // Once in table order, nothing changes any more.
    let (table, gauge, lines) = desk.both.librarys.three();
    let before = (table.to_vec(), gauge.to_vec(), lines.to_vec());
    desk.resized(3, 2)?;
    let (table, gauge, lines) = desk.both.librarys.three();
    if (table, gauge, lines) != (&before.0[..], &before.1[..], &before.2[..]) {
        return Err("a second resize to the same size changed something".to_string());
    }
    // The thirteen rows are the same with such a resize before and after each, as all their records
    // are packed and there is one line.
    let mut desk = Desk::fresh(model, seed, 3, 1)?;
    for (row, (call, number, gauge)) in rows().into_iter().enumerate() {
        desk.resized(3, 1)?;
        let (total, ceiling, serial) = gauge;
        desk.gives(number, call)
            .and_then(|()| desk.gauge(total, ceiling, serial))
            .map_err(|text| format!("row {}: {text}", row + 1))?;
    }
    desk.resized(3, 1)?;
    desk.record(0, plain(5, 2, 0))?;
    desk.record(1, plain(7, 1, 0))?;
    desk.record(2, record(9, 3, 1, 2, 4))
}

fn bytes_of_the_old_number(model: &Model, seed: u64) -> Result<(), String> {
    // Every way to stand on three lines, all of them kept, or the first of them lost.
    for old in [
        [0, 1, 2],
        [0, 2, 1],
        [1, 0, 2],
        [1, 2, 0],
        [2, 0, 1],
        [2, 1, 0],
    ] {
        let records = [
            filled(5, 4, 0, old[0], 7),
            empty(7, 5, 0, old[1], 8),
            filled(9, 6, 0, old[2], 9),
            plain(11, 1, 0),
        ];
        let from = old.map(|line| Some(line as usize));
        let mut desk = Desk::with(model, seed, (30, 1, 9), &records, 3);
        desk.becomes(Due {
            records: &[
                filled(5, 4, 0, 0, 7),
                empty(7, 5, 0, 1, 8),
                filled(9, 6, 0, 2, 9),
                plain(11, 1, 0),
                FREE,
            ],
            gauge: (30, 1, 9),
            lines: &from,
        })?;
        let mut desk = Desk::with(model, seed, (30, 1, 9), &records, 3);
        desk.becomes(Due {
            records: &[plain(5, 4, 0), empty(7, 5, 0, 0, 8), filled(9, 6, 0, 1, 9)],
            gauge: (30, 1, 9),
            lines: &from[1..],
        })?;
    }
    Ok(())
}

fn filled_or_empty(model: &Model, seed: u64) -> Result<(), String> {
    let mut desk = Desk::fresh(model, seed, 4, 2)?;
    desk.gives(4_000, read(5, 3))?;
    desk.gives(4_001, read(7, 4))?;
    desk.gives(103, fill(7, 2))?;
    desk.gives(104, read(9, 1))?;
    desk.resized(6, 3)?;
    // Class 5 waits as before, class 7 shows its picture, and class 9 has the spare line.
    desk.wanted(1, read(5, 0))?;
    desk.look(2_001, 7)?;
    desk.look(4_002, 9)?;
    desk.told(3)?;
    let Call::Fill { picture, .. } = fill(7, 2) else {
        return Err("no fill".to_string());
    };
    let lines = desk.both.librarys.lines.bytes();
    if lines[LINE_BYTES..2 * LINE_BYTES] != picture[..] {
        return Err("class 7 shows another picture".to_string());
    }
    desk.gives(6, fill(7, 2))?;
    desk.gives(103, fill(5, 1))?;
    desk.gives(103, fill(9, 3))?;
    // Class 7 is filled on its line alone; the others lose theirs.
    desk.resized(3, 1)?;
    desk.look(2_000, 7)?;
    desk.look(104, 5)?;
    desk.look(104, 9)
}

fn other_bytes_stay(model: &Model, seed: u64) -> Result<(), String> {
    // One line is kept, one given and two are left: the bytes of these three stay.
    let records = [plain(5, 4, 0), filled(7, 5, 0, 1, 3), FREE];
    let mut desk = Desk::with(model, seed, (30, 1, 9), &records, 2);
    desk.becomes(Due {
        records: &[
            empty(5, 4, 0, 1, 10),
            filled(7, 5, 0, 0, 3),
            FREE,
            FREE,
            FREE,
        ],
        gauge: (30, 1, 10),
        lines: &[Some(1), None, None, None],
    })?;
    // No line is kept.
    let records = [plain(5, 4, 0), plain(7, 5, 0)];
    let mut desk = Desk::with(model, seed, (30, 1, 9), &records, 0);
    desk.becomes(Due {
        records: &[empty(5, 4, 0, 1, 11), empty(7, 5, 0, 0, 10), FREE, FREE],
        gauge: (30, 1, 11),
        lines: &[None; 3],
    })
}

fn spare_to_the_hottest(model: &Model, seed: u64) -> Result<(), String> {
    let records = [
        plain(5, 2, 0),
        plain(7, 6, 0),
        plain(9, 1, 0),
        plain(11, 8, 0),
        plain(13, 4, 0),
    ];
    let order = [3, 1, 4, 0, 2];
    for c in 0..=5 {
        let mut due = records.to_vec();
        due.push(FREE);
        for (line, place) in order.iter().enumerate().take(c) {
            due[*place].state = 2 + 2 * line as u64;
            due[*place].ticket = 41 + line as u64;
        }
        let mut desk = Desk::with(model, seed, (30, 1, 40), &records, 0);
        desk.becomes(Due {
            records: &due,
            gauge: (30, 1, 40 + c as u64),
            lines: &vec![None; c],
        })
        .map_err(|text| format!("C {c}: {text}"))?;
    }
    Ok(())
}

fn spare_among_equals(model: &Model, seed: u64) -> Result<(), String> {
    // Slacks do not count, nor do keys.
    for (first, second) in [(0, u64::MAX), (u64::MAX, 0), (3, 3), (1, 2), (2, 1)] {
        let records = [
            plain(11, 3, u64::MAX),
            plain(7, 4, first),
            filled(5, 9, 0, 0, 7),
            plain(9, 4, second),
            plain(2, 4, first),
        ];
        let mut desk = Desk::with(model, seed, (40, 1, 40), &records, 1);
        desk.becomes(Due {
            records: &[
                records[0],
                empty(7, 4, first, 1, 41),
                records[2],
                empty(9, 4, second, 2, 42),
                records[4],
            ],
            gauge: (40, 1, 42),
            lines: &[Some(0), None, None],
        })?;
    }
    // Heat 0 is no hindrance, and a free record gets none.
    let records = [FREE, plain(5, 0, 0), FREE, plain(7, 0, 0)];
    let mut desk = Desk::with(model, seed, (40, 1, 40), &records, 0);
    desk.becomes(Due {
        records: &[empty(5, 0, 0, 0, 41), empty(7, 0, 0, 1, 42), FREE, FREE],
        gauge: (40, 1, 42),
        lines: &[None; 3],
    })
}

fn spare_above_kept_lines(model: &Model, seed: u64) -> Result<(), String> {
    // The source's line 0 is used by no record. In the target the spare line is the last one.
    let records = [
        plain(5, 3, 0),
        empty(7, 4, 0, 2, 9),
        plain(9, 3, 5),
        filled(11, 8, 0, 1, 8),
    ];
    let mut desk = Desk::with(model, seed, (40, 1, 40), &records, 3);
    desk.becomes(Due {
        records: &[
            empty(5, 3, 0, 2, 41),
            empty(7, 4, 0, 0, 9),
            plain(9, 3, 5),
            filled(11, 8, 0, 1, 8),
        ],
        gauge: (40, 1, 41),
        lines: &[Some(2), Some(1), None],
    })?;
    // Class 9 leaves by its slack, and class 5 has the spare line in a smaller table.
    let mut desk = Desk::with(model, seed, (40, 1, 40), &records, 3);
    desk.becomes(Due {
        records: &[plain(5, 3, 0), empty(7, 4, 0, 0, 9), filled(11, 8, 0, 1, 8)],
        gauge: (40, 3, 40),
        lines: &[Some(2), Some(1)],
    })?;
    let records = [plain(5, 3, 0), plain(7, 4, 0), plain(9, 2, 0), FREE];
    let mut desk = Desk::with(model, seed, (40, 1, 40), &records, 3);
    desk.becomes(Due {
        records: &[plain(5, 3, 0), empty(7, 4, 0, 0, 41)],
        gauge: (40, 2, 41),
        lines: &[None],
    })
}

fn spare_left_over(model: &Model, seed: u64) -> Result<(), String> {
    // All two are on lines, and two lines are left. The next new classes take them, lowest first.
    let mut desk = Desk::fresh(model, seed, 2, 1)?;
    desk.gives(4_000, read(5, 3))?;
    desk.gives(104, read(7, 2))?;
    desk.resized(5, 4)?;
    desk.record(0, empty(5, 3, 0, 0, 1))?;
    desk.record(1, empty(7, 2, 0, 1, 2))?;
    desk.gauge(5, 0, 2)?;
    desk.gives(4_002, read(9, 1))?;
    desk.told(3)?;
    desk.gives(4_003, read(11, 1))?;
    desk.told(4)?;
    desk.gives(104, read(13, 1))
}

fn new_tickets(model: &Model, seed: u64) -> Result<(), String> {
    // Kept lines keep their tickets, also such as come again or are far over the serial.
    let records = [
        plain(5, 3, 0),
        filled(7, 9, 0, 0, 41),
        empty(9, 8, 0, 1, u64::MAX),
        plain(11, 4, 0),
    ];
    let mut desk = Desk::with(model, seed, (40, 1, 40), &records, 2);
    desk.becomes(Due {
        records: &[
            empty(5, 3, 0, 3, 42),
            filled(7, 9, 0, 0, 41),
            empty(9, 8, 0, 1, u64::MAX),
            empty(11, 4, 0, 2, 41),
            FREE,
        ],
        gauge: (40, 1, 42),
        lines: &[Some(0), Some(1), None, None],
    })?;
    // As many as there can be at once.
    let records = by_place(1_024);
    let mut due = records.clone();
    for (place, record) in due.iter_mut().enumerate().skip(1) {
        let line = 1_023 - place as u64;
        (record.state, record.ticket) = (2 + 2 * line, 41 + line);
    }
    let mut desk = Desk::with(model, seed, (5_000, 1, 40), &records, 0);
    desk.becomes(Due {
        records: &due,
        gauge: (5_000, 1, 1_063),
        lines: &[None; 1_023],
    })
}

fn serial_past_the_limit(model: &Model, seed: u64) -> Result<(), String> {
    let limit = 1 << 63;
    let records = [plain(5, 3, 0), plain(7, 4, 0), plain(9, 2, 0)];
    for (serial, c, after) in [
        (limit - 1, 0, limit - 1),
        (limit - 1, 1, limit),
        (limit - 1, 3, limit + 2),
        (limit - 2, 3, limit + 1),
        (limit - 3, 3, limit),
        (limit - 4, 3, limit - 1),
    ] {
        let mut desk = Desk::with(model, seed, (40, 1, serial), &records, 0);
        desk.resized(4, c)?;
        desk.gauge(40, 1, after)?;
        if c == 3 {
            desk.record(0, empty(5, 3, 0, 1, serial + 2))?;
            desk.record(1, empty(7, 4, 0, 0, serial + 1))?;
            desk.record(2, empty(9, 2, 0, 2, serial + 3))?;
        }
        if after < limit {
            desk.gives(if c == 0 { 104 } else { 4_000 }, read(7, 1))?;
            continue;
        }
        // Refused from now on: all that may need a serial, and every resize.
        desk.gives(10, read(7, 1))?;
        desk.gives(10, update(7, 1))?;
        desk.gives(10, withdraw(7))?;
        desk.gives(10, fill(7, serial + 1))?;
        desk.refused(10, 4, c)?;
        desk.refused(10, 1, 0)?;
        desk.gives(4_000, read(7, 0))?;
        desk.told(serial + 1)?;
        desk.gives(100, Call::Age)?;
        desk.gives(0, Call::LevelledSum)?;
    }
    // With the most that one resize can give.
    let mut desk = Desk::with(model, seed, (5_000, 1, limit - 1), &by_place(1_024), 0);
    desk.resized(1_024, 1_023)?;
    desk.gauge(5_000, 1, limit + 1_022)?;
    desk.refused(10, 1_024, 1_023)
}

fn refused_sizes(model: &Model, seed: u64) -> Result<(), String> {
    // K and C that are wrong, for the source and for the target.
    for (k, c) in [
        (0, 0),
        (0, 1),
        (1, 1),
        (1, 2),
        (2, 2),
        (3, 3),
        (3, 4),
        (1_024, 1_024),
        (1_025, 0),
        (1_025, 1_024),
        (1_026, 1),
    ] {
        Desk::dirty(model, seed, k, c).refused(1, 3, 1)?;
        Desk::dirty(model, seed, k, c).refused(1, k, c)?;
        Desk::fresh(model, seed, 3, 1)?.refused(1, k, c)?;
    }
    // Lengths that are not whole, or no gauge's.
    for lengths in [
        [119, 24, 64, 8],
        [121, 24, 64, 8],
        [0, 24, 0, 8],
        [0, 24, 64, 8],
        [1, 24, 0, 8],
        [39, 24, 0, 8],
        [120, 0, 64, 8],
        [120, 16, 64, 8],
        [120, 23, 64, 8],
        [120, 25, 64, 8],
        [120, 32, 64, 8],
        [120, 24, 1, 8],
        [120, 24, 63, 8],
        [120, 24, 65, 8],
        [120, 24, 127, 8],
    ] {
        let mut desk = Desk::fresh(model, seed, 3, 1)?;
        let memory = Memory::dirty(3, 1, &mut desk.random);
        let mut target = Both::new(model, memory);
        let whole = target.set_lengths(lengths);
        desk.refused_into(1, &mut target)?;
        target.set_lengths(whole);
        let whole = desk.both.set_lengths(lengths);
        desk.refused_into(1, &mut target)?;
        desk.both.set_lengths(whole);
        desk.resized(3, 1)?;
    }
    // The ends of what is allowed.
    for (k, c) in [(1, 0), (2, 1), (1_024, 0), (1_024, 1_023)] {
        let mut desk = Desk::fresh(model, seed, k, c)?;
        desk.resized(k, c)?;
    }
    Ok(())
}

fn refused_order(model: &Model, seed: u64) -> Result<(), String> {
    let most = 4_294_967_295;
    let good = [filled(5, 4, 0, 0, 7), plain(7, 3, 0), FREE];
    Desk::with(model, seed, (4, 4, 9), &good, 1).resized(3, 1)?;
    for (gauge, records) in [
        ((most + 1, 1, 9), good),
        ((u64::MAX, 1, 9), good),
        ((9, 10, 9), good),
        ((9, u64::MAX, 9), good),
        // A heat over total, on a line and off it.
        ((3, 1, 9), good),
        ((9, 1, 9), [good[0], plain(7, 10, 0), FREE]),
        // A state over 3.
        ((9, 1, 9), [good[0], record(7, 3, 0, 4, 0), FREE]),
        ((9, 1, 9), [record(7, 3, 0, 5, 0), FREE, FREE]),
        ((9, 1, 9), [record(7, 3, 0, u64::MAX, 0), FREE, FREE]),
        // A free record that is not zero.
        ((9, 1, 9), [good[0], good[1], record(1, 0, 0, 0, 0)]),
        ((9, 1, 9), [good[0], good[1], record(0, 1, 0, 0, 0)]),
        ((9, 1, 9), [good[0], good[1], record(0, 0, 1, 0, 0)]),
        ((9, 1, 9), [good[0], good[1], record(0, 0, 0, 0, 1)]),
        // A ticket without a line.
        ((9, 1, 9), [good[0], record(7, 3, 0, 1, 8), FREE]),
        // Two on lines, and C is 1.
        ((9, 1, 9), [good[0], empty(7, 3, 0, 0, 8), FREE]),
    ] {
        for (k, c) in [(3, 1), (1, 0), (8, 5)] {
            Desk::with(model, seed, gauge, &records, 1).refused(3, k, c)?;
        }
    }
    // A state that fits the target's lines and not the source's, and the other way round.
    let records = [empty(5, 4, 0, 2, 7), FREE, FREE, FREE];
    Desk::with(model, seed, (9, 1, 9), &records, 2).refused(3, 4, 3)?;
    let mut desk = Desk::with(model, seed, (9, 1, 9), &records, 3);
    desk.becomes(Due {
        records: &[empty(5, 4, 0, 0, 7), FREE],
        gauge: (9, 1, 9),
        lines: &[Some(2)],
    })
}

fn refused_serial(model: &Model, seed: u64) -> Result<(), String> {
    let limit = 1 << 63;
    let records = [filled(5, 4, 0, 0, 7), plain(7, 3, 0), FREE];
    for serial in [limit, limit + 1, u64::MAX - 1, u64::MAX] {
        // Also where no ticket would be given: no spare line, no line at all, none tracked.
        for (k, c) in [(3, 1), (3, 0), (1, 0), (3, 2), (1_024, 1_023)] {
            Desk::with(model, seed, (9, 1, serial), &records, 1).refused(10, k, c)?;
            Desk::with(model, seed, (9, 1, serial), &[FREE; 3], 1).refused(10, k, c)?;
        }
    }
    Ok(())
}

fn order_of_tests(model: &Model, seed: u64) -> Result<(), String> {
    let limit = 1 << 63;
    let good = [filled(5, 4, 0, 0, 7), plain(7, 3, 0), FREE];
    let bad = [good[0], record(7, 3, 0, 1, 8), FREE];
    for (serial, records, number) in [
        (9, good, 0),
        (9, bad, 3),
        (limit, good, 10),
        (limit, bad, 3),
    ] {
        let desk = || Desk::with(model, seed, (9, 1, serial), &records, 1);
        let whole = [120, 24, 64, 8];
        let wrongs = [
            [119, 24, 64, 8],
            [0, 24, 64, 8],
            [120, 23, 64, 8],
            [120, 24, 63, 8],
            [40, 24, 64, 8],
        ];
        for (of_source, of_target) in [(true, false), (false, true), (true, true), (false, false)] {
            for wrong in wrongs {
                let mut desk = desk();
                let memory = Memory::dirty(3, 1, &mut desk.random);
                let mut target = Both::new(model, memory);
                desk.both.set_lengths(if of_source { wrong } else { whole });
                target.set_lengths(if of_target { wrong } else { whole });
                let due = if of_source || of_target { 1 } else { number };
                if due > 0 {
                    desk.refused_into(due, &mut target)?;
                }
            }
        }
    }
    Ok(())
}

fn numbers_of_the_target(model: &Model, seed: u64) -> Result<(), String> {
    // Neither order nor serial of what stands in the target counts.
    let limit = 1 << 63;
    let records = [filled(5, 4, 0, 0, 7), plain(7, 3, 0), FREE];
    for gauge in [(u64::MAX, 9, 1), (1, 9, 1), (9, 1, limit), (9, 1, u64::MAX)] {
        let target = [record(1, 99, 0, 999, 8), record(0, 1, 0, 0, 0)];
        let mut target = Desk::with(model, seed, gauge, &target, 1).both;
        let mut desk = Desk::with(model, seed, (9, 1, 9), &records, 1);
        let found = harness::resize(&mut desk.both, &mut target, &mut Path::new())?;
        let (table, gauge, lines) = target.librarys.three();
        let due = vec![records[0], records[1]];
        let same = lines == desk.both.librarys.lines.bytes();
        if found != 0 || records_of(table) != due || gauge_of(gauge) != (9, 1, 9) || !same {
            return Err(format!("returned {found}, with {:?}", records_of(table)));
        }
    }
    // A good target does not help a source that is refused.
    for (total, serial, number) in [(3, 9, 3), (9, limit, 10)] {
        let mut target = Desk::with(model, seed, (9, 1, 9), &records, 1).both;
        let mut desk = Desk::with(model, seed, (total, 1, serial), &records, 1);
        desk.refused_into(number, &mut target)?;
    }
    Ok(())
}

fn doubled_keys_and_lines(model: &Model, seed: u64) -> Result<(), String> {
    // Three are on line 1, and class 5 is there twice. Each gets a line of its own with a copy.
    let records = [
        filled(5, 6, 0, 1, 7),
        plain(9, 1, 0),
        empty(5, 4, 2, 1, 8),
        filled(7, 5, 0, 1, 7),
        plain(9, 3, 1),
    ];
    let mut desk = Desk::with(model, seed, (30, 1, 9), &records, 3);
    desk.becomes(Due {
        records: &[
            filled(5, 6, 0, 0, 7),
            plain(9, 1, 0),
            empty(5, 4, 2, 1, 8),
            filled(7, 5, 0, 2, 7),
            empty(9, 3, 1, 3, 10),
            FREE,
        ],
        gauge: (30, 1, 10),
        lines: &[Some(1), Some(1), Some(1), None],
    })?;
    // Of two on one line one loses it, and one of two records of class 9 leaves.
    let mut desk = Desk::with(model, seed, (30, 1, 9), &records, 3);
    desk.becomes(Due {
        records: &[
            filled(5, 6, 0, 0, 7),
            plain(5, 4, 2),
            filled(7, 5, 0, 1, 7),
            plain(9, 3, 1),
        ],
        gauge: (30, 1, 9),
        lines: &[Some(1), Some(1)],
    })?;
    // The rules use the first record of class 5.
    desk.look(2_000, 5)
}

fn fetch_under_way(model: &Model, seed: u64) -> Result<(), String> {
    let start = || -> Result<Desk, String> {
        let mut desk = Desk::fresh(model, seed, 4, 2)?;
        desk.gives(4_000, read(5, 2))?;
        desk.told(1)?;
        desk.gives(4_001, read(7, 9))?;
        desk.told(2)?;
        desk.gives(104, read(9, 1))?;
        Ok(desk)
    };
    // The lines are kept: the pictures may come.
    for (k, c) in [(4, 2), (3, 2), (8, 2), (1_024, 1_023)] {
        let mut desk = start()?;
        desk.resized(k, c)?;
        desk.gives(103, fill(7, 2))?;
        desk.gives(103, fill(5, 1))?;
        desk.look(2_000, 5)?;
        desk.look(2_001, 7)?;
    }
    // Class 5 loses its line, and later it has one again.
    let mut desk = start()?;
    desk.resized(4, 1)?;
    desk.gives(5, fill(5, 1))?;
    desk.gives(103, fill(7, 2))?;
    desk.resized(3, 2)?;
    desk.record(0, empty(5, 2, 0, 1, 3))?;
    desk.record(1, filled(7, 9, 0, 0, 2))?;
    desk.gives(9, fill(5, 1))?;
    desk.gives(4_001, read(5, 0))?;
    desk.told(3)?;
    desk.gives(103, fill(5, 3))?;
    // Class 5 leaves, and comes back by a read.
    let mut desk = start()?;
    desk.resized(1, 0)?;
    desk.gauge(12, 2, 2)?;
    desk.gives(5, fill(5, 1))?;
    desk.gives(5, fill(7, 2))?;
    desk.resized(3, 2)?;
    desk.gives(9, fill(7, 2))?;
    desk.gives(103, fill(7, 3))?;
    desk.gives(4_001, read(5, 1))?;
    desk.told(4)?;
    desk.record(1, empty(5, 3, 2, 1, 4))?;
    desk.gives(9, fill(5, 1))?;
    desk.gives(103, fill(5, 4))
}

fn withdrawal_and_look(model: &Model, seed: u64) -> Result<(), String> {
    let mut desk = Desk::fresh(model, seed, 5, 1)?;
    for (key, weight) in [(5, 6), (7, 3), (9, 4), (11, 2), (13, 4)] {
        let number = if key == 5 { 4_000 } else { 104 };
        desk.gives(number, read(key, weight))?;
    }
    desk.gives(103, fill(5, 1))?;
    // A record is freed in the middle, and packed over.
    desk.gives(105, withdraw(7))?;
    desk.becomes(Due {
        records: &[
            filled(5, 6, 0, 0, 1),
            empty(9, 4, 0, 1, 2),
            plain(11, 2, 0),
            plain(13, 4, 0),
        ],
        gauge: (19, 0, 2),
        lines: &[Some(0), None],
    })?;
    desk.look(104, 7)?;
    desk.look(104, 13)?;
    desk.look(4_001, 9)?;
    desk.told(2)?;
    desk.look(2_000, 5)?;
    // The line of class 5 goes to class 13, the hottest left without one.
    desk.gives(105, withdraw(5))?;
    desk.record(0, FREE)?;
    desk.record(3, empty(13, 4, 0, 0, 3))?;
    desk.gives(102, withdraw(5))?;
    // Withdrawn by its owner, and no class left without a line: one is unused, and the next resize
    // takes it away.
    desk.gives(105, withdraw(11))?;
    desk.gives(105, withdraw(9))?;
    desk.becomes(Due {
        records: &[empty(13, 4, 0, 0, 3), FREE],
        gauge: (19, 0, 3),
        lines: &[Some(0)],
    })
}

fn smallest_k(model: &Model, seed: u64) -> Result<(), String> {
    // Two records, three classes of weight 3: the ceiling comes to 3 and the total to 9.
    let mut desk = Desk::fresh(model, seed, 2, 0)?;
    for key in [5, 7, 9] {
        desk.gives(104, read(key, 3))?;
    }
    desk.gauge(9, 3, 0)?;
    desk.sum(6 + 3)?;
    // In 8 records the ceiling counts 6 times more than it was paid for, in any two it does not.
    desk.resized(8, 1)?;
    desk.gauge(9, 3, 1)?;
    desk.sum(6 + 3 + 6 * 3)?;
    let replay = desk.replay.clone().expect("a list from fresh");
    if (replay.fewest, replay.records) != (2, 8) {
        return Err(format!("the smallest K is {}", replay.fewest));
    }
    // Down to 3 records it is 2 still, and down to 1 it is 1: now the hottest of all counts alone.
    desk.resized(3, 1)?;
    desk.sum(6 + 3 + 3)?;
    desk.resized(1, 0)?;
    desk.gauge(9, 3, 1)?;
    desk.sum(6)?;
    desk.gives(104, read(11, 1))?;
    desk.gauge(10, 6, 1)?;
    desk.record(0, plain(11, 7, 6))?;
    desk.resized(4, 0)?;
    desk.sum(7 + 3 * 6)?;
    let replay = desk.replay.clone().expect("a list from fresh");
    if (replay.fewest, replay.records) != (1, 4) {
        return Err(format!("the smallest K is {}", replay.fewest));
    }
    // From a fresh on, the smallest is K again.
    desk.gives(0, Call::Fresh)?;
    let replay = desk.replay.clone().expect("a list from fresh");
    if (replay.fewest, replay.records) != (4, 4) {
        return Err(format!("the smallest K is {}", replay.fewest));
    }
    Ok(())
}

fn history(model: &Model, seed: u64) -> Result<(), String> {
    // True heats are those of the whole list: a class that left has no more than the ceiling, and
    // when it comes back, its heat covers what it had.
    let mut desk = Desk::fresh(model, seed, 4, 2)?;
    for (key, weight, number) in [(5, 6, 4_000), (7, 3, 4_001), (9, 4, 4_001), (11, 5, 4_001)] {
        desk.gives(number, read(key, weight))?;
    }
    desk.resized(2, 1)?;
    desk.gauge(18, 4, 4)?;
    desk.record(0, empty(5, 6, 0, 0, 1))?;
    desk.record(1, plain(11, 5, 0))?;
    desk.true_heat(9, 4)?;
    // An update of a class that left is of an unknown one, and its true heat falls.
    desk.gives(102, update(9, 3))?;
    desk.true_heat(9, 1)?;
    desk.gives(100, Call::Age)?;
    desk.gauge(9, 2, 4)?;
    desk.gives(104, read(7, 1))?;
    desk.record(1, plain(7, 3, 2))?;
    desk.true_heat(7, 2)?;
    desk.gauge(10, 2, 4)?;
    desk.gives(103, fill(5, 1))?;
    desk.resized(3, 2)?;
    desk.record(0, filled(5, 3, 0, 0, 1))?;
    desk.record(1, empty(7, 3, 2, 1, 5))?;
    desk.gives(104, read(9, 1))?;
    desk.record(2, plain(9, 3, 2))?;
    desk.true_heat(9, 1)
}
