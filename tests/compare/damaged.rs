//! Group (a): single calls on damaged memory. Each memory is lent to a read, look, update, fill,
//! withdrawal or aging, to a fresh and to a levelled sum.

use crate::harness::{Both, Memory};
use crate::lists::{STEPS, STEPS_AT_THE_LIMIT};
use crate::model::{
    empty_on, filled_on, gauge_of, is_refused, levelled_sum, not_in_order, put_gauge, put_number,
    put_records, records_of, serial_at_limit, wrong_picture, wrong_read_weight, wrong_sizes,
    wrong_ticket_bytes, wrong_update_weight, Call, Model, Path, Record,
};
use crate::model::{
    FREE, GAUGE_BYTES, L, LINE_BYTES, MOST_WEIGHT, RECORD_BYTES, SERIAL_LIMIT, SUM_BYTES,
    TICKET_BYTES, TRACKED,
};
use crate::random::Random;
use crate::Counts;

/// Every answer and refusal of each call; a look is a read of weight 0. Each must come.
pub const ANSWERS: [&str; 39] = [
    "read 1",
    "read 2",
    "read 3",
    "read 10",
    "read passed",
    "read hit",
    "read wanted",
    "look 1",
    "look 3",
    "look passed",
    "look hit",
    "look wanted",
    "update 1",
    "update 2",
    "update 3",
    "update 10",
    "update changed",
    "update unknown",
    "fill 1",
    "fill 4",
    "fill 3",
    "fill 10",
    "fill 5",
    "fill 6",
    "fill 9",
    "fill stored",
    "withdraw 1",
    "withdraw 3",
    "withdraw 10",
    "withdraw withdrawn",
    "withdraw unknown",
    "age 1",
    "age 3",
    "age aged",
    "fresh 1",
    "fresh done",
    "sum 1",
    "sum 3",
    "sum done",
];

/// Every part of cause 1.
pub const SIZES: [&str; 5] = [
    "1: table not whole records",
    "1: K outside 1 to 1,024",
    "1: lines not whole",
    "1: C not under K",
    "1: gauge bytes not 24",
];

/// Every part of cause 3.
pub const ORDER: [&str; 7] = [
    "3: total over L",
    "3: ceiling over total",
    "3: a heat over total",
    "3: a state over 1 + 2 C",
    "3: a free record not zero",
    "3: a ticket without a line",
    "3: over C records on lines",
];

/// A read's own part of cause 1 (alone), the parts of cause 5 (alone), for each call every pair of
/// causes that can hold at once, in the order of tests, the agings of a read, doubled classes and
/// what a look or a withdrawal meets in no list. With the parts of 1 and of 3 (alone) and the steps
/// of the lists, each must come.
const CAUSES: [&str; 49] = [
    "1: ticket bytes not 8",
    "5: no record",
    "5: no line",
    "read 1 and 2",
    "read 1 and 3",
    "read 1 and 10",
    "read 2 and 3",
    "read 2 and 10",
    "read 3 and 10",
    "look 1 and 3",
    "update 1 and 2",
    "update 1 and 3",
    "update 1 and 10",
    "update 2 and 3",
    "update 2 and 10",
    "update 3 and 10",
    "fill 1 and 4",
    "fill 1 and 3",
    "fill 1 and 10",
    "fill 1 and 5",
    "fill 1 and 6",
    "fill 1 and 9",
    "fill 4 and 3",
    "fill 4 and 10",
    "fill 4 and 5",
    "fill 4 and 6",
    "fill 4 and 9",
    "fill 3 and 10",
    "fill 3 and 5",
    "fill 3 and 6",
    "fill 3 and 9",
    "fill 10 and 5",
    "fill 10 and 6",
    "fill 10 and 9",
    "fill 5 and 9",
    "fill 6 and 9",
    "withdraw 1 and 3",
    "withdraw 1 and 10",
    "withdraw 3 and 10",
    "age 1 and 3",
    "read 1: not aged",
    "read 1: aged first",
    "doubled key",
    "doubled line",
    "look: tracked without a line, an unused line",
    "look: tracked without a line, hotter than one on a line",
    "look: doubled key, a later record answers otherwise",
    "withdraw: doubled key, a later record stays",
    "withdraw: doubled line, given all the same",
];

/// What fresh and a levelled sum must meet, besides each part of 1 and, for the sum, of 3 (alone).
const FRESH_AND_SUM: [&str; 17] = [
    "fresh 1 and 3",
    "fresh done: in order",
    "fresh done: not in order",
    "fresh done: K = 1",
    "fresh done: K = 1,024",
    "sum 1: sum bytes not 8",
    "sum 1: 0 sum bytes",
    "sum 1: 7 sum bytes",
    "sum 1: 9 sum bytes",
    "sum 1 and 3",
    "sum done: K = 1",
    "sum done: an odd K over 1",
    "sum done: K = 1,024",
    "sum done: a heat below the ceiling",
    "sum done: a free record below the ceiling",
    "sum done: over L",
    "sum done: total L",
];

/// Special inputs: good ones in an accepted call, bad ones in a call refused for that cause. Each
/// must come.
const INPUTS: [&str; 53] = [
    "read, its record after a free one",
    "withdraw, its record after a free one",
    "withdraw of key 0, its record after a free one",
    "withdraw of key 0, untracked, with a free record",
    "withdraw of key 2^64 - 1",
    "withdraw, K = 1",
    "withdraw 10, untracked",
    "K = 1",
    "K = 1,023",
    "K = 1,024",
    "K = 1,025",
    "table of 0 bytes",
    "table of 41,000 bytes",
    "lines of 63 bytes",
    "gauge of 0 bytes",
    "gauge of 16 bytes",
    "gauge of 23 bytes",
    "gauge of 25 bytes",
    "read with 0 ticket bytes",
    "read with 7 ticket bytes",
    "read with 9 ticket bytes",
    "look with 0 ticket bytes",
    "look with 7 ticket bytes",
    "look with 9 ticket bytes",
    "key 0",
    "key 2^64 - 1",
    "read of weight 0",
    "update of weight 0",
    "weight 1",
    "weight 65,535",
    "read of weight 65,536",
    "update of weight 65,536",
    "weight 2^64 - 1",
    "picture of 0 bytes",
    "picture of 63 bytes",
    "picture of 64 bytes",
    "picture of 65 bytes",
    "fill with ticket 0, stored",
    "fill with ticket 0 for another",
    "fill with a ticket one too low",
    "fill with a ticket one too high",
    "fill with a ticket off in its high half alone",
    "fill without a line, with its ticket 0",
    "total L - 1",
    "total L",
    "total L + 1",
    "total 2^64 - 1",
    "a slack 2^64 - 1",
    "a state 1 + 2 C",
    "a state 2 + 2 C",
    "a state 2^64 - 1",
    "a free record with a ticket alone",
    "a ticket over the serial",
];

/// What each call must meet about its serial: the last ones that are good, "or more" than the limit,
/// and what no refusal 10 is for.
const SERIALS: [&str; 27] = [
    "read wanted: serial 2^63 - 2 grows",
    "read wanted: serial 2^63 - 1 grows",
    "read hit: serial 2^63 - 1",
    "read passed: serial 2^63 - 1",
    "read 10: serial 2^63",
    "read 10: serial 2^63 + 1",
    "read 10: serial 2^64 - 1",
    "update changed: serial 2^63 - 2 grows",
    "update changed: serial 2^63 - 1 grows",
    "update 10: serial 2^63",
    "update 10: serial 2^63 + 1",
    "update 10: serial 2^64 - 1",
    "fill stored: serial 2^63 - 1",
    "fill 10: serial 2^63",
    "fill 10: serial 2^63 + 1",
    "fill 10: serial 2^64 - 1",
    "withdraw withdrawn: serial 2^63 - 2 grows",
    "withdraw withdrawn: serial 2^63 - 1 grows",
    "withdraw withdrawn: serial 2^63 - 1",
    "withdraw unknown: serial 2^63 - 1",
    "withdraw 10: serial 2^63",
    "withdraw 10: serial 2^63 + 1",
    "withdraw 10: serial 2^64 - 1",
    "look wanted: serial 2^63",
    "look wanted: serial 2^64 - 1",
    "age aged: serial 2^63",
    "age aged: serial 2^64 - 1",
];

/// What reads must meet about equally cold records and their slacks. The slacks compared are the
/// largest of those and the next.
const VICTIMS: [&str; 28] = [
    "ties by heat off the lines, slack decides",
    "ties by heat and slack off the lines",
    "ties by heat on the lines with different slacks where a read takes the coldest's line",
    "ties by heat on the lines and off them, slack decides, a read takes the coldest's line",
    "all off the lines tie by heat and slack, over 20",
    "slack decides: K = 2",
    "slack decides: K over 200",
    "slack decides: K = 1,024",
    "slack decides: victim in the first record",
    "slack decides: victim in the last record",
    "slack decides: of two",
    "slack decides: of over 40",
    "slack decides: 1 and 0",
    "slack decides: 2^64 - 1 and 2^64 - 2",
    "slack decides: 2^64 - 1 and 0",
    "slack decides: 2^63 and 2^63 - 1",
    "slack decides: 2^32 and under",
    "slack decides: in the lowest bit alone",
    "slack decides: in the highest bit alone",
    "slack decides: in the high 32 bits alone",
    "slack decides: against the low 32 bits",
    "slack decides: victim at the ceiling, its slack over it",
    "a warmer one off the lines with more slack than the victim",
    "one on a line as cold as the victim or colder, with more slack",
    "ties by heat off the lines with different slacks, tracked key",
    "ties by heat off the lines with different slacks, free record",
    "aged first: ties by heat only since then, slack decides",
    "aged first: ties by slack only since then",
];

/// The name under which a call is counted.
fn kind_name(call: &Call) -> &'static str {
    match call {
        Call::Read { weight: 0, .. } => "look",
        Call::Read { .. } => "read",
        Call::Update { .. } => "update",
        Call::Fill { .. } => "fill",
        Call::Withdraw { .. } => "withdraw",
        Call::Age => "age",
        Call::Fresh => "fresh",
        Call::LevelledSum => "sum",
    }
}

/// The name under which a returned number is counted.
pub fn answer_name(call: &Call, number: u64) -> &'static str {
    let end = match number {
        0 => "done",
        1 => "1",
        2 => "2",
        3 => "3",
        4 => "4",
        5 => "5",
        6 => "6",
        9 => "9",
        10 => "10",
        100 => "aged",
        101 => "changed",
        102 => "unknown",
        103 => "stored",
        104 => "passed",
        105 => "withdrawn",
        2_000..=3_022 => "hit",
        4_000..=5_022 => "wanted",
        _ => "another number",
    };
    let named = |name: &&&str| name.split_once(' ') == Some((kind_name(call), end));
    ANSWERS
        .iter()
        .find(named)
        .copied()
        .unwrap_or("another number")
}

/// One call and the bytes that it is lent, with the lengths of the sum and ticket that the same
/// memory is lent with to a levelled sum and a read.
struct Case {
    table: Vec<u8>,
    gauge: Vec<u8>,
    lines: Vec<u8>,
    sum: usize,
    ticket: usize,
    call: Call,
}

/// Lends every length from 0 to past the good ones, in each of the calls. Gives how many calls.
pub fn every_length(seed: u64, model: &Model) -> Result<u64, String> {
    let mut lengths = Vec::new();
    // Table, gauge, lines, picture, sum and ticket bytes. All else fits K = 3, C = 1, a picture, a sum
    // and a ticket.
    let tables = (0..=250).chain(40_900..=41_041);
    lengths.extend(tables.map(|n| [n, 24, 64, 64, 8, 8]));
    lengths.extend((0..=50).map(|n| [120, n, 64, 64, 8, 8]));
    lengths.extend((0..=260).map(|n| [120, 24, n, 64, 8, 8]));
    lengths.extend((0..=130).map(|n| [120, 24, 64, n, 8, 8]));
    lengths.extend((0..=24).map(|n| [120, 24, 64, 64, n, 8]));
    lengths.extend((0..=50).map(|n| [120, 24, 64, 64, 8, n]));
    // C = K - 1, K and K + 1 at the largest K and past it.
    for k in [1_023, 1_024, 1_025] {
        lengths.extend((k - 2..=k + 1).map(|c| [40 * k, 24, 64 * c, 64, 8, 8]));
    }
    let mut calls = 0;
    for [table, gauge, lines, picture, sum, ticket] in lengths {
        let mut random = Random::new(seed, 2, calls);
        let picture = random.bytes(picture);
        for call in [
            Call::Read { key: 5, weight: 3 },
            Call::Read { key: 5, weight: 0 },
            Call::Update { key: 5, weight: 3 },
            Call::Fill {
                key: 5,
                picture,
                ticket: 1,
            },
            // Tracked where K is over 2.
            Call::Withdraw { key: 2 },
            Call::Age,
            Call::Fresh,
            Call::LevelledSum,
        ] {
            let lines = random.bytes(lines);
            let (table, gauge) = match call {
                // Any bytes: the last byte of a table in order is 0 already.
                Call::Fresh => (random.bytes(table), random.bytes(gauge)),
                _ => in_order_of(table, gauge),
            };
            let mut memory = Memory::new(&table, &gauge, &lines, &mut random);
            memory.sum.set_len(sum);
            memory.ticket.set_len(ticket);
            Both::new(model, memory)
                .call(&call, &mut random, &mut Path::new())
                .map_err(|text| format!("seed {seed}, every length, call {calls}: {text}"))?;
            calls += 1;
        }
    }
    Ok(calls)
}

/// A table and a gauge of these lengths, in order where the lengths are good, and not zero: heats
/// below and above the ceiling, and no record on a line.
pub fn in_order_of(table: usize, gauge: usize) -> (Vec<u8>, Vec<u8>) {
    let records: Vec<Record> = (0..=table as u64 / RECORD_BYTES as u64)
        .map(|place| Record {
            key: place,
            heat: place % 10,
            slack: 1,
            state: TRACKED,
            ticket: 0,
        })
        .collect();
    let mut table_bytes = vec![0; RECORD_BYTES * records.len()];
    put_records(&mut table_bytes, &records);
    table_bytes.truncate(table);
    let mut gauge_bytes = vec![0; gauge.max(GAUGE_BYTES)];
    put_gauge(&mut gauge_bytes, 9, 2, 6);
    gauge_bytes.truncate(gauge);
    (table_bytes, gauge_bytes)
}

/// Runs the single calls. Stops at the first difference.
pub fn run(seed: u64, calls: u64, model: &Model, counts: &mut Counts) -> Result<(), String> {
    for number in 0..calls {
        let mut random = Random::new(seed, 1, number);
        let case = damaged(&mut random);
        let mut memory = Memory::new(&case.table, &case.gauge, &case.lines, &mut random);
        memory.sum.set_len(case.sum);
        memory.ticket.set_len(case.ticket);
        for call in [&case.call, &Call::Fresh, &Call::LevelledSum] {
            let mut path = Path::new();
            let mut both = Both::new(model, memory.clone());
            let found = both
                .call(call, &mut random, &mut path)
                .map_err(|text| format!("seed {seed}, single call {number}: {text}"))?;
            counts.add(answer_name(call, found));
            if case.gauge.len() == GAUGE_BYTES {
                count_serial(&case, call, found, both.serial(), counts);
            }
            match call {
                Call::Fresh => count_fresh(&case, found, &path, counts),
                Call::LevelledSum => count_sum(&case, found, &path, counts),
                _ => {
                    if !is_refused(found) {
                        count_victims(&case, &path, counts);
                    }
                    // A withdrawal must meet each part of 1 and 3 itself.
                    let withdrawal = matches!(call, Call::Withdraw { .. });
                    for step in path {
                        counts.add(step);
                        let own = withdrawal && is_refused(found);
                        counts.add_if(&format!("withdraw {step}"), own);
                    }
                    count_pairs(&case, found, counts);
                    count_inputs(&case, found, counts);
                }
            }
        }
    }
    let mut names: Vec<String> = SIZES.map(|part| format!("fresh {part}")).into();
    for kind in ["sum", "withdraw"] {
        let parts = SIZES.iter().chain(&ORDER);
        names.extend(parts.map(|part| format!("{kind} {part}")));
    }
    let alone = SIZES.iter().chain(&ORDER).chain(&CAUSES);
    let steps = STEPS.iter().chain(&STEPS_AT_THE_LIMIT);
    let rest = ANSWERS.iter().chain(&FRESH_AND_SUM).chain(&INPUTS);
    let rest = rest.chain(&SERIALS).chain(&VICTIMS);
    names.extend(alone.chain(steps).chain(rest).map(|name| name.to_string()));
    for name in names {
        if counts.of(&name) == 0 {
            return Err(format!(
                "seed {seed}, {calls} single calls: '{name}' never came"
            ));
        }
    }
    Ok(())
}

/// Whether cause 3 holds. Where sizes are wrong, it is read off the whole records and whole lines
/// that there are.
fn out_of_order(case: &Case) -> bool {
    case.gauge.len() == GAUGE_BYTES
        && !not_in_order(&case.table, &case.gauge, &case.lines).is_empty()
}

/// Counts pairs of causes, the first in the order of tests with each other that holds too, and
/// accepted calls on doubled keys and lines.
fn count_pairs(case: &Case, found: u64, counts: &mut Counts) {
    let records = records_of(&case.table);
    let mut causes = Vec::new();
    let read = matches!(case.call, Call::Read { .. });
    if !wrong_sizes(&case.table, &case.gauge, &case.lines).is_empty()
        || (read && wrong_ticket_bytes(case.ticket))
    {
        causes.push(1);
    }
    match &case.call {
        Call::Read { weight, .. } if wrong_read_weight(*weight) => causes.push(2),
        Call::Update { weight, .. } if wrong_update_weight(*weight) => causes.push(2),
        Call::Fill { picture, .. } if wrong_picture(picture) => causes.push(4),
        _ => {}
    }
    if out_of_order(case) {
        causes.push(3);
    }
    if case.gauge.len() == GAUGE_BYTES && serial_at_limit(&case.call, gauge_of(&case.gauge).2) {
        causes.push(10);
    }
    if let Call::Fill { key, ticket, .. } = &case.call {
        let own = records.iter().find(|r| r.key == *key && !r.is_free());
        match own {
            Some(record) if record.is_filled() => causes.push(6),
            Some(record) if record.line().is_some() => {}
            _ => causes.push(5),
        }
        if own.is_some_and(|record| record.ticket != *ticket) {
            causes.push(9);
        }
    }
    if let Some((first, others)) = causes.split_first() {
        for other in others {
            counts.add(&format!("{} {first} and {other}", kind_name(&case.call)));
        }
    }
    if !is_refused(found) {
        let tracked: Vec<&Record> = records.iter().filter(|r| !r.is_free()).collect();
        if doubled(tracked.iter().map(|r| r.key).collect()) {
            counts.add("doubled key");
        }
        if doubled(tracked.iter().filter_map(|r| r.line()).collect()) {
            counts.add("doubled line");
        }
    }
}

/// Counts the serials at and around the limit, with the call's answer and whether the serial grew.
fn count_serial(case: &Case, call: &Call, found: u64, after: u64, counts: &mut Counts) {
    const NAMED: [(u64, &str); 5] = [
        (SERIAL_LIMIT - 2, "2^63 - 2"),
        (SERIAL_LIMIT - 1, "2^63 - 1"),
        (SERIAL_LIMIT, "2^63"),
        (SERIAL_LIMIT + 1, "2^63 + 1"),
        (u64::MAX, "2^64 - 1"),
    ];
    let (_, _, serial) = gauge_of(&case.gauge);
    if let Some((_, name)) = NAMED.iter().find(|(own, _)| *own == serial) {
        let answer = answer_name(call, found);
        let grows = if after > serial { " grows" } else { "" };
        counts.add(&format!("{answer}: serial {name}{grows}"));
    }
}

/// Counts what a fresh met.
fn count_fresh(case: &Case, found: u64, path: &Path, counts: &mut Counts) {
    for step in path {
        counts.add(&format!("fresh {step}"));
    }
    let (refused, wrong) = (is_refused(found), out_of_order(case));
    counts.add_if("fresh 1 and 3", refused && wrong);
    counts.add_if("fresh done: in order", !refused && !wrong);
    counts.add_if("fresh done: not in order", !refused && wrong);
    let k = case.table.len() / RECORD_BYTES;
    counts.add_if("fresh done: K = 1", !refused && k == 1);
    counts.add_if("fresh done: K = 1,024", !refused && k == 1_024);
}

/// Counts what a levelled sum met.
fn count_sum(case: &Case, found: u64, path: &Path, counts: &mut Counts) {
    for step in path {
        counts.add(&format!("sum {step}"));
    }
    counts.add_if("sum 1 and 3", found == 1 && out_of_order(case));
    let length_alone = path == &["1: sum bytes not 8"];
    counts.add_if("sum 1: 0 sum bytes", length_alone && case.sum == 0);
    counts.add_if("sum 1: 7 sum bytes", length_alone && case.sum == 7);
    counts.add_if("sum 1: 9 sum bytes", length_alone && case.sum == 9);
    if !is_refused(found) {
        let records = records_of(&case.table);
        let (total, ceiling, _) = gauge_of(&case.gauge);
        let k = records.len();
        counts.add_if("sum done: K = 1", k == 1);
        counts.add_if("sum done: an odd K over 1", k > 1 && k % 2 == 1);
        counts.add_if("sum done: K = 1,024", k == 1_024);
        let below = |free| {
            let below = |r: &Record| r.is_free() == free && r.heat < ceiling;
            records.iter().any(below)
        };
        counts.add_if("sum done: a heat below the ceiling", below(false));
        counts.add_if("sum done: a free record below the ceiling", below(true));
        let sum = levelled_sum(&records, ceiling);
        counts.add_if("sum done: over L", sum > u128::from(L));
        counts.add_if("sum done: total L", total == L);
    }
}

/// Counts the special inputs.
fn count_inputs(case: &Case, found: u64, counts: &mut Counts) {
    let accepted = !is_refused(found);
    let mut count = |name: &str, holds: bool| counts.add_if(name, holds);
    let (table, gauge, lines) = (case.table.len(), case.gauge.len(), case.lines.len());
    count("K = 1", accepted && table == 40);
    count("K = 1,023", accepted && table == 40 * 1_023);
    count("K = 1,024", accepted && table == 40 * 1_024);
    count("K = 1,025", found == 1 && table == 40 * 1_025);
    count("table of 0 bytes", found == 1 && table == 0);
    count("table of 41,000 bytes", found == 1 && table == 41_000);
    count("lines of 63 bytes", found == 1 && lines == 63);
    count("gauge of 0 bytes", found == 1 && gauge == 0);
    count("gauge of 16 bytes", found == 1 && gauge == 16);
    count("gauge of 23 bytes", found == 1 && gauge == 23);
    count("gauge of 25 bytes", found == 1 && gauge == 25);
    // The ticket bytes alone.
    let sizes_good = wrong_sizes(&case.table, &case.gauge, &case.lines).is_empty();
    if let (Call::Read { .. }, true, 0 | 7 | 9) = (&case.call, sizes_good, case.ticket) {
        let kind = kind_name(&case.call);
        count(
            &format!("{kind} with {} ticket bytes", case.ticket),
            found == 1,
        );
    }
    match &case.call {
        Call::Read { key, weight } | Call::Update { key, weight } => {
            count("key 0", accepted && *key == 0);
            count("key 2^64 - 1", accepted && *key == u64::MAX);
            let read = matches!(case.call, Call::Read { .. });
            count("read of weight 0", accepted && read && *weight == 0);
            count("update of weight 0", found == 2 && !read && *weight == 0);
            count("weight 1", accepted && *weight == 1);
            count("weight 65,535", accepted && *weight == 65_535);
            let over = found == 2 && *weight == 65_536;
            count("read of weight 65,536", over && read);
            count("update of weight 65,536", over && !read);
            count("weight 2^64 - 1", found == 2 && *weight == u64::MAX);
            let records = records_of(&case.table);
            let own = records.iter().position(|r| r.key == *key && !r.is_free());
            let free = records.iter().position(Record::is_free);
            let after_free = matches!((own, free), (Some(own), Some(free)) if free < own);
            let warm = accepted && read && *weight > 0;
            count("read, its record after a free one", warm && after_free);
        }
        Call::Fill {
            key,
            picture,
            ticket,
        } => {
            count("key 0", accepted && *key == 0);
            count("key 2^64 - 1", accepted && *key == u64::MAX);
            count("picture of 0 bytes", found == 4 && picture.is_empty());
            count("picture of 63 bytes", found == 4 && picture.len() == 63);
            count("picture of 64 bytes", accepted && picture.len() == 64);
            count("picture of 65 bytes", found == 4 && picture.len() == 65);
            count("fill with ticket 0, stored", accepted && *ticket == 0);
            let records = records_of(&case.table);
            let own = records.iter().find(|r| r.key == *key && !r.is_free());
            if let Some(own) = own.map(|record| record.ticket) {
                let other = found == 9;
                count("fill with ticket 0 for another", other && *ticket == 0);
                count(
                    "fill with a ticket one too low",
                    other && ticket.checked_add(1) == Some(own),
                );
                count(
                    "fill with a ticket one too high",
                    other && own.checked_add(1) == Some(*ticket),
                );
                count(
                    "fill with a ticket off in its high half alone",
                    other && *ticket as u32 == own as u32,
                );
                count(
                    "fill without a line, with its ticket 0",
                    found == 5 && *ticket == own,
                );
            }
        }
        Call::Withdraw { key } => {
            let records = records_of(&case.table);
            let own = records.iter().position(|r| r.key == *key && !r.is_free());
            let free = records.iter().position(Record::is_free);
            let after_free = matches!((own, free), (Some(own), Some(free)) if free < own);
            let zero = *key == 0;
            count(
                "withdraw, its record after a free one",
                accepted && after_free,
            );
            count(
                "withdraw of key 0, its record after a free one",
                accepted && zero && after_free,
            );
            count(
                "withdraw of key 0, untracked, with a free record",
                found == 102 && zero && free.is_some(),
            );
            count("withdraw of key 2^64 - 1", found == 105 && *key == u64::MAX);
            count("withdraw, K = 1", found == 105 && records.len() == 1);
            count("withdraw 10, untracked", found == 10 && own.is_none());
        }
        Call::Age | Call::Fresh | Call::LevelledSum => {}
    }
    if found == 3 || accepted {
        let records = records_of(&case.table);
        let (total, _, serial) = gauge_of(&case.gauge);
        let most = 1 + 2 * (lines / LINE_BYTES) as u64;
        count("total L - 1", accepted && total == L - 1);
        count("total L", accepted && total == L);
        count("total L + 1", found == 3 && total == L + 1);
        count("total 2^64 - 1", found == 3 && total == u64::MAX);
        let any = |holds: fn(&Record, u64) -> bool| records.iter().any(|r| holds(r, most));
        count(
            "a slack 2^64 - 1",
            accepted && any(|r, _| r.slack == u64::MAX),
        );
        count(
            "a state 1 + 2 C",
            accepted && any(|r, most| r.state == most),
        );
        count(
            "a state 2 + 2 C",
            found == 3 && any(|r, most| r.state == most + 1),
        );
        count(
            "a state 2^64 - 1",
            found == 3 && any(|r, _| r.state == u64::MAX),
        );
        count(
            "a free record with a ticket alone",
            found == 3
                && any(|r, _| (r.key, r.heat, r.slack, r.state) == (0, 0, 0, 0) && r.ticket > 0),
        );
        count(
            "a ticket over the serial",
            accepted && records.iter().any(|r| r.ticket > serial),
        );
    }
}

/// Counts what an accepted read met about equally cold records and their slacks.
fn count_victims(case: &Case, path: &Path, counts: &mut Counts) {
    let Call::Read { key, weight: 1.. } = &case.call else {
        return;
    };
    let mut count = |name: &str, holds: bool| counts.add_if(name, holds);
    let before = records_of(&case.table);
    let (_, mut ceiling, _) = gauge_of(&case.gauge);
    let mut records = before.clone();
    let aged = path.contains(&"read 1: aged first");
    if aged {
        ceiling /= 2;
        for record in &mut records {
            record.heat /= 2;
            record.slack = record.slack.div_ceil(2);
        }
    }
    let tracked = records.iter().any(|r| r.key == *key && !r.is_free());
    let free = records.iter().any(Record::is_free);

    // The equally cold ones on the lines.
    let coldest = heats_on_lines(&records).min();
    let equals = records.iter().filter(|r| r.line().is_some());
    let equals = equals.filter(|r| Some(r.heat) == coldest);
    let on_lines: Vec<u64> = equals.map(|r| r.slack).collect();
    let differ = |slacks: &[u64]| slacks.iter().any(|slack| *slack != slacks[0]);
    let taken = path.contains(&"read 5: takes the coldest's line") && differ(&on_lines);
    count(
        "ties by heat on the lines with different slacks where a read takes the coldest's line",
        taken,
    );

    // The equally cold ones off the lines, with their places.
    let off_lines: Vec<usize> = (0..records.len())
        .filter(|place| records[*place].state == TRACKED)
        .collect();
    let Some(heat) = off_lines.iter().map(|place| records[*place].heat).min() else {
        return;
    };
    let mut equals = off_lines.clone();
    equals.retain(|place| records[*place].heat == heat);
    let slacks: Vec<u64> = equals.iter().map(|place| records[*place].slack).collect();
    count(
        "ties by heat off the lines with different slacks, tracked key",
        tracked && differ(&slacks),
    );
    count(
        "ties by heat off the lines with different slacks, free record",
        !tracked && free && differ(&slacks),
    );
    if tracked || free {
        return;
    }

    let largest = *slacks.iter().max().expect("one is equally cold");
    let has_largest = |place: &&usize| records[**place].slack == largest;
    let last: Vec<usize> = equals.iter().filter(has_largest).copied().collect();
    let victim = last[0];
    count("ties by heat and slack off the lines", last.len() > 1);
    let many = off_lines.len() > 20;
    count(
        "all off the lines tie by heat and slack, over 20",
        many && last.len() == off_lines.len(),
    );
    count(
        "a warmer one off the lines with more slack than the victim",
        off_lines
            .iter()
            .any(|place| records[*place].slack > largest),
    );
    let on_line = |r: &Record| r.line().is_some() && r.heat <= heat && r.slack > largest;
    count(
        "one on a line as cold as the victim or colder, with more slack",
        records.iter().any(on_line),
    );
    let tied = |from: &dyn Fn(&Record) -> u64, places: &[usize]| {
        let first = from(&before[places[0]]);
        places.iter().all(|place| from(&before[*place]) == first)
    };
    count(
        "aged first: ties by slack only since then",
        aged && last.len() > 1 && !tied(&|r| r.slack, &last),
    );

    let Some(next) = slacks.iter().copied().filter(|s| *s < largest).max() else {
        return;
    };
    count("ties by heat off the lines, slack decides", true);
    count(
        "ties by heat on the lines and off them, slack decides, a read takes the coldest's line",
        taken,
    );
    count(
        "aged first: ties by heat only since then, slack decides",
        aged && !tied(&|r| r.heat, &equals),
    );
    let k = records.len();
    let low = |slack: u64| slack % (1 << 32);
    for (name, holds) in [
        ("K = 2", k == 2),
        ("K over 200", k > 200),
        ("K = 1,024", k == 1_024),
        ("victim in the first record", victim == 0),
        ("victim in the last record", victim == k - 1),
        ("of two", equals.len() == 2),
        ("of over 40", equals.len() > 40),
        ("1 and 0", (largest, next) == (1, 0)),
        (
            "2^64 - 1 and 2^64 - 2",
            (largest, next) == (u64::MAX, u64::MAX - 1),
        ),
        ("2^64 - 1 and 0", (largest, next) == (u64::MAX, 0)),
        (
            "2^63 and 2^63 - 1",
            (largest, next) == (1 << 63, (1 << 63) - 1),
        ),
        ("2^32 and under", largest == 1 << 32),
        ("in the lowest bit alone", largest ^ next == 1),
        ("in the highest bit alone", largest ^ next == 1 << 63),
        ("in the high 32 bits alone", low(largest) == low(next)),
        ("against the low 32 bits", low(largest) < low(next)),
        (
            "victim at the ceiling, its slack over it",
            heat == ceiling && largest > ceiling,
        ),
    ] {
        count(&format!("slack decides: {name}"), holds);
    }
}

pub fn doubled(mut numbers: Vec<u64>) -> bool {
    numbers.sort_unstable();
    numbers.windows(2).any(|pair| pair[0] == pair[1])
}

/// A call on a table that is near good, random or fresh, with lengths that may be wrong.
fn damaged(random: &mut Random) -> Case {
    let k = match random.below(100) {
        0..=49 => random.between(1, 6),
        50..=84 => random.between(7, 40),
        85..=92 => random.between(41, 200),
        93..=94 => 1_023,
        95..=97 => 1_024,
        98 => 1_025,
        _ => 1,
    } as usize;
    let c = match random.below(100) {
        0..=9 => 0,
        10..=24 => k - 1,
        25..=26 => k,
        27 => k + random.place(3),
        _ => random.place(k),
    };

    let total = good_total(random);
    let ceiling = match random.below(4) {
        0 => 0,
        1 => total,
        2 => random.between(0, total.min(9)),
        _ => random.between(0, total),
    };
    let serial = some_serial(random);
    let keys = some_keys(k, random);
    let mut records = good_records(k, c, total, ceiling, &keys, random);
    give_tickets(&mut records, serial, random);
    let mut gauge = vec![0; GAUGE_BYTES];
    put_gauge(&mut gauge, total, ceiling, serial);
    let call = some_call(&records, ceiling, serial, &keys, random);

    if random.chance(40) {
        for _ in 0..random.between(1, 2) {
            damage(&mut records, &mut gauge, c, total, random);
        }
    }
    let mut table = vec![0; RECORD_BYTES * k];
    put_records(&mut table, &records);
    match random.below(100) {
        // Any bytes at all.
        0..=1 => table = random.bytes(table.len()),
        2 => gauge = random.bytes(GAUGE_BYTES),
        // One bit of the table or gauge changed.
        3..=5 => flip(&mut table, random),
        6 => flip(&mut gauge, random),
        // Fresh.
        7..=9 => {
            table.fill(0);
            gauge.fill(0);
        }
        _ => {}
    }
    let mut lines = random.bytes(LINE_BYTES * c);

    if random.chance(9) {
        for _ in 0..random.between(1, 2) {
            wrong_length(&mut table, &mut gauge, &mut lines, random);
        }
    }
    let sum = match random.below(20) {
        0 => random.pick(&[0, 7, 9, 16, 24]),
        _ => SUM_BYTES,
    };
    let ticket = match random.below(20) {
        0 => random.pick(&[0, 7, 9]),
        1 if random.chance(50) => random.pick(&[1, 4, 16, 24]),
        _ => TICKET_BYTES,
    };
    Case {
        table,
        gauge,
        lines,
        sum,
        ticket,
        call,
    }
}

pub fn flip(bytes: &mut [u8], random: &mut Random) {
    let at = random.place(bytes.len());
    bytes[at] ^= 1 << random.below(8);
}

/// A total in order, often where a read must age or just not.
pub fn good_total(random: &mut Random) -> u64 {
    match random.below(20) {
        0 => 0,
        1 => 1,
        2..=4 => random.between(0, 20),
        5 => L,
        6 => L - 1,
        7 => L - random.between(0, 9),
        8 => random.pick(&[L - MOST_WEIGHT - 1, L - MOST_WEIGHT, L - MOST_WEIGHT + 1]),
        9 => random.pick(&[L / 2, L / 2 + 1]),
        10..=12 => random.between(0, 70_000),
        _ => random.between(0, L),
    }
}

/// A serial, often at and around the limit of cause 10. Any is in order.
pub fn some_serial(random: &mut Random) -> u64 {
    let limit = SERIAL_LIMIT;
    match random.below(20) {
        0 => 0,
        1..=4 => random.pick(&[limit - 2, limit - 1, limit, limit + 1, u64::MAX]),
        5 => random.next(),
        6..=8 => random.between(0, limit - 1),
        9 => random.pick(&[u64::from(u32::MAX), 1 << 32, 255, 256, 1 << 62]),
        _ => random.between(1, 2_000),
    }
}

/// Gives the records on lines their tickets: as after a list of calls, or any; 0 among them.
pub fn give_tickets(records: &mut [Record], serial: u64, random: &mut Random) {
    let any = random.chance(30);
    for record in records.iter_mut().filter(|r| r.line().is_some()) {
        record.ticket = match random.below(12) {
            0 if any => 0,
            1 if any => serial.wrapping_add(1),
            2 if any => u64::MAX,
            3..=5 if any => random.next(),
            0..=2 => serial,
            _ => random.between(1.min(serial), serial),
        };
    }
}

/// The keys of a case: more than the table holds, with 0, 2^64 - 1 and keys that share 32 bits.
pub fn some_keys(k: usize, random: &mut Random) -> Vec<u64> {
    let mut keys = vec![0, u64::MAX];
    let base = random.next();
    for number in 0..(k as u64 + k as u64 / 2 + 2) {
        keys.push(match random.below(4) {
            0 => number,
            1 => base ^ (number << 32),
            2 => base ^ number,
            _ => random.next(),
        });
    }
    // The first keys are used first, so the two ends come to any place.
    for place in (1..keys.len()).rev() {
        keys.swap(place, random.place(place + 1));
    }
    keys
}

/// Records in order, in part with doubled keys and lines, without tickets.
pub fn good_records(
    k: usize,
    c: usize,
    total: u64,
    ceiling: u64,
    keys: &[u64],
    random: &mut Random,
) -> Vec<Record> {
    let free = match random.below(4) {
        0..=1 => 0,
        2 => random.place(k + 1),
        _ => random.place(k.min(3) + 1),
    };
    let on_lines = match random.below(4) {
        0 => random.place(c + 1),
        1 => c.saturating_sub(1),
        _ => c,
    }
    .min(k - free);
    let double_keys = random.chance(15);
    let double_lines = random.chance(10);
    // Few heats in a table give many equals.
    let mut few = vec![ceiling, random.between(0, total.min(9))];
    let low = random.between(0, total);
    for _ in 0..random.between(1, 4) {
        few.push(random.between(low, total.min(low + 9)));
    }
    let many_equals = random.chance(50);
    let slacks = few_slacks(random);

    let mut lines: Vec<u64> = (0..c as u64).collect();
    for place in (1..lines.len()).rev() {
        lines.swap(place, random.place(place + 1));
    }
    let mut records = Vec::with_capacity(k);
    for number in 0..k {
        if number < free {
            records.push(FREE);
            continue;
        }
        let state = if number - free < on_lines {
            let line = if double_lines {
                random.pick(&lines)
            } else {
                lines[number - free]
            };
            if random.chance(50) {
                empty_on(line)
            } else {
                filled_on(line)
            }
        } else {
            TRACKED
        };
        records.push(Record {
            key: if double_keys {
                random.pick(keys)
            } else {
                keys[number]
            },
            heat: match (many_equals, random.below(8)) {
                (true, _) => random.pick(&few),
                (false, 0) => total,
                (false, 1) => 0,
                _ => random.between(0, total),
            },
            slack: if slacks.is_empty() {
                some_slack(random)
            } else {
                random.pick(&slacks)
            },
            state,
            ticket: 0,
        });
    }
    // Often the hottest are on the lines, as after a list of calls.
    if random.chance(60) {
        let mut heats: Vec<u64> = records[free..].iter().map(|record| record.heat).collect();
        heats.sort_unstable_by(|a, b| b.cmp(a));
        for (record, heat) in records[free..].iter_mut().zip(heats) {
            record.heat = heat;
        }
    }
    // Often many are as cold as the coldest, on the lines or off them; at times only an aging makes
    // them so.
    let (on_lines, off_lines) = records[free..].split_at_mut(on_lines);
    for (records, percent) in [(on_lines, 25), (off_lines, 40)] {
        let coldest = records.iter().map(|record| record.heat).min();
        if let (Some(coldest), true) = (coldest, random.chance(percent)) {
            let (share, until_aged) = (random.pick(&[30, 80, 100]), random.chance(30));
            for record in records {
                if random.chance(share) {
                    let more = if until_aged { random.below(2) } else { 0 };
                    record.heat = total.min(coldest + more);
                }
            }
        }
    }
    for place in (1..records.len()).rev() {
        records.swap(place, random.place(place + 1));
    }
    records
}

/// The few slacks of a table, equal or nearly so; none if each record has any.
fn few_slacks(random: &mut Random) -> Vec<u64> {
    let first = some_slack(random);
    let mut few = vec![first];
    match random.below(13) {
        0..=3 => few.clear(),
        // All are equal.
        4..=5 => {}
        6 => few.push(first ^ 1),
        7 => few.push(first ^ (1 << random.below(64))),
        8 => few.push(first ^ (1 << 63)),
        9 => few.push(first ^ (random.next() << 32)),
        10 => few.extend([first.wrapping_add(1), first.wrapping_sub(1)]),
        11 => few.extend([some_slack(random), some_slack(random)]),
        _ => few.extend([0, 1, u64::MAX - 1]),
    }
    few
}

fn some_slack(random: &mut Random) -> u64 {
    const EDGES: [u64; 6] = [
        u64::MAX - 1,
        1 << 63,
        (1 << 63) - 1,
        (1 << 32) + 1,
        1 << 32,
        (1 << 32) - 1,
    ];
    match random.below(8) {
        0 => 0,
        1 => 1,
        2 => u64::MAX,
        3 => random.pick(&EDGES),
        4..=5 => random.between(0, 9),
        _ => random.next(),
    }
}

/// A call that fits the records: of a key in the table or, more often in a read, of one that is not,
/// with a weight that often makes two heats equal or nearly so. About one read in seven is a look.
fn some_call(
    records: &[Record],
    ceiling: u64,
    serial: u64,
    keys: &[u64],
    random: &mut Random,
) -> Call {
    let key = match random.below(20) {
        0 => 0,
        1 => u64::MAX,
        2 => random.next(),
        3..=6 => random.pick(keys),
        _ => random.pick(records).key,
    };
    let kind = random.below(24);
    let key = match kind {
        0..=8 if random.chance(30) => random.next(),
        _ => key,
    };
    let own = records.iter().find(|r| r.key == key && !r.is_free());
    match kind {
        0..=8 => {
            // The heat to reach, and the heat that the weight is added to.
            let aim = heats_on_lines(records).min();
            let coldest = heats_without_line(records).min();
            let from = own.map_or(ceiling.max(coldest.unwrap_or(0)), |r| r.heat);
            let weight = match aim {
                _ if random.below(8) == 0 => 0,
                Some(aim) if aim > from && random.chance(40) => near(aim - from, random),
                _ => some_weight(random),
            };
            Call::Read { key, weight }
        }
        9..=13 => {
            let aim = heats_without_line(records).max();
            let weight = match (aim, own.map(|r| r.heat)) {
                (Some(aim), Some(from)) if from > aim && random.chance(40) => {
                    near(from - aim, random)
                }
                (_, Some(from)) if random.chance(20) => near(from, random),
                _ => some_weight(random),
            };
            Call::Update { key, weight }
        }
        14..=18 => {
            let key = often_on_line(records, key, random);
            let len = match random.below(20) {
                0 => random.pick(&[0, 63, 65]),
                1 => random.pick(&[1, 32, 127, 128]),
                _ => 64,
            };
            let own = records.iter().find(|r| r.key == key && !r.is_free());
            let right = own.map_or(serial, |r| r.ticket);
            Call::Fill {
                key,
                picture: random.bytes(len),
                ticket: match random.below(20) {
                    0..=1 => right.wrapping_sub(1),
                    2..=3 => right.wrapping_add(1),
                    4 => 0,
                    5 => right ^ (1 << random.below(64)),
                    6 => random.pick(records).ticket,
                    7 => serial,
                    8 => random.next(),
                    _ => right,
                },
            }
        }
        19..=22 => Call::Withdraw {
            key: often_on_line(records, key, random),
        },
        _ => Call::Age,
    }
}

/// The key, or one that is on a line.
fn often_on_line(records: &[Record], key: u64, random: &mut Random) -> u64 {
    let on_lines = records.iter().filter(|r| r.line().is_some());
    let on_lines: Vec<u64> = on_lines.map(|r| r.key).collect();
    if !on_lines.is_empty() && random.chance(60) {
        random.pick(&on_lines)
    } else {
        key
    }
}

fn heats_on_lines(records: &[Record]) -> impl Iterator<Item = u64> + '_ {
    let on_lines = records.iter().filter(|r| r.line().is_some());
    on_lines.map(|r| r.heat)
}

fn heats_without_line(records: &[Record]) -> impl Iterator<Item = u64> + '_ {
    let without = records.iter().filter(|r| r.line().is_none());
    without.map(|r| r.heat)
}

/// A weight at, just below or just above a number.
fn near(number: u64, random: &mut Random) -> u64 {
    number.saturating_add(random.below(3)).saturating_sub(1)
}

fn some_weight(random: &mut Random) -> u64 {
    match random.below(40) {
        0 => 0,
        1 => MOST_WEIGHT + 1,
        2 => u64::MAX,
        3 => random.pick(&[1 << 32, (1 << 32) + 1, (1 << 16) + 1, 1 << 63, u64::MAX - 1]),
        4..=6 => MOST_WEIGHT,
        7 => MOST_WEIGHT - 1,
        8..=12 => random.between(1, MOST_WEIGHT),
        _ => random.between(1, 9),
    }
}

/// One damage to the numbers. Some of them leave the table in order.
pub fn damage(records: &mut [Record], gauge: &mut [u8], c: usize, total: u64, random: &mut Random) {
    let c = c as u64;
    let place = match random.below(4) {
        0 => 0,
        1 => records.len() - 1,
        _ => random.place(records.len()),
    };
    let other = random.place(records.len());
    match random.below(15) {
        0 => put_number(
            gauge,
            0,
            random.pick(&[L + 1, L + 2, u64::MAX, total + (1 << 32)]),
        ),
        1 => put_number(gauge, 0, random.pick(&[L - 1, L, total / 2, 0])),
        2 => put_number(
            gauge,
            8,
            random.pick(&[total + 1, u64::MAX, total | (1 << 32)]),
        ),
        3 => records[place].heat = random.pick(&[total + 1, u64::MAX, total | (1 << 32)]),
        // States at the bound and past it.
        4 => records[place].state = random.pick(&[1 + 2 * c, 2 * c, 2 * c + 1]),
        5 => {
            let past = [
                2 + 2 * c,
                3 + 2 * c,
                1 << 32,
                (1 << 32) + 1,
                1 << 63,
                u64::MAX,
            ];
            records[place].state = random.pick(&past);
        }
        6 => records[place].slack = random.pick(&[u64::MAX, u64::MAX - 1, 1 << 63]),
        7 => records[place].state = 0,
        // A free record with one number that is not zero.
        8 => {
            let mut numbers = [0; 4];
            numbers[random.place(4)] = random.pick(&[1, 1 << 32, 1 << 63, 255, u64::MAX]);
            records[place] = Record {
                key: numbers[0],
                heat: numbers[1].min(total),
                slack: numbers[2],
                state: 0,
                ticket: numbers[3],
            };
        }
        // More records on lines than there are lines, or as many.
        9 => {
            let most = c + random.below(2);
            let mut on_lines = records.iter().filter(|r| r.line().is_some()).count() as u64;
            for record in records.iter_mut() {
                if c > 0 && on_lines < most && record.state == TRACKED {
                    record.state = empty_on(random.below(c)) + random.below(2);
                    on_lines += 1;
                }
            }
        }
        10 => records[place].key = records[other].key,
        11 => {
            if records[place].line().is_some() && records[other].line().is_some() {
                records[place].state = records[other].state;
            }
        }
        12 => records[place].key = random.pick(&[0, u64::MAX]),
        // A ticket, with a line or without one.
        13 => records[place].ticket = random.pick(&[1, 1 << 32, 1 << 63, u64::MAX]),
        // A line lost, and its ticket kept.
        _ => {
            let kept = records.iter().position(|r| r.ticket > 0);
            if let Some(place) = kept {
                records[place].state = TRACKED;
            }
        }
    }
}

/// Gives the table, the gauge or the lines a wrong length.
fn wrong_length(
    table: &mut Vec<u8>,
    gauge: &mut Vec<u8>,
    lines: &mut Vec<u8>,
    random: &mut Random,
) {
    let (whole_table, whole_lines) = (table.len(), lines.len());
    match random.below(10) {
        0 => table.clear(),
        1 => table.resize(41_000, random.next() as u8),
        2 => table.resize(whole_table + 1 + random.place(RECORD_BYTES - 1), 0),
        3 => table.truncate(whole_table.saturating_sub(1 + random.place(RECORD_BYTES - 1))),
        4 => gauge.resize(random.pick(&[23, 25]), 0),
        5 => gauge.resize(random.pick(&[0, 1, 8, 16, 32]), 0),
        6 => lines.resize(63, 0),
        7 => lines.resize(whole_lines + 1 + random.place(LINE_BYTES - 1), 0),
        8 => lines.resize(LINE_BYTES * (whole_table / RECORD_BYTES), 0),
        _ => lines.resize(LINE_BYTES * (whole_table / RECORD_BYTES + 1) + 1, 0),
    }
}
