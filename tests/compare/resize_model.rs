//! The rules of document 02's Ask 8, "Tables that follow the trade".
//!
//! Independent of the library's code. Who loses a line, who leaves and who gets a spare line is cut
//! off lists sorted once by all that counts, the place last; none is looked for after another.
//! Words in quotes are document 02's, or another document's where it is said.

use crate::model::{
    empty_on, filled_on, gauge_of, not_in_order, put_gauge, put_records, records_of, wrong_sizes,
    Answer, Fault, Model, Path, Record, FREE, LINE_BYTES, RECORD_BYTES, SERIAL_LIMIT, TRACKED,
};
use std::cmp::Reverse;

/// What becomes of the source's records, by their places in the source.
#[derive(Debug, Default, PartialEq, Eq)]
pub struct Fates {
    /// Those that lose their lines.
    pub lost: Vec<usize>,
    /// Those that leave, in the order in which they do.
    pub dropped: Vec<usize>,
    /// Those that stay, "in their old order".
    pub kept: Vec<usize>,
    /// Those that keep a line, in the order of their new line numbers.
    pub on_lines: Vec<usize>,
    /// Those that get a spare line, in the order of those lines.
    pub spare: Vec<usize>,
}

/// Works out what becomes of the records of a table in order, resized to K and C.
pub fn fates(records: &[Record], k: usize, c: usize, fault: Option<Fault>) -> Fates {
    let heat = |place: usize| records[place].heat;
    let line = |place: &usize| records[*place].line();
    let (mut on_lines, mut without): (Vec<usize>, Vec<usize>) = (0..records.len())
        .filter(|place| !records[*place].is_free())
        .partition(|place| line(place).is_some());

    // "If more are on lines than the new C, the coldest lose them, first among equals."
    let over = on_lines.len().saturating_sub(c);
    if fault == Some(Fault::SizesColdestLast) {
        on_lines.sort_by_key(|place| (heat(*place), Reverse(*place)));
    } else {
        on_lines.sort_by_key(|place| (heat(*place), *place));
    }
    let lost: Vec<usize> = on_lines.drain(..over).collect();
    without.extend(&lost);

    // "Then, if more are tracked than the new K, victims of the Ask 5 order go". By that order the
    // victim is the coldest without a line; "Among equally cold records without a line" it is "the
    // one with the largest slack, then the first".
    let over = (on_lines.len() + without.len()).saturating_sub(k);
    without.sort_by_key(|place| {
        let (heat, slack) = (heat(*place), records[*place].slack);
        match fault {
            Some(Fault::SizesHottestDropped) => (u64::MAX - heat, Reverse(slack), *place),
            Some(Fault::SizesVictimsByHeat) => (heat, Reverse(0), *place),
            _ => (heat, Reverse(slack), *place),
        }
    });
    let dropped: Vec<usize> = without.drain(..over).collect();

    // "Kept records are packed in their old order", "and each kept record on a line gets the next
    // line number in that order".
    let mut kept: Vec<usize> = on_lines.iter().chain(&without).copied().collect();
    kept.sort_unstable();
    if fault == Some(Fault::SizesOldNumbers) {
        on_lines.sort_by_key(|place| (line(place), *place));
    } else {
        on_lines.sort_unstable();
    }

    // "Spare lines, lowest first, go one by one to the hottest tracked without one, first among
    // equals".
    if fault == Some(Fault::SizesHottestLast) {
        without.sort_by_key(|place| Reverse((heat(*place), *place)));
    } else {
        without.sort_by_key(|place| (Reverse(heat(*place)), *place));
    }
    without.truncate(c - on_lines.len());
    Fates {
        lost,
        dropped,
        kept,
        on_lines,
        spare: without,
    }
}

impl Model {
    /// Resizes: "Copy a table, gauge and lines into others of another K and C." The source is
    /// table, gauge and lines, and so is the target. A refused call writes nothing.
    pub fn resize(&self, source: [&[u8]; 3], target: [&mut [u8]; 3], path: &mut Path) -> Answer {
        let [table, gauge, lines] = source;
        let [to_table, to_gauge, to_lines] = target;
        // "Refusal 1 applies to source or target sizes, 3 and 10 to the source, and they leave
        // both."
        let wrong_target = !wrong_sizes(to_table, to_gauge, to_lines).is_empty();
        let tested_last = self.fault == Some(Fault::SizesTargetLast);
        if !wrong_sizes(table, gauge, lines).is_empty() || (wrong_target && !tested_last) {
            return Answer::Refused(1);
        }
        let causes = not_in_order(table, gauge, lines);
        if !causes.is_empty() {
            if causes.len() == 1 {
                path.push(causes[0]);
            }
            return Answer::Refused(3);
        }
        let records = records_of(table);
        let (total, ceiling, serial) = gauge_of(gauge);
        if wrong_target {
            let at_limit = serial >= SERIAL_LIMIT;
            return Answer::Refused(if at_limit { 10 } else { 1 });
        }
        let (k, c) = (to_table.len() / RECORD_BYTES, to_lines.len() / LINE_BYTES);
        let fates = fates(&records, k, c, self.fault);
        let none_given = fates.spare.is_empty() && self.fault == Some(Fault::SizesSerialIfGiven);
        if serial >= SERIAL_LIMIT && !none_given {
            return Answer::Refused(10);
        }
        name_steps(&records, &fates, (ceiling, serial), (k, c), path);

        // "and the ceiling rises to the hottest one dropped if that is higher"
        let heats = fates.dropped.iter().map(|place| records[*place].heat);
        let reached = match self.fault {
            Some(Fault::SizesCeilingLeft) => None,
            Some(Fault::SizesCeilingToFirst) => heats.min(),
            _ => heats.max(),
        };
        let new_ceiling = ceiling.max(reached.unwrap_or(0));

        // "the rest free": all that no kept record stands in.
        let mut resized = vec![FREE; k];
        let place_of = |old: &usize| fates.kept.binary_search(old).expect("a kept record");
        for (place, old) in fates.kept.iter().enumerate() {
            resized[place] = Record {
                state: TRACKED,
                ticket: 0,
                ..records[*old]
            };
        }
        let mut new_serial = serial;
        // "with its line's 64 bytes, its ticket, and filled or empty as before"
        for (number, old) in fates.on_lines.iter().enumerate() {
            let place = place_of(old);
            let own = &records[*old];
            resized[place].state = if own.is_filled() {
                filled_on(number as u64)
            } else {
                empty_on(number as u64)
            };
            resized[place].ticket = own.ticket;
            if self.fault == Some(Fault::SizesTicketsRenewed) {
                new_serial += 1;
                resized[place].ticket = new_serial;
            }
            let from = match self.fault {
                Some(Fault::SizesLinesNotCopied) => continue,
                Some(Fault::SizesCopiedByNewNumber) => number,
                _ => own.line().expect("its line") as usize,
            };
            let (from, to) = (LINE_BYTES * from, LINE_BYTES * number);
            to_lines[to..to + LINE_BYTES].copy_from_slice(&lines[from..from + LINE_BYTES]);
        }
        // "Spare lines", the lines after those, "empty and with new tickets". Their bytes are such
        // "that no rule changes" (document 01).
        for (number, old) in (fates.on_lines.len() as u64..).zip(&fates.spare) {
            let place = place_of(old);
            resized[place].state = if self.fault == Some(Fault::SizesSpareFilled) {
                filled_on(number)
            } else {
                empty_on(number)
            };
            new_serial += 1;
            resized[place].ticket = new_serial;
        }
        if self.fault == Some(Fault::SizesRestKept) {
            resized.truncate(fates.kept.len());
        }
        put_records(to_table, &resized);
        put_gauge(to_gauge, total, new_ceiling, new_serial);
        Answer::Done
    }
}

/// Names what an accepted resize did. The ceiling and the serial are the source's, K and C the
/// target's.
fn name_steps(
    records: &[Record],
    fates: &Fates,
    (ceiling, serial): (u64, u64),
    (k, c): (usize, usize),
    path: &mut Path,
) {
    let Fates {
        lost,
        dropped,
        kept,
        on_lines,
        spare,
    } = fates;
    let heat = |place: usize| records[place].heat;
    let slack = |place: usize| records[place].slack;
    let line = |place: usize| records[place].line();
    let has_line = |place: &usize| line(*place).is_some();
    let mut name = |name: &'static str, holds: bool| {
        if holds {
            path.push(name);
        }
    };

    let marked = |places: &[usize]| {
        let mut marks = vec![false; records.len()];
        for place in places {
            marks[*place] = true;
        }
        marks
    };
    let (is_lost, is_spare) = (marked(lost), marked(spare));

    let warmest_lost = lost.iter().map(|place| heat(*place)).max();
    let coldest_on_line = on_lines.iter().map(|place| heat(*place)).min();
    name("lines lost", !lost.is_empty());
    name("lines lost: all, and C is 0", !lost.is_empty() && c == 0);
    name("lines lost: all but one", !lost.is_empty() && c == 1);
    let tie = !lost.is_empty() && warmest_lost == coldest_on_line;
    name("lines lost: first among equals", tie);
    name(
        "lines lost: one on the first line of the source",
        lost.iter().any(|place| line(*place) == Some(0)),
    );
    name(
        "lines lost: one filled",
        lost.iter().any(|place| records[*place].is_filled()),
    );
    name(
        "lines lost: one empty",
        lost.iter().any(|place| !records[*place].is_filled()),
    );
    name(
        "lines lost: in front of all that keep theirs",
        !lost.is_empty() && lost.iter().max() < on_lines.iter().min(),
    );
    name(
        "lines lost: behind all that keep theirs",
        !on_lines.is_empty() && lost.iter().min() > on_lines.iter().max(),
    );

    let last = dropped.last().copied();
    let hottest = last.map(heat);
    let stays = |place: &&usize| kept.binary_search(place).is_ok();
    name("dropped: none", dropped.is_empty());
    name("dropped: one", dropped.len() == 1);
    name("dropped: several", dropped.len() > 1);
    name(
        "dropped: one that lost its line",
        dropped.iter().any(|place| is_lost[*place]),
    );
    name(
        "dropped: none of those that lost their lines",
        !dropped.is_empty() && !lost.is_empty() && lost.iter().all(|place| stays(&place)),
    );
    name(
        "dropped: with several heats",
        dropped.first().map(|place| heat(*place)) < hottest,
    );
    // Those that stay without a line, before spare lines are given.
    let without: Vec<usize> = kept
        .iter()
        .filter(|place| !has_line(place) || is_lost[**place])
        .copied()
        .collect();
    if let Some(last) = last {
        let equal: Vec<usize> = without
            .iter()
            .filter(|place| heat(**place) == heat(last))
            .copied()
            .collect();
        name(
            "dropped: by slack",
            equal.iter().any(|place| slack(*place) < slack(last)),
        );
        name(
            "dropped: by slack, behind an equally cold one",
            equal
                .iter()
                .any(|place| slack(*place) < slack(last) && *place < last),
        );
        name(
            "dropped: first among equal slack",
            equal.iter().any(|place| slack(*place) == slack(last)),
        );
        name(
            "dropped: by slack, one that lost its line leaves and one that had none stays",
            is_lost[last] && equal.iter().any(|place| !has_line(place)),
        );
        name(
            "dropped: by slack, one that had none leaves and one that lost its line stays",
            !is_lost[last] && equal.iter().any(|place| is_lost[*place]),
        );
        name(
            "dropped: one on a line as cold or colder stays",
            coldest_on_line.is_some_and(|coldest| coldest <= heat(last)),
        );
        name("dropped: ceiling raised", heat(last) > ceiling);
        name(
            "dropped: ceiling raised, not by the first dropped",
            heat(last) > ceiling && heat(dropped[0]) <= ceiling,
        );
        name("dropped: hottest at the ceiling", heat(last) == ceiling);
        name("dropped: hottest under the ceiling", heat(last) < ceiling);
        name(
            "dropped: the first record",
            dropped.contains(&0) && !kept.is_empty(),
        );
        name(
            "dropped: the last record",
            dropped.contains(&(records.len() - 1)),
        );
    }

    let free = records.iter().position(Record::is_free);
    name("kept: none, no record tracked", kept.is_empty());
    name("kept: all of K", kept.len() == k);
    name("kept: fewer than K", !kept.is_empty() && kept.len() < k);
    name(
        "kept: moved forward over a free one",
        free.is_some_and(|free| kept.last() > Some(&free)),
    );
    name(
        "kept: behind one dropped",
        dropped
            .iter()
            .min()
            .is_some_and(|first| kept.last() > Some(first)),
    );
    name(
        "kept: behind a record with more heat, in old order",
        kept.windows(2).any(|pair| heat(pair[0]) > heat(pair[1])),
    );

    let numbered = || {
        let numbers = on_lines.iter().enumerate();
        numbers.map(|(number, place)| (number as u64, line(*place).expect("its line"), *place))
    };
    name(
        "line kept: its number stays",
        numbered().any(|(new, old, _)| new == old),
    );
    name(
        "line kept: a lower number",
        numbered().any(|(new, old, _)| new < old),
    );
    name(
        "line kept: a higher number",
        numbered().any(|(new, old, _)| new > old),
    );
    name(
        "line kept: not in the order of the old numbers",
        on_lines
            .windows(2)
            .any(|pair| line(pair[0]) > line(pair[1])),
    );
    name(
        "line kept: filled",
        on_lines.iter().any(|place| records[*place].is_filled()),
    );
    name(
        "line kept: empty",
        on_lines.iter().any(|place| !records[*place].is_filled()),
    );
    name(
        "line kept: its old number past the lines of the target",
        numbered().any(|(_, old, _)| old >= c as u64),
    );

    name(
        "spare: none, every line is kept",
        on_lines.len() == c && c > 0,
    );
    name("spare: one given", spare.len() == 1);
    name("spare: several given", spare.len() > 1);
    name("spare: 1,023 given", spare.len() == 1_023);
    name(
        "spare: one left, all are on lines",
        on_lines.len() + spare.len() < c,
    );
    name(
        "spare: all given, one stays without",
        !spare.is_empty() && kept.len() > c,
    );
    let left: Vec<usize> = without
        .iter()
        .filter(|place| !is_spare[**place])
        .copied()
        .collect();
    if let Some(last) = spare.last().copied() {
        let equal = |place: &&usize| heat(**place) == heat(last);
        name(
            "spare: first among equals",
            left.iter().any(|place| equal(&place)),
        );
        name(
            "spare: another as hot has more slack",
            left.iter()
                .filter(equal)
                .any(|place| slack(*place) > slack(last)),
        );
        name(
            "spare: not in the order of the table",
            spare.windows(2).any(|pair| pair[0] > pair[1]),
        );
        name(
            "spare: equals in the order of the table",
            spare.windows(2).any(|pair| heat(pair[0]) == heat(pair[1])),
        );
        name(
            "spare: in front of one that keeps its line",
            on_lines
                .last()
                .is_some_and(|own| spare.iter().any(|place| place < own)),
        );
        name("spare: a line kept below them", !on_lines.is_empty());
        name("spare: after one dropped", !dropped.is_empty());
        let given = serial + spare.len() as u64;
        name("spare: the serial comes to 2^63", given == SERIAL_LIMIT);
        name("spare: the serial passes 2^63", given > SERIAL_LIMIT);
    }
}
