//! Group (d): the examples of document 01 that concern the exported calls, with the sizes and tickets
//! of document 02, levelled sums worked out by hand, and document 02's Asks 1, 2, 4 and 5 on tables
//! worked out by hand. Each test has the document's sentence. The examples with journals concern the
//! program `replay` only.

use crate::harness::{call_text, Both, Memory};
use crate::model::{
    gauge_of, is_refused, number_at, put_gauge, put_records, records_of, Call, Model, Path, Record,
    Replay, FREE,
};
use crate::random::Random;

/// A test's name, the document's sentence, and the test.
pub type Example = (
    &'static str,
    &'static str,
    fn(&Model, u64) -> Result<(), String>,
);

/// Document 02's sentence on what a look does.
const LOOK: &str = "It answers hit, wanted or passed as the table stands, an untracked key being \
                    passed, and changes nothing.";

/// Document 02's sentences on when a ticket is given, what for, and when there is none left.
const GIVEN: &str =
    "Each time a line is taken, and each time an update reaches a class that keeps \
                     its line, the serial grows by 1 and becomes that record's ticket.";
const BYTES: &str = "an exported read lends 8 more bytes (another length gives 1), which get the \
                     ticket on wanted and otherwise stay";
const LATE: &str = "After a list as in demand 3, a filled line shows a picture whose ticket was \
                    given by the last accepted update of its class, if any, or after it.";
const LIMIT: &str = "10, a read over 0, update or fill when the serial is \
                     9,223,372,036,854,775,808 or more, tested after 3";

/// Document 02's sentences on what a withdrawal does, what it answers, and what it leaves.
const WITHDRAW: &str =
    "Withdraw, a new call, frees its key's record. A line it had goes, empty and \
                        with a new ticket, to the hottest tracked record left without one, first \
                        among equals, or becomes unused.";
const WITHDRAWN: &str = "Its answer is withdrawn (105 when exported), or unknown for an untracked \
                         key, and refusals 1, 3 and 10 apply.";
const STRUCK: &str = "In the replay the class's true heat becomes 0. Lists with withdrawals must \
                      satisfy every part of demand 3; a withdrawal leaves the ceiling.";

/// Document 02's sentences on the victim, on the coldest on the lines, and on the sample journal.
const LONG_KNOWN: &str = "Arcades run many tokens with equal heat, and the long-known one was \
                          thrown out.";
const EQUALLY_COLD: &str =
    "Among equally cold records without a line, the victim is now the one with the largest slack, \
     then the first.";
const ON_LINES: &str = "The coldest on the lines is still chosen as before.";
const ROW_12: &str = "Row 12 of the sample journal now evicts class 11, and its printed line is \
                      the same.";

pub const EXAMPLES: [Example; 52] = [
    (
        "thirteen rows",
        "Journal: read 5 w 3; fill 5; ... read 9 w 1. Output, whole: 1 wanted 3 0 ... 13 wanted 8 1",
        thirteen_rows,
    ),
    (
        "edge: most records",
        "40,960 table bytes pass and 41,000 give 1, in place of 32,768 and 32,800.",
        most_records,
    ),
    (
        "edge: one record",
        "K = 1 with no lines passes; with one line, 1.",
        one_record,
    ),
    (
        "edge: most weight",
        "Weight 65,535 passes, 65,536 gives 2.",
        most_weight,
    ),
    (
        "edge: total at L",
        "Total 4,294,967,294 and a read of 1: no aging; one more such read ages first and leaves \
         2,147,483,648.",
        total_at_the_limit,
    ),
    (
        "edge: most state",
        "With C = 1, state 3 is in order and 4 is not.",
        most_state,
    ),
    (
        "slip: equal heat",
        "Admitting on equal heat (row 4).",
        equal_heat,
    ),
    (
        "slip: slack",
        "Halving slack downward: were an aging to follow row 12, class 9 would go from heat 2, \
         true heat 1, slack 1 to heat 1, true heat 0, so slack must stay 1.",
        slack_rounded_up,
    ),
    (
        "slip: newcomer",
        "Giving a newcomer the victim's heat where updates had cooled it below the ceiling.",
        newcomer_over_cooled_victim,
    ),
    (
        "slip: cooled class",
        "Leaving a cooled class on its line (row 8).",
        cooled_class,
    ),
    (
        "fresh",
        "Fresh: every table byte and the gauge are zero. The lines keep their bytes.",
        fresh_on_any_bytes,
    ),
    (
        "levelled sum",
        "The sum, over all K records, of the larger of heat and ceiling; free records count with \
         heat 0.",
        levelled_sums,
    ),
    (
        "look: fresh table",
        "A read of weight 0 is now accepted.",
        look_on_a_fresh_table,
    ),
    ("look: answers", LOOK, look_as_the_table_stands),
    ("look: untracked", LOOK, look_at_an_untracked_key),
    ("look: no line taken", LOOK, look_takes_no_line),
    ("look: total at L", LOOK, look_at_the_limit),
    (
        "look: not an update",
        "Updates of weight 0 are still refused with 2.",
        update_of_nothing,
    ),
    (
        "look: in a list",
        "Lists of calls with such looks in them are covered by demand 3, and a look counts for \
         nothing in the replay.",
        looks_between_the_rows,
    ),
    (
        "ticket: thirteen rows",
        "Printed rows keep their form; row 2 of the sample brings ticket 1.",
        tickets_of_the_rows,
    ),
    ("ticket: given", GIVEN, tickets_given),
    ("ticket: not given", GIVEN, no_ticket_given),
    ("ticket: late fetch", LATE, late_fetch),
    ("ticket: line retaken", LATE, line_retaken),
    (
        "ticket: another",
        "9, a fill with another ticket, tested after 6",
        another_ticket,
    ),
    ("ticket: bytes", BYTES, ticket_bytes),
    (
        "ticket: in order",
        "It is 0 in a fresh table and for records without a line; a table with another there is \
         not in order.",
        ticket_without_a_line,
    ),
    ("ticket: last serial", LIMIT, last_serial),
    ("ticket: order of tests", LIMIT, serial_among_the_tests),
    ("withdraw: line goes", WITHDRAW, line_handed_on),
    ("withdraw: among equals", WITHDRAW, handed_on_among_equals),
    ("withdraw: unused", WITHDRAW, line_becomes_unused),
    ("withdraw: free records", WITHDRAW, free_records_get_no_line),
    ("withdraw: without a line", WITHDRAW, withdrawn_without_a_line),
    ("withdraw: doubled", WITHDRAW, withdrawn_of_doubled),
    ("withdraw: unknown", WITHDRAWN, withdrawal_of_an_untracked_key),
    ("withdraw: order of tests", WITHDRAWN, withdrawal_among_the_tests),
    ("withdraw: old ticket", WITHDRAW, late_fetch_of_a_withdrawn_class),
    ("withdraw: read again", STRUCK, withdrawn_and_read_again),
    ("withdraw: true heat", STRUCK, true_heat_of_a_withdrawn_class),
    ("equals: row 12", ROW_12, row_twelve),
    ("equals: long-known", LONG_KNOWN, long_known_stays),
    ("equals: slack", EQUALLY_COLD, largest_slack_leaves),
    ("equals: heat first", EQUALLY_COLD, heat_before_slack),
    ("equals: first", EQUALLY_COLD, first_of_equal_slack),
    ("equals: every place", EQUALLY_COLD, largest_slack_in_every_place),
    ("equals: on a line", EQUALLY_COLD, no_victim_on_a_line),
    (
        "equals: aged first",
        "If total + w exceeds L, age first.",
        victim_after_an_aging,
    ),
    (
        "equals: free record",
        "Untracked key with a free record: the first free one gets key, heat ceiling + w, slack \
         ceiling, state 1.",
        free_record_before_a_victim,
    ),
    (
        "equals: tracked key",
        "Tracked key: its heat grows by w.",
        no_victim_for_a_tracked_key,
    ),
    (
        "equals: coldest on the lines",
        ON_LINES,
        first_of_the_coldest_on_lines,
    ),
    (
        "equals: hottest off the lines",
        "If it has a line and the hottest record without one (first among equals) is now strictly \
         hotter, that record takes the line, empty, and the key's state becomes 1.",
        first_of_the_hottest_off_lines,
    ),
];

/// The memory and, for a list from fresh, the replay.
pub struct Desk<'a> {
    pub both: Both<'a>,
    pub replay: Option<Replay>,
    pub random: Random,
}

impl<'a> Desk<'a> {
    /// Any bytes at all, for K and C that may be wrong.
    pub fn dirty(model: &'a Model, seed: u64, k: usize, c: usize) -> Desk<'a> {
        let mut random = Random::new(seed, 5, k as u64);
        Desk {
            both: Both::new(model, Memory::dirty(k, c, &mut random)),
            replay: None,
            random,
        }
    }

    pub fn fresh(model: &'a Model, seed: u64, k: usize, c: usize) -> Result<Desk<'a>, String> {
        let mut desk = Desk::dirty(model, seed, k, c);
        desk.gives(0, Call::Fresh)?;
        desk.replay = Some(Replay::new(k));
        Ok(desk)
    }

    /// K and C as given, and these numbers.
    pub fn with(
        model: &'a Model,
        seed: u64,
        (total, ceiling, serial): (u64, u64, u64),
        records: &[Record],
        c: usize,
    ) -> Desk<'a> {
        let mut desk = Desk::dirty(model, seed, records.len(), c);
        let mut memory = desk.both.librarys;
        put_records(memory.table.bytes_mut(), records);
        put_gauge(memory.gauge.bytes_mut(), total, ceiling, serial);
        desk.both = Both::new(model, memory);
        desk
    }

    /// Makes the call on both; the number must be the one given.
    pub fn gives(&mut self, number: u64, call: Call) -> Result<(), String> {
        let serial = number_at(self.both.librarys.gauge.bytes(), 16);
        let found = self.both.call(&call, &mut self.random, &mut Path::new())?;
        if found != number {
            let text = call_text(&call);
            return Err(format!("{text} returned {found}, and {number} is due"));
        }
        if let Some(replay) = &mut self.replay {
            replay.feed(&call, is_refused(found), serial);
            let (table, gauge, lines) = self.both.librarys.three();
            replay.compare(table, gauge, lines)?;
        }
        Ok(())
    }

    /// Every call must give 1.
    fn wrong_sizes(&mut self) -> Result<(), String> {
        let sum = Call::LevelledSum;
        for call in [
            Call::Fresh,
            read(5, 3),
            read(5, 0),
            fill(5, 1),
            update(5, 1),
            withdraw(5),
            Call::Age,
            sum,
        ] {
            self.gives(1, call)?;
        }
        Ok(())
    }

    /// Lent with these lengths of table, gauge, lines and ticket, the call must give 1.
    fn wrong_lengths(&mut self, lengths: [usize; 4], call: &Call) -> Result<(), String> {
        let whole = self.both.set_lengths(lengths);
        let found = self.both.call(call, &mut self.random, &mut Path::new());
        self.both.set_lengths(whole);
        match found? {
            1 => Ok(()),
            other => Err(format!(
                "lengths {lengths:?} returned {other}, and 1 is due"
            )),
        }
    }

    /// The levelled sum must be as given.
    pub fn sum(&mut self, due: u64) -> Result<(), String> {
        self.gives(0, Call::LevelledSum)?;
        let found = number_at(self.both.librarys.sum.bytes(), 0);
        if found != due {
            return Err(format!("levelled sum is {found}, and {due} is due"));
        }
        Ok(())
    }

    /// The gauge must be as given.
    pub fn gauge(&self, total: u64, ceiling: u64, serial: u64) -> Result<(), String> {
        let found = gauge_of(self.both.librarys.gauge.bytes());
        let due = (total, ceiling, serial);
        if found != due {
            return Err(format!("gauge is {found:?}, and {due:?} is due"));
        }
        Ok(())
    }

    /// A read of weight 1 of class 13, which is untracked, must take the place of the victim, which
    /// is the one at the place given. All else stays, and no line is taken.
    fn evicts(&mut self, victim: usize) -> Result<(), String> {
        let before = records_of(self.both.librarys.table.bytes());
        let (total, ceiling, serial) = gauge_of(self.both.librarys.gauge.bytes());
        let level = ceiling.max(before[victim].heat);
        self.gives(104, read(13, 1))?;
        for (place, before) in before.into_iter().enumerate() {
            let evicted = place == victim;
            let due = if evicted {
                plain(13, level + 1, level)
            } else {
                before
            };
            self.record(place, due)?;
        }
        self.gauge(total + 1, level, serial)
    }

    /// The record at a place must be as given.
    pub fn record(&self, place: usize, due: Record) -> Result<(), String> {
        let found = records_of(self.both.librarys.table.bytes())[place];
        if found != due {
            return Err(format!("record {place} is {found:?}, and {due:?} is due"));
        }
        Ok(())
    }

    /// The true heat of a key must be as given.
    pub fn true_heat(&self, key: u64, due: u64) -> Result<(), String> {
        let found = self
            .replay
            .as_ref()
            .and_then(|replay| replay.keys.get(&key))
            .map_or(0, |kept| kept.heat);
        if found != due {
            return Err(format!("true heat of {key} is {found}, and {due} is due"));
        }
        Ok(())
    }

    /// Makes the call; the answer must be wanted on line 0 with the ticket given.
    pub fn wanted(&mut self, ticket: u64, call: Call) -> Result<(), String> {
        self.gives(4_000, call)?;
        self.told(ticket)
    }

    /// The call before must have told the ticket given.
    pub fn told(&self, due: u64) -> Result<(), String> {
        let found = self.both.told();
        if found != due {
            return Err(format!("ticket {found} is told, and {due} is due"));
        }
        Ok(())
    }

    /// A look must give the number and change nothing.
    pub fn look(&mut self, number: u64, key: u64) -> Result<(), String> {
        let before = self.both.librarys.clone();
        self.gives(number, read(key, 0))?;
        if self.both.librarys.three() != before.three() {
            return Err(format!("a look at {key} changed lent bytes"));
        }
        Ok(())
    }

    /// The first rows of the document's journal.
    fn rows(&mut self, count: usize) -> Result<(), String> {
        for (row, (call, number, gauge)) in rows().into_iter().enumerate().take(count) {
            let (total, ceiling, serial) = gauge;
            self.gives(number, call)
                .and_then(|()| self.gauge(total, ceiling, serial))
                .map_err(|text| format!("row {}: {text}", row + 1))?;
        }
        Ok(())
    }
}

pub fn read(key: u64, weight: u64) -> Call {
    Call::Read { key, weight }
}

pub fn update(key: u64, weight: u64) -> Call {
    Call::Update { key, weight }
}

pub fn withdraw(key: u64) -> Call {
    Call::Withdraw { key }
}

/// A picture of the key, and of the ticket that it was fetched for.
pub fn fill(key: u64, ticket: u64) -> Call {
    let picture = (0..64).map(|byte| byte + key as u8 + ticket as u8 % 16);
    Call::Fill {
        key,
        picture: picture.collect(),
        ticket,
    }
}

/// A record without a line.
pub fn plain(key: u64, heat: u64, slack: u64) -> Record {
    record(key, heat, slack, 1, 0)
}

pub fn record(key: u64, heat: u64, slack: u64, state: u64, ticket: u64) -> Record {
    Record {
        key,
        heat,
        slack,
        state,
        ticket,
    }
}

/// The document's journal, with the number of each answer, the total, the ceiling and the serial.
pub fn rows() -> [(Call, u64, (u64, u64, u64)); 13] {
    [
        (read(5, 3), 4_000, (3, 0, 1)),
        (fill(5, 1), 103, (3, 0, 1)),
        (read(5, 1), 2_000, (4, 0, 1)),
        (read(7, 4), 104, (8, 0, 1)),
        (read(7, 1), 4_000, (9, 0, 2)),
        (read(9, 2), 104, (11, 0, 2)),
        (read(11, 1), 104, (12, 2, 2)),
        (update(7, 3), 101, (12, 2, 3)),
        (update(9, 1), 102, (12, 2, 3)),
        (fill(7, 2), 5, (12, 2, 3)),
        (Call::Age, 100, (6, 1, 3)),
        (read(9, 1), 104, (7, 1, 3)),
        (read(9, 1), 4_000, (8, 1, 4)),
    ]
}

fn thirteen_rows(model: &Model, seed: u64) -> Result<(), String> {
    let mut desk = Desk::fresh(model, seed, 3, 1)?;
    desk.rows(13)?;
    desk.record(0, plain(5, 2, 0))?;
    desk.record(1, plain(7, 1, 0))?;
    desk.record(2, record(9, 3, 1, 2, 4))?;
    // 2 + 1 + 3: no heat is below the ceiling, 1.
    desk.sum(6)
}

fn most_records(model: &Model, seed: u64) -> Result<(), String> {
    for c in [0, 1, 1_023] {
        let first = if c == 0 { 104 } else { 4_000 };
        let filled = if c == 0 { 5 } else { 103 };
        let mut desk = Desk::fresh(model, seed, 1_024, c)?;
        desk.gives(first, read(5, 3))?;
        desk.gives(filled, fill(5, 1))?;
        desk.gives(101, update(5, 1))?;
        desk.gives(100, Call::Age)?;
        desk.sum(1)?;

        Desk::dirty(model, seed, 1_025, c).wrong_sizes()?;
    }
    Ok(())
}

fn one_record(model: &Model, seed: u64) -> Result<(), String> {
    let mut desk = Desk::fresh(model, seed, 1, 0)?;
    desk.gives(104, read(5, 3))?;
    desk.gives(5, fill(5, 0))?;
    desk.gives(101, update(5, 1))?;
    desk.gives(100, Call::Age)?;
    desk.sum(1)?;

    Desk::dirty(model, seed, 1, 1).wrong_sizes()
}

fn most_weight(model: &Model, seed: u64) -> Result<(), String> {
    let mut desk = Desk::fresh(model, seed, 3, 1)?;
    desk.gives(4_000, read(5, 65_535))?;
    desk.gives(2, read(5, 65_536))?;
    desk.gauge(65_535, 0, 1)?;
    desk.gives(2, update(5, 65_536))?;
    desk.record(0, record(5, 65_535, 0, 2, 1))?;
    desk.gives(101, update(5, 65_535))?;
    desk.record(0, record(5, 0, 0, 2, 2))
}

fn total_at_the_limit(model: &Model, seed: u64) -> Result<(), String> {
    let records = [record(5, 9, 3, 3, 8), plain(7, 4, 1), FREE];
    let mut desk = Desk::with(model, seed, (4_294_967_294, 5, 8), &records, 1);
    // "a read of 1: no aging"
    desk.gives(2_000, read(5, 1))?;
    desk.gauge(4_294_967_295, 5, 8)?;
    desk.record(0, record(5, 10, 3, 3, 8))?;
    desk.record(1, plain(7, 4, 1))?;
    // "one more such read ages first and leaves 2,147,483,648"
    desk.gives(2_000, read(5, 1))?;
    desk.gauge(2_147_483_648, 2, 8)?;
    desk.record(0, record(5, 6, 2, 3, 8))?;
    desk.record(1, plain(7, 2, 1))
}

fn most_state(model: &Model, seed: u64) -> Result<(), String> {
    let calls = [
        (read(5, 1), 2_000, 3),
        (read(5, 0), 2_000, 3),
        (update(5, 1), 101, 3),
        (fill(5, 1), 6, 3),
        (withdraw(5), 105, 3),
        (Call::Age, 100, 3),
        (Call::LevelledSum, 0, 3),
        // "Fresh gives only 1."
        (Call::Fresh, 0, 0),
    ];
    for (call, with_3, with_4) in calls {
        for (state, number) in [(3, with_3), (4, with_4)] {
            for place in 0..3 {
                let mut records = [FREE; 3];
                records[place] = record(5, 4, 0, state, 1);
                let mut desk = Desk::with(model, seed, (4, 0, 1), &records, 1);
                desk.gives(number, call.clone())?;
            }
        }
    }
    Ok(())
}

fn equal_heat(model: &Model, seed: u64) -> Result<(), String> {
    let mut desk = Desk::fresh(model, seed, 3, 1)?;
    desk.rows(3)?;
    desk.record(0, record(5, 4, 0, 3, 1))?;
    // Class 7 comes to heat 4 as well; class 5 stays on its line.
    desk.gives(104, read(7, 4))?;
    desk.record(0, record(5, 4, 0, 3, 1))?;
    desk.record(1, plain(7, 4, 0))?;
    desk.gives(2_000, read(5, 1))
}

fn slack_rounded_up(model: &Model, seed: u64) -> Result<(), String> {
    let mut desk = Desk::fresh(model, seed, 3, 1)?;
    desk.rows(12)?;
    desk.record(2, plain(9, 2, 1))?;
    desk.true_heat(9, 1)?;
    desk.gives(100, Call::Age)?;
    desk.record(2, plain(9, 1, 1))?;
    desk.true_heat(9, 0)
}

fn newcomer_over_cooled_victim(model: &Model, seed: u64) -> Result<(), String> {
    let mut desk = Desk::fresh(model, seed, 1, 0)?;
    desk.gives(104, read(1, 5))?;
    // Class 2 takes the place of class 1, whose heat becomes the ceiling.
    desk.gives(104, read(2, 1))?;
    desk.record(0, plain(2, 6, 5))?;
    desk.gauge(6, 5, 0)?;
    // Updates cool class 2 below the ceiling.
    desk.gives(101, update(2, 4))?;
    desk.record(0, plain(2, 2, 5))?;
    // Class 1 comes back. Its true heat is 6; with the victim's heat it would have 3.
    desk.gives(104, read(1, 1))?;
    desk.record(0, plain(1, 6, 5))?;
    desk.true_heat(1, 6)?;
    desk.gauge(7, 5, 0)
}

fn cooled_class(model: &Model, seed: u64) -> Result<(), String> {
    let mut desk = Desk::fresh(model, seed, 3, 1)?;
    desk.rows(7)?;
    desk.record(0, plain(5, 4, 0))?;
    desk.record(1, record(7, 5, 0, 2, 2))?;
    // Class 7 falls to heat 2 and class 5, with heat 4, takes the line, empty.
    desk.gives(101, update(7, 3))?;
    desk.record(0, record(5, 4, 0, 2, 3))?;
    desk.record(1, plain(7, 2, 0))
}

fn fresh_on_any_bytes(model: &Model, seed: u64) -> Result<(), String> {
    for (k, c) in [(1, 0), (3, 1), (1_024, 1_023)] {
        let mut desk = Desk::dirty(model, seed, k, c);
        let lines = desk.both.librarys.lines.bytes().to_vec();
        desk.gives(0, Call::Fresh)?;
        let (table, gauge, lines_after) = desk.both.librarys.three();
        if table.iter().chain(gauge).any(|&byte| byte != 0) {
            return Err(format!("K = {k}: a byte of the table or gauge is not 0"));
        }
        if lines_after != lines {
            return Err(format!("K = {k}: the lines have other bytes"));
        }
    }
    Ok(())
}

fn levelled_sums(model: &Model, seed: u64) -> Result<(), String> {
    let most = 4_294_967_295;
    let sums: [((u64, u64, u64), &[Record], u64); 7] = [
        ((7, 2, 0), &[plain(5, 5, 0)], 5),
        ((7, 6, 0), &[plain(5, 5, 0)], 6),
        ((7, 2, 0), &[FREE], 2),
        // 4 + 3 + 3
        ((12, 3, 0), &[plain(5, 4, 9), plain(7, 2, 9), FREE], 10),
        // 3 + 3 + 3 + 4 + 5
        (
            (20, 3, 0),
            &[
                plain(1, 1, 0),
                plain(2, 2, 0),
                plain(3, 3, 0),
                plain(4, 4, 0),
                plain(5, 5, 0),
            ],
            18,
        ),
        // The slack and the serial do not count. Three of the largest need more than 32 bits.
        (
            (most, 0, u64::MAX),
            &[plain(1, most, u64::MAX); 3],
            12_884_901_885,
        ),
        // 1,024 of the largest.
        ((most, most, 0), &[FREE; 1_024], 4_398_046_510_080),
    ];
    for (gauge, records, due) in sums {
        let mut desk = Desk::with(model, seed, gauge, records, 0);
        desk.sum(due)
            .map_err(|text| format!("K = {}, gauge {gauge:?}: {text}", records.len()))?;
    }
    Ok(())
}

fn look_on_a_fresh_table(model: &Model, seed: u64) -> Result<(), String> {
    for (k, c) in [(1, 0), (3, 1), (1_024, 1_023)] {
        let mut desk = Desk::fresh(model, seed, k, c)?;
        for key in [0, 5, u64::MAX] {
            desk.look(104, key)?;
        }
        desk.gauge(0, 0, 0)?;
        for place in 0..k {
            desk.record(place, FREE)?;
        }
    }
    Ok(())
}

fn look_as_the_table_stands(model: &Model, seed: u64) -> Result<(), String> {
    let mut desk = Desk::fresh(model, seed, 3, 1)?;
    desk.gives(4_000, read(5, 3))?;
    desk.look(4_000, 5)?;
    desk.told(1)?;
    desk.gives(103, fill(5, 1))?;
    desk.look(2_000, 5)?;
    desk.gives(104, read(7, 3))?;
    desk.look(104, 7)?;
    desk.gauge(6, 0, 1)?;
    desk.record(0, record(5, 3, 0, 3, 1))?;
    desk.record(1, plain(7, 3, 0))?;
    // Class 7 takes the line, and an update leaves it there, empty.
    desk.gives(4_000, read(7, 2))?;
    desk.look(104, 5)?;
    desk.gives(103, fill(7, 2))?;
    desk.look(2_000, 7)?;
    desk.gives(101, update(7, 1))?;
    desk.look(4_000, 7)?;
    desk.told(3)?;

    // The line's own number, and the first record of a key that has two.
    let records = [
        record(5, 9, 0, 7, 3),
        record(7, 8, 0, 4, 6),
        record(7, 8, 0, 3, 5),
        plain(9, 1, 0),
    ];
    let mut desk = Desk::with(model, seed, (26, 1, 6), &records, 3);
    desk.look(2_002, 5)?;
    desk.look(4_001, 7)?;
    desk.told(6)?;
    desk.look(104, 9)
}

fn look_at_an_untracked_key(model: &Model, seed: u64) -> Result<(), String> {
    // A free record and an unused line: a read tracks key 7 and takes the line.
    let records = [record(5, 9, 3, 3, 1), FREE, FREE];
    let mut desk = Desk::with(model, seed, (9, 0, 1), &records, 2);
    desk.look(104, 7)?;
    desk.look(104, 0)?;
    desk.gives(4_001, read(7, 1))?;

    // No free record: a read evicts class 9 and raises the ceiling.
    let records = [record(5, 9, 3, 3, 1), plain(7, 4, 1), plain(9, 2, 1)];
    let mut desk = Desk::with(model, seed, (15, 1, 1), &records, 1);
    desk.look(104, 11)?;
    desk.gives(104, read(11, 1))?;
    desk.gauge(16, 2, 1)?;
    desk.record(2, plain(11, 3, 2))
}

fn look_takes_no_line(model: &Model, seed: u64) -> Result<(), String> {
    // Line 0 is unused: a read takes it.
    let records = [record(5, 9, 3, 5, 1), plain(7, 4, 1), FREE];
    let mut desk = Desk::with(model, seed, (13, 0, 1), &records, 2);
    desk.look(104, 7)?;
    desk.gives(4_000, read(7, 1))?;

    // Class 7 is hotter than class 5: a read takes its line.
    let records = [record(5, 2, 0, 3, 1), plain(7, 9, 0)];
    let mut desk = Desk::with(model, seed, (11, 0, 1), &records, 1);
    desk.look(104, 7)?;
    desk.look(2_000, 5)?;
    desk.gives(4_000, read(7, 1))
}

fn look_at_the_limit(model: &Model, seed: u64) -> Result<(), String> {
    let records = [record(5, 9, 3, 3, 1), plain(7, 4, 1), FREE];
    let mut desk = Desk::with(model, seed, (4_294_967_295, 5, 1), &records, 1);
    desk.look(2_000, 5)?;
    desk.look(104, 7)?;
    desk.look(104, 9)?;
    desk.gauge(4_294_967_295, 5, 1)?;
    // A read of 1 ages first.
    desk.gives(2_000, read(5, 1))?;
    desk.gauge(2_147_483_648, 2, 1)
}

fn update_of_nothing(model: &Model, seed: u64) -> Result<(), String> {
    let mut desk = Desk::fresh(model, seed, 3, 1)?;
    desk.gives(2, update(5, 0))?;
    desk.rows(2)?;
    desk.gives(2, update(5, 0))?;
    desk.look(2_000, 5)
}

fn looks_between_the_rows(model: &Model, seed: u64) -> Result<(), String> {
    // After each row, the class on the line and what a look at it gives.
    let on_line = [
        (5, 4_000),
        (5, 2_000),
        (5, 2_000),
        (5, 2_000),
        (7, 4_000),
        (7, 4_000),
        (7, 4_000),
        (5, 4_000),
        (5, 4_000),
        (5, 4_000),
        (5, 4_000),
        (5, 4_000),
        (9, 4_000),
    ];
    let mut desk = Desk::fresh(model, seed, 3, 1)?;
    for ((call, number, gauge), (class, answer)) in rows().into_iter().zip(on_line) {
        let (total, ceiling, serial) = gauge;
        desk.gives(number, call)?;
        for key in [5, 7, 9, 11] {
            desk.look(if key == class { answer } else { 104 }, key)?;
        }
        desk.gauge(total, ceiling, serial)?;
    }
    for (key, heat) in [(5, 2), (7, 1), (9, 2), (11, 0)] {
        desk.true_heat(key, heat)?;
    }
    Ok(())
}

fn tickets_of_the_rows(model: &Model, seed: u64) -> Result<(), String> {
    // After each row, the class on the line and its ticket. Given by row 1, by row 5, where 7 takes
    // the line of 5, by row 8, the update in which 5 takes it back, and by row 13.
    let on_line = [
        (5, 1),
        (5, 1),
        (5, 1),
        (5, 1),
        (7, 2),
        (7, 2),
        (7, 2),
        (5, 3),
        (5, 3),
        (5, 3),
        (5, 3),
        (5, 3),
        (9, 4),
    ];
    let mut desk = Desk::fresh(model, seed, 3, 1)?;
    for (row, ((call, number, _), (class, ticket))) in rows().into_iter().zip(on_line).enumerate() {
        let at_row = |text: String| format!("row {}: {text}", row + 1);
        desk.gives(number, call).map_err(at_row)?;
        if number == 4_000 {
            desk.told(ticket).map_err(at_row)?;
        }
        for record in records_of(desk.both.librarys.table.bytes()) {
            let due = if record.key == class { ticket } else { 0 };
            if record.ticket != due {
                return Err(at_row(format!("{record:?}, and ticket {due} is due")));
            }
        }
    }
    // Row 10 is refused with 5 whatever its ticket.
    for ticket in [0, 1, 2, 3, u64::MAX] {
        let mut desk = Desk::fresh(model, seed, 3, 1)?;
        desk.rows(9)?;
        desk.gives(5, fill(7, ticket))?;
    }
    // What is left wants 9's picture with ticket 4.
    desk.gives(9, fill(9, 3))?;
    desk.gives(103, fill(9, 4))?;
    desk.gauge(8, 1, 4)
}

fn tickets_given(model: &Model, seed: u64) -> Result<(), String> {
    // An unused line, the lowest, for a new class and for one without a line.
    let records = [record(5, 9, 3, 5, 7), plain(7, 4, 1), FREE, FREE];
    for (key, place) in [(7, 1), (9, 2)] {
        let mut desk = Desk::with(model, seed, (20, 0, 40), &records, 3);
        desk.wanted(41, read(key, 1))?;
        desk.gauge(21, 0, 41)?;
        let heat = if key == 7 { 5 } else { 1 };
        let slack = if key == 7 { 1 } else { 0 };
        desk.record(place, record(key, heat, slack, 2, 41))?;
        desk.record(0, record(5, 9, 3, 5, 7))?;
    }

    // The coldest's line, also where the read ages first; the coldest is left without a ticket.
    let records = [record(5, 4, 0, 3, 7), plain(7, 4, 1), FREE];
    let mut desk = Desk::with(model, seed, (4_294_967_295, 0, 40), &records, 1);
    desk.wanted(41, read(7, 1))?;
    desk.gauge(2_147_483_648, 0, 41)?;
    desk.record(0, plain(5, 2, 0))?;
    desk.record(1, record(7, 3, 1, 2, 41))?;

    // An update: the class keeps its line, which is filled or empty, with equal heats or not.
    for (state, w) in [(2, 1), (3, 1), (2, 2), (3, 2)] {
        let records = [record(5, 6, 0, state, 7), plain(7, 4, 1), FREE];
        let mut desk = Desk::with(model, seed, (10, 0, 40), &records, 1);
        desk.gives(101, update(5, w))?;
        desk.gauge(10, 0, 41)?;
        desk.record(0, record(5, 6 - w, 0, 2, 41))?;
        desk.record(1, plain(7, 4, 1))?;
    }

    // An update: another takes the line, and only that one gets a ticket.
    let records = [record(5, 6, 0, 3, 7), plain(7, 4, 1), FREE];
    let mut desk = Desk::with(model, seed, (10, 0, 40), &records, 1);
    desk.gives(101, update(5, 3))?;
    desk.gauge(10, 0, 41)?;
    desk.record(0, plain(5, 3, 0))?;
    desk.record(1, record(7, 4, 1, 2, 41))
}

fn no_ticket_given(model: &Model, seed: u64) -> Result<(), String> {
    let records = [
        record(5, 9, 0, 3, 7),
        record(7, 8, 0, 4, 6),
        plain(9, 2, 0),
        plain(11, 1, 0),
    ];
    let calls = [
        // Of a class that has its line, or takes none.
        (read(5, 1), 2_000),
        (read(7, 1), 4_001),
        (read(9, 1), 104),
        (read(13, 1), 104),
        // Looks.
        (read(5, 0), 2_000),
        (read(7, 0), 4_001),
        (read(9, 0), 104),
        // Of a class without a line, or untracked.
        (update(9, 1), 101),
        (update(13, 1), 102),
        (fill(7, 6), 103),
        (withdraw(9), 105),
        (withdraw(13), 102),
        (Call::Age, 100),
        (Call::LevelledSum, 0),
    ];
    for (call, number) in calls {
        let text = call_text(&call);
        let mut desk = Desk::with(model, seed, (20, 1, 40), &records, 2);
        desk.gives(number, call)?;
        if number == 4_001 {
            desk.told(6)?;
        }
        let (_, _, serial) = gauge_of(desk.both.librarys.gauge.bytes());
        let after = records_of(desk.both.librarys.table.bytes());
        let tickets: Vec<u64> = after.iter().map(|record| record.ticket).collect();
        if serial != 40 || tickets != [7, 6, 0, 0] {
            return Err(format!("{text} left serial {serial}, tickets {tickets:?}"));
        }
    }
    Ok(())
}

fn late_fetch(model: &Model, seed: u64) -> Result<(), String> {
    let mut desk = Desk::fresh(model, seed, 3, 1)?;
    // Told wanted with 1; while the picture is fetched it changes; the old one is not stored.
    desk.wanted(1, read(5, 3))?;
    desk.gives(101, update(5, 1))?;
    desk.gives(9, fill(5, 1))?;
    desk.record(0, record(5, 2, 0, 2, 2))?;
    desk.wanted(2, read(5, 0))?;
    desk.wanted(2, read(5, 1))?;
    desk.gives(103, fill(5, 2))?;
    desk.gives(2_000, read(5, 1))?;
    desk.record(0, record(5, 4, 0, 3, 2))?;
    // Each update makes another ticket, and a filled line empty.
    desk.gives(101, update(5, 1))?;
    desk.gives(101, update(5, 1))?;
    for ticket in [1, 2, 3] {
        desk.gives(9, fill(5, ticket))?;
    }
    desk.gives(103, fill(5, 4))?;
    // A late one that comes after the new picture.
    desk.gives(6, fill(5, 3))?;
    desk.look(2_000, 5)?;
    desk.gauge(5, 0, 4)
}

fn line_retaken(model: &Model, seed: u64) -> Result<(), String> {
    let mut desk = Desk::fresh(model, seed, 3, 1)?;
    desk.wanted(1, read(5, 3))?;
    // Class 7 takes the line, and class 5 takes it back.
    desk.wanted(2, read(7, 4))?;
    desk.gives(5, fill(5, 1))?;
    desk.wanted(3, read(5, 2))?;
    desk.gives(5, fill(7, 2))?;
    desk.gives(9, fill(5, 1))?;
    desk.gives(9, fill(5, 2))?;
    desk.gives(103, fill(5, 3))?;
    // An update of 7 while it is without a line, or of a class that is not tracked, gives no ticket;
    // the line of 5 stays filled.
    desk.gives(101, update(7, 1))?;
    desk.gives(102, update(9, 1))?;
    desk.look(2_000, 5)?;
    desk.gauge(9, 0, 3)?;
    // Updates of 5 give its line away, and updates of 7 give it back.
    desk.gives(101, update(5, 4))?;
    desk.record(0, plain(5, 1, 0))?;
    desk.record(1, record(7, 3, 0, 2, 4))?;
    desk.gives(101, update(7, 3))?;
    desk.record(0, record(5, 1, 0, 2, 5))?;
    desk.record(1, plain(7, 0, 0))?;
    desk.gives(9, fill(5, 3))?;
    desk.gives(103, fill(5, 5))
}

fn another_ticket(model: &Model, seed: u64) -> Result<(), String> {
    let own = 0x0123_4567_89ab_cdef;
    // Each bit counts, and only the record's own ticket will do, whatever the serial is.
    let mut others: Vec<u64> = (0..64).map(|bit| own ^ (1 << bit)).collect();
    others.extend([0, 1, own - 1, own + 1, 77, 78, u64::MAX]);
    for serial in [0, 77, own, 9_223_372_036_854_775_807] {
        let records = [plain(7, 1, 0), record(5, 4, 0, 2, own), FREE];
        let mut desk = Desk::with(model, seed, (5, 0, serial), &records, 1);
        for ticket in &others {
            desk.gives(9, fill(5, *ticket))?;
        }
        desk.record(1, record(5, 4, 0, 2, own))?;
        desk.gives(103, fill(5, own))?;
        desk.record(1, record(5, 4, 0, 3, own))?;
        // "tested after 6"
        desk.gives(6, fill(5, own))?;
        desk.gives(6, fill(5, own + 1))?;
        desk.gives(5, fill(7, 0))?;
        desk.gives(5, fill(7, own))?;
    }
    // A record on a line may have ticket 0: that is in order.
    let mut desk = Desk::with(model, seed, (5, 0, 3), &[record(5, 4, 0, 2, 0), FREE], 1);
    desk.gives(9, fill(5, 3))?;
    desk.wanted(0, read(5, 0))?;
    desk.gives(103, fill(5, 0))
}

fn ticket_bytes(model: &Model, seed: u64) -> Result<(), String> {
    let own = 0x0123_4567_89ab_cdef;
    let records = [
        record(5, 9, 0, 2, own),
        record(7, 9, 0, 5, 4),
        plain(9, 2, 0),
    ];
    let calls = [
        (read(5, 0), 4_000),
        (read(5, 1), 4_000),
        (read(7, 0), 2_001),
        (read(7, 1), 2_001),
        (read(9, 0), 104),
        (read(9, 1), 104),
        (read(9, 65_536), 2),
    ];
    for (call, number) in calls {
        for count in 0..=64 {
            let mut desk = Desk::with(model, seed, (20, 0, own), &records, 2);
            let (table, gauge, lines) = desk.both.librarys.three();
            let lengths = [table.len(), gauge.len(), lines.len(), count];
            desk.both.set_lengths(lengths);
            let due = if count == 8 { number } else { 1 };
            desk.gives(due, call.clone())?;
            // Else they stay, as the model leaves them.
            if due == 4_000 {
                desk.told(own)?;
            }
            let told = desk.both.librarys.ticket.bytes();
            if due == 4_000 && told != [0xef, 0xcd, 0xab, 0x89, 0x67, 0x45, 0x23, 0x01] {
                return Err(format!("ticket bytes {told:02x?}"));
            }
        }
    }
    Ok(())
}

fn ticket_without_a_line(model: &Model, seed: u64) -> Result<(), String> {
    let calls = [
        (read(5, 1), 4_000),
        (read(5, 0), 4_000),
        (update(5, 1), 101),
        (fill(5, 2), 103),
        (withdraw(5), 105),
        (Call::Age, 100),
        (Call::LevelledSum, 0),
    ];
    for (call, number) in calls {
        let own = record(5, 4, 0, 2, 2);
        let mut desk = Desk::with(model, seed, (9, 0, 2), &[own, plain(7, 1, 0), FREE], 1);
        desk.gives(number, call.clone())?;
        for ticket in [1, 2, 3, 1 << 32, 1 << 63, u64::MAX] {
            for other in [record(7, 1, 0, 1, ticket), record(0, 0, 0, 0, ticket)] {
                for records in [[own, FREE, other], [other, FREE, own]] {
                    let mut desk = Desk::with(model, seed, (9, 0, 2), &records, 1);
                    desk.gives(3, call.clone())?;
                    // "Fresh gives only 1."
                    desk.gives(0, Call::Fresh)?;
                    desk.gauge(0, 0, 0)?;
                }
            }
        }
    }
    Ok(())
}

fn last_serial(model: &Model, seed: u64) -> Result<(), String> {
    let limit = 9_223_372_036_854_775_808;
    let records = [record(5, 9, 0, 2, 3), plain(7, 8, 0), FREE];
    let mut desk = Desk::with(model, seed, (20, 0, limit - 2), &records, 2);
    desk.gives(4_001, read(7, 1))?;
    desk.told(limit - 1)?;
    desk.gives(103, fill(7, limit - 1))?;
    desk.gives(2_001, read(7, 1))?;
    desk.gauge(22, 0, limit - 1)?;

    // The last ticket is the limit itself: class 7 takes the line, class 5 keeps it, or class 7 takes
    // it in an update or gets it in a withdrawal of class 5. The total then, and the sum after an
    // aging.
    for (call, number, key, total, sum) in [
        (read(7, 2), 4_000, 7, 22, 9),
        (update(5, 1), 101, 5, 20, 8),
        (update(5, 2), 101, 7, 20, 7),
        (withdraw(5), 105, 7, 20, 4),
    ] {
        let mut desk = Desk::with(model, seed, (20, 0, limit - 1), &records, 1);
        desk.gives(number, call)?;
        desk.gauge(total, 0, limit)?;
        // From now on nothing is read, updated, filled or withdrawn, also where no ticket would be
        // given.
        for key in [5, 7, 9] {
            desk.gives(10, read(key, 1))?;
            desk.gives(10, update(key, 1))?;
            desk.gives(10, fill(key, limit))?;
            desk.gives(10, withdraw(key))?;
        }
        // Looks, agings and levelled sums go on.
        desk.wanted(limit, read(key, 0))?;
        desk.gauge(total, 0, limit)?;
        desk.gives(100, Call::Age)?;
        desk.gauge(total / 2, 0, limit)?;
        desk.sum(sum)?;
        desk.gives(0, Call::Fresh)?;
        desk.gauge(0, 0, 0)?;
        desk.wanted(1, read(5, 1))?;
    }
    Ok(())
}

fn serial_among_the_tests(model: &Model, seed: u64) -> Result<(), String> {
    for serial in [1 << 63, (1 << 63) + 1, u64::MAX] {
        let empty = [record(5, 9, 0, 2, 3), plain(7, 2, 0), FREE];
        let mut filled = empty;
        filled[0].state = 3;
        let mut damaged = empty;
        damaged[1].ticket = 1;
        let gauge = (11, 0, serial);

        let mut desk = Desk::with(model, seed, gauge, &empty, 1);
        // "tested after 3", and so after 1, 2 and 4
        let short = Call::Fill {
            key: 5,
            picture: vec![0; 63],
            ticket: 3,
        };
        desk.gives(2, read(5, 65_536))?;
        desk.gives(2, update(5, 0))?;
        desk.gives(4, short.clone())?;
        // and before 5, 6 and 9
        for (key, ticket) in [(5, 3), (5, 4), (7, 0), (9, 3)] {
            desk.gives(10, fill(key, ticket))?;
        }
        desk.gives(10, read(5, 1))?;
        desk.gives(10, update(5, 1))?;
        // Answers that would give no ticket: unknown, and that of a class without a line.
        desk.gives(10, update(7, 1))?;
        desk.gives(10, update(9, 1))?;
        desk.wanted(3, read(5, 0))?;
        desk.look(104, 7)?;
        desk.look(104, 9)?;

        let mut desk = Desk::with(model, seed, gauge, &filled, 1);
        desk.gives(10, fill(5, 3))?;
        desk.gives(10, fill(5, 4))?;
        desk.gives(10, read(5, 1))?;
        desk.look(2_000, 5)?;

        let mut desk = Desk::with(model, seed, gauge, &damaged, 1);
        for call in [read(5, 1), read(5, 0), update(5, 1), fill(5, 3), Call::Age] {
            desk.gives(3, call)?;
        }
        desk.gives(2, read(5, 65_536))?;
        desk.gives(4, short)?;
        Desk::with(model, seed, gauge, &empty, 3).wrong_sizes()?;
    }
    Ok(())
}

fn line_handed_on(model: &Model, seed: u64) -> Result<(), String> {
    let mut desk = Desk::fresh(model, seed, 4, 1)?;
    desk.wanted(1, read(5, 5))?;
    desk.gives(103, fill(5, 1))?;
    desk.gives(104, read(7, 2))?;
    desk.gives(104, read(9, 4))?;
    desk.gives(104, read(11, 3))?;
    // Class 9 is the hottest without a line, and gets it empty.
    desk.gives(105, withdraw(5))?;
    for (place, due) in [
        (0, FREE),
        (1, plain(7, 2, 0)),
        (2, record(9, 4, 0, 2, 2)),
        (3, plain(11, 3, 0)),
    ] {
        desk.record(place, due)?;
    }
    desk.gauge(14, 0, 2)?;
    desk.look(104, 5)?;
    desk.wanted(2, read(9, 0))?;
    desk.gives(103, fill(9, 2))?;
    desk.look(2_000, 9)?;
    // Again, with class 9's line empty: an update leaves it there.
    desk.gives(101, update(9, 1))?;
    desk.record(2, record(9, 3, 0, 2, 3))?;
    desk.gives(105, withdraw(9))?;
    desk.record(2, FREE)?;
    desk.record(3, record(11, 3, 0, 2, 4))?;
    desk.gauge(14, 0, 4)?;

    // It is the line of the class that is withdrawn, and no other class loses its own, though class
    // 9 is hotter than class 7.
    let records = [
        record(5, 9, 3, 7, 8),
        record(7, 2, 1, 3, 6),
        plain(9, 4, 2),
        record(11, 8, 0, 4, 7),
    ];
    for (key, place, state, line) in [(5, 0, 6, 2), (7, 1, 2, 0), (11, 3, 4, 1)] {
        let mut desk = Desk::with(model, seed, (23, 2, 40), &records, 3);
        desk.gives(105, withdraw(key))?;
        for (other, before) in records.into_iter().enumerate() {
            let due = match other {
                2 => record(9, 4, 2, state, 41),
                _ if other == place => FREE,
                _ => before,
            };
            desk.record(other, due)?;
        }
        desk.gauge(23, 2, 41)?;
        desk.gives(4_000 + line, read(9, 0))?;
        desk.told(41)?;
    }
    Ok(())
}

fn handed_on_among_equals(model: &Model, seed: u64) -> Result<(), String> {
    let own = record(5, 9, 0, 3, 7);
    let (seven, nine, eleven) = (plain(7, 4, 3), plain(9, 4, 1), plain(11, 3, 0));
    // Three records, and the place of the one that gets the line: slack, key and the place of the
    // record that goes do not count.
    for (records, taker) in [
        ([own, seven, nine], 1),
        ([own, nine, seven], 1),
        ([seven, own, nine], 0),
        ([nine, own, seven], 0),
        ([seven, nine, own], 0),
        ([own, eleven, nine], 2),
        ([eleven, own, nine], 2),
        ([eleven, nine, own], 1),
        ([nine, eleven, own], 0),
    ] {
        let mut desk = Desk::with(model, seed, (17, 0, 40), &records, 1);
        desk.gives(105, withdraw(5))?;
        for (place, before) in records.into_iter().enumerate() {
            let due = match before {
                Record { key: 5, .. } => FREE,
                Record {
                    key, heat, slack, ..
                } if place == taker => record(key, heat, slack, 2, 41),
                _ => before,
            };
            desk.record(place, due)?;
        }
        desk.gauge(17, 0, 41)?;
    }
    Ok(())
}

fn line_becomes_unused(model: &Model, seed: u64) -> Result<(), String> {
    // Filled or empty: no other is without a line, so no ticket is given.
    for state in [4, 5] {
        let records = [record(5, 9, 3, state, 7), FREE, record(7, 8, 0, 2, 6)];
        let mut desk = Desk::with(model, seed, (20, 2, 40), &records, 2);
        desk.gives(105, withdraw(5))?;
        desk.record(0, FREE)?;
        desk.record(1, FREE)?;
        desk.record(2, record(7, 8, 0, 2, 6))?;
        desk.gauge(20, 2, 40)?;
        // The next class takes line 1.
        desk.gives(4_001, read(9, 1))?;
        desk.told(41)?;
        desk.record(0, record(9, 3, 2, 4, 41))?;
    }
    // The last class of all.
    let mut desk = Desk::fresh(model, seed, 3, 2)?;
    desk.wanted(1, read(5, 3))?;
    desk.gives(105, withdraw(5))?;
    for place in 0..3 {
        desk.record(place, FREE)?;
    }
    desk.gauge(3, 0, 1)
}

fn free_records_get_no_line(model: &Model, seed: u64) -> Result<(), String> {
    // A class of heat 0 gets the line, and no free record before it, nor the one just freed.
    let own = record(5, 9, 0, 3, 7);
    let cold = plain(9, 0, 0);
    let warm = record(9, 0, 0, 2, 41);
    for (records, due) in [
        ([FREE, own, cold], [FREE, FREE, warm]),
        ([own, FREE, cold], [FREE, FREE, warm]),
        ([own, cold, FREE], [FREE, warm, FREE]),
        ([FREE, cold, own], [FREE, warm, FREE]),
        ([cold, FREE, own], [warm, FREE, FREE]),
        ([FREE, FREE, own], [FREE; 3]),
        ([own, FREE, FREE], [FREE; 3]),
    ] {
        let mut desk = Desk::with(model, seed, (9, 0, 40), &records, 1);
        desk.gives(105, withdraw(5))?;
        for (place, due) in due.into_iter().enumerate() {
            desk.record(place, due)?;
        }
        desk.gauge(9, 0, if due == [FREE; 3] { 40 } else { 41 })?;
    }
    Ok(())
}

fn withdrawn_without_a_line(model: &Model, seed: u64) -> Result<(), String> {
    // Class 9 is hotter than class 5 on its line, and line 1 is used or not: no line moves.
    for c in [1, 2] {
        let records = [record(5, 2, 0, 3, 7), plain(7, 4, 3), plain(9, 8, 0)];
        let mut desk = Desk::with(model, seed, (14, 1, 40), &records, c);
        desk.gives(105, withdraw(7))?;
        desk.record(0, records[0])?;
        desk.record(1, FREE)?;
        desk.record(2, records[2])?;
        desk.gauge(14, 1, 40)?;
        desk.look(104, 7)?;
        desk.gives(102, withdraw(7))?;
    }
    let mut desk = Desk::fresh(model, seed, 1, 0)?;
    desk.gives(104, read(5, 3))?;
    desk.gives(105, withdraw(5))?;
    desk.record(0, FREE)?;
    desk.gauge(3, 0, 0)
}

fn withdrawn_of_doubled(model: &Model, seed: u64) -> Result<(), String> {
    // "the rules then use the first record"; the second of key 5 may get the line.
    let records = [plain(7, 3, 0), record(5, 9, 0, 3, 7), plain(5, 4, 2)];
    let mut desk = Desk::with(model, seed, (16, 1, 40), &records, 1);
    desk.gives(105, withdraw(5))?;
    desk.record(1, FREE)?;
    desk.record(2, record(5, 4, 2, 2, 41))?;
    desk.wanted(41, read(5, 0))?;
    desk.gives(105, withdraw(5))?;
    desk.record(0, record(7, 3, 0, 2, 42))?;
    desk.record(2, FREE)?;
    desk.gives(102, withdraw(5))?;

    // Class 5's line is class 9's too, and class 7 gets it all the same.
    let records = [
        plain(7, 3, 0),
        record(5, 9, 0, 3, 7),
        record(9, 8, 0, 3, 6),
        FREE,
    ];
    let mut desk = Desk::with(model, seed, (20, 1, 40), &records, 2);
    desk.gives(105, withdraw(5))?;
    desk.record(0, record(7, 3, 0, 2, 41))?;
    desk.record(1, FREE)?;
    desk.record(2, records[2])?;
    desk.gauge(20, 1, 41)
}

fn withdrawal_of_an_untracked_key(model: &Model, seed: u64) -> Result<(), String> {
    let records = [FREE, record(5, 9, 3, 3, 7), plain(7, 4, 1)];
    let mut desk = Desk::with(model, seed, (20, 2, 40), &records, 1);
    // A free record has the number 0 for its key, and is no class's.
    for key in [0, 9, u64::MAX] {
        desk.gives(102, withdraw(key))?;
        for (place, due) in records.into_iter().enumerate() {
            desk.record(place, due)?;
        }
        desk.gauge(20, 2, 40)?;
    }
    // "Key 0 is a class like any other."
    let records = [FREE, plain(7, 4, 1), record(0, 9, 3, 3, 7)];
    let mut desk = Desk::with(model, seed, (20, 2, 40), &records, 1);
    desk.gives(105, withdraw(0))?;
    desk.record(1, record(7, 4, 1, 2, 41))?;
    desk.record(2, FREE)?;
    desk.gives(102, withdraw(0))
}

fn withdrawal_among_the_tests(model: &Model, seed: u64) -> Result<(), String> {
    let good = [record(5, 9, 0, 2, 3), plain(7, 2, 0), FREE];
    let mut damaged = good;
    damaged[2].slack = 1;
    let last = (1 << 63) - 1;
    // On a line, without one, untracked. At the last serial that is good the limit is given.
    for (key, number, after) in [(5, 105, last + 1), (7, 105, last), (9, 102, last)] {
        let mut desk = Desk::with(model, seed, (11, 0, last), &good, 1);
        desk.gives(number, withdraw(key))?;
        desk.gauge(11, 0, after)?;
        for serial in [1 << 63, (1 << 63) + 1, u64::MAX] {
            // "unknown for an untracked key" comes after every test, 10 after 3, and 3 after 1.
            Desk::with(model, seed, (11, 0, serial), &good, 1).gives(10, withdraw(key))?;
            Desk::with(model, seed, (11, 0, serial), &damaged, 1).gives(3, withdraw(key))?;
            for records in [&good, &damaged] {
                let mut desk = Desk::with(model, seed, (11, 0, serial), records, 1);
                for lengths in [
                    [119, 24, 64, 8],
                    [121, 24, 64, 8],
                    [0, 24, 64, 8],
                    [40, 24, 64, 8],
                    [120, 16, 64, 8],
                    [120, 23, 64, 8],
                    [120, 25, 64, 8],
                    [120, 24, 63, 8],
                ] {
                    desk.wrong_lengths(lengths, &withdraw(key))?;
                }
            }
        }
        // The ticket bytes are a read's.
        let mut desk = Desk::with(model, seed, (11, 0, 40), &good, 1);
        desk.both.set_lengths([120, 24, 64, 0]);
        desk.gives(number, withdraw(key))?;
        Desk::with(model, seed, (11, 0, 40), &damaged, 1).gives(3, withdraw(key))?;
    }
    Ok(())
}

fn late_fetch_of_a_withdrawn_class(model: &Model, seed: u64) -> Result<(), String> {
    let mut desk = Desk::fresh(model, seed, 3, 1)?;
    desk.wanted(1, read(5, 3))?;
    desk.gives(105, withdraw(5))?;
    desk.gives(5, fill(5, 1))?;
    desk.gives(5, fill(5, 0))?;
    // Read again, the class has the line with another ticket.
    desk.wanted(2, read(5, 1))?;
    desk.gives(9, fill(5, 1))?;
    desk.gives(103, fill(5, 2))?;
    desk.gives(6, fill(5, 1))?;
    // Of a filled class nothing is shown once it is withdrawn, and read again.
    desk.gives(105, withdraw(5))?;
    desk.look(104, 5)?;
    desk.wanted(3, read(5, 2))?;
    desk.gives(9, fill(5, 2))?;

    // Class 7 has the line now: neither the ticket of 5 nor that which 7 had before will do.
    desk.wanted(4, read(7, 3))?;
    desk.wanted(5, read(5, 2))?;
    desk.gives(105, withdraw(5))?;
    desk.record(1, record(7, 3, 0, 2, 6))?;
    desk.gives(5, fill(5, 5))?;
    desk.gives(9, fill(7, 5))?;
    desk.gives(9, fill(7, 4))?;
    desk.gives(103, fill(7, 6))
}

fn withdrawn_and_read_again(model: &Model, seed: u64) -> Result<(), String> {
    let mut desk = Desk::fresh(model, seed, 2, 1)?;
    desk.wanted(1, read(1, 5))?;
    desk.gives(104, read(2, 3))?;
    // Class 3 takes the place of class 2, whose heat becomes the ceiling.
    desk.gives(104, read(3, 1))?;
    desk.record(1, plain(3, 4, 3))?;
    desk.gauge(9, 3, 1)?;
    desk.gives(105, withdraw(1))?;
    desk.record(0, FREE)?;
    desk.record(1, record(3, 4, 3, 2, 2))?;
    desk.gauge(9, 3, 2)?;
    // The free record has level 3, the ceiling.
    desk.sum(7)?;
    // In the free record too the class begins at the ceiling, "heat ceiling + w, slack ceiling".
    desk.wanted(3, read(1, 2))?;
    desk.record(0, record(1, 5, 3, 2, 3))?;
    desk.record(1, plain(3, 4, 3))?;
    desk.gauge(11, 3, 3)?;
    desk.true_heat(1, 2)?;
    desk.sum(9)?;
    // Class 2, which was evicted with true heat 3, comes back into a free record.
    desk.gives(105, withdraw(3))?;
    desk.gives(104, read(2, 1))?;
    desk.record(1, plain(2, 4, 3))?;
    desk.true_heat(2, 4)?;
    desk.gauge(12, 3, 3)
}

fn true_heat_of_a_withdrawn_class(model: &Model, seed: u64) -> Result<(), String> {
    let mut desk = Desk::fresh(model, seed, 3, 1)?;
    // Rows 1 to 7: class 9 was evicted, with true heat 2.
    desk.rows(7)?;
    desk.true_heat(5, 4)?;
    desk.true_heat(9, 2)?;
    desk.gives(102, withdraw(9))?;
    desk.true_heat(9, 0)?;
    desk.gives(105, withdraw(5))?;
    desk.true_heat(5, 0)?;
    desk.true_heat(7, 5)?;
    // Class 7 keeps its line, and the ceiling stays.
    desk.record(0, FREE)?;
    desk.record(1, record(7, 5, 0, 2, 2))?;
    desk.record(2, plain(11, 3, 2))?;
    desk.gauge(12, 2, 2)
}

fn row_twelve(model: &Model, seed: u64) -> Result<(), String> {
    let on_line = record(5, 2, 0, 2, 3);
    let rows_left = || {
        let mut desk = Desk::fresh(model, seed, 3, 1)?;
        desk.rows(11)?;
        // Classes 7 and 11 are equally cold, and 7 is the first.
        desk.record(0, on_line)?;
        desk.record(1, plain(7, 1, 0))?;
        desk.record(2, plain(11, 1, 1))?;
        desk.gauge(6, 1, 3)?;
        desk.gives(104, read(9, 1))?;
        desk.gauge(7, 1, 3)?;
        desk.record(0, on_line)?;
        desk.record(1, plain(7, 1, 0))?;
        desk.record(2, plain(9, 2, 1))?;
        Ok::<Desk, String>(desk)
    };
    // Row 13: class 9 takes the line of class 5.
    let mut desk = rows_left()?;
    desk.wanted(4, read(9, 1))?;
    desk.gauge(8, 1, 4)?;
    desk.record(0, plain(5, 2, 0))?;
    desk.record(1, plain(7, 1, 0))?;
    desk.record(2, record(9, 3, 1, 2, 4))?;
    for (key, heat) in [(5, 2), (7, 1), (9, 2), (11, 0)] {
        desk.true_heat(key, heat)?;
    }
    // Which classes are tracked then.
    for (key, number) in [(5, 101), (7, 101), (9, 101), (11, 102)] {
        rows_left()?.gives(number, update(key, 1))?;
    }
    Ok(())
}

fn long_known_stays(model: &Model, seed: u64) -> Result<(), String> {
    let mut desk = Desk::fresh(model, seed, 3, 0)?;
    desk.gives(104, read(1, 2))?;
    desk.gives(104, read(2, 1))?;
    desk.gives(104, read(3, 2))?;
    // Class 2 is the coldest, and class 4 comes to the heat of the others, with slack 1.
    desk.gives(104, read(4, 1))?;
    desk.record(0, plain(1, 2, 0))?;
    desk.record(1, plain(4, 2, 1))?;
    desk.record(2, plain(3, 2, 0))?;
    // It leaves, and classes 1 and 3 stay.
    desk.gives(104, read(5, 1))?;
    desk.record(0, plain(1, 2, 0))?;
    desk.record(1, plain(5, 3, 2))?;
    desk.record(2, plain(3, 2, 0))?;
    // Classes 1 and 3 are the coldest, with equal slacks: the first leaves.
    desk.gives(104, read(6, 1))?;
    desk.record(0, plain(6, 3, 2))?;
    desk.record(2, plain(3, 2, 0))?;
    // Class 3 comes to the heat of the new ones, and outlasts them.
    desk.gives(104, read(3, 1))?;
    desk.gives(104, read(7, 1))?;
    desk.record(0, plain(7, 4, 3))?;
    desk.record(1, plain(5, 3, 2))?;
    desk.record(2, plain(3, 3, 0))?;
    desk.gives(104, read(8, 1))?;
    desk.record(0, plain(7, 4, 3))?;
    desk.record(1, plain(8, 4, 3))?;
    desk.record(2, plain(3, 3, 0))?;
    desk.gives(104, read(3, 1))?;
    desk.gives(104, read(9, 1))?;
    desk.record(0, plain(9, 5, 4))?;
    desk.record(1, plain(8, 4, 3))?;
    desk.record(2, plain(3, 4, 0))?;
    desk.true_heat(3, 4)?;
    desk.gauge(13, 4, 0)
}

fn largest_slack_leaves(model: &Model, seed: u64) -> Result<(), String> {
    let own = 0x0123_4567_89ab_cdef_u64;
    let high = 1 << 63;
    let mut pairs = vec![
        (0, 1),
        (1, 2),
        (0, u64::MAX),
        (1, 1 << 32),
        ((1 << 32) - 1, 1 << 32),
        ((1 << 32) + 9, 2 << 32),
        (high - 1, high),
        (high - 1, u64::MAX),
        (high, high + 1),
        (u64::MAX - 1, u64::MAX),
    ];
    // Each bit counts.
    for other in (0..64).map(|bit| own ^ (1 << bit)) {
        pairs.push((own.min(other), own.max(other)));
    }
    for (less, more) in pairs {
        let (sure, unsure, warm) = (plain(5, 4, less), plain(7, 4, more), plain(9, 6, more));
        let on_line = record(11, 9, less, 3, 7);
        let two: [(&[Record], usize, usize); 6] = [
            (&[sure, unsure], 0, 1),
            (&[unsure, sure], 0, 0),
            (&[warm, sure, unsure], 0, 2),
            (&[unsure, warm, sure], 0, 0),
            (&[sure, sure, on_line, unsure, sure], 1, 3),
            (&[on_line, sure, unsure, warm], 1, 2),
        ];
        for (records, c, victim) in two {
            // A ceiling below the heats, at them and above them.
            for ceiling in [0, 3, 4, 5] {
                let mut desk = Desk::with(model, seed, (40, ceiling, 9), records, c);
                desk.evicts(victim)
                    .map_err(|text| format!("slacks {less} and {more}: {text}"))?;
            }
        }
    }
    Ok(())
}

fn heat_before_slack(model: &Model, seed: u64) -> Result<(), String> {
    // The coldest leaves with less slack than the others have, or none.
    for (cold, slack) in [(0, 0), (3, 0), (3, 1), (3, u64::MAX - 1)] {
        let own = plain(5, cold, slack);
        let (more, most) = (plain(7, cold + 1, slack + 1), plain(9, cold + 1, u64::MAX));
        for (records, victim) in [
            ([own, more, most], 0),
            ([more, own, most], 1),
            ([most, own, more], 1),
            ([more, most, own], 2),
            ([most, more, own], 2),
        ] {
            Desk::with(model, seed, (40, 1, 9), &records, 0).evicts(victim)?;
        }
    }
    // Two are the coldest, and the hottest has the largest slack.
    let records = [
        plain(1, 6, u64::MAX),
        plain(5, 3, 2),
        plain(9, 4, 8),
        plain(7, 3, 5),
    ];
    Desk::with(model, seed, (40, 1, 9), &records, 0).evicts(3)
}

fn first_of_equal_slack(model: &Model, seed: u64) -> Result<(), String> {
    for slack in [1, 3, 1 << 32, 1 << 63, u64::MAX] {
        let (five, seven) = (plain(5, 4, slack), plain(7, 4, slack));
        let (sure, warm) = (plain(9, 4, slack - 1), plain(11, 5, slack));
        // Keys do not count.
        for (records, victim) in [
            ([five, seven, sure, warm], 0),
            ([seven, five, warm, sure], 0),
            ([sure, five, seven, warm], 1),
            ([sure, seven, warm, five], 1),
            ([warm, sure, seven, five], 2),
            ([warm, sure, five, seven], 2),
        ] {
            Desk::with(model, seed, (40, 1, 9), &records, 0).evicts(victim)?;
        }
        let mut records = [plain(5, 4, slack); 1_024];
        for (place, record) in records.iter_mut().enumerate() {
            record.key = 2_000 - place as u64;
        }
        Desk::with(model, seed, (5_000, 1, 9), &records, 0).evicts(0)?;
        for record in &mut records[..700] {
            record.slack = slack - 1;
        }
        Desk::with(model, seed, (5_000, 1, 9), &records, 0).evicts(700)?;
    }
    Ok(())
}

fn largest_slack_in_every_place(model: &Model, seed: u64) -> Result<(), String> {
    for k in [1, 2, 3, 4, 33, 1_023, 1_024] {
        let places = if k > 33 {
            vec![0, 1, k / 2 - 1, k / 2, k - 2, k - 1]
        } else {
            (0..k).collect()
        };
        for victim in places {
            let records: Vec<Record> = (0..k)
                .map(|place| plain(100 + place as u64, 4, u64::from(place == victim)))
                .collect();
            let mut desk = Desk::with(model, seed, (5_000, 1, 9), &records, 0);
            desk.evicts(victim)
                .map_err(|text| format!("K = {k}, place {victim}: {text}"))?;
        }
    }
    Ok(())
}

fn no_victim_on_a_line(model: &Model, seed: u64) -> Result<(), String> {
    // Class 5 is on a line, as cold as the others or colder, and has the largest slack. It loses its
    // line to the new class, and stays.
    for heat in [0, 1, 4] {
        let own = record(5, heat, u64::MAX, 3, 7);
        let (sure, unsure) = (plain(7, 4, 1), plain(9, 4, 2));
        for (records, victim) in [
            ([own, sure, unsure], 2),
            ([own, unsure, sure], 1),
            ([sure, own, unsure], 2),
            ([unsure, sure, own], 0),
        ] {
            let mut desk = Desk::with(model, seed, (40, 1, 40), &records, 1);
            desk.wanted(41, read(13, 1))?;
            for (place, before) in records.into_iter().enumerate() {
                let due = match before {
                    _ if place == victim => record(13, 5, 4, 2, 41),
                    Record { key: 5, .. } => plain(5, heat, u64::MAX),
                    _ => before,
                };
                desk.record(place, due)?;
            }
            desk.gauge(41, 4, 41)?;
        }
    }
    Ok(())
}

fn victim_after_an_aging(model: &Model, seed: u64) -> Result<(), String> {
    let most = u64::MAX;
    for (first, second, victim) in [
        // Heats 4 and 5 become 2.
        ((4, 0), (5, 9), 1),
        ((5, 9), (4, 0), 0),
        ((5, 0), (4, 9), 1),
        // Slacks 1 and 2 become 1.
        ((4, 1), (4, 2), 0),
        ((4, 2), (4, 1), 0),
        // Heats and slacks.
        ((5, 1), (4, 2), 0),
        ((5, 2), (4, 3), 1),
        // 2^64 - 1 becomes 2^63, and 2^64 - 2 becomes 2^63 - 1, as does 2^64 - 3.
        ((4, most - 1), (4, most), 1),
        ((4, most), (4, most - 1), 0),
        ((4, most - 2), (4, most - 1), 0),
        ((4, most - 1), (4, most - 2), 0),
        // 3 becomes 1, and 4 becomes 2.
        ((4, 9), (3, 0), 1),
    ] {
        let half = |key, (heat, slack): (u64, u64)| plain(key, heat / 2, slack / 2 + slack % 2);
        let records = [plain(5, first.0, first.1), plain(7, second.0, second.1)];
        let mut desk = Desk::with(model, seed, (4_294_967_295, 1, 9), &records, 0);
        desk.gives(104, read(13, 1))?;
        let mut due = [half(5, first), half(7, second)];
        let level = due[victim].heat;
        due[victim] = plain(13, level + 1, level);
        desk.record(0, due[0])?;
        desk.record(1, due[1])?;
        desk.gauge(2_147_483_648, level, 9)?;
    }
    Ok(())
}

fn free_record_before_a_victim(model: &Model, seed: u64) -> Result<(), String> {
    let (sure, unsure) = (plain(5, 4, 0), plain(7, 4, u64::MAX));
    for (records, taken) in [
        ([sure, FREE, unsure, FREE], 1),
        ([sure, unsure, FREE, FREE], 2),
        ([FREE, FREE, unsure, sure], 0),
        ([unsure, sure, plain(9, 0, 9), FREE], 3),
    ] {
        let mut desk = Desk::with(model, seed, (40, 3, 9), &records, 0);
        desk.gives(104, read(13, 1))?;
        for (place, before) in records.into_iter().enumerate() {
            let due = if place == taken {
                plain(13, 4, 3)
            } else {
                before
            };
            desk.record(place, due)?;
        }
        desk.gauge(41, 3, 9)?;
    }
    Ok(())
}

fn no_victim_for_a_tracked_key(model: &Model, seed: u64) -> Result<(), String> {
    let records = [plain(5, 4, 9), plain(7, 4, u64::MAX), plain(9, 4, 0)];
    for (place, own) in records.into_iter().enumerate() {
        let mut desk = Desk::with(model, seed, (40, 3, 9), &records, 0);
        desk.gives(104, read(own.key, 1))?;
        for (other, before) in records.into_iter().enumerate() {
            let due = if other == place {
                plain(own.key, 5, own.slack)
            } else {
                before
            };
            desk.record(other, due)?;
        }
        desk.gauge(41, 3, 9)?;
    }
    Ok(())
}

fn first_of_the_coldest_on_lines(model: &Model, seed: u64) -> Result<(), String> {
    for (first, second) in [(0, u64::MAX), (u64::MAX, 0), (3, 3), (1, 2), (2, 1)] {
        // Class 11 is warmer than classes 5 and 7. A class without a line comes to heat 5, and a new
        // one in the place of that class to heat 10.
        let records = [
            record(11, 6, u64::MAX, 6, 5),
            record(5, 4, first, 5, 7),
            record(7, 4, second, 2, 6),
            plain(9, 4, 2),
        ];
        for (call, heat, slack) in [(read(9, 1), 5, 2), (read(13, 6), 10, 4)] {
            let key = if heat == 5 { 9 } else { 13 };
            let mut desk = Desk::with(model, seed, (40, 1, 40), &records, 3);
            desk.gives(4_001, call)?;
            desk.told(41)?;
            desk.record(0, records[0])?;
            desk.record(1, plain(5, 4, first))?;
            desk.record(2, records[2])?;
            desk.record(3, record(key, heat, slack, 4, 41))?;
        }
    }
    Ok(())
}

fn first_of_the_hottest_off_lines(model: &Model, seed: u64) -> Result<(), String> {
    for (first, second) in [(0, u64::MAX), (u64::MAX, 0), (3, 3), (1, 2), (2, 1)] {
        let records = [
            plain(11, 3, u64::MAX),
            plain(7, 4, first),
            record(5, 9, 0, 3, 7),
            plain(9, 4, second),
        ];
        let mut desk = Desk::with(model, seed, (40, 1, 40), &records, 1);
        desk.gives(101, update(5, 6))?;
        desk.record(0, records[0])?;
        desk.record(1, record(7, 4, first, 2, 41))?;
        desk.record(2, plain(5, 3, 0))?;
        desk.record(3, records[3])?;
        desk.gauge(40, 1, 41)?;
    }
    Ok(())
}
