//! The rules of document 01 for the exported calls, with document 02's requests as landed (Asks 1, 2,
//! 4, 5 and 6, and Ask 3, by which "Answers and lent bytes stay"), and the replay of demand 3.
//!
//! In document 01's order, and independent of the library's code. Words in quotes are the
//! documents'; document 02's on tickets are those of its Ask 2, on withdrawals of its Ask 4, on the
//! victim of its Ask 5, and on rings of its Ask 6. The rules of its Ask 7 are in epoch_model.rs,
//! and those of its Ask 8 in resize_model.rs; what demand 3 is after a resize is here.

use std::collections::BTreeMap;

// ---------------------------------------------------------------------------------------------
// "Table, gauge and lines"
// ---------------------------------------------------------------------------------------------

/// "L is 4,294,967,295."
pub const L: u64 = 4_294_967_295;
/// Document 02: records "become 40 bytes".
pub const RECORD_BYTES: usize = 40;
/// "C lines of 64 bytes"; a picture has as many.
pub const LINE_BYTES: usize = 64;
/// Document 02: the gauge "becomes 24 bytes".
pub const GAUGE_BYTES: usize = 24;
/// Document 02: "an exported read lends 8 more bytes".
pub const TICKET_BYTES: usize = 8;
/// "a number in 8 bytes": what the levelled sum is written into.
pub const SUM_BYTES: usize = 8;
/// "K from 1 to 1,024"
pub const MOST_RECORDS: usize = 1_024;
/// "1 to 65,535"
pub const MOST_WEIGHT: u64 = 65_535;
/// Cause 10, document 02: "when the serial is 9,223,372,036,854,775,808 or more".
pub const SERIAL_LIMIT: u64 = 9_223_372_036_854_775_808;

/// "A record is four 64-bit unsigned numbers, least significant byte first: key, heat, slack,
/// state." Document 02: "Records gain a fifth number, the ticket".
#[derive(Clone, Copy, Debug, PartialEq, Eq)]
pub struct Record {
    pub key: u64,
    pub heat: u64,
    pub slack: u64,
    pub state: u64,
    pub ticket: u64,
}

impl Record {
    /// "State 0 is free"
    pub fn is_free(&self) -> bool {
        self.state == 0
    }

    /// "2 + 2 × n is on line n, line empty. 3 + 2 × n is on line n, line filled."
    pub fn line(&self) -> Option<u64> {
        if self.state >= 2 {
            Some((self.state - 2) / 2)
        } else {
            None
        }
    }

    /// "3 + 2 × n is on line n, line filled."
    pub fn is_filled(&self) -> bool {
        self.state >= 2 && self.state % 2 == 1
    }

    /// "with that key and a state over 0"
    fn is_of(&self, key: u64) -> bool {
        self.key == key && self.state > 0
    }

    /// Step 6 of a read, and a look: "hit with the line number if its line is filled; wanted with
    /// the number if empty; passed if it has no line". Document 02: "Wanted carries the ticket".
    fn answer(&self) -> Answer {
        match self.line() {
            Some(line) if self.is_filled() => Answer::Hit(line),
            Some(line) => Answer::Wanted(line, self.ticket),
            None => Answer::Passed,
        }
    }
}

/// "1 is tracked without a line"
pub const TRACKED: u64 = 1;

/// "State 0 is free (all four numbers are 0)", and so is document 02's fifth.
pub const FREE: Record = Record {
    key: 0,
    heat: 0,
    slack: 0,
    state: 0,
    ticket: 0,
};

/// "2 + 2 × n is on line n, line empty"
pub fn empty_on(line: u64) -> u64 {
    2 + 2 * line
}

/// "3 + 2 × n is on line n, line filled"
pub fn filled_on(line: u64) -> u64 {
    3 + 2 * line
}

/// The number in the eight bytes from `at`, least significant byte first.
pub fn number_at(bytes: &[u8], at: usize) -> u64 {
    let mut number = 0;
    for i in (0..8).rev() {
        number = number * 256 + u64::from(bytes[at + i]);
    }
    number
}

/// Writes a number into the eight bytes from `at`, least significant byte first.
pub fn put_number(bytes: &mut [u8], at: usize, number: u64) {
    for i in 0..8 {
        bytes[at + i] = (number >> (8 * i)) as u8;
    }
}

/// The records of a table of whole records.
pub fn records_of(table: &[u8]) -> Vec<Record> {
    (0..table.len() / RECORD_BYTES)
        .map(|place| place * RECORD_BYTES)
        .map(|at| Record {
            key: number_at(table, at),
            heat: number_at(table, at + 8),
            slack: number_at(table, at + 16),
            state: number_at(table, at + 24),
            ticket: number_at(table, at + 32),
        })
        .collect()
}

/// Writes the records into a table of as many whole records.
pub fn put_records(table: &mut [u8], records: &[Record]) {
    for (place, record) in records.iter().enumerate() {
        let at = place * RECORD_BYTES;
        put_number(table, at, record.key);
        put_number(table, at + 8, record.heat);
        put_number(table, at + 16, record.slack);
        put_number(table, at + 24, record.state);
        put_number(table, at + 32, record.ticket);
    }
}

/// "The gauge has two numbers, total and ceiling." "total first, in the same byte order" Document
/// 02: "The gauge gains a third number, the serial".
pub fn gauge_of(gauge: &[u8]) -> (u64, u64, u64) {
    (
        number_at(gauge, 0),
        number_at(gauge, 8),
        number_at(gauge, 16),
    )
}

/// Writes the gauge's three numbers.
pub fn put_gauge(gauge: &mut [u8], total: u64, ceiling: u64, serial: u64) {
    put_number(gauge, 0, total);
    put_number(gauge, 8, ceiling);
    put_number(gauge, 16, serial);
}

/// Every part of "A table is in order when" that does not hold. The sizes are right. No part is on
/// the serial.
pub fn not_in_order(table: &[u8], gauge: &[u8], lines: &[u8]) -> Path {
    let records = records_of(table);
    let (total, ceiling, _) = gauge_of(gauge);
    let c = (lines.len() / LINE_BYTES) as u64;
    let mut causes = Path::new();
    // "total is at most L"
    if total > L {
        causes.push("3: total over L");
    }
    // "ceiling and every heat are at most total"
    if ceiling > total {
        causes.push("3: ceiling over total");
    }
    if records.iter().any(|record| record.heat > total) {
        causes.push("3: a heat over total");
    }
    // "every state is at most 1 + 2 × C"
    if records.iter().any(|record| record.state > 1 + 2 * c) {
        causes.push("3: a state over 1 + 2 C");
    }
    // "every free record is all zero"
    if records
        .iter()
        .any(|record| record.is_free() && *record != FREE)
    {
        causes.push("3: a free record not zero");
    }
    // Document 02: a ticket "is 0 in a fresh table and for records without a line; a table with
    // another there is not in order". The free ones are counted above.
    if records
        .iter()
        .any(|record| record.state == TRACKED && record.ticket != 0)
    {
        causes.push("3: a ticket without a line");
    }
    // "at most C records are on lines"
    let on_lines = records.iter().filter(|record| record.line().is_some());
    if on_lines.count() as u64 > c {
        causes.push("3: over C records on lines");
    }
    causes
}

/// One call with what it is given besides the table, the gauge, the lines, the sum and a read's
/// ticket bytes.
#[derive(Clone, Debug)]
pub enum Call {
    Read {
        key: u64,
        weight: u64,
    },
    Update {
        key: u64,
        weight: u64,
    },
    /// Document 02: "a fill must bring it back", the ticket of wanted.
    Fill {
        key: u64,
        picture: Vec<u8>,
        ticket: u64,
    },
    /// Document 02: "Withdraw, a new call".
    Withdraw {
        key: u64,
    },
    Age,
    Fresh,
    LevelledSum,
}

/// What a call answers. Wanted has the line number and the ticket. The last four are those of the
/// end of an epoch.
#[derive(Clone, Copy, Debug, PartialEq, Eq)]
pub enum Answer {
    Refused(u64),
    Done,
    Aged,
    Changed,
    Unknown,
    Stored,
    Passed,
    Withdrawn,
    Hit(u64),
    Wanted(u64, u64),
    Grow,
    Shrink,
    Age,
    Stay,
}

impl Answer {
    /// "returns one number: a refusal's own, 100 for aged, 101 changed, 102 unknown, 103 stored,
    /// 104 passed, 2,000 + n for hit and 4,000 + n for wanted on line n". Document 02: "withdrawn
    /// (105 when exported)". Done is 0 in cot.h, and the four of an epoch follow 105 there.
    pub fn number(self) -> u64 {
        match self {
            Answer::Refused(number) => number,
            Answer::Done => 0,
            Answer::Aged => 100,
            Answer::Changed => 101,
            Answer::Unknown => 102,
            Answer::Stored => 103,
            Answer::Passed => 104,
            Answer::Withdrawn => 105,
            Answer::Hit(line) => 2_000 + line,
            Answer::Wanted(line, _) => 4_000 + line,
            Answer::Grow => 106,
            Answer::Shrink => 107,
            Answer::Age => 108,
            Answer::Stay => 109,
        }
    }
}

/// Whether a returned number is a refusal's own; done is none.
pub fn is_refused(number: u64) -> bool {
    (1..100).contains(&number)
}

/// The names of the steps that a call took, for counting.
pub type Path = Vec<&'static str>;

// ---------------------------------------------------------------------------------------------
// "Steps"
// ---------------------------------------------------------------------------------------------

/// The numbers of a table and gauge in order, and the count of lines.
struct Cache {
    records: Vec<Record>,
    total: u64,
    ceiling: u64,
    serial: u64,
    c: u64,
}

impl Cache {
    /// "A key's record is the first one with that key and a state over 0; a key that has one is
    /// tracked."
    fn place_of(&self, key: u64) -> Option<usize> {
        self.records.iter().position(|record| record.is_of(key))
    }

    /// The coldest of the records that `of` picks, "first among equals".
    fn coldest(&self, of: impl Fn(&Record) -> bool) -> Option<usize> {
        let mut found: Option<usize> = None;
        for (place, record) in self.records.iter().enumerate() {
            if of(record) && found.map_or(true, |best| record.heat < self.records[best].heat) {
                found = Some(place);
            }
        }
        found
    }

    /// Of the coldest records that `of` picks, "the one with the largest slack, then the first". The
    /// slack is what `slack` gives, so that a fault may take another number for it.
    fn coldest_by_slack(
        &self,
        of: impl Fn(&Record) -> bool,
        slack: impl Fn(&Record) -> u64,
    ) -> Option<usize> {
        let picked = || self.records.iter().filter(|record| of(record));
        let coldest = picked().map(|record| record.heat).min()?;
        let equals = picked().filter(|record| record.heat == coldest);
        let largest = equals.map(&slack).max()?;
        let is_it = |r: &Record| of(r) && r.heat == coldest && slack(r) == largest;
        self.records.iter().position(is_it)
    }

    /// The hottest of the records that `of` picks, "first among equals".
    fn hottest(&self, of: impl Fn(&Record) -> bool) -> Option<usize> {
        let mut found: Option<usize> = None;
        for (place, record) in self.records.iter().enumerate() {
            if of(record) && found.map_or(true, |best| record.heat > self.records[best].heat) {
                found = Some(place);
            }
        }
        found
    }

    /// How many of the records that `of` picks have this heat.
    fn count_at(&self, heat: u64, of: impl Fn(&Record) -> bool) -> usize {
        let same = |record: &&Record| of(record) && record.heat == heat;
        self.records.iter().filter(same).count()
    }

    /// Whether another of the records that `of` picks has the heat of this one and more slack.
    fn less_slack(&self, place: usize, of: impl Fn(&Record) -> bool) -> bool {
        let own = &self.records[place];
        let more = |record: &Record| record.heat == own.heat && record.slack > own.slack;
        self.records.iter().any(|record| of(record) && more(record))
    }

    /// The lowest "line used by no record".
    fn unused_line(&self) -> Option<u64> {
        let mut used = vec![false; self.c as usize];
        for line in self.records.iter().filter_map(Record::line) {
            used[line as usize] = true;
        }
        used.iter().position(|used| !used).map(|line| line as u64)
    }

    /// Document 02: "the serial grows by 1 and becomes that record's ticket".
    fn give_ticket(&mut self, place: usize) {
        self.serial += 1;
        self.records[place].ticket = self.serial;
    }

    /// "A line just taken is empty." Document 02: "Each time a line is taken" a ticket is given.
    fn take_line(&mut self, place: usize, line: u64) {
        self.records[place].state = empty_on(line);
        self.give_ticket(place);
    }

    /// "that record's state becomes 1", and its ticket is that of "records without a line".
    fn lose_line(&mut self, place: usize) {
        self.records[place].state = TRACKED;
        self.records[place].ticket = 0;
    }

    /// **Age.**
    fn age(&mut self) -> Answer {
        for record in &mut self.records {
            // "Every heat ... half, rounded down."
            record.heat /= 2;
            // "Every slack becomes half, rounded up."
            record.slack = record.slack / 2 + record.slack % 2;
        }
        // "the total and the ceiling become half, rounded down"
        self.total /= 2;
        self.ceiling /= 2;
        Answer::Aged
    }

    /// **Read** of a key with weight w, "1 to 65,535".
    fn read(&mut self, key: u64, w: u64, fault: Option<Fault>, path: &mut Path) -> Answer {
        // 1. "If total + w exceeds L, age first. Then total grows by w."
        if self.total + w > L {
            path.push("read 1: aged first");
            self.age();
        } else {
            path.push("read 1: not aged");
        }
        self.total += w;

        let place = match self.place_of(key) {
            // 2. "Tracked key: its heat grows by w."
            Some(place) => {
                path.push("read 2: tracked");
                self.records[place].heat += w;
                place
            }
            None => {
                let place = match self.records.iter().position(Record::is_free) {
                    // 3. "Untracked key with a free record: the first free one"
                    Some(place) => {
                        path.push("read 3: free record");
                        if self.ceiling > 0 {
                            path.push("read 3: free record, ceiling over 0");
                        }
                        place
                    }
                    // 4. "Untracked key, no free record: the victim is the coldest record without
                    // a line". Document 02: "Among equally cold records without a line, the victim
                    // is now the one with the largest slack, then the first."
                    None => {
                        let without = |record: &Record| record.line().is_none();
                        let slack = |record: &Record| match fault {
                            Some(Fault::VictimByHeat) => 0,
                            Some(Fault::VictimLeastSlack) => u64::MAX - record.slack,
                            Some(Fault::VictimLowHalf) => record.slack % (1 << 32),
                            _ => record.slack,
                        };
                        // At most C records are on lines and C is under K, so there is one.
                        let victim = self.coldest_by_slack(without, slack);
                        let victim = victim.expect("a record without a line");
                        self.name_victim(victim, path);
                        // "Ceiling becomes the larger of ceiling and the victim's heat."
                        let heat = self.records[victim].heat;
                        path.push(if heat > self.ceiling {
                            "read 4: ceiling raised"
                        } else if heat < self.ceiling {
                            "read 4: victim under ceiling"
                        } else {
                            "read 4: victim at ceiling"
                        });
                        self.ceiling = self.ceiling.max(heat);
                        victim
                    }
                };
                // 3 and 4. "gets key, heat ceiling + w, slack ceiling, state 1"
                self.records[place] = Record {
                    key,
                    heat: self.ceiling + w,
                    slack: self.ceiling,
                    state: TRACKED,
                    ticket: 0,
                };
                place
            }
        };

        // 5. "If the key has no line:"
        if self.records[place].line().is_none() {
            if let Some(line) = self.unused_line() {
                // "with a line used by no record, it takes the lowest such line"
                path.push("read 5: unused line");
                self.take_line(place, line);
            } else if self.c > 0 {
                // "Otherwise, if C is over 0 and its heat is greater than that of the coldest
                // record on a line (first among equals), it takes that record's line and that
                // record's state becomes 1."
                let with = |record: &Record| record.line().is_some();
                // Document 02: "The coldest on the lines is still chosen as before."
                let coldest = if fault == Some(Fault::ColdestBySlack) {
                    self.coldest_by_slack(with, |record| record.slack)
                } else {
                    self.coldest(with)
                };
                // Every line is used and there is one at least, so there is such a record.
                let coldest = coldest.expect("a record on a line");
                let (own, other) = (self.records[place].heat, self.records[coldest].heat);
                let admit_on_equal = fault == Some(Fault::AdmitEqual);
                if own > other || (admit_on_equal && own == other) {
                    path.push("read 5: takes the coldest's line");
                    if self.count_at(other, with) > 1 {
                        path.push("read 5: coldest first among equals");
                    }
                    if self.less_slack(coldest, with) {
                        path.push("read 5: coldest, another as cold has more slack");
                    }
                    let line = self.records[coldest].line().expect("its line");
                    self.take_line(place, line);
                    self.lose_line(coldest);
                } else if own == other {
                    path.push("read 5: equal heat");
                } else {
                    path.push("read 5: colder");
                }
            } else {
                path.push("read 5: no lines at all");
            }
        } else {
            path.push("read 5: has a line");
        }

        // 6. "Answer: hit ..."
        self.records[place].answer()
    }

    /// Names what made this record the victim among equally cold ones.
    fn name_victim(&self, victim: usize, path: &mut Path) {
        let (before, after) = self.records.split_at(victim);
        let (own, behind) = after.split_first().expect("the victim");
        let equal = |record: &Record| record.line().is_none() && record.heat == own.heat;
        let less = |record: &Record| equal(record) && record.slack < own.slack;
        for (name, holds) in [
            (
                "read 4: victim by slack",
                before.iter().chain(behind).any(less),
            ),
            (
                "read 4: victim of largest slack behind an equally cold one",
                before.iter().any(less),
            ),
            (
                "read 4: victim first among equal slack",
                behind.iter().any(|r| equal(r) && r.slack == own.slack),
            ),
        ] {
            if holds {
                path.push(name);
            }
        }
    }

    /// A look, document 02's "read of weight 0". "It answers hit, wanted or passed as the table
    /// stands, an untracked key being passed, and changes nothing."
    fn look(&self, key: u64, path: &mut Path) -> Answer {
        let place = self.place_of(key);
        self.left_by_look(place, path);
        let Some(place) = place else {
            path.push("look: passed, untracked");
            return Answer::Passed;
        };
        let answer = self.records[place].answer();
        path.push(match answer {
            Answer::Hit(_) => "look: hit",
            Answer::Wanted(..) => "look: wanted",
            _ => "look: passed, tracked",
        });
        // "the rules then use the first record"
        let mut own = self.records.iter().filter(|record| record.is_of(key));
        if own.any(|record| record.answer() != answer) {
            path.push("look: doubled key, a later record answers otherwise");
        }
        answer
    }

    /// Names what the steps of a read would change, and a look leaves. The place is the key's.
    fn left_by_look(&self, place: Option<usize>, path: &mut Path) {
        // 1. Any weight over 0 would exceed L.
        if self.total == L {
            path.push("look: at total L");
        }
        let unused = self.unused_line().is_some();
        match place {
            // 3 and 4. The key would be tracked, and by 5 it might take a line.
            None => {
                path.push(if self.records.iter().any(Record::is_free) {
                    "look: untracked with a free record"
                } else {
                    "look: untracked without a free record"
                });
                if unused {
                    path.push("look: untracked, an unused line");
                }
            }
            // 5. The key would take a line.
            Some(place) if self.records[place].line().is_none() => {
                let coldest = self.coldest(|record| record.line().is_some());
                let heat = |place: usize| self.records[place].heat;
                if unused {
                    path.push("look: tracked without a line, an unused line");
                } else if coldest.is_some_and(|coldest| heat(place) > heat(coldest)) {
                    path.push("look: tracked without a line, hotter than one on a line");
                }
            }
            Some(_) => {}
        }
    }

    /// **Update** of a key with weight w.
    fn update(&mut self, key: u64, w: u64, keeps_ticket: bool, path: &mut Path) -> Answer {
        // "An untracked key changes nothing; answer: unknown"
        let Some(place) = self.place_of(key) else {
            return Answer::Unknown;
        };
        // "Otherwise its heat falls by w, not below 0"
        let heat = self.records[place].heat;
        path.push(if w > heat {
            "update: heat stops at 0"
        } else {
            "update: heat falls by w"
        });
        self.records[place].heat = if w > heat { 0 } else { heat - w };
        if let Some(line) = self.records[place].line() {
            // "and a line it has becomes empty"
            self.records[place].state = empty_on(line);
            // "If it has a line and the hottest record without one (first among equals) is now
            // strictly hotter, that record takes the line, empty, and the key's state becomes 1."
            let without = |record: &Record| record.line().is_none();
            // At most C records are on lines and C is under K, so there is one. It may be free.
            let hottest = self.hottest(without).expect("a record without a line");
            let (own, other) = (self.records[place].heat, self.records[hottest].heat);
            if other > own {
                path.push("update: line moves");
                if self.count_at(other, without) > 1 {
                    path.push("update: hottest first among equals");
                }
                if self.less_slack(hottest, without) {
                    path.push("update: hottest, another as hot has more slack");
                }
                self.take_line(hottest, line);
                self.lose_line(place);
            } else {
                path.push(if other == own {
                    "update: line kept, equal heat"
                } else {
                    "update: line kept"
                });
                // Document 02: "each time an update reaches a class that keeps its line"
                let ticket = self.records[place].ticket;
                self.give_ticket(place);
                if keeps_ticket {
                    self.records[place].ticket = ticket;
                }
            }
        } else {
            path.push("update: no line");
        }
        Answer::Changed
    }

    /// **Fill** of a key with a picture, which has 64 bytes, and a ticket, if one is to be tested.
    fn fill(
        &mut self,
        lines: &mut [u8],
        key: u64,
        picture: &[u8],
        ticket: Option<u64>,
        path: &mut Path,
    ) -> Answer {
        // "The key's record is looked up; if there is none, or it has no line, the call ends
        // there with 5"
        let Some(place) = self.place_of(key) else {
            path.push("5: no record");
            return Answer::Refused(5);
        };
        let Some(line) = self.records[place].line() else {
            path.push("5: no line");
            return Answer::Refused(5);
        };
        // "if the line is filled, with 6"
        if self.records[place].is_filled() {
            return Answer::Refused(6);
        }
        // Document 02: "9, a fill with another ticket, tested after 6"
        if ticket.is_some_and(|ticket| ticket != self.records[place].ticket) {
            return Answer::Refused(9);
        }
        // "Otherwise the 64 bytes are written into that line's part of the lent lines, and the
        // state becomes filled."
        let at = LINE_BYTES * line as usize;
        lines[at..at + LINE_BYTES].copy_from_slice(picture);
        self.records[place].state = filled_on(line);
        Answer::Stored
    }

    /// **Withdraw** of a key, which by document 02 "frees its key's record".
    fn withdraw(&mut self, key: u64, free_takes_line: bool, path: &mut Path) -> Answer {
        // "unknown for an untracked key"
        let Some(place) = self.place_of(key) else {
            path.push("withdraw: untracked");
            return Answer::Unknown;
        };
        let own = std::mem::replace(&mut self.records[place], FREE);
        // "the rules then use the first record"
        if self.place_of(key).is_some() {
            path.push("withdraw: doubled key, a later record stays");
        }
        let Some(line) = own.line() else {
            path.push("withdraw: no line");
            return Answer::Withdrawn;
        };
        path.push(if own.is_filled() {
            "withdraw: line filled"
        } else {
            "withdraw: line empty"
        });
        // "A line it had goes, empty and with a new ticket, to the hottest tracked record left
        // without one, first among equals, or becomes unused." A free record gets none.
        let waits =
            |record: &Record| record.state == TRACKED || (free_takes_line && record.is_free());
        let Some(hottest) = self.hottest(waits) else {
            path.push("withdraw: line becomes unused");
            return Answer::Withdrawn;
        };
        let (before, after) = self.records.split_at(hottest);
        let heat = after[0].heat;
        for (name, holds) in [
            ("withdraw: line goes to the hottest", true),
            (
                "withdraw: hottest first among equals",
                self.count_at(heat, waits) > 1,
            ),
            (
                "withdraw: hottest, another as hot has more slack",
                self.less_slack(hottest, waits),
            ),
            (
                "withdraw: hottest no hotter than a free record before it",
                heat == 0 && before.iter().any(Record::is_free),
            ),
            ("withdraw: hottest in the first record", before.is_empty()),
            ("withdraw: hottest in the last record", after.len() == 1),
            (
                "withdraw: doubled line, given all the same",
                self.records.iter().any(|r| r.line() == Some(line)),
            ),
        ] {
            if holds {
                path.push(name);
            }
        }
        self.take_line(hottest, line);
        Answer::Withdrawn
    }
}

// ---------------------------------------------------------------------------------------------
// "The list of demand 3, its replay and true heat"
// ---------------------------------------------------------------------------------------------

/// What the replay keeps for a key.
#[derive(Clone, Default)]
pub struct True {
    pub heat: u64,
    /// With the ticket that its fill brought.
    pub picture: Option<(Vec<u8>, u64)>,
    /// The serial that the key's last accepted update found. The tickets up to this one were given
    /// before that update, all others by it or after it.
    pub stale: u64,
}

/// "It keeps a true total, and for every key a true heat and a picture, starting at 0, 0 and
/// none." A key that is not in the map still has these. For document 02's sentence on the ticket of
/// a picture it keeps that and the serial of an update too, and for its sentence on resizing the
/// record counts.
#[derive(Clone)]
pub struct Replay {
    pub total: u64,
    pub keys: BTreeMap<u64, True>,
    /// How many records the table lent to the next call has.
    pub records: usize,
    /// Document 02: "the smallest record count since fresh".
    pub fewest: usize,
}

impl Replay {
    /// The replay of a list that starts from a fresh table of so many records.
    pub fn new(records: usize) -> Replay {
        Replay {
            total: 0,
            keys: BTreeMap::new(),
            records,
            fewest: records,
        }
    }

    /// An accepted resize to so many records. The true total, heats and pictures stay: document 02
    /// has "the source's history".
    pub fn resized(&mut self, records: usize) {
        self.records = records;
        self.fewest = self.fewest.min(records);
    }

    /// "The replay is fed each call's kind, key, weight and picture, and whether it was refused.
    /// Nothing in the table, gauge or lines is read for it." Only an update is fed the serial that
    /// it found, for the sentence on tickets.
    pub fn feed(&mut self, call: &Call, refused: bool, serial: u64) {
        // "Refused call: no change."
        if refused {
            return;
        }
        match call {
            // "The list starts from a fresh table and gauge"
            Call::Fresh => *self = Replay::new(self.records),
            // It changes neither table nor gauge nor lines.
            Call::LevelledSum => {}
            Call::Age => self.age(),
            // Document 02: "a look counts for nothing in the replay"
            Call::Read { weight: 0, .. } => {}
            // "Read: if true total + w exceeds L, an aging first. Then the true total and the
            // key's true heat grow by w."
            Call::Read { key, weight } => {
                if self.total + weight > L {
                    self.age();
                }
                self.total += weight;
                self.keys.entry(*key).or_default().heat += weight;
            }
            // "Update, of a key tracked or not: the key's true heat falls by w, not below 0, and
            // its picture becomes none."
            Call::Update { key, weight } => {
                let kept = self.keys.entry(*key).or_default();
                kept.heat = if *weight > kept.heat {
                    0
                } else {
                    kept.heat - weight
                };
                kept.picture = None;
                kept.stale = serial;
            }
            // "Fill: the key's picture becomes the one lent."
            Call::Fill {
                key,
                picture,
                ticket,
            } => {
                let kept = self.keys.entry(*key).or_default();
                kept.picture = Some((picture.clone(), *ticket));
            }
            // Document 02: "In the replay the class's true heat becomes 0", tracked or not. All else
            // stays.
            Call::Withdraw { key } => self.keys.entry(*key).or_default().heat = 0,
        }
    }

    /// "Aging: the true total and every true heat become half, rounded down."
    fn age(&mut self) {
        self.total /= 2;
        for kept in self.keys.values_mut() {
            kept.heat /= 2;
        }
    }

    pub fn true_heat(&self, key: u64) -> u64 {
        self.keys.get(&key).map_or(0, |kept| kept.heat)
    }

    /// "Demand 3 compares these with the table, gauge and lines after the list." Gives the first
    /// clause that does not hold. What is not in quotes here, document 01 does not state in full.
    /// The levelled sum's bound and what follows from the steps come last.
    pub fn compare(&self, table: &[u8], gauge: &[u8], lines: &[u8]) -> Result<(), String> {
        let records = records_of(table);
        let (total, ceiling, serial) = gauge_of(gauge);
        let tracked: Vec<&Record> = records.iter().filter(|record| !record.is_free()).collect();
        let (k, fewest) = (records.len(), self.fewest);
        if k != self.records || fewest > k || fewest == 0 {
            return Err(format!(
                "K {k} where {} is due, the smallest since fresh {fewest}",
                self.records
            ));
        }

        // "The gauge's total equals the true total."
        if total != self.total {
            return Err(format!("total {total}, true total {}", self.total));
        }

        // A tracked class's heat is at least its true heat, and at most that and its slack.
        for record in &tracked {
            let own = self.true_heat(record.key);
            let most = u128::from(own) + u128::from(record.slack);
            if record.heat < own || u128::from(record.heat) > most {
                return Err(format!("{record:?} has true heat {own}"));
            }
        }

        // "a class not in the table is an untracked key": its true heat is at most the ceiling.
        let mut keys: Vec<u64> = tracked.iter().map(|record| record.key).collect();
        keys.sort_unstable();
        for (key, kept) in &self.keys {
            if kept.heat > ceiling && keys.binary_search(key).is_err() {
                return Err(format!(
                    "untracked key {key} has true heat {}, ceiling {ceiling}",
                    kept.heat
                ));
            }
        }

        // "Its records are K": the product of K and the ceiling is at most the total. Document 02:
        // "the product with the ceiling" uses "the smallest record count since fresh".
        if fewest as u128 * u128::from(ceiling) > u128::from(total) {
            return Err(format!(
                "the smallest K since fresh, {fewest}, x ceiling {ceiling} is over total {total}"
            ));
        }

        // "hotter means more heat in the table": no class without a line is hotter than one that
        // is on a line.
        let with = || tracked.iter().filter(|record| record.line().is_some());
        let without = || tracked.iter().filter(|record| record.line().is_none());
        let hottest = without().max_by_key(|record| record.heat);
        let coldest = with().min_by_key(|record| record.heat);
        if let (Some(hottest), Some(coldest)) = (hottest, coldest) {
            if hottest.heat > coldest.heat {
                return Err(format!("{hottest:?} is hotter than {coldest:?}"));
            }
        }

        // "For such a line to show its class's latest fill, its 64 bytes must equal that key's
        // picture in the replay, which must not be none."
        for record in tracked.iter().filter(|record| record.is_filled()) {
            let line = record.line().expect("its line");
            let at = LINE_BYTES * line as usize;
            let shown = lines.get(at..at + LINE_BYTES);
            let kept = self.keys.get(&record.key);
            let Some((kept, (picture, ticket))) =
                kept.and_then(|kept| Some((kept, kept.picture.as_ref()?)))
            else {
                return Err(format!(
                    "{record:?} shows a picture, and its class has none"
                ));
            };
            if shown != Some(&picture[..]) {
                return Err(format!("{record:?} does not show its class's latest fill"));
            }
            // Document 02: "a filled line shows a picture whose ticket was given by the last
            // accepted update of its class, if any, or after it". An update that finds serial s
            // gives s + 1, if any.
            if record.ticket != *ticket {
                return Err(format!("{record:?}: its latest fill brought {ticket}"));
            }
            if *ticket <= kept.stale || *ticket > serial {
                return Err(format!(
                    "{record:?}: its last update found serial {}, and the serial is {serial}",
                    kept.stale
                ));
            }
        }

        // "It never exceeds the total after a list as in demand 3." Document 02: "the levelled
        // sum's bound" is for "the sum over any that many records", so for those of largest level.
        let sum = largest_levels(&records, ceiling, fewest);
        if sum > u128::from(total) {
            return Err(format!(
                "levelled sum {sum} of {fewest} of {k} records is over total {total}"
            ));
        }

        // These follow from the steps: a list from fresh leaves the table in order, doubles no key,
        // no line and no ticket of a line, which are all from 1 to the serial, and leaves no line
        // unused while a class is without one.
        if let Some(cause) = not_in_order(table, gauge, lines).first() {
            return Err(format!("after the list, {cause}"));
        }
        if keys.windows(2).any(|pair| pair[0] == pair[1]) {
            return Err("two records have one key".to_string());
        }
        let mut used: Vec<u64> = with().filter_map(|record| record.line()).collect();
        used.sort_unstable();
        if used.windows(2).any(|pair| pair[0] == pair[1]) {
            return Err("two records are on one line".to_string());
        }
        let mut tickets: Vec<u64> = with().map(|record| record.ticket).collect();
        tickets.sort_unstable();
        if tickets.windows(2).any(|pair| pair[0] == pair[1]) {
            return Err("two records on lines have one ticket".to_string());
        }
        if tickets.first() == Some(&0) || tickets.last().is_some_and(|last| *last > serial) {
            return Err(format!("a ticket of 0 or over the serial {serial}"));
        }
        if without().count() > 0 && used.len() < lines.len() / LINE_BYTES {
            return Err("a line is unused and a class is without one".to_string());
        }
        Ok(())
    }
}

// ---------------------------------------------------------------------------------------------
// "Refused calls"
// ---------------------------------------------------------------------------------------------

/// Every part of cause 1 that holds.
pub fn wrong_sizes(table: &[u8], gauge: &[u8], lines: &[u8]) -> Path {
    let mut causes = Path::new();
    // "table not whole records"
    if table.len() % RECORD_BYTES != 0 {
        causes.push("1: table not whole records");
    }
    // "K outside 1 to 1,024"
    let k = table.len() / RECORD_BYTES;
    if k < 1 || k > MOST_RECORDS {
        causes.push("1: K outside 1 to 1,024");
    }
    // "lines not whole"
    if lines.len() % LINE_BYTES != 0 {
        causes.push("1: lines not whole");
    }
    // "C not under K"
    if lines.len() / LINE_BYTES >= k {
        causes.push("1: C not under K");
    }
    // "gauge bytes not 16", in document 02 24
    if gauge.len() != GAUGE_BYTES {
        causes.push("1: gauge bytes not 24");
    }
    causes
}

/// Cause 2 of a read: "over 65,535". Document 02: "A read of weight 0 is now accepted."
pub fn wrong_read_weight(weight: u64) -> bool {
    weight > MOST_WEIGHT
}

/// Cause 2 of an update: "weight 0 or over 65,535". Document 02: "Updates of weight 0 are still
/// refused with 2."
pub fn wrong_update_weight(weight: u64) -> bool {
    weight == 0 || weight > MOST_WEIGHT
}

/// Cause 4: "picture to fill not 64 bytes".
pub fn wrong_picture(picture: &[u8]) -> bool {
    picture.len() != LINE_BYTES
}

/// The levelled sum's own part of cause 1: the sum is "a number in 8 bytes", and any other length
/// "is refused as a wrong count".
fn wrong_sum(sum: &[u8]) -> bool {
    sum.len() != SUM_BYTES
}

/// A read's own part of cause 1, document 02: 8 more bytes, "another length gives 1".
pub fn wrong_ticket_bytes(count: usize) -> bool {
    count != TICKET_BYTES
}

/// Cause 10, document 02: "a read over 0, update or fill when the serial is
/// 9,223,372,036,854,775,808 or more", and a withdrawal.
pub fn serial_at_limit(call: &Call, serial: u64) -> bool {
    let tested = match call {
        Call::Read { weight, .. } => *weight > 0,
        Call::Update { .. } | Call::Fill { .. } | Call::Withdraw { .. } => true,
        Call::Age | Call::Fresh | Call::LevelledSum => false,
    };
    tested && serial >= SERIAL_LIMIT
}

/// A deliberate fault, by which the comparison shows that it finds one.
#[derive(Clone, Copy, Debug, PartialEq, Eq)]
pub enum Fault {
    /// Step 5 of read admits on equal heat too.
    AdmitEqual,
    /// Fresh leaves the last byte of the table.
    FreshKeeps,
    /// The levelled sum adds heats up, whatever the ceiling is.
    SumHeat,
    /// A look takes the steps of a read, with weight 0.
    LookWarms,
    /// A class that keeps its line in an update keeps its ticket too. The serial grows.
    KeepsTicket,
    /// The ticket bytes get the ticket on hit too.
    TicketOnHit,
    /// A fill may bring any ticket.
    AnyTicket,
    /// A withdrawn class's line may go to a free record, as if that were a class of heat 0.
    FreeTakesLine,
    /// The victim is the first of equally cold records, whatever the slacks.
    VictimByHeat,
    /// The victim is the one with the smallest slack of equally cold records.
    VictimLeastSlack,
    /// Of slacks, only the low 32 bits count for the victim.
    VictimLowHalf,
    /// Of equally cold records on lines, the one with the largest slack loses its line.
    ColdestBySlack,
    /// The clockwise distance is key position minus point.
    RingKeyMinusPoint,
    /// The clockwise distance is not wrapped: how far the two numbers are from each other.
    RingNoWrap,
    /// Of the clockwise distance only the low 32 bits count.
    RingLowHalf,
    /// The store is that of the point with the largest distance.
    RingLargest,
    /// Cause 11 is tested before cause 12, on the whole points that there are.
    RingDoubledFirst,
    /// For cause 11 a point's position is compared with the next one's only.
    RingNeighboursOnly,
    /// A grow is due only where the average on the lines is over that off them.
    ScaleStrictAverage,
    /// The new target is hits on lines over the new C.
    ScaleNewLinesInTarget,
    /// The new target is reduced.
    ScaleTargetReduced,
    /// A shrink halves K down.
    ScaleHalvedDown,
    /// The tolerated target is over the target by the tolerance.
    ScaleToleranceAdded,
    /// A grow with twice K over 1,024 goes on to shrink and age.
    ScaleFallsThrough,
    /// Greatest lookups above 0 with least 0 is within every target.
    ScaleZeroLeastWithin,
    /// Cause 13 is tested before cause 1.
    ScaleSizesLast,
    /// The hottest of those without a line leave a smaller table.
    SizesHottestDropped,
    /// The ceiling stays when records leave a smaller table.
    SizesCeilingLeft,
    /// The ceiling rises to the coldest of those that leave, which is the first of them.
    SizesCeilingToFirst,
    /// The lines that are kept are numbered in the order of their old numbers.
    SizesOldNumbers,
    /// A spare line is given filled.
    SizesSpareFilled,
    /// A record that keeps its line gets a new ticket.
    SizesTicketsRenewed,
    /// The first of equally cold records leaves a smaller table, whatever the slacks.
    SizesVictimsByHeat,
    /// The bytes of the lines that are kept are not copied.
    SizesLinesNotCopied,
    /// The bytes of a line that is kept are those of the source's line of its new number.
    SizesCopiedByNewNumber,
    /// Of equally cold records on lines, the last ones lose theirs.
    SizesColdestLast,
    /// Of equally hot records without a line, the last ones get the spare lines.
    SizesHottestLast,
    /// Cause 10 is tested only where a resize gives a ticket.
    SizesSerialIfGiven,
    /// The records behind the kept ones are not made free.
    SizesRestKept,
    /// The target's sizes are tested after causes 3 and 10 of the source.
    SizesTargetLast,
}

/// What is compared in groups of its own.
#[derive(Clone, Copy, Debug, PartialEq, Eq)]
pub enum Part {
    /// The calls on table, gauge and lines.
    Tables,
    /// The call for a store.
    Rings,
    /// The call at the end of an epoch.
    Epochs,
    /// The call for another K and C.
    Sizes,
}

impl Fault {
    /// The part that it concerns.
    pub fn part(self) -> Part {
        match self {
            Fault::AdmitEqual
            | Fault::FreshKeeps
            | Fault::SumHeat
            | Fault::LookWarms
            | Fault::KeepsTicket
            | Fault::TicketOnHit
            | Fault::AnyTicket
            | Fault::FreeTakesLine
            | Fault::VictimByHeat
            | Fault::VictimLeastSlack
            | Fault::VictimLowHalf
            | Fault::ColdestBySlack => Part::Tables,
            Fault::RingKeyMinusPoint
            | Fault::RingNoWrap
            | Fault::RingLowHalf
            | Fault::RingLargest
            | Fault::RingDoubledFirst
            | Fault::RingNeighboursOnly => Part::Rings,
            Fault::ScaleStrictAverage
            | Fault::ScaleNewLinesInTarget
            | Fault::ScaleTargetReduced
            | Fault::ScaleHalvedDown
            | Fault::ScaleToleranceAdded
            | Fault::ScaleFallsThrough
            | Fault::ScaleZeroLeastWithin
            | Fault::ScaleSizesLast => Part::Epochs,
            Fault::SizesHottestDropped
            | Fault::SizesCeilingLeft
            | Fault::SizesCeilingToFirst
            | Fault::SizesOldNumbers
            | Fault::SizesSpareFilled
            | Fault::SizesTicketsRenewed
            | Fault::SizesVictimsByHeat
            | Fault::SizesLinesNotCopied
            | Fault::SizesCopiedByNewNumber
            | Fault::SizesColdestLast
            | Fault::SizesHottestLast
            | Fault::SizesSerialIfGiven
            | Fault::SizesRestKept
            | Fault::SizesTargetLast => Part::Sizes,
        }
    }
}

/// The calls on lent bytes.
#[derive(Clone, Copy, Default)]
pub struct Model {
    pub fault: Option<Fault>,
}

impl Model {
    /// Makes one call on the lent table, gauge, lines, sum and ticket. A refused call writes nothing.
    pub fn call(
        &self,
        [table, gauge, lines, sum, ticket]: [&mut [u8]; 5],
        call: &Call,
        path: &mut Path,
    ) -> Answer {
        // "Order of tests: 1, then 2 or 4, then 3, 5, 6." Document 02: 9 is "tested after 6" and 10
        // "tested after 3"; of a withdrawal "refusals 1, 3 and 10 apply".
        let mut causes = wrong_sizes(table, gauge, lines);
        if matches!(call, Call::LevelledSum) && wrong_sum(sum) {
            causes.push("1: sum bytes not 8");
        }
        if matches!(call, Call::Read { .. }) && wrong_ticket_bytes(ticket.len()) {
            causes.push("1: ticket bytes not 8");
        }
        if !causes.is_empty() {
            if causes.len() == 1 {
                path.push(causes[0]);
            }
            return Answer::Refused(1);
        }
        match call {
            Call::Read { weight, .. } => {
                if wrong_read_weight(*weight) {
                    return Answer::Refused(2);
                }
            }
            Call::Update { weight, .. } => {
                if wrong_update_weight(*weight) {
                    return Answer::Refused(2);
                }
            }
            Call::Fill { picture, .. } => {
                if wrong_picture(picture) {
                    return Answer::Refused(4);
                }
            }
            // "Fresh gives only 1."
            Call::Fresh => {
                self.fresh(table, gauge);
                return Answer::Done;
            }
            Call::Withdraw { .. } | Call::Age | Call::LevelledSum => {}
        }
        let causes = not_in_order(table, gauge, lines);
        if !causes.is_empty() {
            if causes.len() == 1 {
                path.push(causes[0]);
            }
            return Answer::Refused(3);
        }

        let (total, ceiling, serial) = gauge_of(gauge);
        if serial_at_limit(call, serial) {
            return Answer::Refused(10);
        }
        let mut cache = Cache {
            records: records_of(table),
            total,
            ceiling,
            serial,
            c: (lines.len() / LINE_BYTES) as u64,
        };
        let answer = match call {
            Call::Read { key, weight: 0 } if self.fault != Some(Fault::LookWarms) => {
                cache.look(*key, path)
            }
            Call::Read { key, weight } => cache.read(*key, *weight, self.fault, path),
            Call::Update { key, weight } => {
                let keeps_ticket = self.fault == Some(Fault::KeepsTicket);
                cache.update(*key, *weight, keeps_ticket, path)
            }
            Call::Fill {
                key,
                picture,
                ticket,
            } => {
                let tested = self.fault != Some(Fault::AnyTicket);
                cache.fill(lines, *key, picture, tested.then_some(*ticket), path)
            }
            Call::Withdraw { key } => {
                let free_takes_line = self.fault == Some(Fault::FreeTakesLine);
                cache.withdraw(*key, free_takes_line, path)
            }
            Call::Age => cache.age(),
            Call::LevelledSum => {
                let level = if self.fault == Some(Fault::SumHeat) {
                    0
                } else {
                    ceiling
                };
                // At most 1,024 numbers of at most L: 8 bytes hold them.
                put_number(sum, 0, levelled_sum(&cache.records, level) as u64);
                return Answer::Done;
            }
            Call::Fresh => unreachable!("answered before the order is tested"),
        };
        // Document 02: the 8 bytes "get the ticket on wanted and otherwise stay".
        match (answer, call) {
            (Answer::Wanted(_, own), _) => put_number(ticket, 0, own),
            (Answer::Hit(_), Call::Read { key, .. }) if self.fault == Some(Fault::TicketOnHit) => {
                let place = cache.place_of(*key).expect("the record of a hit");
                put_number(ticket, 0, cache.records[place].ticket);
            }
            _ => {}
        }
        // A look changes no number, and causes 5, 6 and 9 are found before any changes; so this
        // writes back the same.
        put_records(table, &cache.records);
        put_gauge(gauge, cache.total, cache.ceiling, cache.serial);
        answer
    }

    /// Asks which store a key is fetched from, by the key's own position. A done writes the store's
    /// number into the lent 8 bytes, and no ring is changed.
    pub fn store(&self, ring: &[u8], position: u64, store: &mut [u8], path: &mut Path) -> Answer {
        if wrong_store(store) {
            return Answer::Refused(1);
        }
        let points = points_of(ring);
        let neighbours_only = self.fault == Some(Fault::RingNeighboursOnly);
        let doubled_first = self.fault == Some(Fault::RingDoubledFirst);
        if doubled_first && doubled_positions(&points, neighbours_only) {
            return Answer::Refused(11);
        }
        let causes = wrong_ring(ring);
        if !causes.is_empty() {
            if causes.len() == 1 {
                path.push(causes[0]);
            }
            return Answer::Refused(12);
        }
        if doubled_positions(&points, neighbours_only) {
            return Answer::Refused(11);
        }
        let place = self.nearest(&points, position);
        put_number(store, 0, points[place].store);
        name_distance(&points, place, position, path);
        Answer::Done
    }

    /// "that of the point with the smallest clockwise distance": the place of that point, of points
    /// at different positions.
    fn nearest(&self, points: &[Point], position: u64) -> usize {
        let far = |place: usize| match self.fault {
            Some(Fault::RingKeyMinusPoint) => clockwise(points[place].position, position),
            Some(Fault::RingNoWrap) => points[place].position.abs_diff(position),
            Some(Fault::RingLowHalf) => clockwise(position, points[place].position) & 0xffff_ffff,
            _ => clockwise(position, points[place].position),
        };
        let mut nearest = 0;
        for place in 1..points.len() {
            let nearer = if self.fault == Some(Fault::RingLargest) {
                far(place) > far(nearest)
            } else {
                far(place) < far(nearest)
            };
            if nearer {
                nearest = place;
            }
        }
        nearest
    }

    /// "Fresh: every table byte and the gauge are zero. The lines keep their bytes." The serial is in
    /// the gauge.
    fn fresh(&self, table: &mut [u8], gauge: &mut [u8]) {
        let kept = usize::from(self.fault == Some(Fault::FreshKeeps));
        let count = table.len() - kept;
        table[..count].fill(0);
        gauge.fill(0);
    }
}

// ---------------------------------------------------------------------------------------------
// "Levelled sum"
// ---------------------------------------------------------------------------------------------

/// "The sum, over all K records, of the larger of heat and ceiling; free records count with heat
/// 0."
pub fn levelled_sum(records: &[Record], ceiling: u64) -> u128 {
    largest_levels(records, ceiling, records.len())
}

/// The levelled sum "over any that many records": of so many, the largest there is.
pub fn largest_levels(records: &[Record], ceiling: u64, count: usize) -> u128 {
    let heat = |record: &Record| if record.is_free() { 0 } else { record.heat };
    let mut levels: Vec<u64> = records.iter().map(|r| heat(r).max(ceiling)).collect();
    if count < levels.len() {
        levels.sort_unstable_by(|one, other| other.cmp(one));
    }
    levels
        .iter()
        .take(count)
        .map(|level| u128::from(*level))
        .sum()
}

// ---------------------------------------------------------------------------------------------
// "Which store to fetch from"
// ---------------------------------------------------------------------------------------------

/// "points, each 16 bytes"
pub const POINT_BYTES: usize = 16;
/// "1 to 1,024 points"
pub const MOST_POINTS: usize = 1_024;
/// "a number in 8 bytes": what the store's number is written into.
pub const STORE_BYTES: usize = 8;

/// "a 64-bit position and a 64-bit store number"
#[derive(Clone, Copy, Debug, PartialEq, Eq)]
pub struct Point {
    pub position: u64,
    pub store: u64,
}

/// The whole points of a ring: "Any other lent list has its fields in the order named: a number in
/// 8 bytes in the same byte order".
pub fn points_of(ring: &[u8]) -> Vec<Point> {
    (0..ring.len() / POINT_BYTES)
        .map(|place| Point {
            position: number_at(ring, POINT_BYTES * place),
            store: number_at(ring, POINT_BYTES * place + 8),
        })
        .collect()
}

/// The bytes of a ring.
pub fn ring_of(points: &[Point]) -> Vec<u8> {
    let mut ring = vec![0; POINT_BYTES * points.len()];
    for (place, point) in points.iter().enumerate() {
        put_number(&mut ring, POINT_BYTES * place, point.position);
        put_number(&mut ring, POINT_BYTES * place + 8, point.store);
    }
    ring
}

/// "clockwise distance, which is point minus key position, wrapped at 64 bits": the way from one
/// position up to another, past 2^64 - 1 to 0 where need be.
fn clockwise(from: u64, to: u64) -> u64 {
    const WHOLE: u128 = 1 << 64;
    ((u128::from(to) + WHOLE - u128::from(from)) % WHOLE) as u64
}

/// Cause 12: "a ring of no point, over 1,024 or not whole points". Names the parts that hold.
pub fn wrong_ring(ring: &[u8]) -> Path {
    let mut path = Path::new();
    if ring.is_empty() {
        path.push("12: no point");
    }
    if ring.len() % POINT_BYTES != 0 {
        path.push("12: not whole points");
    }
    if ring.len() / POINT_BYTES > MOST_POINTS {
        path.push("12: over 1,024 points");
    }
    path
}

/// Cause 11: "two points at one position".
pub fn doubled_positions(points: &[Point], neighbours_only: bool) -> bool {
    for (place, point) in points.iter().enumerate() {
        let later = &points[place + 1..];
        let tested = if neighbours_only {
            later.len().min(1)
        } else {
            later.len()
        };
        for other in &later[..tested] {
            if other.position == point.position {
                return true;
            }
        }
    }
    false
}

/// A part of cause 1: the bytes for the store's number are not 8.
fn wrong_store(store: &[u8]) -> bool {
    store.len() != STORE_BYTES
}

/// Names where the key stands to the points, and where its own point is in the list.
fn name_distance(points: &[Point], place: usize, position: u64, path: &mut Path) {
    let own = points[place].position;
    if own == position {
        path.push("store: distance 0");
    } else if own < position {
        path.push("store: wraps");
    } else {
        path.push("store: ahead");
    }
    if clockwise(position, own) == 1 {
        path.push("store: distance 1");
    }
    if clockwise(position, own) >= 1 << 63 {
        path.push("store: distance of 2^63 or more");
    }
    if points.len() > 1 && place == 0 {
        path.push("store: the first point");
    }
    if points.len() > 1 && place + 1 == points.len() {
        path.push("store: the last point");
    }
}
