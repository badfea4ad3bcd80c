//! Groups (b), (c) and (j): lists of calls from fresh, about one call in ten a look, with
//! withdrawals and fills in time and late, in (j) with resizes too. After each call the library's
//! levelled sum is compared, and demand 3, the sentence on a picture's ticket and the sum's bound
//! are checked by the replay.

use crate::damaged::answer_name;
use crate::harness::{self, call_text, Both, Memory};
use crate::model::{
    gauge_of, is_refused, largest_levels, levelled_sum, put_gauge, put_records, records_of, Call,
    Model, Path, Replay, GAUGE_BYTES, L, LINE_BYTES, MOST_RECORDS, MOST_WEIGHT, RECORD_BYTES,
    SERIAL_LIMIT, TRACKED,
};
use crate::random::Random;
use crate::resize::promised;
use crate::Counts;
use std::collections::BTreeSet;

/// A list: its table, its keys and its calls.
pub struct Plan {
    pub k: usize,
    pub c: usize,
    /// How many classes are asked for.
    pub classes: usize,
    /// The largest weight of most reads.
    pub weight: u64,
    /// The smallest weight of a read that is no look.
    pub least: u64,
    /// Of 1,000 calls, about this many are agings.
    pub agings: u64,
    /// The classes come equally often and fetches are slow, so that lines are lost and retaken
    /// meanwhile.
    pub contest: bool,
    /// Only reads and looks, the fills that they ask for, and agings.
    pub reads_only: bool,
    /// Of 1,000 calls, about this many are resizes, or a fresh in place of one.
    pub resizes: u64,
    /// K and C to resize to, besides 1 record, one more or less, and the same again.
    pub sizes: &'static [(usize, usize)],
}

/// The steps that must come in the lists of group (b) together.
pub const STEPS: [&str; 43] = [
    "read 2: tracked",
    "read 3: free record",
    "read 3: free record, ceiling over 0",
    "read 4: ceiling raised",
    "read 4: victim at ceiling",
    "read 4: victim under ceiling",
    "read 4: victim by slack",
    "read 4: victim of largest slack behind an equally cold one",
    "read 4: victim first among equal slack",
    "read 5: has a line",
    "read 5: unused line",
    "read 5: no lines at all",
    "read 5: takes the coldest's line",
    "read 5: coldest first among equals",
    "read 5: coldest, another as cold has more slack",
    "read 5: equal heat",
    "read 5: colder",
    "update: heat stops at 0",
    "update: heat falls by w",
    "update: no line",
    "update: line kept",
    "update: line kept, equal heat",
    "update: line moves",
    "update: hottest first among equals",
    "update: hottest, another as hot has more slack",
    "look: hit",
    "look: wanted",
    "look: passed, tracked",
    "look: passed, untracked",
    "look: untracked with a free record",
    "look: untracked without a free record",
    "look: untracked, an unused line",
    "withdraw: untracked",
    "withdraw: no line",
    "withdraw: line empty",
    "withdraw: line filled",
    "withdraw: line becomes unused",
    "withdraw: line goes to the hottest",
    "withdraw: hottest first among equals",
    "withdraw: hottest, another as hot has more slack",
    "withdraw: hottest no hotter than a free record before it",
    "withdraw: hottest in the first record",
    "withdraw: hottest in the last record",
];

/// What the fills of the fetches must come to in the lists of group (b) together.
pub const FETCHES: [&str; 13] = [
    "fill in time: at once",
    "fill in time: told again by a look",
    "fill in time: after other calls",
    "late fill, updated: 5",
    "late fill, updated: 6",
    "late fill, updated: 9",
    "late fill, withdrawn: 5",
    "late fill, withdrawn: 6",
    "late fill, withdrawn: 9",
    "late fill, line retaken: 5",
    "late fill, line retaken: 6",
    "late fill, line retaken: 9",
    "late fill, line lost: 5",
];

/// What a withdrawal and a read after it must come to in the lists of group (b) together.
pub const WITHDRAWALS: [&str; 4] = [
    "withdrawn: true heat over 0",
    "withdrawn, untracked: true heat over 0",
    "withdrawn class read again",
    "withdrawn class read again: free record, ceiling over 0",
];

/// What must come in the lists of group (c) together. 65,537 reads of 65,535 come to a total of L.
pub const STEPS_AT_THE_LIMIT: [&str; 1] = ["look: at total L"];

/// The same for fetches. This is rare: the line came back by another class's update or withdrawal,
/// and no wanted told the new ticket.
pub const FETCHES_AT_THE_LIMIT: [&str; 1] = ["late fill, line lost: 9"];

/// Group (b): several K and C, with C = 0, K = 1 and C = K - 1 among them.
pub fn plans_from_fresh() -> Vec<Plan> {
    let sizes = [
        (1, 0),
        (2, 0),
        (2, 1),
        (3, 0),
        (3, 1),
        (3, 2),
        (8, 0),
        (8, 2),
        (8, 7),
        (16, 4),
        (64, 16),
        (64, 63),
        (200, 50),
        (1_023, 1_022),
        (1_024, 0),
        (1_024, 256),
        (1_024, 1_023),
    ];
    let mut plans = Vec::new();
    for (k, c) in sizes {
        plans.push(Plan {
            k,
            c,
            classes: 3 * k + 4,
            weight: if k <= 16 { 4 } else { 9 },
            least: 1,
            agings: 6,
            contest: false,
            reads_only: false,
            resizes: 0,
            sizes: &[],
        });
        // The same size with weights of every size.
        if k <= 64 {
            plans.push(Plan {
                k,
                c,
                classes: 2 * k + 2,
                weight: MOST_WEIGHT,
                least: 1,
                agings: 6,
                contest: false,
                reads_only: false,
                resizes: 0,
                sizes: &[],
            });
        }
    }
    // Few classes of nearly equal heat contest the lines.
    for (k, c) in [(2, 1), (3, 1), (3, 2), (8, 2), (24, 6), (48, 12)] {
        plans.push(Plan {
            k,
            c,
            classes: k,
            weight: 3,
            least: 1,
            agings: 100,
            contest: true,
            reads_only: false,
            resizes: 0,
            sizes: &[],
        });
    }
    // Every read weighs 1 and the classes come equally often, so that equally cold records are many:
    // new ones with equal slacks, and long-known ones with less.
    for (k, c) in [
        (1, 0),
        (2, 0),
        (3, 0),
        (3, 1),
        (8, 0),
        (8, 3),
        (24, 6),
        (64, 16),
        (200, 50),
        (1_024, 256),
    ] {
        for classes in [k + k / 4 + 1, 3 * k] {
            plans.push(Plan {
                k,
                c,
                classes,
                weight: 1,
                least: 1,
                agings: 20,
                contest: true,
                reads_only: false,
                resizes: 0,
                sizes: &[],
            });
        }
    }
    // Without updates the levelled sum is nearest to its bound.
    for (k, c) in [(3, 0), (3, 1), (8, 2), (64, 16)] {
        plans.push(Plan {
            k,
            c,
            classes: 3 * k + 4,
            weight: 4,
            least: 1,
            agings: 30,
            contest: false,
            reads_only: true,
            resizes: 0,
            sizes: &[],
        });
    }
    plans
}

/// Group (c): reads of weight 65,535, so that the total passes L.
pub fn plans_past_the_limit() -> Vec<Plan> {
    [(1, 0), (3, 1), (8, 2), (8, 7), (32, 8)]
        .into_iter()
        .map(|(k, c)| Plan {
            k,
            c,
            classes: 2 * k + 3,
            weight: MOST_WEIGHT,
            least: MOST_WEIGHT,
            agings: 0,
            contest: false,
            reads_only: k == 1,
            resizes: 0,
            sizes: &[],
        })
        .collect()
}

/// What must come in the lists of group (j) together, besides the steps of a resize.
pub const RESIZES: [&str; 55] = [
    "resize up",
    "resize down",
    "resize to the same size",
    "resize to the same K",
    "resize to more records and fewer lines",
    "resize to fewer records and more lines",
    "resize to K 1",
    "resize from K 1",
    "resize to C 0",
    "resize from C 0",
    "resize to K 1,024",
    "resize from K 1,024 to K 1",
    "resize to twice K and C",
    "resize to half of K and C",
    "resize of a fresh table",
    "resize below the smallest K since fresh",
    "resize above the smallest K since fresh",
    "after a resize: levelled sum of all K over the total",
    "after a resize: K x ceiling over the total",
    "after a resize: levelled sum of the smallest K at the total",
    "after a resize: a class that left comes back",
    "after a resize: an aging",
    "fresh after a resize: the smallest K grows",
    "fresh after a resize: the next resize down",
    "resize refused 1: source table",
    "resize refused 1: source gauge",
    "resize refused 1: source lines",
    "resize refused 1: target table",
    "resize refused 1: target gauge",
    "resize refused 1: target lines",
    "resize refused 3: another source",
    "resize refused 10: another source",
    "resize refused 1: into the list's own",
    "resize refused 3: into the list's own",
    "resize refused 10: into the list's own",
    "right after a resize: read hit",
    "right after a resize: read wanted",
    "right after a resize: read passed",
    "right after a resize: look hit",
    "right after a resize: look wanted",
    "right after a resize: look passed",
    "right after a resize: update changed",
    "right after a resize: update unknown",
    "right after a resize: fill stored",
    "right after a resize: fill 5",
    "right after a resize: fill 6",
    "right after a resize: fill 9",
    "right after a resize: withdraw withdrawn",
    "right after a resize: withdraw unknown",
    "right after a resize: age aged",
    "right after a resize: resize 0",
    "fill in time: after other calls, a resize among them",
    "late fill, line lost: 5, a resize meanwhile",
    "late fill, line lost: 9, a resize meanwhile",
    "late fill, line retaken: 9, a resize meanwhile",
];

/// Group (j): lists with resizes, up, down, to the same size, to one record and back.
pub fn plans_with_resizes() -> Vec<Plan> {
    const SMALL: &[(usize, usize)] = &[(2, 1), (3, 1), (3, 2), (2, 0), (5, 2)];
    const MIDDLE: &[(usize, usize)] = &[(3, 0), (8, 2), (8, 7), (5, 4), (16, 4)];
    const DOUBLED: &[(usize, usize)] = &[(4, 1), (8, 2), (16, 4), (32, 8), (64, 16)];
    const CONTEST: &[(usize, usize)] = &[(24, 6), (48, 12), (12, 11), (6, 1)];
    const WIDE: &[(usize, usize)] = &[(64, 16), (200, 50), (64, 63), (10, 2)];
    const MOST: &[(usize, usize)] = &[
        (1_024, 1_023),
        (1_023, 1_022),
        (1_024, 0),
        (512, 256),
        (1_024, 256),
        (300, 299),
    ];
    let mut plans = Vec::new();
    for (sizes, classes, resizes) in [
        (SMALL, 7, 100),
        (MIDDLE, 20, 60),
        (DOUBLED, 60, 40),
        (CONTEST, 40, 40),
        (WIDE, 250, 20),
        (MOST, 2_500, 10),
    ] {
        for (weight, agings, contest, reads_only) in [
            (4, 6, false, false),
            (3, 100, true, false),
            (1, 20, true, false),
            (MOST_WEIGHT, 6, false, false),
            (4, 30, false, true),
            (1, 0, true, true),
        ] {
            let (k, c) = sizes[plans.len() % sizes.len()];
            plans.push(Plan {
                k,
                c,
                classes,
                weight,
                least: 1,
                agings,
                contest,
                reads_only,
                resizes,
                sizes,
            });
        }
    }
    plans
}

/// Group (j): the same with reads of weight 65,535, so that the total passes L.
pub fn plans_with_resizes_past_the_limit() -> Vec<Plan> {
    [(3, 1), (8, 2)]
        .into_iter()
        .map(|(k, c)| Plan {
            k,
            c,
            classes: 2 * k + 3,
            weight: MOST_WEIGHT,
            least: MOST_WEIGHT,
            agings: 0,
            contest: false,
            reads_only: false,
            resizes: 1,
            sizes: &[(2, 1), (3, 1), (8, 2), (16, 4), (16, 15)],
        })
        .collect()
}

/// A fetch under way: "A sorter is told wanted, fetches, and meanwhile the picture changes."
#[derive(Clone, Copy)]
struct Fetch {
    key: u64,
    ticket: u64,
    /// The numbers of the first and the last call that told the ticket.
    first: u64,
    last: u64,
    /// The last of them was a look.
    look: bool,
    /// What made the ticket void since, if anything did: the key was "updated" or "withdrawn".
    void: Option<&'static str>,
    /// A later wanted of the key told another ticket.
    retold: bool,
    /// The table was resized since the last call that told the ticket.
    resized: bool,
}

/// The fetches under way, as a host knows them from the answers alone.
#[derive(Default)]
struct Fetches {
    open: Vec<Fetch>,
}

impl Fetches {
    const MOST: usize = 12;

    /// Takes in what call number `at` came to, with the ticket of a wanted.
    fn note(&mut self, at: u64, call: &Call, found: u64, told: u64) {
        match call {
            Call::Read { key, weight } if found >= 4_000 => {
                let look = *weight == 0;
                let mut known = false;
                for fetch in self.open.iter_mut().filter(|fetch| fetch.key == *key) {
                    if fetch.ticket == told {
                        (fetch.last, fetch.look, known) = (at, look, true);
                        fetch.resized = false;
                    } else {
                        fetch.retold = true;
                    }
                }
                if !known {
                    if self.open.len() == Fetches::MOST {
                        self.open.remove(0);
                    }
                    self.open.push(Fetch {
                        key: *key,
                        ticket: told,
                        first: at,
                        last: at,
                        look,
                        void: None,
                        retold: false,
                        resized: false,
                    });
                }
            }
            Call::Update { key, .. } if !is_refused(found) => self.make_void(*key, "updated"),
            Call::Withdraw { key } if !is_refused(found) => self.make_void(*key, "withdrawn"),
            // Stored, 5, 6 or 9: the host is done with it.
            Call::Fill { key, ticket, .. } if found > 4 => {
                let own = |fetch: &Fetch| (fetch.key, fetch.ticket) == (*key, *ticket);
                self.open.retain(|fetch| !own(fetch));
            }
            _ => {}
        }
    }

    /// The tickets told for this key are void.
    fn make_void(&mut self, key: u64, by: &'static str) {
        for fetch in self.open.iter_mut().filter(|fetch| fetch.key == key) {
            fetch.void = Some(by);
        }
    }

    /// Judges a fill by its fetch, if there is one: where the call before told the ticket, it must
    /// be stored, and where it is late, it must not be. Gives the name of what it came to.
    fn judge(&self, at: u64, call: &Call, found: u64) -> Result<Option<String>, String> {
        let Call::Fill { key, ticket, .. } = call else {
            return Ok(None);
        };
        let own = |fetch: &&Fetch| (fetch.key, fetch.ticket) == (*key, *ticket);
        let Some(fetch) = self.open.iter().find(own) else {
            return Ok(None);
        };
        let just_told = at == fetch.last + 1;
        let mut name = match (found, fetch.void, fetch.retold) {
            (1..=4, ..) => return Ok(None),
            (103, None, false) if at == fetch.first + 1 => "fill in time: at once".to_string(),
            (103, None, false) if just_told && fetch.look => {
                "fill in time: told again by a look".to_string()
            }
            (103, None, false) => "fill in time: after other calls".to_string(),
            (5 | 6 | 9, Some(by), _) => format!("late fill, {by}: {found}"),
            (5 | 6 | 9, None, true) => format!("late fill, line retaken: {found}"),
            // A guessed ticket has filled the line.
            (6, None, false) if !just_told => return Ok(None),
            (5 | 9, None, false) if !just_told => format!("late fill, line lost: {found}"),
            _ => {
                return Err(format!(
                    "{} gave {found}; the ticket was told at calls {} to {}, void since: {:?}, \
                     another told since: {}",
                    call_text(call),
                    fetch.first,
                    fetch.last,
                    fetch.void,
                    fetch.retold
                ))
            }
        };
        if fetch.resized {
            name += if found == 103 {
                ", a resize among them"
            } else {
                ", a resize meanwhile"
            };
        }
        Ok(Some(name))
    }
}

/// When a list ends.
#[derive(Clone, Copy)]
pub enum End {
    /// After this many calls.
    Calls(u64),
    /// After this many reads that aged first.
    AgedFirst(u64),
}

/// Runs one list. Stops at the first difference and at the first clause that does not hold. Gives
/// the number of its calls.
pub fn run(
    seed: u64,
    number: u64,
    plan: &Plan,
    end: End,
    model: &Model,
    counts: &mut Counts,
) -> Result<u64, String> {
    // At most 65,538 reads of 65,535 come to an aging; about half of the calls are such reads.
    const MOST_CALLS_TO_AN_AGING: u64 = 200_000;
    let most = match end {
        End::Calls(calls) => calls,
        End::AgedFirst(agings) => agings * MOST_CALLS_TO_AN_AGING,
    };
    let (part, group) = match end {
        _ if plan.resizes > 0 => (11, 'j'),
        End::Calls(_) => (3, 'b'),
        End::AgedFirst(_) => (4, 'c'),
    };
    let mut random = Random::new(seed, part, number);
    let memory = Memory::dirty(plan.k, plan.c, &mut random);
    let mut both = Both::new(model, memory);
    let mut replay = Replay::new(plan.k);
    let mut aged_first = 0;
    let at_call = |at: &str, text: String| {
        format!(
            "seed {seed}, list {number} of group ({group}), K = {}, C = {}, {at}: {text}",
            plan.k, plan.c
        )
    };
    both.call(&Call::Fresh, &mut random, &mut Path::new())
        .map_err(|text| at_call("start", text))?;

    let mut keys = vec![0, u64::MAX];
    while keys.len() < plan.classes {
        keys.push(random.next());
    }
    let mut fetches = Fetches::default();
    let mut withdrawn = BTreeSet::new();
    let mut resizing = Resizing::default();
    for at in 0..most {
        if let End::AgedFirst(agings) = end {
            if aged_first >= agings {
                return Ok(at);
            }
        }
        if resizing.is_due(plan, &mut random) {
            // A fresh would begin the way to L again.
            if matches!(end, End::Calls(_)) && random.chance(4) {
                resizing
                    .fresh(&mut both, &mut replay, &mut random, counts)
                    .map_err(|text| at_call(&format!("call {at}, a fresh"), text))?;
                (fetches, withdrawn) = (Fetches::default(), BTreeSet::new());
                continue;
            }
            let done = resizing
                .resize(plan, model, &mut both, &mut replay, &mut random, counts)
                .map_err(|text| at_call(&format!("call {at}, a resize"), text))?;
            if done {
                for fetch in &mut fetches.open {
                    fetch.resized = true;
                }
            }
            continue;
        }
        let refuse = !plan.reads_only && random.chance(4);
        let before = gauge_of(both.librarys.gauge.bytes());
        let serial = before.2;
        let (call, lengths) = if refuse {
            refused_call(&keys, &both.librarys, &mut random)
        } else {
            let so_far = (replay.total, serial);
            let call = next_call(plan, at, &keys, so_far, &fetches, &mut random);
            (call, None)
        };
        let at_call = |text: String| at_call(&format!("call {at}"), text);

        // "A refused call may be lent anything": here the same memory with a wrong length.
        let whole = lengths.map(|lengths| both.set_lengths(lengths));
        let mut path = Path::new();
        let found = both.call(&call, &mut random, &mut path).map_err(at_call)?;
        let told = if found >= 4_000 { both.told() } else { 0 };
        if let Some(whole) = whole {
            both.set_lengths(whole);
        }
        // The replay looks at the bound of the model's sum; so the library's must be the same.
        both.call(&Call::LevelledSum, &mut random, &mut Path::new())
            .map_err(at_call)?;

        let refused = is_refused(found);
        if refuse && !refused {
            let text = call_text(&call);
            return Err(at_call(format!(
                "{text} was to be refused, and gave {found}"
            )));
        }
        if !refused {
            count_withdrawn(&call, &path, &replay, &mut withdrawn, counts);
        }
        replay.feed(&call, refused, serial);
        let (table, gauge, lines) = both.librarys.three();
        let after = gauge_of(gauge);
        let clauses = replay.compare(table, gauge, lines);
        let clauses = clauses.and_then(|()| gauge_moves(&call, refused, before, after));
        clauses.map_err(|text| {
            let (total, ceiling, serial) = after;
            at_call(format!(
                "demand 3 after {}: {text} (total {total}, ceiling {ceiling}, serial {serial})",
                call_text(&call)
            ))
        })?;
        let fetched = fetches.judge(at, &call, found).map_err(at_call)?;
        fetches.note(at, &call, found, told);
        if plan.resizes > 0 {
            resizing.note(&call, found, &path, &both, &replay, counts);
        }

        counts.add(answer_name(&call, found));
        for step in path {
            if step == "read 1: aged first" {
                aged_first += 1;
            }
            counts.add(step);
        }
        if let Some(name) = fetched {
            counts.add(&name);
        }
    }
    match end {
        End::Calls(_) => Ok(most),
        End::AgedFirst(_) => Err(format!(
            "seed {seed}, list {number} of group ({group}): only {aged_first} reads aged first in \
             {most} calls"
        )),
    }
}

/// What a list's resizes and fresh starts so far came to, for counting.
#[derive(Default)]
struct Resizing {
    /// The call before was a resize that was done.
    just_resized: bool,
    /// The call before was a fresh in the list.
    just_fresh: bool,
    /// There was such a resize since the last fresh.
    resized: bool,
    /// A fresh followed a resize that was done, and no other resize was done since.
    fresh_again: bool,
    /// Classes that left in a resize since the last fresh.
    left: BTreeSet<u64>,
}

impl Resizing {
    /// Whether a resize comes next, or a fresh in place of one. Many come right after a fresh.
    fn is_due(&mut self, plan: &Plan, random: &mut Random) -> bool {
        let just_fresh = std::mem::take(&mut self.just_fresh);
        plan.resizes > 0 && (random.below(1_000) < plan.resizes || just_fresh && random.chance(30))
    }

    /// A fresh in a list begins another one, on the table as it is now.
    fn fresh(
        &mut self,
        both: &mut Both,
        replay: &mut Replay,
        random: &mut Random,
        counts: &mut Counts,
    ) -> Result<(), String> {
        both.call(&Call::Fresh, random, &mut Path::new())?;
        let fewest = replay.fewest;
        replay.feed(&Call::Fresh, false, 0);
        let (table, gauge, lines) = both.librarys.three();
        replay.compare(table, gauge, lines)?;
        counts.add_if(
            "fresh after a resize: the smallest K grows",
            replay.fewest > fewest,
        );
        *self = Resizing {
            just_fresh: true,
            fresh_again: self.resized || self.fresh_again,
            ..Resizing::default()
        };
        Ok(())
    }

    /// Resizes the list's table, gauge and lines, so that the target stands in their place; or has
    /// a resize refused. Gives whether one was done.
    fn resize<'a>(
        &mut self,
        plan: &Plan,
        model: &'a Model,
        both: &mut Both<'a>,
        replay: &mut Replay,
        random: &mut Random,
        counts: &mut Counts,
    ) -> Result<bool, String> {
        let (table, _, lines) = both.librarys.three();
        let (k, c) = (table.len() / RECORD_BYTES, lines.len() / LINE_BYTES);
        let (to_k, to_c) = next_size(plan, (k, c), random);
        let mut target = Both::new(model, Memory::dirty(to_k, to_c, random));
        if random.chance(25) {
            refused_resize(model, both, &mut target, random, counts)?;
            let (table, gauge, lines) = both.librarys.three();
            replay.compare(table, gauge, lines)?;
            return Ok(false);
        }

        let lines_before = target.librarys.lines.bytes().to_vec();
        let mut path = Path::new();
        let found = harness::resize(both, &mut target, &mut path)?;
        if found != 0 {
            return Err(format!("returned {found}, and 0 is due"));
        }
        let (source, three) = (both.librarys.three(), target.librarys.three());
        promised(source, &lines_before, three)?;
        let (before, after) = (records_of(source.0), records_of(three.0));
        let fewest = replay.fewest;
        replay.resized(to_k);
        replay.compare(three.0, three.1, three.2)?;
        // The sum over all K is compared with the model's. It has no bound after a resize up.
        target.call(&Call::LevelledSum, random, &mut Path::new())?;

        let fresh = before.iter().all(|r| r.is_free()) && replay.total == 0;
        for (name, holds) in [
            ("resize up", to_k > k && to_c > c),
            ("resize down", to_k < k && to_c < c),
            ("resize to the same size", (to_k, to_c) == (k, c)),
            ("resize to the same K", to_k == k && to_c != c),
            (
                "resize to more records and fewer lines",
                to_k > k && to_c < c,
            ),
            (
                "resize to fewer records and more lines",
                to_k < k && to_c > c,
            ),
            ("resize to K 1", to_k == 1 && k > 1),
            ("resize from K 1", to_k > 1 && k == 1),
            ("resize to C 0", to_c == 0 && c > 0),
            ("resize from C 0", to_c > 0 && c == 0),
            ("resize to K 1,024", to_k == 1_024),
            ("resize from K 1,024 to K 1", k == 1_024 && to_k == 1),
            (
                "resize to twice K and C",
                c > 0 && (to_k, to_c) == (2 * k, 2 * c),
            ),
            (
                "resize to half of K and C",
                c > 1 && (to_k, to_c) == (k.div_ceil(2), c / 2),
            ),
            ("resize of a fresh table", fresh),
            ("resize below the smallest K since fresh", to_k < fewest),
            (
                "resize above the smallest K since fresh",
                to_k > fewest && k != fewest,
            ),
            ("right after a resize: resize 0", self.just_resized),
            (
                "fresh after a resize: the next resize down",
                self.fresh_again && to_k < k,
            ),
        ] {
            counts.add_if(name, holds);
        }
        for step in path {
            counts.add(step);
        }
        let stays = |key| after.iter().any(|r| !r.is_free() && r.key == key);
        if before.len() <= 64 {
            let tracked = before.iter().filter(|r| !r.is_free());
            self.left
                .extend(tracked.map(|r| r.key).filter(|key| !stays(*key)));
        }
        (self.just_resized, self.resized, self.fresh_again) = (true, true, false);
        *both = target;
        Ok(true)
    }

    /// Counts what a call came to after a resize.
    fn note(
        &mut self,
        call: &Call,
        found: u64,
        path: &Path,
        both: &Both,
        replay: &Replay,
        counts: &mut Counts,
    ) {
        if std::mem::take(&mut self.just_resized) {
            let answer = answer_name(call, found);
            counts.add(&format!("right after a resize: {answer}"));
        }
        if !self.resized || is_refused(found) {
            return;
        }
        let aged = matches!(call, Call::Age) || path.contains(&"read 1: aged first");
        counts.add_if("after a resize: an aging", aged);
        if let Call::Read { key, weight: 1.. } = call {
            let back = self.left.remove(key);
            counts.add_if("after a resize: a class that left comes back", back);
        }
        let (table, gauge, _) = both.librarys.three();
        let records = records_of(table);
        let (total, ceiling, _) = gauge_of(gauge);
        let (k, total) = (records.len() as u128, u128::from(total));
        counts.add_if(
            "after a resize: levelled sum of all K over the total",
            levelled_sum(&records, ceiling) > total,
        );
        counts.add_if(
            "after a resize: K x ceiling over the total",
            k * u128::from(ceiling) > total,
        );
        counts.add_if(
            "after a resize: levelled sum of the smallest K at the total",
            total > 0 && ceiling > 0 && largest_levels(&records, ceiling, replay.fewest) == total,
        );
    }
}

/// K and C for the next resize.
fn next_size(plan: &Plan, (k, c): (usize, usize), random: &mut Random) -> (usize, usize) {
    match random.below(20) {
        0..=1 => (k, c),
        2 => (k, random.place(k)),
        3 => (1, 0),
        // From many to one.
        7..=8 if k == MOST_RECORDS => (1, 0),
        4 => {
            // One more or less of each.
            let k = (k + random.place(3)).clamp(2, MOST_RECORDS + 1) - 1;
            let c = (c + random.place(3)).clamp(1, k) - 1;
            (k, c)
        }
        // As the end of an epoch has it.
        5 if 2 * k <= MOST_RECORDS => (2 * k, 2 * c),
        6 if c > 1 => (k.div_ceil(2), c / 2),
        _ => random.pick(plan.sizes),
    }
}

/// A resize that is refused: of the list's own memory, or of a copy of it that is not in order or
/// has no serial left, into another or into the list's own. The number must be the one that is due.
fn refused_resize<'a>(
    model: &'a Model,
    both: &mut Both<'a>,
    target: &mut Both<'a>,
    random: &mut Random,
    counts: &mut Counts,
) -> Result<(), String> {
    let lengths = |both: &Both| {
        let (table, gauge, lines) = both.librarys.three();
        [table.len(), gauge.len(), lines.len(), 8]
    };
    let number = random.pick(&[1, 3, 10]);
    let (name, found) = if number == 1 && random.chance(80) {
        let of_source = random.chance(50);
        let wrong = if of_source { &*both } else { &*target };
        let mut wrong = lengths(wrong);
        let at = random.place(3);
        let choices = [
            [0, wrong[0] - 1, wrong[0] + 1],
            [0, 23, 25],
            [wrong[2] + 1, wrong[2] + 63, wrong[2] + 32],
        ];
        wrong[at] = random.pick(&choices[at]);
        let whole = if of_source {
            both.set_lengths(wrong)
        } else {
            target.set_lengths(wrong)
        };
        let found = harness::resize(both, target, &mut Path::new())?;
        let of = if of_source {
            both.set_lengths(whole);
            "source"
        } else {
            target.set_lengths(whole);
            "target"
        };
        (format!("{of} {}", ["table", "gauge", "lines"][at]), found)
    } else {
        let mut memory = both.librarys.clone();
        let (total, ceiling, serial) = gauge_of(memory.gauge.bytes());
        match number {
            1 => memory.gauge.set_len(random.pick(&[0, 16, GAUGE_BYTES - 1])),
            3 if random.chance(50) => {
                let (total, ceiling) = random.pick(&[(L + 1, ceiling), (total, total + 1)]);
                put_gauge(memory.gauge.bytes_mut(), total, ceiling, serial);
            }
            3 => {
                let mut records = records_of(memory.table.bytes());
                let place = random.place(records.len());
                (records[place].state, records[place].ticket) = (TRACKED, 1 + serial);
                put_records(memory.table.bytes_mut(), &records);
            }
            _ => {
                let serial = random.pick(&[SERIAL_LIMIT, SERIAL_LIMIT + serial, u64::MAX]);
                put_gauge(memory.gauge.bytes_mut(), total, ceiling, serial);
            }
        }
        let mut other = Both::new(model, memory);
        let own = number == 1 || random.chance(50);
        let into = if own { both } else { target };
        let found = harness::resize(&mut other, into, &mut Path::new())?;
        let name = if own {
            "into the list's own"
        } else {
            "another source"
        };
        (name.to_string(), found)
    };
    if found != number {
        return Err(format!("{name} returned {found}, and {number} is due"));
    }
    counts.add(&format!("resize refused {number}: {name}"));
    Ok(())
}

/// The serial never falls. An accepted read over 0, update or withdrawal gives at most one ticket,
/// and no other call gives any. "a withdrawal leaves the ceiling", and the total.
fn gauge_moves(
    call: &Call,
    refused: bool,
    before: (u64, u64, u64),
    after: (u64, u64, u64),
) -> Result<(), String> {
    let most = match call {
        Call::Read { weight: 0, .. } => 0,
        Call::Read { .. } | Call::Update { .. } | Call::Withdraw { .. } if !refused => 1,
        _ => 0,
    };
    if after.2 < before.2 || after.2 > before.2 + most {
        return Err(format!("the serial went from {} to {}", before.2, after.2));
    }
    let stays = (before.0, before.1) == (after.0, after.1);
    if matches!(call, Call::Withdraw { .. }) && !stays {
        return Err(format!("the gauge went from {before:?} to {after:?}"));
    }
    Ok(())
}

/// Counts an accepted withdrawal by its class's true heat before it, and the first read after it.
fn count_withdrawn(
    call: &Call,
    path: &Path,
    replay: &Replay,
    withdrawn: &mut BTreeSet<u64>,
    counts: &mut Counts,
) {
    match call {
        Call::Withdraw { key } => {
            withdrawn.insert(*key);
            let name = if path.contains(&"withdraw: untracked") {
                "withdrawn, untracked: true heat over 0"
            } else {
                "withdrawn: true heat over 0"
            };
            counts.add_if(name, replay.true_heat(*key) > 0);
        }
        Call::Read { key, weight } if *weight > 0 && withdrawn.remove(key) => {
            counts.add("withdrawn class read again");
            counts.add_if(
                "withdrawn class read again: free record, ceiling over 0",
                path.contains(&"read 3: free record, ceiling over 0"),
            );
        }
        _ => {}
    }
}

/// A class; low numbers come more often, and which classes these are moves on slowly.
fn some_class(at: u64, keys: &[u64], random: &mut Random) -> u64 {
    let count = keys.len() as u64;
    let low = random
        .below(count)
        .min(random.below(count))
        .min(random.below(count));
    keys[((low + at / 700) % count) as usize]
}

/// The next call of the list, whose true total and serial so far are given.
fn next_call(
    plan: &Plan,
    at: u64,
    keys: &[u64],
    (total, serial): (u64, u64),
    fetches: &Fetches,
    random: &mut Random,
) -> Call {
    if let Some(last) = fetches.open.last() {
        // The host fetches the picture and fills, and at times does not come to it, or comes late.
        if random.chance(if plan.contest { 8 } else { 40 }) {
            let some = random.pick(&fetches.open);
            let Fetch { key, ticket, .. } = match random.below(3) {
                0..=1 if !plan.contest => *last,
                _ => some,
            };
            let picture = random.bytes(64);
            return Call::Fill {
                key,
                picture,
                ticket,
            };
        }
        // Something comes in between: a read, a look, the update or the withdrawal of a class that
        // is fetched.
        let key = random.pick(&fetches.open).key;
        match random.below(100) {
            0..=5 => return Call::Read { key, weight: 0 },
            6..=8 => {
                let weight = plan.least;
                return Call::Read { key, weight };
            }
            9..=12 if !plan.reads_only => return Call::Update { key, weight: 1 },
            13..=15 if !plan.reads_only => return Call::Withdraw { key },
            _ => {}
        }
    }
    let key = if plan.contest {
        random.pick(keys)
    } else {
        some_class(at, keys, random)
    };
    // Many looks where a read of 65,535 ages first.
    let looks = if total + MOST_WEIGHT > L { 90 } else { 11 };
    if random.chance(looks) {
        return Call::Read { key, weight: 0 };
    }
    let weight = match random.below(10) {
        _ if plan.least == plan.weight => plan.weight,
        0 if !plan.contest => random.between(plan.least, plan.weight.max(300)),
        1..=3 => plan.least,
        _ => random.between(plan.least, plan.weight),
    };
    if random.below(1_000) < plan.agings {
        return Call::Age;
    }
    if plan.reads_only {
        return Call::Read { key, weight };
    }
    match random.below(100) {
        0..=13 => Call::Update {
            key,
            weight: match random.below(4) {
                0 => MOST_WEIGHT,
                1 => random.between(1, 3),
                _ => weight,
            },
        },
        // A ticket that the host was not told for this class.
        14..=22 => Call::Fill {
            key,
            picture: random.bytes(64),
            ticket: match random.below(4) {
                0 => 0,
                1 => serial + 1,
                2 => serial,
                _ => random.between(0, serial),
            },
        },
        23..=25 => Call::Withdraw { key },
        _ => Call::Read { key, weight },
    }
}

/// A call that is refused, with the lengths to lend if these are its cause.
fn refused_call(keys: &[u64], memory: &Memory, random: &mut Random) -> (Call, Option<[usize; 4]>) {
    let key = random.pick(keys);
    let ticket = random.pick(&records_of(memory.table.bytes())).ticket;
    let (table, lines) = (memory.table.bytes().len(), memory.lines.bytes().len());
    let over = random.pick(&[MOST_WEIGHT + 1, u64::MAX]);
    match random.below(7) {
        0 => (Call::Read { key, weight: over }, None),
        1 => {
            let weight = random.pick(&[0, over]);
            (Call::Update { key, weight }, None)
        }
        2 => {
            let picture = vec![7; random.pick(&[0, 63, 65])];
            let call = Call::Fill {
                key,
                picture,
                ticket,
            };
            (call, None)
        }
        3 => {
            let weight = random.pick(&[0, 1]);
            let ticket_bytes = random.pick(&[0, 7, 9]);
            let lengths = [table, 24, lines, ticket_bytes];
            (Call::Read { key, weight }, Some(lengths))
        }
        _ => {
            let call = match random.below(8) {
                0 => Call::Read { key, weight: 1 },
                1 => Call::Read { key, weight: 0 },
                2 => Call::Update { key, weight: 1 },
                3 => Call::Fill {
                    key,
                    picture: vec![7; 64],
                    ticket,
                },
                4 => Call::Withdraw { key },
                5 => Call::Age,
                6 => Call::Fresh,
                _ => Call::LevelledSum,
            };
            let lengths = random.pick(&[
                [table - 1, 24, lines, 8],
                [table + 1, 24, lines, 8],
                [0, 24, lines, 8],
                [table, 23, lines, 8],
                [table, 25, lines, 8],
                [table, 16, lines, 8],
                [table, 0, lines, 8],
                [table, 24, lines + 1, 8],
                [table, 24, lines + 63, 8],
            ]);
            (call, Some(lengths))
        }
    }
}
