//! Runs the program `replay` on journals made here, and compares everything that it prints with what
//! the documents' rules say (the model of tests/compare). Every run has a time limit. Argument: the
//! program's path. Stops at the first failure.

#[allow(dead_code)]
#[path = "../compare/model.rs"]
mod model;
#[allow(dead_code)]
#[path = "../compare/random.rs"]
mod random;

use model::{Answer, Call, Model};
use random::Random;
use std::io::{self, Read, Write};
use std::process::{exit, ChildStdin, ChildStdout, Command, ExitStatus, Stdio};
use std::sync::{mpsc, Arc};
use std::thread;
use std::time::{Duration, Instant};

/// Document 02: "in records of 88 bytes".
const ENTRY_BYTES: usize = 88;
/// The program reads its input in pieces of whole records; this many fit into 64 KiB.
const PIECE_RECORDS: usize = 744;
/// A run that takes longer is ended, and has failed.
const LIMIT: Duration = Duration::from_secs(60);

/// A record of the journal, as document 01's section on the journal lays it out. Document 02: "the
/// journal keeps a fill's ticket in bytes 80 to 87, zero otherwise".
fn entry(kind: u8, key: u64, weight: u64, picture: &[u8; 64], ticket: u64) -> Vec<u8> {
    let mut bytes = vec![kind, 0];
    bytes.extend_from_slice(&(weight as u16).to_le_bytes());
    bytes.extend_from_slice(&[0; 4]);
    bytes.extend_from_slice(&key.to_le_bytes());
    bytes.extend_from_slice(picture);
    bytes.extend_from_slice(&ticket.to_le_bytes());
    bytes
}

fn read(key: u64, weight: u64) -> Vec<u8> {
    entry(1, key, weight, &[0; 64], 0)
}

fn update(key: u64, weight: u64) -> Vec<u8> {
    entry(2, key, weight, &[0; 64], 0)
}

fn fill(key: u64, ticket: u64) -> Vec<u8> {
    entry(3, key, 0, &[9; 64], ticket)
}

fn age() -> Vec<u8> {
    entry(4, 0, 0, &[0; 64], 0)
}

/// Document 02: "The journal kind is 5, in the form of an aging but with the key."
fn withdraw(key: u64) -> Vec<u8> {
    entry(5, key, 0, &[0; 64], 0)
}

/// What a whole record asks for, or none where it is "of unknown form".
fn call_of(record: &[u8]) -> Option<Call> {
    let weight = u64::from(record[2]) + 256 * u64::from(record[3]);
    let key = model::number_at(record, 8);
    let picture = record[16..80].to_vec();
    let ticket = model::number_at(record, 80);
    let blank = picture.iter().all(|&byte| byte == 0) && ticket == 0;
    if record[1] != 0 || record[4..8].iter().any(|&byte| byte != 0) {
        return None;
    }
    match record[0] {
        1 if blank => Some(Call::Read { key, weight }),
        2 if blank => Some(Call::Update { key, weight }),
        3 if weight == 0 => Some(Call::Fill {
            key,
            picture,
            ticket,
        }),
        4 if weight == 0 && blank && key == 0 => Some(Call::Age),
        5 if weight == 0 && blank => Some(Call::Withdraw { key }),
        _ => None,
    }
}

/// "the answer's word without its line number (or `refused-` and the number)"
fn word(answer: Answer) -> String {
    match answer {
        Answer::Refused(number) => format!("refused-{number}"),
        Answer::Done => "done".into(),
        Answer::Aged => "aged".into(),
        Answer::Changed => "changed".into(),
        Answer::Unknown => "unknown".into(),
        Answer::Stored => "stored".into(),
        Answer::Passed => "passed".into(),
        Answer::Hit(_) => "hit".into(),
        Answer::Wanted(..) => "wanted".into(),
        Answer::Withdrawn => "withdrawn".into(),
        Answer::Grow | Answer::Shrink | Answer::Age | Answer::Stay => {
            unreachable!("no record of a journal ends an epoch")
        }
    }
}

/// The cache of the program: it "starts fresh with K = 3, C = 1".
struct Cache {
    table: [u8; 3 * model::RECORD_BYTES],
    gauge: [u8; model::GAUGE_BYTES],
    lines: [u8; model::LINE_BYTES],
}

impl Cache {
    fn fresh() -> Cache {
        Cache {
            table: [0; 3 * model::RECORD_BYTES],
            gauge: [0; model::GAUGE_BYTES],
            lines: [0; model::LINE_BYTES],
        }
    }

    /// What a record of the journal, or its short end, comes to.
    fn answer(&mut self, record: &[u8]) -> Answer {
        if record.len() < ENTRY_BYTES {
            return Answer::Refused(8);
        }
        let Some(call) = call_of(record) else {
            return Answer::Refused(7);
        };
        let mut ticket = [0; model::TICKET_BYTES];
        let lent = [
            &mut self.table[..],
            &mut self.gauge,
            &mut self.lines,
            &mut [],
            &mut ticket,
        ];
        Model::default().call(lent, &call, &mut Vec::new())
    }
}

/// What the program must print. Document 02: "Printed rows keep their form".
fn expected(journal: &[u8]) -> String {
    let mut cache = Cache::fresh();
    let mut text = String::new();
    for (i, record) in journal.chunks(ENTRY_BYTES).enumerate() {
        let answer = cache.answer(record);
        let (total, ceiling, _) = model::gauge_of(&cache.gauge);
        text.push_str(&format!("{} {} {total} {ceiling}\n", i + 1, word(answer)));
    }
    text
}

/// What a run came to.
struct Run {
    status: ExitStatus,
    fed: io::Result<()>,
    taken: Vec<u8>,
}

/// Runs the program. It is fed, and its output taken, by threads of their own: neither pipe can then
/// hold up the other, or the time limit.
fn run(
    mut program: Command,
    feed: impl FnOnce(ChildStdin) -> io::Result<()> + Send + 'static,
    take: impl FnOnce(ChildStdout) -> Vec<u8> + Send + 'static,
) -> Result<Run, String> {
    let end = Instant::now() + LIMIT;
    let late = |what: &str| format!("{what} within {} s", LIMIT.as_secs());
    let mut child = program
        .stdin(Stdio::piped())
        .stdout(Stdio::piped())
        .spawn()
        .map_err(|error| format!("the program does not start: {error}"))?;
    let input = child.stdin.take().expect("a pipe to the program");
    let output = child.stdout.take().expect("a pipe from the program");
    let (feeds, fed) = mpsc::channel();
    let (takes, taken) = mpsc::channel();
    thread::spawn(move || feeds.send(feed(input)));
    thread::spawn(move || takes.send(take(output)));

    let status = loop {
        if let Some(status) = child.try_wait().expect("the state of the program") {
            break status;
        }
        if Instant::now() >= end {
            child.kill().expect("the program can be ended");
            child.wait().expect("the program has ended");
            return Err(late("killed: the program did not end by itself"));
        }
        thread::sleep(Duration::from_millis(2));
    };
    let left = || end.saturating_duration_since(Instant::now());
    Ok(Run {
        status,
        fed: fed
            .recv_timeout(left())
            .map_err(|_| late("the program's input was not closed"))?,
        taken: taken
            .recv_timeout(left())
            .map_err(|_| late("the program's output was not closed"))?,
    })
}

/// A journal and how it is fed and judged.
struct Case {
    name: &'static str,
    journal: Arc<[u8]>,
    /// The sizes of the pieces that are written into the pipe, in turn.
    pieces: &'static [usize],
    /// What the first rows must be, letter by letter.
    begins: &'static str,
    /// Answers' words that must come.
    words: &'static [&'static str],
    /// Whether a total must be smaller than the one in the row before.
    ages: bool,
}

/// A case that is written in one piece.
fn case(name: &'static str, journal: Vec<u8>) -> Case {
    Case {
        name,
        journal: journal.into(),
        pieces: &[1 << 30],
        begins: "",
        words: &[],
        ages: false,
    }
}

/// Runs the program on the journal. Gives the number of rows, all as they should be.
fn check(program: &str, case: &Case) -> Result<usize, String> {
    let (journal, pieces) = (case.journal.clone(), case.pieces);
    let feed = move |mut input: ChildStdin| {
        let mut rest = &journal[..];
        for size in pieces.iter().cycle() {
            if rest.is_empty() {
                break;
            }
            let (piece, after) = rest.split_at((*size).min(rest.len()));
            input.write_all(piece)?;
            input.flush()?;
            rest = after;
        }
        Ok(())
    };
    let take = |mut output: ChildStdout| {
        let mut text = Vec::new();
        output.read_to_end(&mut text).expect("what is printed");
        text
    };
    let run = run(Command::new(program), feed, take)?;

    let should = expected(&case.journal);
    let does = String::from_utf8_lossy(&run.taken);
    let rows = should.lines().count();
    if should != does {
        let first = should.lines().zip(does.lines()).find(|(a, b)| a != b);
        return Err(format!(
            "{rows} rows are due and {} came, first difference {first:?}",
            does.lines().count()
        ));
    }
    if !does.starts_with(case.begins) {
        return Err(format!("the rows do not begin with {:?}", case.begins));
    }
    for word in case.words {
        if !does.lines().any(|row| row.split(' ').nth(1) == Some(word)) {
            return Err(format!("no row has the word {word}"));
        }
    }
    if case.ages && !some_total_falls(&does) {
        return Err("no total is smaller than the one before".into());
    }
    if let Err(error) = run.fed {
        return Err(format!("the program did not read on: {error}"));
    }
    if !run.status.success() {
        return Err(format!("the program ended with {}", run.status));
    }
    Ok(rows)
}

fn some_total_falls(rows: &str) -> bool {
    let total = |row: &str| -> u64 {
        let word = row.split(' ').nth(2).expect("a total");
        word.parse().expect("a number")
    };
    let totals: Vec<u64> = rows.lines().map(total).collect();
    totals.windows(2).any(|pair| pair[1] < pair[0])
}

/// The journal is fed again and again, and nobody takes the output after its first bytes. What the
/// program could still print is lost, so it must end by itself, by a signal or not. Gives how.
fn output_closed(program: Command, journal: Arc<[u8]>) -> Result<ExitStatus, String> {
    let due = expected(&journal).into_bytes()[..1_000].to_vec();
    let feed = move |mut input: ChildStdin| loop {
        // Fails when the program is no longer there to read.
        input.write_all(&journal)?;
    };
    let take = |output: ChildStdout| {
        let mut some = Vec::new();
        let mut first = output.take(1_000);
        first.read_to_end(&mut some).expect("what is printed");
        some
    };
    let run = run(program, feed, take)?;
    if run.taken != due {
        return Err("the first rows are other ones".into());
    }
    Ok(run.status)
}

/// The words of a mixed journal.
const MIXED: &[&str] = &[
    "hit",
    "wanted",
    "passed",
    "changed",
    "unknown",
    "stored",
    "aged",
    "withdrawn",
    "refused-2",
    "refused-5",
    "refused-6",
    "refused-7",
    "refused-9",
];

/// A mixed journal: calls of few keys, and records of unknown form among them. Most fills bring the
/// ticket that was told last, some an older one or another.
fn mixed(random: &mut Random, records: usize) -> Vec<u8> {
    let mut journal = Vec::new();
    let mut cache = Cache::fresh();
    let mut told = vec![(0, 0)];
    for _ in 0..records {
        let key = random.pick(&[0, 1, 2, 3, 4, u64::MAX]);
        let weight = random.pick(&[0, 1, 1, 2, 3, 500, 65_535]);
        let mut picture = [0; 64];
        picture.copy_from_slice(&random.bytes(64));
        let mut record = match random.below(11) {
            0..=4 => read(key, weight),
            5 => update(key, weight),
            6..=8 => {
                let (key, ticket) = match random.below(10) {
                    0..=5 => told[told.len() - 1],
                    6..=7 => random.pick(&told),
                    8 => (key, 0),
                    _ => (key, random.pick(&told).1 + 1),
                };
                entry(3, key, 0, &picture, ticket)
            }
            9 => withdraw(key),
            _ => age(),
        };
        if random.chance(10) {
            let place = random.place(ENTRY_BYTES);
            record[place] = random.next() as u8;
        }
        if let Answer::Wanted(_, ticket) = cache.answer(&record) {
            told.push((model::number_at(&record, 8), ticket));
            if told.len() > 8 {
                told.remove(0);
            }
        }
        journal.extend(record);
    }
    journal
}

/// Each unknown form of document 01's section and of document 02's Asks 2 and 4, among good
/// records.
fn unknown_forms() -> Vec<u8> {
    let mut forms = read(5, 3);
    for (place, byte) in [
        (0, 0),
        (0, 5),
        (0, 6),
        (0, 255),
        (1, 1),
        (4, 1),
        (7, 1),
        (16, 1),
        (79, 1),
    ] {
        let mut record = read(5, 1);
        record[place] = byte;
        forms.extend(record);
        forms.extend(read(5, 1));
    }
    // A ticket in a record that is no fill, in each of its bytes.
    for good in [read(5, 1), read(5, 0), update(5, 1), age()] {
        for place in 80..88 {
            let mut record = good.clone();
            record[place] = 1 << (place % 8);
            forms.extend(record);
        }
        forms.extend(read(5, 1));
    }
    // A withdrawal with something in each byte that is not the kind's or the key's.
    for place in (1..8).chain(16..ENTRY_BYTES) {
        let mut record = withdraw(5);
        record[place] = 1 << (place % 8);
        forms.extend(record);
    }
    // An aging with something in each byte of the key, and a kind above the last.
    for place in 8..16 {
        let mut record = age();
        record[place] = 1 << (place % 8);
        forms.extend(record);
    }
    forms.extend(entry(6, 5, 0, &[0; 64], 0));
    forms.extend(read(5, 1));
    // The ticket that is told, in records that are no fill of it.
    forms.extend(entry(1, 5, 1, &[9; 64], 1));
    forms.extend(entry(0, 5, 0, &[9; 64], 1));
    forms.extend(entry(3, 5, 1, &[9; 64], 1));
    forms.extend(entry(3, 5, 256, &[9; 64], 1));
    forms.extend(entry(4, 0, 1, &[0; 64], 0));
    forms.extend(entry(4, 0, 0, &[1; 64], 0));
    forms.extend(fill(5, 1));
    forms.extend(read(5, 0));
    forms.extend(update(5, 0));
    forms.extend(withdraw(5));
    forms
}

/// Document 01's sample with document 02's tickets: "row 2 of the sample brings ticket 1".
fn sample() -> Vec<u8> {
    [
        read(5, 3),
        fill(5, 1),
        read(5, 1),
        read(7, 4),
        read(7, 1),
        read(9, 2),
        read(11, 1),
        update(7, 3),
        update(9, 1),
        fill(7, 0),
        age(),
        read(9, 1),
        read(9, 1),
    ]
    .concat()
}

const SAMPLE_ROWS: &str = "1 wanted 3 0\n2 stored 3 0\n3 hit 4 0\n4 passed 8 0\n5 wanted 9 0\n\
                           6 passed 11 0\n7 passed 12 2\n8 changed 12 2\n9 unknown 12 2\n\
                           10 refused-5 12 2\n11 aged 6 1\n12 passed 7 1\n13 wanted 8 1\n";

/// Late fetches: after an update that leaves the line, after a lost line, after a retaken one.
fn late() -> Vec<u8> {
    let mut other = fill(5, 2);
    // Ticket 2 is in the lowest byte alone.
    other[87] = 1;
    [
        read(5, 3),
        update(5, 1),
        fill(5, 1),
        fill(5, 0),
        other,
        fill(5, 2),
        fill(5, 1),
        read(5, 1),
        read(7, 9),
        fill(5, 2),
        update(7, 8),
        fill(7, 3),
        fill(5, 2),
        fill(5, 3),
        fill(5, 4),
        read(5, 0),
    ]
    .concat()
}

const LATE_ROWS: &str = "1 wanted 3 0\n2 changed 3 0\n3 refused-9 3 0\n4 refused-9 3 0\n\
                         5 refused-9 3 0\n6 stored 3 0\n7 refused-6 3 0\n8 hit 4 0\n\
                         9 wanted 13 0\n10 refused-5 13 0\n11 changed 13 0\n12 refused-5 13 0\n\
                         13 refused-9 13 0\n14 refused-9 13 0\n15 stored 13 0\n16 hit 13 0\n";

/// Withdrawals: of untracked keys, of classes with and without a line, a line that becomes unused,
/// late fetches, a key that comes back with the ceiling over 0.
fn withdrawals() -> Vec<u8> {
    [
        withdraw(5),
        read(5, 3),
        fill(5, 1),
        read(7, 2),
        withdraw(5),
        withdraw(5),
        fill(5, 1),
        read(7, 0),
        fill(7, 1),
        fill(7, 2),
        read(5, 1),
        read(9, 1),
        read(11, 1),
        withdraw(11),
        read(11, 2),
        withdraw(11),
        withdraw(9),
        read(7, 0),
        withdraw(7),
        read(0, 0),
        withdraw(0),
        read(9, 1),
    ]
    .concat()
}

const WITHDRAWAL_ROWS: &str =
    "1 unknown 0 0\n2 wanted 3 0\n3 stored 3 0\n4 passed 5 0\n5 withdrawn 5 0\n6 unknown 5 0\n\
     7 refused-5 5 0\n8 wanted 5 0\n9 refused-9 5 0\n10 stored 5 0\n11 passed 6 0\n\
     12 passed 7 0\n13 passed 8 1\n14 withdrawn 8 1\n15 wanted 10 1\n16 withdrawn 10 1\n\
     17 withdrawn 10 1\n18 wanted 10 1\n19 withdrawn 10 1\n20 passed 10 1\n21 unknown 10 1\n\
     22 wanted 11 1\n";

fn cases() -> Vec<Case> {
    let mut random = Random::new(1, 0, 0);

    // Key 0 is a class like any other, and a free record is not its record.
    let key_0 = [update(0, 1), read(0, 2), update(0, 1)].concat();

    // 65,535 pieces a read: the total passes 4,294,967,295 after some 65,537 of them.
    let long: Vec<u8> = (0..70_000).flat_map(|i| read(i % 5, 65_535)).collect();

    // Looks: at nothing, at an empty line, at a filled one, and at a class without a line.
    let looks = [
        read(5, 0),
        read(5, 3),
        read(5, 0),
        fill(5, 1),
        read(5, 0),
        read(7, 1),
        read(7, 0),
    ]
    .concat();

    let mut some = mixed(&mut random, 3_000);
    some.extend_from_slice(&[1, 2, 3]);

    vec![
        case("empty", Vec::new()),
        case("one byte", vec![1]),
        Case {
            begins: "1 refused-8 0 0\n",
            ..case("79 bytes", vec![0; 79])
        },
        Case {
            begins: "1 refused-8 0 0\n",
            ..case("87 bytes", vec![0; 87])
        },
        Case {
            begins: "1 refused-7 0 0\n",
            ..case("88 zero bytes", vec![0; 88])
        },
        Case {
            begins: SAMPLE_ROWS,
            ..case("the sample", sample())
        },
        Case {
            begins: LATE_ROWS,
            ..case("late fetches", late())
        },
        Case {
            begins: "1 unknown 0 0\n",
            ..case("an update of key 0 first", key_0)
        },
        Case {
            begins: "1 passed 0 0\n2 wanted 3 0\n3 wanted 3 0\n4 stored 3 0\n5 hit 3 0\n\
                     6 passed 4 0\n7 passed 4 0\n",
            ..case("looks", looks)
        },
        Case {
            begins: WITHDRAWAL_ROWS,
            ..case("withdrawals", withdrawals())
        },
        case("every unknown form", unknown_forms()),
        Case {
            words: MIXED,
            ..case("mixed, a short end", some.clone())
        },
        Case {
            pieces: &[1, 87, 89, 7, 4_097, 65_521],
            ..case("mixed, in odd pieces", some)
        },
        Case {
            pieces: &[65_472, 65_473, 3],
            ages: true,
            ..case("long enough to age", long)
        },
        Case {
            pieces: &[4_000, 89, 1, 333, 12_347],
            words: MIXED,
            ..case("a million records", mixed(&mut random, 1_000_000))
        },
    ]
}

/// Journals with every short end, "1 to 87 bytes left", and none: alone, after some records, and
/// after about one piece and about three.
fn ends() -> Vec<Case> {
    let journal = mixed(&mut Random::new(1, 0, 2), 3 * PIECE_RECORDS + 2);
    let piece = PIECE_RECORDS * ENTRY_BYTES;
    let mut ends: Vec<usize> = (0..=3 * ENTRY_BYTES).collect();
    for whole in [piece, 3 * piece] {
        ends.extend(whole - ENTRY_BYTES..=whole + ENTRY_BYTES);
    }
    ends.iter()
        .map(|&end| case("ends", journal[..end].to_vec()))
        .collect()
}

fn main() {
    let program = std::env::args().nth(1).expect("the program's path");
    let failed = |name: &str, text: String| -> ! {
        println!("replay, {name}: FAILED: {text}");
        exit(1);
    };
    for case in cases() {
        match check(&program, &case) {
            Ok(rows) => println!("replay, {}: {rows} rows as expected", case.name),
            Err(text) => failed(case.name, text),
        }
    }
    let (mut journals, mut rows) = (0, 0);
    for case in ends() {
        match check(&program, &case) {
            Ok(more) => (journals, rows) = (journals + 1, rows + more),
            Err(text) => failed(&format!("an end at {} bytes", case.journal.len()), text),
        }
    }
    println!("replay, every end: {journals} journals, {rows} rows as expected");

    // By the signal of a closed pipe, and where that is ignored, as in some hosts.
    let mut ignoring = Command::new("sh");
    ignoring.args(["-c", "trap '' PIPE; exec \"$0\"", &program]);
    let journal: Arc<[u8]> = mixed(&mut Random::new(1, 0, 1), 10_000).into();
    for (name, command) in [
        ("output closed", Command::new(&program)),
        ("output closed, its signal ignored", ignoring),
    ] {
        match output_closed(command, journal.clone()) {
            Ok(status) => println!("replay, {name}: ended by itself, {status}"),
            Err(text) => failed(name, text),
        }
    }
}
