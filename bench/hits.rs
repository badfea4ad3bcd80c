//! Hit ratios of the library beside LRU, LFU, ARC, LRU-2 and the perfect cache.
//!
//!   hits [--accesses N] PLOT.svg
//!
//! Prints one Markdown table for each Zipf parameter and writes the plot.
//! Every policy is fed the same accesses, all of them reads. The first
//! WARM_UP are not counted. Only LFU, whose result depends on which keys came
//! first, is given as the mean over many shorter sequences.

use std::collections::BTreeSet;

#[rustfmt::skip]
extern "C" {
    fn cot_read(
        table: *mut u8, table_len: usize, gauge: *mut u8, gauge_len: usize,
        lines: *const u8, lines_len: usize, key: u64, weight: u64,
        ticket: *mut u8, ticket_len: usize,
    ) -> u64;
    fn cot_fill(
        table: *mut u8, table_len: usize, gauge: *const u8, gauge_len: usize,
        lines: *mut u8, lines_len: usize, key: u64, picture: *const u8, picture_len: usize,
        ticket: u64,
    ) -> u64;
}

const KEYS: usize = 100_000;
const WARM_UP: usize = 100_000;
const ACCESSES: usize = 1_000_000;
const LFU_SEQUENCES: u64 = 20;
const LFU_ACCESSES: usize = 100_000;
const ZIPFS: [f64; 3] = [0.9, 0.99, 1.2];
const LINES: [usize; 9] = [2, 4, 8, 16, 32, 64, 128, 256, 512];
const MAX_RECORDS: usize = 1024;

/// A cache that is told of each access. Keys are ranks, 0 the most likely.
trait Policy {
    /// True for a hit.
    fn access(&mut self, key: usize) -> bool;
}

/// The library: a read of weight 1, and a fill where it answers wanted.
struct Library {
    table: Vec<u8>,
    gauge: [u8; 24],
    lines: Vec<u8>,
    /// Of the last read that answered wanted.
    ticket: [u8; 8],
}

#[rustfmt::skip]
impl Library {
    fn new(records: usize, lines: usize) -> Self {
        Library {
            table: vec![0; 40 * records], gauge: [0; 24], lines: vec![0; 64 * lines],
            ticket: [0; 8],
        }
    }

    fn read(&mut self, key: u64) -> u64 {
        // SAFETY: each pointer comes with the length of its own buffer.
        unsafe {
            cot_read(
                self.table.as_mut_ptr(), self.table.len(),
                self.gauge.as_mut_ptr(), self.gauge.len(),
                self.lines.as_ptr(), self.lines.len(),
                key, 1,
                self.ticket.as_mut_ptr(), self.ticket.len(),
            )
        }
    }

    fn fill(&mut self, key: u64, picture: &[u8; 64]) -> u64 {
        // SAFETY: each pointer comes with the length of its own buffer.
        unsafe {
            cot_fill(
                self.table.as_mut_ptr(), self.table.len(),
                self.gauge.as_ptr(), self.gauge.len(),
                self.lines.as_mut_ptr(), self.lines.len(),
                key, picture.as_ptr(), picture.len(),
                u64::from_le_bytes(self.ticket),
            )
        }
    }
}

impl Policy for Library {
    fn access(&mut self, key: usize) -> bool {
        let mut picture = [0; 64];
        picture[..8].copy_from_slice(&(key as u64).to_le_bytes());
        match self.read(key as u64) {
            104 => false,
            answer @ 2000..=3023 => {
                let start = 64 * (answer as usize - 2000);
                assert_eq!(self.lines[start..start + 64], picture, "line of key {key}");
                true
            }
            4000..=5023 => {
                assert_eq!(self.fill(key as u64, &picture), 103, "fill of key {key}");
                false
            }
            answer => panic!("read of key {key} answers {answer}"),
        }
    }
}

/// Disjoint lists of keys in order of use. A key is in one list or in none.
struct Lists {
    /// Neighbours of each key; place KEYS + n is the head of list n.
    newer: Vec<usize>,
    older: Vec<usize>,
    list_of: Vec<Option<usize>>,
    len: Vec<usize>,
}

impl Lists {
    fn new(lists: usize) -> Self {
        Lists {
            newer: (0..KEYS + lists).collect(),
            older: (0..KEYS + lists).collect(),
            list_of: vec![None; KEYS],
            len: vec![0; lists],
        }
    }

    fn remove(&mut self, key: usize) {
        if let Some(list) = self.list_of[key].take() {
            let (newer, older) = (self.newer[key], self.older[key]);
            self.older[newer] = older;
            self.newer[older] = newer;
            self.len[list] -= 1;
        }
    }

    /// Moves the key, from wherever it is, to the newest place of a list.
    fn push(&mut self, list: usize, key: usize) {
        self.remove(key);
        let head = KEYS + list;
        let newest = self.older[head];
        self.older[head] = key;
        self.newer[newest] = key;
        self.newer[key] = head;
        self.older[key] = newest;
        self.list_of[key] = Some(list);
        self.len[list] += 1;
    }

    /// The oldest key of a list that is not empty.
    fn oldest(&self, list: usize) -> usize {
        self.newer[KEYS + list]
    }
}

/// Least recently used.
struct Lru {
    lines: usize,
    cached: Lists,
}

impl Policy for Lru {
    fn access(&mut self, key: usize) -> bool {
        let hit = self.cached.list_of[key].is_some();
        if !hit && self.cached.len[0] == self.lines {
            self.cached.remove(self.cached.oldest(0));
        }
        self.cached.push(0, key);
        hit
    }
}

/// Least frequently used among the cached keys; among equals the least
/// recently used goes. A key's count starts at 1 when it enters the cache and
/// is lost when it leaves (in-cache LFU).
struct Lfu {
    lines: usize,
    now: u64,
    /// Count and time of the last use; count 0 is not cached.
    uses: Vec<(u64, u64)>,
    cached: BTreeSet<(u64, u64, usize)>,
}

impl Policy for Lfu {
    fn access(&mut self, key: usize) -> bool {
        let (count, last) = self.uses[key];
        let hit = self.cached.remove(&(count, last, key));
        if !hit && self.cached.len() == self.lines {
            if let Some((_, _, evicted)) = self.cached.pop_first() {
                self.uses[evicted] = (0, 0);
            }
        }
        self.now += 1;
        self.uses[key] = (count + 1, self.now);
        self.cached.insert((count + 1, self.now, key));
        hit
    }
}

/// LRU-2: the cached key whose last use but one is oldest goes; keys used once
/// go first, the least recently used of them before the others. The times of
/// `history` keys are kept, cached ones included.
struct Lru2 {
    lines: usize,
    history: usize,
    now: u64,
    /// Times of the last use but one and of the last; 0 is never.
    times: Vec<(u64, u64)>,
    cached: BTreeSet<(u64, u64, usize)>,
    /// Keys that are known and not cached, by the time of their last use.
    known: BTreeSet<(u64, usize)>,
}

impl Lru2 {
    fn evict(&mut self) {
        if let Some((_, last, key)) = self.cached.pop_first() {
            self.known.insert((last, key));
        }
    }

    fn forget(&mut self) {
        if let Some((_, key)) = self.known.pop_first() {
            self.times[key] = (0, 0);
        }
    }
}

impl Policy for Lru2 {
    fn access(&mut self, key: usize) -> bool {
        let (before, last) = self.times[key];
        let hit = self.cached.remove(&(before, last, key));
        self.known.remove(&(last, key));
        if self.cached.len() == self.lines {
            self.evict();
        }
        self.now += 1;
        self.times[key] = (last, self.now);
        self.cached.insert((last, self.now, key));
        if self.cached.len() + self.known.len() > self.history {
            self.forget();
        }
        hit
    }
}

/// ARC (Megiddo and Modha, 2003).
struct Arc {
    lines: usize,
    /// The size aimed at for T1.
    aim: f64,
    lists: Lists,
}

const T1: usize = 0; // cached, used once of late
const T2: usize = 1; // cached, used more than once of late
const B1: usize = 2; // evicted from T1
const B2: usize = 3; // evicted from T2

impl Arc {
    fn evict(&mut self, key_in_b2: bool) {
        let t1 = self.lists.len[T1] as f64;
        if t1 > 0.0 && (t1 > self.aim || (key_in_b2 && t1 == self.aim)) {
            self.lists.push(B1, self.lists.oldest(T1));
        } else {
            self.lists.push(B2, self.lists.oldest(T2));
        }
    }

    /// Makes a place for a key that is in no list.
    fn make_place(&mut self) {
        let [t1, t2, b1, b2] = [T1, T2, B1, B2].map(|list| self.lists.len[list]);
        if t1 == self.lines {
            self.lists.remove(self.lists.oldest(T1));
            return;
        }
        if t1 + b1 == self.lines {
            self.lists.remove(self.lists.oldest(B1));
        } else if t1 + t2 + b1 + b2 == 2 * self.lines {
            self.lists.remove(self.lists.oldest(B2));
        }
        if t1 + t2 == self.lines {
            self.evict(false);
        }
    }
}

impl Policy for Arc {
    fn access(&mut self, key: usize) -> bool {
        let list = self.lists.list_of[key];
        let (b1, b2) = (self.lists.len[B1] as f64, self.lists.len[B2] as f64);
        match list {
            Some(B1) => {
                self.aim = (self.aim + (b2 / b1).max(1.0)).min(self.lines as f64);
                self.evict(false);
            }
            Some(B2) => {
                self.aim = (self.aim - (b1 / b2).max(1.0)).max(0.0);
                self.evict(true);
            }
            Some(_) => {}
            None => self.make_place(),
        }
        self.lists.push(if list.is_none() { T1 } else { T2 }, key);
        matches!(list, Some(T1 | T2))
    }
}

/// The most likely keys, known beforehand.
struct Perfect {
    lines: usize,
}

impl Policy for Perfect {
    fn access(&mut self, key: usize) -> bool {
        key < self.lines
    }
}

#[derive(Clone, Copy)]
enum Kind {
    Perfect,
    /// The library with this many records for each line.
    Library(usize),
    /// LRU-2 with this many keys of history for each line.
    Lru2(usize),
    Arc,
    Lfu,
    Lru,
}

/// One column of a table and, where it has a colour, one curve of the plot.
#[derive(Clone, Copy)]
struct Series {
    kind: Kind,
    name: &'static str,
    /// Empty where it has no curve.
    colour: &'static str,
    /// Stroke of its curve, as SVG attributes.
    stroke: &'static str,
    /// Its marker around 0 0, as an SVG element without brackets and colour.
    marker: &'static str,
}

const CIRCLE: &str = "circle r=\"3.6\"";
const SQUARE: &str = "rect x=\"-3.2\" y=\"-3.2\" width=\"6.4\" height=\"6.4\"";
const TRIANGLE: &str = "path d=\"M0 -4.4L4 3.2H-4Z\"";
const DIAMOND: &str = "path d=\"M0 -7L7 0L0 7L-7 0Z\"";
const CROSS: &str = "path d=\"M-3 -3L3 3M-3 3L3 -3\" stroke-width=\"2\"";

#[rustfmt::skip]
const SERIES: [Series; 11] = [
    Series { kind: Kind::Perfect, name: "perfect", colour: "#c9c9c9",
             stroke: "stroke-width=\"8\" stroke-linecap=\"round\"", marker: "" },
    Series { kind: Kind::Library(16), name: "library, K = 16 C", colour: "#08519c",
             stroke: "stroke-width=\"2.4\"", marker: CIRCLE },
    Series { kind: Kind::Library(8), name: "library, K = 8 C", colour: "",
             stroke: "", marker: "" },
    Series { kind: Kind::Library(4), name: "library, K = 4 C", colour: "#2b7bba",
             stroke: "stroke-width=\"2\" stroke-dasharray=\"7 3\"", marker: CIRCLE },
    Series { kind: Kind::Library(2), name: "library, K = 2 C", colour: "#56a0d3",
             stroke: "stroke-width=\"2\" stroke-dasharray=\"2 3\"", marker: CIRCLE },
    Series { kind: Kind::Lru2(16), name: "LRU-2, K = 16 C", colour: "",
             stroke: "", marker: "" },
    Series { kind: Kind::Lru2(4), name: "LRU-2, K = 4 C", colour: "",
             stroke: "", marker: "" },
    Series { kind: Kind::Lru2(2), name: "LRU-2, K = 2 C", colour: "#c77fb8",
             stroke: "stroke-width=\"4\"", marker: DIAMOND },
    Series { kind: Kind::Arc, name: "ARC", colour: "#00805a",
             stroke: "stroke-width=\"1.6\"", marker: SQUARE },
    Series { kind: Kind::Lfu, name: "LFU", colour: "#c04a00",
             stroke: "stroke-width=\"1.6\"", marker: TRIANGLE },
    Series { kind: Kind::Lru, name: "LRU", colour: "#333333",
             stroke: "stroke-width=\"1.6\"", marker: CROSS },
];

/// The number of records, or of keys in the history, for a number of lines.
fn records(times: usize, lines: usize) -> usize {
    (times * lines).min(MAX_RECORDS)
}

fn policy(kind: Kind, lines: usize) -> Box<dyn Policy> {
    match kind {
        Kind::Perfect => Box::new(Perfect { lines }),
        Kind::Library(times) => Box::new(Library::new(records(times, lines), lines)),
        Kind::Lru2(times) => Box::new(Lru2 {
            lines,
            history: records(times, lines),
            now: 0,
            times: vec![(0, 0); KEYS],
            cached: BTreeSet::new(),
            known: BTreeSet::new(),
        }),
        Kind::Arc => Box::new(Arc {
            lines,
            aim: 0.0,
            lists: Lists::new(4),
        }),
        Kind::Lfu => Box::new(Lfu {
            lines,
            now: 0,
            uses: vec![(0, 0); KEYS],
            cached: BTreeSet::new(),
        }),
        Kind::Lru => Box::new(Lru {
            lines,
            cached: Lists::new(1),
        }),
    }
}

/// splitmix64.
fn next_random(seed: &mut u64) -> u64 {
    *seed = seed.wrapping_add(0x9e37_79b9_7f4a_7c15);
    let z = (*seed ^ (*seed >> 30)).wrapping_mul(0xbf58_476d_1ce4_e5b9);
    let z = (z ^ (z >> 27)).wrapping_mul(0x94d0_49bb_1331_11eb);
    z ^ (z >> 31)
}

/// Keys of which the one of rank n, from 0, comes with a likelihood of
/// 1 / (n + 1)^zipf.
fn zipf_keys(zipf: f64, count: usize, mut seed: u64) -> Vec<usize> {
    let mut sum = 0.0;
    let cumulative: Vec<f64> = (1..=KEYS)
        .map(|n| {
            sum += (n as f64).powf(-zipf);
            sum
        })
        .collect();
    (0..count)
        .map(|_| {
            let u = (next_random(&mut seed) >> 11) as f64 / (1u64 << 53) as f64 * sum;
            cumulative.partition_point(|&c| c <= u).min(KEYS - 1)
        })
        .collect()
}

fn hit_ratio(policy: &mut dyn Policy, keys: &[usize]) -> f64 {
    let (warm_up, counted) = keys.split_at(WARM_UP);
    for &key in warm_up {
        policy.access(key);
    }
    let hits = counted.iter().filter(|&&key| policy.access(key)).count();
    hits as f64 / counted.len() as f64
}

fn mean(sequences: &[Vec<usize>], ratio: impl Fn(&[usize]) -> f64) -> f64 {
    sequences.iter().map(|keys| ratio(keys)).sum::<f64>() / sequences.len() as f64
}

/// Hit ratios by series and number of lines.
type Ratios = Vec<[f64; LINES.len()]>;

fn measure(zipf: f64, accesses: usize) -> Ratios {
    let keys = zipf_keys(zipf, WARM_UP + accesses, 1);
    let shorter: Vec<Vec<usize>> = (0..LFU_SEQUENCES)
        .map(|n| zipf_keys(zipf, WARM_UP + LFU_ACCESSES, n << 32))
        .collect();
    let mut ratios: Ratios = vec![[0.0; LINES.len()]; SERIES.len()];
    for (place, &lines) in LINES.iter().enumerate() {
        // The library's last result: where K is at its limit, it holds again.
        let mut last = (0, 0.0);
        for (series, row) in SERIES.iter().zip(ratios.iter_mut()) {
            row[place] = match series.kind {
                Kind::Library(times) if records(times, lines) == last.0 => last.1,
                Kind::Lfu => mean(&shorter, |keys| {
                    hit_ratio(policy(Kind::Lfu, lines).as_mut(), keys)
                }),
                kind => hit_ratio(policy(kind, lines).as_mut(), &keys),
            };
            if let Kind::Library(times) = series.kind {
                last = (records(times, lines), row[place]);
            }
        }
    }
    ratios
}

fn print_table(zipf: f64, ratios: &Ratios) {
    println!("Zipf {zipf}:\n");
    println!("| C | {} |", SERIES.map(|series| series.name).join(" | "));
    println!("|---:|{}", "---:|".repeat(SERIES.len()));
    for (place, lines) in LINES.iter().enumerate() {
        let row: Vec<String> = ratios.iter().map(|r| format!("{:.3}", r[place])).collect();
        println!("| {lines} | {} |", row.join(" | "));
    }
    println!();
}

const WIDTH: f64 = 960.0;
const HEIGHT: f64 = 800.0;
const PANEL_WIDTH: f64 = 400.0;
const PANEL_HEIGHT: f64 = 310.0;

/// Where a panel's plotting area begins: two panels in a row.
fn corner(panel: usize) -> (f64, f64) {
    let (column, row) = (panel % 2, panel / 2);
    (60.0 + 475.0 * column as f64, 40.0 + 395.0 * row as f64)
}

/// The series that have a curve, with their numbers.
fn drawn() -> impl Iterator<Item = (usize, &'static Series)> {
    let numbered = SERIES.iter().enumerate();
    numbered.filter(|(_, series)| !series.colour.is_empty())
}

fn text(x: f64, y: f64, attributes: &str, words: &str) -> String {
    format!("<text x=\"{x:.1}\" y=\"{y:.1}\" {attributes}>{words}</text>\n")
}

const START: &str = "text-anchor=\"start\"";
const MIDDLE: &str = "text-anchor=\"middle\"";
const END: &str = "text-anchor=\"end\"";

fn path(d: &str, stroke: &str) -> String {
    format!("<path d=\"{d}\" fill=\"none\" stroke=\"{stroke}\"/>\n")
}

fn curve(series: &Series, points: &[(f64, f64)]) -> String {
    let Series {
        colour,
        stroke,
        marker,
        ..
    } = series;
    let places: Vec<String> = points
        .iter()
        .map(|(x, y)| format!("{x:.1},{y:.1}"))
        .collect();
    let places = places.join(" ");
    let mut svg =
        format!("<polyline points=\"{places}\" fill=\"none\" stroke=\"{colour}\" {stroke}/>\n");
    for (x, y) in points.iter().filter(|_| !marker.is_empty()) {
        let place = format!("transform=\"translate({x:.1} {y:.1})\"");
        svg += &format!("<{marker} {place} fill=\"{colour}\" stroke=\"{colour}\"/>\n");
    }
    svg
}

fn panel(number: usize, zipf: f64, ratios: &Ratios) -> String {
    let (left, top) = corner(number);
    let (right, bottom) = (left + PANEL_WIDTH, top + PANEL_HEIGHT);
    let highest = ratios.iter().flatten().fold(0.0f64, |a, &b| a.max(b));
    let tenths = (10.0 * highest).ceil();
    let x = |place: usize| left + PANEL_WIDTH * place as f64 / (LINES.len() - 1) as f64;
    let y = |ratio: f64| bottom - PANEL_HEIGHT * 10.0 * ratio / tenths;

    let mut svg = text(
        left,
        top - 14.0,
        "font-weight=\"bold\"",
        &format!("Zipf {zipf}: hit ratio"),
    );
    for ratio in (0..=tenths as usize).map(|tenth| tenth as f64 / 10.0) {
        svg += &path(&format!("M{left:.1} {:.1}H{right:.1}", y(ratio)), "#e4e4e4");
        svg += &text(left - 8.0, y(ratio) + 4.5, END, &format!("{ratio:.1}"));
    }
    for (place, lines) in LINES.iter().enumerate() {
        svg += &path(&format!("M{:.1} {bottom:.1}v5", x(place)), "#666666");
        svg += &text(x(place), bottom + 19.0, MIDDLE, &lines.to_string());
    }
    svg += &path(
        &format!("M{left:.1} {top:.1}V{bottom:.1}H{right:.1}"),
        "#666666",
    );
    svg += &text(left + PANEL_WIDTH / 2.0, bottom + 39.0, MIDDLE, "lines (C)");
    for (number, series) in drawn() {
        let row = ratios[number].iter().enumerate();
        let points: Vec<_> = row.map(|(place, &ratio)| (x(place), y(ratio))).collect();
        svg += &curve(series, &points);
    }
    svg
}

/// A number with a comma before each three digits.
fn grouped(number: usize) -> String {
    match number {
        0..=999 => number.to_string(),
        _ => format!("{},{:03}", grouped(number / 1000), number % 1000),
    }
}

fn legend(number: usize, accesses: usize) -> String {
    let (left, top) = corner(number);
    let mut svg = String::new();
    let mut y = top + 30.0;
    for (_, series) in drawn() {
        svg += &curve(series, &[20.0, 46.0, 72.0].map(|x| (left + x, y)));
        svg += &text(left + 90.0, y + 4.5, START, series.name);
        y += 26.0;
    }
    let (keys, accesses, most) = (grouped(KEYS), grouped(accesses), grouped(MAX_RECORDS));
    let notes = [
        format!("{keys} keys, {accesses} accesses"),
        format!("K: records, or keys in the history; at most {most}"),
    ];
    for note in notes {
        svg += &text(left + 20.0, y + 10.0, START, &note);
        y += 20.0;
    }
    svg
}

fn plot(all: &[Ratios], accesses: usize) -> String {
    let size = format!("width=\"{WIDTH}\" height=\"{HEIGHT}\"");
    let mut svg = format!(
        "<svg xmlns=\"http://www.w3.org/2000/svg\" viewBox=\"0 0 {WIDTH} {HEIGHT}\" {size} \
         font-family=\"sans-serif\" font-size=\"13\" role=\"img\">\n\
         <title>Hit ratio by number of lines</title>\n<rect {size} fill=\"white\"/>\n"
    );
    for (number, (&zipf, ratios)) in ZIPFS.iter().zip(all).enumerate() {
        svg += &panel(number, zipf, ratios);
    }
    svg + &legend(ZIPFS.len(), accesses) + "</svg>\n"
}

fn usage() -> ! {
    eprintln!("usage: hits [--accesses N] PLOT.svg");
    std::process::exit(2);
}

fn main() {
    let mut words: Vec<String> = std::env::args().skip(1).collect();
    let mut accesses = ACCESSES;
    if words.len() == 3 && words[0] == "--accesses" {
        accesses = words[1].parse().unwrap_or(0);
        words.drain(..2);
    }
    if words.len() != 1 || accesses == 0 {
        usage();
    }
    let all: Vec<Ratios> = ZIPFS
        .iter()
        .map(|&zipf| {
            let ratios = measure(zipf, accesses);
            print_table(zipf, &ratios);
            ratios
        })
        .collect();
    if let Err(error) = std::fs::write(&words[0], plot(&all, accesses)) {
        eprintln!("{}: {error}", words[0]);
        std::process::exit(1);
    }
}
