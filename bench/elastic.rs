//! Sizes of the cache over epochs, as cot_scale tells them: the experiment of
//! section 6.5 of the CoT paper in small.
//!
//!   elastic PLOT.svg
//!
//! Prints Markdown tables and writes the plot. The keys come by Zipf 1.2 and
//! then uniformly, in epochs of 5,000 reads; what is not in the cache is looked
//! up at one of 8 stores. At the end of an epoch the host asks cot_scale and
//! does what it tells. It resizes by cot_resize, which keeps heats and pictures.
//!
//! The paper's client also searches the number of records for each line, in a
//! phase of its own. Algorithm 3 has no such step: here K is 2 C. With K = 4 C
//! the limit of 1,024 records would end the growth at 256 lines, short of the
//! imbalance that is aimed at.
//!
//! An epoch is short for an imbalance of 1.1: by chance alone even traffic has
//! about 1.12 in 5,000 lookups, and Zipf traffic about 1.29 with 512 lines, where
//! only a fourth of the reads are lookups. So there are runs that hand over the
//! lookups of ten epochs, and the hits of the last of them.

#[rustfmt::skip]
extern "C" {
    fn cot_fresh(
        table: *mut u8, table_len: usize, gauge: *mut u8, gauge_len: usize,
        lines: *const u8, lines_len: usize,
    ) -> u64;
    fn cot_read(
        table: *mut u8, table_len: usize, gauge: *mut u8, gauge_len: usize,
        lines: *const u8, lines_len: usize, key: u64, weight: u64,
        ticket: *mut u8, ticket_len: usize,
    ) -> u64;
    fn cot_fill(
        table: *mut u8, table_len: usize, gauge: *const u8, gauge_len: usize,
        lines: *mut u8, lines_len: usize, key: u64, picture: *const u8, picture_len: usize,
        ticket: u64,
    ) -> u64;
    fn cot_age(
        table: *mut u8, table_len: usize, gauge: *mut u8, gauge_len: usize,
        lines: *const u8, lines_len: usize,
    ) -> u64;
    fn cot_resize(
        table: *const u8, table_len: usize, gauge: *const u8, gauge_len: usize,
        lines: *const u8, lines_len: usize,
        to_table: *mut u8, to_table_len: usize, to_gauge: *mut u8, to_gauge_len: usize,
        to_lines: *mut u8, to_lines_len: usize,
    ) -> u64;
    fn cot_store(
        ring: *const u8, ring_len: usize, position: u64, store: *mut u8, store_len: usize,
    ) -> u64;
    fn cot_scale(
        lookups: *const u8, lookups_len: usize, on: u64, off: u64, lines: u64, records: u64,
        imbalance_over: u64, imbalance_under: u64, target_over: u64, target_under: u64,
        tolerance: u64, out: *mut u8, out_len: usize,
    ) -> u64;
}

const KEYS: usize = 1_000_000;
const ZIPF: f64 = 1.2;
const STORES: usize = 8;
/// Points of each store.
const POINTS: usize = 16;
/// Reads in an epoch.
const READS: usize = 5_000;
const ZIPF_EPOCHS: usize = 200;
const UNIFORM_EPOCHS: usize = 160;
const EPOCHS: usize = ZIPF_EPOCHS + UNIFORM_EPOCHS;
/// Lines at the start, and records for each line.
const LINES: usize = 2;
const TIMES: usize = 2;
/// The imbalance that is aimed at.
const AIM: (u64, u64) = (11, 10);
/// In thousandths of the target. By chance alone the hits per line stray by
/// about 1 % from epoch to epoch at 512 lines.
const TOLERANCE: u64 = 50;
/// Epochs after a resize that are not judged, as in the paper.
const WARM_UP: usize = 5;
const MAX_RECORDS: usize = 1024;

/// How the host comes to what it hands to cot_scale.
struct Run {
    name: &'static str,
    /// The lookups are those of so many epochs, none of them in the warm-up.
    window: usize,
    /// Whether the target is taken from the first epoch after a grow that is
    /// within the imbalance, and is 0 until then; else it is as a grow told.
    taken: bool,
}

const RUNS: [Run; 3] = [
    Run {
        name: "1. Lookups of one epoch, target as a grow told it",
        window: 1,
        taken: false,
    },
    Run {
        name: "2. Lookups of ten epochs, target as a grow told it",
        window: 10,
        taken: false,
    },
    Run {
        name: "3. Lookups of ten epochs, target taken when the imbalance is first met",
        window: 10,
        taken: true,
    },
];

fn number(bytes: &[u8]) -> u64 {
    let mut held = [0; 8];
    held.copy_from_slice(&bytes[..8]);
    u64::from_le_bytes(held)
}

struct Cache {
    table: Vec<u8>,
    gauge: [u8; 24],
    lines: Vec<u8>,
    /// Of the last read that answered wanted.
    ticket: [u8; 8],
}

#[rustfmt::skip]
impl Cache {
    fn zeroed(lines: usize, records: usize) -> Self {
        Cache {
            table: vec![0; 40 * records], gauge: [0; 24], lines: vec![0; 64 * lines],
            ticket: [0; 8],
        }
    }

    fn fresh(lines: usize, records: usize) -> Self {
        let mut cache = Cache::zeroed(lines, records);
        // SAFETY: each pointer comes with the length of its own buffer.
        let answer = unsafe {
            cot_fresh(
                cache.table.as_mut_ptr(), cache.table.len(),
                cache.gauge.as_mut_ptr(), cache.gauge.len(),
                cache.lines.as_ptr(), cache.lines.len(),
            )
        };
        assert_eq!(answer, 0, "fresh");
        cache
    }

    /// Whether the key has a record and no line.
    fn is_off_lines(&self, key: u64) -> bool {
        self.table
            .chunks_exact(40)
            .any(|record| number(record) == key && number(&record[24..]) == 1)
    }

    /// True for a hit. A wanted is filled at once.
    fn access(&mut self, key: u64) -> bool {
        let mut picture = [0; 64];
        picture[..8].copy_from_slice(&key.to_le_bytes());
        // SAFETY: each pointer comes with the length of its own buffer.
        let answer = unsafe {
            cot_read(
                self.table.as_mut_ptr(), self.table.len(),
                self.gauge.as_mut_ptr(), self.gauge.len(),
                self.lines.as_ptr(), self.lines.len(),
                key, 1,
                self.ticket.as_mut_ptr(), self.ticket.len(),
            )
        };
        match answer {
            104 => false,
            2000..=3023 => {
                let start = 64 * (answer as usize - 2000);
                assert_eq!(self.lines[start..start + 64], picture, "line of key {key}");
                true
            }
            4000..=5023 => {
                // SAFETY: as above.
                let answer = unsafe {
                    cot_fill(
                        self.table.as_mut_ptr(), self.table.len(),
                        self.gauge.as_ptr(), self.gauge.len(),
                        self.lines.as_mut_ptr(), self.lines.len(),
                        key, picture.as_ptr(), picture.len(),
                        u64::from_le_bytes(self.ticket),
                    )
                };
                assert_eq!(answer, 103, "fill of key {key}");
                false
            }
            _ => panic!("read of key {key} answers {answer}"),
        }
    }

    fn age(&mut self) {
        // SAFETY: each pointer comes with the length of its own buffer.
        let answer = unsafe {
            cot_age(
                self.table.as_mut_ptr(), self.table.len(),
                self.gauge.as_mut_ptr(), self.gauge.len(),
                self.lines.as_ptr(), self.lines.len(),
            )
        };
        assert_eq!(answer, 100, "age");
    }

    /// The cache in buffers of other sizes.
    fn resized(&self, lines: usize, records: usize) -> Self {
        let mut target = Cache::zeroed(lines, records);
        // SAFETY: each pointer comes with the length of its own buffer.
        let answer = unsafe {
            cot_resize(
                self.table.as_ptr(), self.table.len(),
                self.gauge.as_ptr(), self.gauge.len(),
                self.lines.as_ptr(), self.lines.len(),
                target.table.as_mut_ptr(), target.table.len(),
                target.gauge.as_mut_ptr(), target.gauge.len(),
                target.lines.as_mut_ptr(), target.lines.len(),
            )
        };
        assert_eq!(answer, 0, "resize");
        target
    }
}

/// A position on the ring, as in examples/stores.c.
fn spread(number: u64) -> u64 {
    (0..3).fold(number, |n, _| {
        (n ^ n >> 32).wrapping_mul(0xa5d3_c96b_17e8_4f2d)
    })
}

/// The store of each key. The points lie evenly on the ring, the stores taking
/// turns. With points that are spread like the keys the shares of the stores are
/// far less even than is aimed at: with 64 of each store, the most to the least
/// are 1.31, and with 128, all that a ring has room for, 1.56.
fn stores() -> Vec<usize> {
    let points = (STORES * POINTS) as u64;
    let ring: Vec<u8> = (0..points)
        .flat_map(|i| [i * (u64::MAX / points + 1), i % STORES as u64])
        .flat_map(u64::to_le_bytes)
        .collect();
    let store_of = |key: u64| {
        let mut store = [0; 8];
        // SAFETY: each pointer comes with the length of its own buffer.
        let answer = unsafe {
            cot_store(
                ring.as_ptr(),
                ring.len(),
                spread(key),
                store.as_mut_ptr(),
                store.len(),
            )
        };
        assert_eq!(answer, 0, "store of key {key}");
        u64::from_le_bytes(store) as usize
    };
    (0..KEYS as u64).map(store_of).collect()
}

/// splitmix64.
fn next_random(seed: &mut u64) -> u64 {
    *seed = seed.wrapping_add(0x9e37_79b9_7f4a_7c15);
    let z = (*seed ^ (*seed >> 30)).wrapping_mul(0xbf58_476d_1ce4_e5b9);
    let z = (z ^ (z >> 27)).wrapping_mul(0x94d0_49bb_1331_11eb);
    z ^ (z >> 31)
}

/// The likelihood of the key of rank n, from 0, up to a factor.
fn likelihood(rank: usize) -> f64 {
    (rank as f64 + 1.0).powf(-ZIPF)
}

/// The keys of all reads. A key is its rank.
fn draw_keys() -> Vec<usize> {
    let mut sum = 0.0;
    let cumulative: Vec<f64> = (0..KEYS)
        .map(|rank| {
            sum += likelihood(rank);
            sum
        })
        .collect();
    let mut seed = 1;
    (0..EPOCHS * READS)
        .map(|read| {
            let u = (next_random(&mut seed) >> 11) as f64 / (1u64 << 53) as f64;
            if read < ZIPF_EPOCHS * READS {
                cumulative.partition_point(|&c| c <= u * sum).min(KEYS - 1)
            } else {
                (u * KEYS as f64) as usize
            }
        })
        .collect()
}

type Lookups = [u64; STORES];

/// The most lookups to one store and the fewest.
fn extremes(lookups: &Lookups) -> (u64, u64) {
    lookups.iter().fold((0, u64::MAX), |(most, least), &n| {
        (most.max(n), least.min(n))
    })
}

/// Infinite if a store had none.
fn imbalance(lookups: &Lookups) -> f64 {
    let (most, least) = extremes(lookups);
    most as f64 / least as f64
}

#[derive(Clone, Copy)]
enum Verdict {
    Grow {
        lines: usize,
        records: usize,
        target: (u64, u64),
    },
    Shrink {
        lines: usize,
        records: usize,
    },
    Age,
    Stay,
}

fn scale(
    lookups: &Lookups,
    on: u64,
    off: u64,
    (lines, records): (usize, usize),
    target: (u64, u64),
) -> Verdict {
    let lookups: Vec<u8> = lookups.iter().flat_map(|n| n.to_le_bytes()).collect();
    let mut out = [0; 32];
    // SAFETY: each pointer comes with the length of its own buffer.
    let answer = unsafe {
        cot_scale(
            lookups.as_ptr(),
            lookups.len(),
            on,
            off,
            lines as u64,
            records as u64,
            AIM.0,
            AIM.1,
            target.0,
            target.1,
            TOLERANCE,
            out.as_mut_ptr(),
            out.len(),
        )
    };
    let lines = number(&out) as usize;
    let records = number(&out[8..]) as usize;
    match answer {
        106 => Verdict::Grow {
            lines,
            records,
            target: (number(&out[16..]), number(&out[24..])),
        },
        107 => Verdict::Shrink { lines, records },
        108 => Verdict::Age,
        109 => Verdict::Stay,
        _ => panic!("scale answers {answer}"),
    }
}

/// What is told of an epoch.
struct Row {
    lines: usize,
    records: usize,
    /// By this epoch's lookups.
    imbalance: f64,
    /// By those handed to cot_scale, where it was asked.
    judged: Option<f64>,
    per_line: f64,
    per_other: f64,
    target: f64,
    decision: &'static str,
}

fn simulate(run: &Run, keys: &[usize], stores: &[usize]) -> Vec<Row> {
    let (mut lines, mut records) = (LINES, TIMES * LINES);
    let mut cache = Cache::fresh(lines, records);
    let mut target = (0, 1);
    // Whether the target is still to be taken.
    let mut searching = true;
    // Epochs since the start or a resize, and their lookups after the warm-up.
    let mut since = 0;
    let mut counted: Vec<Lookups> = Vec::new();
    let mut rows = Vec::new();
    for epoch in keys.chunks_exact(READS) {
        let mut lookups = [0; STORES];
        let (mut on, mut off) = (0, 0);
        for &key in epoch {
            off += u64::from(cache.is_off_lines(key as u64));
            if cache.access(key as u64) {
                on += 1;
            } else {
                lookups[stores[key]] += 1;
            }
        }
        since += 1;
        if since > WARM_UP {
            counted.push(lookups);
        }
        let mut row = Row {
            lines,
            records,
            imbalance: imbalance(&lookups),
            judged: None,
            per_line: on as f64 / lines as f64,
            per_other: off as f64 / (records - lines) as f64,
            target: target.0 as f64 / target.1 as f64,
            decision: if since > WARM_UP {
                "counting"
            } else {
                "warming"
            },
        };
        if counted.len() >= run.window {
            let last = &counted[counted.len() - run.window..];
            let mut sums = [0; STORES];
            for (store, sum) in sums.iter_mut().enumerate() {
                *sum = last.iter().map(|lookups| lookups[store]).sum();
            }
            row.judged = Some(imbalance(&sums));
            let verdict = scale(&sums, on, off, (lines, records), target);
            let (most, least) = extremes(&sums);
            let within = most * AIM.1 <= AIM.0 * least;
            let mut resized = true;
            row.decision = match verdict {
                Verdict::Grow {
                    lines: more_lines,
                    records: more_records,
                    target: told,
                } => {
                    (lines, records) = (more_lines, more_records);
                    target = if run.taken { (0, 1) } else { told };
                    searching = true;
                    "grow"
                }
                Verdict::Shrink {
                    lines: fewer_lines,
                    records: fewer_records,
                } => {
                    (lines, records) = (fewer_lines, fewer_records);
                    "shrink"
                }
                Verdict::Age => {
                    cache.age();
                    resized = false;
                    "age"
                }
                Verdict::Stay => {
                    if run.taken && searching && within {
                        target = (on, lines as u64);
                        searching = false;
                    }
                    resized = false;
                    "stay"
                }
            };
            if resized {
                cache = cache.resized(lines, records);
                since = 0;
                counted.clear();
            }
        }
        rows.push(row);
    }
    rows
}

fn shown(ratio: f64) -> String {
    if ratio.is_finite() {
        format!("{ratio:.3}")
    } else {
        "inf".to_string()
    }
}

fn print_rows(run: &Run, rows: &[Row]) {
    println!("{}:\n", run.name);
    println!(
        "| epoch | traffic | C | K | imbalance | judged | hits per line \
         | hits per other record | target | decision |"
    );
    println!("|---:|:---|---:|---:|---:|---:|---:|---:|---:|:---|");
    for (epoch, row) in rows.iter().enumerate() {
        let traffic = if epoch < ZIPF_EPOCHS {
            "Zipf"
        } else {
            "uniform"
        };
        println!(
            "| {} | {traffic} | {} | {} | {} | {} | {:.3} | {:.3} | {:.3} | {} |",
            epoch + 1,
            row.lines,
            row.records,
            shown(row.imbalance),
            row.judged.map_or("-".to_string(), shown),
            row.per_line,
            row.per_other,
            row.target,
            row.decision
        );
    }
    println!();
}

/// The imbalance by the likelihoods of the keys from a rank on.
fn likely_imbalance(from: usize, stores: &[usize], likelihood: impl Fn(usize) -> f64) -> f64 {
    let mut loads = [0.0; STORES];
    for rank in from..KEYS {
        loads[stores[rank]] += likelihood(rank);
    }
    let most = loads.iter().fold(0.0f64, |a, &b| a.max(b));
    most / loads.iter().fold(f64::INFINITY, |a, &b| a.min(b))
}

/// What the imbalance would be without chance, and how it was measured.
fn print_setting(stores: &[usize]) {
    println!(
        "{} keys, {STORES} stores, epochs of {} reads: {ZIPF_EPOCHS} of Zipf {ZIPF}, then \
         {UNIFORM_EPOCHS} uniform. Imbalance aimed at: {}/{}; tolerance: {TOLERANCE} thousandths. \
         K = {TIMES} C throughout: Algorithm 3 does not search the ratio.\n",
        grouped(KEYS),
        grouped(READS),
        AIM.0,
        AIM.1
    );
    println!(
        "Resizing is by cot_resize, which keeps heats and pictures. As in the paper {WARM_UP} \
         epochs after each resize are not judged (warming). Where the lookups are those of ten \
         epochs, those come after the warm-up, and nothing is judged until they are over \
         (counting).\n"
    );
    println!("Imbalance by the likelihoods alone, with the C most likely keys cached:\n");
    println!("| C | Zipf {ZIPF} | uniform |\n|---:|---:|---:|");
    let sizes = (1..=9).map(|power| 1 << power);
    for lines in std::iter::once(0).chain(sizes) {
        println!(
            "| {lines} | {:.3} | {:.3} |",
            likely_imbalance(lines, stores, likelihood),
            likely_imbalance(lines, stores, |_| 1.0)
        );
    }
    println!();
}

const WIDTH: f64 = 1040.0;
const HEIGHT: f64 = 1110.0;
const PANEL_WIDTH: f64 = 390.0;
const PANEL_HEIGHT: f64 = 235.0;

/// Where a panel's plotting area begins: a row for each run.
fn corner(row: usize, column: usize) -> (f64, f64) {
    (65.0 + 515.0 * column as f64, 76.0 + 325.0 * row as f64)
}

fn text(x: f64, y: f64, attributes: &str, words: &str) -> String {
    format!("<text x=\"{x:.1}\" y=\"{y:.1}\" {attributes}>{words}</text>\n")
}

const START: &str = "text-anchor=\"start\"";
const MIDDLE: &str = "text-anchor=\"middle\"";
const END: &str = "text-anchor=\"end\"";

/// Words along an axis, read upwards.
fn upright(x: f64, y: f64, words: &str) -> String {
    let turn = format!("{MIDDLE} transform=\"rotate(-90 {x:.1} {y:.1})\"");
    text(x, y, &turn, words)
}

fn path(d: &str, stroke: &str) -> String {
    format!("<path d=\"{d}\" fill=\"none\" {stroke}/>\n")
}

const GRID: &str = "stroke=\"#e4e4e4\"";
const AXIS: &str = "stroke=\"#666666\"";
const CHANGE: &str = "stroke=\"#666666\" stroke-dasharray=\"5 4\"";
const C_STROKE: &str = "stroke=\"#000000\" stroke-width=\"2\"";
const K_STROKE: &str = "stroke=\"#c0392b\" stroke-width=\"2\"";
const EPOCH_STROKE: &str = "stroke=\"#9ecae1\" stroke-width=\"1\"";
const NOW_COLOUR: &str = "#08519c";
const NOW_STROKE: &str = "stroke=\"#08519c\" stroke-width=\"2\"";
const AIM_STROKE: &str = "stroke=\"#00805a\" stroke-width=\"1.8\" stroke-dasharray=\"8 3\"";

/// A panel's plotting area, with heights from 0 to 1.
struct Area {
    left: f64,
    top: f64,
}

impl Area {
    fn x(&self, epoch: usize) -> f64 {
        self.left + PANEL_WIDTH * epoch as f64 / EPOCHS as f64
    }

    fn y(&self, height: f64) -> f64 {
        self.top + PANEL_HEIGHT * (1.0 - height.clamp(0.0, 1.0))
    }

    /// One level for each epoch, with the steps between them; none is a gap.
    fn steps(&self, heights: impl Iterator<Item = Option<f64>>, stroke: &str) -> String {
        let mut d = String::new();
        let mut last = None;
        for (epoch, height) in heights.enumerate() {
            if let Some(height) = height {
                let (x, y) = (self.x(epoch), self.y(height));
                if last.is_none() {
                    d += &format!("M{x:.1} {y:.1}");
                } else if last != Some(height) {
                    d += &format!("V{y:.1}");
                }
                d += &format!("H{:.1}", self.x(epoch + 1));
            }
            last = height;
        }
        path(&d, stroke)
    }

    /// A dot for each epoch that has a height beside two that have none.
    fn dots(&self, heights: &[Option<f64>], colour: &str) -> String {
        let mut svg = String::new();
        for (epoch, three) in heights.windows(3).enumerate() {
            if let [None, Some(height), None] = three {
                let (x, y) = (self.x(epoch + 1), self.y(*height));
                svg +=
                    &format!("<circle cx=\"{x:.1}\" cy=\"{y:.1}\" r=\"2.6\" fill=\"{colour}\"/>\n");
            }
        }
        svg
    }
}

/// Heights of sizes: 1 to 1,024 by powers of 2.
fn size_height(size: usize) -> f64 {
    (size as f64).log2() / 10.0
}

/// Heights of imbalances: what they have over 1, 0.01 to 4, by powers of 10.
fn imbalance_height(imbalance: f64) -> f64 {
    ((imbalance - 1.0) / 0.01).log10() / 400f64.log10()
}

/// Heights of hits per line: 0.01 to 1,000 by powers of 10.
fn hits_height(hits: f64) -> f64 {
    (hits / 0.01).log10() / 5.0
}

/// Frame, ticks and labels. The ticks of the right axis have heights and words.
fn frame(area: &Area, right_ticks: &[(f64, String)], right_label: &str) -> String {
    let (left, top) = (area.left, area.top);
    let (right, bottom) = (left + PANEL_WIDTH, top + PANEL_HEIGHT);
    let mut svg = String::new();
    for power in (0..=10).step_by(2) {
        let y = area.y(size_height(1 << power));
        svg += &path(&format!("M{left:.1} {y:.1}H{right:.1}"), GRID);
        svg += &text(left - 8.0, y + 4.5, END, &grouped(1 << power));
    }
    for (height, words) in right_ticks {
        let y = area.y(*height);
        svg += &path(&format!("M{right:.1} {y:.1}h5"), AXIS);
        svg += &text(right + 9.0, y + 4.5, START, words);
    }
    for epoch in (0..=EPOCHS).step_by(40) {
        let x = area.x(epoch);
        svg += &path(&format!("M{x:.1} {bottom:.1}v5"), AXIS);
        svg += &text(x, bottom + 19.0, MIDDLE, &epoch.to_string());
    }
    let change = area.x(ZIPF_EPOCHS);
    svg += &path(&format!("M{change:.1} {top:.1}V{bottom:.1}"), CHANGE);
    svg += &text(change - 6.0, top - 5.0, END, &format!("Zipf {ZIPF}"));
    svg += &text(change + 6.0, top - 5.0, START, "uniform");
    svg += &path(
        &format!("M{left:.1} {top:.1}V{bottom:.1}H{right:.1}V{top:.1}"),
        AXIS,
    );
    svg += &text(left + PANEL_WIDTH / 2.0, bottom + 37.0, MIDDLE, "epoch");
    let middle = top + PANEL_HEIGHT / 2.0;
    svg += &upright(left - 46.0, middle, "lines (C), records (K)");
    svg + &upright(right + 58.0, middle, right_label)
}

fn sizes(area: &Area, rows: &[Row]) -> String {
    let lines = rows.iter().map(|row| Some(size_height(row.lines)));
    let records = rows.iter().map(|row| Some(size_height(row.records)));
    area.steps(records, K_STROKE) + &area.steps(lines, C_STROKE)
}

fn imbalance_panel(place: usize, rows: &[Row]) -> String {
    let (left, top) = corner(place, 0);
    let area = Area { left, top };
    let ticks = [1.01, 1.03, 1.1, 1.3, 2.0, 5.0].map(|n| (imbalance_height(n), n.to_string()));
    let aim = imbalance_height(AIM.0 as f64 / AIM.1 as f64);
    let each = rows.iter().map(|row| Some(imbalance_height(row.imbalance)));
    let judged: Vec<_> = rows
        .iter()
        .map(|row| row.judged.map(imbalance_height))
        .collect();
    frame(&area, &ticks, "imbalance")
        + &area.steps(each, EPOCH_STROKE)
        + &sizes(&area, rows)
        + &area.steps((0..EPOCHS).map(|_| Some(aim)), AIM_STROKE)
        + &area.steps(judged.iter().copied(), NOW_STROKE)
        + &area.dots(&judged, NOW_COLOUR)
}

fn hits_panel(place: usize, rows: &[Row]) -> String {
    let (left, top) = corner(place, 1);
    let area = Area { left, top };
    let words = ["\u{2264} 0.01", "0.1", "1", "10", "100", "1,000"];
    let mut ticks = Vec::new();
    for (place, words) in words.iter().enumerate() {
        ticks.push((place as f64 / 5.0, words.to_string()));
    }
    let hits = rows.iter().map(|row| Some(hits_height(row.per_line)));
    let target = rows.iter().map(|row| Some(hits_height(row.target)));
    frame(&area, &ticks, "hits per line")
        + &sizes(&area, rows)
        + &area.steps(target, AIM_STROKE)
        + &area.steps(hits, NOW_STROKE)
}

/// A number with a comma before each three digits.
fn grouped(number: usize) -> String {
    match number {
        0..=999 => number.to_string(),
        _ => format!("{},{:03}", grouped(number / 1000), number % 1000),
    }
}

fn legend(column: usize, y: f64, entries: &[(&str, &str)]) -> String {
    let (left, _) = corner(0, column);
    let mut svg = String::new();
    for (place, (stroke, words)) in entries.iter().enumerate() {
        let x = left + 200.0 * (place % 2) as f64;
        let y = y + 20.0 * (place / 2) as f64;
        svg += &path(&format!("M{x:.1} {y:.1}h34"), stroke);
        svg += &text(x + 42.0, y + 4.5, START, words);
    }
    svg
}

fn plot(all: &[Vec<Row>]) -> String {
    let size = format!("width=\"{WIDTH}\" height=\"{HEIGHT}\"");
    let mut svg = format!(
        "<svg xmlns=\"http://www.w3.org/2000/svg\" viewBox=\"0 0 {WIDTH} {HEIGHT}\" {size} \
         font-family=\"sans-serif\" font-size=\"13\" role=\"img\">\n\
         <title>Sizes, imbalance and hits per line by epoch</title>\n\
         <rect {size} fill=\"white\"/>\n"
    );
    for (place, (run, rows)) in RUNS.iter().zip(all).enumerate() {
        let (left, top) = corner(place, 0);
        svg += &text(left - 50.0, top - 28.0, "font-weight=\"bold\"", run.name);
        svg += &imbalance_panel(place, rows);
        svg += &hits_panel(place, rows);
    }
    let y = corner(RUNS.len(), 0).1 - 8.0;
    let sizes = [(C_STROKE, "lines (C)"), (K_STROKE, "records (K)")];
    let imbalances = [
        (NOW_STROKE, "imbalance, as judged"),
        (AIM_STROKE, "imbalance aimed at"),
        (EPOCH_STROKE, "imbalance of each epoch"),
    ];
    let hits = [
        (NOW_STROKE, "hits per line"),
        (AIM_STROKE, "target hits per line"),
    ];
    svg += &legend(0, y, &[&sizes[..], &imbalances].concat());
    svg += &legend(1, y, &[&sizes[..], &hits].concat());
    let note = format!(
        "{} keys, {STORES} stores, {} reads in an epoch",
        grouped(KEYS),
        grouped(READS)
    );
    svg += &text(corner(0, 1).0, y + 44.5, START, &note);
    svg + "</svg>\n"
}

fn main() {
    let words: Vec<String> = std::env::args().skip(1).collect();
    if words.len() != 1 {
        eprintln!("usage: elastic PLOT.svg");
        std::process::exit(2);
    }
    assert!(MAX_RECORDS <= READS, "an epoch of fewer reads than records");
    let stores = stores();
    let keys = draw_keys();
    print_setting(&stores);
    let mut all = Vec::new();
    for run in &RUNS {
        let rows = simulate(run, &keys, &stores);
        print_rows(run, &rows);
        all.push(rows);
    }
    if let Err(error) = std::fs::write(&words[0], plot(&all)) {
        eprintln!("{}: {error}", words[0]);
        std::process::exit(1);
    }
}
