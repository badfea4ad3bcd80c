//! Groups (e) and (f): which store to fetch from. Random rings, and the rules of document 02's
//! Ask 6 on rings worked out by hand.

use crate::examples::Example;
use crate::harness;
use crate::model::{
    doubled_positions, points_of, ring_of, wrong_ring, Model, Path, Point, MOST_POINTS,
    POINT_BYTES, STORE_BYTES,
};
use crate::random::Random;
use crate::Counts;
use std::collections::BTreeSet;

// ---------------------------------------------------------------------------------------------
// Group (e): random rings
// ---------------------------------------------------------------------------------------------

/// Every answer. Each must come.
pub const ANSWERS: [&str; 4] = ["store 0", "store 1", "store 12", "store 11"];

/// What the model names of a done and of a 12. Each must come.
const STEPS: [&str; 10] = [
    "12: no point",
    "12: not whole points",
    "12: over 1,024 points",
    "store: ahead",
    "store: wraps",
    "store: distance 0",
    "store: distance 1",
    "store: distance of 2^63 or more",
    "store: the first point",
    "store: the last point",
];

/// The causes that hold, in the order of tests. Every set of them must come.
const CAUSES: [&str; 8] = [
    "no cause",
    "cause 1",
    "cause 12",
    "cause 11",
    "cause 1 and 12",
    "cause 1 and 11",
    "cause 12 and 11",
    "cause 1 and 12 and 11",
];

/// Counts of points that must be accepted, besides others.
const SIZES: [usize; 8] = [1, 2, 3, 64, 255, 256, 1_023, 1_024];

/// A position out of some, for a ring of so many points near a base.
type SomePosition = fn(u64, u64, &mut Random) -> u64;

/// Kinds of positions. Each must come in accepted rings and with doubled positions.
const KINDS: [(&str, SomePosition); 13] = [
    ("uniform", |_, _, random| random.next()),
    ("small numbers", |_, count, random| random.below(4 * count)),
    ("near 0 and near 2^64", |_, count, random| {
        random.below(4 * count).wrapping_sub(2 * count)
    }),
    ("near 2^63", |_, count, random| {
        (1 << 63) + random.below(4 * count) - 2 * count
    }),
    ("near 2^32", |_, count, random| {
        (1 << 32) + random.below(4 * count) - 2 * count
    }),
    ("near a base", |base, count, random| {
        base.wrapping_add(random.below(4 * count))
    }),
    ("multiples of 2^32", |_, _, random| {
        random.below(1 << 32) << 32
    }),
    ("multiples of 2^56", |_, _, random| random.below(256) << 56),
    ("equal in the low byte", |base, _, random| {
        random.next() & !0xff | base & 0xff
    }),
    ("equal in the low half", |base, _, random| {
        random.next() & !0xffff_ffff | base & 0xffff_ffff
    }),
    ("equal in the high half", |base, _, random| {
        base & !0xffff_ffff | random.below(1 << 32)
    }),
    ("one bit from a base", |base, _, random| {
        base ^ (1 << random.below(64))
    }),
    ("equal steps", |base, count, random| {
        let step = u64::MAX / (2 * count) + 1;
        base.wrapping_add(random.below(2 * count).wrapping_mul(step))
    }),
];

/// Orders of the list. Each must come in accepted rings and with doubled positions.
const ORDERS: [&str; 7] = [
    "shuffled",
    "ascending",
    "descending",
    "organ pipe",
    "sawtooth",
    "nearly sorted",
    "turned",
];

/// Where doubled positions are put. Each must come.
const DOUBLED: [&str; 5] = [
    "doubled: neighbours",
    "doubled: first and last",
    "doubled: anywhere",
    "doubled: several",
    "doubled: all",
];

/// A ring as it is lent.
struct Case {
    kind: &'static str,
    order: &'static str,
    doubled: Option<&'static str>,
    base: u64,
    points: Vec<Point>,
    ring: Vec<u8>,
    /// Whether two of the ring's whole points are at one position.
    is_doubled: bool,
}

/// Runs the random rings. Stops at the first difference. Gives how many calls.
pub fn run(seed: u64, rings: u64, model: &Model, counts: &mut Counts) -> Result<u64, String> {
    let mut calls = 0;
    for number in 0..rings {
        let mut random = Random::new(seed, 6, number);
        let case = some_ring(&mut random);
        for _ in 0..4 {
            let position = some_key(&case, &mut random);
            let length = if random.chance(8) {
                random.pick(&[0, 1, 7, 9, 12, 15, 16, 24])
            } else {
                STORE_BYTES
            };
            let store = random.bytes(length);
            let mut path = Path::new();
            let (found, _) =
                harness::store(model, &case.ring, position, &store, &mut random, &mut path)
                    .map_err(|text| format!("seed {seed}, random ring {number}: {text}"))?;
            count(&case, length, found, &path, counts);
            calls += 1;
        }
    }
    let mut names: Vec<String> = Vec::new();
    for answer in ["0", "11"] {
        let kinds = KINDS.iter().map(|(name, _)| *name);
        names.extend(
            kinds
                .chain(ORDERS)
                .map(|name| format!("store {answer}: {name}")),
        );
    }
    names.extend(SIZES.map(|size| format!("store 0: {size} points")));
    let rest = ANSWERS.iter().chain(&STEPS).chain(&CAUSES).chain(&DOUBLED);
    names.extend(rest.map(|name| name.to_string()));
    match names.iter().find(|name| counts.of(name) == 0) {
        None => Ok(calls),
        Some(name) => Err(format!("seed {seed}, {rings} rings: '{name}' never came")),
    }
}

/// Counts what came in a call.
fn count(case: &Case, length: usize, found: u64, path: &Path, counts: &mut Counts) {
    counts.add(&format!("store {found}"));
    for step in path {
        counts.add(step);
    }
    let size = case.ring.len() / POINT_BYTES;
    let held: Vec<&str> = [
        ("1", length != STORE_BYTES),
        ("12", !wrong_ring(&case.ring).is_empty()),
        ("11", case.is_doubled),
    ]
    .into_iter()
    .filter_map(|(number, holds)| holds.then_some(number))
    .collect();
    if held.is_empty() {
        counts.add("no cause");
    } else {
        counts.add(&format!("cause {}", held.join(" and ")));
    }
    if found == 0 || found == 11 {
        counts.add(&format!("store {found}: {}", case.kind));
        counts.add(&format!("store {found}: {}", case.order));
    }
    if found == 0 && SIZES.contains(&size) {
        counts.add(&format!("store 0: {size} points"));
    }
    if found == 11 {
        counts.add(case.doubled.expect("a ring with doubled positions"));
    }
}

/// A ring of any kind, in any order, with and without doubled positions, of any length.
fn some_ring(random: &mut Random) -> Case {
    let wanted = match random.below(20) {
        0..=11 => random.between(1, 24),
        12..=16 => random.between(1, 256),
        17..=18 => random.pick(&SIZES) as u64,
        _ => random.between(1, MOST_POINTS as u64),
    };
    let (kind, some_position) = random.pick(&KINDS);
    let base = random.next();
    let mut positions = distinct(wanted, base, some_position, random);
    let order = random.pick(&ORDERS);
    put_in_order(&mut positions, order, random);
    let doubled = if positions.len() > 1 && random.chance(40) {
        let doubled = random.pick(&DOUBLED);
        double(&mut positions, doubled, random);
        Some(doubled)
    } else {
        None
    };
    let points = with_stores(&positions, random);
    let mut ring = ring_of(&points);
    if random.chance(12) {
        spoil_length(&mut ring, random);
    }
    let is_doubled = doubled_positions(&points_of(&ring), false);
    Case {
        kind,
        order,
        doubled,
        base,
        points,
        ring,
        is_doubled,
    }
}

/// Different positions, as many as wanted where there are so many of the kind.
fn distinct(wanted: u64, base: u64, some_position: SomePosition, random: &mut Random) -> Vec<u64> {
    let mut positions = BTreeSet::new();
    for _ in 0..10 * wanted {
        if positions.len() as u64 == wanted {
            break;
        }
        positions.insert(some_position(base, wanted, random));
    }
    positions.into_iter().collect()
}

/// Puts ascending positions in another order.
fn put_in_order(positions: &mut Vec<u64>, order: &str, random: &mut Random) {
    let count = positions.len();
    match order {
        "shuffled" => shuffle(positions, random),
        "descending" => positions.reverse(),
        "organ pipe" => {
            let up = positions.iter().step_by(2);
            let down = positions.iter().skip(1).step_by(2).rev();
            *positions = up.chain(down).copied().collect();
        }
        "sawtooth" => {
            let teeth = random.place(count) + 1;
            let tooth = |first| positions.iter().skip(first).step_by(teeth);
            *positions = (0..teeth).flat_map(tooth).copied().collect();
        }
        "nearly sorted" => {
            for _ in 0..=random.place(3) {
                positions.swap(random.place(count), random.place(count));
            }
        }
        "turned" => positions.rotate_left(random.place(count)),
        _ => {}
    }
}

fn shuffle<T>(list: &mut [T], random: &mut Random) {
    for place in (1..list.len()).rev() {
        list.swap(place, random.place(place + 1));
    }
}

/// Gives points the positions of others. There are at least two.
fn double(positions: &mut [u64], doubled: &str, random: &mut Random) {
    let count = positions.len();
    match doubled {
        "doubled: neighbours" => {
            let place = random.place(count - 1);
            positions[place + 1] = positions[place];
        }
        "doubled: first and last" => positions[count - 1] = positions[0],
        "doubled: all" => positions.fill(positions[0]),
        _ => {
            let pairs = if doubled == "doubled: several" { 3 } else { 1 };
            for _ in 0..pairs {
                let from = random.place(count);
                let to = (from + 1 + random.place(count - 1)) % count;
                positions[to] = positions[from];
            }
        }
    }
}

/// Points with any stores, with few, with one, or with a store of its own each.
fn with_stores(positions: &[u64], random: &mut Random) -> Vec<Point> {
    let kind = random.below(4);
    let one = random.pick(&[0, 1, 1 << 32, u64::MAX]);
    let store = |place: usize, random: &mut Random| match kind {
        0 => random.next(),
        1 => random.pick(&[0, 1, 2, 3, 256, 1 << 32, 1 << 63, u64::MAX]),
        2 => one,
        _ => place as u64,
    };
    let places = positions.iter().enumerate();
    places
        .map(|(place, position)| Point {
            position: *position,
            store: store(place, random),
        })
        .collect()
}

/// Makes the ring's length a wrong one, by bytes cut off or any bytes added.
fn spoil_length(ring: &mut Vec<u8>, random: &mut Random) {
    match random.below(4) {
        0 => ring.clear(),
        1 => ring.truncate(ring.len() - 1 - random.place(POINT_BYTES - 1)),
        2 => {
            let more = 1 + random.place(POINT_BYTES - 1);
            ring.extend(random.bytes(more));
        }
        _ => {
            let most = POINT_BYTES * MOST_POINTS;
            let more = random.pick(&[1, 15, 16, 17, 32, 160, 1_024]);
            let added = (most + more).saturating_sub(ring.len());
            ring.extend(random.bytes(added));
        }
    }
}

/// The position of a key: anywhere, on a point, just past or just before one, at the ends.
fn some_key(case: &Case, random: &mut Random) -> u64 {
    let point = random.pick(&case.points).position;
    match random.below(9) {
        0 | 1 => point,
        2 => point.wrapping_add(1),
        3 => point.wrapping_sub(1),
        4 => random.pick(&[0, 1, u64::MAX - 1, u64::MAX, 1 << 63, (1 << 63) - 1]),
        5 => case.base,
        6 => point ^ (1 << random.below(64)),
        _ => random.next(),
    }
}

// ---------------------------------------------------------------------------------------------
// Group (f): examples
// ---------------------------------------------------------------------------------------------

/// Document 02's sentences on rings.
const RING: &str = "A ring is a lent list of 1 to 1,024 points, each 16 bytes: a 64-bit position \
                    and a 64-bit store number.";
const NEAREST: &str = "Its store is that of the point with the smallest clockwise distance, which \
                       is point minus key position, wrapped at 64 bits.";
const ADDING: &str = "Where both rings are accepted, adding a point may move only keys that now \
                      go to it";
const REMOVING: &str = "and removing one only keys that had it";
const DOUBLES: &str = "11, two points at one position";
const LENGTHS: &str = "12, a ring of no point, over 1,024 or not whole points, tested before 11";

/// Document 01's sentences on lengths and on what stays.
const COUNT: &str = "A length that isn't whole is refused as a wrong count.";
const STAYS: &str = "Lent bytes that no rule changes keep their values.";

pub const EXAMPLES: [Example; 34] = [
    ("store: on a point", NEAREST, on_a_point),
    ("store: beside a point", NEAREST, beside_a_point),
    ("store: past the end", NEAREST, past_the_end),
    ("store: all points below", NEAREST, all_points_below),
    ("store: both ends", NEAREST, both_ends),
    ("store: half way round", NEAREST, half_way_round),
    ("store: high halves", NEAREST, high_halves),
    ("store: low halves", NEAREST, low_halves),
    ("store: every bit", NEAREST, every_bit),
    ("store: every place", NEAREST, every_place),
    ("store: every order", NEAREST, every_order),
    ("store: shuffled", NEAREST, shuffled),
    ("store: numbers", RING, store_numbers),
    (
        "store: of several points",
        RING,
        one_store_of_several_points,
    ),
    ("store: one point", RING, one_point),
    ("store: most points", RING, most_points),
    ("store: counts", RING, counts_of_points),
    ("store: point added", ADDING, point_added),
    ("store: points added", ADDING, points_added),
    ("store: point removed", REMOVING, point_removed),
    ("store: points removed", REMOVING, points_removed),
    ("store: not both accepted", ADDING, not_both_accepted),
    ("store: doubled, every pair", DOUBLES, every_pair),
    ("store: doubled of most", DOUBLES, doubled_of_most),
    ("store: doubled, one store", DOUBLES, doubled_at_one_store),
    ("store: doubled, every key", DOUBLES, doubled_for_every_key),
    (
        "store: three at one position",
        DOUBLES,
        three_at_one_position,
    ),
    ("store: not doubled", DOUBLES, not_doubled),
    ("store: every length", LENGTHS, every_length),
    ("store: large lengths", LENGTHS, large_lengths),
    ("store: 12 before 11", LENGTHS, length_before_doubled),
    (
        "store: every length of the store",
        COUNT,
        every_store_length,
    ),
    ("store: 1 before 12 and 11", COUNT, store_length_before_all),
    ("store: 8 bytes written", STAYS, eight_bytes_written),
];

const HALF: u64 = 1 << 63;
const LAST: u64 = u64::MAX;

/// Points of these positions and stores.
fn points<const N: usize>(list: [(u64, u64); N]) -> Vec<Point> {
    list.map(|(position, store)| Point { position, store })
        .into()
}

/// So many points far from each other in no order, each with the store of its place.
fn scattered(count: usize, random: &mut Random) -> Vec<Point> {
    let positions = distinct(count as u64, 0, |_, _, random| random.next(), random);
    let mut positions: Vec<u64> = positions.into_iter().collect();
    shuffle(&mut positions, random);
    let places = positions.into_iter().enumerate();
    places
        .map(|(place, position)| Point {
            position,
            store: place as u64,
        })
        .collect()
}

/// Asks the library and the model.
struct Desk<'a> {
    model: &'a Model,
    random: Random,
}

impl<'a> Desk<'a> {
    fn new(model: &'a Model, seed: u64) -> Desk<'a> {
        Desk {
            model,
            random: Random::new(seed, 7, 0),
        }
    }

    /// The number, and the store bytes after the call.
    fn ask(&mut self, ring: &[u8], position: u64, length: usize) -> Result<(u64, Vec<u8>), String> {
        let store = self.random.bytes(length);
        let mut path = Path::new();
        let random = &mut self.random;
        harness::store(self.model, ring, position, &store, random, &mut path)
    }

    /// The store of a key.
    fn store(&mut self, points: &[Point], position: u64) -> Result<u64, String> {
        match self.ask(&ring_of(points), position, STORE_BYTES)? {
            (0, store) => Ok(u64::from_le_bytes(store.try_into().expect("8 bytes"))),
            (other, _) => Err(format!("returned {other}, and 0 is due")),
        }
    }

    /// The store of the key must be as given.
    fn goes(&mut self, points: &[Point], position: u64, due: u64) -> Result<(), String> {
        let found = self.store(points, position)?;
        if found != due {
            return Err(format!("{position} goes to {found}, and {due} is due"));
        }
        Ok(())
    }

    /// With this ring and a store of this length the call must return the number.
    fn refuses(&mut self, number: u64, ring: &[u8], length: usize) -> Result<(), String> {
        let position = self.random.next();
        let (found, _) = self.ask(ring, position, length)?;
        if found != number {
            let bytes = ring.len();
            return Err(format!(
                "ring of {bytes} bytes, store of {length}: returned {found}, and {number} is due"
            ));
        }
        Ok(())
    }

    /// The points must be refused as doubled.
    fn doubled(&mut self, points: &[Point]) -> Result<(), String> {
        self.refuses(11, &ring_of(points), STORE_BYTES)
    }
}

fn on_a_point(model: &Model, seed: u64) -> Result<(), String> {
    let mut desk = Desk::new(model, seed);
    let ring = points([(300, 3), (100, 1), (200, 2)]);
    desk.goes(&ring, 100, 1)?;
    desk.goes(&ring, 200, 2)?;
    desk.goes(&ring, 300, 3)
}

fn beside_a_point(model: &Model, seed: u64) -> Result<(), String> {
    let mut desk = Desk::new(model, seed);
    for ring in [
        points([(100, 1), (200, 2), (300, 3)]),
        points([(200, 2), (300, 3), (100, 1)]),
    ] {
        for (key, store) in [(99, 1), (101, 2), (199, 2), (201, 3), (299, 3), (301, 1)] {
            desk.goes(&ring, key, store)?;
        }
    }
    Ok(())
}

fn past_the_end(model: &Model, seed: u64) -> Result<(), String> {
    let mut desk = Desk::new(model, seed);
    for ring in [points([(0, 8), (5, 9)]), points([(5, 9), (0, 8)])] {
        for (key, store) in [(LAST, 8), (0, 8), (1, 9), (5, 9), (6, 8), (HALF, 8)] {
            desk.goes(&ring, key, store)?;
        }
    }
    // To 1 it is 2, and to 2^64 - 2 it is 2^64 - 1.
    let ring = points([(LAST - 1, 8), (1, 9)]);
    desk.goes(&ring, LAST, 9)
}

fn all_points_below(model: &Model, seed: u64) -> Result<(), String> {
    let mut desk = Desk::new(model, seed);
    for ring in [
        points([(10, 1), (20, 2), (30, 3)]),
        points([(30, 3), (20, 2), (10, 1)]),
        points([(20, 2), (10, 1), (30, 3)]),
    ] {
        for key in [31, 40, 1_000_000, HALF, LAST] {
            desk.goes(&ring, key, 1)?;
        }
    }
    Ok(())
}

fn both_ends(model: &Model, seed: u64) -> Result<(), String> {
    let mut desk = Desk::new(model, seed);
    for ring in [points([(0, 8), (LAST, 9)]), points([(LAST, 9), (0, 8)])] {
        desk.goes(&ring, 0, 8)?;
        for key in [1, 2, HALF - 1, HALF, HALF + 1, LAST - 1, LAST] {
            desk.goes(&ring, key, 9)?;
        }
    }
    Ok(())
}

/// Distances of 2^63 and more, which are below 0 if read as signed.
fn half_way_round(model: &Model, seed: u64) -> Result<(), String> {
    let mut desk = Desk::new(model, seed);
    for key in [0, 1, 77, HALF - 1, HALF, HALF + 1, LAST] {
        let at = |distance: u64| key.wrapping_add(distance);
        for ring in [
            points([(at(HALF - 1), 1), (at(HALF), 2), (at(HALF + 1), 3)]),
            points([(at(HALF + 1), 3), (at(HALF), 2), (at(HALF - 1), 1)]),
        ] {
            desk.goes(&ring, key, 1)?;
        }
        desk.goes(&points([(at(HALF + 1), 3), (at(HALF), 2)]), key, 2)?;
        desk.goes(&points([(at(LAST), 4), (at(HALF + 1), 3)]), key, 3)?;
        desk.goes(&points([(at(LAST), 4), (at(LAST - 1), 5)]), key, 5)?;
        desk.goes(&points([(at(LAST), 4), (at(0), 6)]), key, 6)?;
    }
    Ok(())
}

fn high_halves(model: &Model, seed: u64) -> Result<(), String> {
    let mut desk = Desk::new(model, seed);
    let low = 0x89ab_cdef;
    let at = |high: u64| high << 32 | low;
    let ring = points([(at(7), 7), (at(1), 1), (at(0xffff_ffff), 9), (at(4), 4)]);
    desk.goes(&ring, at(0), 1)?;
    desk.goes(&ring, at(1), 1)?;
    desk.goes(&ring, at(1) + 1, 4)?;
    desk.goes(&ring, at(4), 4)?;
    desk.goes(&ring, at(5), 7)?;
    desk.goes(&ring, at(7), 7)?;
    desk.goes(&ring, at(8), 9)?;
    desk.goes(&ring, at(0xffff_ffff), 9)?;
    desk.goes(&ring, at(0xffff_ffff) + 1, 1)
}

fn low_halves(model: &Model, seed: u64) -> Result<(), String> {
    let mut desk = Desk::new(model, seed);
    let high = 0x89ab_cdef << 32;
    let at = |low: u64| high | low;
    let ring = points([(at(7), 7), (at(1), 1), (at(0xffff_ffff), 9), (at(4), 4)]);
    desk.goes(&ring, 0, 1)?;
    desk.goes(&ring, at(0), 1)?;
    desk.goes(&ring, at(1), 1)?;
    desk.goes(&ring, at(2), 4)?;
    desk.goes(&ring, at(6), 7)?;
    desk.goes(&ring, at(8), 9)?;
    desk.goes(&ring, at(0xffff_ffff), 9)?;
    desk.goes(&ring, at(0xffff_ffff) + 1, 1)?;
    desk.goes(&ring, LAST, 1)
}

/// Two positions that differ in one bit are two positions, and each bit counts for the distance.
fn every_bit(model: &Model, seed: u64) -> Result<(), String> {
    let mut desk = Desk::new(model, seed);
    for base in [0, LAST, 0x0123_4567_89ab_cdef] {
        for bit in 0..64 {
            let low = base & !(1 << bit);
            let high = base | 1 << bit;
            for ring in [points([(low, 1), (high, 2)]), points([(high, 2), (low, 1)])] {
                desk.goes(&ring, low, 1)?;
                desk.goes(&ring, high, 2)?;
                desk.goes(&ring, low + 1, 2)?;
                desk.goes(&ring, high.wrapping_add(1), 1)?;
            }
        }
    }
    Ok(())
}

/// The nearest point in every place of lists of some lengths; all others are farther, near or far.
fn every_place(model: &Model, seed: u64) -> Result<(), String> {
    let mut desk = Desk::new(model, seed);
    for count in [1, 2, 3, 7, 8, 64] {
        for place in 0..count {
            let key = desk.random.next();
            let mut ring = scattered(count, &mut desk.random);
            for point in &mut ring {
                point.position = key.wrapping_add(1_000 + point.store);
            }
            ring[place].position = key.wrapping_add(999);
            desk.goes(&ring, key, place as u64)?;
            ring[place].position = key;
            desk.goes(&ring, key, place as u64)?;
        }
    }
    Ok(())
}

/// Every order of five points.
fn every_order(model: &Model, seed: u64) -> Result<(), String> {
    let mut desk = Desk::new(model, seed);
    let all = [(3, 1), (40, 2), (HALF, 3), (HALF + 1, 4), (LAST - 5, 5)];
    let keys = [
        (0, 1),
        (3, 1),
        (4, 2),
        (41, 3),
        (HALF + 1, 4),
        (HALF + 2, 5),
        (LAST, 1),
    ];
    let mut orders = 0;
    for number in 0..5_usize.pow(5) {
        let order = [1, 5, 25, 125, 625].map(|unit| number / unit % 5);
        if order.iter().collect::<BTreeSet<_>>().len() == 5 {
            let ring = points(order.map(|place| all[place]));
            for (key, store) in keys {
                desk.goes(&ring, key, store)?;
            }
            orders += 1;
        }
    }
    if orders != 120 {
        return Err(format!("{orders} orders, and 120 are due"));
    }
    Ok(())
}

/// A ring in two orders gives the same stores.
fn shuffled(model: &Model, seed: u64) -> Result<(), String> {
    let mut desk = Desk::new(model, seed);
    for count in [2, 5, 30, 200, 1_024] {
        let ring = scattered(count, &mut desk.random);
        let mut again = ring.clone();
        for turn in 0..20 {
            match turn {
                0 => again.sort_by_key(|point| point.position),
                1 => again.reverse(),
                _ => shuffle(&mut again, &mut desk.random),
            }
            let point = desk.random.pick(&ring).position;
            for key in [desk.random.next(), point.wrapping_add(1)] {
                let store = desk.store(&ring, key)?;
                desk.goes(&again, key, store)?;
            }
        }
    }
    Ok(())
}

fn store_numbers(model: &Model, seed: u64) -> Result<(), String> {
    let mut desk = Desk::new(model, seed);
    let mut numbers = vec![0, LAST, LAST - 1, HALF - 1, 0x0123_4567_89ab_cdef];
    numbers.extend((0..64).map(|bit| 1 << bit));
    for number in numbers {
        desk.goes(&points([(10, number)]), 5, number)?;
        desk.goes(&points([(20, !number), (10, number)]), 5, number)?;
        desk.goes(&points([(10, number), (20, !number)]), 15, !number)?;
    }
    Ok(())
}

fn one_store_of_several_points(model: &Model, seed: u64) -> Result<(), String> {
    let mut desk = Desk::new(model, seed);
    let ring = points([(50, 4), (10, 4), (30, 6), (70, 4), (60, 6)]);
    for (key, store) in [
        (0, 4),
        (11, 6),
        (31, 4),
        (51, 6),
        (61, 4),
        (71, 4),
        (LAST, 4),
    ] {
        desk.goes(&ring, key, store)?;
    }
    let ring = points([(50, LAST), (10, LAST), (30, LAST)]);
    for key in [0, 10, 11, 31, 51, LAST] {
        desk.goes(&ring, key, LAST)?;
    }
    Ok(())
}

fn one_point(model: &Model, seed: u64) -> Result<(), String> {
    let mut desk = Desk::new(model, seed);
    for position in [0, 1, 500, HALF, LAST - 1, LAST] {
        let ring = points([(position, 17)]);
        for key in [
            0,
            1,
            499,
            500,
            501,
            HALF - 1,
            HALF,
            HALF + 1,
            LAST - 1,
            LAST,
        ] {
            desk.goes(&ring, key, 17)?;
        }
    }
    Ok(())
}

fn most_points(model: &Model, seed: u64) -> Result<(), String> {
    let mut desk = Desk::new(model, seed);
    let mut ring = scattered(MOST_POINTS, &mut desk.random);
    for place in [0, 1, 2, 255, 256, 511, 512, 700, 1_021, 1_022, 1_023] {
        desk.goes(&ring, ring[place].position, place as u64)?;
    }
    // One point behind the other all round.
    for point in &mut ring {
        point.position = point.store << 54;
    }
    for place in [0, 1, 2, 255, 256, 511, 512, 700, 1_021, 1_022, 1_023] {
        desk.goes(&ring, ring[place].position, place as u64)?;
        desk.goes(&ring, ring[place].position + 1, (place as u64 + 1) % 1_024)?;
    }
    desk.goes(&ring, LAST, 0)
}

/// Counts of points that are accepted: every one to 300, and every third from there to 1,024.
fn counts_of_points(model: &Model, seed: u64) -> Result<(), String> {
    let mut desk = Desk::new(model, seed);
    let ring = scattered(MOST_POINTS, &mut desk.random);
    for count in (1..=300).chain((301..=MOST_POINTS).step_by(3)) {
        let last = ring[count - 1];
        desk.goes(&ring[..count], last.position, last.store)?;
    }
    Ok(())
}

/// Every key near three points, before and after the point at 150 is added.
fn point_added(model: &Model, seed: u64) -> Result<(), String> {
    let mut desk = Desk::new(model, seed);
    let less = points([(200, 2), (100, 1)]);
    for more in [
        points([(200, 2), (100, 1), (150, 3)]),
        points([(150, 3), (200, 2), (100, 1)]),
    ] {
        for key in 0..=300 {
            let before = if (101..=200).contains(&key) { 2 } else { 1 };
            let after = if (101..=150).contains(&key) {
                3
            } else {
                before
            };
            desk.goes(&less, key, before)?;
            desk.goes(&more, key, after)?;
        }
        desk.goes(&less, LAST, 1)?;
        desk.goes(&more, LAST, 1)?;
    }
    Ok(())
}

/// Every key near three points, before and after the point is removed that keys past the end have.
fn point_removed(model: &Model, seed: u64) -> Result<(), String> {
    let mut desk = Desk::new(model, seed);
    let more = points([(200, 2), (100, 1), (150, 3)]);
    let less = points([(200, 2), (150, 3)]);
    for key in (0..=300).chain(LAST - 20..=LAST) {
        let before = match key {
            101..=150 => 3,
            151..=200 => 2,
            _ => 1,
        };
        let after = if before == 1 { 3 } else { before };
        desk.goes(&more, key, before)?;
        desk.goes(&less, key, after)?;
    }
    Ok(())
}

/// Asks for many keys' stores of two rings of random points, one of which has one point more. Gives
/// for each key the point's store, the store with fewer points, and the store with more.
fn with_one_more(model: &Model, seed: u64) -> Result<Vec<[u64; 3]>, String> {
    const RINGS: usize = 150;
    let mut desk = Desk::new(model, seed);
    let mut stores = Vec::new();
    for number in 0..RINGS {
        let count = match number {
            0..=9 => 1,
            10..=19 => 2,
            20..=24 => MOST_POINTS - 1,
            _ => 1 + desk.random.place(40),
        };
        let (_, some_position) = desk.random.pick(&KINDS);
        let base = desk.random.next();
        let mut positions = distinct(count as u64 + 1, base, some_position, &mut desk.random);
        shuffle(&mut positions, &mut desk.random);
        // Each point has a store of its own, or few have.
        let few = desk.random.chance(30);
        let store = |place: usize| if few { place % 3 } else { place } as u64;
        let places = positions.into_iter().enumerate();
        let more: Vec<Point> = places
            .map(|(place, position)| Point {
                position,
                store: store(place),
            })
            .collect();
        let mut less = more.clone();
        let point = less.remove(desk.random.place(more.len()));
        for turn in 0..if count > 100 { 10 } else { 40 } {
            let near = desk.random.pick(&more).position;
            let key = match turn % 5 {
                0 => desk.random.next(),
                1 => near,
                2 => near.wrapping_add(1),
                3 => point.position.wrapping_sub(desk.random.below(3)),
                _ => near.wrapping_sub(desk.random.below(1_000)),
            };
            let stores_of_key = [desk.store(&less, key)?, desk.store(&more, key)?];
            stores.push([point.store, stores_of_key[0], stores_of_key[1]]);
        }
    }
    let moved = stores.iter().filter(|[_, less, more]| less != more).count();
    if moved == 0 || moved == stores.len() {
        return Err(format!("{moved} of {} keys moved", stores.len()));
    }
    Ok(stores)
}

fn points_added(model: &Model, seed: u64) -> Result<(), String> {
    for [added, before, after] in with_one_more(model, seed)? {
        if after != before && after != added {
            return Err(format!(
                "a key moved from {before} to {after} as a point of {added} was added"
            ));
        }
    }
    Ok(())
}

fn points_removed(model: &Model, seed: u64) -> Result<(), String> {
    for [removed, after, before] in with_one_more(model, seed.wrapping_add(1))? {
        if after != before && before != removed {
            return Err(format!(
                "a key moved from {before} to {after} as a point of {removed} was removed"
            ));
        }
    }
    Ok(())
}

/// One point too many, one at a position that there is, and the only one removed.
fn not_both_accepted(model: &Model, seed: u64) -> Result<(), String> {
    let mut desk = Desk::new(model, seed);
    let mut ring = scattered(MOST_POINTS + 1, &mut desk.random);
    desk.refuses(12, &ring_of(&ring), STORE_BYTES)?;
    let last = ring.pop().expect("1,025 points");
    desk.goes(&ring, ring[7].position, 7)?;
    ring[7] = last;
    desk.goes(&ring, last.position, last.store)?;
    ring[1_000].position = last.position;
    desk.doubled(&ring)?;
    desk.goes(&ring[..1], ring[0].position, 0)?;
    desk.refuses(12, &[], STORE_BYTES)
}

/// Each pair of points of a ring at one position: neighbours, first and last, all others.
fn every_pair(model: &Model, seed: u64) -> Result<(), String> {
    let mut desk = Desk::new(model, seed);
    for count in (2..=20).chain([33, 64]) {
        let ring = scattered(count, &mut desk.random);
        for first in 0..count {
            for second in first + 1..count {
                let mut doubled = ring.clone();
                doubled[second].position = doubled[first].position;
                desk.doubled(&doubled)?;
            }
        }
    }
    Ok(())
}

fn doubled_of_most(model: &Model, seed: u64) -> Result<(), String> {
    let mut desk = Desk::new(model, seed);
    let mut ascending = scattered(MOST_POINTS, &mut desk.random);
    let shuffled = ascending.clone();
    ascending.sort_by_key(|point| point.position);
    let mut pairs = vec![(0, 1), (0, 2), (0, 512), (0, 1_023), (1, 1_022), (300, 900)];
    pairs.extend([(511, 512), (511, 1_023), (1_021, 1_023), (1_022, 1_023)]);
    // And places all along the list, each with any other.
    for first in (0..MOST_POINTS).step_by(5) {
        let away = 1 + desk.random.place(MOST_POINTS - 1);
        pairs.push((first, (first + away) % MOST_POINTS));
    }
    for ring in [ascending, shuffled] {
        for &(first, second) in &pairs {
            let mut doubled = ring.clone();
            doubled[first].position = doubled[second].position;
            desk.doubled(&doubled)?;
        }
    }
    Ok(())
}

/// At one store and at two, and of one byte pattern or another.
fn doubled_at_one_store(model: &Model, seed: u64) -> Result<(), String> {
    let mut desk = Desk::new(model, seed);
    for position in [0, 1, 50, HALF, LAST] {
        for (one, other) in [(7, 7), (7, 8), (0, 0), (0, LAST), (LAST, LAST)] {
            desk.doubled(&points([(position, one), (position, other)]))?;
            desk.doubled(&points([(position, one), (77, 5), (position, other)]))?;
            desk.doubled(&points([(77, 5), (position, one), (position, other)]))?;
            desk.doubled(&points([(position, one), (position, other), (77, 5)]))?;
        }
    }
    Ok(())
}

/// Also for keys that have another point on them or just in front.
fn doubled_for_every_key(model: &Model, seed: u64) -> Result<(), String> {
    let mut desk = Desk::new(model, seed);
    for ring in [
        points([(10, 1), (20, 2), (1_000_000, 3), (1_000_000, 4)]),
        points([(1_000_000, 3), (10, 1), (20, 2), (1_000_000, 4)]),
        points([(1_000_000, 3), (1_000_000, 3), (10, 1), (20, 2)]),
    ] {
        let ring = ring_of(&ring);
        for key in [
            0, 9, 10, 11, 19, 20, 21, 999_999, 1_000_000, 1_000_001, HALF, LAST,
        ] {
            let (found, _) = desk.ask(&ring, key, STORE_BYTES)?;
            if found != 11 {
                return Err(format!("{key} returned {found}, and 11 is due"));
            }
        }
    }
    Ok(())
}

fn three_at_one_position(model: &Model, seed: u64) -> Result<(), String> {
    let mut desk = Desk::new(model, seed);
    desk.doubled(&points([(5, 1), (5, 2), (5, 3)]))?;
    desk.doubled(&points([(5, 1), (6, 2), (5, 3), (7, 4), (5, 5)]))?;
    desk.doubled(&points([(6, 2), (5, 1), (5, 3), (5, 5), (7, 4)]))?;
    // Two pairs.
    desk.doubled(&points([(5, 1), (6, 2), (5, 3), (6, 4)]))?;
    desk.doubled(&points([(5, 1), (6, 2), (6, 3), (5, 4)]))?;
    // All of them.
    let mut ring = scattered(MOST_POINTS, &mut desk.random);
    for point in &mut ring {
        point.position = 9;
    }
    desk.doubled(&ring)
}

/// Equal stores, and numbers that are a position in one point and a store in another.
fn not_doubled(model: &Model, seed: u64) -> Result<(), String> {
    let mut desk = Desk::new(model, seed);
    desk.goes(&points([(5, 7), (6, 7), (7, 7)]), 6, 7)?;
    desk.goes(&points([(5, 6), (6, 5)]), 5, 6)?;
    desk.goes(&points([(5, 5), (6, 6)]), 6, 6)?;
    desk.goes(&points([(5, 0), (0, 5)]), 6, 5)?;
    desk.goes(&points([(0, 0)]), 0, 0)?;
    // The last byte of a position and the first of a store, one after the other.
    desk.goes(&points([(1, 1 << 56), (1 << 56, 1)]), 2, 1)?;
    let mut ring = scattered(MOST_POINTS, &mut desk.random);
    for point in &mut ring {
        point.store = 3;
    }
    desk.goes(&ring, 0, 3)
}

/// Every length from none to past 1,024 points that is not of 1 to 1,024 whole points.
fn every_length(model: &Model, seed: u64) -> Result<(), String> {
    let mut desk = Desk::new(model, seed);
    let ring = ring_of(&scattered(MOST_POINTS + 3, &mut desk.random));
    let mut wrong = 0;
    for length in 0..=POINT_BYTES * MOST_POINTS + 40 {
        let whole = length % POINT_BYTES == 0;
        if !whole || length == 0 || length > POINT_BYTES * MOST_POINTS {
            desk.refuses(12, &ring[..length], STORE_BYTES)?;
            wrong += 1;
        }
    }
    let due = POINT_BYTES * MOST_POINTS + 41 - MOST_POINTS;
    if wrong != due {
        return Err(format!("{wrong} lengths, and {due} are due"));
    }
    Ok(())
}

/// Lengths whose low bits alone would be good.
fn large_lengths(model: &Model, seed: u64) -> Result<(), String> {
    let mut desk = Desk::new(model, seed);
    for length in [
        POINT_BYTES * 1_026,
        POINT_BYTES * 2_047,
        POINT_BYTES * 2_048,
        POINT_BYTES * 2_049,
        POINT_BYTES * 5_000 + 3,
        1 << 16,
        (1 << 16) + POINT_BYTES,
        POINT_BYTES << 16,
        (POINT_BYTES << 16) + POINT_BYTES,
        (POINT_BYTES << 20) + 1,
        (POINT_BYTES << 20) + 5 * POINT_BYTES,
    ] {
        desk.refuses(12, &vec![0; length], STORE_BYTES)?;
        desk.refuses(1, &vec![0; length], STORE_BYTES + 1)?;
    }
    Ok(())
}

/// Wrong lengths with two of the whole points at one position.
fn length_before_doubled(model: &Model, seed: u64) -> Result<(), String> {
    let mut desk = Desk::new(model, seed);
    for doubled in [
        points([(5, 1), (5, 2)]),
        points([(5, 1), (6, 3), (5, 1)]),
        points([(5, 1), (5, 1), (5, 1), (5, 1)]),
    ] {
        let mut ring = ring_of(&doubled);
        for _ in 1..POINT_BYTES {
            ring.push(0);
            desk.refuses(12, &ring, STORE_BYTES)?;
        }
        // One point more, and the length is good.
        ring.push(7);
        desk.refuses(11, &ring, STORE_BYTES)?;
    }
    for (first, second) in [(0, 1), (0, 1_023), (0, 1_024), (1_023, 1_024), (300, 700)] {
        let mut ring = scattered(MOST_POINTS + 1, &mut desk.random);
        ring[first].position = ring[second].position;
        let ring = ring_of(&ring);
        desk.refuses(12, &ring, STORE_BYTES)?;
        desk.refuses(12, &ring[..ring.len() - 1], STORE_BYTES)?;
    }
    Ok(())
}

/// Lengths of the bytes for the store's number: to three numbers, and some whose low bits alone
/// would be good.
fn store_lengths() -> Vec<usize> {
    (0..=24).chain([32, 40, 64, 264, 1_032, 65_544]).collect()
}

fn every_store_length(model: &Model, seed: u64) -> Result<(), String> {
    let mut desk = Desk::new(model, seed);
    let one = ring_of(&points([(5, 1)]));
    let two = ring_of(&points([(LAST, LAST), (0, 1)]));
    let most = ring_of(&scattered(MOST_POINTS, &mut desk.random));
    for length in store_lengths() {
        for ring in [&one, &two, &most] {
            let number = if length == STORE_BYTES { 0 } else { 1 };
            desk.refuses(number, ring, length)?;
        }
    }
    Ok(())
}

/// Each wrong length of the store with a ring of wrong length, with a ring with doubled positions,
/// and with a ring of both.
fn store_length_before_all(model: &Model, seed: u64) -> Result<(), String> {
    let mut desk = Desk::new(model, seed);
    let doubled = ring_of(&points([(5, 1), (6, 2), (5, 3)]));
    let over = ring_of(&scattered(MOST_POINTS + 1, &mut desk.random));
    let short = &over[..POINT_BYTES * 3 - 1];
    for length in store_lengths() {
        for (ring, own) in [
            (&[][..], 12),
            (short, 12),
            (&over, 12),
            (&doubled[..doubled.len() - 1], 12),
            (&[0; 2 * POINT_BYTES + 1], 12),
            (&doubled, 11),
        ] {
            let number = if length == STORE_BYTES { own } else { 1 };
            desk.refuses(number, ring, length)?;
        }
    }
    Ok(())
}

/// Whatever the bytes held, they get all eight of the number, least significant first, or stay.
fn eight_bytes_written(model: &Model, seed: u64) -> Result<(), String> {
    let mut desk = Desk::new(model, seed);
    let number = 0x0807_0605_0403_0201;
    let done = ring_of(&points([(100, 9), (50, number)]));
    let doubled = ring_of(&points([(50, number), (50, number)]));
    for byte in 0..=255 {
        for (ring, returned, due) in [
            (&done[..], 0, [1, 2, 3, 4, 5, 6, 7, 8]),
            (&doubled, 11, [byte; 8]),
            (&done[1..], 12, [byte; 8]),
        ] {
            let (random, mut path) = (&mut desk.random, Path::new());
            let found = harness::store(model, ring, 7, &[byte; 8], random, &mut path)?;
            if found != (returned, due.to_vec()) {
                return Err(format!("{found:?}, and {returned} with {due:?} is due"));
            }
        }
    }
    Ok(())
}
