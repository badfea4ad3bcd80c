//! Lent memory with guard bytes, the calls into libcot.a, and their comparison with the model.

use crate::epoch_model::{Epoch, SCALE_BYTES};
use crate::model::{gauge_of, number_at, points_of, records_of, Call, Model, Path};
use crate::model::{GAUGE_BYTES, LINE_BYTES, POINT_BYTES, RECORD_BYTES, SUM_BYTES, TICKET_BYTES};
use crate::random::Random;

#[link(name = "cot", kind = "static")]
extern "C" {
    fn cot_read(
        table: *mut u8,
        table_len: usize,
        gauge: *mut u8,
        gauge_len: usize,
        lines: *const u8,
        lines_len: usize,
        key: u64,
        weight: u64,
        ticket: *mut u8,
        ticket_len: usize,
    ) -> u64;
    fn cot_update(
        table: *mut u8,
        table_len: usize,
        gauge: *mut u8,
        gauge_len: usize,
        lines: *const u8,
        lines_len: usize,
        key: u64,
        weight: u64,
    ) -> u64;
    fn cot_fill(
        table: *mut u8,
        table_len: usize,
        gauge: *const u8,
        gauge_len: usize,
        lines: *mut u8,
        lines_len: usize,
        key: u64,
        picture: *const u8,
        picture_len: usize,
        ticket: u64,
    ) -> u64;
    fn cot_withdraw(
        table: *mut u8,
        table_len: usize,
        gauge: *mut u8,
        gauge_len: usize,
        lines: *const u8,
        lines_len: usize,
        key: u64,
    ) -> u64;
    fn cot_age(
        table: *mut u8,
        table_len: usize,
        gauge: *mut u8,
        gauge_len: usize,
        lines: *const u8,
        lines_len: usize,
    ) -> u64;
    fn cot_fresh(
        table: *mut u8,
        table_len: usize,
        gauge: *mut u8,
        gauge_len: usize,
        lines: *const u8,
        lines_len: usize,
    ) -> u64;
    fn cot_levelled_sum(
        table: *const u8,
        table_len: usize,
        gauge: *const u8,
        gauge_len: usize,
        lines: *const u8,
        lines_len: usize,
        sum: *mut u8,
        sum_len: usize,
    ) -> u64;
    fn cot_store(
        ring: *const u8,
        ring_len: usize,
        position: u64,
        store: *mut u8,
        store_len: usize,
    ) -> u64;
    fn cot_scale(
        lookups: *const u8,
        lookups_len: usize,
        on: u64,
        off: u64,
        lines: u64,
        records: u64,
        imbalance_over: u64,
        imbalance_under: u64,
        target_over: u64,
        target_under: u64,
        tolerance: u64,
        out: *mut u8,
        out_len: usize,
    ) -> u64;
    fn cot_resize(
        table: *const u8,
        table_len: usize,
        gauge: *const u8,
        gauge_len: usize,
        lines: *const u8,
        lines_len: usize,
        to_table: *mut u8,
        to_table_len: usize,
        to_gauge: *mut u8,
        to_gauge_len: usize,
        to_lines: *mut u8,
        to_lines_len: usize,
    ) -> u64;
}

/// Guard bytes before (at the least) and after each lent buffer.
const GUARD: usize = 64;

/// A lent buffer between guard bytes. Its first byte may have any alignment.
#[derive(Clone)]
pub struct Lent {
    all: Vec<u8>,
    start: usize,
    len: usize,
    /// The address that is lent while the length is 0, if not one in `all`.
    elsewhere: Option<usize>,
}

impl Lent {
    pub fn new(bytes: &[u8], random: &mut Random) -> Lent {
        let start = GUARD + random.place(16);
        let mut all = match random.below(4) {
            0 => vec![0x00; start + bytes.len() + GUARD],
            1 => vec![0xff; start + bytes.len() + GUARD],
            _ => {
                let mut all = random.bytes(start);
                all.resize(start + bytes.len(), 0);
                all.extend_from_slice(&random.bytes(GUARD));
                all
            }
        };
        all[start..start + bytes.len()].copy_from_slice(bytes);
        let elsewhere = random.pick(&[None, Some(0), Some(1), Some(usize::MAX)]);
        Lent {
            all,
            start,
            len: bytes.len(),
            elsewhere,
        }
    }

    pub fn bytes(&self) -> &[u8] {
        &self.all[self.start..self.start + self.len]
    }

    pub fn bytes_mut(&mut self) -> &mut [u8] {
        &mut self.all[self.start..self.start + self.len]
    }

    /// The same memory with another length; what is cut off then lies among the guard bytes.
    pub fn set_len(&mut self, len: usize) {
        assert!(self.start + len <= self.all.len());
        self.len = len;
    }

    fn pointer(&self) -> *const u8 {
        match self.elsewhere {
            Some(address) if self.len == 0 => address as *const u8,
            _ => self.all[self.start..].as_ptr(),
        }
    }

    fn pointer_mut(&mut self) -> *mut u8 {
        match self.elsewhere {
            Some(address) if self.len == 0 => address as *mut u8,
            _ => self.all[self.start..].as_mut_ptr(),
        }
    }
}

/// What one call is lent besides a picture. Only a levelled sum is lent the sum, and only a read the
/// ticket bytes; no other call may change them.
#[derive(Clone)]
pub struct Memory {
    pub table: Lent,
    pub gauge: Lent,
    pub lines: Lent,
    pub sum: Lent,
    pub ticket: Lent,
}

impl Memory {
    pub fn new(table: &[u8], gauge: &[u8], lines: &[u8], random: &mut Random) -> Memory {
        Memory {
            table: Lent::new(table, random),
            gauge: Lent::new(gauge, random),
            lines: Lent::new(lines, random),
            sum: Lent::new(&random.bytes(SUM_BYTES), random),
            ticket: Lent::new(&random.bytes(TICKET_BYTES), random),
        }
    }

    /// Any bytes at all, of the right lengths for K and C where these are good.
    pub fn dirty(k: usize, c: usize, random: &mut Random) -> Memory {
        let table = random.bytes(RECORD_BYTES * k);
        let gauge = random.bytes(GAUGE_BYTES);
        let lines = random.bytes(LINE_BYTES * c);
        Memory::new(&table, &gauge, &lines, random)
    }

    /// Table, gauge and lines.
    pub fn three(&self) -> (&[u8], &[u8], &[u8]) {
        (self.table.bytes(), self.gauge.bytes(), self.lines.bytes())
    }

    /// Every buffer with its name.
    fn named(&self) -> [(&'static str, &Lent); 5] {
        [
            ("table", &self.table),
            ("gauge", &self.gauge),
            ("lines", &self.lines),
            ("sum", &self.sum),
            ("ticket", &self.ticket),
        ]
    }
}

/// Makes the call on the library.
pub fn library(memory: &mut Memory, call: &Call, picture: Option<&Lent>) -> u64 {
    let [(table, t), (gauge, g), (lines, l), (sum, s), (told, n)] = [
        &mut memory.table,
        &mut memory.gauge,
        &mut memory.lines,
        &mut memory.sum,
        &mut memory.ticket,
    ]
    .map(|lent| (lent.pointer_mut(), lent.len));
    // SAFETY: each pointer is good for its length, or the length is 0. No two buffers overlap.
    unsafe {
        match call {
            Call::Read { key, weight } => {
                cot_read(table, t, gauge, g, lines, l, *key, *weight, told, n)
            }
            Call::Update { key, weight } => cot_update(table, t, gauge, g, lines, l, *key, *weight),
            Call::Fill { key, ticket, .. } => {
                let picture = picture.expect("a fill lends a picture");
                let (picture, p) = (picture.pointer(), picture.len);
                cot_fill(table, t, gauge, g, lines, l, *key, picture, p, *ticket)
            }
            Call::Withdraw { key } => cot_withdraw(table, t, gauge, g, lines, l, *key),
            Call::Age => cot_age(table, t, gauge, g, lines, l),
            Call::Fresh => cot_fresh(table, t, gauge, g, lines, l),
            Call::LevelledSum => cot_levelled_sum(table, t, gauge, g, lines, l, sum, s),
        }
    }
}

/// The same memory twice: the library's and the model's.
pub struct Both<'a> {
    model: &'a Model,
    pub librarys: Memory,
    models: Memory,
}

impl<'a> Both<'a> {
    pub fn new(model: &'a Model, memory: Memory) -> Both<'a> {
        Both {
            model,
            models: memory.clone(),
            librarys: memory,
        }
    }

    /// Lends the same memory with other lengths of table, gauge, lines and ticket. Gives the lengths
    /// before.
    pub fn set_lengths(&mut self, lengths: [usize; 4]) -> [usize; 4] {
        let mut before = [0; 4];
        for memory in [&mut self.librarys, &mut self.models] {
            let four = [
                &mut memory.table,
                &mut memory.gauge,
                &mut memory.lines,
                &mut memory.ticket,
            ];
            for ((lent, len), before) in four.into_iter().zip(lengths).zip(&mut before) {
                *before = lent.len;
                lent.set_len(len);
            }
        }
        before
    }

    /// The model that the calls are compared with.
    pub fn model(&self) -> &'a Model {
        self.model
    }

    /// The serial in the library's gauge.
    pub fn serial(&self) -> u64 {
        gauge_of(self.librarys.gauge.bytes()).2
    }

    /// The number in the library's ticket bytes. After a wanted it is the ticket.
    pub fn told(&self) -> u64 {
        number_at(self.librarys.ticket.bytes(), 0)
    }

    /// Makes one call on the library's memory and on the model's, and compares the returned number
    /// and every byte, lent and guard. Gives the number, or what differs.
    pub fn call(
        &mut self,
        call: &Call,
        random: &mut Random,
        path: &mut Path,
    ) -> Result<u64, String> {
        // No byte of a small ticket stands there already, so that each byte written is seen.
        for at in 0..self.librarys.ticket.len {
            let byte = random.between(1, 255) as u8;
            self.librarys.ticket.bytes_mut()[at] = byte;
            self.models.ticket.bytes_mut()[at] = byte;
        }
        let before = self.librarys.clone();
        let picture = match call {
            Call::Fill { picture, .. } => Some(Lent::new(picture, random)),
            _ => None,
        };
        let picture_before = picture.clone();

        let lent = [
            self.models.table.bytes_mut(),
            self.models.gauge.bytes_mut(),
            self.models.lines.bytes_mut(),
            self.models.sum.bytes_mut(),
            self.models.ticket.bytes_mut(),
        ];
        let expected = self.model.call(lent, call, path).number();
        let found = library(&mut self.librarys, call, picture.as_ref());

        let mut different = self.differences();
        if let (Some(picture), Some(before)) = (&picture, &picture_before) {
            different.extend(difference("picture", before, picture));
        }
        judged(found, expected, different, || describe(&before, call))
    }

    /// What differs between the model's memory and the library's.
    fn differences(&self) -> Vec<String> {
        let models = self.models.named().into_iter();
        models
            .zip(self.librarys.named())
            .filter_map(|((name, models), (_, librarys))| difference(name, models, librarys))
            .collect()
    }
}

/// Resizes the library's source into its target and the model's into its own, and compares the
/// returned number and every byte, lent and guard, of all. Gives the number, or what differs.
pub fn resize(source: &mut Both, target: &mut Both, path: &mut Path) -> Result<u64, String> {
    let before = (source.librarys.clone(), target.librarys.clone());
    let (table, gauge, lines) = source.models.three();
    let lent = [
        target.models.table.bytes_mut(),
        target.models.gauge.bytes_mut(),
        target.models.lines.bytes_mut(),
    ];
    let expected = source.model.resize([table, gauge, lines], lent, path);
    let expected = expected.number();

    let from = &source.librarys;
    let [(table, t), (gauge, g), (lines, l)] =
        [&from.table, &from.gauge, &from.lines].map(|lent| (lent.pointer(), lent.len));
    let to = &mut target.librarys;
    let [(to_table, tt), (to_gauge, tg), (to_lines, tl)] =
        [&mut to.table, &mut to.gauge, &mut to.lines].map(|lent| (lent.pointer_mut(), lent.len));
    // SAFETY: each pointer is good for its length, or the length is 0. No two buffers overlap.
    let found = unsafe {
        cot_resize(
            table, t, gauge, g, lines, l, to_table, tt, to_gauge, tg, to_lines, tl,
        )
    };

    let different = [("target", &*target), ("source", &*source)]
        .into_iter()
        .flat_map(|(of, both)| {
            let own = both.differences().into_iter();
            own.map(move |text| format!("{of}'s {text}"))
        });
    judged(found, expected, different, || {
        format!(
            "  resize, the source\n{}\n  and the target\n{}",
            describe_memory(&before.0),
            describe_memory(&before.1)
        )
    })
}

/// Asks the library and the model which store a key at this position is fetched from, each lent the
/// same ring and the same bytes for the store's number, and compares the returned number and every
/// byte, lent and guard. Gives the number and the store bytes after the call, or what differs.
pub fn store(
    model: &Model,
    ring: &[u8],
    position: u64,
    store: &[u8],
    random: &mut Random,
    path: &mut Path,
) -> Result<(u64, Vec<u8>), String> {
    let models_ring = Lent::new(ring, random);
    let mut models_store = Lent::new(store, random);
    let mut librarys_ring = models_ring.clone();
    let mut librarys_store = models_store.clone();

    let lent = models_store.bytes_mut();
    let expected = model
        .store(models_ring.bytes(), position, lent, path)
        .number();
    let [(points, p), (lent, s)] =
        [&mut librarys_ring, &mut librarys_store].map(|lent| (lent.pointer_mut(), lent.len));
    // SAFETY: each pointer is good for its length, or the length is 0. The two do not overlap.
    let found = unsafe { cot_store(points, p, position, lent, s) };

    let different = [
        difference("store", &models_store, &librarys_store),
        difference("ring", &models_ring, &librarys_ring),
    ];
    judged(found, expected, different.into_iter().flatten(), || {
        describe_ring(ring, position, store)
    })?;
    Ok((found, librarys_store.bytes().to_vec()))
}

/// Asks the library and the model what to do at the end of an epoch, each lent the same lookups and
/// the same bytes to write into, and compares the returned number and every byte, lent and guard.
/// Gives the number and the written bytes after the call, or what differs.
pub fn scale(
    model: &Model,
    epoch: &Epoch,
    out: &[u8],
    random: &mut Random,
    path: &mut Path,
) -> Result<(u64, Vec<u8>), String> {
    let models_lookups = Lent::new(&epoch.lookups, random);
    let mut models_out = Lent::new(out, random);
    let mut librarys_lookups = models_lookups.clone();
    let mut librarys_out = models_out.clone();

    let expected = model.scale(epoch, models_out.bytes_mut(), path).number();
    let [(lookups, l), (lent, o)] =
        [&mut librarys_lookups, &mut librarys_out].map(|lent| (lent.pointer_mut(), lent.len));
    // SAFETY: each pointer is good for its length, or the length is 0. The two do not overlap.
    let found = unsafe {
        cot_scale(
            lookups,
            l,
            epoch.on,
            epoch.off,
            epoch.lines,
            epoch.records,
            epoch.imbalance.over,
            epoch.imbalance.under,
            epoch.target.over,
            epoch.target.under,
            epoch.tolerance,
            lent,
            o,
        )
    };

    let different = [
        difference("out", &models_out, &librarys_out),
        difference("lookups", &models_lookups, &librarys_lookups),
    ];
    judged(found, expected, different.into_iter().flatten(), || {
        describe_epoch(epoch, out)
    })?;
    Ok((found, librarys_out.bytes().to_vec()))
}

/// The library's number, if it is the model's and no byte differs, or what differs, and where.
fn judged(
    found: u64,
    expected: u64,
    different: impl IntoIterator<Item = String>,
    describe: impl FnOnce() -> String,
) -> Result<u64, String> {
    let returned = (found != expected).then(|| format!("returned {found}, the model {expected}"));
    let different: Vec<String> = returned.into_iter().chain(different).collect();
    if different.is_empty() {
        return Ok(found);
    }
    Err(format!(
        "difference: {}\n{}",
        different.join("; "),
        describe()
    ))
}

/// The first byte that differs, and how many do.
fn difference(name: &str, models: &Lent, librarys: &Lent) -> Option<String> {
    if models.all == librarys.all {
        return None;
    }
    let differs = |at: &usize| models.all[*at] != librarys.all[*at];
    let count = (0..models.all.len()).filter(differs).count();
    let at = (0..models.all.len()).find(differs)?;
    let (start, end) = (models.start, models.start + models.len);
    let place = if at < start {
        format!("guard byte {} before the {name}", start - at)
    } else if at >= end {
        format!("guard byte {} after the {name}", at - end)
    } else if name == "table" {
        let at = at - start;
        let field = ["key", "heat", "slack", "state", "ticket"][at % RECORD_BYTES / 8];
        format!("table byte {at} (record {}, {field})", at / RECORD_BYTES)
    } else if name == "ring" {
        let at = at - start;
        let field = ["position", "store"][at % POINT_BYTES / 8];
        format!("ring byte {at} (point {}, {field})", at / POINT_BYTES)
    } else if name == "out" && models.len == SCALE_BYTES {
        let at = at - start;
        let field = ["C", "K", "target over", "target under"][at / 8];
        format!("out byte {at} ({field})")
    } else {
        format!("{name} byte {}", at - start)
    };
    Some(format!(
        "{place} is {:#04x}, the model's {:#04x} ({count} bytes differ)",
        librarys.all[at], models.all[at]
    ))
}

/// The call with its key, weight, picture and ticket.
pub fn call_text(call: &Call) -> String {
    match call {
        Call::Read { key, weight } => format!("read of key {key}, weight {weight}"),
        Call::Update { key, weight } => format!("update of key {key}, weight {weight}"),
        Call::Fill {
            key,
            picture,
            ticket,
        } => {
            let bytes: String = picture.iter().map(|byte| format!("{byte:02x}")).collect();
            format!(
                "fill of key {key}, ticket {ticket}, picture of {} bytes {bytes}",
                picture.len()
            )
        }
        Call::Withdraw { key } => format!("withdrawal of key {key}"),
        Call::Age => "age".to_string(),
        Call::Fresh => "fresh".to_string(),
        Call::LevelledSum => "levelled sum".to_string(),
    }
}

/// Records, points or stores that are printed in full.
const MOST: usize = 64;

/// The key's position, and the ring and store bytes before the call, in full for a small ring.
fn describe_ring(ring: &[u8], position: u64, store: &[u8]) -> String {
    let mut text = format!(
        "  store of a key at {position}\n  ring {} bytes, store {} bytes",
        ring.len(),
        store.len()
    );
    text += &format!("\n  before: store {store:02x?}");
    let points = points_of(ring);
    for (place, point) in points.iter().enumerate().take(MOST) {
        text += &format!(
            "\n  point {place}: position {} store {}",
            point.position, point.store
        );
    }
    if points.len() > MOST {
        text += &format!("\n  and {} points more", points.len() - MOST);
    }
    text
}

/// All that an epoch is given, and the bytes to write into before the call.
fn describe_epoch(epoch: &Epoch, out: &[u8]) -> String {
    let mut text = format!(
        "  end of an epoch with {} on lines and {} off them, C {} and K {}\n  \
         imbalance {} over {}, target {} over {}, tolerance {}\n  \
         lookups {} bytes, out {} bytes",
        epoch.on,
        epoch.off,
        epoch.lines,
        epoch.records,
        epoch.imbalance.over,
        epoch.imbalance.under,
        epoch.target.over,
        epoch.target.under,
        epoch.tolerance,
        epoch.lookups.len(),
        out.len()
    );
    text += &format!("\n  before: out {out:02x?}");
    let stores = epoch.stores();
    text += &format!(
        "\n  lookups to each store: {:?}",
        &stores[..stores.len().min(MOST)]
    );
    if stores.len() > MOST {
        text += &format!("\n  and {} stores more", stores.len() - MOST);
    }
    text
}

/// The call and the memory before it, in full for a small table.
fn describe(before: &Memory, call: &Call) -> String {
    format!("  {}\n{}", call_text(call), describe_memory(before))
}

/// The memory before a call, in full for a small table.
fn describe_memory(before: &Memory) -> String {
    let table = before.table.bytes();
    let gauge = before.gauge.bytes();
    let mut text = String::new();
    for (number, (name, lent)) in before.named().into_iter().enumerate() {
        text += if number == 0 { "  " } else { ", " };
        text += &format!("{name} {} bytes", lent.len);
        if lent.len == 0 {
            text += &format!(" at {:?}", lent.pointer());
        }
    }
    if gauge.len() == GAUGE_BYTES {
        let (total, ceiling, serial) = gauge_of(gauge);
        text += &format!("\n  before: total {total}, ceiling {ceiling}, serial {serial}");
    } else {
        text += &format!("\n  before: gauge {gauge:02x?}");
    }
    for (place, record) in records_of(table).iter().enumerate().take(MOST) {
        text += &format!(
            "\n  before: record {place}: key {} heat {} slack {} state {} ticket {}",
            record.key, record.heat, record.slack, record.state, record.ticket
        );
    }
    let count = table.len() / RECORD_BYTES;
    if count > MOST {
        text += &format!("\n  and {} records more", count - MOST);
    }
    text
}
