//! Slices whose count exceeds 32 bits: a count cut to 32 bits would look
//! proper. The memory is reserved addresses; nothing but its first cells is
//! touched.

use crate::{valgrind, Run, Test};
use meltusk::{Applied, Call, ColumnSlices, Empty, Library, Step, View};
use second::{
    Delivery, Limits, PriceCard, Span, UnlaidSet, DIRECTORY_LEN, FENCES, HISTOGRAM_LEN, LENGTHS,
};
use std::ffi::{c_int, c_void};

extern "C" {
    fn mmap(
        address: *mut c_void,
        length: usize,
        protection: c_int,
        flags: c_int,
        file: c_int,
        offset: i64,
    ) -> *mut c_void;
    fn munmap(address: *mut c_void, length: usize) -> c_int;
}

/// Read and write.
const PROTECTION: c_int = 3;
/// Private, of no file, not reserved in memory (Linux on x86-64).
const FLAGS: c_int = 0x02 | 0x20 | 0x4000;

/// 2^32 zeros and some more.
struct Long {
    address: *mut c_void,
    count: usize,
}

impl Long {
    /// None if so many addresses cannot be reserved.
    fn new(more: usize) -> Option<Long> {
        let count = (1 << 32) + more;
        let address = unsafe { mmap(std::ptr::null_mut(), 4 * count, PROTECTION, FLAGS, -1, 0) };
        // -1 says that it failed.
        (address as isize != -1).then_some(Long { address, count })
    }

    fn slice(&mut self) -> &mut [u32] {
        unsafe { std::slice::from_raw_parts_mut(self.address.cast(), self.count) }
    }

    /// As many bytes, of the same memory.
    fn bytes(&mut self) -> &mut [u8] {
        unsafe { std::slice::from_raw_parts_mut(self.address.cast(), self.count) }
    }
}

impl Drop for Long {
    fn drop(&mut self) {
        unsafe { munmap(self.address, 4 * self.count) };
    }
}

const LIBRARY: Library = Library { empty: Empty::Null };

/// What is left out, or why.
const NO_ADDRESSES: &str = "so many addresses cannot be reserved";
const LONG_ENDS: &str = "ends past 32 bits, which valgrind would take minutes to go over";

fn reserve(run: &mut Run, more: usize) -> Option<Long> {
    let long = Long::new(more);
    if long.is_none() {
        run.left_out = Some(NO_ADDRESSES);
    }
    long
}

/// A call of each kind.
fn each() -> [Call; 6] {
    let d = Delivery::new(0, 0, 0);
    [
        Call::Find(0),
        Call::Range(0, 1),
        Call::RangeDays(0, 1, Span::ALL),
        Call::Insert(d),
        Call::Delete(d),
        Call::Move(d, 1),
    ]
}

/// Each call and step on a column of one record and one free slot, all in
/// partition 0.
fn calls(run: &mut Run, column: &mut ColumnSlices, expected: u32) -> Result<(), String> {
    for call in each() {
        let answer = LIBRARY.call(column, &call);
        run.seen.calls += 1;
        let zero = answer.counts.rr == 0 && answer.counts.rw == 0 && answer.totals.records == 0;
        if answer.refusal != expected || !zero {
            return Err(format!("{call:?}: {answer:?} for refusal {expected}"));
        }
    }
    for step in Step::both(0) {
        let a = LIBRARY.step(&column.view(), &step);
        run.seen.calls += 1;
        if (a.refusal, a.grower, a.records, a.counts.rr) != (expected, 0, 0, 0) {
            return Err(format!("{step:?}: {a:?} for refusal {expected}"));
        }
    }
    Ok(())
}

/// Where the partition of grower 0 lies, refused.
fn partition(column: &ColumnSlices, expected: u32) -> Result<(), String> {
    let a = LIBRARY.partition(&column.view(), 0);
    match (a.refusal, a.start, a.count) == (expected, 0, 0) {
        true => Ok(()),
        false => Err(format!("partition: {a:?}")),
    }
}

/// A set of one used slot.
fn one_slot([growers, weights, yields, days]: [&[u32]; 4]) -> UnlaidSet<'_> {
    UnlaidSet {
        b: 1,
        m: 1,
        growers,
        weights,
        yields,
        days,
    }
}

/// The long slice as one of the four.
fn in_turn<'a>(which: usize, long: &'a mut [u32], short: [&'a mut [u32]; 3]) -> [&'a mut [u32]; 4] {
    let [a, b, c] = short;
    match which {
        0 => [long, a, b, c],
        1 => [a, long, b, c],
        2 => [a, b, long, c],
        _ => [a, b, c, long],
    }
}

/// One record in one partition.
fn one_record() -> [u32; DIRECTORY_LEN] {
    let mut directory = [0; DIRECTORY_LEN];
    directory[..2].copy_from_slice(&[1, 1]);
    directory[LENGTHS] = 1;
    directory[FENCES] = 9;
    directory
}

/// The growers, the weights, the yields and the days in turn.
fn long_slots(run: &mut Run) -> Result<(), String> {
    let Some(mut long) = reserve(run, 2) else {
        return Ok(());
    };
    for which in 0..4 {
        let [a, b, c] = &mut [[0; 2]; 3];
        let [growers, weights, yields, days] = in_turn(which, long.slice(), [a, b, c]);
        let set = one_slot([growers, weights, yields, days]);
        let second = Applied::from(second::apply_layout(&set, &[0]));
        let compiled = LIBRARY.apply_layout(&set, &[0]);
        run.seen.calls += 1;
        if compiled != second || compiled.refusal != 3 {
            return Err(format!("apply_layout: {}", compiled.refusal));
        }
        let mut column = ColumnSlices {
            directory: &mut one_record(),
            growers,
            weights,
            yields,
            days,
        };
        if which == 0 {
            partition(&column, 3)?;
            run.seen.calls += 1;
        }
        calls(run, &mut column, 3)?;
    }
    Ok(())
}

fn long_directory(run: &mut Run) -> Result<(), String> {
    let Some(mut long) = reserve(run, DIRECTORY_LEN) else {
        return Ok(());
    };
    long.slice()[..DIRECTORY_LEN].copy_from_slice(&one_record());
    let [growers, weights, yields, days] = &mut [[0; 2]; 4];
    let mut column = ColumnSlices {
        directory: long.slice(),
        growers,
        weights,
        yields,
        days,
    };
    partition(&column, 6)?;
    calls(run, &mut column, 6)
}

fn long_ends(run: &mut Run) -> Result<(), String> {
    if valgrind::runs() {
        run.left_out = Some(LONG_ENDS);
        return Ok(());
    }
    let Some(mut ends) = reserve(run, 1) else {
        return Ok(());
    };
    // Cut to 32 bits it would be the layout of one partition.
    ends.slice()[0] = 1;
    let set = UnlaidSet {
        m: 2,
        ..one_slot([&[0, 1], &[0; 2], &[0; 2], &[0; 2]])
    };
    let compiled = LIBRARY.apply_layout(&set, ends.slice());
    run.seen.calls += 1;
    match compiled.refusal {
        6 => Ok(()),
        number => Err(format!("apply_layout: {number}")),
    }
}

fn long(run: &mut Run) -> Result<(), String> {
    long_slots(run)?;
    long_directory(run)?;
    long_ends(run)
}

/// The snapshot of one record 0, 0, 0.
const TEXT: &[u8] = b"          1          1          1
          1          9
          0          0          0
";

fn view<'a>(directory: &'a [u32], slots: [&'a [u32]; 4]) -> View<'a> {
    let [growers, weights, yields, days] = slots;
    View {
        directory,
        growers,
        weights,
        yields,
        days,
    }
}

/// A long text is no snapshot, a long room is enough, long slices are refused
/// by 3 and a long directory by 6.
fn snapshots(run: &mut Run) -> Result<(), String> {
    let directory = one_record();
    let (Some(mut slots), Some(mut text), Some(mut room), Some(mut long_directory)) = (
        reserve(run, 1),
        reserve(run, TEXT.len()),
        reserve(run, 0),
        reserve(run, DIRECTORY_LEN),
    ) else {
        return Ok(());
    };
    let (mut a, mut b, mut c, mut d) = ([0], [0], [0], [0]);
    text.bytes()[..TEXT.len()].copy_from_slice(TEXT);
    let read = LIBRARY.read_snapshot(text.bytes(), &mut a, &mut b, &mut c, &mut d);
    let written = LIBRARY.write_snapshot(&view(&directory, [&a, &b, &c, &d]), room.bytes());
    // Each refusal and the one it has to be.
    let mut refusals = vec![(read.refusal, 14), (written.refusal, 0)];
    for which in 0..4 {
        let [g, w, y, n] = in_turn(which, slots.slice(), [&mut a, &mut b, &mut c]);
        let mut out = [0; TEXT.len()];
        let written = LIBRARY.write_snapshot(&view(&directory, [g, w, y, n]), &mut out);
        let read = LIBRARY.read_snapshot(TEXT, g, w, y, n);
        refusals.extend([(written.refusal, 3), (read.refusal, 3)]);
    }
    let long = long_directory.slice();
    long[..DIRECTORY_LEN].copy_from_slice(&directory);
    let refused = LIBRARY.write_snapshot(&view(long, [&a, &b, &c, &d]), &mut [0; TEXT.len()]);
    refusals.push((refused.refusal, 6));
    run.seen.calls += refusals.len() as u64;
    let right = refusals.iter().all(|(is, should)| is == should);
    match right && &room.bytes()[..TEXT.len()] == TEXT {
        true => Ok(()),
        false => Err(format!("refusals {refusals:?}, {written:?}")),
    }
}

/// The sheet of one record 0, 0, 0.
const SHEET: &[u8] =
    b"                   0                   1                   0                   0
                   1                   0                   0
";

/// A long room, a long order and a long work are enough, long slices are refused
/// by 3 and a long directory by 6.
fn sheets(run: &mut Run) -> Result<(), String> {
    let directory = one_record();
    let (Some(mut slots), Some(mut lists), Some(mut room), Some(mut long_directory)) = (
        reserve(run, 1),
        reserve(run, 0),
        reserve(run, 0),
        reserve(run, DIRECTORY_LEN),
    ) else {
        return Ok(());
    };
    let (zero, mut short) = ([0], [7]);
    let one = view(&directory, [&zero; 4]);
    let mut out = [0; SHEET.len()];
    let long_order = LIBRARY.write_sheet(&one, room.bytes(), lists.slice(), &mut short);
    let long_work = LIBRARY.write_sheet(&one, &mut out, &mut short, lists.slice());
    // Each refusal and the one it has to be.
    let mut refusals = vec![(long_order.refusal, 0), (long_work.refusal, 0)];
    let of_term = LIBRARY.write_term_sheet(&one, 14, room.bytes(), lists.slice(), &mut short);
    refusals.push((of_term.refusal, 0));
    for which in 0..4 {
        let (mut a, mut b, mut c) = ([0], [0], [0]);
        let columns = in_turn(which, slots.slice(), [&mut a, &mut b, &mut c]).map(|s| &*s);
        let column = view(&directory, columns);
        let mut text = [0; SHEET.len()];
        let a = LIBRARY.write_sheet(&column, &mut text, &mut [7], &mut [7]);
        let b = LIBRARY.write_term_sheet(&column, 0, &mut text, &mut [7], &mut [7]);
        refusals.extend([(a.refusal, 3), (b.refusal, 3)]);
    }
    let long = long_directory.slice();
    long[..DIRECTORY_LEN].copy_from_slice(&directory);
    let mut text = [0; SHEET.len()];
    let column = view(long, [&zero; 4]);
    let a = LIBRARY.write_sheet(&column, &mut text, &mut [7], &mut [7]);
    let b = LIBRARY.write_term_sheet(&column, 0, &mut text, &mut [7], &mut [7]);
    refusals.extend([(a.refusal, 6), (b.refusal, 6)]);
    run.seen.calls += refusals.len() as u64;
    let right = refusals.iter().all(|(is, should)| is == should);
    match right && &room.bytes()[..SHEET.len()] == SHEET && out == SHEET {
        true => Ok(()),
        false => Err(format!(
            "refusals {refusals:?}, {long_order:?}, {long_work:?}"
        )),
    }
}

/// The weighbridge file of one delivery 0, 0, 0.
const FILE: &[u8] = b"grower,weight,yield\r\n0,0,0\r\n";

/// A long text is read past the count cut to 32 bits, a long room is enough,
/// and long slices are refused by 3.
fn files(run: &mut Run) -> Result<(), String> {
    let (Some(mut slots), Some(mut text), Some(mut room)) =
        (reserve(run, 1), reserve(run, FILE.len()), reserve(run, 0))
    else {
        return Ok(());
    };
    let (mut a, mut b, mut c, mut d) = ([0], [0], [0], [0]);
    // A broken quote just behind the file.
    let behind = [FILE, b"\"\"x"].concat();
    text.bytes()[..behind.len()].copy_from_slice(&behind);
    let imported = LIBRARY.import_csv(text.bytes(), &mut a, &mut b, &mut c, &mut d);
    let exported = LIBRARY.export_csv(1, &a, &b, &c, &d, room.bytes());
    // Each refusal and the one it has to be.
    let mut refusals = vec![(imported.refusal, 18), (exported.refusal, 0)];
    for which in 0..4 {
        let [g, w, y, n] = in_turn(which, slots.slice(), [&mut a, &mut b, &mut c]);
        let exported = LIBRARY.export_csv(1, g, w, y, n, &mut [0; FILE.len()]);
        let imported = LIBRARY.import_csv(FILE, g, w, y, n);
        refusals.extend([(exported.refusal, 3), (imported.refusal, 3)]);
    }
    run.seen.calls += refusals.len() as u64;
    let right = refusals.iter().all(|(is, should)| is == should);
    match right && &room.bytes()[..FILE.len()] == FILE {
        true => Ok(()),
        false => Err(format!("refusals {refusals:?}, {exported:?}")),
    }
}

/// The listing of one record 0, 0, 0 of which nothing is recorded.
const LISTING: &[u8] = b"          1                   0          0
";

/// Each call of recorder, cost, planner and listing: its refusal and its cost, if
/// any.
fn planned(
    set: &UnlaidSet,
    histograms: &mut [u32],
    ends: &[u32],
    room: &mut [u32],
    text: &mut [u8],
) -> [(u32, i64); 9] {
    let card = PriceCard::FACTORY;
    let limits = Limits::new(100, 100);
    let cost = LIBRARY.cost(&card, set, ends, histograms);
    let plan = LIBRARY.plan(&card, &limits, set, histograms, room);
    let list = LIBRARY.list_layouts(&card, &limits, set, histograms, text);
    let [find, range, dated, insert, delete, moved] =
        each().map(|call| (LIBRARY.record(histograms, set, &call), 0));
    let (cost, plan) = ((cost.refusal, cost.cost), (plan.refusal, plan.cost));
    let list = (list.refusal, 0);
    [find, range, dated, insert, delete, moved, cost, plan, list]
}

/// Long slots are refused by 3 and long histograms by 9; long ends are no
/// layout, and a long room and a long text are enough.
fn plans(run: &mut Run) -> Result<(), String> {
    let (Some(mut slots), Some(mut counts), Some(mut ends), Some(mut room), Some(mut text)) = (
        reserve(run, 1),
        reserve(run, HISTOGRAM_LEN),
        reserve(run, 1),
        reserve(run, 0),
        reserve(run, 0),
    ) else {
        return Ok(());
    };
    let one: &[u32] = &[0];
    let short = || [0; HISTOGRAM_LEN];
    let mut line = [0; LISTING.len()];
    let long: &[u32] = slots.slice();
    let ends: &[u32] = match valgrind::runs() {
        true => {
            run.left_out = Some(LONG_ENDS);
            &[0, 0]
        }
        false => ends.slice(),
    };
    let of_slots = [
        [long, one, one, one],
        [one, long, one, one],
        [one, one, long, one],
        [one, one, one, long],
    ];
    let of_slots = of_slots.map(|slots| {
        let set = one_slot(slots);
        let given = planned(&set, &mut short(), &[0], &mut [7], &mut line);
        (given, [3; 9])
    });
    let proper = one_slot([one; 4]);
    // The answers, each with the refusals that they have to have.
    let mut answers = of_slots.to_vec();
    answers.extend([
        (
            planned(&proper, counts.slice(), &[0], &mut [7], &mut line),
            [9; 9],
        ),
        (
            planned(&proper, &mut short(), ends, room.slice(), text.bytes()),
            [0, 0, 0, 0, 0, 0, 6, 0, 0],
        ),
    ]);
    run.seen.calls += 9 * answers.len() as u64;
    for (i, (given, expected)) in answers.iter().enumerate() {
        if *given != expected.map(|refusal| (refusal, 0)) {
            return Err(format!("case {i}: {given:?} for {expected:?}"));
        }
    }
    match &text.bytes()[..LISTING.len()] == LISTING {
        true => Ok(()),
        false => Err("another listing".into()),
    }
}

pub const TESTS: &[(&str, Test)] = &[
    ("broken input, slice counts past 32 bits", long),
    ("snapshots: slice counts past 32 bits", snapshots),
    ("sheets: slice counts past 32 bits", sheets),
    ("files: slice counts past 32 bits", files),
    ("plan: slice counts past 32 bits", plans),
];
