//! Settlement sheets, of whole columns and of terms: columns good and bad, with
//! every kind of room for the text, the order and the work.

use crate::bad::{self, Bad};
use crate::broken;
use crate::calls::{column_memory, column_text, slices, Pair, NAMES};
use crate::inputs::{self, EDGE_COUNTS, MIXES};
use crate::lists;
use crate::memory::Memory;
use crate::snapshots::writing::{self, any_column, replace_some, WriteFault};
use crate::text::{old_bytes, old_slots, shown, TEXT};
use crate::{terms, Run, Test};
use meltusk::{sheet_second, spread_growers, Column, Empty, Library, Seen, Slots, LIBRARIES};
use second::random::Random;
use second::{
    sheet_size, Span, BLOCK_LIMIT, DIRECTORY_LEN, FENCES, LENGTHS, SLOT_LIMIT, WEIGHT_LIMIT,
};
use std::collections::{BTreeMap, BTreeSet};
use std::fmt::Write;

/// The refusals of the call, 0 for accepted.
const ANSWERS: [(&str, &[u32]); 1] = [("write_sheet", &[0, 2, 3, 6, 8, 15, 19])];

const WRITTEN: [&str; 21] = [
    "sheet: no delivery in one partition",
    "sheet: several partitions, all empty",
    "sheet: an empty partition beside others",
    "sheet: 64 partitions",
    "sheet: one grower with several deliveries",
    "sheet: several growers, all different",
    "sheet: a grower's deliveries not side by side",
    "sheet: growers of a partition not in order",
    "sheet: grower 0",
    "sheet: grower 4,294,967,295",
    "sheet: no free slot",
    "sheet: a free slot out of range",
    "sheet: text exact",
    "sheet: text to spare",
    "sheet: text for every slot's line",
    "sheet: order exact",
    "sheet: order to spare",
    "sheet: work exact",
    "sheet: work to spare",
    "sheet: more than 8,192 growers, text exact",
    "sheet: more than 16,384 growers, text exact",
];

const SHORT: [&str; 6] = [
    "sheet: text one byte short",
    "sheet: no text",
    "sheet: order one short",
    "sheet: work one short",
    "sheet: more than 8,192 growers, text one byte short",
    "sheet: more than 16,384 growers, text one byte short",
];

/// Of a column refused by 6 although its directory has its shape.
const UNSOUND: &str = "sheet: an unsound column";

/// Growers about the counts at which one that works in batches of 8,192 has to
/// go on.
pub const MANY: [usize; 9] = [
    8_191, 8_192, 8_193, 16_383, 16_384, 16_385, 20_000, 24_576, 24_577,
];

/// How many bytes and numbers are lent.
#[derive(Clone, Copy, Debug)]
pub struct Room {
    pub text: usize,
    pub order: usize,
    pub work: usize,
}

/// The sheet of a column, of all records or of those of the term that holds a day.
#[derive(Clone, Copy, Debug)]
pub struct Sheet<'a> {
    pub c: &'a Column,
    pub day: Option<u32>,
}

/// The days of the term that holds a day.
pub fn term(day: u32) -> Span {
    let a = second::term_of(day);
    Span::new(a.first, a.last)
}

/// Text and order of the slots.
type Written = (Vec<u8>, Vec<u32>);

/// Of a column whose directory has its shape.
impl Sheet<'_> {
    fn call(&self) -> &'static str {
        match self.day {
            None => "write_sheet",
            Some(_) => "write_term_sheet",
        }
    }

    /// The slots whose records are on the sheet.
    fn slots(&self) -> impl Iterator<Item = usize> + '_ {
        let span = self.day.map(term);
        let is_on = move |&i: &usize| span.is_none_or(|span| span.holds(self.c.days[i]));
        (0..self.c.view().used()).filter(is_on)
    }

    /// The sheet by another writer than those compared.
    pub fn by_slots(&self) -> Written {
        let mut growers: BTreeMap<u32, ([u64; 3], Vec<u32>)> = BTreeMap::new();
        let mut all = [0; 3];
        for i in self.slots() {
            let d = self.c.view().slot(i);
            let (sums, slots) = growers.entry(d.grower).or_default();
            let (weight, oil_yield) = (u64::from(d.weight), u64::from(d.oil_yield));
            for sums in [sums, &mut all] {
                for (sum, more) in sums.iter_mut().zip([1, weight, weight * oil_yield]) {
                    *sum += more;
                }
            }
            slots.push(i as u32);
        }
        let mut text = String::new();
        for (grower, ([records, weight, oil], _)) in &growers {
            let _ = writeln!(text, "{grower:>20}{records:>20}{weight:>20}{oil:>20}");
        }
        let _ = writeln!(text, "{:>20}{:>20}{:>20}", all[0], all[1], all[2]);
        let order = growers.into_values().flat_map(|(_, slots)| slots);
        (text.into_bytes(), order.collect())
    }

    /// The room that it needs.
    pub fn need(&self) -> Room {
        let mut growers: Vec<u32> = self.slots().map(|i| self.c.growers[i]).collect();
        let records = growers.len();
        growers.sort_unstable();
        growers.dedup();
        Room {
            text: sheet_size(growers.len()),
            order: records,
            work: records,
        }
    }
}

/// The day whose term a test takes of a column; none for the whole sheet.
pub type Drawn = fn(&mut Random, &Column) -> Option<u32>;

fn whole(_: &mut Random, _: &Column) -> Option<u32> {
    None
}

/// What the call is lent to write.
#[derive(Clone)]
struct Lent {
    text: Memory<u8>,
    /// Order and work.
    lists: Memory,
}

const LISTS: [&str; 2] = ["order", "work"];

impl Lent {
    fn new(r: &mut Random, room: Room) -> Lent {
        let [order, work] = old_slots(r, [room.order, room.work]);
        let text = old_bytes(r, room.text);
        Lent {
            text: Memory::new(r, &[&text]),
            lists: Memory::new(r, &[&order, &work]),
        }
    }

    fn lend<A>(&mut self, call: impl FnOnce(&mut [u8], &mut [u32], &mut [u32]) -> A) -> A {
        let Lent { text, lists } = self;
        text.lend(|[text]| lists.lend(|[order, work]| call(text, order, work)))
    }

    fn equals(&self, other: &Lent) -> bool {
        self.text.equals(&other.text) && self.lists.equals(&other.lists)
    }

    /// Whether an accepted column left its sheet, its order and zeros, and past
    /// them what was there before.
    fn holds(&self, before: &Lent, (text, order): (&[u8], &[u32])) -> bool {
        fn is<T: PartialEq>(after: &[T], before: &[T], front: &[T]) -> bool {
            after.starts_with(front) && after[front.len()..] == before[front.len()..]
        }
        let (lists, old) = (&self.lists, &before.lists);
        is(self.text.slice(0), before.text.slice(0), text)
            && is(lists.slice(0), old.slice(0), order)
            && is(lists.slice(1), old.slice(1), &vec![0; order.len()])
    }
}

/// Notes a column that was to be written as a whole sheet.
fn note(seen: &mut Seen, c: &Column, room: Room, refusal: u32) {
    if !matches!(refusal, 0 | 15) {
        return;
    }
    let (k, used) = (c.view().partitions(), c.view().used());
    let lengths = &c.directory[LENGTHS..LENGTHS + k];
    let growers = &c.growers[..used];
    let need = Sheet { c, day: None }.need();
    let lines = (need.text - sheet_size(0)) / 81;
    if refusal == 15 {
        let enough = room.order >= used && room.work >= used;
        let is_short = enough && room.text + 1 == need.text;
        let there = [
            is_short,
            enough && room.text == 0,
            room.text >= need.text && room.order + 1 == used && room.work >= used,
            room.text >= need.text && room.work + 1 == used && room.order >= used,
            is_short && lines > 8_192,
            is_short && lines > 16_384,
        ];
        SHORT
            .iter()
            .zip(there)
            .for_each(|(kind, there)| seen.kind(there, kind));
        return;
    }
    let runs = growers.chunk_by(|a, b| a == b).count();
    let starts = (0..k).map(|p| c.view().start(p)..c.view().start(p + 1));
    let falls = starts.into_iter().any(|part| !growers[part].is_sorted());
    let there = [
        k == 1 && used == 0,
        k > 1 && used == 0,
        used > 0 && lengths.contains(&0),
        k == BLOCK_LIMIT,
        lines == 1 && used > 1,
        lines == used && used > 1,
        runs > lines,
        falls,
        growers.contains(&0),
        growers.contains(&u32::MAX),
        used == c.growers.len(),
        c.weights[used..].iter().any(|&w| w > WEIGHT_LIMIT),
        room.text == need.text,
        room.text > need.text,
        room.text >= sheet_size(c.growers.len()),
        room.order == used && used > 0,
        room.order > used,
        room.work == used && used > 0,
        room.work > used,
        lines > 8_192 && room.text == need.text,
        lines > 16_384 && room.text == need.text,
    ];
    WRITTEN
        .iter()
        .zip(there)
        .for_each(|(kind, there)| seen.kind(there, kind));
}

/// Writes a sheet by both; compares answers, texts, lists, slices and guards, and
/// what is left with a third writer. Answers the refusal.
fn write(
    r: &mut Random,
    seen: &mut Seen,
    library: &Library,
    sheet: Sheet,
    room: Room,
) -> Result<u32, String> {
    let Sheet { c, day } = sheet;
    let before = Lent::new(r, room);
    let (mut compiled_lent, mut second_lent) = (before.clone(), before.clone());
    let mut slots = column_memory(r, c);
    let slots_before = slots.clone();
    let compiled = slots.lend(|lent| {
        let column = slices(lent);
        compiled_lent
            .lend(|text, order, work| library.sheet(&column.view(), day, text, order, work))
    });
    let second =
        second_lent.lend(|text, order, work| sheet_second(&c.view(), day, text, order, work));
    seen.answer(sheet.call(), second.refusal);
    match day {
        None => note(seen, c, room, second.refusal),
        Some(day) => terms::note(seen, c, day, room, second.refusal),
    }
    let lent = slots.counts(&NAMES).chain(before.text.counts(&TEXT));
    let lent = lent.chain(before.lists.counts(&LISTS));
    seen.lent(sheet.call(), library, lent);
    let same =
        compiled == second && compiled_lent.equals(&second_lent) && slots.equals(&slots_before);
    let left = match second.refusal {
        0 => {
            let (text, order) = sheet.by_slots();
            second.bytes == text.len() as u64 && compiled_lent.holds(&before, (&text, &order))
        }
        _ => second.bytes == 0 && compiled_lent.equals(&before),
    };
    if same && left {
        return Ok(second.refusal);
    }
    Err(format!(
        "{}, day {day:?}: compiled {compiled:?}, second {second:?}, left as it has to be {left}; \
         {}; {}; {}; text {}, {room:?}, {}",
        sheet.call(),
        compiled_lent.text.compared(&second_lent.text, &TEXT),
        compiled_lent.lists.compared(&second_lent.lists, &LISTS),
        slots.compared(&slots_before, &NAMES),
        shown(compiled_lent.text.slice(0)),
        column_text(c)
    ))
}

/// An error if the refusal is not the expected one.
fn is(
    run: &mut Run,
    r: &mut Random,
    library: &Library,
    (sheet, room): (Sheet, Room),
    expected: u32,
) -> Result<(), String> {
    match write(r, &mut run.seen, library, sheet, room)? {
        refusal if refusal == expected => Ok(()),
        refusal => Err(format!(
            "{room:?}, day {:?}: {refusal}, not {expected}",
            sheet.day
        )),
    }
}

/// A column of proper shape is accepted, or refused by 15.
pub fn accepted(
    run: &mut Run,
    r: &mut Random,
    library: &Library,
    sheet: Sheet,
    room: Room,
) -> Result<(), String> {
    let need = sheet.need();
    let enough = room.text >= need.text && room.order >= need.order && room.work >= need.work;
    is(run, r, library, (sheet, room), if enough { 0 } else { 15 })
}

/// A sheet with each room exact, each alone one short, and some to spare.
pub fn rooms(run: &mut Run, r: &mut Random, library: &Library, sheet: Sheet) -> Result<(), String> {
    let need = sheet.need();
    let (text, records, slots) = (need.text, need.order, sheet.c.growers.len());
    let spare = |r: &mut Random, n: usize| n + r.pick(&[0, 1, 3, 200]);
    let all = Room {
        text: sheet_size(slots),
        order: slots,
        work: slots,
    };
    let any = Room {
        text: spare(r, text),
        order: spare(r, records),
        work: spare(r, records),
    };
    let short = |n: usize| n.saturating_sub(1);
    let few = r.below(text);
    for room in [
        need,
        all,
        any,
        Room {
            text: text - 1,
            ..need
        },
        Room {
            text: text - 1,
            ..all
        },
        Room { text: few, ..any },
        Room { text: 0, ..need },
        Room {
            order: short(records),
            ..any
        },
        Room {
            work: short(records),
            ..any
        },
        Room {
            order: short(records),
            ..need
        },
        Room {
            work: short(records),
            ..need
        },
        Room { order: 0, ..any },
        Room { work: 0, ..any },
    ] {
        accepted(run, r, library, sheet, room)?;
    }
    Ok(())
}

/// The sheet of 01's main column, line by line.
const MAIN: &str =
    "                  10                   1                 100              200000
                  20                   1                 100              200000
                  30                   1                 100              200000
                  40                   1                 100              200000
                  50                   1                 100              200000
                  60                   1                 100              200000
                  70                   1                 100              200000
                  80                   1                 100              200000
                   8                 800             1600000
";

fn main_sheet(run: &mut Run) -> Result<(), String> {
    let library = Library { empty: Empty::Null };
    let c = lists::main_column();
    let (mut text, mut order, mut work) = (vec![0; MAIN.len()], [9; 9], [9; 9]);
    let a = library.write_sheet(&c.view(), &mut text, &mut order, &mut work);
    let expected = ([0, 1, 2, 3, 4, 5, 6, 7, 9], [0, 0, 0, 0, 0, 0, 0, 0, 9]);
    run.seen.calls += 1;
    let good = a.refusal == 0 && text == MAIN.as_bytes() && (order, work) == expected;
    match good {
        true => {
            let sheet = Sheet { c: &c, day: None };
            rooms(run, &mut Random::new(0), &library, sheet)
        }
        false => Err(format!("{a:?}, {}, {order:?}, {work:?}", shown(&text))),
    }
}

fn sound(run: &mut Run) -> Result<(), String> {
    run.cases(120, 4_000, |run, r| {
        let library = inputs::library(r);
        let c = inputs::sound_column(r);
        rooms(run, r, &library, Sheet { c: &c, day: None })
    })
}

/// The sheet as a host makes it of finds and steps from grower to grower.
fn by_steps(library: &Library, sheet: Sheet) -> String {
    let (mut text, view) = (String::new(), sheet.c.view());
    let mut from = Some(0);
    while let Some(step) = from.map(|g| library.next_grower(&view, g)) {
        if step.records == 0 {
            break;
        }
        let t = library.find(&view, step.grower).totals;
        let (grower, [records, weight, oil]) = (step.grower, [t.records, t.weight, t.oil]);
        let _ = writeln!(text, "{grower:>20}{records:>20}{weight:>20}{oil:>20}");
        from = grower.checked_add(1);
    }
    let t = library.range(&view, 0, u32::MAX).totals;
    let _ = writeln!(text, "{:>20}{:>20}{:>20}", t.records, t.weight, t.oil);
    text
}

/// A layout is applied, then calls are made; a sheet is written between, and has
/// what a host makes of other calls.
pub fn laid(
    run: &mut Run,
    (test, count): (u64, u64),
    drawn: Drawn,
    by_calls: fn(&Library, Sheet) -> String,
) -> Result<(), String> {
    run.cases(test, count, |run, r| {
        let library = inputs::library(r);
        let column = lists::laid_column(run, r, &library)?;
        let mut pair = Pair::new(r, &column);
        let mix = r.pick(&MIXES);
        for _ in 0..r.within(2, 4) {
            let c = pair.column();
            let day = drawn(r, &c);
            let sheet = Sheet { c: &c, day };
            rooms(run, r, &library, sheet)?;
            let (by_calls, by_slots) = (by_calls(&library, sheet), sheet.by_slots().0);
            if by_calls.as_bytes() != by_slots {
                return Err(format!("calls make {by_calls:?} of {sheet:?}"));
            }
            for _ in 0..r.below(20) {
                let asked = inputs::asked(r, &pair.view(), &mix);
                pair.ask(&mut run.seen, &library, asked)?;
            }
        }
        Ok(())
    })
}

/// Exchanges records inside each partition: none, some, or all at random; or the
/// first of each go to its end.
pub fn stir(r: &mut Random, c: &mut Column) {
    let view = c.view();
    let parts: Vec<(usize, usize)> = (0..view.partitions())
        .map(|p| (view.start(p), view.length(p)))
        .filter(|&(_, n)| n > 1)
        .collect();
    let how = r.below(4);
    for (start, n) in parts {
        if how == 3 {
            let by = r.below(n);
            for slice in c.slices() {
                slice[start..start + n].rotate_left(by);
            }
        }
        let exchanges = match how {
            0 => 0,
            2 => n - 1,
            _ => n.min(20),
        };
        for i in (1..=exchanges).rev() {
            let (x, y) = match how {
                2 => (start + i, start + r.below(i + 1)),
                _ => (start + r.below(n), start + r.below(n)),
            };
            for slice in c.slices() {
                slice.swap(x, y);
            }
        }
    }
}

/// So many growers, each with one to `most` records, in `k` partitions; a free
/// slot in one of two.
pub fn column_of(r: &mut Random, growers: usize, most: usize, k: usize) -> Column {
    let count = growers as u32;
    let held: Vec<u32> = match r.below(3) {
        0 => (0..count).collect(),
        1 => (0..count).map(|g| u32::MAX - (count - 1 - g)).collect(),
        _ => spread_growers(r, growers),
    };
    // How many growers each partition and those before it have.
    let mut pasts = BTreeSet::from([growers]);
    while pasts.len() < k {
        pasts.insert(r.within(1, growers));
    }
    let mut c = Column {
        directory: vec![0; DIRECTORY_LEN],
        growers: Vec::new(),
        weights: Vec::new(),
        yields: Vec::new(),
        days: Vec::new(),
    };
    c.directory[..2].copy_from_slice(&[r.pick(&[1, 64, 4_096]), k as u32]);
    let mut first = 0;
    for (p, past) in pasts.into_iter().enumerate() {
        let before = c.growers.len();
        for &g in &held[first..past] {
            for _ in 0..r.within(1, most) {
                c.growers.push(g);
                c.weights.push(inputs::weight(r));
                c.yields.push(inputs::oil_yield(r));
                c.days.push(inputs::day(r));
            }
        }
        c.directory[LENGTHS + p] = (c.growers.len() - before) as u32;
        c.directory[FENCES + p] = held[past - 1];
        first = past;
    }
    let free = usize::from(c.growers.len() < SLOT_LIMIT && r.one_in(2));
    c.resize(c.growers.len() + free);
    c
}

/// Each room exact, the text one byte short, and room for every slot's line.
pub fn exact_rooms(
    run: &mut Run,
    r: &mut Random,
    library: &Library,
    sheet: Sheet,
) -> Result<(), String> {
    let need = sheet.need();
    let (text, all) = (need.text - 1, sheet_size(sheet.c.growers.len()));
    for room in [need, Room { text, ..need }, Room { text: all, ..need }] {
        accepted(run, r, library, sheet, room)?;
    }
    Ok(())
}

/// Columns of some and of many growers, stirred inside their partitions.
fn stirred(run: &mut Run) -> Result<(), String> {
    run.cases(122, 600, |run, r| {
        let library = inputs::library(r);
        let k = r.pick(&[1, 2, 9, 64]);
        let growers = r.pick(&[1, 2, 70, 300]).max(k);
        let most = r.pick(&[1, 2, 20]);
        let mut c = column_of(r, growers, most, k);
        stir(r, &mut c);
        rooms(run, r, &library, Sheet { c: &c, day: None })
    })
}

fn many_growers(run: &mut Run) -> Result<(), String> {
    run.cases(123, 6, |run, r| {
        let library = inputs::library(r);
        for growers in MANY {
            let (most, k) = (r.pick(&[1, 1, 2, 9]), r.pick(&[1, 2, 64]));
            let mut c = column_of(r, growers, most, k);
            stir(r, &mut c);
            exact_rooms(run, r, &library, Sheet { c: &c, day: None })?;
        }
        Ok(())
    })
}

/// One grower in some ten thousand slots, alone and beside others.
fn large_growers(run: &mut Run) -> Result<(), String> {
    run.cases(124, 4, |run, r| {
        let library = inputs::library(r);
        for growers in [1, 2, 3] {
            let mut c = column_of(r, growers, 20_000, 1);
            stir(r, &mut c);
            exact_rooms(run, r, &library, Sheet { c: &c, day: None })?;
        }
        Ok(())
    })
}

/// 262,144 deliveries: all of one grower, and each of another; the largest
/// weights and yields.
fn largest(run: &mut Run) -> Result<(), String> {
    run.cases(125, 1, |run, r| {
        let library = inputs::library(r);
        for growers in [SLOT_LIMIT, 1] {
            let mut c = column_of(r, growers, 1, 64.min(growers));
            let last = c.growers[growers - 1];
            c.growers.resize(SLOT_LIMIT, last);
            c.weights = vec![100_000; SLOT_LIMIT];
            c.yields = vec![10_000; SLOT_LIMIT];
            c.days = vec![36_524; SLOT_LIMIT];
            if growers == 1 {
                c.directory[LENGTHS] = SLOT_LIMIT as u32;
            }
            stir(r, &mut c);
            exact_rooms(run, r, &library, Sheet { c: &c, day: None })?;
        }
        Ok(())
    })
}

/// One change of a column or of a room.
#[derive(Clone, Copy, Debug, PartialEq, Eq)]
enum Fault {
    Written(WriteFault),
    OrderShort,
    NoOrder,
    WorkShort,
    NoWork,
}

use Fault::*;

/// Those of a room come first.
fn faults() -> Vec<Fault> {
    let mut all = vec![OrderShort, NoOrder, WorkShort, NoWork];
    all.extend(writing::faults().into_iter().map(Written));
    all
}

impl Fault {
    fn is_large(self) -> bool {
        matches!(self, Written(fault) if fault.is_large())
    }

    /// Puts the fault; false if it cannot be put here.
    fn put(self, r: &mut Random, c: &mut Column, room: &mut Room, need: Room) -> bool {
        match self {
            Written(fault) => return fault.put(r, c, &mut room.text, need.text),
            OrderShort => room.order = need.order - 1,
            NoOrder => room.order = 0,
            WorkShort => room.work = need.work - 1,
            NoWork => room.work = 0,
        }
        true
    }

    fn expected(self) -> u32 {
        match self {
            Written(fault) => fault.expected(),
            _ => 15,
        }
    }
}

/// The refusal of two faults, of which the second is put later.
fn expected_of(first: Fault, second: Fault) -> u32 {
    match (first, second) {
        (Written(first), Written(second)) => writing::expected_of(first, second),
        // The first is of a room, and 15 is the last check.
        _ if second.expected() == 0 => 15,
        _ => second.expected(),
    }
}

/// A column that is accepted, the day, the room it has and the room it needs.
fn base(r: &mut Random, drawn: Drawn) -> (Column, Option<u32>, Room, Room) {
    let c = broken::base(r);
    let day = drawn(r, &c);
    let need = Sheet { c: &c, day }.need();
    let room = Room {
        text: need.text + r.pick(&[0, 1, 500]),
        order: need.order + r.below(3),
        work: need.work + r.below(3),
    };
    (c, day, room, need)
}

pub fn alone(run: &mut Run, (test, count): (u64, u64), drawn: Drawn) -> Result<(), String> {
    let faults = faults();
    run.cases(test, count, |run, r| {
        let library = inputs::library(r);
        for fault in &faults {
            let (mut c, day, mut room, need) = base(r, drawn);
            if fault.is_large() && !r.one_in(8) || !fault.put(r, &mut c, &mut room, need) {
                continue;
            }
            let with = |why| format!("{fault:?}: {why}");
            let number = fault.expected();
            let sheet = Sheet { c: &c, day };
            is(run, r, &library, (sheet, room), number).map_err(with)?;
            // A day that has no term.
            if day.is_some() {
                let day = Some(inputs::day_out(r));
                let number = broken::asked_first(number, 19);
                let sheet = Sheet { c: &c, day };
                is(run, r, &library, (sheet, room), number).map_err(with)?;
            }
        }
        Ok(())
    })
}

pub fn pairs(run: &mut Run, (test, count): (u64, u64), drawn: Drawn) -> Result<(), String> {
    let faults = faults();
    run.cases(test, count, |run, r| {
        let library = inputs::library(r);
        for (i, &first) in faults.iter().enumerate() {
            for &second in &faults[i + 1..] {
                let large = first.is_large() || second.is_large();
                let (mut c, day, mut room, need) = base(r, drawn);
                if large && !r.one_in(8) || !first.put(r, &mut c, &mut room, need) {
                    continue;
                }
                if c.directory.len() < 2 || !second.put(r, &mut c, &mut room, need) {
                    continue;
                }
                let with = |why| format!("{first:?} and {second:?}: {why}");
                let (sheet, number) = (Sheet { c: &c, day }, expected_of(first, second));
                is(run, r, &library, (sheet, room), number).map_err(with)?;
            }
        }
        Ok(())
    })
}

/// A weight, a yield or a day out of range in every record, in the term or not: 8
/// ahead of 19, and both ahead of 15.
pub fn every_record(run: &mut Run, (test, count): (u64, u64), drawn: Drawn) -> Result<(), String> {
    run.cases(test, count, |run, r| {
        let library = inputs::library(r);
        let clean = bad::column(r);
        let day = drawn(r, &clean);
        let need = Sheet { c: &clean, day }.need();
        for bad in Bad::every(r, clean.view().used()) {
            let mut c = clean.clone();
            bad.put(r, c.slices());
            let number = bad.refusal(&(0..c.view().used()));
            let with = |why| format!("{bad:?}: {why}");
            let sheet = Sheet { c: &c, day };
            is(run, r, &library, (sheet, need), number).map_err(with)?;
            let text = need.text - 1;
            let number = broken::asked_first(number, 15);
            let room = Room { text, ..need };
            is(run, r, &library, (sheet, room), number).map_err(with)?;
        }
        Ok(())
    })
}

/// Columns that may be unsound or hold a value out of range, with up to two
/// numbers of the directory replaced.
pub fn any(run: &mut Run, (test, count): (u64, u64), drawn: Drawn) -> Result<(), String> {
    run.cases(test, count, |run, r| {
        let library = inputs::library(r);
        let mut c = any_column(r);
        let day = drawn(r, &c);
        let need = Sheet { c: &c, day }.need();
        let less = |r: &mut Random, n: usize| (n + 2).saturating_sub(r.pick(&[0, 0, 0, 2, 3]));
        let room = Room {
            text: less(r, need.text),
            order: less(r, need.order),
            work: less(r, need.work),
        };
        let shaped = c.directory.clone();
        replace_some(r, &mut c);
        let refusal = write(r, &mut run.seen, &library, Sheet { c: &c, day }, room)?;
        run.seen
            .kind(refusal == 6 && c.directory == shaped, UNSOUND);
        Ok(())
    })
}

/// Growers, weights, yields, days, directory, text, order and work, each alone
/// at the edge counts; then nothing lent.
pub fn edge_counts(run: &mut Run, test: u64, drawn: Drawn) -> Result<(), String> {
    run.cases(test, 1, |run, r| {
        for library in LIBRARIES {
            for lent in 0..8 {
                for n in EDGE_COUNTS {
                    let (mut c, day, mut room, need) = base(r, drawn);
                    let (expected, least) = match lent {
                        0..=3 => (3, usize::MAX),
                        4 => (6, usize::MAX),
                        5 => (15, need.text),
                        _ => (15, need.order),
                    };
                    match lent {
                        7 => room.work = n,
                        6 => room.order = n,
                        5 => room.text = n,
                        4 => c.directory.resize(n, 0),
                        i => c.slices()[i].resize(n, 0),
                    }
                    let expected = if n < least { expected } else { 0 };
                    let with = |why| format!("slice {lent} of {n}: {why}");
                    let sheet = Sheet { c: &c, day };
                    is(run, r, &library, (sheet, room), expected).map_err(with)?;
                }
            }
            let (mut c, day, ..) = base(r, drawn);
            c.resize(0);
            c.directory.clear();
            let nothing = Room {
                text: 0,
                order: 0,
                work: 0,
            };
            is(run, r, &library, (Sheet { c: &c, day }, nothing), 3)?;
        }
        Ok(())
    })
}

/// Columns of one slot, used or free.
fn one_slot(run: &mut Run) -> Result<(), String> {
    run.cases(130, 100, |run, r| {
        let library = inputs::library(r);
        for is_used in [false, true] {
            let c = inputs::one_slot(r, is_used);
            rooms(run, r, &library, Sheet { c: &c, day: None })?;
        }
        Ok(())
    })
}

fn every_case(run: &mut Run) -> Result<(), String> {
    let kinds = [&WRITTEN[..], &SHORT, &[UNSOUND]].concat();
    run.seen.complete(&ANSWERS, &kinds)
}

pub const TESTS: &[(&str, Test)] = &[
    ("sheets: the main column's sheet", main_sheet),
    ("sheets: sound columns", sound),
    ("sheets: laid columns after calls, beside finds", |run| {
        laid(run, (121, 1_500), whole, by_steps)
    }),
    ("sheets: stirred inside the partitions", stirred),
    ("sheets: more than 8,192 and 16,384 growers", many_growers),
    ("sheets: growers with many deliveries", large_growers),
    ("sheets: 262,144 deliveries", largest),
    ("sheets: each fault alone", |run| {
        alone(run, (126, 60), whole)
    }),
    ("sheets: two faults", |run| pairs(run, (127, 10), whole)),
    ("sheets: 19 beside 8, every record", |run| {
        every_record(run, (131, 60), whole)
    }),
    ("sheets: any column", |run| any(run, (128, 15_000), whole)),
    ("sheets: each slice at the edge counts", |run| {
        edge_counts(run, 129, whole)
    }),
    ("sheets: columns of one slot", one_slot),
    (
        "sheets: every answer and every case has occurred",
        every_case,
    ),
];
