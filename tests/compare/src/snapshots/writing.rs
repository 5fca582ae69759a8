//! Columns written, good and bad.

use super::calls::{read, size, write};
use super::damage::line;
use crate::bad::{self, Bad};
use crate::broken::{self, asked_first, Fault, FAULTS};
use crate::calls::{Asked, Pair};
use crate::inputs::{self, Kind, EDGE_COUNTS, MIXES};
use crate::lists;
use crate::text::{old_slots, Text};
use crate::Run;
use meltusk::{Call, Column, Empty, Library, Slots, LIBRARIES};
use second::random::Random;
use second::{DAY_LIMIT, SLOT_LIMIT, WEIGHT_LIMIT, YIELD_LIMIT};

/// The text of 01's main column, line by line.
const MAIN: &[u8] = b"          2          8          2
          4         40
          4         80
         10        100       2000
         20        100       2000
         30        100       2000
         40        100       2000
         50        100       2000
         60        100       2000
         70        100       2000
         80        100       2000
";

pub fn main_text(run: &mut Run) -> Result<(), String> {
    let library = Library { empty: Empty::Null };
    let mut r = Random::new(0);
    let c = lists::main_column();
    let seen = &mut run.seen;
    let (refusal, text) = write(&mut r, seen, &library, &c, MAIN.len())?;
    if refusal != 0 || text != MAIN {
        return Err(format!("refusal {refusal}, \"{}\"", text.escape_ascii()));
    }
    let old = old_slots(&mut r, [9; 4]);
    let (refusal, column) = read(&mut r, seen, &library, &Text::whole(MAIN), &old)?;
    same_column(&c, &column, refusal)?;
    match column.growers[8] == old[0][8] && column.days[8] == old[3][8] {
        true => Ok(()),
        false => Err("the free slot is written".into()),
    }
}

/// The text of a column by another writer than those compared.
pub fn lines(c: &Column) -> Vec<u8> {
    let view = c.view();
    let (k, used) = (view.partitions(), view.used());
    let mut text = line(&[c.directory[0].into(), used as u64, k as u64]);
    for p in 0..k {
        text.extend(line(&[view.length(p) as u64, view.fence(p).into()]));
    }
    for i in 0..used {
        let d = view.slot(i);
        text.extend(line(&[
            d.grower.into(),
            d.weight.into(),
            d.oil_yield.into(),
        ]));
    }
    text
}

/// An error if `read` is not the column that was written.
pub fn same_column(written: &Column, read: &Column, refusal: u32) -> Result<(), String> {
    let used = written.view().used();
    let same = refusal == 0
        && written.directory == read.directory
        && written.growers[..used] == read.growers[..used]
        && written.weights[..used] == read.weights[..used]
        && written.yields[..used] == read.yields[..used]
        && read.days[..used].iter().all(|&day| day == 0);
    match same {
        true => Ok(()),
        false => Err(format!(
            "refusal {refusal}: {written:?} is read as {read:?}"
        )),
    }
}

/// A column written, read and written again by the library.
fn round_trip(run: &mut Run, r: &mut Random, library: &Library, c: &Column) -> Result<(), String> {
    let seen = &mut run.seen;
    let (refusal, text) = write(r, seen, library, c, size(c))?;
    if refusal != 0 {
        return Err(format!("a sound column is refused by {refusal}"));
    }
    let slots = (c.view().used() + r.below(3)).clamp(1, SLOT_LIMIT);
    let old = old_slots(r, [slots; 4]);
    let (refusal, column) = read(r, seen, library, &Text::whole(&text), &old)?;
    same_column(c, &column, refusal)?;
    let (refusal, again) = write(r, seen, library, &column, text.len())?;
    match refusal == 0 && again == text {
        true => Ok(()),
        false => Err(format!("refusal {refusal}, or the second text differs")),
    }
}

/// A column and rooms for its text: enough, one byte short, none, and others.
fn rooms(run: &mut Run, r: &mut Random, library: &Library, c: &Column) -> Result<(), String> {
    let exact = size(c);
    for room in [
        exact,
        exact - 1,
        0,
        r.below(exact),
        exact + 1,
        exact + r.within(2, 1_000),
    ] {
        let (refusal, text) = write(r, &mut run.seen, library, c, room)?;
        let expected = if room < exact { 15 } else { 0 };
        if refusal != expected || expected == 0 && text != lines(c) {
            return Err(format!(
                "room {room} of {exact}: refusal {refusal}, \"{}\" of {c:?}",
                text.escape_ascii()
            ));
        }
    }
    Ok(())
}

pub fn sound(run: &mut Run) -> Result<(), String> {
    run.cases(60, 5_000, |run, r| {
        let library = inputs::library(r);
        let c = inputs::sound_column(r).undated();
        rooms(run, r, &library, &c)?;
        round_trip(run, r, &library, &c)
    })
}

/// A layout is applied, then calls are made; the column is written between.
pub fn laid(run: &mut Run) -> Result<(), String> {
    run.cases(61, 1_500, |run, r| {
        let library = inputs::library(r);
        let column = lists::laid_column(run, r, &library)?;
        let mut pair = Pair::new(r, &column);
        let mix = r.pick(&MIXES);
        for _ in 0..r.within(1, 3) {
            round_trip(run, r, &library, &pair.column().undated())?;
            for _ in 0..r.below(20) {
                let asked = inputs::asked(r, &pair.view(), &mix);
                pair.ask(&mut run.seen, &library, asked)?;
            }
        }
        round_trip(run, r, &library, &pair.column().undated())
    })
}

/// One change of a column or of the room for its text.
#[derive(Clone, Copy, Debug, PartialEq, Eq)]
pub enum WriteFault {
    OfColumn(Fault),
    /// A grower just past its partition's part of the growers.
    GrowerAbove,
    GrowerBelow,
    LastWeight,
    LastYield,
    LastDay,
    RoomShort,
    NoRoom,
}

use WriteFault::*;

/// A range of all growers scans all partitions, as writing does.
const ALL: Asked = Asked::Call(Call::Range(0, u32::MAX));

/// Those that leave the directory a directory come first.
pub fn faults() -> Vec<WriteFault> {
    let mut all = vec![
        RoomShort,
        NoRoom,
        GrowerAbove,
        GrowerBelow,
        LastWeight,
        LastYield,
        LastDay,
    ];
    let of_column = FAULTS.iter().filter(|fault| !fault.is_of_call());
    all.extend(of_column.map(|&fault| OfColumn(fault)));
    all
}

impl WriteFault {
    pub fn is_large(self) -> bool {
        matches!(self, OfColumn(fault) if fault.is_large())
    }

    /// Puts the fault; false if it cannot be put here. The room is more than
    /// enough or exact.
    pub fn put(self, r: &mut Random, c: &mut Column, room: &mut usize, exact: usize) -> bool {
        match self {
            OfColumn(fault) => return fault.put(r, c, &mut ALL.clone()),
            GrowerAbove | GrowerBelow => return self.put_grower(r, c),
            LastWeight => {
                let last = c.view().used() - 1;
                c.weights[last] = WEIGHT_LIMIT + 1;
            }
            LastYield => {
                let last = c.view().used() - 1;
                c.yields[last] = YIELD_LIMIT + 1;
            }
            LastDay => {
                let last = c.view().used() - 1;
                c.days[last] = DAY_LIMIT + 1;
            }
            RoomShort => *room = exact - 1,
            NoRoom => *room = 0,
        }
        true
    }

    fn put_grower(self, r: &mut Random, c: &mut Column) -> bool {
        let view = c.view();
        let slot = r.below(view.used());
        let Some(owner) = (0..view.partitions()).find(|&p| slot < view.start(p + 1)) else {
            return false;
        };
        let grower = match self {
            GrowerAbove if owner + 1 < view.partitions() => view.fence(owner) + 1,
            GrowerBelow if owner > 0 => view.fence(owner - 1),
            _ => return false,
        };
        c.growers[slot] = grower;
        true
    }

    /// The refusal of an else accepted column with this fault alone.
    pub fn expected(self) -> u32 {
        match self {
            OfColumn(fault) => fault.expected(&ALL),
            GrowerAbove | GrowerBelow => 6,
            LastWeight | LastYield => 8,
            LastDay => 19,
            RoomShort | NoRoom => 15,
        }
    }
}

/// A column that is accepted, and the room for its text.
fn accepted(r: &mut Random) -> (Column, usize) {
    let c = broken::base(r).undated();
    let room = size(&c) + r.pick(&[0, 1, 500]);
    (c, room)
}

pub fn alone(run: &mut Run) -> Result<(), String> {
    let faults = faults();
    run.cases(62, 60, |run, r| {
        let library = inputs::library(r);
        for fault in &faults {
            let (mut c, mut room) = accepted(r);
            let exact = size(&c);
            if fault.is_large() && !r.one_in(8) || !fault.put(r, &mut c, &mut room, exact) {
                continue;
            }
            let with = |why| format!("{fault:?}: {why}");
            let (refusal, _) = write(r, &mut run.seen, &library, &c, room).map_err(with)?;
            if refusal != fault.expected() {
                return Err(format!("{fault:?}: refusal {refusal}"));
            }
        }
        Ok(())
    })
}

/// The refusal of two faults: that of the check put first.
pub fn expected_of(first: WriteFault, second: WriteFault) -> u32 {
    match (first, second) {
        // Without 130 numbers there is no B to ask about.
        (OfColumn(Fault::Block(_)), OfColumn(Fault::DirectoryLength(_))) => 6,
        // The slice has its length again.
        (OfColumn(Fault::Shorter(i)), OfColumn(Fault::Longer(j))) if i == j => 0,
        _ => asked_first(first.expected(), second.expected()),
    }
}

pub fn pairs(run: &mut Run) -> Result<(), String> {
    let faults = faults();
    run.cases(63, 10, |run, r| {
        let library = inputs::library(r);
        for (i, &first) in faults.iter().enumerate() {
            for &second in &faults[i + 1..] {
                let large = first.is_large() || second.is_large();
                let (mut c, mut room) = accepted(r);
                let exact = size(&c);
                if large && !r.one_in(8) || !first.put(r, &mut c, &mut room, exact) {
                    continue;
                }
                if c.directory.len() < 2 || !second.put(r, &mut c, &mut room, exact) {
                    continue;
                }
                let with = |why| format!("{first:?} and {second:?}: {why}");
                let (refusal, _) = write(r, &mut run.seen, &library, &c, room).map_err(with)?;
                if refusal != expected_of(first, second) {
                    return Err(format!("{first:?} and {second:?}: refusal {refusal}"));
                }
            }
        }
        Ok(())
    })
}

/// Growers, weights, yields, days, directory and room, each alone at the edge
/// counts; then nothing lent.
pub fn edge_counts(run: &mut Run) -> Result<(), String> {
    run.cases(73, 1, |run, r| {
        for library in LIBRARIES {
            for lent in 0..6 {
                for n in EDGE_COUNTS {
                    let (mut c, mut room) = accepted(r);
                    let expected = match lent {
                        5 if n < size(&c) => 15,
                        5 => 0,
                        4 => 6,
                        _ => 3,
                    };
                    match lent {
                        5 => room = n,
                        4 => c.directory.resize(n, 0),
                        i => c.slices()[i].resize(n, 0),
                    }
                    let (refusal, _) = write(r, &mut run.seen, &library, &c, room)?;
                    if refusal != expected {
                        return Err(format!("slice {lent} of {n}: refusal {refusal}"));
                    }
                }
            }
            let (mut c, _) = accepted(r);
            c.resize(0);
            c.directory.clear();
            let (refusal, _) = write(r, &mut run.seen, &library, &c, 0)?;
            if refusal != 3 {
                return Err(format!("nothing lent: refusal {refusal}"));
            }
        }
        Ok(())
    })
}

/// Columns of one slot, used or free, written and read.
pub fn one_slot(run: &mut Run) -> Result<(), String> {
    run.cases(74, 100, |run, r| {
        let library = inputs::library(r);
        for is_used in [false, true] {
            let c = inputs::one_slot(r, is_used).undated();
            rooms(run, r, &library, &c)?;
            round_trip(run, r, &library, &c)?;
        }
        Ok(())
    })
}

/// A column that may be unsound or hold a value out of range.
pub fn any_column(r: &mut Random) -> Column {
    let kind = r.pick(&[Kind::Sound, Kind::Full, Kind::Unsound]);
    inputs::column(r, kind)
}

/// Up to two numbers of a directory are replaced.
pub fn replace_some(r: &mut Random, c: &mut Column) {
    for _ in 0..r.below(3) {
        let k = c.directory[1].clamp(1, 64) as usize;
        let at = match r.below(6) {
            0 => r.below(2),
            1 | 2 => second::LENGTHS + r.below(k),
            3 | 4 => second::FENCES + r.below(k),
            _ => r.below(c.directory.len()),
        };
        let old = c.directory[at];
        c.directory[at] = match r.below(6) {
            0 => r.pick(&[0, 1, 64, 65, 4_096, 4_097, u32::MAX]),
            1 => c.growers.len() as u32,
            2 | 3 => old.wrapping_add(1),
            _ => old.wrapping_sub(1),
        };
    }
}

/// A day that a book cannot hold in each record: 19, ahead of a room that is short,
/// behind a weight or a yield out of range in each record and behind a record in
/// another's partition.
pub fn dated(run: &mut Run) -> Result<(), String> {
    run.cases(76, 60, |run, r| {
        let library = inputs::library(r);
        let clean = bad::column(r).undated();
        let used = clean.view().used();
        for bad in Bad::every(r, used) {
            let mut c = clean.clone();
            let late = r.pick(&[1, 14, 8_825, DAY_LIMIT, DAY_LIMIT + 1, u32::MAX]);
            bad.put_day(r, c.slices(), late);
            let mut unsound = c.clone();
            let is_moved = GrowerAbove.put_grower(r, &mut unsound);
            let number = bad.refusal(&(0..used));
            for (c, room, expected) in [
                (&c, size(&c), number),
                (&c, size(&c) - 1, asked_first(number, 15)),
                (&unsound, size(&c), if is_moved { 6 } else { number }),
            ] {
                let (refusal, _) = write(r, &mut run.seen, &library, c, room)?;
                if refusal != expected {
                    return Err(format!("{bad:?} of {c:?}: {refusal}, not {expected}"));
                }
            }
        }
        Ok(())
    })
}

pub fn any(run: &mut Run) -> Result<(), String> {
    run.cases(64, 15_000, |run, r| {
        let library = inputs::library(r);
        let mut c = any_column(r);
        if r.one_in(2) {
            c = c.undated();
        }
        let room = size(&c) + 100 - r.pick(&[0, 0, 0, 100, 101]);
        replace_some(r, &mut c);
        write(r, &mut run.seen, &library, &c, room).map(|_| ())
    })
}
