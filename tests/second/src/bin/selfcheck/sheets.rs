//! The settlement sheet: examples, random columns against a plain model and
//! against finds, and the program on books good and damaged.

use crate::groups::{damage, expected_read, main_column, Outcome};
use crate::growers::{any_column, sound_column};
use crate::model::{sheet, sheet_of, snapshot_text};
use crate::random;
use crate::require;
use crate::subject::*;
use second::random::Random;
use second::*;

/// Text, order and work lent with so many elements; none is what an accepted call
/// writes.
fn lent([text, order, work]: [usize; 3]) -> Room {
    Room {
        text: vec![b'#'; text],
        order: vec![u32::MAX; order],
        work: vec![u32::MAX; work],
    }
}

/// The sheet of a column, or that of a day's term, in rooms of these lengths gives
/// this text and this order and nothing else; refused, it leaves all that it was
/// lent.
pub fn sheet_is(
    s: &dyn Subject,
    (c, day): (&Column, Option<u32>),
    rooms: [usize; 3],
    expected: Result<(&[u8], &[u32]), u32>,
) -> Outcome {
    let mut room = lent(rooms);
    let mut after = room.clone();
    let number = expected.err().unwrap_or(0);
    let (text, order) = expected.unwrap_or((&[], &[]));
    after.text[..text.len()].copy_from_slice(text);
    after.order[..order.len()].copy_from_slice(order);
    after.work[..order.len()].fill(0);
    let a = match day {
        None => s.sheet(c, &mut room),
        Some(day) => s.term_sheet(c, day, &mut room),
    };
    let right = a.refusal == number && a.written == text.len();
    require!(right, "{a:?}, not {number}; day {day:?} of {c:?}");
    let shown = room.text.escape_ascii();
    require!(room.text == after.text, "text \"{shown}\"; {c:?}");
    require!(room.order == after.order, "order {:?}; {c:?}", room.order);
    require!(room.work == after.work, "work {:?}; {c:?}", room.work);
    Ok(())
}

/// An accepted column in rooms that are so much longer.
fn written(
    s: &dyn Subject,
    c: &Column,
    (text, order): (&[u8], &[u32]),
    more: [usize; 3],
) -> Outcome {
    let m = order.len();
    let rooms = [text.len() + more[0], m + more[1], m + more[2]];
    sheet_is(s, (c, None), rooms, Ok((text, order)))
}

fn refused(s: &dyn Subject, c: &Column, rooms: [usize; 3], number: u32) -> Outcome {
    sheet_is(s, (c, None), rooms, Err(number))
}

/// The sheet of 01's main column.
const MAIN: &str =
    "                  10                   1                 100              200000
                  20                   1                 100              200000
                  30                   1                 100              200000
                  40                   1                 100              200000
                  50                   1                 100              200000
                  60                   1                 100              200000
                  70                   1                 100              200000
                  80                   1                 100              200000
                   8                 800             1600000
";

/// Growers 20, 10, 20 and then 90, 50, 90.
const MIXED: &str =
    "                  10                   1                   7               70000
                  20                   2              100001          1000000001
                  50                   1                   0                   0
                  90                   2                 300             1100000
                   6              100308          1001170001
";

pub const EMPTY: &str = "                   0                   0                   0\n";

fn mixed_column() -> Column {
    let mut c = Column {
        growers: vec![20, 10, 20, 90, 50, 90, 10],
        weights: vec![100_000, 7, 1, 100, 0, 200, u32::MAX],
        yields: vec![10_000, 10_000, 1, 5_000, 9, 3_000, u32::MAX],
        days: vec![0, 14, 15, 30, 31, 36_524, u32::MAX],
        directory: vec![0; DIRECTORY_LEN],
    };
    c.directory[..5].copy_from_slice(&[2, 3, 3, 0, 3]);
    c.directory[FENCES..FENCES + 3].copy_from_slice(&[20, 30, 80]);
    c
}

pub fn sheet_examples(s: &dyn Subject, _: u64) -> Outcome {
    let main = main_column(s);
    let in_place: Vec<u32> = (0..8).collect();
    written(s, &main, (MAIN.as_bytes(), &in_place), [0; 3])?;
    let mut c = mixed_column();
    let mixed = (MIXED.as_bytes(), &[1, 0, 2, 4, 3, 5][..]);
    written(s, &c, mixed, [0; 3])?;
    written(s, &c, mixed, [81, 1, 2])?;
    // Grower 50 is not in the partition of 20.
    c.growers[0] = 50;
    refused(s, &c, [1_000, 6, 6], 6)?;
    c.directory[LENGTHS..FENCES].fill(0);
    written(s, &c, (EMPTY.as_bytes(), &[]), [0; 3])?;
    refused(s, &c, [60, 0, 0], 15)
}

/// A sound column, in some cases after calls.
pub fn settled_column(s: &dyn Subject, r: &mut Random) -> Column {
    let mut c = sound_column(r);
    for _ in 0..r.below(8) {
        let call = random::call(r, &c.records());
        s.call(&mut c, &call);
    }
    c
}

/// Sound columns against the model, with rooms that are enough and rooms that
/// are one short.
pub fn sheet_columns(s: &dyn Subject, cases: u64) -> Outcome {
    let r = &mut Random::new(19);
    for _ in 0..cases {
        let c = settled_column(s, r);
        let (text, order) = sheet(&c);
        let more = [r.below(3) * r.below(90), r.below(3), r.below(3)];
        written(s, &c, (&text, &order), more)?;
        let m = order.len();
        refused(s, &c, [text.len() - 1, m, m], 15)?;
        if m > 0 {
            refused(s, &c, [text.len(), m - 1, m + 1], 15)?;
            refused(s, &c, [text.len(), m + 1, m - 1], 15)?;
        }
    }
    Ok(())
}

/// The numbers of a sheet's line.
pub fn numbers(line: &str) -> Vec<u64> {
    let fields = line.as_bytes().chunks(20);
    fields
        .map(|f| {
            String::from_utf8_lossy(f)
                .trim()
                .parse()
                .unwrap_or(u64::MAX)
        })
        .collect()
}

/// Each line has what a find answers, every grower has one, growers rise, and
/// the last line has a range's answer and the sums of the lines above.
pub fn sheet_finds(s: &dyn Subject, cases: u64) -> Outcome {
    let r = &mut Random::new(20);
    for _ in 0..cases {
        let mut c = settled_column(s, r);
        let m = c.used();
        let mut room = lent([sheet_size(m), m, m]);
        let a = s.sheet(&c, &mut room);
        require!(a.refusal == 0, "{a:?}; {c:?}");
        let text = String::from_utf8_lossy(&room.text[..a.written]);
        let mut lines: Vec<Vec<u64>> = text.lines().map(numbers).collect();
        let last = lines.pop().unwrap_or_default();
        let of = |t: &Totals| [t.records, t.weight, t.oil];
        let all = s.call(&mut c, &Call::Range(0, u32::MAX)).totals;
        require!(last == of(&all), "last line {last:?}, range {all:?}; {c:?}");
        for i in 0..3 {
            let sum: u64 = lines.iter().map(|l| l[i + 1]).sum();
            require!(sum == last[i], "sum {sum}, last line {last:?}; {c:?}");
        }
        for line in &lines {
            let found = s.call(&mut c, &Call::Find(line[0] as u32)).totals;
            require!(line[1..] == of(&found), "{line:?}, {found:?}; {c:?}");
            require!(line[1] > 0, "a line of no record: {line:?}; {c:?}");
        }
        require!(
            lines.windows(2).all(|w| w[0][0] < w[1][0]),
            "growers do not rise: {lines:?}; {c:?}"
        );
    }
    Ok(())
}

/// Columns of any kind and a drawn day, none for the whole sheet: 6 if the column
/// is unsound, 8 if a value is out of range, 19 if a day is, that of the term too,
/// 15 if a room is short.
pub fn any_sheet(
    s: &dyn Subject,
    (seed, cases): (u64, u64),
    drawn: impl Fn(&mut Random) -> Option<u32>,
) -> Outcome {
    let r = &mut Random::new(seed);
    let mut met = [0u32; 20];
    for _ in 0..cases {
        let (c, day) = (any_column(r), drawn(r));
        let records = c.records();
        let is_late = |day: u32| day > 36_524;
        let term = day.map(|day| s.term_of(day));
        let chosen = |n: u32| term.is_none_or(|t| (t.first..=t.last).contains(&n));
        let (text, order) = sheet_of(&c, chosen);
        let exact = [text.len(), order.len(), order.len()];
        let mut rooms = exact.map(|n| n + r.below(2));
        if r.one_in(3) {
            let i = r.below(3);
            rooms[i] = r.below(exact[i] + 1);
        }
        let number = match () {
            () if !c.is_sound() => 6,
            () if records.iter().any(|d| !d.in_range()) => 8,
            () if day.is_some_and(is_late) || records.iter().any(|d| is_late(d.day)) => 19,
            () if rooms.iter().zip(exact).any(|(&n, least)| n < least) => 15,
            () => 0,
        };
        met[number as usize] += 1;
        let expected = match number {
            0 => Ok((&text[..], &order[..])),
            _ => Err(number),
        };
        sheet_is(s, (&c, day), rooms, expected)?;
    }
    let every = [0, 6, 8, 15, 19].iter().all(|&number| met[number] > 0);
    require!(every || cases < 500, "not every outcome was met: {met:?}");
    Ok(())
}

pub fn sheet_refused(s: &dyn Subject, cases: u64) -> Outcome {
    any_sheet(s, (21, cases), |_| None)
}

/// A column of one partition, and of 64 with so many growers each.
fn wide_column(growers: impl Iterator<Item = u32>, each: u32) -> Column {
    let growers: Vec<u32> = growers.collect();
    let m = growers.len();
    let mut c = Column {
        growers,
        weights: vec![100_000; m],
        yields: vec![10_000; m],
        days: vec![36_524; m],
        directory: vec![0; DIRECTORY_LEN],
    };
    c.directory[0] = 4_096;
    if each == 0 {
        c.directory[1..3].copy_from_slice(&[1, m as u32]);
        return c;
    }
    c.directory[1] = 64;
    for p in 0..64 {
        let own = |g: &&u32| **g / each == p as u32;
        c.directory[LENGTHS + p] = c.growers.iter().filter(own).count() as u32;
        c.directory[FENCES + p] = (p as u32 + 1) * each - 1;
    }
    c
}

/// One record behind or ahead of 63 empty partitions, growers at both ends of
/// their range, and 262,144 slots: of one grower, of as many, and of a few
/// thousand in no order.
pub fn sheet_edges(s: &dyn Subject, _: u64) -> Outcome {
    let exact = |c: &Column| {
        let (text, order) = sheet(c);
        written(s, c, (&text, &order), [0; 3])
    };
    for grower in [0, 9, 400, 639] {
        exact(&wide_column([grower].into_iter(), 10))?;
    }
    exact(&wide_column([u32::MAX, 0, u32::MAX].into_iter(), 0))?;
    let m = SLOT_LIMIT as u32;
    for growers in [1, 5_000, m] {
        let mixed = move |i: u32| i * 129 % m % growers * (u32::MAX / growers);
        exact(&wide_column((0..m).map(mixed), 0))?;
    }
    // Down inside each of the 64 partitions.
    let down = |i: u32| i / 4_096 * 4_096 + (4_095 - i % 4_096) / 3;
    exact(&wide_column((0..m).map(down), 4_096))
}

/// What the program has to print of a book that is a column's text.
fn printed(c: &Column) -> Vec<u8> {
    if c.used() > 512 {
        return b"         12\n".to_vec();
    }
    sheet(c).0
}

fn prints(s: &dyn Subject, text: &[u8], expected: &[u8]) -> Outcome {
    let output = s.settlement(text);
    let (shown, input) = (output.escape_ascii(), text.escape_ascii());
    require!(output == expected, "prints \"{shown}\" of \"{input}\"");
    Ok(())
}

pub fn settlement_examples(s: &dyn Subject, _: u64) -> Outcome {
    prints(s, &snapshot_text(&main_column(s)), MAIN.as_bytes())?;
    let mut c = mixed_column();
    let book = snapshot_text(&c);
    prints(s, &book, MIXED.as_bytes())?;
    prints(s, &book[..book.len() - 1], b"         14\n")?;
    prints(s, b"", b"         14\n")?;
    // Line 1 alone says that there are too many.
    prints(s, b"          1        513          1\n?", b"         12\n")?;
    prints(s, b"          1     262145          1\n", b"         14\n")?;
    c.growers[0] = 50;
    prints(s, &snapshot_text(&c), b"         14\n")?;
    c.directory[LENGTHS..FENCES].fill(0);
    prints(s, &snapshot_text(&c), EMPTY.as_bytes())?;
    for m in [511, 512, 513] {
        for growers in [1, 100, m] {
            let c = wide_column((0..m).map(|i| i * 37 % growers), 0);
            prints(s, &snapshot_text(&c), &printed(&c))?;
        }
    }
    Ok(())
}

/// Books of random columns, good and damaged.
pub fn settlement_books(s: &dyn Subject, cases: u64) -> Outcome {
    let r = &mut Random::new(22);
    let mut met = [0u32; 16];
    for _ in 0..cases {
        let c = settled_column(s, r);
        let book = snapshot_text(&c);
        prints(s, &book, &printed(&c))?;
        let mut text = book;
        for _ in 0..r.within(1, 2) {
            damage(r, &mut text);
        }
        let expected = expected_read(&text, 512);
        met[expected as usize] += 1;
        if expected != 0 {
            prints(s, &text, format!("{expected:>11}\n").as_bytes())?;
        }
    }
    let every = [12, 14].iter().all(|&number| met[number] > 0);
    require!(every || cases < 500, "not every outcome was met: {met:?}");
    Ok(())
}
