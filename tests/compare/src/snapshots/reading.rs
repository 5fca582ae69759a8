//! Texts read, whole and damaged.

use super::calls::{read_back, size, text_of, write};
use super::damage::{damages, line, Damage, Draft, Effect};
use super::seen;
use super::writing::{lines, same_column};
use crate::inputs::{self, Kind, EDGE_COUNTS};
use crate::lists;
use crate::text::{old_slots, Lent, Text, LENT, REFUSED};
use crate::Run;
use meltusk::{spread_growers, Column, Library, LIBRARIES};
use second::random::Random;
use second::{BLOCK_LIMIT, DIRECTORY_LEN, FENCES, LENGTHS, SLOT_LIMIT};

/// A text to be read.
struct Given {
    text: Text,
    /// M: line 1's, or that of the text before its damage.
    used: usize,
    effect: Effect,
}

impl Given {
    /// The refusal; none if the damage may have any effect.
    fn expected(&self, lengths: [usize; 4]) -> Option<u32> {
        let [slots, others @ ..] = lengths;
        if slots == 0 || others != [slots; 3] {
            return Some(3);
        }
        match self.effect {
            Effect::Any => None,
            Effect::Line1 => Some(14),
            _ if slots < self.used => Some(12),
            Effect::Rest => Some(14),
            Effect::None | Effect::Harmless => Some(0),
        }
    }
}

/// Reads a text; an error if the refusal is not the one expected. None if
/// there are no such slots.
fn judged(
    run: &mut Run,
    r: &mut Random,
    library: &Library,
    given: &Given,
    lent: Lent,
) -> Result<Option<(u32, Column)>, String> {
    let Some(lengths) = lent.lengths(r, given.used) else {
        return Ok(None);
    };
    let old = old_slots(r, lengths);
    let (refusal, column) = read_back(r, &mut run.seen, library, &given.text, &old)?;
    if given.effect != Effect::None {
        run.damages.note();
    }
    if lent == Lent::Fewer {
        seen::note_few(&mut run.seen, given.effect, refusal);
    }
    match given.expected(lengths) {
        Some(number) if number != refusal => Err(format!(
            "slots {lengths:?}: refusal {refusal} for {number}, \"{}\"",
            given.text.lent().escape_ascii()
        )),
        _ => Ok(Some((refusal, column))),
    }
}

/// A column and the text that the second implementation writes of it.
fn base(r: &mut Random) -> Result<(Column, Vec<u8>), String> {
    let kind = match r.below(200) {
        0 => Kind::Large,
        1..=60 => Kind::Full,
        _ => Kind::Sound,
    };
    let c = inputs::clean_column(r, kind);
    let text = text_of(&c)?;
    Ok((c, text))
}

pub fn whole(run: &mut Run) -> Result<(), String> {
    run.cases(65, 6_000, |run, r| {
        let library = inputs::library(r);
        let (c, text) = base(r)?;
        let given = Given {
            text: Text::whole(&text),
            used: c.view().used(),
            effect: Effect::None,
        };
        for lent in LENT {
            if let Some((0, column)) = judged(run, r, &library, &given, lent)? {
                same_column(&c, &column, 0)?;
            }
        }
        Ok(())
    })
}

/// A text with these damages; none if they cannot be put.
fn damaged(r: &mut Random, damages: &[Damage]) -> Result<Option<Given>, String> {
    let (c, text) = base(r)?;
    let mut draft = Draft::new(&text, c.view().partitions());
    for &damage in damages {
        if draft.put(r, damage).is_none() {
            return Ok(None);
        }
    }
    let effect = match damages {
        [alone] => alone.effect(),
        _ => Effect::Any,
    };
    let used = match effect {
        Effect::Rest => draft.used(),
        _ => None,
    };
    Ok(Some(Given {
        text: draft.text(),
        used: used.unwrap_or(c.view().used()),
        effect,
    }))
}

pub fn alone(run: &mut Run) -> Result<(), String> {
    let damages = damages();
    run.cases(66, 60, |run, r| {
        let library = inputs::library(r);
        for (kind, &damage) in damages.iter().enumerate() {
            let no_slots = r.pick(&[Lent::Unequal, Lent::None]);
            for lent in [Lent::Exact, Lent::More, Lent::Fewer, no_slots] {
                let Some(given) = damaged(r, &[damage])? else {
                    continue;
                };
                let with = |why| format!("{damage:?}: {why}");
                let answer = judged(run, r, &library, &given, lent).map_err(with)?;
                if let Some((refusal, _)) = answer {
                    run.damages.note_alone(kind, refusal);
                }
            }
        }
        Ok(())
    })
}

pub fn pairs(run: &mut Run) -> Result<(), String> {
    let damages = damages();
    run.cases(67, 2, |run, r| {
        let library = inputs::library(r);
        for (i, &first) in damages.iter().enumerate() {
            for &second in &damages[i + 1..] {
                let Some(given) = damaged(r, &[first, second])? else {
                    continue;
                };
                let lent = r.pick(&LENT);
                let with = |why| format!("{first:?} and {second:?}: {why}");
                judged(run, r, &library, &given, lent).map_err(with)?;
            }
        }
        Ok(())
    })
}

/// Reads a damaged text into so many slots; the refusal.
fn read_damaged(
    run: &mut Run,
    r: &mut Random,
    library: &Library,
    text: &Text,
    slots: usize,
) -> Result<u32, String> {
    let old = old_slots(r, [slots; 4]);
    let (refusal, _) = read_back(r, &mut run.seen, library, text, &old)?;
    run.damages.note();
    Ok(refusal)
}

/// Most deliveries of a small text.
const FEW: usize = 3;

/// A text of at most two partitions, with deliveries.
fn small(r: &mut Random) -> Result<Vec<u8>, String> {
    loop {
        let (c, text) = base(r)?;
        if c.view().partitions() <= 2 && (1..=FEW).contains(&c.view().used()) {
            return Ok(text);
        }
    }
}

/// Each byte of a small text replaced by each other, left out and doubled,
/// and the text cut there.
pub fn every_byte(run: &mut Run) -> Result<(), String> {
    run.cases(68, 1, |run, r| {
        let library = inputs::library(r);
        let text = small(r)?;
        for at in 0..text.len() {
            for byte in (0..=255).filter(|&byte| byte != text[at]) {
                let mut changed = text.clone();
                changed[at] = byte;
                read_damaged(run, r, &library, &Text::whole(&changed), FEW)?;
            }
            let (head, tail) = text.split_at(at);
            for changed in [
                Text::whole(&[head, &tail[1..]].concat()),
                Text::whole(&[head, &tail[..1], tail].concat()),
                Text::new(head.to_vec(), tail),
            ] {
                let refusal = read_damaged(run, r, &library, &changed, FEW)?;
                if refusal != 14 {
                    return Err(format!("byte {at}: refusal {refusal} of {changed:?}"));
                }
            }
        }
        Ok(())
    })
}

/// Some bytes replaced, digits mostly by digits: in part snapshots again.
pub fn some_bytes(run: &mut Run) -> Result<(), String> {
    run.cases(69, 6_000, |run, r| {
        let library = inputs::library(r);
        let (c, mut text) = base(r)?;
        for _ in 0..r.within(1, 4) {
            let at = r.below(text.len());
            text[at] = match text[at] {
                b'0'..=b'9' if !r.one_in(4) => b'0' + r.below(10) as u8,
                _ => r.pick(b"  \n\r\t0123456789+-.,_\0\xa0"),
            };
        }
        let given = Given {
            text: Text::whole(&text),
            used: c.view().used(),
            effect: Effect::Any,
        };
        let lent = r.pick(&[Lent::Exact, Lent::More, Lent::More, Lent::Fewer]);
        judged(run, r, &library, &given, lent).map(|_| ())
    })
}

/// Numbers of line 1 on both sides of their limits, and slots.
fn line1_cases() -> Vec<([u64; 3], usize)> {
    let limit = SLOT_LIMIT as u64;
    let past = 1 << 32;
    let mut cases = vec![
        ([4_096, limit, 64], SLOT_LIMIT),
        ([4_096, limit, 64], SLOT_LIMIT - 1),
        ([1, limit - 1, 1], SLOT_LIMIT - 1),
        ([1, limit + 1, 1], SLOT_LIMIT),
        ([1, limit, 65], SLOT_LIMIT - 1),
        ([4_097, limit, 1], SLOT_LIMIT - 1),
    ];
    for b in [0, 1, 4_096, 4_097, past - 1, past] {
        for m in [0, 1, 2, limit - 1, limit, limit + 1, past - 1, past] {
            for k in [0, 1, 64, 65, past - 1, past] {
                cases.extend([1, 2, 7].map(|slots| ([b, m, k], slots)));
            }
        }
    }
    cases
}

/// The refusal of a text that is line 1 alone.
fn line1_refusal([b, m, k]: [u64; 3], slots: usize) -> u32 {
    let good = (1..=4_096).contains(&b) && m <= 262_144 && (1..=64).contains(&k);
    match good && slots < m as usize {
        true => 12,
        false => 14,
    }
}

/// Line 1 alone, with its LF and without.
pub fn line1(run: &mut Run) -> Result<(), String> {
    let cases = line1_cases();
    run.cases(70, 2, |run, r| {
        let library = inputs::library(r);
        for &(numbers, slots) in &cases {
            let line = line(&numbers);
            let (fields, lf) = line.split_at(line.len() - 1);
            for (text, expected) in [
                (Text::whole(&line), line1_refusal(numbers, slots)),
                (Text::new(fields.to_vec(), lf), 14),
            ] {
                let refusal = read_damaged(run, r, &library, &text, slots)?;
                if refusal != expected {
                    return Err(format!("{text:?}, {slots} slots: refusal {refusal}"));
                }
            }
        }
        Ok(())
    })
}

/// Slices of no slot, of unequal lengths and past the limit, whatever the
/// text.
pub fn slice_lengths(run: &mut Run) -> Result<(), String> {
    run.cases(71, 2, |run, r| {
        let text = text_of(&lists::main_column())?;
        for library in LIBRARIES {
            for text in [&text[..], &text[1..], &[]] {
                let text = Text::whole(text);
                for lengths in REFUSED {
                    let old = old_slots(r, lengths);
                    let (refusal, _) = read_back(r, &mut run.seen, &library, &text, &old)?;
                    if refusal != 3 {
                        return Err(format!("lengths {lengths:?}: refusal {refusal}"));
                    }
                }
            }
        }
        Ok(())
    })
}

/// Growers, weights, yields, days and text, each alone at the edge counts.
pub fn edge_counts(run: &mut Run) -> Result<(), String> {
    run.cases(75, 1, |run, r| {
        let whole = text_of(&lists::main_column())?;
        for library in LIBRARIES {
            for lent in 0..5 {
                for n in EDGE_COUNTS {
                    let mut text = whole.clone();
                    let mut lengths = [9; 4];
                    match lent {
                        4 => text.resize(n, b'\n'),
                        i => lengths[i] = n,
                    }
                    let expected = if lent == 4 { 14 } else { 3 };
                    let old = old_slots(r, lengths);
                    let text = Text::whole(&text);
                    let (refusal, _) = read_back(r, &mut run.seen, &library, &text, &old)?;
                    if refusal != expected {
                        return Err(format!("slice {lent} of {n}: refusal {refusal}"));
                    }
                }
            }
        }
        Ok(())
    })
}

/// 262,144 deliveries in 64 partitions, no free slot.
fn largest_column(r: &mut Random) -> Column {
    let growers = spread_growers(r, SLOT_LIMIT);
    let mut directory = vec![0; DIRECTORY_LEN];
    let length = SLOT_LIMIT / BLOCK_LIMIT;
    directory[0] = 4_096;
    directory[1] = BLOCK_LIMIT as u32;
    for p in 0..BLOCK_LIMIT {
        directory[LENGTHS + p] = length as u32;
        directory[FENCES + p] = growers[length * (p + 1) - 1];
    }
    Column {
        directory,
        growers,
        weights: (0..SLOT_LIMIT).map(|_| inputs::weight(r)).collect(),
        yields: (0..SLOT_LIMIT).map(|_| inputs::oil_yield(r)).collect(),
        days: vec![0; SLOT_LIMIT],
    }
}

/// A byte counted from the end, and what it becomes; each makes the text no
/// snapshot.
const NEAR_THE_END: [(usize, u8); 6] = [
    (1, b' '),
    (2, b' '),
    (13, b'\t'),
    (24, b'-'),
    (34, b'0'),
    (35, b'\r'),
];

fn stated(what: &str, refusal: u32, number: u32) -> Result<(), String> {
    match refusal == number {
        true => Ok(()),
        false => Err(format!("{what}: refusal {refusal} for {number}")),
    }
}

pub fn largest(run: &mut Run) -> Result<(), String> {
    run.cases(72, 1, |run, r| {
        let library = inputs::library(r);
        let c = largest_column(r);
        let (refusal, text) = write(r, &mut run.seen, &library, &c, size(&c))?;
        stated("written", refusal, 0)?;
        if text != lines(&c) {
            return Err("written: another text".into());
        }
        let (refusal, _) = write(r, &mut run.seen, &library, &c, size(&c) - 1)?;
        stated("room one byte short", refusal, 15)?;
        let whole = Text::whole(&text);
        let old = old_slots(r, [SLOT_LIMIT; 4]);
        let (refusal, column) = read_back(r, &mut run.seen, &library, &whole, &old)?;
        stated("read", refusal, 0)?;
        if column != c {
            return Err("read: another column".into());
        }
        let old = old_slots(r, [SLOT_LIMIT - 1; 4]);
        let (refusal, _) = read_back(r, &mut run.seen, &library, &whole, &old)?;
        stated("read, one slot too few", refusal, 12)?;
        for (back, byte) in NEAR_THE_END {
            let mut changed = text.clone();
            changed[text.len() - back] = byte;
            let refusal = read_damaged(run, r, &library, &Text::whole(&changed), SLOT_LIMIT)?;
            stated("read, a byte near the end changed", refusal, 14)?;
        }
        Ok(())
    })
}
