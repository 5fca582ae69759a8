//! What was written and read: every answer, every kind of column and every
//! damage.

use super::calls::size;
use super::damage::{damages, Effect};
use meltusk::{Applied, Column, Seen};
use second::{BLOCK_LIMIT, LENGTHS, WEIGHT_LIMIT};

/// The refusals of each call, 0 for accepted.
const ANSWERS: [(&str, &[u32]); 2] = [
    ("write_snapshot", &[0, 2, 3, 6, 8, 15, 19]),
    ("read_snapshot", &[0, 3, 12, 14]),
];

/// Fewest texts read at scale 1.
const TEXTS: u64 = 20_000;

const WRITTEN: [&str; 10] = [
    "written: no delivery in one partition",
    "written: several partitions, all empty",
    "written: an empty partition beside others",
    "written: 64 partitions",
    "written: grower 0",
    "written: grower 4,294,967,295",
    "written: no free slot",
    "written: a free slot out of range",
    "written: room exact",
    "written: room to spare",
];

const SHORT: [&str; 2] = ["room one byte short", "no room"];

const TAKEN: [&str; 3] = [
    "read: no delivery",
    "read: slots exact",
    "read: slots to spare",
];

const FEW: [&str; 3] = [
    "12 of a snapshot",
    "12 with line 1 alone good",
    "14 with too few slots",
];

fn note<const N: usize>(seen: &mut Seen, kinds: [&'static str; N], there: [bool; N]) {
    for (kind, there) in kinds.into_iter().zip(there) {
        seen.kind(there, kind);
    }
}

/// Notes a column that was to be written into so many bytes.
pub fn note_write(seen: &mut Seen, c: &Column, room: usize, refusal: u32) {
    seen.answer("write_snapshot", refusal);
    match refusal {
        0 => note_written(seen, c, room),
        15 => note(seen, SHORT, [room + 1 == size(c), room == 0]),
        _ => {}
    }
}

fn note_written(seen: &mut Seen, c: &Column, room: usize) {
    let (k, used) = (c.view().partitions(), c.view().used());
    let lengths = &c.directory[LENGTHS..LENGTHS + k];
    let growers = &c.growers[..used];
    let there = [
        k == 1 && used == 0,
        k > 1 && used == 0,
        used > 0 && lengths.contains(&0),
        k == BLOCK_LIMIT,
        growers.contains(&0),
        growers.contains(&u32::MAX),
        used == c.growers.len(),
        c.weights[used..].iter().any(|&w| w > WEIGHT_LIMIT),
        room == size(c),
        room > size(c),
    ];
    note(seen, WRITTEN, there);
}

/// Notes a text that was read into so many slots.
pub fn note_read(seen: &mut Seen, answer: &Applied, slots: usize) {
    seen.answer("read_snapshot", answer.refusal);
    if answer.refusal == 0 {
        let lengths = &answer.directory[LENGTHS..LENGTHS + BLOCK_LIMIT];
        let used: usize = lengths.iter().map(|&n| n as usize).sum();
        note(seen, TAKEN, [used == 0, used == slots, used < slots]);
    }
}

/// Notes the refusal of a text that had fewer slots than M.
pub fn note_few(seen: &mut Seen, effect: Effect, refusal: u32) {
    let of = |wanted: Effect, number: u32| effect == wanted && refusal == number;
    let there = [
        of(Effect::None, 12),
        of(Effect::Rest, 12),
        of(Effect::Line1, 14),
    ];
    note(seen, FEW, there);
}

/// An error if an answer or a kind of column or text has not occurred.
pub fn complete(seen: &Seen) -> Result<(), String> {
    let kinds = [&WRITTEN[..], &SHORT, &TAKEN, &FEW].concat();
    seen.complete(&ANSWERS, &kinds)
}

/// The damaged texts.
#[derive(Default)]
pub struct Damages {
    /// Texts read that were damaged.
    damaged: u64,
    /// Each damage alone: refused by 14, and accepted.
    refused: Vec<u64>,
    accepted: Vec<u64>,
}

impl Damages {
    /// Notes that the text just read was damaged.
    pub fn note(&mut self) {
        self.damaged += 1;
    }

    /// Notes one damage alone, by its place in the list of damages.
    pub fn note_alone(&mut self, kind: usize, refusal: u32) {
        self.refused.resize(self.refused.len().max(kind + 1), 0);
        self.accepted.resize(self.refused.len(), 0);
        self.refused[kind] += u64::from(refusal == 14);
        self.accepted[kind] += u64::from(refusal == 0);
    }

    /// An error if a damage has not occurred.
    pub fn complete(&self) -> Result<(), String> {
        for (kind, damage) in damages().iter().enumerate() {
            let of = |counts: &[u64]| counts.get(kind).is_some_and(|&n| n > 0);
            let (refused, accepted) = (of(&self.refused), of(&self.accepted));
            let harmless = damage.effect() == Effect::Harmless;
            if harmless && !accepted || !harmless && !refused {
                return Err(format!(
                    "{damage:?}: refused {refused}, accepted {accepted}"
                ));
            }
        }
        Ok(())
    }

    /// An error if too few texts were read or not about two thirds of them
    /// were damaged. Not asked below scale 1.
    pub fn enough(&self, seen: &Seen, scale: f64) -> Result<(), String> {
        let texts = seen.count("read_snapshot");
        let share = self.damaged as f64 / texts as f64;
        if scale >= 1.0 && (texts < TEXTS || !(0.65..0.75).contains(&share)) {
            let damaged = self.damaged;
            return Err(format!("{texts} texts read, {damaged} of them damaged"));
        }
        Ok(())
    }
}
