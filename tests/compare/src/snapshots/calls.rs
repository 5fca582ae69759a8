//! A snapshot written or read by both implementations, and the comparison
//! after it.

use super::seen;
use crate::calls::{
    column_memory, column_text, directory_text, slices, slots_text, NAMES, SLOT_NAMES,
};
use crate::memory::Memory;
use crate::text::{old_bytes, shown, Text, TEXT};
use meltusk::{Applied, Column, Library, Seen, Written, DIRECTORY};
use second::random::Random;
use second::{snapshot_size, TextAnswer, BLOCK_LIMIT, LENGTHS};

/// Bytes of the text of a column whose directory has its shape.
pub fn size(c: &Column) -> usize {
    snapshot_size(c.view().used(), c.view().partitions())
}

fn write_second(c: &Column, text: &mut [u8]) -> TextAnswer {
    second::snapshot_write(
        &c.growers,
        &c.weights,
        &c.yields,
        &c.days,
        &c.directory,
        text,
    )
}

/// The text that the second implementation writes of a column without its days.
pub fn text_of(c: &Column) -> Result<Vec<u8>, String> {
    let mut text = vec![0; size(c)];
    let a = write_second(&c.clone().undated(), &mut text);
    match a.refusal {
        0 => Ok(text),
        number => Err(format!("the second implementation wrote no text: {number}")),
    }
}

/// Writes a column by both into `room` bytes; compares answers, texts, slices
/// and guards. Answers the refusal and the bytes that the library wrote.
pub fn write(
    r: &mut Random,
    seen: &mut Seen,
    library: &Library,
    c: &Column,
    room: usize,
) -> Result<(u32, Vec<u8>), String> {
    let old = old_bytes(r, room);
    let mut compiled_text = Memory::new(r, &[&old]);
    let mut second_text = compiled_text.clone();
    let mut slots = column_memory(r, c);
    let before = slots.clone();
    let compiled = slots.lend(|lent| {
        let column = slices(lent);
        compiled_text.lend(|[text]| library.write_snapshot(&column.view(), text))
    });
    let answer = second_text.lend(|[text]| write_second(c, text));
    let second = Written::from(answer);
    seen::note_write(seen, c, room, second.refusal);
    let lent = slots.counts(&NAMES).chain(second_text.counts(&TEXT));
    seen.lent("write_snapshot", library, lent);
    let text = compiled_text.slice(0);
    let same = compiled == second && compiled_text.equals(&second_text) && slots.equals(&before);
    if same && text[answer.written..] == old[answer.written..] {
        return Ok((second.refusal, text[..answer.written].to_vec()));
    }
    Err(format!(
        "write_snapshot: compiled {compiled:?}, second {second:?}; {}; {}; text {}, room {room}, {}",
        compiled_text.compared(&second_text, &TEXT),
        slots.compared(&before, &NAMES),
        shown(text),
        column_text(c)
    ))
}

/// Whether an answer leaves what it has to: the slots past M if accepted, all
/// slots and a directory of zeros if refused.
fn leaves(answer: &Applied, before: &Memory, after: &Memory) -> bool {
    let lengths = &answer.directory[LENGTHS..LENGTHS + BLOCK_LIMIT];
    let used: usize = lengths.iter().map(|&n| n as usize).sum();
    let zeros = answer.directory == [0; DIRECTORY];
    (0..4).all(|i| before.slice(i)[used..] == after.slice(i)[used..])
        && (answer.refusal != 0) == zeros
}

/// Reads a text by both into slots that hold `old`; compares answers, slices,
/// text and guards. Answers the refusal and the library's column.
pub fn read(
    r: &mut Random,
    seen: &mut Seen,
    library: &Library,
    text: &Text,
    old: &[Vec<u32>; 4],
) -> Result<(u32, Column), String> {
    let mut lent = text.memory(r);
    let lent_before = lent.clone();
    let mut compiled_slots = Memory::new(r, &[&old[0], &old[1], &old[2], &old[3]]);
    let mut second_slots = compiled_slots.clone();
    let before = compiled_slots.clone();
    let compiled = compiled_slots.lend(|[growers, weights, yields, days]| {
        lent.lend(|[text]| library.read_snapshot(text, growers, weights, yields, days))
    });
    let second = second_slots.lend(|[growers, weights, yields, days]| {
        second::snapshot_read(text.lent(), growers, weights, yields, days)
    });
    let second = Applied::from(second);
    seen::note_read(seen, &second, old[0].len());
    let slices = second_slots.counts(&SLOT_NAMES).chain(lent.counts(&TEXT));
    seen.lent("read_snapshot", library, slices);
    let same =
        compiled == second && compiled_slots.equals(&second_slots) && lent.equals(&lent_before);
    if same && leaves(&compiled, &before, &compiled_slots) {
        let column = Column {
            directory: compiled.directory.to_vec(),
            growers: compiled_slots.slice(0).to_vec(),
            weights: compiled_slots.slice(1).to_vec(),
            yields: compiled_slots.slice(2).to_vec(),
            days: compiled_slots.slice(3).to_vec(),
        };
        return Ok((second.refusal, column));
    }
    Err(format!(
        "read_snapshot: compiled {} with {}, second {} with {}; {}; {}; text {}, before: {}",
        compiled.refusal,
        directory_text(&compiled.directory),
        second.refusal,
        directory_text(&second.directory),
        compiled_slots.compared(&second_slots, &SLOT_NAMES),
        lent.compared(&lent_before, &TEXT),
        shown(text.lent()),
        slots_text([&old[0], &old[1], &old[2], &old[3]])
    ))
}

/// Reads a text; one that is accepted is written again and has to give the
/// same bytes.
pub fn read_back(
    r: &mut Random,
    seen: &mut Seen,
    library: &Library,
    text: &Text,
    old: &[Vec<u32>; 4],
) -> Result<(u32, Column), String> {
    let (refusal, column) = read(r, seen, library, text, old)?;
    if refusal == 0 {
        let (refusal, again) = write(r, seen, library, &column, text.lent().len())?;
        if refusal != 0 || again != text.lent() {
            let (was, is) = (shown(text.lent()), shown(&again));
            return Err(format!("read and written, {refusal}: {was}, then {is}"));
        }
    }
    Ok((refusal, column))
}
