//! A weighbridge file imported or exported by both implementations, and the
//! comparison after it.

use super::seen;
use crate::calls::{slots_text, SLOT_NAMES};
use crate::memory::Memory;
use crate::text::{old_bytes, shown, Text, TEXT};
use meltusk::{Imported, Library, Seen, Written};
use second::random::Random;
use second::Delivery;

/// Growers, weights, yields and days.
pub type Slots = [Vec<u32>; 4];

pub fn slots_of(deliveries: &[Delivery]) -> Slots {
    [
        deliveries.iter().map(|d| d.grower).collect(),
        deliveries.iter().map(|d| d.weight).collect(),
        deliveries.iter().map(|d| d.oil_yield).collect(),
        deliveries.iter().map(|d| d.day).collect(),
    ]
}

/// The first `count` slots.
pub fn first(slots: &Slots, count: usize) -> Vec<Delivery> {
    let [growers, weights, yields, days] = slots;
    (0..count)
        .map(|i| Delivery::new(growers[i], weights[i], yields[i]).on(days[i]))
        .collect()
}

/// Imports a text by both into slots that hold `old`; compares answers, slices,
/// text and guards. Answers the library's answer and the slots after it.
pub fn import(
    r: &mut Random,
    seen: &mut Seen,
    library: &Library,
    text: &Text,
    old: &Slots,
) -> Result<(Imported, Slots), String> {
    let mut lent = text.memory(r);
    let lent_before = lent.clone();
    let mut compiled_slots = Memory::new(r, &[&old[0], &old[1], &old[2], &old[3]]);
    let mut second_slots = compiled_slots.clone();
    let compiled = compiled_slots.lend(|[growers, weights, yields, days]| {
        lent.lend(|[text]| library.import_csv(text, growers, weights, yields, days))
    });
    let second = second_slots.lend(|[growers, weights, yields, days]| {
        second::csv_import(text.lent(), growers, weights, yields, days)
    });
    let second = Imported::from(second);
    seen::note_import(seen, &second, old[0].len());
    let slices = second_slots.counts(&SLOT_NAMES).chain(lent.counts(&TEXT));
    seen.lent("import_csv", library, slices);
    let slots = [0, 1, 2, 3].map(|i| compiled_slots.slice(i).to_vec());
    let same =
        compiled == second && compiled_slots.equals(&second_slots) && lent.equals(&lent_before);
    // A refusal has no row, so that every slot stays.
    let rows = compiled.rows as usize;
    if same && (0..4).all(|i| slots[i][rows..] == old[i][rows..]) {
        return Ok((compiled, slots));
    }
    Err(format!(
        "import_csv: compiled {compiled:?}, second {second:?}; {}; {}; text {}, before: {}",
        compiled_slots.compared(&second_slots, &SLOT_NAMES),
        lent.compared(&lent_before, &TEXT),
        shown(text.lent()),
        slots_text([&old[0], &old[1], &old[2], &old[3]])
    ))
}

/// Exports the first `used` slots by both into `room` bytes; compares answers,
/// texts, slices and guards. Answers the refusal and the bytes that the library
/// wrote.
pub fn export(
    r: &mut Random,
    seen: &mut Seen,
    library: &Library,
    used: u32,
    slots: &Slots,
    room: usize,
) -> Result<(u32, Vec<u8>), String> {
    let old = old_bytes(r, room);
    let mut compiled_text = Memory::new(r, &[&old]);
    let mut second_text = compiled_text.clone();
    let [growers, weights, yields, days] = slots;
    let mut lent = Memory::new(r, &[growers, weights, yields, days]);
    let before = lent.clone();
    let compiled = lent.lend(|[growers, weights, yields, days]| {
        compiled_text.lend(|[text]| library.export_csv(used, growers, weights, yields, days, text))
    });
    let answer = second_text
        .lend(|[text]| second::csv_export(used as usize, growers, weights, yields, days, text));
    let second = Written::from(answer);
    seen::note_export(seen, used, slots, room, second.refusal);
    let slices = lent.counts(&SLOT_NAMES).chain(second_text.counts(&TEXT));
    seen.lent("export_csv", library, slices);
    let text = compiled_text.slice(0);
    let same = compiled == second && compiled_text.equals(&second_text) && lent.equals(&before);
    if same && text[answer.written..] == old[answer.written..] {
        return Ok((second.refusal, text[..answer.written].to_vec()));
    }
    Err(format!(
        "export_csv: compiled {compiled:?}, second {second:?}; {}; {}; text {}, room {room}, {used} of {}",
        compiled_text.compared(&second_text, &TEXT),
        lent.compared(&before, &SLOT_NAMES),
        shown(text),
        slots_text([growers, weights, yields, days])
    ))
}
