//! Deliveries exported, and imported again.

use super::calls::{export, first, import, slots_of, Slots};
use super::file::delivery;
use crate::bad::Bad;
use crate::broken::asked_first;
use crate::inputs::{self, EDGE_COUNTS};
use crate::text::{old_slots, Text};
use crate::Run;
use meltusk::{Library, LIBRARIES};
use second::random::Random;
use second::{Delivery, DAY_LIMIT, SLOT_LIMIT, WEIGHT_LIMIT, YIELD_LIMIT};

const HEADER: &str = "grower,weight,yield\r\n";

/// The export of these deliveries by another writer than those compared.
fn lines(deliveries: &[Delivery]) -> Vec<u8> {
    let mut text = HEADER.to_string();
    for d in deliveries {
        text.push_str(&format!("{},{},{}\r\n", d.grower, d.weight, d.oil_yield));
    }
    text.into_bytes()
}

/// A delivery on any day.
fn dated(r: &mut Random) -> Delivery {
    let d = delivery(r);
    d.on(inputs::day(r))
}

/// An export imported by the library: its deliveries again, with day 0.
fn import_again(
    run: &mut Run,
    r: &mut Random,
    library: &Library,
    text: &[u8],
    deliveries: &[Delivery],
) -> Result<(), String> {
    let count = deliveries.len();
    let slots = (count + r.below(3)).clamp(1, SLOT_LIMIT);
    let old = old_slots(r, [slots; 4]);
    let (answer, slots) = import(r, &mut run.seen, library, &Text::whole(text), &old)?;
    let is_good = answer.refusal == 0 && answer.rows == count as u64;
    let undated: Vec<Delivery> = deliveries.iter().map(|d| d.on(0)).collect();
    match is_good && first(&slots, count) == undated {
        true => Ok(()),
        false => Err(format!("imported again: {answer:?}, {slots:?}")),
    }
}

/// Exports into rooms: enough, one byte short, none, and others.
fn rooms(
    run: &mut Run,
    r: &mut Random,
    library: &Library,
    used: usize,
    slots: &Slots,
) -> Result<(), String> {
    let deliveries = first(slots, used);
    let expected = lines(&deliveries);
    let exact = expected.len();
    for room in [
        exact,
        exact - 1,
        0,
        r.below(exact),
        exact + 1,
        exact + r.within(2, 1_000),
    ] {
        let (refusal, text) = export(r, &mut run.seen, library, used as u32, slots, room)?;
        let number = if room < exact { 15 } else { 0 };
        if refusal != number || number == 0 && text != expected {
            return Err(format!(
                "room {room} of {exact}: refusal {refusal}, \"{}\"",
                text.escape_ascii()
            ));
        }
    }
    import_again(run, r, library, &expected, &deliveries)
}

/// Free slots, which may hold anything.
fn add_free(r: &mut Random, slots: &mut Slots, count: usize) {
    for _ in 0..count {
        slots[0].push(r.next() as u32);
        slots[1].push(inputs::weight_out(r));
        slots[2].push(inputs::oil_yield_out(r));
        slots[3].push(inputs::day_out(r));
    }
}

pub fn round_trip(run: &mut Run) -> Result<(), String> {
    run.cases(91, 10_000, |run, r| {
        let library = inputs::library(r);
        let count = match r.below(20) {
            0 => r.within(20, 300),
            _ => r.within(0, 6),
        };
        let deliveries: Vec<Delivery> = (0..count).map(|_| dated(r)).collect();
        let mut slots = slots_of(&deliveries);
        let free = r.within(usize::from(count == 0), 3);
        add_free(r, &mut slots, free);
        let used = r.edge(0, count);
        rooms(run, r, &library, used, &slots)
    })
}

/// Slots to be exported.
#[derive(Clone, Debug)]
struct Given {
    used: u32,
    slots: Slots,
    room: usize,
}

impl Given {
    /// A few that are accepted, with a free slot at least.
    fn accepted(r: &mut Random) -> Given {
        let count = r.within(1, 5);
        Given::of(r, count)
    }

    fn of(r: &mut Random, count: usize) -> Given {
        let deliveries: Vec<Delivery> = (0..count).map(|_| dated(r)).collect();
        let mut slots = slots_of(&deliveries);
        let free = r.within(1, 3);
        add_free(r, &mut slots, free);
        Given {
            used: count as u32,
            slots,
            room: lines(&deliveries).len() + r.pick(&[0, 1, 500]),
        }
    }
}

/// One change of what is to be exported.
#[derive(Clone, Copy, Debug, PartialEq, Eq)]
enum Fault {
    Shorter(usize),
    Longer(usize),
    NoSlots,
    TooManySlots,
    UsedPast,
    UsedMost,
    /// The first or the last of the exported slots, or any.
    Weight(u32),
    Yield(u32),
    Day(u32),
    /// The slot just past the exported ones; no fault at all.
    LaterWeight,
    LaterYield,
    LaterDay,
    RoomShort,
    NoRoom,
}

use Fault::*;

const FAULTS: [Fault; 23] = [
    RoomShort,
    NoRoom,
    Weight(WEIGHT_LIMIT + 1),
    Weight(u32::MAX),
    Yield(YIELD_LIMIT + 1),
    Yield(u32::MAX),
    Day(DAY_LIMIT + 1),
    Day(u32::MAX),
    LaterWeight,
    LaterYield,
    LaterDay,
    UsedPast,
    UsedMost,
    Shorter(0),
    Shorter(1),
    Shorter(2),
    Shorter(3),
    Longer(0),
    Longer(1),
    Longer(2),
    Longer(3),
    NoSlots,
    TooManySlots,
];

impl Fault {
    fn put(self, r: &mut Random, given: &mut Given) {
        let used = given.used as usize;
        match self {
            Shorter(i) => drop(given.slots[i].pop()),
            Longer(i) => given.slots[i].push(0),
            NoSlots => given.slots = Default::default(),
            TooManySlots => given
                .slots
                .iter_mut()
                .for_each(|s| s.resize(SLOT_LIMIT + 1, 0)),
            UsedPast => given.used = given.slots[0].len() as u32 + 1,
            UsedMost => given.used = u32::MAX,
            Weight(n) => given.slots[1][r.edge(0, used - 1)] = n,
            Yield(n) => given.slots[2][r.edge(0, used - 1)] = n,
            LaterWeight => given.slots[1][used] = WEIGHT_LIMIT + 1,
            LaterYield => given.slots[2][used] = YIELD_LIMIT + 1,
            Day(n) => given.slots[3][r.edge(0, used - 1)] = n,
            LaterDay => given.slots[3][used] = DAY_LIMIT + 1,
            RoomShort => given.room = lines(&first(&given.slots, used)).len() - 1,
            NoRoom => given.room = 0,
        }
    }

    fn refusal(self) -> u32 {
        match self {
            Shorter(_) | Longer(_) | NoSlots | TooManySlots => 3,
            UsedPast | UsedMost => 4,
            Weight(_) | Yield(_) => 8,
            Day(_) => 19,
            RoomShort | NoRoom => 15,
            LaterWeight | LaterYield | LaterDay => 0,
        }
    }

    /// The refusal of two faults: that of the check put first.
    fn refusal_with(self, other: Fault) -> u32 {
        match (self, other) {
            // The slice has its length again.
            (Shorter(i), Longer(j)) if i == j => 0,
            _ => asked_first(self.refusal(), other.refusal()),
        }
    }
}

/// Exports; an error if the refusal is not the expected one.
fn export_is(
    run: &mut Run,
    r: &mut Random,
    library: &Library,
    given: &Given,
    expected: u32,
) -> Result<(), String> {
    let Given { used, slots, room } = given;
    let (refusal, text) = export(r, &mut run.seen, library, *used, slots, *room)?;
    if refusal == expected && (refusal != 0 || text == lines(&first(slots, *used as usize))) {
        return Ok(());
    }
    let text = text.escape_ascii();
    Err(format!("refusal {refusal} for {expected}, text \"{text}\""))
}

pub fn faults(run: &mut Run) -> Result<(), String> {
    run.cases(92, 100, |run, r| {
        let library = inputs::library(r);
        for (i, &one) in FAULTS.iter().enumerate() {
            let is_large = |fault: Fault| fault == TooManySlots;
            let mut given = Given::accepted(r);
            one.put(r, &mut given);
            let with = |why| format!("{one:?}: {why}");
            if !is_large(one) || r.one_in(8) {
                export_is(run, r, &library, &given, one.refusal()).map_err(with)?;
            }
            for &other in &FAULTS[i + 1..] {
                if is_large(other) && !r.one_in(40) {
                    continue;
                }
                let mut given = given.clone();
                other.put(r, &mut given);
                let with = |why| format!("{one:?} and {other:?}: {why}");
                let expected = one.refusal_with(other);
                export_is(run, r, &library, &given, expected).map_err(with)?;
            }
        }
        Ok(())
    })
}

/// A day out of range in each exported slot, alone and beside a weight or a yield
/// out of range in each: 8 ahead of 19, and both ahead of 15.
pub fn every_slot(run: &mut Run) -> Result<(), String> {
    run.cases(95, 60, |run, r| {
        let library = inputs::library(r);
        let used = r.pick(&[1, 2, 5, 12, 100, 300]);
        let clean = Given::of(r, used);
        for bad in Bad::every(r, used) {
            let mut given = clean.clone();
            bad.put(r, given.slots.each_mut());
            let number = bad.refusal(&(0..used));
            let with = |why| format!("{bad:?}: {why}");
            export_is(run, r, &library, &given, number).map_err(with)?;
            given.room = 0;
            let number = asked_first(number, 15);
            export_is(run, r, &library, &given, number).map_err(with)?;
        }
        Ok(())
    })
}

/// Growers, weights, yields, days and room, each alone at the edge counts; then
/// nothing lent.
pub fn edge_counts(run: &mut Run) -> Result<(), String> {
    run.cases(93, 1, |run, r| {
        for library in LIBRARIES {
            for lent in 0..5 {
                for n in EDGE_COUNTS {
                    let mut given = Given::accepted(r);
                    // Of one slot, so that a slice of one is accepted too.
                    let slot = first(&given.slots, 1);
                    given.slots = slots_of(&[slot[0], slot[0]]);
                    given.used = 1;
                    match lent {
                        4 => given.room = n,
                        i => given.slots[i].resize(n, 0),
                    }
                    let expected = match lent {
                        4 if n < lines(&slot).len() => 15,
                        4 => 0,
                        _ => 3,
                    };
                    export_is(run, r, &library, &given, expected)?;
                }
            }
            let nothing = Given {
                used: 0,
                slots: Default::default(),
                room: 0,
            };
            export_is(run, r, &library, &nothing, 3)?;
        }
        Ok(())
    })
}

pub fn largest(run: &mut Run) -> Result<(), String> {
    run.cases(94, 1, |run, r| {
        let library = inputs::library(r);
        let mut deliveries: Vec<Delivery> = (0..SLOT_LIMIT).map(|_| dated(r)).collect();
        // Each column's smallest and largest number, wherever else they are.
        deliveries[0] = Delivery::new(0, 0, 0);
        deliveries[1] = Delivery::new(u32::MAX, WEIGHT_LIMIT, YIELD_LIMIT);
        let mut text = lines(&deliveries);
        let mut given = Given {
            used: SLOT_LIMIT as u32,
            slots: slots_of(&deliveries),
            room: text.len(),
        };
        export_is(run, r, &library, &given, 0)?;
        given.room -= 1;
        export_is(run, r, &library, &given, 15)?;
        import_again(run, r, &library, &text, &deliveries)?;
        // A row more is 12, and 18 if it is a bad one.
        for (row, expected) in [(&b"1,2,3\r\n"[..], 12), (b"1,2,10001\r\n", 18)] {
            let length = text.len();
            text.extend(row);
            let old = old_slots(r, [SLOT_LIMIT; 4]);
            let whole = Text::whole(&text);
            let (answer, _) = import(r, &mut run.seen, &library, &whole, &old)?;
            if answer.refusal != expected {
                return Err(format!("a row more: {answer:?}"));
            }
            text.truncate(length);
        }
        Ok(())
    })
}
