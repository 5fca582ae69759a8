//! Calls of recorder, cost, planner and listing made of both implementations.

use super::seen;
use crate::calls::slots_text;
use crate::memory::Memory;
use crate::text::{old_bytes, shown, TEXT};
use meltusk::{record_second, Call, Costed, Library, Listed, Planned, Seen, Set};
use second::random::Random;
use second::{Limits, PriceCard};

/// All that the calls are given.
#[derive(Clone, Debug)]
pub struct Case {
    pub card: PriceCard,
    pub limits: Limits,
    pub set: Set,
    pub ends: Vec<u32>,
    pub histograms: Vec<u32>,
    /// The output slice of the planner.
    pub room: Vec<u32>,
    /// Bytes lent to the listing.
    pub text: usize,
    pub call: Call,
}

impl Case {
    /// The slices of a case, with one for the ends.
    fn memory(&self, r: &mut Random, ends: &[u32]) -> Memory {
        let Set {
            growers,
            weights,
            yields,
            days,
            ..
        } = &self.set;
        Memory::new(r, &[growers, weights, yields, days, &self.histograms, ends])
    }
}

/// Order of the slices of a case in its memory.
const NAMES: [&str; 6] = ["growers", "weights", "yields", "days", "histograms", "ends"];

fn case_text(set: &Set) -> String {
    let slots = slots_text([&set.growers, &set.weights, &set.yields, &set.days]);
    format!("block {}, used {}, {slots}", set.block, set.used)
}

fn counts_text(histograms: &[u32]) -> String {
    let counts: Vec<(usize, u32)> = histograms
        .iter()
        .enumerate()
        .filter(|(_, &n)| n != 0)
        .map(|(i, &n)| (i, n))
        .collect();
    format!("{} counts, not 0: {counts:?}", histograms.len())
}

/// A set and its histograms twice, with the same guards.
pub struct Recorder {
    set: Set,
    compiled: Memory,
    second: Memory,
}

impl Recorder {
    pub fn new(r: &mut Random, set: &Set, histograms: &[u32]) -> Recorder {
        let slices = [
            &set.growers[..],
            &set.weights,
            &set.yields,
            &set.days,
            histograms,
        ];
        let compiled = Memory::new(r, &slices);
        Recorder {
            set: set.clone(),
            second: compiled.clone(),
            compiled,
        }
    }

    pub fn histograms(&self) -> &[u32] {
        self.second.slice(4)
    }

    /// Records the call by both; compares refusal, slices and guards.
    pub fn record(
        &mut self,
        seen: &mut Seen,
        library: &Library,
        call: &Call,
    ) -> Result<u32, String> {
        let compiled = self
            .compiled
            .lend(|[growers, weights, yields, days, histograms]| {
                let set = self.set.over([growers, weights, yields, days]);
                library.record(histograms, &set, call)
            });
        let second = self
            .second
            .lend(|[growers, weights, yields, days, histograms]| {
                let set = self.set.over([growers, weights, yields, days]);
                record_second(histograms, &set, call)
            });
        seen.answer(seen::recorded(call), second);
        seen.lent(seen::recorded(call), library, self.second.counts(&NAMES));
        if compiled == second && self.compiled.equals(&self.second) {
            return Ok(second);
        }
        Err(format!(
            "{call:?}: compiled {compiled}, second {second}; {}; {}; after: {}",
            self.compiled.compared(&self.second, &NAMES[..5]),
            case_text(&self.set),
            counts_text(self.histograms())
        ))
    }
}

/// The cost of a layout by both; compares answers, slices and guards.
pub fn cost(
    r: &mut Random,
    seen: &mut Seen,
    library: &Library,
    case: &Case,
) -> Result<Costed, String> {
    let set = &case.set;
    let mut memory = case.memory(r, &case.ends);
    let before = memory.clone();
    let compiled = memory.lend(|[growers, weights, yields, days, histograms, ends]| {
        let set = set.over([growers, weights, yields, days]);
        library.cost(&case.card, &set, ends, histograms)
    });
    let answer = second::cost(&case.card, &set.view(), &case.histograms, &case.ends);
    let second = Costed::from(answer);
    seen::note_cost(seen, &second);
    seen.lent("cost", library, memory.counts(&NAMES));
    if compiled == second && memory.equals(&before) {
        return Ok(second);
    }
    Err(format!(
        "cost: compiled {compiled:?}, second {second:?}; {}; {:?}, ends {:?}, {}, {}",
        memory.compared(&before, &NAMES),
        case.card,
        case.ends,
        case_text(set),
        counts_text(&case.histograms)
    ))
}

/// How the second implementation plans.
#[derive(Clone, Copy, PartialEq, Eq)]
pub enum By {
    /// By listing every layout, and by the table.
    Listing,
    Table,
}

/// The plan by both, with its ends; compares answers, slices and guards.
pub fn plan(
    r: &mut Random,
    seen: &mut Seen,
    library: &Library,
    case: &Case,
    by: By,
) -> Result<(Planned, Vec<u32>), String> {
    let set = &case.set;
    let mut compiled_memory = case.memory(r, &case.room);
    let mut second_memory = compiled_memory.clone();
    let (card, limits) = (&case.card, &case.limits);
    let compiled = compiled_memory.lend(|[growers, weights, yields, days, histograms, ends]| {
        let set = set.over([growers, weights, yields, days]);
        library.plan(card, limits, &set, histograms, ends)
    });
    let second = second_memory.lend(|[growers, weights, yields, days, histograms, ends]| {
        let set = set.over([growers, weights, yields, days]);
        Planned::from(second::plan_by_table(card, limits, &set, histograms, ends))
    });
    let ends = second_memory.slice(5);
    if by == By::Listing {
        let mut listed_ends = case.room.clone();
        let (set, counts) = (set.view(), &case.histograms);
        let listed = second::plan_by_listing(card, limits, &set, counts, &mut listed_ends);
        if listed.map(Planned::from) != Some(second) || listed_ends != ends {
            return Err("the second implementation's two planners differ".into());
        }
    }
    let ends = ends[..second.count as usize].to_vec();
    seen::note_plan(seen, &second);
    seen.lent("plan", library, second_memory.counts(&NAMES));
    if compiled == second && compiled_memory.equals(&second_memory) {
        return Ok((second, ends));
    }
    Err(format!(
        "plan: compiled {compiled:?}, second {second:?} with ends {ends:?}; {}; {card:?}, {limits:?}, room {}, {}, {}",
        compiled_memory.compared(&second_memory, &NAMES),
        case.room.len(),
        case_text(set),
        counts_text(&case.histograms)
    ))
}

/// The listing by both; compares answers, texts, slices and guards. Answers the
/// bytes that the library wrote.
pub fn list(
    r: &mut Random,
    seen: &mut Seen,
    library: &Library,
    case: &Case,
) -> Result<(Listed, Vec<u8>), String> {
    let (card, limits, set) = (&case.card, &case.limits, &case.set);
    let (view, counts) = (set.view(), &case.histograms[..]);
    let mut slots = Memory::new(
        r,
        &[view.growers, view.weights, view.yields, view.days, counts],
    );
    let before = slots.clone();
    let old = old_bytes(r, case.text);
    let mut compiled_text = Memory::new(r, &[&old]);
    let mut second_text = compiled_text.clone();
    let compiled = slots.lend(|[growers, weights, yields, days, histograms]| {
        let set = set.over([growers, weights, yields, days]);
        compiled_text.lend(|[text]| library.list_layouts(card, limits, &set, histograms, text))
    });
    let answer = second_text.lend(|[text]| second::list_layouts(card, limits, &view, counts, text));
    let second = Listed::from(answer);
    seen.answer("list_layouts", second.refusal);
    let lent = slots.counts(&NAMES).chain(second_text.counts(&TEXT));
    seen.lent("list_layouts", library, lent);
    let (written, rest) = compiled_text.slice(0).split_at(answer.written);
    let same = compiled == second && compiled_text.equals(&second_text) && slots.equals(&before);
    if same && rest == &old[answer.written..] {
        return Ok((second, written.to_vec()));
    }
    Err(format!(
        "list_layouts: compiled {compiled:?}, second {second:?}; {}; {}; text {}; {card:?}, {limits:?}, {}, {}",
        compiled_text.compared(&second_text, &TEXT),
        slots.compared(&before, &NAMES[..5]),
        shown(compiled_text.slice(0)),
        case_text(set),
        counts_text(counts)
    ))
}
