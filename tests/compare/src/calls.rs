//! One call made of both implementations, and the comparison after it.

use crate::memory::Memory;
use crate::seen;
use meltusk::{
    call_second, step_second, Answer, Applied, Call, Column, ColumnSlices, Library, PartitionSlice,
    Seen, Set, Step, Stepped, View, DIRECTORY,
};
use second::random::Random;
use std::fmt::Write;

/// What a column is asked: one of the calls, a step from grower to grower,
/// or where a partition lies.
#[derive(Clone, Copy, Debug)]
pub enum Asked {
    Call(Call),
    Step(Step),
    Partition(u32),
}

impl From<Call> for Asked {
    fn from(call: Call) -> Asked {
        Asked::Call(call)
    }
}

impl From<Step> for Asked {
    fn from(step: Step) -> Asked {
        Asked::Step(step)
    }
}

#[derive(Clone, Copy, Debug, PartialEq, Eq)]
pub enum Outcome {
    Answer(Answer),
    Stepped(Stepped),
    Partition(PartitionSlice),
}

impl Outcome {
    pub fn refusal(&self) -> u32 {
        match self {
            Outcome::Answer(a) => a.refusal,
            Outcome::Stepped(a) => a.refusal,
            Outcome::Partition(a) => a.refusal,
        }
    }
}

/// Order of the slices of a column in its memory.
pub const NAMES: [&str; 5] = ["growers", "weights", "yields", "days", "directory"];
/// Those of the slots.
pub const SLOT_NAMES: [&str; 4] = ["growers", "weights", "yields", "days"];

/// The column in slices lent in this order.
pub fn slices([growers, weights, yields, days, directory]: [&mut [u32]; 5]) -> ColumnSlices<'_> {
    ColumnSlices {
        directory,
        growers,
        weights,
        yields,
        days,
    }
}

fn ask_compiled(library: &Library, memory: &mut Memory, asked: &Asked) -> Outcome {
    memory.lend(|lent| {
        let mut column = slices(lent);
        match asked {
            Asked::Call(call) => Outcome::Answer(library.call(&mut column, call)),
            Asked::Step(step) => Outcome::Stepped(library.step(&column.view(), step)),
            Asked::Partition(g) => Outcome::Partition(library.partition(&column.view(), *g)),
        }
    })
}

fn ask_second(memory: &mut Memory, asked: &Asked) -> Outcome {
    memory.lend(|lent| {
        let mut column = slices(lent);
        match asked {
            Asked::Call(call) => Outcome::Answer(call_second(&mut column, call)),
            Asked::Step(step) => Outcome::Stepped(step_second(&column.view(), step)),
            Asked::Partition(g) => {
                let span = second::partition_span(column.growers, column.directory, *g);
                Outcome::Partition(span.into())
            }
        }
    })
}

/// One column twice: for the compiled library and for the second
/// implementation, with the same guards.
pub struct Pair {
    compiled: Memory,
    second: Memory,
    before: Memory,
}

/// Most slots printed of a failed case.
const PRINTED: usize = 100;

pub fn slots_text([growers, weights, yields, days]: [&[u32]; 4]) -> String {
    let lengths = [growers.len(), weights.len(), yields.len(), days.len()];
    let shown = lengths.iter().min().map_or(0, |&n| n.min(PRINTED));
    let mut text = format!("slice lengths {lengths:?}, slots");
    for i in 0..shown {
        let (g, w, y, n) = (growers[i], weights[i], yields[i], days[i]);
        let _ = write!(text, " {g}/{w}/{y}/{n}");
    }
    if shown < lengths[0] {
        text.push_str(" ..");
    }
    text
}

pub fn directory_text(directory: &[u32]) -> String {
    if directory.len() != DIRECTORY {
        return format!("directory {directory:?}");
    }
    let last = |part: &[u32]| part.iter().rposition(|&n| n != 0).map_or(0, |i| i + 1);
    let (lengths, fences) = directory[2..].split_at(64);
    let shown = (directory[1] as usize).clamp(last(lengths).max(last(fences)), 64);
    format!(
        "B {}, K {}, lengths {:?}, fences {:?}",
        directory[0],
        directory[1],
        &lengths[..shown],
        &fences[..shown]
    )
}

/// The slices of a column, as they are lent.
pub fn column_memory(r: &mut Random, c: &Column) -> Memory {
    let View {
        directory,
        growers,
        weights,
        yields,
        days,
    } = c.view();
    Memory::new(r, &[growers, weights, yields, days, directory])
}

/// The slots of a column.
pub fn column_text(c: &Column) -> String {
    let slots = slots_text([&c.growers, &c.weights, &c.yields, &c.days]);
    format!("{}, {slots}", directory_text(&c.directory))
}

impl Pair {
    pub fn new(r: &mut Random, c: &Column) -> Pair {
        let compiled = column_memory(r, c);
        Pair {
            second: compiled.clone(),
            before: compiled.clone(),
            compiled,
        }
    }

    pub fn view(&self) -> View<'_> {
        View {
            growers: self.second.slice(0),
            weights: self.second.slice(1),
            yields: self.second.slice(2),
            days: self.second.slice(3),
            directory: self.second.slice(4),
        }
    }

    pub fn column(&self) -> Column {
        self.view().to_column()
    }

    /// Asks both; compares answers, slices and guards.
    pub fn ask(
        &mut self,
        seen: &mut Seen,
        library: &Library,
        asked: impl Into<Asked>,
    ) -> Result<Outcome, String> {
        let asked = asked.into();
        self.before.clone_from(&self.second);
        let second = ask_second(&mut self.second, &asked);
        let compiled = ask_compiled(library, &mut self.compiled, &asked);
        let [growers, days, directory] = [0, 3, 4].map(|i| self.before.slice(i));
        seen::note(seen, &asked, second.refusal(), (growers, days), directory);
        seen.lent(seen::name(&asked), library, self.before.counts(&NAMES));
        if compiled == second && self.compiled.equals(&self.second) {
            return Ok(second);
        }
        let slices = self.compiled.compared(&self.second, &NAMES);
        let before = |i: usize| self.before.slice(i);
        Err(format!(
            "{asked:?}: compiled {compiled:?}, second {second:?}; {slices}; before: {}, {}",
            directory_text(before(4)),
            slots_text([0, 1, 2, 3].map(before))
        ))
    }
}

/// Applies a layout by both; compares answers, slices and guards.
pub fn apply(
    r: &mut Random,
    seen: &mut Seen,
    library: &Library,
    set: &Set,
    ends: &[u32],
) -> Result<Applied, String> {
    let slices = [&set.growers[..], &set.weights, &set.yields, &set.days, ends];
    let mut memory = Memory::new(r, &slices);
    let before = memory.clone();
    let second = Applied::from(second::apply_layout(&set.view(), ends));
    let compiled = memory.lend(|[growers, weights, yields, days, ends]| {
        library.apply_layout(&set.over([growers, weights, yields, days]), ends)
    });
    let names = ["growers", "weights", "yields", "days", "ends"];
    seen.answer("apply_layout", second.refusal);
    seen.lent("apply_layout", library, memory.counts(&names));
    if compiled == second && memory.equals(&before) {
        return Ok(second);
    }
    let slices = memory.compared(&before, &names);
    Err(format!(
        "apply_layout: compiled {} with {}, second {} with {}; {slices}; block {}, used {}, ends {ends:?}, {}",
        compiled.refusal,
        directory_text(&compiled.directory),
        second.refusal,
        directory_text(&second.directory),
        set.block,
        set.used,
        slots_text([&set.growers, &set.weights, &set.yields, &set.days])
    ))
}
