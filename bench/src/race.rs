//! Structures that make the same week of calls in turn, and a table of their
//! times.

use crate::sets::Layouts;
use crate::sqlite::Sqlite;
use crate::structures::{Answered, Ours, Places, Sorted, Structure, Tree};
use crate::timing::timed;
use crate::week;
use meltusk::{Call, Set};
use std::cell::RefCell;
use std::rc::Rc;

/// Runs of a week on each structure; of their times the median. The weeks of a
/// small set are short and run more often.
const RUNS: usize = 10;
const SMALL_RUNS: usize = 40;
const SMALL: usize = 20_000;
/// Columns of ours, in different places of memory; runs are a multiple.
const PLACES: usize = 5;
/// The width of a row's name.
const NAME: usize = 36;

/// What stands beside ours, in the order of `others`.
const OTHERS: [&str; 3] = [
    "four sorted vectors",
    "balanced tree (BTreeMap)",
    "SQLite in memory, covering index",
];

type Structures<'a> = Vec<Box<dyn Structure + 'a>>;

/// A layout of ours; the set has the block length.
pub struct Layout<'a> {
    pub name: String,
    pub set: &'a Set,
    pub ends: Vec<u32>,
}

impl<'a> Layout<'a> {
    pub fn new(name: &str, set: &'a Set, ends: Vec<u32>) -> Layout<'a> {
        Layout {
            name: name.to_string(),
            set,
            ends,
        }
    }

    fn same(&self, other: &Layout) -> bool {
        self.set.block == other.set.block && self.ends == other.ends
    }
}

/// Each different layout once, and for each layout which one it is.
fn ours<'a>(layouts: &'a [Layout]) -> (Structures<'a>, Vec<usize>) {
    let column = RefCell::new(layouts[0].set.column(&layouts[0].ends));
    let memory: Places = Rc::new(vec![column; PLACES]);
    let mut structures: Structures = Vec::new();
    let mut which: Vec<usize> = Vec::new();
    for (i, layout) in layouts.iter().enumerate() {
        if let Some(earlier) = layouts[..i].iter().position(|l| l.same(layout)) {
            which.push(which[earlier]);
        } else {
            which.push(structures.len());
            let ours = Ours::new(layout.set, &layout.ends, memory.clone());
            structures.push(Box::new(ours));
        }
    }
    (structures, which)
}

/// SQLite is left out where it is not installed.
fn others(set: &Set) -> Structures<'_> {
    let mut structures: Structures = vec![Box::new(Sorted::new(set)), Box::new(Tree::new(set))];
    if let Some(sqlite) = Sqlite::new(set) {
        structures.push(Box::new(sqlite));
    }
    structures
}

/// Median milliseconds of each structure for the same calls. All answer the
/// same, and hold the same in the end.
fn compared(structures: &mut Structures, runs: usize, calls: &[Call]) -> Vec<f64> {
    let mut times: Vec<Vec<f64>> = vec![Vec::new(); structures.len()];
    let mut expected: Vec<Answered> = Vec::new();
    let mut answers = Vec::with_capacity(calls.len() + 1);
    for run in 0..runs {
        for turn in 0..structures.len() {
            // Another one begins each run, so that none has its best place.
            let i = (run + turn) % structures.len();
            structures[i].fresh();
            let (ns, ()) = timed(1, || structures[i].run(calls, &mut answers));
            times[i].push(ns / 1e6);
            answers.push(structures[i].call(Call::Range(0, u32::MAX)));
            if expected.is_empty() {
                expected.clone_from(&answers);
            }
            assert!(answers == expected, "two structures answer differently");
        }
    }
    times.iter_mut().map(|of| median(of)).collect()
}

fn median(times: &mut [f64]) -> f64 {
    times.sort_unstable_by(f64::total_cmp);
    times[times.len() / 2]
}

/// The kinds of calls, in the order of their columns.
const CALLS: [&str; 5] = ["find", "range", "insert", "delete", "move"];

fn kind(call: &Call) -> usize {
    match call {
        Call::Find(_) => 0,
        Call::Range(..) | Call::RangeDays(..) => 1,
        Call::Insert(_) => 2,
        Call::Delete(_) => 3,
        Call::Move(..) => 4,
    }
}

/// How many calls of each kind a week has.
pub fn counted(calls: &[Call]) -> [String; 5] {
    std::array::from_fn(|k| {
        let count = calls.iter().filter(|call| kind(call) == k).count();
        format!("{count} {}", CALLS[k])
    })
}

/// Nanoseconds a call of each kind, the calls of a week timed one by one; of
/// several runs the least, without the clock's own time.
fn by_kind(structure: &mut dyn Structure, calls: &[Call]) -> [f64; 5] {
    let mut clocks: Vec<f64> = (0..1_001).map(|_| timed(1, || ()).0).collect();
    let clock = median(&mut clocks);
    let mut least = [f64::INFINITY; 5];
    let mut answers = Vec::with_capacity(1);
    for _ in 0..RUNS {
        let (mut sums, mut counts) = ([0.0; 5], [0.0; 5]);
        structure.fresh();
        for call in calls {
            let (ns, ()) = timed(1, || {
                structure.run(std::slice::from_ref(call), &mut answers)
            });
            sums[kind(call)] += ns - clock;
            counts[kind(call)] += 1.0;
        }
        least = std::array::from_fn(|k| least[k].min(sums[k] / counts[k]));
    }
    least
}

/// Where the time of a week goes, in ours and beside.
pub fn print_kinds(layout: &Layout, calls: &[Call]) {
    let (mut structures, _) = ours(std::slice::from_ref(layout));
    structures.extend(others(layout.set));
    print!("{:<NAME$}", "mixed week, ns a call");
    for count in counted(calls) {
        print!("{count:>14}");
    }
    println!();
    let names = [layout.name.as_str()].into_iter().chain(OTHERS);
    for (structure, name) in structures.iter_mut().zip(names) {
        print!("{name:<NAME$}");
        for ns in by_kind(structure.as_mut(), calls) {
            print!("{ns:>14.0}");
        }
        println!();
    }
}

/// A row of a table: for each week the partitions, if ours, and milliseconds.
struct Row {
    name: String,
    cells: Vec<(Option<usize>, f64)>,
}

#[derive(Default)]
pub struct Table {
    rows: Vec<Row>,
}

impl Table {
    /// Runs a week on layouts of ours, and on the other structures if wanted.
    pub fn week(&mut self, layouts: &[Layout], beside: bool, calls: &[Call]) {
        let set = layouts[0].set;
        let (mut structures, mut which) = ours(layouts);
        if beside {
            let first = structures.len();
            structures.extend(others(set));
            which.extend(first..structures.len());
        }
        let runs = if set.records() < SMALL {
            SMALL_RUNS
        } else {
            RUNS
        };
        let times = compared(&mut structures, runs, calls);
        let names = layouts.iter().map(|l| (l.name.clone(), Some(l.ends.len())));
        let names = names.chain(OTHERS.map(|name| (name.to_string(), None)));
        for (i, ((name, partitions), place)) in names.zip(which).enumerate() {
            if self.rows.len() == i {
                self.rows.push(Row {
                    name,
                    cells: Vec::new(),
                });
            }
            self.rows[i].cells.push((partitions, times[place]));
        }
    }

    pub fn print(&self) {
        print!("{:<NAME$}", "ms; ratio to the first row");
        for (_, name) in week::KINDS {
            print!("{:>5}{name:>10}{:>7}", "K", "ratio");
        }
        println!();
        for row in &self.rows {
            print!("{:<NAME$}", row.name);
            for ((partitions, ms), (_, first)) in row.cells.iter().zip(&self.rows[0].cells) {
                let partitions = partitions.map_or(String::new(), |k| k.to_string());
                print!("{partitions:>5}{ms:>10.3}{:>7.2}", ms / first);
            }
            println!();
        }
    }
}
