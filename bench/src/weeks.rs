//! Weeks of calls on six drawn sets: our column on planned and on equal
//! layouts, beside what a user could keep deliveries in instead.

use crate::calibrate::Machine;
use crate::columns::LIBRARY;
use crate::race::{counted, print_kinds, Layout, Table};
use crate::sets::{drawn, Layouts};
use crate::sqlite;
use crate::timing::timed;
use crate::week::{self, Kind, Season};
use meltusk::{Call, Set};
use second::random::{case_seed, Random};
use second::{PriceCard, BLOCK_LENGTH_LIMIT, HISTOGRAM_LEN, SLOT_LIMIT};

/// Records, and growers among whom they are drawn.
const SETS: [(usize, usize); 6] = [
    (2_000, 1_600),
    (10_000, 8_000),
    (250_000, 200_000),
    (2_000, 200),
    (10_000, 1_000),
    (250_000, 25_000),
];
/// Calls of a week; of a small set half as many as it has records.
const CALLS: usize = 4_000;

/// A drawn set and its block length.
struct Mill {
    set: Set,
    growers: usize,
    calls: usize,
    at: u64,
}

impl Mill {
    fn drawn(at: usize) -> Mill {
        let (records, growers) = SETS[at];
        let at = at as u64;
        let mut r = Random::new(case_seed(103, at));
        let calls = CALLS.min(records / 2);
        let numbers = week::growers(&mut r, records, growers);
        let slots = (records + calls).min(SLOT_LIMIT);
        let mut set = drawn(&mut r, 1, numbers, slots);
        set.block = set.best_block();
        Mill {
            set,
            growers,
            calls,
            at,
        }
    }

    /// Two weeks of one kind, drawn alike: one to record, one to run.
    fn weeks(&self, kind: Kind) -> [Vec<Call>; 2] {
        let mut r = Random::new(case_seed(104, self.at));
        let season = Season::new(&mut r, kind, &self.set, self.growers);
        [105, 106].map(|test| season.week(case_seed(test, self.at), self.calls))
    }

    fn print(&self) {
        let (records, growers, calls) = (self.set.used, self.growers, self.calls);
        println!("\n{records} records of {growers} growers, {calls} calls a week");
    }
}

/// The histograms of a week.
fn recorded(set: &Set, week: &[Call]) -> Vec<u32> {
    let mut histograms = vec![0; HISTOGRAM_LEN];
    for call in week {
        let refusal = LIBRARY.record(&mut histograms, &set.view(), call);
        assert_eq!(refusal, 0, "recording is refused");
    }
    histograms
}

/// The card of a set's block length, printed.
fn calibrated(set: &Set) -> PriceCard {
    let card = Machine::measured(set.block).card;
    let (block, blocks, permitted) = (set.block, set.view().blocks(), set.permitted().len());
    let (ends, PriceCard { rr, sr, rw }) = (blocks - 1, card);
    println!(
        "B {block}: {blocks} blocks, {permitted} of {ends} ends permitted, card {rr} {sr} {rw}"
    );
    card
}

/// The layouts of ours for one kind of week.
fn layouts<'a>(
    set: &'a Set,
    least: &'a Set,
    cards: &[PriceCard; 2],
    week: &[Call],
) -> Vec<Layout<'a>> {
    let histograms = recorded(set, week);
    let planned = set.planned(&histograms, &cards[0]);
    let factory = set.planned(&histograms, &PriceCard::FACTORY);
    let shortest = least.planned(&recorded(least, week), &cards[1]);
    let every = set.equal_ends(set.view().blocks());
    vec![
        Layout::new("planned on the calibrated card", set, planned),
        Layout::new("planned on the factory card", set, factory),
        Layout::new("1 partition", set, set.equal_ends(1)),
        Layout::new("8 equal partitions", set, set.equal_ends(8)),
        Layout::new("every permitted end", set, every),
        Layout::new("calibrated card, least B", least, shortest),
    ]
}

fn run_set(mill: &Mill) {
    mill.print();
    let set = &mill.set;
    let least = Set {
        block: set.least_block(),
        ..set.clone()
    };
    let cards = [calibrated(set), calibrated(&least)];
    let mut table = Table::default();
    for (kind, name) in week::KINDS {
        let [earlier, calls] = mill.weeks(kind);
        println!("{name}: {}", counted(&calls).join(", "));
        let layouts = layouts(set, &least, &cards, &earlier);
        table.week(&layouts, true, &calls);
    }
    table.print();
    let [earlier, calls] = mill.weeks(Kind::Mixed);
    print_kinds(&layouts(set, &least, &cards, &earlier)[0], &calls);
    let (recording, histograms) = timed(1, || recorded(set, &earlier));
    let (planning, _) = timed(1, || set.planned(&histograms, &cards[0]));
    let [recording, planning] = [recording, planning].map(|ns| ns / 1e6);
    println!("recording the mixed week took {recording:.1} ms, planning {planning:.1} ms");
}

/// How many ends a set permits at several block lengths, and how many records a
/// find then reads at the least.
fn print_permitted(mill: &Mill) {
    let mut set = mill.set.clone();
    let (least, most) = (set.least_block(), set.block);
    let lengths = [100, 102, 104, 125, 150, 200].map(|percent| least * percent / 100);
    print!("{:>8}{:>8}", set.used, mill.growers);
    for block in lengths.into_iter().chain([most]) {
        set.block = block;
        let (permitted, ends) = (set.permitted().len(), set.view().blocks() - 1);
        let text = match block {
            1..=BLOCK_LENGTH_LIMIT => {
                format!("{block}: {permitted}/{ends} {:.0}", set.mean_scan())
            }
            _ => "-".to_string(),
        };
        print!("{text:>20}");
    }
    println!();
}

pub fn run() {
    match sqlite::version() {
        Some(version) => println!("SQLite {version}"),
        None => println!("SQLite is not installed here; its rows are left out"),
    }
    let mills: Vec<Mill> = (0..SETS.len()).map(Mill::drawn).collect();
    mills.iter().for_each(run_set);
    println!("\nblock length: ends permitted / possible, records that a find reads on average if all are used");
    print!("{:>8}{:>8}", "records", "growers");
    for name in [
        "least B",
        "x 1.02",
        "x 1.04",
        "x 1.25",
        "x 1.5",
        "x 2",
        "chosen, to x 1.5",
    ] {
        print!("{name:>20}");
    }
    println!();
    mills.iter().for_each(print_permitted);
}

/// Each week planned on cards of other ratios, to see what the best would be.
pub fn cards() {
    for mill in (0..SETS.len()).map(Mill::drawn) {
        mill.print();
        let set = &mill.set;
        let others = [1, 2, 4, 8, 16, 32, 64, 125, 250, 500, 1_000];
        let mut cards = vec![calibrated(set), PriceCard::FACTORY];
        cards.extend(others.map(|sr| PriceCard::new(1, sr, 1)));
        let mut table = Table::default();
        for (kind, _) in week::KINDS {
            let [earlier, calls] = mill.weeks(kind);
            let histograms = recorded(set, &earlier);
            let planned = |&card: &PriceCard| {
                let PriceCard { rr, sr, rw } = card;
                let ends = set.planned(&histograms, &card);
                Layout::new(&format!("card {rr} {sr} {rw}"), set, ends)
            };
            let layouts: Vec<Layout> = cards.iter().map(planned).collect();
            table.week(&layouts, false, &calls);
        }
        table.print();
    }
}
