//! Books that get a sheet, or are refused for want of slots.

use crate::book::{self, Book, LONGEST, PARTITIONS, SLOTS};
use programs::damage::{common, Damage, Input as _};
use programs::run::{Run, Test};
use programs::seen::{Expected, Seen};
use second::random::Random;

/// The refusals that an input can get, 0 for a sheet, and the kinds of books
/// that get one.
pub const EXPECTED: Expected = Expected {
    answers: &[0, 12, 14],
    kinds: &[
        "no delivery",
        "1 delivery",
        "512 deliveries",
        "1 partition",
        "64 partitions",
        "an empty partition beside others",
        "grower 0",
        "grower 4,294,967,295",
        "one grower with several deliveries",
        "512 growers",
        "a grower's deliveries not side by side",
        "growers not in order",
        "a grower past every fence",
        "12 of a good book",
        "12 although the rest is bad",
        "14 although M is above 512",
    ],
};

/// Notes a book that got a sheet.
fn note(seen: &mut Seen, book: &Book) {
    let growers: Vec<u32> = book.deliveries.iter().map(|d| d[0]).collect();
    let mut sorted = growers.clone();
    sorted.sort_unstable();
    sorted.dedup();
    let runs = growers.chunk_by(|a, b| a == b).count();
    let (count, k) = (growers.len(), book.parts.len());
    let last = book.parts[k - 1][1];
    let is_empty = book.parts.iter().any(|part| part[0] == 0);
    seen.note(count == 0, "no delivery");
    seen.note(count == 1, "1 delivery");
    seen.note(count == SLOTS, "512 deliveries");
    seen.note(k == 1, "1 partition");
    seen.note(k == PARTITIONS, "64 partitions");
    seen.note(count > 0 && is_empty, "an empty partition beside others");
    seen.note(growers.contains(&0), "grower 0");
    seen.note(growers.contains(&u32::MAX), "grower 4,294,967,295");
    let is_one = sorted.len() == 1 && count > 1;
    seen.note(is_one, "one grower with several deliveries");
    seen.note(sorted.len() == SLOTS, "512 growers");
    let apart = "a grower's deliveries not side by side";
    seen.note(runs > sorted.len(), apart);
    seen.note(!growers.is_sorted(), "growers not in order");
    let is_past = growers.iter().any(|&g| g > last);
    seen.note(is_past, "a grower past every fence");
}

/// A good book gets its sheet of both.
fn settled(run: &mut Run, r: &mut Random, book: &Book) -> Result<(), String> {
    run.prints(r, &book.text(), &book.sheet())?;
    note(&mut run.seen, book);
    Ok(())
}

const CAMPAIGN: [&[u8]; 2] = [
    include_bytes!("../../../../examples/campaign.txt"),
    include_bytes!("../../../../examples/campaign.out"),
];

/// The snapshot of the C host's example, and its sheet.
const MILL: [&str; 2] = [
    "          2         14          4
          3        101
          0        107
          1        112
         10        140
        101        420       2110
        101        380       2050
        101        290       2080
        112        640       1895
        140        295       2240
        131        510       1980
        118        330       2075
        121        455       2160
        126        720       1840
        131        260       2305
        131        275       2290
        140        500       2000
        119        365       2145
        150        410       1975
",
    "                 101                   3                1090             2268400
                 112                   1                 640             1212800
                 118                   1                 330              684750
                 119                   1                 365              782925
                 121                   1                 455              982800
                 126                   1                 720             1324800
                 131                   3                1045             2238850
                 140                   2                 795             1660800
                 150                   1                 410              809750
                  14                5850            11965875
",
];

const EMPTY: [&str; 2] = [
    "          1          0          2
          0          5
          0          6
",
    "                   0                   0                   0\n",
];

fn examples(run: &mut Run) -> Result<(), String> {
    run.cases(1, 3, |run, r| {
        for [book, sheet] in [MILL, EMPTY] {
            run.prints(r, book.as_bytes(), sheet.as_bytes())?;
        }
        let [book, sheet] = CAMPAIGN;
        run.prints(r, book, sheet)
    })
}

fn sheets(run: &mut Run) -> Result<(), String> {
    run.cases(2, 700, |run, r| {
        let book = book::any(r);
        settled(run, r, &book)
    })
}

/// 511 and 512 deliveries: of any growers, of one, and the longest sheet.
fn full(run: &mut Run) -> Result<(), String> {
    run.cases(3, 10, |run, r| {
        for count in [SLOTS - 1, SLOTS] {
            let k = r.pick(&[1, 2, PARTITIONS]);
            let mut book = book::of(r, count, k);
            settled(run, r, &book)?;
            if k == 1 {
                let only = book.deliveries[0][0];
                book.deliveries.iter_mut().for_each(|d| d[0] = only);
                settled(run, r, &book)?;
            }
        }
        let mut book = book::largest(r);
        assert_eq!(book.text().len(), LONGEST);
        settled(run, r, &book)?;
        for delivery in &mut book.deliveries {
            delivery[1..].copy_from_slice(&[100_000, 10_000]);
        }
        settled(run, r, &book)
    })
}

/// 513 and more deliveries.
fn over(run: &mut Run) -> Result<(), String> {
    run.cases(4, 20, |run, r| {
        for count in [SLOTS + 1, SLOTS + r.within(2, 3_000)] {
            let k = r.pick(&[1, 2, PARTITIONS]);
            let book = book::of(r, count, k);
            run.refused(r, &book.text(), 12)?;
            run.seen.note(true, "12 of a good book");
        }
        Ok(())
    })
}

/// Line 1 says more than 512, and what stands behind it is damaged or is not
/// there: 12. Line 1 damaged: 14.
fn over_and_damaged(run: &mut Run) -> Result<(), String> {
    let damages: Vec<Damage<Book>> = common();
    run.cases(5, 300, |run, r| {
        let (mut book, stated) = (book::any(r), r.edge(SLOTS + 1, 262_144) as u32);
        if r.one_in(2) {
            book = book::of(r, SLOTS + 1, 9);
        }
        book.head[1] = stated;
        let good = book.text();
        let mut text = good.clone();
        if !damages[r.below(damages.len())].put(r, &mut text) {
            return Ok(());
        }
        if text.starts_with(&good[..34]) {
            run.seen.note(true, "12 although the rest is bad");
            return run.refused(r, &text, 12);
        }
        let output = run.compare(r, &text)?;
        let refused = output == b"         14\n";
        run.seen.note(refused, "14 although M is above 512");
        Ok(())
    })
}

/// Line 1 alone, each of its numbers at both sides of its limits.
fn line_1(run: &mut Run) -> Result<(), String> {
    run.cases(6, 1, |run, r| {
        for block in [0, 1, 4_096, 4_097, u32::MAX] {
            for count in [0, 512, 513, 262_144, 262_145, u32::MAX] {
                for k in [0, 1, 64, 65, u32::MAX] {
                    let book = Book {
                        head: [block, count, k],
                        parts: Vec::new(),
                        deliveries: Vec::new(),
                    };
                    let is_good = (1..=4_096).contains(&block)
                        && (513..=262_144).contains(&count)
                        && (1..=64).contains(&k);
                    let number = if is_good { 12 } else { 14 };
                    run.refused(r, &book.text(), number)
                        .map_err(|why| format!("B {block} M {count} K {k}: {why}"))?;
                }
            }
        }
        Ok(())
    })
}

pub const TESTS: &[(&str, Test)] = &[
    ("examples", examples),
    ("sheets", sheets),
    ("sheets of the largest books", full),
    ("more than 512 deliveries", over),
    ("more than 512 deliveries, and damaged", over_and_damaged),
    ("line 1 at its limits", line_1),
];
