//! Every layout of a small set: examples, random sets against a plain model and
//! against the planner, and sets of any size.

use crate::groups::{main_histograms, main_set, recorded, Outcome};
use crate::model::{listing, listing_text, named};
use crate::random;
use crate::require;
use crate::subject::*;
use second::random::Random;
use second::*;

/// A byte that no line holds.
const OLD: u8 = b'#';

/// An accepted case gives this text in a slice that is so much longer, and
/// nothing else is written.
fn written(s: &dyn Subject, case: &Case, text: &[u8], more: usize) -> Outcome {
    let mut out = vec![OLD; text.len() + more];
    let expected = ListAnswer {
        refusal: 0,
        layouts: text.iter().filter(|&&byte| byte == b'\n').count(),
        written: text.len(),
    };
    let a = s.list(case, &mut out);
    require!(a == expected, "{a:?}, not {expected:?}; {case:?}");
    let (lines, rest) = out.split_at(text.len());
    let shown = lines.escape_ascii();
    require!(lines == text, "text \"{shown}\"; {case:?}");
    require!(rest.iter().all(|&byte| byte == OLD), "written past it");
    Ok(())
}

/// A refused case leaves what it was lent.
fn refused(s: &dyn Subject, case: &Case, room: usize, number: u32) -> Outcome {
    let mut out = vec![OLD; room];
    let expected = ListAnswer {
        refusal: number,
        layouts: 0,
        written: 0,
    };
    let a = s.list(case, &mut out);
    require!(a == expected, "{a:?}, not {expected:?}; {case:?}");
    require!(out.iter().all(|&byte| byte == OLD), "refused, but written");
    Ok(())
}

/// A record a block, growers 0, 1 and so on.
fn one_a_block(blocks: usize) -> Set {
    Set {
        b: 1,
        m: blocks,
        growers: (0..blocks as u32).collect(),
        weights: vec![1; blocks],
        yields: vec![0; blocks],
        days: vec![0; blocks],
    }
}

/// A case in which every layout is permitted and costs nothing.
fn free_case(set: Set) -> Case {
    Case {
        card: PriceCard::FACTORY,
        limits: Limits::new(LIMIT_LIMIT, LIMIT_LIMIT),
        set,
        histograms: vec![0; HISTOGRAM_LEN],
    }
}

/// All layouts of 01's main case: five finds in block 1, an insert in block 0.
const MAIN: [&str; 8] = [
    "          4                  40          0          1          2          3\n",
    "          3                  35          0          1          3\n",
    "          3                  40          0          2          3\n",
    "          2                  40          0          3\n",
    "          3                  40          1          2          3\n",
    "          2                  35          1          3\n",
    "          2                  40          2          3\n",
    "          1                  40          3\n",
];

/// The main case in one block: the finds are counted in block 1, which it has not.
const ONE_BLOCK: &str = "          1                  10          0\n";

/// Two blocks, a move to block 0 without its old place: minus 5 for each
/// partition from there on.
const NEGATIVE: &str = "          2                 -10          0          1
          1                  -5          1
";

/// Four blocks of growers 10, 10, 20, 20.
const EQUAL: &str = "          2                   0          1          3
          1                   0          3
";

pub fn listing_examples(s: &dyn Subject, _: u64) -> Outcome {
    let mut main = free_case(main_set());
    main.histograms = main_histograms(s)?;
    // Read limit, insert limit, the lines of MAIN that they permit.
    let permitted: [(u32, u32, &[usize]); 6] = [
        (100, 100, &[0, 1, 2, 3, 4, 5, 6, 7]),
        (100, 15, &[3, 5, 6, 7]),
        (100, 14, &[7]),
        (4, 100, &[0, 1, 2, 4, 5]),
        (5, 20, &[1, 2, 3, 4, 5, 6]),
        (3, 100, &[0]),
    ];
    for (read, insert, lines) in permitted {
        main.limits = Limits::new(read, insert);
        let text: String = lines.iter().map(|&i| MAIN[i]).collect();
        written(s, &main, text.as_bytes(), 0)?;
        written(s, &main, text.as_bytes(), 1)?;
        refused(s, &main, text.len() - 1, 15)?;
    }
    for (read, insert) in [(3, 20), (2, 100), (100, 9)] {
        main.limits = Limits::new(read, insert);
        refused(s, &main, 1_000, 11)?;
    }
    main.limits = Limits::new(100, 100);
    main.set.b = 8;
    written(s, &main, ONE_BLOCK.as_bytes(), 0)?;

    let mut negative = free_case(Set { b: 4, ..main_set() });
    negative.histograms[named("utf", 0)] = 1;
    written(s, &negative, NEGATIVE.as_bytes(), 0)?;

    let mut equal = free_case(one_a_block(4));
    equal.set.growers = vec![10, 10, 20, 20];
    written(s, &equal, EQUAL.as_bytes(), 0)?;

    for blocks in [13, 64] {
        let mut case = free_case(one_a_block(blocks));
        refused(s, &case, 500_000, 23)?;
        refused(s, &case, 0, 23)?;
        case.limits = Limits::new(0, 0);
        refused(s, &case, 500_000, 23)?;
    }
    refused(s, &free_case(one_a_block(65)), 500_000, 4)
}

/// A random case of a proper set of at most `most_blocks` blocks.
fn any_case(s: &dyn Subject, r: &mut Random, most_blocks: usize) -> Case {
    let free = r.below(2);
    let set = random::set(r, most_blocks, free);
    let card = random::card(r);
    Case {
        limits: random::limits(r, &card, set.view().blocks()),
        histograms: match r.below(2) {
            0 => random::raw_histograms(r),
            _ => recorded(s, r, &set, 20).0,
        },
        card,
        set,
    }
}

/// Up to 12 blocks against the model, with room that is enough and room that is
/// a byte short.
pub fn listing_bits(s: &dyn Subject, cases: u64) -> Outcome {
    let r = &mut Random::new(70);
    let mut negative = 0;
    for _ in 0..cases {
        let most_blocks = r.pick(&[4, 8, 12]);
        let case = any_case(s, r, most_blocks);
        let layouts = listing(&case);
        if layouts.is_empty() {
            refused(s, &case, r.pick(&[0, 1_000]), 11)?;
            continue;
        }
        let text = listing_text(&layouts);
        written(s, &case, &text, r.below(3) * r.below(90))?;
        refused(s, &case, text.len() - 1, 15)?;
        refused(s, &case, 0, 15)?;
        negative += u64::from(layouts.iter().any(|(bill, _)| *bill < 0));
    }
    require!(negative > 0 || cases < 500, "no negative bill was met");
    Ok(())
}

/// Bill, K and ends: the least of them is the planner's answer.
type Line = (i64, i64, Vec<i64>);

/// A line's numbers; none if a field is no number.
fn parsed(line: &str) -> Option<Line> {
    let fields = line.split_ascii_whitespace();
    let numbers: Vec<i64> = fields.map(str::parse).collect::<Result<_, _>>().ok()?;
    match numbers[..] {
        [count, bill, ref ends @ ..] => Some((bill, count, ends.to_vec())),
        _ => None,
    }
}

/// The cheapest line, of equal bills the one of the fewest partitions, then of
/// the smaller end, is the planner's answer; 11 is given by both or by none.
pub fn listing_least(s: &dyn Subject, cases: u64) -> Outcome {
    let r = &mut Random::new(71);
    let mut out = vec![OLD; 300_000];
    let mut met = [0u32; 2];
    for _ in 0..cases {
        let most_blocks = r.pick(&[4, 8, 12]);
        let case = any_case(s, r, most_blocks);
        let a = s.list(&case, &mut out);
        let mut ends = [0; BLOCK_LIMIT];
        let (card, limits, set) = (&case.card, &case.limits, case.set.view());
        let plan = s.plan(card, limits, &set, &case.histograms, &mut ends);
        require!(a.refusal == plan.refusal, "{a:?}, {plan:?}; {case:?}");
        met[usize::from(a.refusal == 11)] += 1;
        if a.refusal != 0 {
            continue;
        }
        let text = String::from_utf8_lossy(&out[..a.written]).into_owned();
        let lines: Option<Vec<Line>> = text.lines().map(parsed).collect();
        let lines = lines.ok_or_else(|| format!("no numbers: {text}"))?;
        let ends = ends[..plan.count].iter().map(|&end| i64::from(end));
        let planned: Line = (plan.bill, plan.count as i64, ends.collect());
        require!(
            lines.iter().min() == Some(&planned),
            "{planned:?} of\n{text}{case:?}"
        );
    }
    let every = met.iter().all(|&n| n > 0);
    require!(every || cases < 500, "not every outcome was met: {met:?}");
    Ok(())
}

/// Sets of any size: 4, 23, 11, 15 or their lines.
pub fn listing_refused(s: &dyn Subject, cases: u64) -> Outcome {
    let r = &mut Random::new(72);
    let mut met = [0u32; 24];
    for _ in 0..cases {
        let most_blocks = r.pick(&[6, 13, 18, 70]);
        let case = any_case(s, r, most_blocks);
        let layouts = match case.set.view().blocks() {
            1..=LISTED_BLOCK_LIMIT => listing(&case),
            _ => Vec::new(),
        };
        let text = listing_text(&layouts);
        let room = match r.below(3) {
            0 => r.below(text.len() + 1),
            _ => text.len() + r.below(2),
        };
        let number = match case.set.view().blocks() {
            65.. => 4,
            13..=64 => 23,
            _ if layouts.is_empty() => 11,
            _ if room < text.len() => 15,
            _ => 0,
        };
        met[number as usize] += 1;
        match number {
            0 => written(s, &case, &text, room - text.len())?,
            _ => refused(s, &case, room, number)?,
        }
    }
    let every = [0, 4, 11, 15, 23].iter().all(|&number| met[number] > 0);
    require!(every || cases < 500, "not every outcome was met: {met:?}");
    Ok(())
}

/// Every layout of n blocks, 1 to 12: there are 2^(n - 1), of (n + 1) / 2 ends
/// in the mean.
pub fn listing_sizes(s: &dyn Subject, _: u64) -> Outcome {
    for blocks in 1..=LISTED_BLOCK_LIMIT {
        let case = free_case(one_a_block(blocks));
        let (layouts, bytes) = (1 << (blocks - 1), (75 + 11 * blocks) * (1 << blocks) / 4);
        let text = listing_text(&listing(&case));
        require!(text.len() == bytes, "{} bytes, not {bytes}", text.len());
        written(s, &case, &text, 0)?;
        refused(s, &case, bytes - 1, 15)?;
        let a = s.list(&case, &mut vec![OLD; bytes]);
        require!(a.layouts == layouts, "{a:?}, not {layouts} layouts");
    }
    Ok(())
}
