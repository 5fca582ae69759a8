//! Deliberately wrong listings.

use crate::groups::Outcome;
use crate::listings::{
    listing_bits, listing_examples, listing_least, listing_refused, listing_sizes,
};
use crate::model::{listing, listing_text, Layout};
use crate::subject::{library_list, Case, Subject};
use second::*;

pub type List = fn(&Case, &mut [u8]) -> ListAnswer;
type Group = fn(&dyn Subject, u64) -> Outcome;

fn refused(refusal: u32) -> ListAnswer {
    ListAnswer {
        refusal,
        layouts: 0,
        written: 0,
    }
}

/// An accepted case is answered with so many layouts in this text, as much of it
/// as there is room for.
fn with_text(out: &mut [u8], layouts: usize, text: &[u8]) -> ListAnswer {
    let written = text.len().min(out.len());
    out[..written].copy_from_slice(&text[..written]);
    ListAnswer {
        refusal: 0,
        layouts,
        written,
    }
}

/// The right layouts, changed.
fn relisted(case: &Case, out: &mut [u8], change: fn(&mut Vec<Layout>)) -> ListAnswer {
    let a = library_list(case, out);
    if a.refusal != 0 {
        return a;
    }
    let mut layouts = listing(case);
    change(&mut layouts);
    with_text(out, layouts.len(), &listing_text(&layouts))
}

/// The right lines without their LF, each changed.
fn rewritten(case: &Case, out: &mut [u8], change: fn(&mut Vec<u8>)) -> ListAnswer {
    let a = library_list(case, out);
    if a.refusal != 0 {
        return a;
    }
    let mut text = Vec::new();
    for line in out[..a.written].split_inclusive(|&byte| byte == b'\n') {
        let mut line = line[..line.len() - 1].to_vec();
        change(&mut line);
        text.extend(line);
        text.push(b'\n');
    }
    with_text(out, a.layouts, &text)
}

/// The right layouts under other limits.
fn with_limits(case: &Case, out: &mut [u8], read: i64, insert: i64) -> ListAnswer {
    let moved = |limit: u32, by: i64| (i64::from(limit) + by).clamp(0, 1_000_000) as u32;
    let mut case = case.clone();
    case.limits.read = moved(case.limits.read, read);
    case.limits.insert = moved(case.limits.insert, insert);
    library_list(&case, out)
}

/// The right layouts as if no growers were equal.
fn equal_growers_parted(case: &Case, out: &mut [u8]) -> ListAnswer {
    let a = library_list(case, out);
    if !matches!(a.refusal, 0 | 11) {
        return a;
    }
    let mut case = case.clone();
    for (i, grower) in case.set.growers.iter_mut().enumerate() {
        *grower = i as u32;
    }
    library_list(&case, out)
}

fn cheapest_first(layouts: &mut [Layout]) {
    layouts.sort_by(|x, y| (x.0, x.1.len(), &x.1).cmp(&(y.0, y.1.len(), &y.1)));
}

fn last_left_out(layouts: &mut Vec<Layout>) {
    if layouts.len() > 1 {
        layouts.pop();
    }
}

/// In the place of the one after it.
fn first_listed_twice(layouts: &mut [Layout]) {
    if layouts.len() > 1 {
        layouts[1] = layouts[0].clone();
    }
}

fn minus_dropped(layouts: &mut [Layout]) {
    for (bill, _) in layouts {
        *bill = bill.abs();
    }
}

fn minus_first(line: &mut [u8]) {
    if let Some(at) = line.iter().position(|&byte| byte == b'-') {
        line.swap(11, at);
    }
}

fn minus_after_field(line: &mut [u8]) {
    if let Some(at) = line.iter().position(|&byte| byte == b'-') {
        line[at..31].rotate_left(1);
    }
}

/// 11 goes ahead of 23.
fn permission_ahead_of_blocks(case: &Case, out: &mut [u8]) -> ListAnswer {
    let a = library_list(case, out);
    let (card, limits, set) = (&case.card, &case.limits, case.set.view());
    let plan = plan_by_table(card, limits, &set, &case.histograms, &mut [0; BLOCK_LIMIT]);
    match (a.refusal, plan.refusal) {
        (23, 11) => refused(11),
        _ => a,
    }
}

fn thirteen_listed(case: &Case, out: &mut [u8]) -> ListAnswer {
    let a = library_list(case, out);
    if a.refusal != 23 || case.set.view().blocks() > 13 {
        return a;
    }
    let layouts = listing(case);
    let text = listing_text(&layouts);
    match (text.len(), out.len()) {
        (0, _) => refused(11),
        (bytes, room) if bytes > room => refused(15),
        _ => with_text(out, layouts.len(), &text),
    }
}

fn twelve_refused(case: &Case, out: &mut [u8]) -> ListAnswer {
    let before = out.to_vec();
    let a = library_list(case, out);
    if a.refusal == 0 && case.set.view().blocks() == 12 {
        out.copy_from_slice(&before);
        return refused(23);
    }
    a
}

fn empty_accepted(case: &Case, out: &mut [u8]) -> ListAnswer {
    match library_list(case, out) {
        ListAnswer { refusal: 11, .. } => refused(0),
        a => a,
    }
}

/// What is refused by 15 has as many bytes written as there is room for.
fn written_when_refused(case: &Case, out: &mut [u8]) -> ListAnswer {
    let a = library_list(case, out);
    if a.refusal == 15 {
        with_text(out, 0, &listing_text(&listing(case)));
    }
    a
}

/// Room is asked for every layout of the set, permitted or not.
fn room_for_all(case: &Case, out: &mut [u8]) -> ListAnswer {
    let before = out.to_vec();
    let a = library_list(case, out);
    let blocks = case.set.view().blocks();
    if a.refusal == 0 && out.len() < (75 + 11 * blocks) * (1 << blocks) / 4 {
        out.copy_from_slice(&before);
        return refused(15);
    }
    a
}

fn blanked(case: &Case, out: &mut [u8]) -> ListAnswer {
    let a = library_list(case, out);
    if a.refusal == 0 {
        out[a.written..].fill(b' ');
    }
    a
}

/// Name, listing, and the groups that have to detect it.
pub const ALL: &[(&str, List, &[Group])] = &[
    (
        "later end first",
        |case, out| relisted(case, out, |all| all.reverse()),
        &[listing_examples, listing_bits, listing_refused],
    ),
    (
        "cheapest layout first",
        |case, out| relisted(case, out, |all| cheapest_first(all)),
        &[listing_examples, listing_bits, listing_refused],
    ),
    (
        "fewest partitions first",
        |case, out| relisted(case, out, |all| all.sort_by_key(|x| x.1.len())),
        &[listing_examples, listing_bits, listing_refused],
    ),
    (
        "last layout not listed",
        |case, out| relisted(case, out, last_left_out),
        &[listing_examples, listing_bits, listing_least],
    ),
    (
        "a layout listed twice, another not",
        |case, out| relisted(case, out, |all| first_listed_twice(all)),
        &[listing_examples, listing_bits, listing_least],
    ),
    (
        "a layout more, which is listed twice",
        |case, out| relisted(case, out, |all| all.push(all[0].clone())),
        &[listing_examples, listing_bits, listing_refused],
    ),
    (
        "listed: one block more",
        |case, out| with_limits(case, out, i64::from(case.card.sr), 0),
        &[listing_examples, listing_bits, listing_least],
    ),
    (
        "listed: one block fewer",
        |case, out| with_limits(case, out, -i64::from(case.card.sr), 0),
        &[listing_examples, listing_bits, listing_least],
    ),
    (
        "listed: one partition more",
        |case, out| with_limits(case, out, 0, i64::from(case.card.rr + case.card.rw)),
        &[listing_examples, listing_bits, listing_least],
    ),
    (
        "listed: equal growers parted",
        equal_growers_parted,
        &[listing_examples, listing_bits, listing_least],
    ),
    (
        "listed bill without its minus",
        |case, out| relisted(case, out, |all| minus_dropped(all)),
        &[listing_examples, listing_bits, listing_least],
    ),
    (
        "minus in the bill's first column",
        |case, out| rewritten(case, out, |line| minus_first(line)),
        &[listing_examples, listing_bits],
    ),
    (
        "minus after the bill",
        |case, out| rewritten(case, out, |line| minus_after_field(line)),
        &[listing_examples, listing_bits],
    ),
    (
        "bill in 11 columns",
        |case, out| rewritten(case, out, |line| drop(line.drain(11..20))),
        &[listing_examples, listing_bits],
    ),
    (
        "line without its last end",
        |case, out| rewritten(case, out, |line| line.truncate(line.len() - 11)),
        &[listing_examples, listing_bits, listing_least],
    ),
    (
        "11 ahead of 23",
        permission_ahead_of_blocks,
        &[listing_examples, listing_refused],
    ),
    (
        "13 blocks listed",
        thirteen_listed,
        &[listing_examples, listing_refused],
    ),
    (
        "12 blocks refused",
        twelve_refused,
        &[listing_bits, listing_least, listing_sizes],
    ),
    (
        "empty listing accepted",
        empty_accepted,
        &[listing_examples, listing_bits, listing_least],
    ),
    (
        "layouts not counted",
        |case, out| ListAnswer {
            layouts: 0,
            ..library_list(case, out)
        },
        &[listing_examples, listing_bits, listing_sizes],
    ),
    (
        "listing written when refused",
        written_when_refused,
        &[listing_examples, listing_bits, listing_refused],
    ),
    (
        "room for every layout of the set",
        room_for_all,
        &[listing_examples, listing_bits, listing_refused],
    ),
    (
        "bytes past the listing blanked",
        blanked,
        &[listing_examples, listing_bits, listing_refused],
    ),
];
