//! Plain models of the rules, written apart from the library.

use crate::subject::{step_refused, Answer, Call, Case, Column, Set, Step};
use second::planner::layout_of_bits;
use second::*;
use std::collections::BTreeMap;

/// The column as a list of lists: the slots follow by joining them.
#[derive(Clone, Debug)]
pub struct SlotModel {
    b: usize,
    fences: Vec<u32>,
    parts: Vec<Vec<Delivery>>,
    free: Vec<Delivery>,
}

impl SlotModel {
    pub fn new(c: &Column) -> SlotModel {
        let mut s = 0;
        let mut parts = Vec::new();
        for n in c.lengths() {
            parts.push((s..s + n).map(|i| c.slot(i)).collect());
            s += n;
        }
        SlotModel {
            b: c.directory[0] as usize,
            fences: c.directory[FENCES..FENCES + c.k()].to_vec(),
            parts,
            free: (s..c.growers.len()).map(|i| c.slot(i)).collect(),
        }
    }

    pub fn column(&self) -> Column {
        let mut c = Column {
            growers: Vec::new(),
            weights: Vec::new(),
            yields: Vec::new(),
            days: Vec::new(),
            directory: vec![0; DIRECTORY_LEN],
        };
        c.directory[0] = self.b as u32;
        c.directory[1] = self.parts.len() as u32;
        for (p, part) in self.parts.iter().enumerate() {
            c.directory[LENGTHS + p] = part.len() as u32;
            c.directory[FENCES + p] = self.fences[p];
            part.iter().for_each(|d| c.push(*d));
        }
        self.free.iter().for_each(|d| c.push(*d));
        c
    }

    fn partition_of(&self, g: u32) -> usize {
        let before = self.fences.iter().filter(|&&f| f < g).count();
        before.min(self.fences.len() - 1)
    }

    /// Blocks of the partitions scanned, or the refusal: 8 if one of all their
    /// records has a bad weight or yield, else 19 if one has a bad day.
    fn scan(&self, first: usize, last: usize) -> Result<Counts, u32> {
        let records = || self.parts[first..=last].iter().flatten();
        if records().any(|d| d.weight > 100_000 || d.oil_yield > 10_000) {
            return Err(8);
        }
        if records().any(|d| d.day > 36_524) {
            return Err(19);
        }
        let mut blocks = 0;
        for part in &self.parts[first..=last] {
            let mut n = part.len() / self.b;
            if part.len() % self.b != 0 {
                n += 1;
            }
            blocks += n as u64;
        }
        Ok(match blocks {
            0 => Counts::ZERO,
            _ => Counts::new(1, blocks - 1, 0),
        })
    }

    fn read(&self, lo: u32, hi: u32, span: Span) -> Answer {
        if lo > hi {
            return Answer::refused(7);
        }
        let (first, last) = (self.partition_of(lo), self.partition_of(hi));
        let counts = match self.scan(first, last) {
            Ok(counts) => counts,
            Err(number) => return Answer::refused(number),
        };
        if span.first.max(span.last) > 36_524 {
            return Answer::refused(19);
        }
        let mut totals = Totals::ZERO;
        for d in self.parts[first..=last].iter().flatten() {
            let on_days = (span.first..=span.last).contains(&d.day);
            if d.grower >= lo && d.grower <= hi && on_days {
                totals.records += 1;
                totals.weight += u64::from(d.weight);
                totals.oil += u64::from(d.weight) * u64::from(d.oil_yield);
            }
        }
        Answer {
            refusal: 0,
            totals,
            counts,
        }
    }

    fn insert(&mut self, d: Delivery) -> Answer {
        if d.weight > 100_000 || d.oil_yield > 10_000 {
            return Answer::refused(8);
        }
        if d.day > 36_524 {
            return Answer::refused(19);
        }
        if self.free.is_empty() {
            return Answer::refused(12);
        }
        let target = self.partition_of(d.grower);
        let mut counts = Counts::new(1, 0, 1);
        for p in target..self.parts.len() {
            counts.rr += 1;
            counts.rw += 1;
            if p > target && !self.parts[p].is_empty() {
                self.parts[p].rotate_left(1);
            }
        }
        self.parts[target].push(d);
        self.free.remove(0);
        Answer {
            refusal: 0,
            totals: Totals::ZERO,
            counts,
        }
    }

    fn locate(&self, d: &Delivery) -> Result<(usize, usize, Counts), Answer> {
        if d.weight > 100_000 || d.oil_yield > 10_000 {
            return Err(Answer::refused(8));
        }
        let p = self.partition_of(d.grower);
        let counts = self.scan(p, p).map_err(Answer::refused)?;
        if d.day > 36_524 {
            return Err(Answer::refused(19));
        }
        match self.parts[p].iter().position(|held| held == d) {
            Some(at) => Ok((p, at, counts)),
            None => Err(Answer {
                refusal: 13,
                totals: Totals::ZERO,
                counts,
            }),
        }
    }

    fn delete(&mut self, d: Delivery) -> Answer {
        let (p, at, mut counts) = match self.locate(&d) {
            Ok(found) => found,
            Err(answer) => return answer,
        };
        self.parts[p].swap_remove(at);
        counts.rw += 1;
        for q in p..self.parts.len() {
            counts.rr += 1;
            counts.rw += 1;
            if q > p && !self.parts[q].is_empty() {
                self.parts[q].rotate_right(1);
            }
        }
        self.free.insert(0, Delivery::default());
        Answer {
            refusal: 0,
            totals: Totals::ZERO,
            counts,
        }
    }

    fn move_delivery(&mut self, d: Delivery, g: u32) -> Answer {
        let (from, at, mut counts) = match self.locate(&d) {
            Ok(found) => found,
            Err(answer) => return answer,
        };
        let to = self.partition_of(g);
        let moved = Delivery { grower: g, ..d };
        counts.rr += 1;
        counts.rw += 2;
        if to >= from {
            self.parts[from].swap_remove(at);
            for part in self.parts[from..to].iter_mut().skip(1) {
                if !part.is_empty() {
                    part.rotate_right(1);
                }
            }
            if to == from {
                self.parts[to].push(moved);
            } else {
                self.parts[to].insert(0, moved);
            }
        } else {
            self.parts[from].swap(0, at);
            self.parts[from].remove(0);
            for part in &mut self.parts[to + 1..from] {
                if !part.is_empty() {
                    part.rotate_left(1);
                }
            }
            self.parts[to].push(moved);
        }
        let passed = from.abs_diff(to) as u64;
        counts.rr += passed;
        counts.rw += passed;
        Answer {
            refusal: 0,
            totals: Totals::ZERO,
            counts,
        }
    }

    /// The partitions that a step scans, in its order: from the grower's own to
    /// the first that holds a grower it may answer.
    pub fn scanned(&self, step: &Step) -> Vec<usize> {
        let own = self.partition_of(step.grower());
        let mut order: Vec<usize> = match step {
            Step::Next(_) => (own..self.parts.len()).collect(),
            Step::Previous(_) => (0..=own).rev().collect(),
        };
        let holds = |&p: &usize| self.parts[p].iter().any(|d| step.reaches(d.grower));
        if let Some(last) = order.iter().position(holds) {
            order.truncate(last + 1);
        }
        order
    }

    pub fn step(&self, step: &Step) -> GrowerAnswer {
        let scanned = self.scanned(step);
        let (one, other) = (scanned[0], scanned[scanned.len() - 1]);
        let counts = match self.scan(one.min(other), one.max(other)) {
            Ok(counts) => counts,
            Err(number) => return step_refused(number),
        };
        let held = || self.parts[other].iter().map(|d| d.grower);
        let grower = step.first_of(held());
        GrowerAnswer {
            refusal: 0,
            grower: grower.unwrap_or(0),
            records: held().filter(|&g| Some(g) == grower).count() as u64,
            counts,
        }
    }

    pub fn call(&mut self, call: &Call) -> Answer {
        match *call {
            Call::Find(g) => self.read(g, g, Span::new(0, 36_524)),
            Call::Range(lo, hi) => self.read(lo, hi, Span::new(0, 36_524)),
            Call::RangeDays(lo, hi, span) => self.read(lo, hi, span),
            Call::Insert(d) => self.insert(d),
            Call::Delete(d) => self.delete(d),
            Call::Move(d, g) => self.move_delivery(d, g),
        }
    }
}

/// The calls on the ledger.
pub fn ledger_call(ledger: &mut Ledger, call: &Call) -> (u32, Totals) {
    match *call {
        Call::Find(g) => ledger.find(g),
        Call::Range(lo, hi) => ledger.range(lo, hi),
        Call::RangeDays(lo, hi, span) => ledger.range_days(lo, hi, span),
        Call::Insert(d) => (ledger.insert(d), Totals::ZERO),
        Call::Delete(d) => (ledger.delete(d), Totals::ZERO),
        Call::Move(d, g) => (ledger.move_delivery(d, g), Totals::ZERO),
    }
}

/// A step on the ledger.
pub fn ledger_step(ledger: &Ledger, step: &Step) -> (u32, u64) {
    match *step {
        Step::Next(g) => ledger.next_grower(g),
        Step::Previous(g) => ledger.previous_grower(g),
    }
}

/// The counts a call raises on a proper set, as (histogram name, block).
pub fn raised(set: &Set, call: &Call) -> Vec<(&'static str, usize)> {
    let records = set.records();
    let blocks: Vec<&[Delivery]> = records.chunks(set.b as usize).collect();
    let block = |g: u32| {
        let short = blocks.iter().filter(|b| b[b.len() - 1].grower < g).count();
        short.min(blocks.len() - 1)
    };
    match *call {
        Call::Find(g) => vec![("pq", block(g))],
        Call::Range(lo, hi) | Call::RangeDays(lo, hi, _) => {
            let (a, z) = (block(lo), block(hi));
            if a == z {
                return vec![("pq", a)];
            }
            let mut all = vec![("rs", a), ("re", z)];
            all.extend((a + 1..z).map(|i| ("sc", i)));
            all
        }
        Call::Insert(d) => vec![("in", block(d.grower))],
        Call::Delete(d) if records.contains(&d) => vec![("de", block(d.grower))],
        Call::Move(d, g) if records.contains(&d) => {
            if g < d.grower {
                vec![("udb", block(d.grower)), ("utb", block(g))]
            } else {
                vec![("udf", block(d.grower)), ("utf", block(g))]
            }
        }
        Call::Delete(d) | Call::Move(d, _) => vec![("pq", block(d.grower))],
    }
}

/// Index of a named histogram's count.
pub fn named(name: &str, block: usize) -> usize {
    let order = [
        "pq", "rs", "re", "sc", "de", "in", "udf", "utf", "udb", "utb",
    ];
    order
        .iter()
        .position(|n| *n == name)
        .expect("a known histogram")
        * 64
        + block
}

/// The bill by 002's equations 16 and 17 over the boundary bits.
pub fn equation_cost(card: &PriceCard, n: usize, histograms: &[u32], ends: &[u32]) -> i128 {
    let bit = |i: usize| i128::from(ends.contains(&(i as u32)));
    let open = |from: usize, to: usize| (from..=to).map(|k| 1 - bit(k)).product::<i128>();
    let (rr, sr, rw) = (
        i128::from(card.rr),
        i128::from(card.sr),
        i128::from(card.rw),
    );
    let mut total = 0;
    for i in 0..n {
        let c = |name: &str| i128::from(histograms[named(name, i)]);
        let back: i128 = (0..i).map(|j| open(j, i - 1)).sum();
        let front: i128 = (i..n).map(|z| open(i, z)).sum();
        let trail: i128 = (i..n).map(bit).sum();
        let fixed = rr * (c("rs") + c("pq") + c("in") + c("de") + 2 * c("udf") + 2 * c("udb"))
            + sr * (c("re") + c("sc"))
            + rw * (c("in") + c("de") + 2 * c("udf") + 2 * c("udb"));
        let found = c("pq") + c("de") + c("udf") + c("udb");
        let parts = c("in") + c("de") + c("udf") - c("utf") - c("udb") + c("utb");
        total += fixed
            + sr * (c("rs") + found) * back
            + sr * (c("re") + found) * front
            + (rr + rw) * parts * trail;
    }
    total
}

/// Text of lines of numbers in so many columns each.
pub fn text_in(width: usize, lines: &[Vec<u64>]) -> Vec<u8> {
    let mut text = String::new();
    for line in lines {
        for n in line {
            text.push_str(&format!("{n:>width$}"));
        }
        text.push('\n');
    }
    text.into_bytes()
}

/// Text of lines of numbers in 11 columns.
pub fn text_of(lines: &[Vec<u64>]) -> Vec<u8> {
    text_in(11, lines)
}

/// Lines of numbers, if the text is exactly what `text_of` prints for them.
/// `fields` answers how many numbers the next line has, given the lines so
/// far, or `None` if there must be no further line.
pub fn lines_of(
    text: &[u8],
    fields: &dyn Fn(usize, &[Vec<u64>]) -> Option<usize>,
) -> Option<Vec<Vec<u64>>> {
    let text = std::str::from_utf8(text).ok()?;
    let mut lines: Vec<Vec<u64>> = Vec::new();
    for line in text.lines() {
        let count = fields(lines.len(), &lines)?;
        if !line.is_ascii() || line.len() != 11 * count {
            return None;
        }
        let numbers: Option<Vec<u64>> = (0..count)
            .map(|i| line[11 * i..11 * i + 11].trim().parse().ok())
            .collect();
        lines.push(numbers?);
    }
    (text_of(&lines) == text.as_bytes()).then_some(lines)
}

/// The snapshot text of a sound column, printed plainly.
pub fn snapshot_text(c: &Column) -> Vec<u8> {
    let mut lines = vec![vec![
        u64::from(c.directory[0]),
        c.used() as u64,
        u64::from(c.directory[1]),
    ]];
    for p in 0..c.k() {
        lines.push(vec![
            u64::from(c.directory[LENGTHS + p]),
            u64::from(c.directory[FENCES + p]),
        ]);
    }
    for d in c.records() {
        lines.push(vec![
            u64::from(d.grower),
            u64::from(d.weight),
            u64::from(d.oil_yield),
        ]);
    }
    text_of(&lines)
}

/// The sheet of a sound column and the used slots in its order.
pub fn sheet(c: &Column) -> (Vec<u8>, Vec<u32>) {
    sheet_of(c, |_| true)
}

/// The sheet of those records of a sound column that are on chosen days and
/// their slots in its order, by a map from each grower to his slots.
pub fn sheet_of(c: &Column, chosen: impl Fn(u32) -> bool) -> (Vec<u8>, Vec<u32>) {
    let mut slots: BTreeMap<u32, Vec<usize>> = BTreeMap::new();
    for s in (0..c.used()).filter(|&s| chosen(c.days[s])) {
        slots.entry(c.growers[s]).or_default().push(s);
    }
    let mut lines: Vec<Vec<u64>> = Vec::new();
    for (&grower, own) in &slots {
        let sum = |of: fn(Delivery) -> u64| own.iter().map(|&s| of(c.slot(s))).sum();
        lines.push(vec![
            u64::from(grower),
            own.len() as u64,
            sum(|d| u64::from(d.weight)),
            sum(|d| u64::from(d.weight) * u64::from(d.oil_yield)),
        ]);
    }
    lines.push((1..4).map(|i| lines.iter().map(|l| l[i]).sum()).collect());
    let order = slots.into_values().flatten().map(|s| s as u32);
    (text_in(20, &lines), order.collect())
}

/// A layout of a listing: its bill and its ends.
pub type Layout = (i128, Vec<u32>);

/// The layouts of a proper case by their boundary bits: those whose dearest find
/// and insert keep within the limits and whose ends part no equal growers.
pub fn listing(case: &Case) -> Vec<Layout> {
    let Case { card, limits, .. } = case;
    let records = case.set.records();
    let b = case.set.b as usize;
    let blocks = records.chunks(b).count();
    let parts = |past: usize| records[past * b - 1].grower == records[past * b].grower;
    let permitted = |ends: &[u32]| {
        let pasts: Vec<usize> = ends.iter().map(|&e| e as usize + 1).collect();
        let firsts = std::iter::once(0).chain(pasts.iter().copied());
        let longest = firsts.zip(&pasts).map(|(first, past)| past - first).max();
        let reads = longest.map_or(0, |blocks| blocks as u64 - 1);
        let find = u64::from(card.rr) + u64::from(card.sr) * reads;
        let insert = u64::from(card.rr + card.rw) * (1 + ends.len() as u64);
        find <= u64::from(limits.read)
            && insert <= u64::from(limits.insert)
            && !pasts[..pasts.len() - 1].iter().any(|&past| parts(past))
    };
    let mut all: Vec<Layout> = (0..1u32 << (blocks - 1))
        .map(|inner| layout_of_bits(inner, blocks))
        .filter(|ends| permitted(ends))
        .map(|ends| (equation_cost(card, blocks, &case.histograms, &ends), ends))
        .collect();
    all.sort_by(|x, y| x.1.cmp(&y.1));
    all
}

/// The text of a listing, printed plainly.
pub fn listing_text(layouts: &[Layout]) -> Vec<u8> {
    let mut text = String::new();
    for (bill, ends) in layouts {
        text.push_str(&format!("{:>11}{bill:>20}", ends.len()));
        for end in ends {
            text.push_str(&format!("{end:>11}"));
        }
        text.push('\n');
    }
    text.into_bytes()
}
