//! What is checked: the library behind a trait, so that deliberately wrong
//! variants can stand in for single calls.

use second::*;

/// An unlaid set that owns its slices.
#[derive(Clone, Debug)]
pub struct Set {
    pub b: u32,
    pub m: usize,
    pub growers: Vec<u32>,
    pub weights: Vec<u32>,
    pub yields: Vec<u32>,
    pub days: Vec<u32>,
}

impl Set {
    pub fn view(&self) -> UnlaidSet<'_> {
        UnlaidSet {
            b: self.b,
            m: self.m,
            growers: &self.growers,
            weights: &self.weights,
            yields: &self.yields,
            days: &self.days,
        }
    }

    pub fn column(&self, directory: Vec<u32>) -> Column {
        Column {
            growers: self.growers.clone(),
            weights: self.weights.clone(),
            yields: self.yields.clone(),
            days: self.days.clone(),
            directory,
        }
    }

    pub fn records(&self) -> Vec<Delivery> {
        (0..self.m)
            .map(|s| {
                Delivery::new(self.growers[s], self.weights[s], self.yields[s]).on(self.days[s])
            })
            .collect()
    }
}

/// A column that owns its slices.
#[derive(Clone, Debug, PartialEq, Eq)]
pub struct Column {
    pub growers: Vec<u32>,
    pub weights: Vec<u32>,
    pub yields: Vec<u32>,
    pub days: Vec<u32>,
    pub directory: Vec<u32>,
}

impl Column {
    pub fn push(&mut self, d: Delivery) {
        self.growers.push(d.grower);
        self.weights.push(d.weight);
        self.yields.push(d.oil_yield);
        self.days.push(d.day);
    }

    pub fn k(&self) -> usize {
        self.directory[1] as usize
    }

    pub fn lengths(&self) -> Vec<usize> {
        (0..self.k())
            .map(|p| self.directory[LENGTHS + p] as usize)
            .collect()
    }

    pub fn used(&self) -> usize {
        self.lengths().iter().sum()
    }

    pub fn slot(&self, s: usize) -> Delivery {
        Delivery::new(self.growers[s], self.weights[s], self.yields[s]).on(self.days[s])
    }

    pub fn records(&self) -> Vec<Delivery> {
        (0..self.used()).map(|s| self.slot(s)).collect()
    }

    pub fn store(&mut self, s: usize, d: Delivery) {
        self.growers[s] = d.grower;
        self.weights[s] = d.weight;
        self.yields[s] = d.oil_yield;
        self.days[s] = d.day;
    }

    /// Day 0 in every record, as a book has it.
    pub fn undated(mut self) -> Column {
        let used = self.used();
        self.days[..used].fill(0);
        self
    }

    /// Partition of a grower by the paper's sentence, read one by one.
    pub fn partition_of(&self, g: u32) -> usize {
        (0..self.k())
            .find(|&p| self.directory[FENCES + p] >= g)
            .unwrap_or(self.k() - 1)
    }

    pub fn is_sound(&self) -> bool {
        let mut s = 0;
        for (p, n) in self.lengths().into_iter().enumerate() {
            for _ in 0..n {
                if self.partition_of(self.growers[s]) != p {
                    return false;
                }
                s += 1;
            }
        }
        true
    }
}

#[derive(Clone, Copy, Debug)]
pub enum Call {
    Find(u32),
    Range(u32, u32),
    RangeDays(u32, u32, Span),
    Insert(Delivery),
    Delete(Delivery),
    Move(Delivery, u32),
}

/// Answer of any of the calls.
#[derive(Clone, Copy, Debug, PartialEq, Eq)]
pub struct Answer {
    pub refusal: u32,
    pub totals: Totals,
    pub counts: Counts,
}

impl Answer {
    pub fn refused(refusal: u32) -> Answer {
        Answer {
            refusal,
            totals: Totals::ZERO,
            counts: Counts::ZERO,
        }
    }

    pub fn write(a: WriteAnswer) -> Answer {
        Answer {
            refusal: a.refusal,
            totals: Totals::ZERO,
            counts: a.counts,
        }
    }

    pub fn read(a: ReadAnswer) -> Answer {
        Answer {
            refusal: a.refusal,
            totals: a.totals,
            counts: a.counts,
        }
    }
}

/// The calls of the library on an owned column.
pub fn library_call(c: &mut Column, call: &Call) -> Answer {
    let Column {
        growers: g,
        weights: w,
        yields: y,
        days: n,
        directory: at,
    } = c;
    match *call {
        Call::Find(grower) => Answer::read(find(g, w, y, n, at, grower)),
        Call::Range(lo, hi) => Answer::read(range(g, w, y, n, at, lo, hi)),
        Call::RangeDays(lo, hi, span) => Answer::read(range_days(g, w, y, n, at, (lo, hi), span)),
        Call::Insert(d) => Answer::write(insert(g, w, y, n, at, d)),
        Call::Delete(d) => Answer::write(delete(g, w, y, n, at, d)),
        Call::Move(d, grower) => Answer::write(move_delivery(g, w, y, n, at, d, grower)),
    }
}

pub fn library_record(set: &UnlaidSet, histograms: &mut [u32], call: &Call) -> u32 {
    match *call {
        Call::Find(g) => record_find(set, histograms, g),
        Call::Range(lo, hi) => record_range(set, histograms, lo, hi),
        Call::RangeDays(lo, hi, span) => record_range_days(set, histograms, (lo, hi), span),
        Call::Insert(d) => record_insert(set, histograms, d),
        Call::Delete(d) => record_delete(set, histograms, d),
        Call::Move(d, g) => record_move(set, histograms, d, g),
    }
}

/// A step of the payment screen.
#[derive(Clone, Copy, Debug)]
pub enum Step {
    /// To the smallest grower at or above.
    Next(u32),
    /// To the largest grower at or below.
    Previous(u32),
}

impl Step {
    /// Both steps from a grower.
    pub fn both(g: u32) -> [Step; 2] {
        [Step::Next(g), Step::Previous(g)]
    }

    pub fn grower(&self) -> u32 {
        match *self {
            Step::Next(g) | Step::Previous(g) => g,
        }
    }

    /// Whether the step may answer a grower.
    pub fn reaches(&self, held: u32) -> bool {
        match *self {
            Step::Next(g) => held >= g,
            Step::Previous(g) => held <= g,
        }
    }

    /// The one of several growers that the step answers.
    pub fn first_of(&self, held: impl Iterator<Item = u32>) -> Option<u32> {
        let reached = held.filter(|&g| self.reaches(g));
        match self {
            Step::Next(_) => reached.min(),
            Step::Previous(_) => reached.max(),
        }
    }
}

pub fn step_refused(refusal: u32) -> GrowerAnswer {
    GrowerAnswer {
        refusal,
        grower: 0,
        records: 0,
        counts: Counts::ZERO,
    }
}

pub fn library_step(c: &Column, step: &Step) -> GrowerAnswer {
    match *step {
        Step::Next(g) => next_grower(&c.growers, &c.weights, &c.yields, &c.days, &c.directory, g),
        Step::Previous(g) => {
            previous_grower(&c.growers, &c.weights, &c.yields, &c.days, &c.directory, g)
        }
    }
}

/// What writing a sheet is lent.
#[derive(Clone, Debug, PartialEq, Eq)]
pub struct Room {
    pub text: Vec<u8>,
    pub order: Vec<u32>,
    pub work: Vec<u32>,
}

pub fn library_sheet(c: &Column, room: &mut Room) -> TextAnswer {
    sheet_write(
        &c.growers,
        &c.weights,
        &c.yields,
        &c.days,
        &c.directory,
        &mut room.text,
        &mut room.order,
        &mut room.work,
    )
}

pub fn library_term_sheet(c: &Column, day: u32, room: &mut Room) -> TextAnswer {
    term_sheet_write(
        &c.growers,
        &c.weights,
        &c.yields,
        &c.days,
        &c.directory,
        day,
        &mut room.text,
        &mut room.order,
        &mut room.work,
    )
}

/// What listing the layouts is given.
#[derive(Clone, Debug)]
pub struct Case {
    pub card: PriceCard,
    pub limits: Limits,
    pub set: Set,
    pub histograms: Vec<u32>,
}

pub fn library_list(case: &Case, out: &mut [u8]) -> ListAnswer {
    let (card, limits) = (&case.card, &case.limits);
    list_layouts(card, limits, &case.set.view(), &case.histograms, out)
}

/// The calls that a wrong variant may replace.
pub trait Subject {
    fn call(&self, c: &mut Column, call: &Call) -> Answer {
        library_call(c, call)
    }

    fn step(&self, c: &Column, step: &Step) -> GrowerAnswer {
        library_step(c, step)
    }

    fn record(&self, set: &UnlaidSet, histograms: &mut [u32], call: &Call) -> u32 {
        library_record(set, histograms, call)
    }

    fn cost(
        &self,
        card: &PriceCard,
        set: &UnlaidSet,
        histograms: &[u32],
        ends: &[u32],
    ) -> CostAnswer {
        cost(card, set, histograms, ends)
    }

    fn plan(
        &self,
        card: &PriceCard,
        limits: &Limits,
        set: &UnlaidSet,
        histograms: &[u32],
        out: &mut [u32],
    ) -> PlanAnswer {
        plan_by_table(card, limits, set, histograms, out)
    }

    fn list(&self, case: &Case, out: &mut [u8]) -> ListAnswer {
        library_list(case, out)
    }

    fn apply(&self, set: &UnlaidSet, ends: &[u32]) -> DirectoryAnswer {
        apply_layout(set, ends)
    }

    fn snapshot_read(&self, text: &[u8], c: &mut Column) -> DirectoryAnswer {
        snapshot_read(
            text,
            &mut c.growers,
            &mut c.weights,
            &mut c.yields,
            &mut c.days,
        )
    }

    fn snapshot_write(&self, c: &Column, out: &mut [u8]) -> TextAnswer {
        snapshot_write(
            &c.growers,
            &c.weights,
            &c.yields,
            &c.days,
            &c.directory,
            out,
        )
    }

    fn csv_import(&self, text: &[u8], c: &mut Column) -> ImportAnswer {
        csv_import(
            text,
            &mut c.growers,
            &mut c.weights,
            &mut c.yields,
            &mut c.days,
        )
    }

    fn csv_export(&self, used: usize, c: &Column, out: &mut [u8]) -> TextAnswer {
        csv_export(used, &c.growers, &c.weights, &c.yields, &c.days, out)
    }

    fn tally_add(&self, tally: &mut Tally, counts: &Counts) -> u32 {
        tally_add(tally, counts)
    }

    fn layplan(&self, text: &[u8]) -> Vec<u8> {
        layplan(text)
    }

    fn sheet(&self, c: &Column, room: &mut Room) -> TextAnswer {
        library_sheet(c, room)
    }

    fn term_sheet(&self, c: &Column, day: u32, room: &mut Room) -> TextAnswer {
        library_term_sheet(c, day, room)
    }

    fn day_of(&self, year: u32, month: u32, day: u32) -> DayAnswer {
        day_of(year, month, day)
    }

    fn date_of(&self, day: u32) -> DateAnswer {
        date_of(day)
    }

    fn term_of(&self, day: u32) -> TermAnswer {
        term_of(day)
    }

    fn settlement(&self, text: &[u8]) -> Vec<u8> {
        settlement(text)
    }
}

/// The library itself.
pub struct Library;
impl Subject for Library {}
