//! Drawn weeks of a cooperative's calls, of the same make as the example weeks
//! (examples/make_weeks.py).
//!
//! Growers are numbered by village, and some villages are busier than others:
//! their olives are ripe, or they are paid this week.

use crate::sets::{delivery, Layouts};
use meltusk::{Call, Set};
use second::random::Random;
use second::{Delivery, WEIGHT_LIMIT};

const VILLAGES: usize = 8;
/// Two villages are busy; so many calls in four name one of them.
const BUSY_CALLS: usize = 3;
/// Between two growers' numbers there is room for new ones.
const SPACING: u32 = 10;

#[derive(Clone, Copy, PartialEq, Eq)]
pub enum Kind {
    /// Mostly inserts, finds at the gate, a few corrections.
    Harvest,
    /// About half of the calls of each of the others.
    Mixed,
    /// A village's total, then its members, families and a few late loads.
    Payment,
}

pub const KINDS: [(Kind, &str); 3] = [
    (Kind::Harvest, "harvest"),
    (Kind::Mixed, "mixed"),
    (Kind::Payment, "payment"),
];

/// The growers of `records` drawn deliveries, in order.
pub fn growers(r: &mut Random, records: usize, growers: usize) -> Vec<u32> {
    let mut drawn: Vec<u32> = (0..records).map(|_| number(r.below(growers))).collect();
    drawn.sort_unstable();
    drawn
}

fn number(member: usize) -> u32 {
    SPACING * (member as u32 + 1)
}

/// What a kind of week has in common from year to year.
pub struct Season<'a> {
    kind: Kind,
    set: &'a Set,
    members: usize,
    busy: [usize; 2],
}

/// A week that is being drawn.
struct Draw<'a> {
    season: &'a Season<'a>,
    r: Random,
    calls: Vec<Call>,
    /// Slots whose delivery was corrected already.
    corrected: Vec<bool>,
}

impl<'a> Season<'a> {
    pub fn new(r: &mut Random, kind: Kind, set: &'a Set, members: usize) -> Season<'a> {
        let first = r.below(VILLAGES);
        let busy = [first, (first + r.within(1, VILLAGES - 1)) % VILLAGES];
        Season {
            kind,
            set,
            members,
            busy,
        }
    }

    /// One week, different with each seed.
    pub fn week(&self, seed: u64, calls: usize) -> Vec<Call> {
        let mut week = Draw {
            season: self,
            r: Random::new(seed),
            calls: Vec::new(),
            corrected: vec![false; self.set.records()],
        };
        while week.calls.len() < calls {
            // A village paid is some 19 calls, an arrival 3.
            let paid = match self.kind {
                Kind::Harvest => false,
                Kind::Mixed => week.r.one_in(8),
                Kind::Payment => true,
            };
            if paid {
                week.village_paid();
            } else {
                week.arrival();
            }
        }
        week.calls.truncate(calls);
        week.calls
    }
}

impl Draw<'_> {
    fn village(&mut self) -> usize {
        if self.r.below(4) < BUSY_CALLS {
            self.r.pick(&self.season.busy)
        } else {
            self.r.below(VILLAGES)
        }
    }

    /// The first member of a village.
    fn first_of(&self, village: usize) -> usize {
        village * self.season.members / VILLAGES
    }

    fn member_of(&mut self, village: usize) -> usize {
        self.r
            .within(self.first_of(village), self.first_of(village + 1) - 1)
    }

    fn total_of(&mut self, village: usize) {
        let last = self.first_of(village + 1) - 1;
        let range = Call::Range(number(self.first_of(village)), number(last));
        self.calls.push(range);
    }

    /// A delivery booked wrongly: taken out, or moved to another member. One in
    /// sixteen names a weight that was not delivered.
    fn correction(&mut self) {
        let slot = self.r.below(self.season.set.records());
        if std::mem::replace(&mut self.corrected[slot], true) {
            return;
        }
        let mut held = self.season.set.delivery(slot);
        if self.r.one_in(16) {
            held.weight = (held.weight + 1) % (WEIGHT_LIMIT + 1);
        }
        if self.r.one_in(2) {
            self.calls.push(Call::Delete(held));
        } else {
            let village = self.village();
            let new = number(self.member_of(village));
            self.calls.push(Call::Move(held, new));
        }
    }

    fn insert(&mut self, grower: u32) -> Delivery {
        let new = delivery(&mut self.r, grower);
        self.calls.push(Call::Insert(new));
        new
    }

    /// A member comes with one to three trailers; some are new this year.
    fn arrival(&mut self) {
        let village = self.village();
        let mut grower = number(self.member_of(village));
        if self.r.one_in(12) {
            grower += SPACING / 2;
        }
        let mut last = self.insert(grower);
        for _ in 0..self.r.below(3) {
            last = self.insert(grower);
        }
        if self.r.one_in(20) {
            // Booked twice.
            self.calls.push(Call::Insert(last));
        }
        if self.r.one_in(2) {
            self.calls.push(Call::Find(grower));
        }
        if self.r.one_in(10) {
            // A slip of the weighbridge: this load, weighed again.
            self.calls.push(Call::Delete(last));
            self.insert(grower);
        }
        if self.r.one_in(8) {
            self.correction();
        }
        if self.r.one_in(30) {
            self.total_of(village);
        }
    }

    /// The desk pays a village at a time: its total, then its members.
    fn village_paid(&mut self) {
        let village = self.village();
        self.total_of(village);
        for _ in 0..self.r.within(8, 16) {
            let first = self.member_of(village);
            self.calls.push(Call::Find(number(first)));
            if self.r.one_in(3) {
                // A family's numbers follow one another.
                let last = first + self.r.within(1, 3);
                self.calls.push(Call::Range(number(first), number(last)));
            }
            if self.r.one_in(16) {
                self.correction();
            }
            if self.r.one_in(12) {
                let grower = number(self.member_of(village));
                self.insert(grower);
            }
        }
    }
}
