//! What calls added to a recorded list can do to a bill (02, Slip 11).

use crate::types::PriceCard;

/// A bill without and with some calls added, every call of both lists
/// accepted by the recorder.
#[derive(Clone, Copy, Debug)]
pub struct Increase {
    pub card: PriceCard,
    pub blocks: usize,
    /// How many calls were added.
    pub added: usize,
    pub old: i64,
    pub new: i64,
}

impl Increase {
    /// What a test of drawn lists should have met: the bounds, and lists that
    /// contradict wrong ones.
    pub const KINDS: [&'static str; 7] = [
        "calls that add RR each",
        "the most that calls add, each block in its own partition",
        "the most that calls add, all blocks in one partition",
        "the most that calls add, one block",
        "calls that add more than the bound without RW",
        "calls that add more than the bound with N for N + 1",
        "calls that add more than the bound of one call",
    ];

    /// SR x `reads` + (RR + RW) x `pairs`.
    fn priced(&self, reads: usize, pairs: usize) -> i64 {
        let pair = i64::from(self.card.rr + self.card.rw);
        i64::from(self.card.sr) * reads as i64 + pair * pairs as i64
    }

    /// "SR x (N - 1) + (RR + RW) x (N + 1)", of one call.
    fn bound(&self) -> i64 {
        self.priced(self.blocks - 1, self.blocks + 1)
    }

    /// The most that one call adds: all blocks in one partition, or each in
    /// its own.
    fn most(&self) -> i64 {
        let one_partition = self.priced(self.blocks - 1, 2);
        let each_block = self.priced(0, self.blocks + 1);
        one_partition.max(each_block)
    }

    fn times(&self, of_one: i64) -> i64 {
        self.added as i64 * of_one
    }

    /// 02's pair of bounds and the sharper one.
    pub fn check(&self) -> Result<(), String> {
        let by = self.new - self.old;
        let least = self.times(i64::from(self.card.rr));
        if by < 0 || by > self.times(self.bound()) {
            return Err(format!("outside 02's bounds: {self:?}"));
        }
        if by < least || by > self.times(self.most()) {
            return Err(format!("outside the sharper bounds: {self:?}"));
        }
        Ok(())
    }

    /// Of least bills: the layout planned from the old list comes to `kept`
    /// under the new one.
    pub fn check_kept(&self, kept: i64) -> Result<(), String> {
        let most = self.times(self.most() - i64::from(self.card.rr));
        if kept < self.new || kept > self.new + most {
            return Err(format!("the old plan comes to {kept}: {self:?}"));
        }
        Ok(())
    }

    /// Which of the kinds this is, in their order.
    pub fn occurred(&self) -> [bool; 7] {
        let by = self.new - self.old;
        let some = self.added > 0;
        let several = self.blocks > 1;
        let met = some && by == self.times(self.most());
        let on_one = self.priced(self.blocks - 1, 2) > self.priced(0, self.blocks + 1);
        let writes = i64::from(self.card.rw) * (self.blocks as i64 + 1);
        [
            some && by == self.times(i64::from(self.card.rr)),
            met && several && !on_one,
            met && several && on_one,
            met && !several,
            by > self.times(self.bound() - writes),
            by > self.times(self.priced(self.blocks - 1, self.blocks)),
            self.added > 1 && by > self.bound(),
        ]
    }
}
