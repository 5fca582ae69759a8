//! What has occurred in the compared calls.

use crate::library::{Empty, Library};
use second::SLOT_LIMIT;
use std::collections::{BTreeMap, BTreeSet};

/// A count at the edge of what a slice may have.
#[derive(Clone, Copy, Debug, PartialEq, Eq, PartialOrd, Ord)]
pub enum Edge {
    /// No element, and a null pointer.
    Null,
    /// No element, and a pointer that is not null.
    Empty,
    One,
    /// More than 262,144 elements.
    Past,
}

pub const EDGES: [Edge; 4] = [Edge::Null, Edge::Empty, Edge::One, Edge::Past];

/// Counts the calls and their answers, and keeps which kinds of input and which
/// edges of slices have occurred: a comparison that never saw one shows less than it says.
#[derive(Default)]
pub struct Seen {
    /// All calls compared so far.
    pub calls: u64,
    answers: BTreeMap<(&'static str, u32), u64>,
    kinds: BTreeSet<&'static str>,
    /// Call and slice.
    edges: BTreeSet<(&'static str, &'static str, Edge)>,
}

impl Seen {
    /// Notes a call and its refusal, 0 for accepted.
    pub fn answer(&mut self, call: &'static str, refusal: u32) {
        self.calls += 1;
        *self.answers.entry((call, refusal)).or_default() += 1;
    }

    /// Notes a kind of input if it is there.
    pub fn kind(&mut self, there: bool, kind: &'static str) {
        if there {
            self.kinds.insert(kind);
        }
    }

    /// Notes the slices that a call was lent, each by its name and its count.
    pub fn lent(
        &mut self,
        call: &'static str,
        library: &Library,
        slices: impl Iterator<Item = (&'static str, usize)>,
    ) {
        for (slice, count) in slices {
            let edge = match count {
                0 if library.empty == Empty::Null => Edge::Null,
                0 => Edge::Empty,
                1 => Edge::One,
                2..=SLOT_LIMIT => continue,
                _ => Edge::Past,
            };
            self.edges.insert((call, slice, edge));
        }
    }

    /// Whether a call was lent the slice at this edge.
    pub fn was_lent(&self, call: &str, slice: &str, edge: Edge) -> bool {
        self.edges.contains(&(call, slice, edge))
    }

    /// Every refusal that has occurred, 0 for accepted.
    pub fn refusals(&self) -> BTreeSet<u32> {
        self.answers.keys().map(|&(_, refusal)| refusal).collect()
    }

    /// How often a call was made.
    pub fn count(&self, call: &str) -> u64 {
        let of_call = self.answers.iter().filter(|((name, _), _)| *name == call);
        of_call.map(|(_, count)| count).sum()
    }

    /// An error if one of these answers or kinds has not occurred.
    pub fn complete(
        &self,
        answers: &[(&'static str, &[u32])],
        kinds: &[&'static str],
    ) -> Result<(), String> {
        for (call, refusals) in answers {
            for &refusal in *refusals {
                if !self.answers.contains_key(&(*call, refusal)) {
                    return Err(format!("{call} never gave {refusal}"));
                }
            }
        }
        match kinds.iter().find(|kind| !self.kinds.contains(*kind)) {
            Some(kind) => Err(format!("never occurred: {kind}")),
            None => Ok(()),
        }
    }
}
