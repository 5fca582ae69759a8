//! What the compared inputs were: every answer and every kind of input has to
//! occur, or the comparison shows less than it says.

use crate::process::Feed;
use std::collections::BTreeSet;

/// How inputs reached the process.
const FED: [&str; 3] = ["text in a file", "text through a pipe", "text in pieces"];

/// What has to occur of one program.
pub struct Expected {
    /// The refusals that an input can get, 0 for none.
    pub answers: &'static [u32],
    pub kinds: &'static [&'static str],
}

#[derive(Default)]
pub struct Seen {
    pub inputs: u64,
    pub damaged: u64,
    answers: BTreeSet<u32>,
    kinds: BTreeSet<&'static str>,
}

impl Seen {
    /// Notes a kind of input if it is there.
    pub fn note(&mut self, there: bool, kind: &'static str) {
        if there {
            self.kinds.insert(kind);
        }
    }

    pub(crate) fn note_answer(&mut self, feed: Feed, refusal: u32) {
        self.inputs += 1;
        self.answers.insert(refusal);
        self.kinds.insert(match feed {
            Feed::File => FED[0],
            Feed::Pipe => FED[1],
            Feed::Pieces => FED[2],
        });
    }

    /// An error if an answer or a kind of input has not occurred.
    pub fn complete(&self, expected: &Expected) -> Result<(), String> {
        for answer in expected.answers {
            if !self.answers.contains(answer) {
                return Err(format!("no input gave {answer}"));
            }
        }
        for kind in FED.iter().chain(expected.kinds) {
            if !self.kinds.contains(kind) {
                return Err(format!("never occurred: {kind}"));
            }
        }
        // A comparison of good texts alone would say little about 14.
        if 2 * self.damaged < self.inputs {
            return Err(format!("only {} inputs are damaged", self.damaged));
        }
        Ok(())
    }
}
