//! Texts lent to a call, and the slots that they are read into.

use crate::memory::Memory;
use second::random::Random;
use second::SLOT_LIMIT;

/// The name of a text among the slices of a call.
pub const TEXT: [&str; 1] = ["text"];

/// Most bytes printed of a failed case.
const PRINTED: usize = 2_000;

/// A text to be read.
#[derive(Clone, Debug)]
pub struct Text {
    bytes: Vec<u8>,
    /// The first of them are lent. The others were cut off and stand behind
    /// the text: a read past its end finds what was there.
    lent: usize,
}

impl Text {
    pub fn new(mut lent: Vec<u8>, cut: &[u8]) -> Text {
        let count = lent.len();
        lent.extend_from_slice(cut);
        Text {
            bytes: lent,
            lent: count,
        }
    }

    pub fn whole(bytes: &[u8]) -> Text {
        Text::new(bytes.to_vec(), &[])
    }

    pub fn lent(&self) -> &[u8] {
        &self.bytes[..self.lent]
    }

    pub fn memory(&self, r: &mut Random) -> Memory<u8> {
        let mut memory = Memory::new(r, &[&self.bytes]);
        memory.shorten(0, self.bytes.len() - self.lent);
        memory
    }
}

/// The slots that a text is read into.
#[derive(Clone, Copy, Debug, PartialEq, Eq)]
pub enum Lent {
    Exact,
    More,
    Fewer,
    /// One of the four slices has another length.
    Unequal,
    None,
}

pub const LENT: [Lent; 5] = [
    Lent::Exact,
    Lent::More,
    Lent::Fewer,
    Lent::Unequal,
    Lent::None,
];

impl Lent {
    /// The lengths of the slices for a text of M deliveries; none if there
    /// are no such.
    pub fn lengths(self, r: &mut Random, m: usize) -> Option<[usize; 4]> {
        match self {
            Lent::Exact => (m > 0).then_some([m; 4]),
            Lent::More => Some([m + r.within(1, 5); 4]),
            Lent::Fewer => (m > 1).then(|| [r.edge(1, m - 1); 4]),
            Lent::Unequal => {
                let mut lengths = [m + 1; 4];
                lengths[r.below(4)] = m + r.pick(&[0, 2]);
                Some(lengths)
            }
            Lent::None => Some([0; 4]),
        }
    }
}

/// Lengths of the four slices that are refused: none, unequal, and past the limit.
pub const REFUSED: [[usize; 4]; 12] = [
    [0; 4],
    [0, 9, 9, 9],
    [9, 0, 9, 9],
    [9, 9, 0, 9],
    [9, 9, 9, 0],
    [9, 9, 9, 8],
    [9, 9, 8, 9],
    [8, 9, 9, 9],
    [9, 10, 9, 9],
    [SLOT_LIMIT + 1; 4],
    [SLOT_LIMIT, SLOT_LIMIT, SLOT_LIMIT + 1, SLOT_LIMIT],
    [SLOT_LIMIT, SLOT_LIMIT, SLOT_LIMIT, SLOT_LIMIT + 1],
];

/// Slots as they may be before reading; none is 0.
pub fn old_slots<const N: usize>(r: &mut Random, lengths: [usize; N]) -> [Vec<u32>; N] {
    lengths.map(|n| {
        (0..n)
            .map(|_| r.within(1, u32::MAX as usize) as u32)
            .collect()
    })
}

/// Bytes as they may be before writing; none is 0.
pub fn old_bytes(r: &mut Random, count: usize) -> Vec<u8> {
    (0..count).map(|_| r.within(1, 255) as u8).collect()
}

/// A text for a message.
pub fn shown(text: &[u8]) -> String {
    let more = if text.len() > PRINTED { " .." } else { "" };
    let first = &text[..text.len().min(PRINTED)];
    format!("{} bytes \"{}\"{more}", text.len(), first.escape_ascii())
}
