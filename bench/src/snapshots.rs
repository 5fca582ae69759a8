//! A snapshot of 262,144 deliveries written and read.

use crate::columns::{laid, LIBRARY, OURS, SECOND};
use crate::timing::{timed, Times, REPETITIONS};
use meltusk::Column;
use second::random::{case_seed, Random};
use second::{snapshot_read, snapshot_size, snapshot_write, SLOT_LIMIT};

/// Rounds of a repetition: a call takes milliseconds.
const ROUNDS: usize = 5;

/// What one side writes to and reads into; exchanged after each repetition.
struct Side {
    text: Vec<u8>,
    growers: Vec<u32>,
    weights: Vec<u32>,
    yields: Vec<u32>,
    days: Vec<u32>,
}

impl Side {
    fn new(bytes: usize) -> Side {
        Side {
            text: vec![0; bytes],
            growers: vec![0; SLOT_LIMIT],
            weights: vec![0; SLOT_LIMIT],
            yields: vec![0; SLOT_LIMIT],
            days: vec![0; SLOT_LIMIT],
        }
    }

    /// Refusal and bytes.
    fn write(&mut self, side: usize, c: &Column) -> (u32, usize) {
        if side == OURS {
            let a = LIBRARY.write_snapshot(&c.view(), &mut self.text);
            (a.refusal, a.bytes as usize)
        } else {
            let (g, w, y, n) = (&c.growers, &c.weights, &c.yields, &c.days);
            let a = snapshot_write(g, w, y, n, &c.directory, &mut self.text);
            (a.refusal, a.written)
        }
    }

    /// Refusal and directory.
    fn read(&mut self, side: usize) -> (u32, Vec<u32>) {
        let (t, g, w, y, n) = (
            &self.text,
            &mut self.growers,
            &mut self.weights,
            &mut self.yields,
            &mut self.days,
        );
        if side == OURS {
            let a = LIBRARY.read_snapshot(t, g, w, y, n);
            (a.refusal, a.directory.to_vec())
        } else {
            let a = snapshot_read(t, g, w, y, n);
            (a.refusal, a.directory.to_vec())
        }
    }
}

pub fn run(partitions: usize) {
    let mut r = Random::new(case_seed(101, partitions as u64));
    let column = laid(&mut r, partitions, SLOT_LIMIT).undated();
    let bytes = snapshot_size(SLOT_LIMIT, partitions);
    let mut sides = [Side::new(bytes), Side::new(bytes)];
    let [mut written, mut read, mut copied]: [Times; 3] = Default::default();
    for _ in 0..REPETITIONS {
        for round in 0..ROUNDS {
            for side in [round % 2, 1 - round % 2] {
                let (ns, answer) = timed(1, || sides[side].write(side, &column));
                assert_eq!(answer, (0, bytes), "writing is refused");
                written.add(side, ns);
            }
            assert!(sides[OURS].text == sides[SECOND].text, "the texts differ");
            for side in [round % 2, 1 - round % 2] {
                let (ns, answer) = timed(1, || sides[side].read(side));
                assert_eq!(answer, (0, column.directory.clone()), "reading is refused");
                read.add(side, ns);
                let s = &sides[side];
                assert!(
                    s.growers == column.growers
                        && s.weights == column.weights
                        && s.yields == column.yields
                        && s.days == column.days,
                    "another column is read"
                );
            }
            // What memory alone costs.
            let [ours, second] = &mut sides;
            let (ns, ()) = timed(1, || ours.text.copy_from_slice(&second.text));
            copied.add(OURS, ns);
            let (ns, ()) = timed(1, || second.text.copy_from_slice(&ours.text));
            copied.add(SECOND, ns);
        }
        for times in [&mut written, &mut read, &mut copied] {
            times.close();
        }
        sides.swap(OURS, SECOND);
    }
    written.print("write", partitions);
    read.print("read", partitions);
    println!(
        "{:<16}{partitions:>4}{:>14.1}",
        "copy of text",
        copied.least()
    );
}
