//! What a disk or a hand leaves of layplan's inputs.

use crate::input::{self, Input, CALLS, DELETE, DELIVERIES, FIND, INSERT, RANGE};
use crate::refusals;
use programs::damage::Make::{Bytes, Numbers, Whole};
use programs::damage::{common, fatal, lengthened, Damage, Damages, Input as _, MEGABYTE, WIDTH};
use programs::run::Run;
use second::random::Random;

/// Each kind of damage, with what only these inputs have.
pub fn run(run: &mut Run) {
    let mut list = common();
    list.extend(own());
    Damages { base, list }.run(run);
}

fn own() -> Vec<Damage<Input>> {
    vec![
        // Counts.
        fatal("M 0", Numbers(no_delivery)),
        fatal("M 1,025", Numbers(delivery_too_many)),
        fatal("Q 1,001", Numbers(call_too_many)),
        fatal("M says one more", Bytes(|_, text| miscounted(text, 1, 1))),
        fatal("M says one less", Bytes(|_, text| miscounted(text, 1, -1))),
        fatal("Q says one more", Bytes(|_, text| miscounted(text, 2, 1))),
        fatal("Q says one less", Bytes(|_, text| miscounted(text, 2, -1))),
        fatal("M far out of range", Bytes(|r, text| far_out(r, text, 1))),
        fatal("Q far out of range", Bytes(|r, text| far_out(r, text, 2))),
        // Calls.
        fatal("kind 0", Numbers(|r, input| kind(r, input, &[0]))),
        fatal("kind 6", Numbers(|r, input| kind(r, input, &[6]))),
        fatal("kind far out of range", Numbers(kind_far_out)),
        fatal(
            "find, third number used",
            Numbers(|r, input| use_unused(r, input, FIND, 2)),
        ),
        fatal(
            "find, fourth number used",
            Numbers(|r, input| use_unused(r, input, FIND, 3)),
        ),
        fatal(
            "find, fifth number used",
            Numbers(|r, input| use_unused(r, input, FIND, 4)),
        ),
        fatal(
            "range, fourth number used",
            Numbers(|r, input| use_unused(r, input, RANGE, 3)),
        ),
        fatal(
            "range, fifth number used",
            Numbers(|r, input| use_unused(r, input, RANGE, 4)),
        ),
        fatal(
            "insert, fifth number used",
            Numbers(|r, input| use_unused(r, input, INSERT, 4)),
        ),
        fatal(
            "delete, fifth number used",
            Numbers(|r, input| use_unused(r, input, DELETE, 4)),
        ),
        // Lengths.
        fatal("1 byte longer than the longest", Whole(|r| too_long(r, 1))),
        fatal(
            "1 MB longer than the longest",
            Whole(|r| too_long(r, MEGABYTE)),
        ),
    ]
}

fn no_delivery(_: &mut Random, input: &mut Input) -> bool {
    input.deliveries.clear();
    true
}

fn delivery_too_many(r: &mut Random, input: &mut Input) -> bool {
    let last = *input.deliveries.last().expect("there is a delivery");
    input.deliveries.resize(DELIVERIES + 1, last);
    input.block = r.pick(&[17, 4_096]);
    true
}

fn call_too_many(_: &mut Random, input: &mut Input) -> bool {
    let call = input.calls.last().copied().unwrap_or([FIND, 30, 0, 0, 0]);
    input.calls.resize(CALLS + 1, call);
    true
}

/// The columns of B, M or Q: the third line stands after 34 and 23 bytes.
fn count(text: &mut [u8], place: usize) -> Option<&mut [u8]> {
    let at = 34 + 23 + place * WIDTH;
    text.get_mut(at..at + WIDTH)
}

fn miscounted(text: &mut [u8], place: usize, by: i64) -> bool {
    let Some(field) = count(text, place) else {
        return false;
    };
    let number = std::str::from_utf8(field).map(|s| s.trim().parse::<i64>());
    match number {
        Ok(Ok(number)) if number + by >= 0 => {
            let number = format!("{:>WIDTH$}", number + by);
            field.copy_from_slice(&number.as_bytes()[..WIDTH]);
            true
        }
        _ => false,
    }
}

fn far_out(r: &mut Random, text: &mut [u8], place: usize) -> bool {
    let Some(field) = count(text, place) else {
        return false;
    };
    // Counts whose bytes wrap 32 bits: 2^32 / 34 and 2^32 / 56, rounded up.
    let number = r.pick(&[65_537, 126_322_568, 76_695_845, 1 << 31, u32::MAX]);
    field.copy_from_slice(format!("{number:>WIDTH$}").as_bytes());
    true
}

fn kind(r: &mut Random, input: &mut Input, kinds: &[u32]) -> bool {
    if input.calls.is_empty() {
        return false;
    }
    let at = r.edge(0, input.calls.len() - 1);
    input.calls[at][0] = r.pick(kinds);
    true
}

fn kind_far_out(r: &mut Random, input: &mut Input) -> bool {
    // Some are a good kind in their last bits.
    kind(r, input, &[7, 10, 257, 65_537, (1 << 31) + 1, u32::MAX])
}

fn use_unused(r: &mut Random, input: &mut Input, kind: u32, place: usize) -> bool {
    if input.calls.is_empty() {
        return false;
    }
    let mut call = input::call(r, &input.deliveries, kind);
    call[place] = r.pick(&[1, 1, 10, 256, 65_536, u32::MAX]);
    let at = r.edge(0, input.calls.len() - 1);
    input.calls[at] = call;
    true
}

fn too_long(r: &mut Random, by: usize) -> Vec<u8> {
    let text = input::largest(r).text();
    lengthened(r, text, by)
}

/// An input of good form. Recorder or planner refuse some: 14 goes ahead of
/// both.
fn base(r: &mut Random) -> Input {
    let mut input = input::any(r);
    if r.one_in(3) {
        refusals::put_some(r, &mut input);
    }
    input
}
