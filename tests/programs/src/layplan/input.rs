//! Inputs as numbers, and their text.

use programs::damage::{self, put_line};
use second::random::Random;

/// Most deliveries and most calls of an input.
pub const DELIVERIES: usize = 1_024;
pub const CALLS: usize = 1_000;
/// Bytes of the longest good input: three lines, all deliveries, all calls.
pub const LONGEST: usize = 91 + 34 * DELIVERIES + 56 * CALLS;
/// Most blocks.
pub const BLOCKS: usize = 64;

pub const FIND: u32 = 1;
pub const RANGE: u32 = 2;
pub const INSERT: u32 = 3;
pub const DELETE: u32 = 4;
pub const MOVE: u32 = 5;

#[derive(Clone, Debug)]
pub struct Input {
    /// RR, SR, RW.
    pub prices: [u32; 3],
    /// R, U.
    pub limits: [u32; 2],
    pub block: u32,
    /// Grower, weight, yield.
    pub deliveries: Vec<[u32; 3]>,
    /// Kind, grower or lo, weight or hi, yield, new grower.
    pub calls: Vec<[u32; 5]>,
}

impl damage::Input for Input {
    fn text(&self) -> Vec<u8> {
        let mut text = String::new();
        let counts = [self.deliveries.len() as u32, self.calls.len() as u32];
        put_line(&mut text, &self.prices);
        put_line(&mut text, &self.limits);
        put_line(&mut text, &[self.block, counts[0], counts[1]]);
        for delivery in &self.deliveries {
            put_line(&mut text, delivery);
        }
        for call in &self.calls {
            put_line(&mut text, call);
        }
        text.into_bytes()
    }
}

impl Input {
    /// Number of blocks; the block length is not 0.
    pub fn blocks(&self) -> usize {
        self.deliveries.len().div_ceil(self.block as usize)
    }
}

fn weight(r: &mut Random) -> u32 {
    r.edge(0, 100_000) as u32
}

fn oil_yield(r: &mut Random) -> u32 {
    r.edge(0, 10_000) as u32
}

fn price(r: &mut Random) -> u32 {
    r.edge(1, 1_000) as u32
}

/// Deliveries with growers that never fall; few growers or many.
fn deliveries(r: &mut Random, count: usize) -> Vec<[u32; 3]> {
    let spans = [1, 2, count as u64 / 3 + 1, 4 * count as u64, 1 << 32];
    let span = r.pick(&spans);
    let first = r.pick(&[0, 1_000, (1 << 32) - span]).min((1 << 32) - span);
    let mut growers: Vec<u32> = (0..count)
        .map(|_| (first + r.next() % span) as u32)
        .collect();
    growers.sort_unstable();
    if r.one_in(4) {
        growers[0] = 0;
    }
    if r.one_in(4) {
        growers[count - 1] = u32::MAX;
    }
    // Few weights and yields, so that a grower has equal deliveries.
    let plain = r.one_in(2);
    let value = |r: &mut Random, g: u32| match plain {
        true => [g, 100, 2_000],
        false => [g, weight(r), oil_yield(r)],
    };
    growers.into_iter().map(|g| value(r, g)).collect()
}

/// A grower of the set, next to one, or any.
fn grower(r: &mut Random, held: &[[u32; 3]]) -> u32 {
    let [g, ..] = r.pick(held);
    match r.below(8) {
        0 => g.wrapping_add(1),
        1 => g.wrapping_sub(1),
        2 => r.next() as u32,
        3 => r.pick(&[0, u32::MAX]),
        _ => g,
    }
}

/// A call that the recorder accepts.
pub fn call(r: &mut Random, held: &[[u32; 3]], kind: u32) -> [u32; 5] {
    let [g, weight, oil_yield] = match r.below(3) {
        0 => [grower(r, held), weight(r), oil_yield(r)],
        _ => r.pick(held),
    };
    match kind {
        FIND => [FIND, grower(r, held), 0, 0, 0],
        RANGE => {
            let (a, b) = (grower(r, held), grower(r, held));
            [RANGE, a.min(b), a.max(b), 0, 0]
        }
        MOVE => [MOVE, g, weight, oil_yield, grower(r, held)],
        _ => [kind, g, weight, oil_yield, 0],
    }
}

/// An input of so many deliveries and calls that is accepted: its limits
/// permit every layout.
pub fn accepted(r: &mut Random, deliveries_count: usize, calls_count: usize) -> Input {
    let least = deliveries_count.div_ceil(BLOCKS);
    let (near, longer) = (least + r.below(3), least + r.below(deliveries_count));
    let block = r.pick(&[least, least, near, longer, 4_096]);
    let prices = [price(r), price(r), price(r)];
    let prices = r.pick(&[[3, 1, 2], [3, 1, 2], [1, 30, 1], [1_000; 3], prices]);
    let deliveries = deliveries(r, deliveries_count);
    // A week of one kind, or of all.
    let only = r.within(1, 15) as u32;
    let calls = (0..calls_count)
        .map(|_| {
            let kind = if only <= MOVE {
                only
            } else {
                r.within(1, 5) as u32
            };
            call(r, &deliveries, kind)
        })
        .collect();
    Input {
        prices,
        limits: [1_000_000; 2],
        block: block as u32,
        deliveries,
        calls,
    }
}

/// Mostly small; the largest counts now and then.
pub fn any(r: &mut Random) -> Input {
    let deliveries = match r.below(40) {
        0 => r.within(DELIVERIES - 1, DELIVERIES),
        1..=3 => r.within(1, DELIVERIES),
        4..=13 => r.within(20, 140),
        _ => r.within(1, 12),
    };
    let calls = match r.below(40) {
        0 => r.within(CALLS - 1, CALLS),
        1..=3 => r.within(0, 200),
        4..=9 => 0,
        _ => r.within(1, 12),
    };
    accepted(r, deliveries, calls)
}

/// Limits about which layouts are permitted and which not; now and then none.
pub fn tighten(r: &mut Random, input: &mut Input) {
    let [rr, sr, rw] = input.prices;
    let blocks = input.blocks();
    let parts = |r: &mut Random| r.within(1, blocks + 1) as u32;
    if r.one_in(2) {
        input.limits[0] = rr + sr * (parts(r) - 1) + r.below(sr as usize) as u32;
    }
    if r.one_in(2) {
        input.limits[1] = (rr + rw) * (parts(r) + 1) + r.below((rr + rw) as usize) as u32;
    }
}

/// The largest input: all growers different, 64 blocks, calls of all kinds,
/// no refusal.
pub fn largest(r: &mut Random) -> Input {
    let deliveries: Vec<[u32; 3]> = (0..DELIVERIES as u32)
        .map(|i| [10 * i + r.below(10) as u32, weight(r), oil_yield(r)])
        .collect();
    let calls = (0..CALLS)
        .map(|_| {
            let kind = r.within(1, 5) as u32;
            call(r, &deliveries, kind)
        })
        .collect();
    Input {
        prices: [3, 1, 2],
        limits: [1_000_000; 2],
        block: (DELIVERIES / BLOCKS) as u32,
        deliveries,
        calls,
    }
}
