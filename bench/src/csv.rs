//! 262,144 deliveries imported and exported as a weighbridge file.

use crate::columns::{LIBRARY, OURS, SECOND};
use crate::timing::{timed, Times, REPETITIONS};
use meltusk::spread_growers;
use second::random::{case_seed, Random};
use second::{csv_export, csv_import, csv_size, SLOT_LIMIT, WEIGHT_LIMIT, YIELD_LIMIT};

/// Rounds of a repetition: a call takes milliseconds.
const ROUNDS: usize = 5;

/// Columns of an export, and of a file as a weighbridge writes it.
const NARROW: usize = 3;
const WIDE: usize = 8;

/// Growers, weights, yields and days, which are 0 as an import gives them.
type Slots = [Vec<u32>; 4];

/// What one side writes to and reads into; exchanged after each repetition.
struct Side {
    text: Vec<u8>,
    slots: Slots,
}

impl Side {
    fn new(bytes: usize) -> Side {
        Side {
            text: vec![0; bytes],
            slots: [0; 4].map(|n| vec![n; SLOT_LIMIT]),
        }
    }

    /// Refusal and bytes.
    fn export(&mut self, side: usize, [g, w, y, n]: &Slots) -> (u32, usize) {
        if side == OURS {
            let a = LIBRARY.export_csv(SLOT_LIMIT as u32, g, w, y, n, &mut self.text);
            (a.refusal, a.bytes as usize)
        } else {
            let a = csv_export(SLOT_LIMIT, g, w, y, n, &mut self.text);
            (a.refusal, a.written)
        }
    }

    /// Refusal and rows.
    fn import(&mut self, side: usize) -> (u32, usize) {
        let [g, w, y, n] = &mut self.slots;
        if side == OURS {
            let a = LIBRARY.import_csv(&self.text, g, w, y, n);
            (a.refusal, a.rows as usize)
        } else {
            let a = csv_import(&self.text, g, w, y, n);
            (a.refusal, a.rows)
        }
    }
}

/// The file of these deliveries with other columns, some of them quoted.
fn wide_text([growers, weights, yields, _]: &Slots) -> Vec<u8> {
    let mut text = String::from("ticket,time,mill,yield,\"grower\",name,weight,remarks\r\n");
    for i in 0..SLOT_LIMIT {
        let (grower, weight, oil_yield) = (growers[i], weights[i], yields[i]);
        let (hour, minute) = (i / 60 % 24, i % 60);
        let remark = ["", "second trailer", "\"called \"\"La Loma\"\"\""][i % 3];
        text.push_str(&format!(
            "{i:06},{hour:02}:{minute:02},\"San Isidro, hall 2\",{oil_yield},{grower:010},\"Ruiz, Ana\",{weight},{remark}\r\n"
        ));
    }
    text.into_bytes()
}

/// Times importing a text on both sides.
fn time_imports(sides: &mut [Side; 2], slots: &Slots, columns: usize) {
    let bytes = sides[OURS].text.len();
    let mut imported = Times::default();
    for _ in 0..REPETITIONS {
        for round in 0..ROUNDS {
            for side in [round % 2, 1 - round % 2] {
                let (ns, answer) = timed(1, || sides[side].import(side));
                assert_eq!(answer, (0, SLOT_LIMIT), "the import is refused");
                assert!(sides[side].slots == *slots, "others are imported");
                imported.add(side, ns);
            }
        }
        imported.close();
        sides.swap(OURS, SECOND);
    }
    imported.print_rate("import", columns, bytes);
}

fn time_exports(sides: &mut [Side; 2], slots: &Slots) {
    let bytes = sides[OURS].text.len();
    let mut exported = Times::default();
    for _ in 0..REPETITIONS {
        for round in 0..ROUNDS {
            for side in [round % 2, 1 - round % 2] {
                let (ns, answer) = timed(1, || sides[side].export(side, slots));
                assert_eq!(answer, (0, bytes), "the export is refused");
                exported.add(side, ns);
            }
            assert!(sides[OURS].text == sides[SECOND].text, "the texts differ");
        }
        exported.close();
        sides.swap(OURS, SECOND);
    }
    exported.print_rate("export", NARROW, bytes);
}

pub fn run() {
    let mut r = Random::new(case_seed(102, 0));
    let slots = [
        spread_growers(&mut r, SLOT_LIMIT),
        (0..SLOT_LIMIT)
            .map(|_| r.within(0, WEIGHT_LIMIT as usize) as u32)
            .collect(),
        (0..SLOT_LIMIT)
            .map(|_| r.within(0, YIELD_LIMIT as usize) as u32)
            .collect(),
        vec![0; SLOT_LIMIT],
    ];
    let bytes = csv_size(&slots[0], &slots[1], &slots[2]);
    let mut sides = [Side::new(bytes), Side::new(bytes)];
    time_exports(&mut sides, &slots);
    time_imports(&mut sides, &slots, NARROW);
    let wide = wide_text(&slots);
    for side in &mut sides {
        side.text.clone_from(&wide);
    }
    time_imports(&mut sides, &slots, WIDE);
}
