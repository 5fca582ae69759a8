//! Weighbridge files imported, whole and damaged.

use super::calls::{first, import};
use super::damage::{damages, Damage};
use super::file::{number_text, quoted, File, LIMITS, LONG, NAMES, ZEROS};
use super::seen;
use crate::inputs::{self, EDGE_COUNTS};
use crate::text::{old_slots, Lent, Text, LENT, REFUSED};
use crate::Run;
use meltusk::{Library, LIBRARIES};
use second::random::Random;
use second::{Delivery, SLOT_LIMIT};

const EXAMPLE: &[u8] = include_bytes!("../../../../examples/weighbridge.csv");

/// The deliveries of the example, row by row.
const EXAMPLE_DELIVERIES: [[u32; 3]; 12] = [
    [101, 420, 2_110],
    [101, 380, 2_050],
    [104, 510, 1_980],
    [107, 295, 2_240],
    [112, 640, 1_895],
    [112, 610, 1_910],
    [4_294_967_295, 330, 2_075],
    [121, 100_000, 2_160],
    [126, 720, 10_000],
    [131, 0, 2_305],
    [131, 275, 0],
    [0, 500, 2_000],
];

fn deliveries(numbers: &[[u32; 3]]) -> Vec<Delivery> {
    numbers
        .iter()
        .map(|&[g, w, y]| Delivery::new(g, w, y))
        .collect()
}

/// Imports a text into so many slots; an error if these are not its
/// deliveries, or this not its refusal.
fn import_is(
    run: &mut Run,
    r: &mut Random,
    library: &Library,
    text: &Text,
    lengths: [usize; 4],
    expected: Result<&[Delivery], u32>,
) -> Result<(), String> {
    let old = old_slots(r, lengths);
    let (answer, slots) = import(r, &mut run.seen, library, text, &old)?;
    let refusal = expected.err().unwrap_or(0);
    let rows = expected.unwrap_or(&[]);
    let is_good = answer.refusal == refusal && answer.rows == rows.len() as u64;
    match is_good && first(&slots, rows.len()) == rows {
        true => Ok(()),
        false => Err(format!(
            "slots {lengths:?}: {answer:?} for refusal {refusal} and {} rows, or other deliveries: \"{}\"",
            rows.len(),
            text.lent().escape_ascii()
        )),
    }
}

pub fn example(run: &mut Run) -> Result<(), String> {
    let rows = deliveries(&EXAMPLE_DELIVERIES);
    run.cases(80, 1, |run, r| {
        let text = Text::whole(EXAMPLE);
        for library in LIBRARIES {
            import_is(run, r, &library, &text, [rows.len(); 4], Ok(&rows))?;
            import_is(run, r, &library, &text, [SLOT_LIMIT; 4], Ok(&rows))?;
            import_is(run, r, &library, &text, [rows.len() - 1; 4], Err(12))?;
        }
        Ok(())
    })
}

/// What a file gives.
#[derive(Clone, Copy, Debug, PartialEq, Eq)]
enum Effect {
    /// Its deliveries.
    Whole,
    Refused(u32),
    Any,
}

/// Imports a file; an error if it does not give what it should. None if there
/// are no such slots.
fn judged(
    run: &mut Run,
    r: &mut Random,
    library: &Library,
    file: &File,
    effect: Effect,
    lent: Lent,
) -> Result<Option<u32>, String> {
    let rows = file.deliveries.len();
    let Some(lengths) = lent.lengths(r, rows) else {
        return Ok(None);
    };
    if effect != Effect::Whole {
        run.files.note();
    }
    let text = file.text();
    let expected = match effect {
        _ if matches!(lent, Lent::Unequal | Lent::None) => Err(3),
        Effect::Refused(number) => Err(number),
        Effect::Whole if lent == Lent::Fewer => Err(12),
        Effect::Whole => Ok(&file.deliveries[..]),
        Effect::Any => {
            let old = old_slots(r, lengths);
            let (answer, _) = import(r, &mut run.seen, library, &text, &old)?;
            return Ok(Some(answer.refusal));
        }
    };
    import_is(run, r, library, &text, lengths, expected)?;
    Ok(Some(expected.err().unwrap_or(0)))
}

pub fn whole(run: &mut Run) -> Result<(), String> {
    run.cases(81, 20_000, |run, r| {
        let library = inputs::library(r);
        let file = File::draw(r);
        for lent in LENT {
            let refusal = judged(run, r, &library, &file, Effect::Whole, lent)?;
            if refusal == Some(0) {
                seen::note_file(&mut run.seen, &file);
            }
        }
        Ok(())
    })
}

/// Files drawn until the damages can be put, and at most.
const TRIES: usize = 30;

/// A file with these damages; none if they cannot be put.
fn damaged(r: &mut Random, damages: &[Damage]) -> Option<File> {
    (0..TRIES).find_map(|_| {
        let mut file = File::draw(r);
        let mut all = damages.iter();
        all.all(|&damage| file.put(r, damage).is_some())
            .then_some(file)
    })
}

pub fn alone(run: &mut Run) -> Result<(), String> {
    let damages = damages();
    run.cases(82, 250, |run, r| {
        let library = inputs::library(r);
        for (kind, &damage) in damages.iter().enumerate() {
            let no_slots = r.pick(&[Lent::Unequal, Lent::None]);
            for lent in [Lent::Exact, Lent::More, Lent::Fewer, no_slots] {
                let Some(file) = damaged(r, &[damage]) else {
                    continue;
                };
                let effect = damage.refusal().map_or(Effect::Any, Effect::Refused);
                let with = |why| format!("{damage:?}: {why}");
                let answer = judged(run, r, &library, &file, effect, lent).map_err(with)?;
                if answer.is_some() && lent == Lent::More {
                    run.files.note_alone(kind);
                }
            }
        }
        Ok(())
    })
}

pub fn pairs(run: &mut Run) -> Result<(), String> {
    let damages = damages();
    run.cases(83, 5, |run, r| {
        let library = inputs::library(r);
        for (i, &first) in damages.iter().enumerate() {
            for &second in &damages[i + 1..] {
                let Some(file) = damaged(r, &[first, second]) else {
                    continue;
                };
                let refusal = first.refusal_with(second);
                let effect = refusal.map_or(Effect::Any, Effect::Refused);
                let lent = r.pick(&LENT);
                let with = |why| format!("{first:?} and {second:?}: {why}");
                judged(run, r, &library, &file, effect, lent).map_err(with)?;
            }
        }
        Ok(())
    })
}

/// Imports a damaged text into so many slots, to any effect.
fn import_damaged(
    run: &mut Run,
    r: &mut Random,
    library: &Library,
    text: &Text,
    slots: usize,
) -> Result<(), String> {
    run.files.note();
    let old = old_slots(r, [slots; 4]);
    import(r, &mut run.seen, library, text, &old).map(|_| ())
}

/// Texts with each kind of field, name and line end.
const SMALL: [&[u8]; 4] = [
    b"grower,weight,yield\r\n12,3,4\r\n5,6,7\r\n",
    b"x,\"yield\",weight,grower\n\"a\"\"b\",1,\"2\",3\n",
    b"weight,grower,y,yield\n1,02,,3\r\n\"4\",5,\"\",6",
    b"grower,weight,yield,\"\n\"\r\n7,8,9,\",\r\n\"\"\"\r\n",
];

const ADDED: [&[u8]; 11] = [
    b"\"", b"\"\"", b",", b"\n", b"\r", b"\r\n", b"\n\r", b"0", b" ", b"\0", b"\xff",
];

/// Most bytes of a drawn small text.
const FEW: usize = 100;

/// A file with a row, of few bytes.
fn small(r: &mut Random) -> Vec<u8> {
    loop {
        let file = File::draw(r);
        let text = file.bytes();
        if !file.deliveries.is_empty() && text.len() <= FEW {
            return text;
        }
    }
}

/// A text damaged at one place: bytes added or put there for a byte, a byte
/// left out and doubled, the text cut; and a quote added there and at each
/// later place.
fn damaged_at(text: &[u8], at: usize) -> Vec<Text> {
    let (head, tail) = text.split_at(at);
    let (byte, rest) = tail.split_at(tail.len().min(1));
    let mut all = vec![
        Text::new(head.to_vec(), tail),
        Text::whole(&[head, rest].concat()),
        Text::whole(&[head, byte, tail].concat()),
    ];
    for bytes in ADDED {
        all.push(Text::whole(&[head, bytes, tail].concat()));
        all.push(Text::whole(&[head, bytes, rest].concat()));
    }
    for count in 0..=tail.len() {
        let (middle, end) = tail.split_at(count);
        all.push(Text::whole(&[head, b"\"", middle, b"\"", end].concat()));
    }
    all
}

/// Small texts damaged at every place.
pub fn every_place(run: &mut Run) -> Result<(), String> {
    run.cases(84, 3, |run, r| {
        let library = inputs::library(r);
        let drawn = small(r);
        for text in SMALL.into_iter().chain([&drawn[..]]) {
            for at in 0..=text.len() {
                for damaged in damaged_at(text, at) {
                    let slots = r.within(1, 3);
                    import_damaged(run, r, &library, &damaged, slots)?;
                }
            }
        }
        Ok(())
    })
}

/// Each byte of a small text replaced by each other.
pub fn every_byte(run: &mut Run) -> Result<(), String> {
    run.cases(85, 1, |run, r| {
        let library = inputs::library(r);
        let text = SMALL[1];
        for at in 0..text.len() {
            for byte in (0..=255).filter(|&byte| byte != text[at]) {
                let mut changed = text.to_vec();
                changed[at] = byte;
                import_damaged(run, r, &library, &Text::whole(&changed), 1)?;
            }
        }
        Ok(())
    })
}

/// Some bytes replaced, digits mostly by digits.
pub fn some_bytes(run: &mut Run) -> Result<(), String> {
    run.cases(86, 20_000, |run, r| {
        let library = inputs::library(r);
        let file = File::draw(r);
        let mut text = file.bytes();
        for _ in 0..r.within(1, 4) {
            let at = r.below(text.len());
            text[at] = match text[at] {
                b'0'..=b'9' if !r.one_in(4) => b'0' + r.below(10) as u8,
                _ => r.pick(b",,\"\"\"\n\r0 -\0\xa0"),
            };
        }
        let slots = file.deliveries.len() + 1 - r.below(2).min(file.deliveries.len());
        import_damaged(run, r, &library, &Text::whole(&text), slots)
    })
}

/// Numbers on both sides of a limit and of what a register holds.
fn edge_numbers(limit: u128) -> Vec<u128> {
    let mut all = vec![
        0,
        1,
        9,
        10,
        limit - 1,
        limit,
        limit + 1,
        2 * limit,
        10 * limit,
    ];
    for bits in [16, 17, 31, 32, 33, 63, 64, 65, 96] {
        all.extend([
            (1 << bits) - 1,
            1 << bits,
            (1 << bits) + 1,
            (1 << bits) + limit,
        ]);
    }
    all.extend([
        10u128.pow(9),
        10u128.pow(10),
        10u128.pow(19),
        10u128.pow(20),
        u128::MAX,
    ]);
    all
}

/// Each needed column at its limits, with 0 to 40 leading zeros, quoted and
/// not, in the last row and in one before it.
pub fn numbers(run: &mut Run) -> Result<(), String> {
    run.cases(87, 1, |run, r| {
        let library = inputs::library(r);
        for (needed, &limit) in LIMITS.iter().enumerate() {
            for number in edge_numbers(limit.into()) {
                let is_past = number > limit.into();
                for zeros in 0..=ZEROS {
                    let mut fields = [b"5".to_vec(), b"6".to_vec(), b"7".to_vec()];
                    fields[needed] = number_text(number, zeros);
                    if r.one_in(2) {
                        fields[needed] = quoted(&fields[needed]);
                    }
                    let row = fields.join(&b',');
                    let lines = [&NAMES.join(&b','), &row[..], b"1,2,3"];
                    let mut row = [5, 6, 7];
                    row[needed] = number as u32;
                    let mut rows = deliveries(&[row, [1, 2, 3]]);
                    let count = r.within(2, 3);
                    rows.truncate(count - 1);
                    let text = Text::whole(&lines[..count].join(&b"\r\n"[..]));
                    let expected = if is_past { Err(18) } else { Ok(&rows[..]) };
                    if is_past {
                        run.files.note();
                    }
                    import_is(run, r, &library, &text, [2; 4], expected)?;
                }
            }
        }
        Ok(())
    })
}

/// A text of a row and a column x, and its refusal.
fn long_texts() -> Vec<(Vec<u8>, u32)> {
    let of = |x: &[u8], name: &[u8], grower: &[u8]| -> Vec<u8> {
        let header = [name, b",weight,grower,yield\r\n"].concat();
        [&header, x, b",2,", grower, b",3\r\n"].concat()
    };
    let plain = vec![b'a'; LONG];
    let marks: Vec<u8> = b",\n\"\r\n\"a\xff"
        .iter()
        .copied()
        .cycle()
        .take(LONG)
        .collect();
    let quotes = vec![b'"'; LONG];
    let zeros = vec![b'0'; LONG];
    let one = [&zeros[..], b"1"].concat();
    let past = [&zeros[..], b"4294967296"].concat();
    let nines = vec![b'9'; LONG];
    let marked = quoted(&marks);
    let open = &marked[..marked.len() - 1];
    let many = |first: &[u8], fields: usize| [first, &vec![b','; fields][..]].concat();
    let rows = |fields: usize| {
        let header = many(b"grower,weight,yield", LONG);
        [&header[..], b"\n", &many(b"1,2,3", fields), b"\n"].concat()
    };
    vec![
        (of(&plain, b"x", b"1"), 0),
        (of(&marked, b"x", b"1"), 0),
        (of(&quoted(&quotes), b"x", b"1"), 0),
        (of(b"", &plain, b"1"), 0),
        (of(b"\"\"", &marked, &quoted(&one)), 0),
        (of(b"", b"x", &one), 0),
        (of(b"", b"x", &past), 18),
        (of(b"", b"x", &nines), 18),
        (of(b"", b"x", &quoted(&nines)), 18),
        (of(open, b"x", b"1"), 18),
        (of(&[&plain[..], b"\""].concat(), b"x", b"1"), 18),
        (of(b"", open, b"1"), 16),
        (of(&plain, &[b"grower", &plain[..]].concat(), b"1"), 0),
        (of(&plain, b"grower", b"1"), 17),
        (rows(LONG), 0),
        (rows(LONG - 1), 18),
        (rows(LONG + 1), 18),
    ]
}

pub fn long(run: &mut Run) -> Result<(), String> {
    let row = deliveries(&[[1, 2, 3]]);
    run.cases(88, 1, |run, r| {
        let library = inputs::library(r);
        for (i, (text, refusal)) in long_texts().iter().enumerate() {
            let expected = match refusal {
                0 => Ok(&row[..]),
                &number => Err(number),
            };
            let text = Text::whole(text);
            let outcome = import_is(run, r, &library, &text, [2; 4], expected);
            outcome.map_err(|why| format!("text {i}: {}", &why[..why.len().min(300)]))?;
        }
        Ok(())
    })
}

/// Slices of no slot, of unequal lengths and past the limit, whatever the
/// text; and the longest that are accepted.
pub fn slice_lengths(run: &mut Run) -> Result<(), String> {
    let rows = deliveries(&[[12, 3, 4], [5, 6, 7]]);
    run.cases(89, 1, |run, r| {
        let whole = Text::whole(SMALL[0]);
        for library in LIBRARIES {
            for text in [SMALL[0], &SMALL[0][1..], &SMALL[0][..25], &[]] {
                let text = Text::whole(text);
                for lengths in REFUSED {
                    import_is(run, r, &library, &text, lengths, Err(3))?;
                }
            }
            import_is(run, r, &library, &whole, [SLOT_LIMIT; 4], Ok(&rows))?;
        }
        Ok(())
    })
}

/// Growers, weights, yields, days and text, each alone at the edge counts.
pub fn edge_counts(run: &mut Run) -> Result<(), String> {
    run.cases(90, 1, |run, r| {
        for library in LIBRARIES {
            for lent in 0..5 {
                for n in EDGE_COUNTS {
                    let mut text = SMALL[0].to_vec();
                    let mut lengths = [9; 4];
                    match lent {
                        4 => text.resize(n, b'\n'),
                        i => lengths[i] = n,
                    }
                    let expected = match lent {
                        4 if n <= 1 => 16,
                        4 => 18,
                        _ => 3,
                    };
                    let text = Text::whole(&text);
                    import_is(run, r, &library, &text, lengths, Err(expected))?;
                }
            }
        }
        Ok(())
    })
}
