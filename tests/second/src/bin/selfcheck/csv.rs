//! Weighbridge files: examples at the edges, and random texts against a plain
//! model.

use crate::groups::Outcome;
use crate::random;
use crate::require;
use crate::subject::{Column, Subject};
use second::random::Random;
use second::*;

const NAMES: [&str; 3] = ["grower", "weight", "yield"];
const LIMITS: [u64; 3] = [4_294_967_295, 100_000, 10_000];

/// A text in pieces.
#[derive(Clone, Copy)]
enum Piece<'a> {
    Comma,
    Quote,
    LineEnd(&'a [u8]),
    Byte(u8),
}

fn pieces(text: &[u8]) -> Vec<Piece<'_>> {
    let mut all = Vec::new();
    let mut at = 0;
    while at < text.len() {
        let (piece, length) = match text[at] {
            b',' => (Piece::Comma, 1),
            b'"' => (Piece::Quote, 1),
            b'\n' => (Piece::LineEnd(&text[at..=at]), 1),
            b'\r' if text.get(at + 1) == Some(&b'\n') => (Piece::LineEnd(&text[at..at + 2]), 2),
            byte => (Piece::Byte(byte), 1),
        };
        all.push(piece);
        at += length;
    }
    all
}

#[derive(Clone, Copy, PartialEq, Eq)]
enum State {
    Start,
    Plain,
    Quoted,
    /// After a quote inside a quoted field: its end, or the first of two.
    Closed,
}

/// Fields, without the quotes around them.
pub type Record = Vec<Vec<u8>>;

/// The records of a text up to the first with a broken quote, and whether
/// there is such a one.
pub fn records(text: &[u8]) -> (Vec<Record>, bool) {
    let mut all = Vec::new();
    let mut record = Vec::new();
    let mut field = Vec::new();
    let mut state = State::Start;
    for piece in pieces(text) {
        state = match (state, piece) {
            (State::Quoted, Piece::Quote) => State::Closed,
            (State::Quoted, piece) => {
                match piece {
                    Piece::Comma => field.push(b','),
                    Piece::LineEnd(bytes) => field.extend(bytes),
                    Piece::Byte(byte) => field.push(byte),
                    Piece::Quote => {}
                }
                State::Quoted
            }
            (_, Piece::Comma) => {
                record.push(std::mem::take(&mut field));
                State::Start
            }
            (_, Piece::LineEnd(_)) => {
                record.push(std::mem::take(&mut field));
                all.push(std::mem::take(&mut record));
                State::Start
            }
            (State::Start, Piece::Quote) => State::Quoted,
            (State::Closed, Piece::Quote) => {
                field.push(b'"');
                State::Quoted
            }
            (State::Start | State::Plain, Piece::Byte(byte)) => {
                field.push(byte);
                State::Plain
            }
            (State::Plain, Piece::Quote) | (State::Closed, Piece::Byte(_)) => return (all, true),
        };
    }
    if state == State::Quoted {
        return (all, true);
    }
    if state != State::Start || !record.is_empty() {
        record.push(field);
        all.push(record);
    }
    (all, false)
}

/// A number of plain digits, at most `limit`.
fn number(field: &[u8], limit: u64) -> Option<u32> {
    let text = std::str::from_utf8(field).ok()?;
    if text.is_empty() || !text.chars().all(|c| c.is_ascii_digit()) {
        return None;
    }
    let significant = text.trim_start_matches('0');
    let value = match significant.len() {
        0 => 0,
        1..=10 => significant.parse().ok()?,
        _ => return None,
    };
    (value <= limit).then_some(value as u32)
}

/// Where each needed column stands, or 16 or 17.
fn places(header: &Record) -> Result<[usize; 3], u32> {
    let of = |name: &str| -> Vec<usize> {
        let all = header.iter().enumerate();
        let named = all.filter(|(_, field)| field[..] == *name.as_bytes());
        named.map(|(i, _)| i).collect()
    };
    let found = NAMES.map(of);
    if found.iter().any(|places| places.is_empty()) {
        return Err(16);
    }
    if found.iter().any(|places| places.len() > 1) {
        return Err(17);
    }
    Ok(found.map(|places| places[0]))
}

/// The deliveries of a text imported into so many slots, or the refusal.
fn expected_import(text: &[u8], slots: usize) -> Result<Vec<Delivery>, u32> {
    let (records, is_broken) = records(text);
    let Some((header, rows)) = records.split_first() else {
        return Err(16);
    };
    let places = places(header)?;
    let mut deliveries = Vec::new();
    for row in rows {
        let mut numbers = [0; 3];
        for i in 0..3 {
            let field = row.get(places[i]).filter(|_| row.len() == header.len());
            numbers[i] = field.and_then(|f| number(f, LIMITS[i])).ok_or(18u32)?;
        }
        deliveries.push(Delivery::new(numbers[0], numbers[1], numbers[2]));
    }
    if is_broken {
        return Err(18);
    }
    if deliveries.len() > slots {
        return Err(12);
    }
    Ok(deliveries)
}

/// What slots hold before an import.
const OLD: Delivery = Delivery::new(7, 8, 9).on(6);

fn slots_of(deliveries: &[Delivery]) -> Column {
    Column {
        growers: deliveries.iter().map(|d| d.grower).collect(),
        weights: deliveries.iter().map(|d| d.weight).collect(),
        yields: deliveries.iter().map(|d| d.oil_yield).collect(),
        days: deliveries.iter().map(|d| d.day).collect(),
        directory: Vec::new(),
    }
}

/// Imports a text and asks for the answer and every slot after it.
fn import_is(
    s: &dyn Subject,
    text: &[u8],
    slots: usize,
    expected: &Result<Vec<Delivery>, u32>,
) -> Outcome {
    let mut c = slots_of(&vec![OLD; slots]);
    let a = s.csv_import(text, &mut c);
    let shown = text.escape_ascii();
    let stored: &[Delivery] = expected.as_deref().unwrap_or(&[]);
    let answer = ImportAnswer {
        refusal: expected.as_ref().err().copied().unwrap_or(0),
        rows: stored.len(),
    };
    require!(a == answer, "{a:?} for {answer:?}: \"{shown}\"");
    let mut after = vec![OLD; slots];
    after[..stored.len()].copy_from_slice(stored);
    require!(c == slots_of(&after), "slots {c:?}: \"{shown}\"");
    Ok(())
}

const HEAD: &str = "grower,weight,yield\r\n";

/// Texts that are accepted, with their deliveries.
const ACCEPTED: [(&str, &[[u32; 3]]); 20] = [
    ("grower,weight,yield\r\n", &[]),
    ("grower,weight,yield\n", &[]),
    ("grower,weight,yield", &[]),
    ("grower,weight,yield\r\n12,3,4\r\n", &[[12, 3, 4]]),
    ("grower,weight,yield\r\n12,3,4", &[[12, 3, 4]]),
    (
        "grower,weight,yield\n12,3,4\n13,3,4\n",
        &[[12, 3, 4], [13, 3, 4]],
    ),
    (
        "grower,weight,yield\n12,3,4\r\n13,3,4",
        &[[12, 3, 4], [13, 3, 4]],
    ),
    ("yield,x,grower,weight\n1,,2,3", &[[2, 3, 1]]),
    ("weight,yield,grower\n1,2,3\n", &[[3, 1, 2]]),
    ("\"grower\",\"weight\",yield\n", &[]),
    ("grower,weight,yield\r\n\"12\",3,\"4\"\r\n", &[[12, 3, 4]]),
    ("grower,weight,yield\r\n1,2,\"3\"", &[[1, 2, 3]]),
    (
        "mill,grower,weight,yield\n\"a,\"\"b\"\"\r\n\",5,3,4",
        &[[5, 3, 4]],
    ),
    ("grower,weight,yield,x,x\n", &[]),
    (
        "grower,weight,yield,\"x\ny\"\"\"\n1,2,3,\"\"\n4,5,6,\"\"\"\"",
        &[[1, 2, 3], [4, 5, 6]],
    ),
    ("x,grower,weight,yield\na\rb,1,2,3\n", &[[1, 2, 3]]),
    ("x,grower,weight,yield\n\r,1,2,3\n", &[[1, 2, 3]]),
    (
        "grower,weight,yield,\n1,2,3,\n4,5,6,",
        &[[1, 2, 3], [4, 5, 6]],
    ),
    (
        "grower,weight,yield\r\n00000000000000004294967295,0100000,0010000",
        &[[4_294_967_295, 100_000, 10_000]],
    ),
    (
        "grower,weight,yield\r\n0,0,0\r\n00,\"000\",0000000000000000000000000\r\n",
        &[[0, 0, 0], [0, 0, 0]],
    ),
];

/// Headers that are refused, whatever follows.
const HEADERS: [(&str, u32); 21] = [
    ("", 16),
    ("\n", 16),
    ("\r\n", 16),
    ("Grower,weight,yield\n", 16),
    ("grower ,weight,yield\n", 16),
    ("\"grow\"\"er\",weight,yield\n", 16),
    ("grower;weight;yield\n", 16),
    ("grower,weight\n", 16),
    ("grower,weight,yield\r", 16),
    ("\u{feff}grower,weight,yield\n", 16),
    ("\ngrower,weight,yield\n", 16),
    ("grower,weight,yield,grower\n", 17),
    ("\"grower\",weight,yield,grower\n", 17),
    ("yield,grower,weight,yield\n", 17),
    ("grower,grower,yield\n", 16),
    ("grower,weight,yield,\"x", 16),
    ("grower,weight,yield,x\"\n", 16),
    ("grower,weight,yield,\"x\"y\n", 16),
    ("grower,weight,yield,\"x\"\ry\n", 16),
    ("grower,weight,yield,grower,\"\n", 16),
    ("grower,weight,yield\"\n", 16),
];

/// Rows that are refused by 18.
const ROWS: [&str; 33] = [
    "1,2,\"3",
    "\"",
    "1,2,3\"",
    "1,2,\"3\" ",
    "1,2,\"3\"\r",
    "1,2,\"3\"\"4\"",
    "1,2,\"3\"\"\"",
    "1,\"2,3\"",
    "1,2,\"\"",
    "1,2,3\r",
    "1,2,3\r\r\n",
    "1,2\r,3\n",
    "\r\n",
    "\n",
    "\"\"\n",
    "1,2\n",
    "1,2,3,\n",
    "1,2,3,4\n",
    "1,,3\n",
    ",2,3\n",
    "1,+2,3\n",
    "1,-2,3\n",
    "1, 2,3\n",
    "1,2 ,3\n",
    "1,2.0,3\n",
    "1,0x2,3\n",
    "1,2,3\u{663}\n",
    "4294967296,0,0",
    "0,100001,0",
    "0,0,10001",
    "18446744073709551617,0,0",
    "0,18446744073709551616,0",
    "0,0,340282366920938463463374607431768211456",
];

fn deliveries(numbers: &[[u32; 3]]) -> Vec<Delivery> {
    numbers
        .iter()
        .map(|&[g, w, y]| Delivery::new(g, w, y))
        .collect()
}

pub fn csv_examples(s: &dyn Subject, _: u64) -> Outcome {
    for (text, numbers) in ACCEPTED {
        let rows = deliveries(numbers);
        for slots in [2, 3] {
            import_is(s, text.as_bytes(), slots, &Ok(rows.clone()))?;
        }
        if rows.len() > 1 {
            import_is(s, text.as_bytes(), rows.len() - 1, &Err(12))?;
        }
    }
    for (text, number) in HEADERS {
        import_is(s, text.as_bytes(), 1, &Err(number))?;
        import_is(s, text.as_bytes(), 0, &Err(3))?;
    }
    let broken = format!("{},grower\n\"", HEAD.trim_end());
    import_is(s, broken.as_bytes(), 1, &Err(17))?;
    for row in ROWS {
        // Alone, behind a row, and behind more rows than slots.
        for before in ["", "5,6,7\n", "5,6,7\n5,6,7\r\n"] {
            let text = format!("{HEAD}{before}{row}");
            import_is(s, text.as_bytes(), 1, &Err(18))?;
        }
    }
    let two = [[4_294_967_295, 100_000, 10_000], [0, 10, 0]];
    let c = slots_of(&deliveries(&two));
    for (used, rows) in [(0, ""), (2, "4294967295,100000,10000\r\n0,10,0\r\n")] {
        let expected = format!("{HEAD}{rows}");
        let mut text = vec![b'#'; expected.len()];
        let a = s.csv_export(used, &c, &mut text);
        let shown = text.escape_ascii();
        let same = a.refusal == 0 && a.written == text.len() && text == expected.as_bytes();
        require!(same, "M {used}: {a:?} \"{shown}\"");
    }
    Ok(())
}

/// An export there and back.
pub fn csv_round_trip(s: &dyn Subject, cases: u64) -> Outcome {
    let r = &mut Random::new(13);
    for _ in 0..cases {
        let c = random::column(r);
        let used = r.edge(0, c.used());
        let kept = &c.records()[..used];
        let mut expected = HEAD.to_string();
        for d in kept {
            expected.push_str(&format!("{},{},{}\r\n", d.grower, d.weight, d.oil_yield));
        }
        let mut text = vec![b'#'; expected.len() + r.below(3)];
        let a = s.csv_export(used, &c, &mut text);
        require!(
            a.refusal == 0 && a.written == expected.len(),
            "export: {a:?} {c:?}"
        );
        let (written, past) = text.split_at(a.written);
        require!(written == expected.as_bytes(), "another text");
        require!(past.iter().all(|&b| b == b'#'), "bytes past it changed");
        let slots = used.max(1) + r.below(3);
        // The day is not restored.
        let undated = kept.iter().map(|d| d.on(0)).collect();
        import_is(s, written, slots, &Ok(undated))?;
    }
    Ok(())
}

/// A field as it may be written, quoted or not.
fn written(r: &mut Random, field: &[u8]) -> Vec<u8> {
    let is_special = |b: &u8| matches!(b, b',' | b'"' | b'\n' | b'\r');
    if !field.iter().any(is_special) && !r.one_in(4) {
        return field.to_vec();
    }
    let mut all = vec![b'"'];
    for &byte in field {
        all.extend(vec![byte; 1 + usize::from(byte == b'"')]);
    }
    all.push(b'"');
    all
}

/// A text with the needed columns somewhere, and its rows.
fn text(r: &mut Random) -> Vec<u8> {
    let others: [&[u8]; 7] = [b"", b"x", b"a,b", b"say \"1\"", b"a\r\nb", b"\xe9\0", b"7"];
    let mut header: Vec<&[u8]> = NAMES.iter().map(|name| name.as_bytes()).collect();
    for _ in 0..r.below(3) {
        header.insert(r.below(header.len() + 1), r.pick(&others));
    }
    let (i, j) = (r.below(header.len()), r.below(header.len()));
    match r.below(20) {
        0 => header[i] = header[j],
        _ => header.swap(i, j),
    }
    let mut text = Vec::new();
    for line in 0..1 + r.below(4) {
        for (i, &name) in header.iter().enumerate() {
            if i > 0 {
                text.push(b',');
            }
            let zeros = "0".repeat(r.pick(&[0, 0, 0, 1, 30]));
            let number = match name {
                b"grower" => random::grower(r, 100),
                b"weight" => random::weight(r),
                _ => random::oil_yield(r),
            };
            let field = match NAMES.iter().any(|n| n.as_bytes() == name) {
                _ if line == 0 => name.to_vec(),
                true => format!("{zeros}{number}").into_bytes(),
                false => r.pick(&others).to_vec(),
            };
            text.extend(written(r, &field));
        }
        text.extend_from_slice(r.pick(&[&b"\r\n"[..], b"\n"]));
    }
    text
}

fn damage(r: &mut Random, text: &mut Vec<u8>) {
    let at = r.below(text.len() + 1);
    let byte = r.pick(b",,\"\"\"\r\n0198 -\0\xff");
    match r.below(4) {
        0 => text.insert(at, byte),
        1 => text.truncate(at),
        _ if at == text.len() => {}
        2 => text[at] = byte,
        _ => {
            text.remove(at);
        }
    }
}

pub fn csv_damaged(s: &dyn Subject, cases: u64) -> Outcome {
    let r = &mut Random::new(14);
    let mut met = [0u32; 19];
    for _ in 0..cases {
        let mut text = text(r);
        for _ in 0..r.below(3) {
            damage(r, &mut text);
        }
        let slots = r.within(1, 4);
        let expected = expected_import(&text, slots);
        met[expected.as_ref().err().copied().unwrap_or(0) as usize] += 1;
        import_is(s, &text, slots, &expected)?;
    }
    let every = [0, 12, 16, 17, 18].iter().all(|&number| met[number] > 0);
    require!(every || cases < 500, "not every outcome was met: {met:?}");
    Ok(())
}
