//! What was imported and exported: every answer, every kind of file and every
//! damage.

use super::calls::Slots;
use super::damage::damages;
use super::file::{is_quoted, File, CRLF, LF, LIMITS};
use meltusk::{Imported, Seen};
use second::{csv_size, DAY_LIMIT, SLOT_LIMIT};

/// The refusals of each call, 0 for accepted.
const ANSWERS: [(&str, &[u32]); 2] = [
    ("import_csv", &[0, 3, 12, 16, 17, 18]),
    ("export_csv", &[0, 3, 4, 8, 15]),
];

/// Fewest texts imported at scale 1.
const TEXTS: u64 = 20_000;

const IMPORTED: [&str; 5] = [
    "imported: no row",
    "imported: slots exact",
    "imported: slots to spare",
    "imported: 262,144 rows",
    "12 with a slot",
];

/// The order of the needed columns.
const ORDERS: [&str; 6] = [
    "order: grower, weight, yield",
    "order: grower, yield, weight",
    "order: weight, grower, yield",
    "order: weight, yield, grower",
    "order: yield, grower, weight",
    "order: yield, weight, grower",
];

const FILES: [&str; 21] = [
    "no other column",
    "another column first",
    "another column last",
    "another column twice",
    "a quoted name",
    "a quoted number",
    "no quote at all",
    "a doubled quote",
    "a comma in quotes",
    "a line end in quotes",
    "a CR in an unquoted field",
    "a byte above 127",
    "a byte 0",
    "an empty field",
    "a quoted empty field",
    "CRLF alone",
    "LF alone",
    "both line ends",
    "no last line end",
    "40 leading zeros",
    "a number at each limit",
];

const EXPORTED: [&str; 10] = [
    "exported: no slot",
    "exported: all slots",
    "exported: 262,144 slots",
    "exported: a later weight out of range",
    "exported: a later yield out of range",
    "exported: a later day out of range",
    "exported: days other than 0",
    "exported: room exact",
    "exported: room to spare",
    "exported: smallest and largest number in each column",
];

const UNEXPORTED: [&str; 6] = [
    "one slot more than there are",
    "4,294,967,295 slots",
    "the last weight out of range",
    "the last yield out of range",
    "the last day out of range",
    "room one byte short",
];

fn note<const N: usize>(seen: &mut Seen, kinds: [&'static str; N], there: [bool; N]) {
    for (kind, there) in kinds.into_iter().zip(there) {
        seen.kind(there, kind);
    }
}

/// Notes a text that was imported into so many slots.
pub fn note_import(seen: &mut Seen, answer: &Imported, slots: usize) {
    seen.answer("import_csv", answer.refusal);
    let rows = answer.rows as usize;
    let is_accepted = answer.refusal == 0;
    let there = [
        is_accepted && rows == 0,
        is_accepted && rows == slots,
        is_accepted && rows < slots,
        is_accepted && rows == SLOT_LIMIT,
        answer.refusal == 12 && slots > 0,
    ];
    note(seen, IMPORTED, there);
}

/// Notes a file without damage that was accepted.
pub fn note_file(seen: &mut Seen, file: &File) {
    let [g, w, y] = file.columns;
    let order = [
        g < w && w < y,
        g < y && y < w,
        w < g && g < y,
        w < y && y < g,
        y < g && g < w,
        y < w && w < g,
    ];
    note(seen, ORDERS, order);
    let Some((header, rows)) = file.records.split_first() else {
        return;
    };
    let count = header.fields.len();
    let needed = |i: &usize| file.columns.contains(i);
    let others: Vec<&Vec<u8>> = (0..count)
        .filter(|i| !needed(i))
        .map(|i| &header.fields[i])
        .collect();
    let fields = || file.records.iter().flat_map(|record| &record.fields);
    let has = |bytes: &[u8], of: &dyn Fn(&[u8]) -> bool| {
        fields().any(|f| of(f) && f.windows(bytes.len()).any(|w| w == bytes))
    };
    let is_unquoted = |field: &[u8]| !is_quoted(field);
    let ends: Vec<&[u8]> = file.records.iter().map(|record| record.end).collect();
    let numbers = || {
        let of_row = |i: usize| rows.iter().map(move |row| &row.fields[file.columns[i]]);
        (0..3).flat_map(of_row)
    };
    let at_limit = |i: usize| {
        let values = file.deliveries.iter();
        let mut values = values.map(|d| [d.grower, d.weight, d.oil_yield][i]);
        values.any(|n| u64::from(n) == LIMITS[i])
    };
    let there = [
        others.is_empty(),
        !needed(&0),
        !needed(&(count - 1)),
        (1..others.len()).any(|i| others[..i].contains(&others[i])),
        file.columns.iter().any(|&i| is_quoted(&header.fields[i])),
        numbers().any(|field| is_quoted(field)),
        !fields().any(|field| field.contains(&b'"')),
        fields().any(|f| is_quoted(f) && f[1..f.len() - 1].windows(2).any(|w| w == b"\"\"")),
        has(b",", &is_quoted),
        has(LF, &is_quoted),
        has(b"\r", &is_unquoted),
        fields().any(|field| !field.is_ascii()),
        has(b"\0", &|_| true),
        fields().any(|field| field.is_empty()),
        fields().any(|field| field[..] == *b"\"\""),
        ends.iter().all(|&end| end == CRLF),
        ends.iter().all(|&end| end == LF),
        ends.contains(&CRLF) && ends.contains(&LF),
        ends.contains(&&b""[..]),
        numbers().any(|field| field.starts_with(&[b'0'; 40])),
        (0..3).all(at_limit),
    ];
    note(seen, FILES, there);
}

/// Notes slots that were to be exported into so many bytes.
pub fn note_export(seen: &mut Seen, used: u32, slots: &Slots, room: usize, refusal: u32) {
    seen.answer("export_csv", refusal);
    let used = used as usize;
    let [growers, weights, yields, days] = slots;
    let past = |column: &[u32], i: usize| column.iter().any(|&n| u64::from(n) > LIMITS[i]);
    match refusal {
        0 => {
            let size = csv_size(&growers[..used], &weights[..used], &yields[..used]);
            let whole = |i: usize| {
                let column = &slots[i][..used];
                column.contains(&0) && column.contains(&(LIMITS[i] as u32))
            };
            let there = [
                used == 0,
                used == growers.len(),
                used == SLOT_LIMIT,
                past(&weights[used..], 1),
                past(&yields[used..], 2),
                days[used..].iter().any(|&day| day > DAY_LIMIT),
                days[..used].iter().any(|&day| day > 0),
                room == size,
                room > size,
                (0..3).all(whole),
            ];
            note(seen, EXPORTED, there);
        }
        3 => {}
        _ => {
            let last = used.wrapping_sub(1);
            let last_past = |i: usize| {
                let value = slots[i].get(last);
                refusal == 8 && value.is_some_and(|&n| u64::from(n) == LIMITS[i] + 1)
            };
            let is_short = refusal == 15
                && room + 1 == csv_size(&growers[..used], &weights[..used], &yields[..used]);
            let there = [
                used == growers.len() + 1,
                used == u32::MAX as usize,
                last_past(1),
                last_past(2),
                refusal == 19 && days.get(last) == Some(&(DAY_LIMIT + 1)),
                is_short,
            ];
            note(seen, UNEXPORTED, there);
        }
    }
}

/// An error if an answer or a kind of file has not occurred.
pub fn complete(seen: &Seen) -> Result<(), String> {
    let kinds = [&IMPORTED[..], &ORDERS, &FILES, &EXPORTED, &UNEXPORTED].concat();
    seen.complete(&ANSWERS, &kinds)
}

/// The damaged files.
#[derive(Default)]
pub struct Files {
    /// Texts imported that were damaged.
    damaged: u64,
    /// Each damage alone in a file that had slots enough.
    alone: Vec<u64>,
}

impl Files {
    /// Notes that the text just imported was damaged.
    pub fn note(&mut self) {
        self.damaged += 1;
    }

    /// Notes one damage alone, by its place in the list of damages.
    pub fn note_alone(&mut self, kind: usize) {
        self.alone.resize(self.alone.len().max(kind + 1), 0);
        self.alone[kind] += 1;
    }

    /// An error if a damage has not occurred.
    pub fn complete(&self) -> Result<(), String> {
        let is_missing = |kind: usize| self.alone.get(kind).is_none_or(|&n| n == 0);
        match damages()
            .iter()
            .enumerate()
            .find(|(kind, _)| is_missing(*kind))
        {
            Some((_, damage)) => Err(format!("never occurred: {damage:?}")),
            None => Ok(()),
        }
    }

    /// An error if too few texts were imported or not about two thirds of them
    /// were damaged. Not asked below scale 1.
    pub fn enough(&self, seen: &Seen, scale: f64) -> Result<(), String> {
        let texts = seen.count("import_csv");
        let share = self.damaged as f64 / texts as f64;
        if scale >= 1.0 && (texts < TEXTS || !(0.62..0.75).contains(&share)) {
            let damaged = self.damaged;
            return Err(format!("{texts} texts imported, {damaged} of them damaged"));
        }
        Ok(())
    }
}
