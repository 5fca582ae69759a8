//! Weighbridge files (02, slip 1): deliveries as comma-separated text by
//! RFC 4180, import and export.

use crate::check::{self, ensure, Checked};
use crate::types::*;

/// The needed columns, in the order of the first three slices.
const NAMES: [&[u8]; 3] = [b"grower", b"weight", b"yield"];

/// The largest number of each.
const LIMITS: [u32; 3] = [u32::MAX, WEIGHT_LIMIT, YIELD_LIMIT];

/// The first line of an export.
const HEADER: &[u8] = b"grower,weight,yield\r\n";

/// What ends a field. The end of the text ends a line too.
#[derive(Clone, Copy, PartialEq, Eq)]
enum End {
    Comma,
    Line,
}

/// A text that is read from its front.
struct Reader<'a> {
    rest: &'a [u8],
}

impl<'a> Reader<'a> {
    /// Takes the byte if it is next.
    #[inline]
    fn take(&mut self, byte: u8) -> bool {
        match self.rest {
            [first, rest @ ..] if *first == byte => {
                self.rest = rest;
                true
            }
            _ => false,
        }
    }

    /// Takes the end of a field; none if another byte is next.
    #[inline]
    fn end(&mut self) -> Option<End> {
        let (end, rest) = match self.rest {
            [b',', rest @ ..] => (End::Comma, rest),
            [b'\r', b'\n', rest @ ..] | [b'\n', rest @ ..] => (End::Line, rest),
            [] => (End::Line, self.rest),
            _ => return None,
        };
        self.rest = rest;
        Some(end)
    }

    /// Takes the bytes up to `length`.
    #[inline]
    fn split(&mut self, length: usize) -> &'a [u8] {
        let (taken, rest) = self.rest.split_at(length);
        self.rest = rest;
        taken
    }

    /// Takes a field, quoted or not, and its end; none if a quote is broken.
    /// Of a quoted field these are the bytes between its quotes, where a
    /// doubled quote is still two.
    #[inline]
    fn field(&mut self) -> Option<(&'a [u8], End)> {
        let bytes = match self.take(b'"') {
            true => self.quoted()?,
            false => self.unquoted()?,
        };
        Some((bytes, self.end()?))
    }

    /// The bytes up to the closing quote, which is taken.
    fn quoted(&mut self) -> Option<&'a [u8]> {
        let mut length = 0;
        loop {
            length += self.rest[length..].iter().position(|&b| b == b'"')?;
            if self.rest.get(length + 1) != Some(&b'"') {
                break;
            }
            length += 2;
        }
        let bytes = self.split(length);
        self.take(b'"');
        Some(bytes)
    }

    /// The bytes up to the end; none if a quote is among them.
    #[inline]
    fn unquoted(&mut self) -> Option<&'a [u8]> {
        let is_special = |b: &u8| matches!(b, b',' | b'"' | b'\n');
        let found = self.rest.iter().position(is_special);
        let length = found.unwrap_or(self.rest.len());
        match self.rest.get(length) {
            Some(b'"') => None,
            Some(b'\n') if self.rest[..length].ends_with(b"\r") => Some(self.split(length - 1)),
            _ => Some(self.split(length)),
        }
    }

    /// Takes a field that is a number up to `limit`, quoted or not, and its
    /// end.
    #[inline]
    fn number(&mut self, limit: u32) -> Option<(u32, End)> {
        let is_quoted = self.take(b'"');
        let mut value = 0;
        let mut length = 0;
        while let Some(digit @ b'0'..=b'9') = self.rest.get(length) {
            value = 10 * value + u64::from(digit - b'0');
            if value > u64::from(limit) {
                return None;
            }
            length += 1;
        }
        self.rest = &self.rest[length..];
        if length == 0 || is_quoted && !self.take(b'"') {
            return None;
        }
        Some((value as u32, self.end()?))
    }

    /// Takes the header: for each of its columns which of the needed ones it
    /// is, if any.
    fn header(&mut self) -> Checked<Vec<Option<usize>>> {
        let mut columns = Vec::new();
        loop {
            let (name, end) = self.field().ok_or(check::COLUMN_ABSENT)?;
            // No needed name has a quote, so doubled ones can stay two.
            columns.push(NAMES.iter().position(|&needed| needed == name));
            if end == End::Line {
                break;
            }
        }
        let times = [0, 1, 2].map(|i| columns.iter().filter(|&&c| c == Some(i)).count());
        ensure(times.iter().all(|&n| n > 0), check::COLUMN_ABSENT)?;
        ensure(times.iter().all(|&n| n == 1), check::COLUMN_TWICE)?;
        Ok(columns)
    }

    /// Takes a row; none if it is not one of these columns.
    #[inline]
    fn row(&mut self, columns: &[Option<usize>]) -> Option<Delivery> {
        let mut numbers = [0; 3];
        for (at, column) in columns.iter().enumerate() {
            let end = match *column {
                Some(i) => {
                    let (number, end) = self.number(LIMITS[i])?;
                    numbers[i] = number;
                    end
                }
                None => self.field()?.1,
            };
            if (end == End::Line) != (at + 1 == columns.len()) {
                return None;
            }
        }
        let [grower, weight, oil_yield] = numbers;
        Some(Delivery::new(grower, weight, oil_yield))
    }
}

fn try_import(
    text: &[u8],
    growers: &mut [u32],
    weights: &mut [u32],
    yields: &mut [u32],
    days: &mut [u32],
) -> Checked<usize> {
    check::slices(growers, weights, yields, days)?;
    let mut reader = Reader { rest: text };
    let columns = reader.header()?;
    let mut deliveries = Vec::new();
    while !reader.rest.is_empty() {
        deliveries.push(reader.row(&columns).ok_or(check::ROW)?);
    }
    ensure(deliveries.len() <= growers.len(), check::FULL)?;
    let slots = growers.iter_mut().zip(weights).zip(yields).zip(days);
    for ((((grower, weight), oil_yield), day), d) in slots.zip(&deliveries) {
        (*grower, *weight, *oil_yield, *day) = (d.grower, d.weight, d.oil_yield, d.day);
    }
    Ok(deliveries.len())
}

/// Checks 3 16 17 18 12, then stores the rows from slot 0 on, with day 0. Later
/// slots stay as they were.
pub fn csv_import(
    text: &[u8],
    growers: &mut [u32],
    weights: &mut [u32],
    yields: &mut [u32],
    days: &mut [u32],
) -> ImportAnswer {
    match try_import(text, growers, weights, yields, days) {
        Ok(rows) => ImportAnswer {
            refusal: check::ACCEPTED,
            rows,
        },
        Err(refusal) => ImportAnswer { refusal, rows: 0 },
    }
}

/// Digits of a number without leading zeros.
#[inline]
fn digits(number: u32) -> usize {
    number.checked_ilog10().map_or(1, |n| n as usize + 1)
}

/// Writes a number and then `end` to the front of `out`; answers the rest.
#[inline]
fn put<'a>(out: &'a mut [u8], mut number: u32, end: &[u8]) -> &'a mut [u8] {
    let (field, out) = out.split_at_mut(digits(number));
    for digit in field.iter_mut().rev() {
        *digit = b'0' + (number % 10) as u8;
        number /= 10;
    }
    let (place, out) = out.split_at_mut(end.len());
    place.copy_from_slice(end);
    out
}

/// Bytes of the export of these slots.
pub fn csv_size(growers: &[u32], weights: &[u32], yields: &[u32]) -> usize {
    let bytes = |column: &[u32]| -> usize { column.iter().map(|&n| digits(n)).sum() };
    let marks = b",,\r\n".len() * growers.len();
    HEADER.len() + bytes(growers) + bytes(weights) + bytes(yields) + marks
}

fn try_export(
    used: usize,
    growers: &[u32],
    weights: &[u32],
    yields: &[u32],
    days: &[u32],
    out: &mut [u8],
) -> Checked<usize> {
    check::slices(growers, weights, yields, days)?;
    ensure(used <= growers.len(), check::RECORD_COUNT)?;
    let (growers, weights, yields) = (&growers[..used], &weights[..used], &yields[..used]);
    check::values(weights, yields)?;
    check::days(&days[..used])?;
    let size = csv_size(growers, weights, yields);
    ensure(size <= out.len(), check::ROOM)?;
    let (header, mut rest) = out.split_at_mut(HEADER.len());
    header.copy_from_slice(HEADER);
    for ((&grower, &weight), &oil_yield) in growers.iter().zip(weights).zip(yields) {
        rest = put(rest, grower, b",");
        rest = put(rest, weight, b",");
        rest = put(rest, oil_yield, b"\r\n");
    }
    Ok(size)
}

/// Checks 3 4 (M is 0 to C) 8 19 (of the first M slots) 15, then the text, which
/// has no day. Bytes past it stay as they were.
pub fn csv_export(
    used: usize,
    growers: &[u32],
    weights: &[u32],
    yields: &[u32],
    days: &[u32],
    out: &mut [u8],
) -> TextAnswer {
    try_export(used, growers, weights, yields, days, out).into()
}
