//! Sheets of settlement terms: examples, random columns against a plain model, and
//! every term of several years.

use crate::days::dated_column;
use crate::groups::Outcome;
use crate::model::{sheet, sheet_of};
use crate::random;
use crate::require;
use crate::sheets::{any_sheet, numbers, settled_column, sheet_is, EMPTY};
use crate::subject::*;
use second::random::Random;

/// The terms of January 2000, of which the second holds one record, and the next.
pub fn term_examples(s: &dyn Subject, _: u64) -> Outcome {
    let c = dated_column();
    let two = "                  10                   2                  11                  11
                   2                  11                  11
";
    let one = "                  10                   1                 100                 100
                   1                 100                 100
";
    for (day, text, order) in [
        (0, two, &[0, 1][..]),
        (14, two, &[0, 1]),
        (15, one, &[2]),
        (30, one, &[2]),
        (31, EMPTY, &[]),
    ] {
        let (bytes, m) = (text.len(), order.len());
        let (of, written) = ((&c, Some(day)), Ok((text.as_bytes(), order)));
        sheet_is(s, of, [bytes, m, m], written)?;
        sheet_is(s, of, [bytes + 81, m + 3, m + 1], written)?;
        sheet_is(s, of, [bytes - 1, m, m], Err(15))?;
    }
    let enough = [1_000, 5, 5];
    for day in [36_525, u32::MAX] {
        sheet_is(s, (&c, Some(day)), enough, Err(19))?;
        sheet_is(s, (&c, Some(day)), [0; 3], Err(19))?;
    }
    // What is wrong outside the term is wrong all the same.
    let mut heavy = c.clone();
    heavy.weights[4] = 100_001;
    sheet_is(s, (&heavy, Some(0)), enough, Err(8))?;
    sheet_is(s, (&heavy, Some(36_525)), enough, Err(8))?;
    let mut late = c.clone();
    late.days[4] = 36_525;
    sheet_is(s, (&late, Some(0)), enough, Err(19))?;
    let mut unsound = c;
    unsound.growers[4] = 10;
    sheet_is(s, (&unsound, Some(36_525)), enough, Err(6))
}

/// The text and the order of the sheet of a day's term.
fn model(s: &dyn Subject, c: &Column, day: u32) -> (Vec<u8>, Vec<u32>) {
    let term = s.term_of(day);
    sheet_of(c, |n| (term.first..=term.last).contains(&n))
}

/// The terms of a column's records and one more, with rooms that are enough and
/// rooms that are one short.
pub fn term_sheets(s: &dyn Subject, cases: u64) -> Outcome {
    let r = &mut Random::new(32);
    for _ in 0..cases {
        let c = settled_column(s, r);
        let mut days: Vec<u32> = c.records().iter().map(|d| d.day).collect();
        days.push(r.below(36_525) as u32);
        for day in days {
            let (text, order) = model(s, &c, day);
            let (bytes, m) = (text.len(), order.len());
            let (of, written) = ((&c, Some(day)), Ok((&text[..], &order[..])));
            let more = [r.below(3) * r.below(90), r.below(3), r.below(3)];
            sheet_is(s, of, [bytes + more[0], m + more[1], m + more[2]], written)?;
            sheet_is(s, of, [bytes - 1, m, m], Err(15))?;
            if m > 0 {
                sheet_is(s, of, [bytes, m - 1, m], Err(15))?;
                sheet_is(s, of, [bytes, m, m - 1], Err(15))?;
            }
        }
    }
    Ok(())
}

/// Columns whose days spread over four years: the sheet of each term, one after the
/// other, from any of its days. Each record is on one of them, and their last lines
/// add up to that of the whole sheet.
pub fn term_years(s: &dyn Subject, cases: u64) -> Outcome {
    let r = &mut Random::new(36);
    for _ in 0..cases {
        let mut c = settled_column(s, r);
        let used = c.used();
        let from = r.pick(&[0, 8_000, 8_766, 35_064]);
        let past = from + 1_461;
        for day in &mut c.days[..used] {
            *day = from + r.below(1_461) as u32;
        }
        let (mut slots, mut sums) = (Vec::new(), vec![0; 3]);
        let mut next = from;
        while next < past {
            let term = s.term_of(next);
            let day = r.edge(term.first as usize, term.last as usize) as u32;
            let (text, order) = model(s, &c, day);
            let (bytes, m) = (text.len(), order.len());
            let written = Ok((&text[..], &order[..]));
            sheet_is(s, (&c, Some(day)), [bytes, m, m], written)?;
            for (sum, n) in sums.iter_mut().zip(last_line(&text)) {
                *sum += n;
            }
            slots.extend(order);
            next = term.last + 1;
        }
        slots.sort_unstable();
        let whole = last_line(&sheet(&c).0);
        require!(slots.iter().copied().eq(0..used as u32), "{slots:?}; {c:?}");
        require!(sums == whole, "{sums:?}, not {whole:?}; {c:?}");
    }
    Ok(())
}

/// The numbers of a sheet's last line.
fn last_line(text: &[u8]) -> Vec<u64> {
    let text = String::from_utf8_lossy(text);
    text.lines().last().map(numbers).unwrap_or_default()
}

/// Columns of any kind, from days of which some are above the limit.
pub fn term_refused(s: &dyn Subject, cases: u64) -> Outcome {
    any_sheet(s, (33, cases), |r| {
        Some(match r.below(4) {
            0 => r.pick(&[36_525, u32::MAX]),
            _ => random::day(r),
        })
    })
}
