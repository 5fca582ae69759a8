//! Dates, day numbers and settlement terms (02, Slip 7): the days from 1 January
//! 2000 to 31 December 2099, walked one by one.

use crate::check;
use crate::types::*;
use std::sync::OnceLock;

/// Year, month and day of the month, both counted from 1.
type Date = (u32, u32, u32);

/// A year of 366 days: every fourth, but of the years that end a century only
/// every fourth again.
const fn is_leap(year: u32) -> bool {
    year % 4 == 0 && (year % 100 != 0 || year % 400 == 0)
}

const fn days_of_month(year: u32, month: u32) -> u32 {
    match month {
        4 | 6 | 9 | 11 => 30,
        2 if is_leap(year) => 29,
        2 => 28,
        _ => 31,
    }
}

const fn tomorrow((year, month, day): Date) -> Date {
    if day < days_of_month(year, month) {
        (year, month, day + 1)
    } else if month < 12 {
        (year, month + 1, 1)
    } else {
        (year + 1, 1, 1)
    }
}

/// The date of every day number.
fn dates() -> &'static [Date] {
    static DATES: OnceLock<Vec<Date>> = OnceLock::new();
    DATES.get_or_init(|| {
        let walk = std::iter::successors(Some((2000, 1, 1)), |&date| Some(tomorrow(date)));
        walk.take_while(|&(year, ..)| year < 2100).collect()
    })
}

/// Check 19 (a date of 2000 to 2099 that exists), then its day number.
pub fn day_of(year: u32, month: u32, day: u32) -> DayAnswer {
    match dates().binary_search(&(year, month, day)) {
        Ok(at) => DayAnswer {
            refusal: check::ACCEPTED,
            day: at as u32,
        },
        Err(_) => DayAnswer {
            refusal: check::DAYS,
            day: 0,
        },
    }
}

/// Check 19, then the date of a day number.
pub fn date_of(day: u32) -> DateAnswer {
    match dates().get(day as usize) {
        Some(&(year, month, day)) => DateAnswer {
            refusal: check::ACCEPTED,
            year,
            month,
            day,
        },
        None => DateAnswer {
            refusal: check::DAYS,
            year: 0,
            month: 0,
            day: 0,
        },
    }
}

/// Check 19, then the first and the last day of the term that holds a day: back
/// to the 1st or the 16th, and on to the day before the next of them.
pub fn term_of(day: u32) -> TermAnswer {
    let dates = dates();
    let begins = |at: u32| {
        dates
            .get(at as usize)
            .is_none_or(|date| matches!(date.2, 1 | 16))
    };
    if day as usize >= dates.len() {
        return TermAnswer {
            refusal: check::DAYS,
            first: 0,
            last: 0,
        };
    }
    let (mut first, mut last) = (day, day);
    while !begins(first) {
        first -= 1;
    }
    while !begins(last + 1) {
        last += 1;
    }
    TermAnswer {
        refusal: check::ACCEPTED,
        first,
        last,
    }
}
