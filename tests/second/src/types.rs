//! Plain values that calls take and answer.

/// Block limit: the most blocks of an unlaid set and the most partitions.
pub const BLOCK_LIMIT: usize = 64;
/// The most blocks of an unlaid set whose layouts are listed.
pub const LISTED_BLOCK_LIMIT: usize = 12;
/// Largest block length B.
pub const BLOCK_LENGTH_LIMIT: u32 = 4_096;
/// Largest slice length C, and largest M of a snapshot.
pub const SLOT_LIMIT: usize = 262_144;
/// Largest weight in kg.
pub const WEIGHT_LIMIT: u32 = 100_000;
/// Largest oil yield in hundredths of a per cent.
pub const YIELD_LIMIT: u32 = 10_000;
/// Largest day number: 31 December 2099, of days counted from 1 January 2000.
pub const DAY_LIMIT: u32 = 36_524;
/// Largest price.
pub const PRICE_LIMIT: u32 = 1_000;
/// Largest read or insert limit.
pub const LIMIT_LIMIT: u32 = 1_000_000;
/// Largest histogram count.
pub const COUNT_LIMIT: u32 = 1_000_000;
/// Largest tally number.
pub const TALLY_LIMIT: u64 = 1_000_000_000_000;
/// Number of histograms.
pub const HISTOGRAMS: usize = 10;
/// Length of the slice that holds all histograms.
pub const HISTOGRAM_LEN: usize = HISTOGRAMS * BLOCK_LIMIT;
/// Length of a directory: B, K, the lengths, the fences.
pub const DIRECTORY_LEN: usize = 2 + 2 * BLOCK_LIMIT;
/// Index of the first length in a directory.
pub const LENGTHS: usize = 2;
/// Index of the first fence in a directory.
pub const FENCES: usize = 2 + BLOCK_LIMIT;

/// One record of the column.
#[derive(Clone, Copy, Debug, Default, PartialEq, Eq, PartialOrd, Ord, Hash)]
pub struct Delivery {
    pub grower: u32,
    /// kg
    pub weight: u32,
    /// hundredths of a per cent
    pub oil_yield: u32,
    /// days since 1 January 2000
    pub day: u32,
}

impl Delivery {
    /// A delivery of day 0, as old books, imports and `layplan` give it.
    pub const fn new(grower: u32, weight: u32, oil_yield: u32) -> Delivery {
        Delivery {
            grower,
            weight,
            oil_yield,
            day: 0,
        }
    }

    /// The delivery on another day.
    pub const fn on(self, day: u32) -> Delivery {
        Delivery { day, ..self }
    }

    /// Check 8 of a delivery that a call is offered.
    pub const fn in_range(&self) -> bool {
        self.weight <= WEIGHT_LIMIT && self.oil_yield <= YIELD_LIMIT
    }

    /// Check 19 of a delivery that a call is offered.
    pub const fn day_in_range(&self) -> bool {
        self.day <= DAY_LIMIT
    }
}

/// A first and a last day, both counted; no day if the last is earlier.
#[derive(Clone, Copy, Debug, PartialEq, Eq)]
pub struct Span {
    pub first: u32,
    pub last: u32,
}

impl Span {
    /// Every day.
    pub const ALL: Span = Span::new(0, DAY_LIMIT);

    pub const fn new(first: u32, last: u32) -> Span {
        Span { first, last }
    }

    pub const fn holds(&self, day: u32) -> bool {
        self.first <= day && day <= self.last
    }

    /// Check 19 of the days that a range names.
    pub const fn in_range(&self) -> bool {
        self.first <= DAY_LIMIT && self.last <= DAY_LIMIT
    }
}

/// Prices of a random read, a sequential read and a random write.
#[derive(Clone, Copy, Debug, PartialEq, Eq)]
pub struct PriceCard {
    pub rr: u32,
    pub sr: u32,
    pub rw: u32,
}

impl PriceCard {
    pub const FACTORY: PriceCard = PriceCard {
        rr: 3,
        sr: 1,
        rw: 2,
    };

    pub const fn new(rr: u32, sr: u32, rw: u32) -> PriceCard {
        PriceCard { rr, sr, rw }
    }

    /// RR x rr + SR x sr + RW x rw of a report.
    pub fn priced(&self, counts: &Counts) -> i128 {
        i128::from(self.rr) * i128::from(counts.rr)
            + i128::from(self.sr) * i128::from(counts.sr)
            + i128::from(self.rw) * i128::from(counts.rw)
    }
}

/// Read limit R and insert limit U.
#[derive(Clone, Copy, Debug, PartialEq, Eq)]
pub struct Limits {
    pub read: u32,
    pub insert: u32,
}

impl Limits {
    pub const fn new(read: u32, insert: u32) -> Limits {
        Limits { read, insert }
    }
}

/// Access counts of a report: random reads, sequential reads, random writes.
#[derive(Clone, Copy, Debug, Default, PartialEq, Eq)]
pub struct Counts {
    pub rr: u64,
    pub sr: u64,
    pub rw: u64,
}

impl Counts {
    pub const ZERO: Counts = Counts {
        rr: 0,
        sr: 0,
        rw: 0,
    };

    pub const fn new(rr: u64, sr: u64, rw: u64) -> Counts {
        Counts { rr, sr, rw }
    }
}

/// Running sum of reports.
#[derive(Clone, Copy, Debug, Default, PartialEq, Eq)]
pub struct Tally {
    pub rr: u64,
    pub sr: u64,
    pub rw: u64,
}

impl Tally {
    pub const ZERO: Tally = Tally {
        rr: 0,
        sr: 0,
        rw: 0,
    };

    /// A tally begins with all three numbers zero.
    pub const fn new() -> Tally {
        Tally::ZERO
    }
}

/// Answer of find and range: number of matching records, total weight, and
/// total oil (weight x yield).
#[derive(Clone, Copy, Debug, Default, PartialEq, Eq)]
pub struct Totals {
    pub records: u64,
    pub weight: u64,
    pub oil: u64,
}

impl Totals {
    pub const ZERO: Totals = Totals {
        records: 0,
        weight: 0,
        oil: 0,
    };

    pub const fn new(records: u64, weight: u64, oil: u64) -> Totals {
        Totals {
            records,
            weight,
            oil,
        }
    }
}

/// Answer of find and range on the column.
#[derive(Clone, Copy, Debug, PartialEq, Eq)]
pub struct ReadAnswer {
    pub refusal: u32,
    pub totals: Totals,
    pub counts: Counts,
}

impl ReadAnswer {
    pub(crate) const fn refused(refusal: u32) -> ReadAnswer {
        ReadAnswer {
            refusal,
            totals: Totals::ZERO,
            counts: Counts::ZERO,
        }
    }
}

/// Answer of insert, delete and move on the column.
#[derive(Clone, Copy, Debug, PartialEq, Eq)]
pub struct WriteAnswer {
    pub refusal: u32,
    pub counts: Counts,
}

impl WriteAnswer {
    pub(crate) const fn refused(refusal: u32) -> WriteAnswer {
        WriteAnswer {
            refusal,
            counts: Counts::ZERO,
        }
    }
}

/// Answer of the next and the previous grower; grower and records are 0 if
/// there is none.
#[derive(Clone, Copy, Debug, PartialEq, Eq)]
pub struct GrowerAnswer {
    pub refusal: u32,
    pub grower: u32,
    pub records: u64,
    pub counts: Counts,
}

impl GrowerAnswer {
    pub(crate) const fn refused(refusal: u32) -> GrowerAnswer {
        GrowerAnswer {
            refusal,
            grower: 0,
            records: 0,
            counts: Counts::ZERO,
        }
    }
}

/// Answer of applying a layout and of reading a snapshot.
#[derive(Clone, Copy, Debug, PartialEq, Eq)]
pub struct DirectoryAnswer {
    pub refusal: u32,
    pub directory: [u32; DIRECTORY_LEN],
}

impl DirectoryAnswer {
    pub(crate) const fn refused(refusal: u32) -> DirectoryAnswer {
        DirectoryAnswer {
            refusal,
            directory: [0; DIRECTORY_LEN],
        }
    }
}

/// Answer of the cost of a given layout.
#[derive(Clone, Copy, Debug, PartialEq, Eq)]
pub struct CostAnswer {
    pub refusal: u32,
    pub bill: i64,
}

/// Answer of the planner; the ends themselves are in the output slice.
#[derive(Clone, Copy, Debug, PartialEq, Eq)]
pub struct PlanAnswer {
    pub refusal: u32,
    /// Number of partitions, 0 when refused.
    pub count: usize,
    pub bill: i64,
}

impl PlanAnswer {
    pub(crate) const fn refused(refusal: u32) -> PlanAnswer {
        PlanAnswer {
            refusal,
            count: 0,
            bill: 0,
        }
    }
}

/// Answer of listing the layouts; the lines themselves are in the output slice.
#[derive(Clone, Copy, Debug, PartialEq, Eq)]
pub struct ListAnswer {
    pub refusal: u32,
    /// Number of layouts, 0 when refused.
    pub layouts: usize,
    /// Number of bytes written, 0 when refused.
    pub written: usize,
}

impl ListAnswer {
    pub(crate) const fn refused(refusal: u32) -> ListAnswer {
        ListAnswer {
            refusal,
            layouts: 0,
            written: 0,
        }
    }
}

/// Answer of the partition slice call as a span of the growers.
#[derive(Clone, Copy, Debug, PartialEq, Eq)]
pub struct SpanAnswer {
    pub refusal: u32,
    pub start: usize,
    pub count: usize,
}

/// Answer of writing a snapshot or a sheet and of an export.
#[derive(Clone, Copy, Debug, PartialEq, Eq)]
pub struct TextAnswer {
    pub refusal: u32,
    /// Number of bytes written, 0 when refused.
    pub written: usize,
}

/// Answer of the conversion of a date, 0 when refused.
#[derive(Clone, Copy, Debug, PartialEq, Eq)]
pub struct DayAnswer {
    pub refusal: u32,
    pub day: u32,
}

/// Answer of the conversion of a day number, all 0 when refused.
#[derive(Clone, Copy, Debug, PartialEq, Eq)]
pub struct DateAnswer {
    pub refusal: u32,
    pub year: u32,
    pub month: u32,
    pub day: u32,
}

/// The first and the last day of a term, 0 and 0 when refused.
#[derive(Clone, Copy, Debug, PartialEq, Eq)]
pub struct TermAnswer {
    pub refusal: u32,
    pub first: u32,
    pub last: u32,
}

/// Answer of an import.
#[derive(Clone, Copy, Debug, PartialEq, Eq)]
pub struct ImportAnswer {
    pub refusal: u32,
    /// Number of rows stored, 0 when refused.
    pub rows: usize,
}
