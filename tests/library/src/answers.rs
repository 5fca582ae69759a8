//! What the C calls answer, and the second implementation's answers in the
//! same types.

use second::{
    CostAnswer, DirectoryAnswer, GrowerAnswer, ImportAnswer, ListAnswer, PlanAnswer, ReadAnswer,
    SpanAnswer, TextAnswer, WriteAnswer,
};

/// MELTUSK_DIRECTORY
pub const DIRECTORY: usize = 130;

#[repr(C)]
#[derive(Clone, Copy, Debug, Default, PartialEq, Eq)]
pub struct Totals {
    pub records: u64,
    pub weight: u64,
    pub oil: u64,
}

#[repr(C)]
#[derive(Clone, Copy, Debug, PartialEq, Eq)]
pub struct Counts {
    pub rr: u64,
    pub sr: u64,
    pub rw: u64,
}

#[repr(C)]
#[derive(Clone, Copy, Debug, PartialEq, Eq)]
pub struct Answer {
    pub refusal: u32,
    pub counts: Counts,
    pub totals: Totals,
}

#[repr(C)]
#[derive(Clone, Copy, Debug, PartialEq, Eq)]
pub struct Stepped {
    pub refusal: u32,
    pub grower: u32,
    pub records: u64,
    pub counts: Counts,
}

#[repr(C)]
#[derive(Clone, Copy, Debug, PartialEq, Eq)]
pub struct Applied {
    pub refusal: u32,
    pub directory: [u32; DIRECTORY],
}

#[repr(C)]
#[derive(Clone, Copy, Debug, PartialEq, Eq)]
pub struct PartitionSlice {
    pub refusal: u32,
    pub start: u32,
    pub count: u32,
}

#[repr(C)]
#[derive(Clone, Copy, Debug, PartialEq, Eq)]
pub struct Costed {
    pub refusal: u32,
    pub cost: i64,
}

#[repr(C)]
#[derive(Clone, Copy, Debug, PartialEq, Eq)]
pub struct Planned {
    pub refusal: u32,
    pub count: u32,
    pub cost: i64,
}

#[repr(C)]
#[derive(Clone, Copy, Debug, PartialEq, Eq)]
pub struct Listed {
    pub refusal: u32,
    pub layouts: u32,
    pub bytes: u64,
}

#[repr(C)]
#[derive(Clone, Copy, Debug, PartialEq, Eq)]
pub struct Written {
    pub refusal: u32,
    pub bytes: u64,
}

#[repr(C)]
#[derive(Clone, Copy, Debug, PartialEq, Eq)]
pub struct Imported {
    pub refusal: u32,
    pub rows: u64,
}

#[repr(C)]
#[derive(Clone, Copy, Debug, PartialEq, Eq)]
pub struct DayAnswer {
    pub refusal: u32,
    pub day: u32,
}

#[repr(C)]
#[derive(Clone, Copy, Debug, PartialEq, Eq)]
pub struct DateAnswer {
    pub refusal: u32,
    pub year: u32,
    pub month: u32,
    pub day: u32,
}

#[repr(C)]
#[derive(Clone, Copy, Debug, PartialEq, Eq)]
pub struct TermAnswer {
    pub refusal: u32,
    pub first: u32,
    pub last: u32,
}

impl From<second::DayAnswer> for DayAnswer {
    fn from(a: second::DayAnswer) -> DayAnswer {
        DayAnswer {
            refusal: a.refusal,
            day: a.day,
        }
    }
}

impl From<second::DateAnswer> for DateAnswer {
    fn from(a: second::DateAnswer) -> DateAnswer {
        DateAnswer {
            refusal: a.refusal,
            year: a.year,
            month: a.month,
            day: a.day,
        }
    }
}

impl From<second::TermAnswer> for TermAnswer {
    fn from(a: second::TermAnswer) -> TermAnswer {
        TermAnswer {
            refusal: a.refusal,
            first: a.first,
            last: a.last,
        }
    }
}

impl From<second::Counts> for Counts {
    fn from(c: second::Counts) -> Counts {
        Counts {
            rr: c.rr,
            sr: c.sr,
            rw: c.rw,
        }
    }
}

impl From<second::Totals> for Totals {
    fn from(t: second::Totals) -> Totals {
        Totals {
            records: t.records,
            weight: t.weight,
            oil: t.oil,
        }
    }
}

impl From<ReadAnswer> for Answer {
    #[inline]
    fn from(a: ReadAnswer) -> Answer {
        Answer {
            refusal: a.refusal,
            counts: a.counts.into(),
            totals: a.totals.into(),
        }
    }
}

impl From<WriteAnswer> for Answer {
    #[inline]
    fn from(a: WriteAnswer) -> Answer {
        Answer {
            refusal: a.refusal,
            counts: a.counts.into(),
            totals: Totals::default(),
        }
    }
}

impl From<GrowerAnswer> for Stepped {
    #[inline]
    fn from(a: GrowerAnswer) -> Stepped {
        Stepped {
            refusal: a.refusal,
            grower: a.grower,
            records: a.records,
            counts: a.counts.into(),
        }
    }
}

impl From<DirectoryAnswer> for Applied {
    fn from(a: DirectoryAnswer) -> Applied {
        Applied {
            refusal: a.refusal,
            directory: a.directory,
        }
    }
}

impl From<SpanAnswer> for PartitionSlice {
    fn from(a: SpanAnswer) -> PartitionSlice {
        PartitionSlice {
            refusal: a.refusal,
            start: a.start as u32,
            count: a.count as u32,
        }
    }
}

impl From<CostAnswer> for Costed {
    fn from(a: CostAnswer) -> Costed {
        Costed {
            refusal: a.refusal,
            cost: a.bill,
        }
    }
}

impl From<PlanAnswer> for Planned {
    fn from(a: PlanAnswer) -> Planned {
        Planned {
            refusal: a.refusal,
            count: a.count as u32,
            cost: a.bill,
        }
    }
}

impl From<ListAnswer> for Listed {
    fn from(a: ListAnswer) -> Listed {
        Listed {
            refusal: a.refusal,
            layouts: a.layouts as u32,
            bytes: a.written as u64,
        }
    }
}

impl From<TextAnswer> for Written {
    fn from(a: TextAnswer) -> Written {
        Written {
            refusal: a.refusal,
            bytes: a.written as u64,
        }
    }
}

impl From<ImportAnswer> for Imported {
    fn from(a: ImportAnswer) -> Imported {
        Imported {
            refusal: a.refusal,
            rows: a.rows as u64,
        }
    }
}
