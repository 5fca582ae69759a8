//! The compiled library through its C interface, beside the second
//! implementation: the C declarations, safe calls, the columns and sets that
//! both are given, and what both answer in the same types.

mod answers;
mod calls;
mod column;
mod declared;
mod library;
mod seen;
mod set;

pub use answers::{
    Answer, Applied, Costed, Counts, DateAnswer, DayAnswer, Imported, Listed, PartitionSlice,
    Planned, Stepped, TermAnswer, Totals, Written, DIRECTORY,
};
pub use calls::{call_second, record_second, sheet_second, step_second, Call, Step};
pub use column::{Column, ColumnSlices, View};
pub use library::{date_of, day_of, tally_add, term_of, Empty, Library, LIBRARIES};
pub use seen::{Seen, EDGES};
pub use set::{even_ends, spread_growers, Set, Slots};
