//! Second implementation of the delivery column and its planner.
//!
//! It is written from papers 01 and 02 alone and serves as the comparison
//! partner of the product. Standard library only.
//!
//! Each call answers the number of the first check that fails, or 0. The
//! checks of each call are put in the order of the paper's list of questions.

#![forbid(unsafe_code)]

pub mod calendar;
pub mod check;
pub mod column;
pub mod cost;
pub mod csv;
pub mod field;
pub mod growers;
pub mod increase;
pub mod layplan;
pub mod ledger;
pub mod listing;
pub mod planner;
pub mod program;
pub mod random;
pub mod recorder;
pub mod sheet;
pub mod snapshot;
pub mod tally;
pub mod types;
pub mod unlaid;

pub use calendar::{date_of, day_of, term_of};
pub use column::{
    apply_layout, delete, find, insert, move_delivery, partition_slice, partition_span, range,
    range_days,
};
pub use cost::cost;
pub use csv::{csv_export, csv_import, csv_size};
pub use growers::{next_grower, previous_grower};
pub use increase::Increase;
pub use layplan::layplan;
pub use ledger::Ledger;
pub use listing::{list_layouts, listing_size, permitted_layouts};
pub use planner::{plan_by_listing, plan_by_table};
pub use recorder::{
    record_delete, record_find, record_insert, record_move, record_range, record_range_days,
};
pub use sheet::{settlement, sheet_size, sheet_write, term_sheet_write};
pub use snapshot::{snapshot_read, snapshot_size, snapshot_write};
pub use tally::tally_add;
pub use types::*;
pub use unlaid::UnlaidSet;
