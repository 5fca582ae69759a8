//! Adding a report's counts to a tally.

use crate::check;
use crate::types::*;

/// Check 10 for each of the three numbers, then the addition in place. The
/// question is put without a sum, which could wrap.
pub fn tally_add(tally: &mut Tally, counts: &Counts) -> u32 {
    let fits = |t: u64, r: u64| t <= TALLY_LIMIT && r <= TALLY_LIMIT - t;
    if !(fits(tally.rr, counts.rr) && fits(tally.sr, counts.sr) && fits(tally.rw, counts.rw)) {
        return check::OVERFLOW;
    }
    tally.rr += counts.rr;
    tally.sr += counts.sr;
    tally.rw += counts.rw;
    check::ACCEPTED
}
