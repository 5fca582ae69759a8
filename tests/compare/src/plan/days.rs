//! Days of a set, of what is recorded against it, and of the ranges named.

use super::calls::Recorder;
use super::{accepted, made, near, proper_call, Target, TARGETS};
use crate::bad::Bad;
use crate::broken::asked_first;
use crate::calls::apply;
use crate::{inputs, Run};
use meltusk::{Call, Library, Set, Slots};
use second::random::Random;
use second::{Span, DAY_LIMIT, HISTOGRAM_LEN};

/// A call as it is; then with a day out of range, with a weight or a yield and with
/// both, as far as it is given any. Each with its refusal.
fn each_fault(r: &mut Random, call: Call) -> Vec<(Call, u32)> {
    let late = inputs::day_out(r);
    let mut all = vec![(call, 0)];
    if let Call::RangeDays(lo, hi, span) = call {
        for span in [Span::new(late, span.last), Span::new(span.first, late)] {
            all.push((Call::RangeDays(lo, hi, span), 19));
        }
    }
    let is_weight = r.one_in(2);
    for (is_late, is_bad, number) in [(true, false, 19), (false, true, 8), (true, true, 8)] {
        let mut other = call;
        let Some(d) = other.offered() else { break };
        if is_late {
            d.day = late;
        }
        match is_bad {
            true if is_weight => d.weight = inputs::weight_out(r),
            true => d.oil_yield = inputs::oil_yield_out(r),
            false => {}
        }
        all.push((other, number));
    }
    all
}

/// Days out of range beside weights and yields out of range, offered, named and in
/// every record of the set: 8 of all that a call is given, then 19.
pub fn every_place(run: &mut Run) -> Result<(), String> {
    run.cases(57, 40, |run, r| {
        let library = inputs::library(r);
        for (target, which) in TARGETS {
            let clean = accepted(r, target, which);
            let used = clean.set.used as usize;
            for (call, number) in each_fault(r, clean.call) {
                // Only the recorder is given the call.
                let number = if target == Target::Record { number } else { 0 };
                for bad in Bad::every(r, used) {
                    let mut case = clean.clone();
                    case.call = call;
                    bad.put(r, case.set.slices());
                    let expected = asked_first(number, bad.refusal(&(0..used)));
                    let refusal = made(run, r, &library, &case, target)?;
                    if refusal != expected {
                        return Err(format!("{call:?}, {bad:?}: {refusal}, not {expected}"));
                    }
                }
            }
        }
        Ok(())
    })
}

/// The same of a layout that is applied.
pub fn applied(run: &mut Run) -> Result<(), String> {
    run.cases(58, 60, |run, r| {
        let library = inputs::library(r);
        let clean = accepted(r, Target::Cost, 0);
        let used = clean.set.used as usize;
        for bad in Bad::every(r, used) {
            let mut set = clean.set.clone();
            bad.put(r, set.slices());
            let a = apply(r, &mut run.seen, &library, &set, &clean.ends)?;
            if a.refusal != bad.refusal(&(0..used)) {
                return Err(format!("{bad:?}: {}", a.refusal));
            }
        }
        Ok(())
    })
}

/// The histograms of one call recorded from zeros, and its refusal.
fn recorded(
    run: &mut Run,
    r: &mut Random,
    library: &Library,
    set: &Set,
    call: Call,
) -> Result<(u32, Vec<u32>), String> {
    let mut recorder = Recorder::new(r, set, &[0; HISTOGRAM_LEN]);
    let refusal = recorder.record(&mut run.seen, library, &call)?;
    Ok((refusal, recorder.histograms().to_vec()))
}

/// A range over one day, some terms, every day or none is recorded as the range
/// over the growers; with a day past the last it is refused.
pub fn spans(run: &mut Run) -> Result<(), String> {
    run.cases(55, 1_500, |run, r| {
        let library = inputs::library(r);
        let most_blocks = r.pick(&[1, 3, 10, 64]);
        let set = inputs::set(r, most_blocks, 0);
        let Call::Range(lo, hi) = proper_call(r, &set, 1) else {
            return Err("no range".into());
        };
        let whole = recorded(run, r, &library, &set, Call::Range(lo, hi))?;
        let (x, late) = (inputs::day(r), inputs::day_out(r));
        let term = second::term_of(x);
        for (first, last) in [
            (x, x),
            (term.first, term.last),
            (term.first, DAY_LIMIT.min(term.last + 20)),
            (0, DAY_LIMIT),
            (DAY_LIMIT, x.min(DAY_LIMIT - 1)),
            (x, late),
            (late, x),
        ] {
            let span = Span::new(first, last);
            let dated = recorded(run, r, &library, &set, Call::RangeDays(lo, hi, span))?;
            let expected = match span.in_range() {
                true => whole.clone(),
                false => (19, vec![0; HISTOGRAM_LEN]),
            };
            if dated != expected {
                return Err(format!("{lo} to {hi}, {span:?}: {}; {set:?}", dated.0));
            }
        }
        Ok(())
    })
}

/// Deliveries that are equal but for the day: one of a day that the set has not is
/// recorded as a find, by a delete and by a move.
pub fn another_day(run: &mut Run) -> Result<(), String> {
    run.cases(56, 1_000, |run, r| {
        let library = inputs::library(r);
        let most_blocks = r.pick(&[1, 3, 10, 64]);
        let mut set = inputs::set(r, most_blocks, 0);
        let d = set.slot(r.below(set.used as usize));
        // All of his are this delivery, on one of three days.
        let own = (0..set.used as usize).filter(|&i| set.growers[i] == d.grower);
        let own: Vec<usize> = own.collect();
        for &i in &own {
            set.weights[i] = d.weight;
            set.yields[i] = d.oil_yield;
            set.days[i] = r.pick(&[0, 15, DAY_LIMIT]);
        }
        let find = recorded(run, r, &library, &set, Call::Find(d.grower))?;
        for day in [0, 15, DAY_LIMIT, 14] {
            let is_held = own.iter().any(|&i| set.days[i] == day);
            for call in [
                Call::Delete(d.on(day)),
                Call::Move(d.on(day), near(r, &set)),
            ] {
                let made = recorded(run, r, &library, &set, call)?;
                if made.0 != 0 || (made == find) == is_held {
                    return Err(format!("{call:?}: {}; {set:?}", made.0));
                }
            }
        }
        Ok(())
    })
}
