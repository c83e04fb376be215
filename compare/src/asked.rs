//! The scope's table of refusals, 1 to 7, for kept runs; 8 is of the shifts that are made, with the work.
use crate::case::Refusal;
use crate::model::{carry_size, sum_size, Part, Run};
use crate::table::{self, core_size, entries, part, points, Found};

/// The lengths of the five slices, and of scratch, which comes last.
fn lengths(found: &mut Found, run: &Run, scratch: usize, position: usize) {
    let s = run.shape();
    found.length(0, run.source.len(), entries(s));
    found.length(1, run.weights.len(), points(s));
    found.length(2, run.chain.len(), entries(s));
    found.length(
        3,
        run.carries.len(),
        (0..s.d).map(|k| carry_size(s, k)).sum(),
    );
    found.length(4, run.sums.len(), (0..s.d).map(|k| sum_size(s, k)).sum());
    found.length(position, scratch, 4 * entries(s) + 2048);
}

/// 6 and 7 of what a run is made from.
fn inputs(found: &mut Found, run: &Run) {
    let (s, set) = (run.shape(), &run.record.settings);
    found.finite(0, &[set.tau, set.c]);
    found.below_zero(0, set.tau);
    found.cutting(&set.cutting);
    table::points_finite(found, s, &run.weights);
    for k in 0..s.d {
        found.finite(k, part(&run.source, |k| core_size(s, k), k));
        found.axis(k, &run.record.axes[k]);
    }
}

pub fn fresh(run: &Run, scratch: usize) -> Option<Refusal> {
    let mut found = table::shape(run.shape());
    if found.none() {
        lengths(&mut found, run, scratch, 5);
    }
    if found.none() {
        inputs(&mut found, run);
    }
    found.lowest()
}

/// 6 of the used room of what it keeps; the records behind the last bond are unused.
fn kept(found: &mut Found, run: &Run) {
    let d = run.shape().d;
    found.finite(0, &[run.record.figure]);
    for k in 0..d {
        found.finite(k, &run.kept_core(k).data);
        found.finite(k, run.kept_carry(k));
        found.finite(k, run.kept_sums(k));
        if k + 1 < d {
            found.finite(k, &[run.record.bonds[k].dropped]);
        }
    }
}

fn new_part(found: &mut Found, zone: usize, new: &Part) {
    match new {
        Part::Core(xs) | Part::Weights(xs) => found.finite(zone, xs),
        Part::Axis(axis) => found.axis(zone, axis),
    }
}

pub fn replace(run: &Run, zone: usize, new: &Part, scratch: usize) -> Option<Refusal> {
    let s = run.shape();
    let mut found = table::shape(s);
    if s.d <= 16 {
        for k in 1..s.d {
            let rank = run.record.bonds[k - 1].rank;
            found.when(rank == 0 || rank > s.right[k - 1], 3, k - 1);
        }
    }
    found.when(zone >= s.d, 4, 0);
    if found.none() {
        lengths(
            &mut found,
            run,
            scratch,
            if matches!(new, Part::Axis(_)) { 5 } else { 6 },
        );
        match new {
            Part::Core(xs) => found.length(5, xs.len(), core_size(s, zone)),
            Part::Weights(xs) => found.length(5, xs.len(), s.n[zone]),
            Part::Axis(_) => {}
        }
    }
    if found.none() {
        inputs(&mut found, run);
        kept(&mut found, run);
        new_part(&mut found, zone, new);
    }
    found.lowest()
}
