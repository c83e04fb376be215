//! What others write to a run's record, as they can from C: here alone the record is within reach.
use super::*;
use crate::records::{Cutting, Mode};
use crate::MOST_AXES;

const SOURCE: [f64; 14] = [
    3.0, 0.0, 0.0, 4.0, 5.0, 6.0, 7.0, 8.0, 0.0, 2.0, 1.0, 0.0, 1.0, 1.0,
];

// A run in which nothing moves. Bond 0 has the values 4 and 3. The row of 4 makes 0, 8; 4, 0 of core 1, so bond 1 has 8 and 4. The
// lesser of both isn't above three quarters of the larger.
fn cut_run() -> Run {
    let shape = Shape::new(&[(1, 2, 2), (2, 2, 2), (2, 1, 1)]).unwrap();
    let settings = Settings {
        tau: 1.0,
        c: 0.0,
        cutting: Cutting {
            eps: 0.75,
            mode: Mode::Absolute,
        },
    };
    let axes = [Axis::default(); 3];
    Run::fresh(&shape, &axes, &settings, SOURCE.to_vec(), vec![1.0; 5]).unwrap()
}

fn dropped(run: &Run) -> [f64; MOST_AXES] {
    run.record.bonds.map(|bond| bond.dropped)
}

type Replacement = fn(&mut Run) -> Result<f64, Refusal>;

// Each kind of replacement, of zone 1 by what stands there already.
const REPLACEMENTS: [Replacement; 3] = [
    |run| run.replace_core(1, &SOURCE[4..12]),
    |run| run.replace_axis(1, &Axis::default()),
    |run| run.replace_weights(1, &[1.0; 2]),
];

#[test]
fn a_fresh_run_says_what_each_bond_dropped() {
    assert_eq!(cut_run().bonds().len(), 2);
    let mut wanted = [0.0; MOST_AXES];
    wanted[..2].copy_from_slice(&[3.0, 4.0]);
    assert_eq!(dropped(&cut_run()), wanted);
}

#[test]
fn a_new_core_or_axis_says_anew_what_bonds_dropped_from_its_zone_on() {
    let marks: [f64; MOST_AXES] = std::array::from_fn(|k| 100.0 + k as f64);
    let mut anew = marks;
    anew[1] = 4.0;
    for (replace, wanted) in REPLACEMENTS.iter().zip([anew, anew, marks]) {
        let mut run = cut_run();
        for (bond, mark) in run.record.bonds.iter_mut().zip(marks) {
            bond.dropped = mark;
        }
        assert_eq!(replace(&mut run), Ok(8.0));
        assert_eq!(dropped(&run), wanted);
    }
}

#[test]
fn what_a_bond_dropped_is_a_finite_number_of_its_left_core() {
    let places = (0..MOST_AXES).flat_map(|k| REPLACEMENTS.map(|replace| (k, replace)));
    for (k, replace) in places {
        for wild in [f64::NAN, f64::INFINITY, f64::NEG_INFINITY] {
            let mut run = cut_run();
            run.record.bonds[k].dropped = wild;
            let refused = Refusal {
                number: 6,
                place: k,
                index: 0,
            };
            // Behind the two bonds nobody asks for it.
            let wanted = if k < 2 { Err(refused) } else { Ok(8.0) };
            assert_eq!(replace(&mut run), wanted);
            assert_eq!(run.record.bonds[k].dropped.to_bits(), wild.to_bits());
        }
    }
}

// A number that no boundary has; in a run that the package made there is none.
#[test]
fn a_boundary_that_is_not_known_is_refused_at_its_axis() {
    let places = (0..MOST_AXES).flat_map(|k| REPLACEMENTS.map(|replace| (k, replace)));
    for (k, replace) in places {
        for unknown in [2, 1 << 32, usize::MAX] {
            let mut run = cut_run();
            run.record.axes[k].boundary = unknown;
            let refused = Refusal {
                number: 7,
                place: k,
                index: 0,
            };
            // Behind the three axes nobody asks for it.
            let wanted = if k < 3 { Err(refused) } else { Ok(8.0) };
            assert_eq!(replace(&mut run), wanted);
            assert_eq!(run.record.axes[k].boundary, unknown);
            assert_eq!(run.axes(), [Axis::default(); 3]);
        }
    }
}

// The same of a mode.
#[test]
fn a_mode_that_is_not_known_is_refused_at_0() {
    for replace in REPLACEMENTS {
        for unknown in [2, 1 << 32, usize::MAX] {
            let mut run = cut_run();
            run.record.settings.cutting.mode = unknown;
            let refused = Refusal {
                number: 7,
                place: 0,
                index: 0,
            };
            assert_eq!(replace(&mut run), Err(refused));
            assert_eq!(run.record.settings.cutting.mode, unknown);
            assert_eq!(run.settings(), cut_run().settings());
            assert_eq!(run.stepped(), cut_run().stepped());
        }
    }
}

#[test]
fn a_mode_that_others_wrote_is_answered() {
    for replace in REPLACEMENTS {
        let mut run = cut_run();
        run.record.settings.cutting.mode = layout::SCALED;
        assert_eq!(replace(&mut run), Ok(8.0));
        assert_eq!(run.settings().cutting.mode, Mode::Scaled);
    }
}
