//! A kept run as the Rust's own functions make it: the work from a zone on, over whatever the run holds left of it.
use crate::chains::{cores_of, cut_by, lists_of, rule_of};
use crate::port::{Axis, Bond, Record, Shape};
use crate::table::{self, part};
use oracle::calls::{self, Bonds, Refused};
use oracle::counted::same;
use oracle::rules::Rule;
use oracle::tt_chernoff::TtState;
use oracle::tt_core::TtCore;

/// The record and the five slices.
#[derive(Clone, Debug)]
pub struct Run {
    pub record: Record,
    pub source: Vec<f64>,
    pub weights: Vec<f64>,
    pub chain: Vec<f64>,
    pub carries: Vec<f64>,
    pub sums: Vec<f64>,
}

/// A zone's new core or weights, or its new axis record.
#[derive(Clone, Debug)]
pub enum Part {
    Core(Vec<f64>),
    Weights(Vec<f64>),
    Axis(Axis),
}

/// How many places zone k has for its carry, and for its sums.
pub fn carry_size(s: &Shape, k: usize) -> usize {
    if k + 1 < s.d {
        s.right[k] * s.right[k]
    } else {
        0
    }
}

pub fn sum_size(s: &Shape, k: usize) -> usize {
    s.right[k]
}

/// The numbers stand at the front of slot k, +0 behind them.
fn put(xs: &mut [f64], size: impl Fn(usize) -> usize, k: usize, front: &[f64]) {
    let start: usize = (0..k).map(&size).sum();
    let slot = &mut xs[start..start + size(k)];
    slot.fill(0.0);
    slot[..front.len()].copy_from_slice(front);
}

impl Run {
    pub fn shape(&self) -> &Shape {
        &self.record.shape
    }

    /// The kept ranks left and right of core k.
    fn left_rank(&self, k: usize) -> usize {
        if k == 0 {
            1
        } else {
            self.record.bonds[k - 1].rank
        }
    }

    fn right_rank(&self, k: usize) -> usize {
        if k + 1 < self.shape().d {
            self.record.bonds[k].rank
        } else {
            self.shape().right[k]
        }
    }

    /// The used room of zone k: its core, the carry to its right, its sums.
    pub fn kept_core(&self, k: usize) -> TtCore<f64> {
        let (s, l, r) = (self.shape(), self.left_rank(k), self.right_rank(k));
        TtCore {
            r_left: l,
            n: s.n[k],
            r_right: r,
            data: part(&self.chain, |k| table::core_size(s, k), k)[..l * s.n[k] * r].to_vec(),
        }
    }

    pub fn kept_carry(&self, k: usize) -> &[f64] {
        let s = self.shape();
        let used = if k + 1 < s.d {
            self.record.bonds[k].rank * s.right[k]
        } else {
            0
        };
        &part(&self.carries, |k| carry_size(s, k), k)[..used]
    }

    pub fn kept_sums(&self, k: usize) -> &[f64] {
        &part(&self.sums, |k| sum_size(self.shape(), k), k)[..self.right_rank(k)]
    }

    pub fn rule(&self) -> Rule {
        let set = self.record.settings;
        rule_of(&self.record.axes[..self.shape().d], set.c, set.cutting)
    }

    /// The source with the new part in.
    pub fn present(&self, zone: usize, new: &Part) -> Run {
        let mut run = self.clone();
        let s = self.shape();
        match new {
            Part::Core(xs) => put(&mut run.source, |k| table::core_size(s, k), zone, xs),
            Part::Weights(xs) => put(&mut run.weights, |k| s.n[k], zone, xs),
            Part::Axis(axis) => run.record.axes[zone] = *axis,
        }
        run
    }
}

/// The zones from z on: shifts, scaling, then the bonds from the carry that is held left of z.
fn step_from(run: &mut Run, z: usize) -> Result<(), Refused> {
    let (rule, set, s) = (run.rule(), run.record.settings, run.shape().clone());
    let tau = set.tau;
    let mut cores = cores_of(&s, &run.source);
    calls::demand_reach(&rule, tau, &cores, z)?;
    for (k, core) in cores.iter_mut().enumerate().skip(z) {
        calls::shift(&rule, tau, core, k)?;
    }
    if z == 0 {
        calls::scale(&rule, tau, &mut cores[0])?;
    }
    let mut made = run.clone();
    for (k, core) in cores.iter_mut().enumerate().skip(z) {
        if k > 0 {
            calls::absorb(core, k, made.kept_carry(k - 1), made.left_rank(k))?;
        }
        if k + 1 < s.d {
            let mut bond = Bonds::default();
            calls::cut(core, k, cut_by(set.cutting), &mut bond)?;
            made.record.bonds[k] = Bond {
                rank: core.r_right,
                sweeps: bond.sweeps[0],
                settled: bond.settled[0],
                dropped: bond.dropped[0],
            };
            put(
                &mut made.carries,
                |k| carry_size(&s, k),
                k,
                &bond.carries[0],
            );
        }
        put(&mut made.chain, |k| table::core_size(&s, k), k, &core.data);
    }
    *run = made;
    Ok(())
}

/// The sums from z on, from the sum that is held left of it.
fn sum_from(run: &mut Run, z: usize) -> Result<(), Refused> {
    let s = run.shape().clone();
    let weights = lists_of(&s, &run.weights);
    let mut sums = if z == 0 {
        vec![1.0]
    } else {
        run.kept_sums(z - 1).to_vec()
    };
    for k in z..s.d {
        sums = calls::sum(&run.kept_core(k), k, &weights[k], &sums)?;
        put(&mut run.sums, |k| sum_size(&s, k), k, &sums);
    }
    run.record.figure = sums[0];
    Ok(())
}

/// A new core or axis record has the step and the sums made from its zone on, new weights the sums.
pub fn replace(run: &Run, zone: usize, new: &Part) -> Result<Run, Refused> {
    let mut made = run.present(zone, new);
    if !matches!(new, Part::Weights(_)) {
        step_from(&mut made, zone)?;
    }
    sum_from(&mut made, zone)?;
    Ok(made)
}

/// The run's bonds are the step's.
fn demand_bonds(made: &Run, bonds: &Bonds) {
    let told = &made.record.bonds[..bonds.sweeps.len()];
    assert!(
        told.iter().map(|bond| bond.sweeps).eq(bonds.sweeps.clone()),
        "a run's sweeps are not the step's"
    );
    let dropped: Vec<f64> = told.iter().map(|bond| bond.dropped).collect();
    assert!(
        same(&dropped, &bonds.dropped),
        "a run's dropped values are not the step's"
    );
}

/// A fresh run on the inputs of this one, held to the Rust's `step`, then its `inner_separable`.
pub fn fresh(inputs: &Run) -> Result<Run, Refused> {
    let mut made = blank(inputs);
    let mut state = TtState {
        cores: cores_of(made.shape(), &made.source),
    };
    let bonds = calls::step(&made.rule(), made.record.settings.tau, &mut state)?;
    let figure = calls::inner(&state, &lists_of(made.shape(), &made.weights))?;
    step_from(&mut made, 0)?;
    sum_from(&mut made, 0)?;
    let bits = |x: &TtCore<f64>, y: &TtCore<f64>| same(&x.data, &y.data);
    let cores = state.cores.iter().enumerate();
    assert!(
        cores.into_iter().all(|(k, c)| bits(c, &made.kept_core(k))),
        "a run's cores are not the step's"
    );
    demand_bonds(&made, &bonds);
    assert!(
        same(&[figure], &[made.record.figure]),
        "a run's figure is not the inner product"
    );
    Ok(made)
}

/// The run with the same inputs that keeps nothing: every slot +0.
pub fn blank(inputs: &Run) -> Run {
    let (mut run, s) = (inputs.clone(), inputs.shape().clone());
    run.chain = vec![0.0; table::entries(&s)];
    run.carries = vec![0.0; (0..s.d).map(|k| carry_size(&s, k)).sum()];
    run.sums = vec![0.0; (0..s.d).map(|k| sum_size(&s, k)).sum()];
    run.record.bonds = [Bond::default(); 16];
    run.record.figure = 0.0;
    run
}
