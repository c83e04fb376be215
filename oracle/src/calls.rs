//! The Rust's calls, stage by stage, so that what the port refuses is seen. The end is held to the Rust's whole call, where the Rust has it.
use crate::counted::{gram_ev, norms, same, sweep_all, trunc};
use crate::mode::{Cutting, ABSOLUTE};
use crate::rules::Rule;
use crate::stored::{demand_finite, Flaw, Made, Watch};
use crate::tt_chernoff::{self, TtState};
use crate::tt_core::{self, TtCore};
use crate::{reflect, tt_coupled_pair, tt_dense_expm};

/// Why the port refuses.
#[derive(Clone, Copy, Debug)]
pub enum Refused {
    /// a number to be stored isn't finite
    NotFinite(Flaw),
    /// a shift over dx is above 2^31 in size, or not a number
    Far(usize),
    /// a pair's kept rank is above 8
    Rank(usize),
}

impl From<Flaw> for Refused {
    fn from(flaw: Flaw) -> Refused {
        Refused::NotFinite(flaw)
    }
}

/// The numbers of the two refusals that are not of a number's size.
const FAR: usize = 8;
const WIDE: usize = 10;

impl Refused {
    /// Number, place and index.
    pub fn told(&self) -> [usize; 3] {
        match self {
            Refused::NotFinite(flaw) => [flaw.made.number(), flaw.core, flaw.index],
            Refused::Far(axis) => [FAR, *axis, 0],
            Refused::Rank(_) => [WIDE, 0, 0],
        }
    }
}

/// Whether a refusal with this number is met in the work, and not given by a check before it.
pub fn met_in_the_work(number: usize) -> bool {
    number == WIDE || Made::ALL.iter().any(|made| made.number() == number)
}

fn same_chain(xs: &[TtCore<f64>], ys: &[TtCore<f64>]) -> bool {
    let sizes = |c: &TtCore<f64>| (c.r_left, c.n, c.r_right);
    let one = |(x, y): (&TtCore<f64>, &TtCore<f64>)| sizes(x) == sizes(y) && same(&x.data, &y.data);
    xs.len() == ys.len() && xs.iter().zip(ys).all(one)
}

/// The sweeps of each bond, whether it is settled at the end, the largest value that isn't kept, and the carry that goes on.
#[derive(Default)]
pub struct Bonds {
    pub sweeps: Vec<usize>,
    pub settled: Vec<bool>,
    pub dropped: Vec<f64>,
    pub carries: Vec<Vec<f64>>,
}

/// Cuts core k to its left factor; the carry is the last of `bonds`.
pub fn cut(
    core: &mut TtCore<f64>,
    k: usize,
    cutting: Cutting,
    bonds: &mut Bonds,
) -> Result<(), Refused> {
    let (rows, columns) = (core.r_left * core.n, core.r_right);
    let mut watch = Watch::over(k);
    let sweeps = gram_ev(&core.data, rows, columns, cutting.mode, &mut watch);
    watch.demand()?;
    let (u, s, v) = trunc(&core.data, rows, columns, cutting, &sweeps);
    let carry = tt_core::diag_times_vt(&s, &v, s.len(), columns);
    demand_finite(Made::Factor, k, &u)?;
    demand_finite(Made::Carry, k, &carry)?;
    let rest = &sweeps.values[s.len()..];
    (core.r_right, core.data) = (s.len(), u);
    bonds.sweeps.push(sweeps.made);
    bonds.settled.push(sweeps.settled);
    bonds.dropped.push(rest.first().copied().unwrap_or(0.0));
    bonds.carries.push(carry);
    Ok(())
}

/// Core k with the carry of the bond to its left in it.
pub fn absorb(core: &mut TtCore<f64>, k: usize, carry: &[f64], rank: usize) -> Result<(), Refused> {
    tt_core::absorb_left(carry, core, rank);
    Ok(demand_finite(Made::Absorbed, k, &core.data)?)
}

/// `tt_round`; the Rust has such a call for the absolute mode alone.
pub fn round(cores: &mut [TtCore<f64>], cutting: Cutting) -> Result<Bonds, Refused> {
    let mut rust = cores.to_vec();
    let mut bonds = Bonds::default();
    for k in 0..cores.len() - 1 {
        cut(&mut cores[k], k, cutting, &mut bonds)?;
        let rank = cores[k].r_right;
        absorb(&mut cores[k + 1], k + 1, &bonds.carries[k], rank)?;
    }
    if cutting.mode == ABSOLUTE {
        tt_core::tt_round(&mut rust, cutting.eps);
        assert!(same_chain(cores, &rust), "round is not the Rust's");
    }
    Ok(bonds)
}

/// The sums of axis k, from those of the axis before.
pub fn sum(core: &TtCore<f64>, k: usize, f: &[f64], before: &[f64]) -> Result<Vec<f64>, Refused> {
    let sums = tt_chernoff::contract_step(core, f, before);
    demand_finite(Made::Sum, k, &sums)?;
    Ok(sums)
}

/// The sums of `inner_separable`, axis by axis.
pub fn sums(state: &TtState<f64>, weights: &[Vec<f64>]) -> Result<Vec<Vec<f64>>, Refused> {
    let mut all = vec![vec![1.0]];
    for (k, (core, f)) in state.cores.iter().zip(weights).enumerate() {
        all.push(sum(core, k, f, &all[k])?);
    }
    let last = &all[state.cores.len()];
    assert!(
        same(last, &[state.inner_separable(weights)]),
        "inner is not the Rust's"
    );
    Ok(all.split_off(1))
}

/// `inner_separable`
pub fn inner(state: &TtState<f64>, weights: &[Vec<f64>]) -> Result<f64, Refused> {
    Ok(sums(state, weights)?[state.cores.len() - 1][0])
}

/// h and dx of axis j
fn distances(rule: &Rule, tau: f64, n: usize, j: usize) -> (f64, f64) {
    let rust = &rule.rust;
    (
        2.0 * (rust.a[j] * tau).sqrt() + rust.b[j] * tau,
        rust.dx(j, n),
    )
}

/// The first axis from z on whose core doesn't stay and whose shift is too far.
pub fn demand_reach(rule: &Rule, tau: f64, cores: &[TtCore<f64>], z: usize) -> Result<(), Refused> {
    for (j, core) in cores.iter().enumerate().skip(z) {
        let (h, dx) = distances(rule, tau, core.n, j);
        let stays = dx <= 0.0 || h == 0.0;
        let near = (h / dx).abs() <= 2147483648.0;
        if !stays && !near {
            return Err(Refused::Far(j));
        }
    }
    Ok(())
}

/// Core j moved along its axis.
pub fn shift(rule: &Rule, tau: f64, core: &mut TtCore<f64>, j: usize) -> Result<(), Refused> {
    let (h, dx) = distances(rule, tau, core.n, j);
    reflect::shift(core, h, dx, rule.boundaries[j]);
    Ok(demand_finite(Made::Shift, j, &core.data)?)
}

/// Core 0 times 1 + tau*c.
pub fn scale(rule: &Rule, tau: f64, core: &mut TtCore<f64>) -> Result<(), Refused> {
    let reaction = 1.0 + tau * rule.rust.c;
    core.data.iter_mut().for_each(|v| *v *= reaction);
    Ok(demand_finite(Made::Scaling, 0, &core.data)?)
}

/// `step`: all shifts, then the scaling, then the bonds. The Rust has such a call for periodic axes and the absolute mode alone.
pub fn step(rule: &Rule, tau: f64, state: &mut TtState<f64>) -> Result<Bonds, Refused> {
    demand_reach(rule, tau, &state.cores, 0)?;
    let mut rust = state.clone();
    for (j, core) in state.cores.iter_mut().enumerate() {
        shift(rule, tau, core, j)?;
    }
    scale(rule, tau, &mut state.cores[0])?;
    let bonds = round(&mut state.cores, rule.cutting())?;
    if rule.is_the_rusts() {
        rule.rust.step(tau, &mut rust);
        assert!(
            same_chain(&state.cores, &rust.cores),
            "step is not the Rust's"
        );
    }
    Ok(bonds)
}

/// `evolve`, with the last step's counts, and of each bond the greatest value that a step dropped
pub fn evolve(
    rule: &Rule,
    t_final: f64,
    steps: usize,
    state: &mut TtState<f64>,
) -> Result<Bonds, Refused> {
    let mut rust = state.clone();
    let mut bonds = Bonds::default();
    let mut greatest = vec![0.0; state.cores.len() - 1];
    for _ in 0..steps {
        bonds = step(rule, t_final / steps as f64, state)?;
        for (most, dropped) in greatest.iter_mut().zip(&bonds.dropped) {
            if *most < *dropped {
                *most = *dropped;
            }
        }
    }
    bonds.dropped = greatest;
    if rule.is_the_rusts() {
        rule.rust.evolve(t_final, steps, &mut rust);
        assert!(
            same_chain(&state.cores, &rust.cores),
            "evolve is not the Rust's"
        );
    }
    Ok(bonds)
}

/// `contract_slab`, then `split_slab_into_cores`; answers the passes made.
pub fn pair(state: &mut TtState<f64>, eps: f64) -> Result<usize, Refused> {
    let (left, right) = (&state.cores[0], &state.cores[1]);
    let (rl, nj, nk, rr) = (left.r_left, left.n, right.n, right.r_right);
    let slab = tt_coupled_pair::contract_slab(left, right, rl, left.r_right, rr, nj, nk, nj * nk);
    demand_finite(Made::Slab, 0, &slab)?;
    let (rows, columns) = (rl * nj, nk * rr);
    let mut work: Vec<f64> = (0..rows * columns)
        .map(|at| slab[at % rows * columns + at / rows])
        .collect();
    let mut basis = tt_dense_expm::mat_eye(columns);
    let mut watch = Watch::over(0);
    let passes = sweep_all(&mut work, &mut basis, rows, columns, &mut watch);
    watch.demand()?;
    let (values, rank) = norms(&work, rows, columns, eps);
    demand_finite(Made::PairValue, 0, &values)?;
    tt_coupled_pair::split_slab_into_cores(state, 0, 1, &slab, rl, rr, nj, nk, nj * nk, eps);
    assert!(
        state.cores[0].r_right == rank,
        "the pair's rank is not the Rust's"
    );
    if rank > 8 {
        return Err(Refused::Rank(rank));
    }
    for (k, core) in state.cores.iter().enumerate() {
        demand_finite(Made::NewCore, k, &core.data)?;
    }
    Ok(passes)
}
