//! Cases that overflow on purpose: calm numbers, and among them a flaw or two, a few numbers so large that one stage of the work cannot
//! store what it makes. Where there are two flaws, the order of the work decides which is met.
use crate::draw::{self, Axis, Manner, Most};
use crate::mode::{Cutting, MODES};
use crate::random::{ten_to, Random};
use crate::reflect::{point, PERIODIC};
use crate::rules::Rule;
use crate::tt_chernoff::TtState;
use crate::tt_core::TtCore;

/// 10^lo to 10^hi, of either sign
fn large(r: &mut Random, lo: i32, hi: i32) -> f64 {
    r.of(&[1.0, -1.0]) * ten_to(r.between(lo, hi))
}

/// A hundredth or less below the largest f64.
fn almost_largest(r: &mut Random) -> f64 {
    f64::MAX * (1.0 - 0.01 * r.unit())
}

/// Cores of numbers between -1 and 1. No right rank is above the rows of its core, so that a bond can keep every column.
fn calm(r: &mut Random, most: &Most) -> Vec<TtCore<f64>> {
    let cores = draw::count(r, most.cores).max(most.cores.min(2));
    let mut left = 1;
    let mut core = |k: usize| {
        let n = draw::count(r, most.size).max(most.size.min(4));
        let right = if k + 1 < cores {
            (1 + r.below(most.rank)).min(left * n)
        } else {
            1
        };
        let made = draw::core(r, Manner::Plain, 1.0, left, n, right);
        left = right;
        made
    };
    (0..cores).map(&mut core).collect()
}

/// eps is so small that a level core keeps every column.
pub fn cutting(r: &mut Random) -> Cutting {
    Cutting {
        eps: r.of(&[0.0, 0.0, -0.0, 1e-12, 0.05]),
        mode: r.of(&MODES),
    }
}

/// One to three numbers of a core, at any place.
fn few(r: &mut Random, core: &mut TtCore<f64>, number: impl Fn(&mut Random) -> f64) {
    for _ in 0..1 + r.below(3) {
        let at = r.below(core.data.len());
        core.data[at] = number(r);
    }
}

/// Two of so many places, the lower one first; the same one where there is but one.
fn two_of(r: &mut Random, places: usize) -> (usize, usize) {
    let q = r.below(places).max(places.min(2) - 1);
    (r.below(q.max(1)), q)
}

// ---- the bonds
/// One number a column, each in a row of its own: no sweep is made, and the carry scales and reorders rows, nothing else.
fn level(core: &mut TtCore<f64>, mut norm: impl FnMut() -> f64) {
    core.data.fill(0.0);
    for j in 0..core.r_right {
        core.data[j * core.r_right + j] = norm();
    }
}

/// These cores pass on what they are given as it is.
fn level_all(cores: &mut [TtCore<f64>]) {
    cores.iter_mut().for_each(|core| level(core, || 1.0));
}

/// A flaw at the bond right of core k.
type Flaw = fn(&mut Random, &mut [TtCore<f64>], usize);

/// A column whose square overflows, or two whose product does.
fn gram(r: &mut Random, cores: &mut [TtCore<f64>], k: usize) {
    let core = &mut cores[k];
    let row = r.below(core.r_left * core.n) * core.r_right;
    let (p, q) = two_of(r, core.r_right);
    if p < q && r.one_in(2) {
        core.data[row + p] = large(r, 60, 150);
        core.data[row + q] = large(r, 250, 300);
    } else {
        core.data[row + q] = large(r, 155, 300);
    }
}

/// Two parallel columns whose squares are finite each, but not together, as a rotation makes them. A lone column is never rotated.
fn matrix(r: &mut Random, cores: &mut [TtCore<f64>], k: usize) {
    level_all(&mut cores[..k]);
    let core = &mut cores[k];
    let rows = core.r_left * core.n;
    let (p, q) = two_of(r, core.r_right);
    let mut entry = || (f64::MAX * (0.55 + 0.4 * r.unit()) / rows as f64).sqrt();
    let (one, other) = (entry(), entry());
    let way = r.of(&[1.0, -1.0]);
    for row in core.data.chunks_mut(core.r_right) {
        let sign = r.of(&[1.0, -1.0]);
        row[q] = sign * way * other;
        row[p] = sign * one;
    }
}

/// A carry and a few numbers of the next core that overflow together.
fn absorbed(r: &mut Random, cores: &mut [TtCore<f64>], k: usize) {
    level_all(&mut cores[..k]);
    let exponent = r.between(20, 150);
    level(&mut cores[k], || {
        f64::from(r.between(1, 9)) * ten_to(exponent)
    });
    few(r, &mut cores[k + 1], |r| large(r, 310 - exponent, 305));
}

/// One flaw or two at the bonds; the one further right is planted first, since a flaw makes the cores left of it level.
fn bonds(r: &mut Random, cores: &mut [TtCore<f64>]) {
    const FLAWS: [Flaw; 3] = [gram, matrix, absorbed];
    let mut at: Vec<usize> = (0..1 + r.below(2))
        .map(|_| r.below(cores.len() - 1))
        .collect();
    at.sort();
    for k in at.into_iter().rev() {
        r.of(&FLAWS)(r, cores, k);
    }
}

/// The rows of a core of rank 5 whose left factor overflows where the mode is scaled and 52 rows or more are lost beside the first one's
/// square; README.md says why. Behind the first they come in any order.
fn factor_rows(r: &mut Random) -> Vec<[f64; 5]> {
    let two_to = |k: i32| 2f64.powi(k);
    let (unit, tiny, least) = (two_to(485), two_to(-674), two_to(-537));
    let lost = 48 + r.below(12);
    let mut rows = vec![[1.49f64.sqrt() * unit, 0.7 * unit, 0.0, 0.0, 0.0]; lost];
    rows.push([0.0, (lost as f64).sqrt() * unit, 0.0, 0.0, 0.0]);
    rows.push([two_to(-400), 0.0, tiny, -3.0 * tiny, 2.0 * tiny]);
    rows.push([0.0, 0.0, -1.2 * least, 1.2 * least, 0.0]);
    rows.push([0.0, 0.0, -1.2 * least, 0.72 * least, 0.7 * least]);
    for at in 0..rows.len() {
        rows.swap(at, r.below(at + 1));
    }
    rows.insert(0, [two_to(511), two_to(511), 0.0, 0.0, 0.0]);
    rows
}

/// Such a core, at times behind another, and one of any numbers.
fn factor(r: &mut Random) -> Vec<TtCore<f64>> {
    let rows = factor_rows(r);
    let first = TtCore {
        r_left: 1,
        n: rows.len(),
        r_right: 5,
        data: rows.concat(),
    };
    let mut cores = vec![first, draw::core(r, Manner::Plain, 1.0, 5, 2, 1)];
    if r.one_in(2) {
        let mut one = TtCore::zeros(1, 1, 1);
        one.data.fill(1.0);
        cores.insert(0, one);
    }
    cores
}

pub fn rounding(r: &mut Random, most: &Most) -> Vec<TtCore<f64>> {
    if most.cores > 2 && most.size == 64 && most.rank > 4 && r.one_in(6) {
        return factor(r);
    }
    let mut cores = calm(r, most);
    if cores.len() > 1 {
        bonds(r, &mut cores);
    }
    cores
}

// ---- a step before its bonds
/// Every number of a core almost the largest f64, of either sign.
fn at_the_end(r: &mut Random, core: &mut TtCore<f64>) {
    core.data
        .iter_mut()
        .for_each(|x| *x = r.of(&[1.0, -1.0]) * almost_largest(r));
}

/// Numbers along one fibre, almost the largest f64, with the signs that the weights of a move by `points` and a half have about a point.
fn fibre(r: &mut Random, core: &mut TtCore<f64>, points: isize, boundary: usize) {
    let (il, im, ir) = (r.below(core.r_left), r.below(core.n), r.below(core.r_right));
    let way = r.of(&[1.0, -1.0]);
    let alike = [0, points, points + 1, -points, -points - 1]
        .map(|away| point(boundary, im as isize + away, core.n));
    for i in 0..core.n {
        let sign = if alike.contains(&i) { way } else { -way };
        core.set(il, i, ir, sign * almost_largest(r));
    }
}

/// A core whose entries overflow where they are moved, and its axis; half a circle or more would bring both neighbours together, and two
/// circles bring every point back to its place, also where the axis reflects.
fn shift(r: &mut Random, tau: f64, core: &mut TtCore<f64>, boundary: usize) -> Axis {
    let points = r.below(((core.n - 1) / 2).max(1));
    if r.one_in(4) {
        at_the_end(r, core);
    } else {
        fibre(r, core, points as isize, boundary);
    }
    let rounds = 2 * core.n * r.below(3);
    Axis {
        a: 0.0,
        b: r.of(&[1.0, -1.0]) * ((points + rounds) as f64 + 0.5) / tau,
        domain: (0.0, core.n as f64 - 1.0),
        boundary,
    }
}

/// c, which with a tau of 1/4 or more makes a few numbers of core 0 overflow. The largest c makes a factor that is infinite at a tau
/// above 1: then 0 becomes not a number.
fn scaling(r: &mut Random, core: &mut TtCore<f64>) -> f64 {
    if r.one_in(4) {
        few(r, core, |r| r.of(&[0.0, -0.0, 8.0, -8.0]));
        return r.of(&[f64::MAX, f64::MIN]);
    }
    let exponent = r.between(20, 150);
    few(r, core, |r| large(r, 310 - exponent, 305));
    large(r, exponent, exponent)
}

/// A core that stays.
fn still(core: &TtCore<f64>) -> Axis {
    Axis {
        a: 0.0,
        b: 0.0,
        domain: (0.0, core.n as f64),
        boundary: PERIODIC,
    }
}

/// Rule, tau and chain of a step. What is planted last is met first.
pub fn step(r: &mut Random, most: &Most) -> (Rule, f64, TtState<f64>) {
    let mut cores = calm(r, most);
    let mut axes: Vec<Axis> = cores.iter().map(still).collect();
    draw::bound(r, &mut axes);
    let (mut c, tau) = (0.0, r.of(&[0.25, 0.5, 1.0, 16.0]));
    let [bonded, scaled, moved] = r.of(&[
        [true, false, false],
        [true, false, false],
        [false, true, false],
        [false, false, true],
        [true, true, false],
        [true, false, true],
        [false, true, true],
    ]);
    if bonded && cores.len() > 1 {
        bonds(r, &mut cores);
    }
    if scaled {
        c = scaling(r, &mut cores[0]);
    }
    if moved {
        let j = r.below(cores.len());
        axes[j] = shift(r, tau, &mut cores[j], axes[j].boundary);
    }
    (Rule::of(&axes, c, cutting(r)), tau, TtState { cores })
}

/// The same of an evolve: a flaw that its first step meets, or a chain that every step makes larger until one is met.
pub fn evolve(r: &mut Random, most: &Most) -> (Rule, f64, TtState<f64>) {
    if r.one_in(2) {
        return step(r, most);
    }
    let cores = calm(r, most);
    let mut axes: Vec<Axis> = cores.iter().map(still).collect();
    draw::bound(r, &mut axes);
    let c = large(r, 20, 120);
    (Rule::of(&axes, c, cutting(r)), 1.0, TtState { cores })
}

// ---- an inner product
/// Weights between -1 and 1, but of up to two axes so large that their products overflow.
pub fn weights(r: &mut Random, cores: &[TtCore<f64>]) -> Vec<Vec<f64>> {
    let (p, q) = two_of(r, cores.len());
    let mut list = |k: usize| {
        let mut weight = || {
            if k == p || k == q {
                large(r, 155, 308)
            } else {
                r.signed()
            }
        };
        (0..cores[k].n).map(|_| weight()).collect()
    };
    (0..cores.len()).map(&mut list).collect()
}

/// A few terms of one sum of axis k.
fn sum(r: &mut Random, core: &mut TtCore<f64>, weights: &mut [f64]) {
    let j = r.below(core.r_right);
    for _ in 0..1 + r.below(3) {
        let (il, i) = (r.below(core.r_left), r.below(core.n));
        let exponent = r.between(30, 300);
        core.set(il, i, j, large(r, exponent, 300));
        weights[i] = large(r, 330 - exponent, 300);
    }
}

/// Chain and weights.
pub fn product(r: &mut Random, most: &Most) -> (Vec<TtCore<f64>>, Vec<Vec<f64>>) {
    let mut cores = calm(r, most);
    if r.one_in(4) {
        let weights = weights(r, &cores);
        return (cores, weights);
    }
    let mut weights: Vec<Vec<f64>> = cores
        .iter()
        .map(|core| (0..core.n).map(|_| r.signed()).collect())
        .collect();
    for _ in 0..1 + r.below(2) {
        let k = r.below(cores.len());
        sum(r, &mut cores[k], &mut weights[k]);
    }
    (cores, weights)
}

// ---- a pair
/// One entry of the slab, or more in its row and column.
fn slab(r: &mut Random, left: &mut TtCore<f64>, right: &mut TtCore<f64>) {
    let middle = r.below(left.r_right);
    let (row, column) = (
        r.below(left.r_left * left.n),
        r.below(right.n * right.r_right),
    );
    let exponent = r.between(30, 300);
    left.data[row * left.r_right + middle] = large(r, exponent, 300);
    right.data[middle * right.n * right.r_right + column] = large(r, 330 - exponent, 300);
}

fn scale_column(core: &mut TtCore<f64>, column: usize, by: f64) {
    for row in core.data.chunks_mut(core.n * core.r_right) {
        row[column] *= by;
    }
}

/// Two columns of the slab that are rotated although their squares overflow: by an angle that is not a number. A lone column is scaled
/// once, so that it stays finite.
fn columns(r: &mut Random, right: &mut TtCore<f64>) {
    let (p, q) = two_of(r, right.n * right.r_right);
    scale_column(right, q, large(r, 155, 300));
    if p < q {
        scale_column(right, p, large(r, 155, 300));
    }
}

/// One column of the slab whose square overflows; beside one of zeros it is rotated, by nothing, in every pass.
fn value(r: &mut Random, right: &mut TtCore<f64>) {
    let (p, q) = two_of(r, right.n * right.r_right);
    if r.one_in(4) {
        scale_column(right, p, 0.0);
    }
    scale_column(right, q, large(r, 155, 300));
}

pub fn pair(r: &mut Random, most: &Most) -> [TtCore<f64>; 2] {
    let mut cores = draw::pair(r, most);
    for core in &mut cores {
        core.data.iter_mut().for_each(|x| *x = r.signed());
    }
    let [left, right] = &mut cores;
    match r.below(8) {
        0..=2 => columns(r, right),
        3..=5 => value(r, right),
        _ => slab(r, left, right),
    }
    if r.one_in(6) {
        slab(r, left, right);
    }
    cores
}

// ---- a run's new part
/// A core that overflows in the place of another, whatever stands beside it.
pub fn replace(r: &mut Random, core: &mut TtCore<f64>) {
    match r.below(3) {
        0 => gram(r, std::slice::from_mut(core), 0),
        1 => matrix(r, std::slice::from_mut(core), 0),
        _ => at_the_end(r, core),
    }
}
