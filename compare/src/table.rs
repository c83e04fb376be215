//! The scope's table of refusals, 1 to 7, for each call that works in memory: every refusal that holds is found, and the lowest
//! number wins, then the lowest place. Written from the table's text, beside the port.
use crate::case::Refusal;
use crate::port::{Axis, Cutting, Shape};

/// Number and place of the refusals that hold, of which the lowest is given.
#[derive(Default)]
pub struct Found(Vec<(usize, usize)>);

impl Found {
    pub fn lowest(&self) -> Option<Refusal> {
        let (number, place) = self.0.iter().min()?;
        Some(Refusal::Checked(*number, *place))
    }

    pub fn none(&self) -> bool {
        self.0.is_empty()
    }

    pub fn when(&mut self, holds: bool, number: usize, place: usize) {
        if holds {
            self.0.push((number, place));
        }
    }

    /// 5: the slice at a position of the call's list isn't as long as it has to be.
    pub fn length(&mut self, position: usize, length: usize, wanted: usize) {
        self.when(length != wanted, 5, position);
    }

    /// 6 at a place, for all these numbers.
    pub fn finite(&mut self, place: usize, xs: &[f64]) {
        self.when(xs.iter().any(|x| !x.is_finite()), 6, place);
    }

    /// 7 at a place, for a number that must not be below zero.
    pub fn below_zero(&mut self, place: usize, x: f64) {
        self.when(x < 0.0, 7, place);
    }

    /// 6 and 7 of an axis record: its numbers are finite, a is not below zero, and the boundary is one of two.
    pub fn axis(&mut self, place: usize, axis: &Axis) {
        self.finite(place, &axis.numbers());
        self.below_zero(place, axis.a);
        self.when(axis.boundary > 1, 7, place);
    }

    /// 6 and 7 of how a cut is made, at 0: eps is finite and not below zero, and the mode is one of two.
    pub fn cutting(&mut self, cutting: &Cutting) {
        self.finite(0, &[cutting.eps]);
        self.below_zero(0, cutting.eps);
        self.when(cutting.mode > 1, 7, 0);
    }
}

fn outside(x: usize, most: usize) -> bool {
    x == 0 || x > most
}

/// 1 to 3
pub fn shape(s: &Shape) -> Found {
    let mut found = Found::default();
    if outside(s.d, 16) {
        found.when(true, 1, 0);
        return found;
    }
    for k in 0..s.d {
        let bad = outside(s.left[k], 8) || outside(s.n[k], 64) || outside(s.right[k], 8);
        found.when(bad, 2, k);
        let next = if k + 1 < s.d { s.left[k + 1] } else { 1 };
        found.when(s.right[k] != next, 3, k);
    }
    found.when(s.left[0] != 1, 3, 0);
    found
}

/// How many numbers core k has; of a shape that isn't refused.
pub fn core_size(s: &Shape, k: usize) -> usize {
    s.left[k] * s.n[k] * s.right[k]
}

pub fn entries(s: &Shape) -> usize {
    (0..s.d).map(|k| core_size(s, k)).sum()
}

pub fn points(s: &Shape) -> usize {
    s.n[..s.d].iter().sum()
}

/// The part of a list that belongs to place k, where `size` says how many numbers each place has.
pub fn part<'a, T>(xs: &'a [T], size: impl Fn(usize) -> usize, k: usize) -> &'a [T] {
    let start: usize = (0..k).map(&size).sum();
    &xs[start..start + size(k)]
}

/// 6 for the cores of a chain, and for what each axis has of points.
fn chain_finite(found: &mut Found, s: &Shape, chain: &[f64]) {
    for k in 0..s.d {
        found.finite(k, part(chain, |k| core_size(s, k), k));
    }
}

pub fn points_finite(found: &mut Found, s: &Shape, xs: &[f64]) {
    for k in 0..s.d {
        found.finite(k, part(xs, |k| s.n[k], k));
    }
}

pub fn round(s: &Shape, cutting: &Cutting, chain: &[f64], scratch: usize) -> Option<Refusal> {
    let mut found = shape(s);
    if found.none() {
        found.length(0, chain.len(), entries(s));
        found.length(1, scratch, 4 * entries(s) + 2048);
    }
    if found.none() {
        found.cutting(cutting);
        chain_finite(&mut found, s, chain);
    }
    found.lowest()
}

pub fn inner(s: &Shape, chain: &[f64], weights: &[f64]) -> Option<Refusal> {
    let mut found = shape(s);
    if found.none() {
        found.length(0, chain.len(), entries(s));
        found.length(1, weights.len(), points(s));
    }
    if found.none() {
        chain_finite(&mut found, s, chain);
        points_finite(&mut found, s, weights);
    }
    found.lowest()
}

/// Writing a chain file: a header of 8 bytes, 12 for each core, 8 for each number.
pub fn write(s: &Shape, chain: &[f64], room: usize) -> Option<Refusal> {
    let mut found = shape(s);
    if found.none() {
        found.length(0, chain.len(), entries(s));
        found.length(1, room, 8 + 12 * s.d + 8 * entries(s));
    }
    if found.none() {
        chain_finite(&mut found, s, chain);
    }
    found.lowest()
}

/// A separable start concerns d and the sizes n alone.
pub fn start(s: &Shape, vectors: &[f64], chain: usize) -> Option<Refusal> {
    let mut found = Found::default();
    found.when(outside(s.d, 16), 1, 0);
    if found.none() {
        (0..s.d).for_each(|k| found.when(outside(s.n[k], 64), 2, k));
    }
    if found.none() {
        found.length(0, vectors.len(), points(s));
        found.length(1, chain, points(s));
    }
    if found.none() {
        points_finite(&mut found, s, vectors);
    }
    found.lowest()
}

/// The chain, the axis records and the settings of a step; `far` is tau or t_final, which must not be below zero.
pub struct Moved<'a> {
    pub shape: &'a Shape,
    pub axes: &'a [Axis],
    pub chain: &'a [f64],
    pub scratch: usize,
    pub far: f64,
    pub c: f64,
    pub cutting: &'a Cutting,
}

impl Moved<'_> {
    fn found(&self) -> Found {
        let s = self.shape;
        let mut found = shape(s);
        if found.none() {
            found.length(0, self.axes.len(), s.d);
            found.length(1, self.chain.len(), entries(s));
            found.length(2, self.scratch, 4 * entries(s) + 2048);
        }
        if found.none() {
            found.finite(0, &[self.far, self.c]);
            found.below_zero(0, self.far);
            found.cutting(self.cutting);
            chain_finite(&mut found, s, self.chain);
            for (j, axis) in self.axes.iter().enumerate() {
                found.axis(j, axis);
            }
        }
        found
    }

    pub fn step(&self) -> Option<Refusal> {
        self.found().lowest()
    }

    pub fn evolve(&self, steps: usize) -> Option<Refusal> {
        let mut found = self.found();
        found.when(outside(steps, 10_000), 7, 0);
        found.lowest()
    }
}

/// The sizes of both cores, eps, both cores' numbers, and the lengths of both outputs and scratch.
pub struct Joined<'a> {
    pub left_sizes: [usize; 3],
    pub right_sizes: [usize; 3],
    pub eps: f64,
    pub left: &'a [f64],
    pub right: &'a [f64],
    pub room: [usize; 3],
}

impl Joined<'_> {
    pub fn pair(&self) -> Option<Refusal> {
        let ([rl, nj, ml], [mr, nk, rr]) = (self.left_sizes, self.right_sizes);
        let mut found = Found::default();
        let bad = |l: usize, n: usize, r: usize| outside(l, 8) || outside(n, 64) || outside(r, 8);
        found.when(bad(rl, nj, ml) || outside(rl.saturating_mul(nj), 64), 2, 0);
        found.when(bad(mr, nk, rr) || outside(nk.saturating_mul(rr), 64), 2, 1);
        found.when(ml != mr, 3, 0);
        if found.none() {
            found.length(0, self.left.len(), rl * nj * ml);
            found.length(1, self.right.len(), mr * nk * rr);
            let wanted = [rl * nj * 8, 8 * nk * rr, 20_480];
            (0..3).for_each(|i| found.length(2 + i, self.room[i], wanted[i]));
        }
        if found.none() {
            found.finite(0, &[self.eps]);
            found.finite(0, self.left);
            found.finite(1, self.right);
            found.below_zero(0, self.eps);
        }
        found.lowest()
    }
}
