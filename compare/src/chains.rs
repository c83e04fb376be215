//! Chains as the port has them, flat with a shape, and as the Rust has them, core by core; and the rules of their axes and cuts.
use crate::port::{Axis, Cutting, Shape};
use crate::table;
use oracle::draw::{self, Most};
use oracle::mode;
use oracle::random::Random;
use oracle::rules::Rule;
use oracle::tt_core::TtCore;

/// A chain, mostly a small one; one in twelve is of any size, one in a hundred about as large as there may be.
pub fn draw(r: &mut Random, most: &Most) -> Vec<TtCore<f64>> {
    let any = (1 + r.below(16), 1 + r.below(64), 1 + r.below(8));
    let (cores, size, rank) = match r.below(100) {
        0 => (16, 64, 8),
        1..=8 => any,
        _ => return draw::chain(r, most),
    };
    draw::chain_of(r, cores, size, rank)
}

/// The shape of these cores; what stands in its arrays behind them means nothing.
pub fn shape_of(r: &mut Random, cores: &[TtCore<f64>]) -> Shape {
    let mut any = || std::array::from_fn(|_| r.of(&[0, 1, 1, 2, 7, 65, usize::MAX]));
    let (left, n, right) = (any(), any(), any());
    let mut s = Shape {
        d: cores.len(),
        left,
        n,
        right,
    };
    for (k, c) in cores.iter().enumerate() {
        (s.left[k], s.n[k], s.right[k]) = (c.r_left, c.n, c.r_right);
    }
    s
}

pub fn flat(cores: &[TtCore<f64>]) -> Vec<f64> {
    cores.iter().flat_map(|c| c.data.clone()).collect()
}

/// The cores of a chain that isn't refused.
pub fn cores_of(s: &Shape, chain: &[f64]) -> Vec<TtCore<f64>> {
    (0..s.d)
        .map(|k| TtCore {
            r_left: s.left[k],
            n: s.n[k],
            r_right: s.right[k],
            data: table::part(chain, |k| table::core_size(s, k), k).to_vec(),
        })
        .collect()
}

/// A list for each axis, of as many numbers as it has points.
pub fn lists_of(s: &Shape, xs: &[f64]) -> Vec<Vec<f64>> {
    (0..s.d)
        .map(|k| table::part(xs, |k| s.n[k], k).to_vec())
        .collect()
}

/// An axis as the port has it.
pub fn record_of(axis: draw::Axis) -> Axis {
    let (xmin, xmax) = axis.domain;
    Axis {
        a: axis.a,
        b: axis.b,
        xmin,
        xmax,
        boundary: axis.boundary,
    }
}

/// How a cut is made, as the port has it, and as the oracle has it.
pub fn cutting_of(cutting: mode::Cutting) -> Cutting {
    let mode::Cutting { eps, mode } = cutting;
    Cutting { eps, mode }
}

pub fn cut_by(cutting: Cutting) -> mode::Cutting {
    let Cutting { eps, mode } = cutting;
    mode::Cutting { eps, mode }
}

/// The rule of a step over axes that aren't refused.
pub fn rule_of(axes: &[Axis], c: f64, cutting: Cutting) -> Rule {
    let axis = |x: &Axis| draw::Axis {
        a: x.a,
        b: x.b,
        domain: (x.xmin, x.xmax),
        boundary: x.boundary,
    };
    let axes: Vec<draw::Axis> = axes.iter().map(axis).collect();
    Rule::of(&axes, c, cut_by(cutting))
}

/// The scratch that a call over this chain asks for.
pub fn scratch_for(chain: &[f64]) -> usize {
    4 * chain.len() + 2048
}
