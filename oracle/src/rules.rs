//! The rule of a step: axis records, reaction, eps and mode, drawn for a chain or taken from the edges of the scope's rules.
use crate::draw::{self, Axis, Most};
use crate::mode::{Cutting, ABSOLUTE, MODES};
use crate::random::Random;
use crate::reflect::{PERIODIC, REFLECTING};
use crate::tt_chernoff::{TtChernoff, TtState};
use crate::tt_core::TtCore;

/// The Rust's rule, and the boundary of each axis and the mode, for which the Rust has no place.
pub struct Rule {
    pub rust: TtChernoff<f64>,
    pub boundaries: Vec<usize>,
    pub mode: usize,
}

impl Rule {
    pub fn of(axes: &[Axis], c: f64, cutting: Cutting) -> Rule {
        let rust = TtChernoff::new(
            axes.iter().map(|x| x.a).collect(),
            axes.iter().map(|x| x.b).collect(),
            c,
            axes.iter().map(|x| x.domain).collect(),
            cutting.eps,
        );
        Rule {
            rust,
            boundaries: axes.iter().map(|x| x.boundary).collect(),
            mode: cutting.mode,
        }
    }

    pub fn axes(&self) -> Vec<Axis> {
        let axis = |j: usize| Axis {
            a: self.rust.a[j],
            b: self.rust.b[j],
            domain: self.rust.domain[j],
            boundary: self.boundaries[j],
        };
        (0..self.boundaries.len()).map(axis).collect()
    }

    pub fn cutting(&self) -> Cutting {
        Cutting {
            eps: self.rust.eps_round,
            mode: self.mode,
        }
    }

    /// Every axis is periodic and the mode absolute: the Rust has a whole call for it.
    pub fn is_the_rusts(&self) -> bool {
        let periodic = self.boundaries.iter().all(|&boundary| boundary == PERIODIC);
        periodic && self.mode == ABSOLUTE
    }
}

pub fn any(r: &mut Random, tau: f64, cores: &[TtCore<f64>]) -> Rule {
    let mut axes: Vec<Axis> = cores.iter().map(|c| draw::axis(r, tau, c.n)).collect();
    let (c, cutting) = (draw::reaction(r), draw::cutting(r));
    draw::bound(r, &mut axes);
    Rule::of(&axes, c, cutting)
}

/// Settings at the edges of the rules: a, b, xmin, xmax, tau. Whole ratios, offsets far beyond n, the limit of 2^31 and the next f64
/// above it, a fraction of 1, a spacing of zero, below zero and infinite, a distance of zero and one that is no number.
const EDGES: [[f64; 5]; 16] = [
    [0.0, 7.5, 0.0, 2.0, 1.0],
    [0.0, -7.5, 0.0, 2.0, 1.0],
    [0.0, 1000.0, 0.0, 2.0, 1.0],
    [0.0, 2147483648.0, 0.0, 1.0, 1.0],
    [0.0, -2147483648.0, 0.0, 1.0, 1.0],
    [0.0, 2147483648.0000005, 0.0, 1.0, 1.0],
    [0.0, -2147483648.0000005, 0.0, 1.0, 1.0],
    [0.0, -8.673617379884035e-19, 0.0, 2.0, 1.0],
    [0.0, 8.673617379884035e-19, 0.0, 2.0, 1.0],
    [0.25, 1.0, 1.0, 1.0, 1.0],
    [0.25, 1.0, 1.0, 0.0, 1.0],
    [0.25, 1.0, -1.7e308, 1.7e308, 1.0],
    [0.0, 0.0, 0.0, 2.0, 1.0],
    [0.25, -1.0, 0.0, 2.0, 1.0],
    [0.25, -1.5, 0.0, 2.0, 1.0],
    [1e308, -1e308, 0.0, 2.0, 1e308],
];

/// The boundaries of one core, or of two.
const BOUNDS: [&[usize]; 6] = [
    &[PERIODIC],
    &[PERIODIC, PERIODIC],
    &[REFLECTING],
    &[REFLECTING, REFLECTING],
    &[PERIODIC, REFLECTING],
    &[REFLECTING, PERIODIC],
];

/// One core of 1 to 4 points, or two cores of rank two, with the next settings and boundaries of the lists; rule, tau and chain.
pub fn at_the_edge(r: &mut Random, most: &Most, index: usize) -> (Rule, f64, TtState<f64>) {
    let [a, b, xmin, xmax, tau] = EDGES[index % EDGES.len()];
    let n = 1 + index / EDGES.len() % 4;
    let bounds = BOUNDS[index / EDGES.len() / 4 % BOUNDS.len()];
    let core = |rl: usize, rr: usize, r: &mut Random| TtCore {
        r_left: rl,
        n,
        r_right: rr,
        data: (0..rl * n * rr)
            .map(|_| draw::eps(r).min(most.size as f64) - 0.75)
            .collect(),
    };
    let cores = if bounds.len() == 1 {
        vec![core(1, 1, r)]
    } else {
        vec![core(1, 2, r), core(2, 1, r)]
    };
    let axis = |&boundary: &usize| Axis {
        a,
        b,
        domain: (xmin, xmax),
        boundary,
    };
    let axes: Vec<Axis> = bounds.iter().map(axis).collect();
    let cutting = Cutting {
        eps: 0.0,
        mode: r.of(&MODES),
    };
    (Rule::of(&axes, 0.5, cutting), tau, TtState { cores })
}
