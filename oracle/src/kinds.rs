//! One function a kind of case: draws it, asks the Rust, and writes the line.
use crate::calls::{self, Bonds, Refused};
use crate::draw::{self, Most};
use crate::line::Line;
use crate::mode::Cutting;
use crate::random::Random;
use crate::rules::{self, Rule};
use crate::spill;
use crate::tt_chernoff::{cubic_band_weights, TtState};
use crate::tt_core::TtCore;

/// A kind's name, and the function that draws a case of it.
pub type Kind = (&'static str, fn(&mut Random, &Most, &mut Line));

pub const KINDS: [Kind; 11] = [
    ("round", round),
    ("inner", inner),
    ("start", start),
    ("entry", entry),
    ("step", step),
    ("edge", edge),
    ("evolve", evolve),
    ("pair", pair),
    ("root", root),
    ("floor", floor),
    ("weights", weights),
];

/// The kinds whose cases are also drawn so that they overflow.
pub const SPILT: [Kind; 5] = [
    ("round", spilt_round),
    ("inner", spilt_inner),
    ("step", spilt_step),
    ("evolve", spilt_evolve),
    ("pair", spilt_pair),
];

fn refused(line: &mut Line, why: &Refused) {
    match why {
        Refused::NotFinite(flaw) => line
            .word("nonfinite")
            .word(flaw.made.name())
            .word(flaw.core)
            .word(flaw.index),
        Refused::Far(axis) => line.word("far").word(axis),
        Refused::Rank(rank) => line.word("wide").word(rank),
    };
}

/// The right rank of each core, the bonds' counts, flags and dropped values, and the chain.
fn ended(line: &mut Line, cores: &[TtCore<f64>], end: Result<Bonds, Refused>) {
    match end {
        Err(why) => refused(line, &why),
        Ok(bonds) => {
            let ranks: Vec<usize> = cores.iter().map(|c| c.r_right).collect();
            let settled: Vec<u8> = bonds.settled.iter().map(|&b| u8::from(b)).collect();
            line.words("ranks", &ranks)
                .words("sweeps", &bonds.sweeps)
                .words("settled", &settled)
                .floats("dropped", &bonds.dropped)
                .chain(cores);
        }
    }
}

/// What the Rust makes of a chain.
pub fn rounded(line: &mut Line, mut cores: Vec<TtCore<f64>>, cutting: Cutting) {
    line.answer();
    let end = calls::round(&mut cores, cutting);
    ended(line, &cores, end);
}

fn one_cut(line: &mut Line, cores: Vec<TtCore<f64>>, cutting: Cutting) {
    line.shape(&cores).cutting(cutting).chain(&cores);
    rounded(line, cores, cutting);
}

fn round(r: &mut Random, most: &Most, line: &mut Line) {
    let cores = draw::chain(r, most);
    let cutting = draw::cutting(r);
    one_cut(line, cores, cutting);
}

fn spilt_round(r: &mut Random, most: &Most, line: &mut Line) {
    let cores = spill::rounding(r, most);
    let cutting = spill::cutting(r);
    one_cut(line, cores, cutting);
}

/// The figure of a chain and weights.
pub fn summed(line: &mut Line, cores: Vec<TtCore<f64>>, weights: &[Vec<f64>]) {
    line.answer();
    match calls::inner(&TtState { cores }, weights) {
        Ok(figure) => _ = line.float("figure", figure),
        Err(why) => refused(line, &why),
    }
}

fn weighted(line: &mut Line, cores: Vec<TtCore<f64>>, weights: &[Vec<f64>]) {
    line.shape(&cores)
        .chain(&cores)
        .floats("weights", &weights.concat());
    summed(line, cores, weights);
}

fn inner(r: &mut Random, most: &Most, line: &mut Line) {
    let cores = draw::chain(r, most);
    let weights = draw::weights(r, &cores);
    weighted(line, cores, &weights);
}

fn spilt_inner(r: &mut Random, most: &Most, line: &mut Line) {
    let (cores, weights) = spill::product(r, most);
    weighted(line, cores, &weights);
}

fn start(r: &mut Random, most: &Most, line: &mut Line) {
    let cores = draw::chain(r, most);
    let vectors = draw::weights(r, &cores);
    line.shape(&cores)
        .floats("vectors", &vectors.concat())
        .answer();
    let made = TtState::rank1_separable(vectors).cores;
    let sizes = |c: &TtCore<f64>| (c.r_left, c.n);
    assert!(
        made.iter().map(sizes).eq(cores.iter().map(|c| (1, c.n))),
        "the start has other sizes"
    );
    let ranks: Vec<usize> = made.iter().map(|c| c.r_right).collect();
    line.words("ranks", &ranks).chain(&made);
}

fn entry(r: &mut Random, most: &Most, line: &mut Line) {
    let cores = draw::chain(r, most);
    let k = r.below(cores.len());
    let c = &cores[k];
    let (il, im, ir) = (r.below(c.r_left), r.below(c.n), r.below(c.r_right));
    line.shape(&cores)
        .chain(&cores)
        .words("at", &[k, il, im, ir])
        .answer()
        .float("value", c.get(il, im, ir));
}

/// What a step is given but for tau.
fn ruled(line: &mut Line, rule: &Rule, cores: &[TtCore<f64>]) {
    line.shape(cores)
        .axes(&rule.axes())
        .float("c", rule.rust.c)
        .cutting(rule.cutting())
        .chain(cores);
}

/// What the Rust makes of a chain in one step.
pub fn stepped(line: &mut Line, rule: &Rule, tau: f64, mut state: TtState<f64>) {
    line.answer();
    let end = calls::step(rule, tau, &mut state);
    ended(line, &state.cores, end);
}

fn one_step(line: &mut Line, rule: &Rule, tau: f64, state: TtState<f64>) {
    ruled(line, rule, &state.cores);
    line.float("tau", tau);
    stepped(line, rule, tau, state);
}

fn step(r: &mut Random, most: &Most, line: &mut Line) {
    let cores = draw::chain(r, most);
    let tau = draw::tau(r);
    let rule = rules::any(r, tau, &cores);
    one_step(line, &rule, tau, TtState { cores });
}

fn edge(r: &mut Random, most: &Most, line: &mut Line) {
    let (rule, tau, state) = rules::at_the_edge(r, most, line.index());
    one_step(line, &rule, tau, state);
}

fn spilt_step(r: &mut Random, most: &Most, line: &mut Line) {
    let (rule, tau, state) = spill::step(r, most);
    one_step(line, &rule, tau, state);
}

/// What the Rust makes of a chain in several steps.
pub fn evolved(line: &mut Line, rule: &Rule, t_final: f64, steps: usize, mut state: TtState<f64>) {
    line.answer();
    let end = calls::evolve(rule, t_final, steps, &mut state);
    ended(line, &state.cores, end);
}

fn many_steps(line: &mut Line, rule: &Rule, tau: f64, steps: usize, state: TtState<f64>) {
    let t_final = tau * steps as f64;
    ruled(line, rule, &state.cores);
    line.float("t_final", t_final).word("steps").word(steps);
    evolved(line, rule, t_final, steps, state);
}

fn evolve(r: &mut Random, most: &Most, line: &mut Line) {
    let cores = draw::chain(r, most);
    let steps = draw::count(r, most.steps);
    let tau = draw::tau(r);
    let rule = rules::any(r, tau, &cores);
    many_steps(line, &rule, tau, steps, TtState { cores });
}

fn spilt_evolve(r: &mut Random, most: &Most, line: &mut Line) {
    let (rule, tau, state) = spill::evolve(r, most);
    let steps = draw::count(r, most.steps);
    many_steps(line, &rule, tau, steps, state);
}

/// What the Rust makes of two neighbours.
pub fn split(line: &mut Line, cores: Vec<TtCore<f64>>, eps: f64) {
    let mut state = TtState { cores };
    line.answer();
    match calls::pair(&mut state, eps) {
        Err(why) => refused(line, &why),
        Ok(passes) => {
            line.word("rank")
                .word(state.cores[0].r_right)
                .word("passes")
                .word(passes);
            line.floats("left", &state.cores[0].data)
                .floats("right", &state.cores[1].data);
        }
    }
}

fn one_split(line: &mut Line, cores: Vec<TtCore<f64>>, eps: f64) {
    line.shape(&cores).float("eps", eps).chain(&cores);
    split(line, cores, eps);
}

fn pair(r: &mut Random, most: &Most, line: &mut Line) {
    let cores = draw::pair(r, most).to_vec();
    let eps = draw::eps(r);
    one_split(line, cores, eps);
}

fn spilt_pair(r: &mut Random, most: &Most, line: &mut Line) {
    let cores = spill::pair(r, most).to_vec();
    let eps = draw::eps(r);
    one_split(line, cores, eps);
}

fn root(r: &mut Random, _: &Most, line: &mut Line) {
    let x = draw::any_float(r);
    line.float("x", x).answer().float("value", x.sqrt());
}

fn floor(r: &mut Random, _: &Most, line: &mut Line) {
    let x = if r.one_in(2) {
        draw::any_float(r)
    } else {
        draw::near_whole(r)
    };
    line.float("x", x).answer().float("value", x.floor());
}

fn weights(r: &mut Random, _: &Most, line: &mut Line) {
    let t = draw::fraction(r);
    line.float("t", t)
        .answer()
        .floats("weights", &cubic_band_weights(t));
}
