//! The rows that are measured: one call of the port and one of the Rust on the same inputs.
use crate::chains::{flat, scratch_for, shape_of};
use crate::clock::Clock;
use crate::model::{self, Run};
use crate::port::{self, Axis, Bond, Course, Cutting, Record, Settings, Shape};
use crate::{files, table};
use oracle::draw::{self, Manner};
use oracle::mode::{ABSOLUTE, SCALED};
use oracle::random::{ten_to, Random};
use oracle::reflect::{PERIODIC, REFLECTING};
use oracle::tt_chernoff::{TtChernoff, TtState};
use oracle::tt_core::{self, TtCore};
use oracle::tt_coupled_pair;
use std::hint::black_box;

/// A dense chain of one size and one rank, numbers between -1 and 1.
pub fn chain<const D: usize, const N: usize, const R: usize>() -> Vec<TtCore<f64>> {
    let mut r = Random::of_case(1, "measured", D * N * R);
    let rank = |k: usize| if k == 0 || k == D { 1 } else { R };
    (0..D)
        .map(|k| draw::core(&mut r, Manner::Plain, 1.0, rank(k), N, rank(k + 1)))
        .collect()
}

fn shape(cores: &[TtCore<f64>]) -> Shape {
    shape_of(&mut Random::of_case(1, "measured", 0), cores)
}

fn weights(cores: &[TtCore<f64>]) -> Vec<Vec<f64>> {
    let list = |n: usize| (0..n).map(|i| 1.0 / (1.0 + i as f64)).collect();
    cores.iter().map(|c| list(c.n)).collect()
}

const TAU: f64 = 0.1;
const C: f64 = 0.05;
const EPS: f64 = 1e-12;
const AXIS: Axis = Axis {
    a: 0.3,
    b: 0.1,
    xmin: 0.0,
    xmax: 4.0,
    boundary: PERIODIC,
};

/// With a tau of 1 a distance of none; and one of all 64 points, which brings every number back to its place.
pub const NO_TRIP: Axis = Axis {
    a: 0.0,
    b: 0.0,
    xmin: 0.0,
    xmax: 63.0,
    boundary: PERIODIC,
};
pub const ROUND_TRIP: Axis = Axis { b: 64.0, ..NO_TRIP };

/// A distance of twice all points, which does so whether the axis is periodic or reflects: the bonds have the same work.
fn twice_round(n: usize, boundary: usize) -> Axis {
    Axis {
        b: 2.0 * n as f64,
        xmax: n as f64 - 1.0,
        boundary,
        ..NO_TRIP
    }
}

pub fn settings(tau: f64, mode: usize) -> Settings {
    Settings {
        tau,
        c: C,
        cutting: Cutting { eps: EPS, mode },
    }
}

/// The Rust's rule, which is of periodic axes and the absolute mode.
fn rule(d: usize, axis: Axis) -> TtChernoff<f64> {
    let domain = vec![(axis.xmin, axis.xmax); d];
    TtChernoff::new(vec![axis.a; d], vec![axis.b; d], C, domain, EPS)
}

fn round_port<const D: usize, const N: usize, const R: usize>(clock: &mut Clock, mode: usize) {
    rounded_port(clock, &chain::<D, N, R>(), mode);
}

fn round_rust<const D: usize, const N: usize, const R: usize>(clock: &mut Clock) {
    rounded_rust(clock, &chain::<D, N, R>());
}

pub fn rounded_port(clock: &mut Clock, cores: &[TtCore<f64>], mode: usize) {
    let (s, given) = (shape(cores), flat(cores));
    let mut scratch = vec![0.0; scratch_for(&given)];
    let cutting = Cutting { eps: EPS, mode };
    clock.run(
        || given.clone(),
        |chain| _ = black_box(port::tt_round(&s, cutting, chain, &mut scratch)),
    );
}

pub fn rounded_rust(clock: &mut Clock, cores: &[TtCore<f64>]) {
    clock.run(|| cores.to_vec(), |cores| tt_core::tt_round(cores, EPS));
}

/// Two cores; the first's columns are all but orthogonal: off the diagonal their Gram matrix has twice `off`.
pub fn level(off: f64) -> Vec<TtCore<f64>> {
    let mut cores = chain::<2, 64, 8>();
    for (at, x) in cores[0].data.iter_mut().enumerate() {
        let (row, column) = (at / 8, at % 8);
        *x = match row {
            _ if row == column => 1.0,
            0..8 => off,
            _ => 0.0,
        };
    }
    cores
}

fn step_port<const D: usize, const N: usize, const R: usize>(clock: &mut Clock, mode: usize) {
    moved_port(clock, &chain::<D, N, R>(), settings(TAU, mode), AXIS);
}

fn step_rust<const D: usize, const N: usize, const R: usize>(clock: &mut Clock) {
    moved_rust(clock, &chain::<D, N, R>(), TAU, AXIS);
}

fn twice_port<const D: usize, const N: usize, const R: usize>(clock: &mut Clock, boundary: usize) {
    let set = settings(1.0, ABSOLUTE);
    moved_port(clock, &chain::<D, N, R>(), set, twice_round(N, boundary));
}

fn twice_rust<const D: usize, const N: usize, const R: usize>(clock: &mut Clock) {
    moved_rust(clock, &chain::<D, N, R>(), 1.0, twice_round(N, PERIODIC));
}

pub fn moved_port(clock: &mut Clock, cores: &[TtCore<f64>], set: Settings, axis: Axis) {
    let (s, given) = (shape(cores), flat(cores));
    let mut scratch = vec![0.0; scratch_for(&given)];
    let axes = vec![axis; s.d];
    clock.run(
        || given.clone(),
        |chain| _ = black_box(port::step(&s, set, &axes, chain, &mut scratch)),
    );
}

pub fn moved_rust(clock: &mut Clock, cores: &[TtCore<f64>], tau: f64, axis: Axis) {
    let rule = rule(cores.len(), axis);
    clock.run(
        || TtState {
            cores: cores.to_vec(),
        },
        |state| rule.step(tau, state),
    );
}

fn evolve_port<const D: usize, const N: usize, const R: usize>(clock: &mut Clock) {
    let cores = chain::<D, N, R>();
    let (s, given) = (shape(&cores), flat(&cores));
    let mut scratch = vec![0.0; scratch_for(&given)];
    let course = Course {
        t_final: 10.0 * TAU,
        steps: 10,
        c: C,
        cutting: Cutting {
            eps: EPS,
            mode: ABSOLUTE,
        },
    };
    clock.run(
        || given.clone(),
        |chain| _ = black_box(port::evolve(&s, course, &[AXIS; D], chain, &mut scratch)),
    );
}

fn evolve_rust<const D: usize, const N: usize, const R: usize>(clock: &mut Clock) {
    let state = TtState {
        cores: chain::<D, N, R>(),
    };
    let rule = rule(D, AXIS);
    clock.run(|| state.clone(), |state| rule.evolve(10.0 * TAU, 10, state));
}

fn inner_port<const D: usize, const N: usize, const R: usize>(clock: &mut Clock) {
    let cores = chain::<D, N, R>();
    let (s, chain, weights) = (shape(&cores), flat(&cores), weights(&cores).concat());
    clock.run(
        || (),
        |_| _ = black_box(port::inner_separable(&s, &chain, &weights)),
    );
}

fn inner_rust<const D: usize, const N: usize, const R: usize>(clock: &mut Clock) {
    let state = TtState {
        cores: chain::<D, N, R>(),
    };
    let weights = weights(&state.cores);
    clock.run(|| (), |_| _ = black_box(state.inner_separable(&weights)));
}

fn start_port<const D: usize, const N: usize>(clock: &mut Clock) {
    let cores = chain::<D, N, 1>();
    let (s, vectors) = (shape(&cores), weights(&cores).concat());
    let mut chain = vec![0.0; vectors.len()];
    clock.run(
        || (),
        |_| _ = black_box(port::rank1_separable(&s, &vectors, &mut chain)),
    );
}

fn start_rust<const D: usize, const N: usize>(clock: &mut Clock) {
    let vectors = weights(&chain::<D, N, 1>());
    clock.run(
        || vectors.clone(),
        |vectors| _ = black_box(TtState::rank1_separable(std::mem::take(vectors))),
    );
}

/// Two cores (1, 64, 8) and (8, 64, 1): 64 rows and 64 columns of rank 8.
fn pair_port(clock: &mut Clock) {
    let [left, right] = chain::<2, 64, 8>().try_into().expect("two cores");
    let (mut lefts, mut rights) = (vec![0.0; 512], vec![0.0; 512]);
    let mut scratch = vec![0.0; 20_480];
    clock.run(
        || (),
        |_| {
            let room = [&mut lefts[..], &mut rights[..], &mut scratch[..]];
            let (sizes, cores) = ([[1, 64, 8], [8, 64, 1]], [&left.data[..], &right.data[..]]);
            _ = black_box(port::contract_and_split(sizes, EPS, cores, room));
        },
    );
}

fn pair_rust(clock: &mut Clock) {
    let state = TtState {
        cores: chain::<2, 64, 8>(),
    };
    clock.run(
        || state.clone(),
        |state| {
            let (left, right) = (&state.cores[0], &state.cores[1]);
            let slab = tt_coupled_pair::contract_slab(left, right, 1, 8, 1, 64, 64, 4096);
            tt_coupled_pair::split_slab_into_cores(state, 0, 1, &slab, 1, 1, 64, 64, 4096, EPS);
        },
    );
}

/// A run on a dense chain, made fresh by the port.
fn run<const D: usize, const N: usize, const R: usize>(mode: usize) -> Run {
    let cores = chain::<D, N, R>();
    let record = Record {
        shape: shape(&cores),
        axes: [AXIS; 16],
        settings: settings(TAU, mode),
        bonds: [Bond::default(); 16],
        figure: 0.0,
    };
    let (source, weights) = (flat(&cores), weights(&cores).concat());
    let (chain, carries, sums) = (vec![], vec![], vec![]);
    let mut run = model::blank(&Run {
        record,
        source,
        weights,
        chain,
        carries,
        sums,
    });
    let mut scratch = vec![0.0; scratch_for(&run.source)];
    (_, run.record) = port::fresh_run(&run.record.clone(), slices(&mut run), &mut scratch);
    run
}

fn slices(run: &mut Run) -> port::Slices<'_> {
    [
        &mut run.source,
        &mut run.weights,
        &mut run.chain,
        &mut run.carries,
        &mut run.sums,
    ]
}

fn fresh_port<const D: usize, const N: usize, const R: usize>(clock: &mut Clock, mode: usize) {
    let mut run = run::<D, N, R>(mode);
    let record = run.record.clone();
    let mut scratch = vec![0.0; scratch_for(&run.source)];
    clock.run(
        || (),
        |_| _ = black_box(port::fresh_run(&record, slices(&mut run), &mut scratch)),
    );
}

/// The Rust has no runs: after a new core or axis record it makes the step and the inner product, after new weights the product.
fn fresh_rust<const D: usize, const N: usize, const R: usize>(clock: &mut Clock) {
    let state = TtState {
        cores: chain::<D, N, R>(),
    };
    let (rule, weights) = (rule(D, AXIS), weights(&state.cores));
    clock.run(
        || state.clone(),
        |state| {
            rule.step(TAU, state);
            _ = black_box(state.inner_separable(&weights));
        },
    );
}

/// The zone's own core, axis record or weights, given anew.
fn replace_port(clock: &mut Clock, mut run: Run, zone: usize, what: &str) {
    let (record, s) = (run.record.clone(), run.record.shape.clone());
    let core = table::part(&run.source, |k| table::core_size(&s, k), zone).to_vec();
    let points = table::part(&run.weights, |k| s.n[k], zone).to_vec();
    let mut scratch = vec![0.0; scratch_for(&run.source)];
    clock.run(
        || (),
        |_| {
            let (held, room) = (slices(&mut run), &mut scratch[..]);
            _ = black_box(match what {
                "core" => port::replace_core(&record, zone, held, &core, room),
                "axis" => port::replace_axis(&record, zone, AXIS, held, room),
                _ => port::replace_weights(&record, zone, held, &points, room),
            });
        },
    );
}

/// Numbers of all sizes, for calls over single numbers.
fn singles() -> Vec<f64> {
    let mut r = Random::of_case(1, "measured", 0);
    (0..SINGLES)
        .map(|_| r.unit() * ten_to(r.between(-20, 20)))
        .collect()
}

const SINGLES: usize = 1000;

fn each(clock: &mut Clock, call: fn(f64) -> f64) {
    let xs = singles();
    clock.run(|| (), |_| xs.iter().for_each(|x| _ = black_box(call(*x))));
}

fn entry_port(clock: &mut Clock) {
    let cores = chain::<16, 64, 8>();
    let (s, chain) = (shape(&cores), flat(&cores));
    clock.run(
        || (),
        |_| _ = black_box(port::entry_of(&chain, &s, black_box([8, 3, 30, 5]))),
    );
}

fn entry_rust(clock: &mut Clock) {
    let cores = chain::<16, 64, 8>();
    clock.run(
        || (),
        |_| {
            let [k, il, im, ir] = black_box([8, 3, 30, 5]);
            _ = black_box(cores[k].get(il, im, ir));
        },
    );
}

fn write_port(clock: &mut Clock) {
    let cores = chain::<16, 64, 8>();
    let (s, chain) = (shape(&cores), flat(&cores));
    let mut file = files::file_of(&s, &chain);
    clock.run(
        || (),
        |_| _ = black_box(port::write_chain(&s, &chain, &mut file)),
    );
}

fn read_port(clock: &mut Clock) {
    let cores = chain::<16, 64, 8>();
    let mut chain = flat(&cores);
    let file = files::file_of(&shape(&cores), &chain);
    clock.run(
        || (),
        |_| _ = black_box(port::read_chain(&file, &mut chain)),
    );
}

type Work = fn(&mut Clock);

/// What is called, the functions that call it again and again, of the port and of the Rust where it has such a call, and how many
/// calls they make at a time.
pub struct Row {
    pub name: &'static str,
    pub port: Work,
    pub rust: Option<Work>,
    pub at_a_time: usize,
}

const fn beside(name: &'static str, port: Work, rust: Work) -> Row {
    Row {
        name,
        port,
        rust: Some(rust),
        at_a_time: 1,
    }
}

const fn single(name: &'static str, port: Work, rust: Work) -> Row {
    Row {
        name,
        port,
        rust: Some(rust),
        at_a_time: SINGLES,
    }
}

const fn alone(name: &'static str, port: Work) -> Row {
    Row {
        name,
        port,
        rust: None,
        at_a_time: 1,
    }
}

#[rustfmt::skip]
pub const ROWS: [Row; 30] = [
    beside("step, d 8, n 32, rank 4", |c| step_port::<8, 32, 4>(c, ABSOLUTE), step_rust::<8, 32, 4>),
    beside("step, d 11, n 64, rank 8", |c| step_port::<11, 64, 8>(c, ABSOLUTE), step_rust::<11, 64, 8>),
    beside("step by 2n points, d 8, n 32, rank 4", |c| twice_port::<8, 32, 4>(c, PERIODIC), twice_rust::<8, 32, 4>),
    alone("step by 2n points, d 8, n 32, rank 4, all axes reflect", |c| twice_port::<8, 32, 4>(c, REFLECTING)),
    beside("step by 2n points, d 11, n 64, rank 8", |c| twice_port::<11, 64, 8>(c, PERIODIC), twice_rust::<11, 64, 8>),
    alone("step by 2n points, d 11, n 64, rank 8, all axes reflect", |c| twice_port::<11, 64, 8>(c, REFLECTING)),
    beside("evolve of 10 steps, d 6, n 16, rank 2", evolve_port::<6, 16, 2>, evolve_rust::<6, 16, 2>),
    beside("tt_round, d 16, n 64, rank 8", |c| round_port::<16, 64, 8>(c, ABSOLUTE), round_rust::<16, 64, 8>),
    beside("tt_round, d 8, n 32, rank 4", |c| round_port::<8, 32, 4>(c, ABSOLUTE), round_rust::<8, 32, 4>),
    beside("inner_separable, d 16, n 64, rank 8", inner_port::<16, 64, 8>, inner_rust::<16, 64, 8>),
    beside("rank1_separable, d 16, n 64", start_port::<16, 64>, start_rust::<16, 64>),
    beside("contract_and_split, 64 by 64, 15 passes", pair_port, pair_rust),
    beside("fresh_run", |c| fresh_port::<11, 64, 8>(c, ABSOLUTE), fresh_rust::<11, 64, 8>),
    beside("replace_core, first zone", |c| replace_port(c, run::<11, 64, 8>(ABSOLUTE), 0, "core"), fresh_rust::<11, 64, 8>),
    beside("replace_core, middle zone", |c| replace_port(c, run::<11, 64, 8>(ABSOLUTE), 5, "core"), fresh_rust::<11, 64, 8>),
    beside("replace_core, last zone", |c| replace_port(c, run::<11, 64, 8>(ABSOLUTE), 10, "core"), fresh_rust::<11, 64, 8>),
    beside("replace_axis, middle zone", |c| replace_port(c, run::<11, 64, 8>(ABSOLUTE), 5, "axis"), fresh_rust::<11, 64, 8>),
    beside("replace_weights, first zone", |c| replace_port(c, run::<11, 64, 8>(ABSOLUTE), 0, "weights"), inner_rust::<11, 64, 8>),
    beside("replace_weights, middle zone", |c| replace_port(c, run::<11, 64, 8>(ABSOLUTE), 5, "weights"), inner_rust::<11, 64, 8>),
    beside("replace_weights, last zone", |c| replace_port(c, run::<11, 64, 8>(ABSOLUTE), 10, "weights"), inner_rust::<11, 64, 8>),
    beside("entry_of", entry_port, entry_rust),
    single("root", |c| each(c, port::root), |c| each(c, f64::sqrt)),
    single("floor", |c| each(c, port::floor), |c| each(c, f64::floor)),
    alone("write_chain, d 16, n 64, rank 8", write_port),
    alone("read_chain, d 16, n 64, rank 8", read_port),
    alone("step, d 8, n 32, rank 4, scaled", |c| step_port::<8, 32, 4>(c, SCALED)),
    alone("step, d 11, n 64, rank 8, scaled", |c| step_port::<11, 64, 8>(c, SCALED)),
    alone("tt_round, d 16, n 64, rank 8, scaled", |c| round_port::<16, 64, 8>(c, SCALED)),
    alone("tt_round, d 8, n 32, rank 4, scaled", |c| round_port::<8, 32, 4>(c, SCALED)),
    alone("fresh_run, scaled", |c| fresh_port::<11, 64, 8>(c, SCALED)),
];
