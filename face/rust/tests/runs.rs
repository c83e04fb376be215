//! Kept runs: what a replacement leaves is the fresh run on the present inputs.
use uyavsker::{Axis, Bond, Boundary, Cutting, Mode, Refusal, Run, Settings, Shape};

const SETTINGS: Settings = Settings {
    tau: 0.5,
    c: 0.25,
    cutting: Cutting {
        eps: 1e-12,
        mode: Mode::Absolute,
    },
};

const KEEP_ALL: Cutting = Cutting {
    eps: 0.0,
    mode: Mode::Absolute,
};

const AXES: [Axis; 3] = [
    Axis {
        a: 0.25,
        b: 0.5,
        xmin: 0.0,
        xmax: 3.0,
        boundary: Boundary::Periodic,
    },
    Axis {
        a: 1.0,
        b: -0.5,
        xmin: -1.0,
        xmax: 1.0,
        boundary: Boundary::Reflecting,
    },
    Axis {
        a: 0.0,
        b: 0.75,
        xmin: 0.0,
        xmax: 2.0,
        boundary: Boundary::Periodic,
    },
];

fn shape() -> Shape {
    Shape::new(&[(1, 4, 2), (2, 3, 3), (3, 5, 1)]).unwrap()
}

// Numbers that are all different, and no pattern of the chain's.
fn numbers(count: usize, seed: u64) -> Vec<f64> {
    let number = |i: u64| ((i * 7919 + seed * 104_729) % 1009) as f64 / 64.0 - 7.0;
    (0..count as u64).map(number).collect()
}

fn fresh(axes: &[Axis], source: Vec<f64>, weights: Vec<f64>) -> Result<Run, Refusal> {
    Run::fresh(&shape(), axes, &SETTINGS, source, weights)
}

fn first() -> Run {
    let s = shape();
    fresh(&AXES, numbers(s.entries(), 1), numbers(s.points(), 2)).unwrap()
}

fn dropped_bits(run: &Run) -> Vec<u64> {
    let bits = |bond: &Bond| bond.dropped.to_bits();
    run.bonds().iter().map(bits).collect()
}

fn assert_same(run: &Run, other: &Run) {
    assert_eq!(run.figure().to_bits(), other.figure().to_bits());
    assert_eq!(run.stepped(), other.stepped());
    assert_eq!(run.bonds(), other.bonds());
    assert_eq!(dropped_bits(run), dropped_bits(other));
    assert_eq!(
        (run.source(), run.weights()),
        (other.source(), other.weights())
    );
    assert_eq!(run.axes(), other.axes());
}

#[test]
fn a_fresh_run_is_a_step_and_its_figure() {
    let shape = Shape::new(&[(1, 4, 1)]).unwrap();
    let settings = Settings {
        tau: 1.0,
        c: 0.0,
        cutting: KEEP_ALL,
    };
    let axis = Axis {
        a: 0.25,
        b: 0.0,
        xmin: 0.0,
        xmax: 3.0,
        boundary: Boundary::Periodic,
    };
    let source = vec![4.0, 8.0, 16.0, 0.0];
    let run = Run::fresh(&shape, &[axis], &settings, source, vec![1.0, 2.0, 1.0, 1.0]).unwrap();
    assert_eq!(
        (run.stepped(), run.figure()),
        (&[4.0, 9.0, 10.0, 5.0][..], 37.0)
    );
}

#[test]
fn a_replaced_core() {
    for (zone, range) in [(0, 0..8), (1, 8..26), (2, 26..41)] {
        let mut run = first();
        let part = numbers(range.len(), 3);
        let figure = run.replace_core(zone, &part).unwrap();
        let mut source = first().source().to_vec();
        source[range].copy_from_slice(&part);
        let anew = fresh(&AXES, source, first().weights().to_vec()).unwrap();
        assert_same(&run, &anew);
        assert_eq!(figure, anew.figure());
    }
}

#[test]
fn replaced_weights() {
    for (zone, range) in [(0, 0..4), (1, 4..7), (2, 7..12)] {
        let mut run = first();
        let part = numbers(range.len(), 4);
        let figure = run.replace_weights(zone, &part).unwrap();
        let mut weights = first().weights().to_vec();
        weights[range].copy_from_slice(&part);
        let anew = fresh(&AXES, first().source().to_vec(), weights).unwrap();
        assert_same(&run, &anew);
        assert_eq!(figure, anew.figure());
    }
}

#[test]
fn a_replaced_axis() {
    for zone in 0..3 {
        let mut run = first();
        let axis = Axis {
            a: 2.0,
            b: 0.125,
            xmin: -3.0,
            xmax: 1.5,
            boundary: Boundary::Reflecting,
        };
        let figure = run.replace_axis(zone, &axis).unwrap();
        let mut axes = AXES;
        axes[zone] = axis;
        let anew = fresh(&axes, first().source().to_vec(), first().weights().to_vec()).unwrap();
        assert_same(&run, &anew);
        assert_eq!(figure, anew.figure());
    }
}

// A record that has the other boundary and is else as before.
fn turned(axis: Axis) -> Axis {
    let boundary = match axis.boundary {
        Boundary::Periodic => Boundary::Reflecting,
        Boundary::Reflecting => Boundary::Periodic,
    };
    Axis { boundary, ..axis }
}

#[test]
fn a_replaced_boundary() {
    for (zone, start) in [0, 8, 26].into_iter().enumerate() {
        let mut run = first();
        let mut axes = AXES;
        axes[zone] = turned(axes[zone]);
        let figure = run.replace_axis(zone, &axes[zone]).unwrap();
        let anew = fresh(&axes, first().source().to_vec(), first().weights().to_vec()).unwrap();
        assert_same(&run, &anew);
        assert_eq!(figure, anew.figure());
        // Every shift crosses an end, so what stands from the zone on is another, and what stands before it is as it was.
        assert_ne!(figure, first().figure());
        assert_eq!(run.stepped()[..start], first().stepped()[..start]);
        assert_ne!(run.stepped()[start..], first().stepped()[start..]);
        run.replace_axis(zone, &AXES[zone]).unwrap();
        assert_same(&run, &first());
    }
}

#[test]
fn a_replaced_boundary_of_one_point() {
    let shape = Shape::new(&[(1, 1, 2), (2, 1, 1)]).unwrap();
    let (axes, source) = ([AXES[0], AXES[1]], vec![0.3, 0.7, 1.1, 1.3]);
    let made = |axes: &[Axis]| {
        Run::fresh(&shape, axes, &SETTINGS, source.clone(), vec![1.0, 2.0]).unwrap()
    };
    for zone in 0..2 {
        let mut run = made(&axes);
        let mut other = axes;
        other[zone] = turned(axes[zone]);
        let figure = run.replace_axis(zone, &other[zone]).unwrap();
        assert_same(&run, &made(&other));
        assert_eq!(run.stepped(), made(&axes).stepped());
        assert_eq!(figure.to_bits(), made(&axes).figure().to_bits());
    }
}

fn made_with(cutting: Cutting, source: &[f64]) -> Run {
    let settings = Settings {
        cutting,
        ..SETTINGS
    };
    let weights = numbers(shape().points(), 2);
    Run::fresh(&shape(), &AXES, &settings, source.to_vec(), weights).unwrap()
}

// The run of this source, with a core replaced and held to a fresh run.
fn replaced_with(cutting: Cutting, source: &[f64], zone: usize, part: &[f64]) -> Run {
    let start = [0, 8, 26][zone];
    let (mut run, mut source) = (made_with(cutting, source), source.to_vec());
    run.replace_core(zone, part).unwrap();
    source[start..start + part.len()].copy_from_slice(part);
    assert_same(&run, &made_with(cutting, &source));
    run
}

// With eps 1 a bond keeps its largest value alone, and drops the next.
#[test]
fn a_replacement_drops_what_a_fresh_run_drops() {
    for mode in [Mode::Absolute, Mode::Scaled] {
        for (zone, count) in [8, 18, 15].into_iter().enumerate() {
            let (cutting, part) = (Cutting { eps: 1.0, mode }, numbers(count, 3));
            let run = replaced_with(cutting, &numbers(41, 1), zone, &part);
            assert!(run.bonds().iter().all(|bond| bond.dropped > 0.0));
        }
    }
}

fn times(factor: f64, numbers: &[f64]) -> Vec<f64> {
    numbers.iter().map(|x| x * factor).collect()
}

// Every number of the source is 2^-60 of another's. Scaled, that alone is what the step and the figure of three cores have of it.
#[test]
fn a_run_of_small_numbers() {
    let (small, source, part) = (2f64.powi(-60), numbers(41, 1), numbers(18, 3));
    let [absolute, scaled] =
        [Mode::Absolute, Mode::Scaled].map(|mode| Cutting { eps: 1e-12, mode });
    let run = replaced_with(scaled, &source, 1, &part);
    let (tiny, less) = (times(small, &source), times(small, &part));
    let rare = replaced_with(scaled, &tiny, 1, &less);
    let said = |run: &Run| -> Vec<_> {
        let of = |bond: &Bond| (bond.rank, bond.sweeps, bond.settled);
        run.bonds().iter().map(of).collect()
    };
    assert_eq!(said(&rare), said(&run));
    assert_eq!(rare.stepped()[..26], run.stepped()[..26]);
    assert_eq!(rare.figure(), small * small * small * run.figure());
    assert_ne!(rare.figure(), 0.0);
    assert_eq!(replaced_with(absolute, &tiny, 1, &less).figure(), 0.0);
}

fn stored(number: u8, place: usize, index: usize) -> Result<f64, Refusal> {
    Err(Refusal {
        number,
        place,
        index,
    })
}

#[test]
fn a_refused_replacement_leaves_the_run() {
    let mut run = first();
    let refusal = |number, place| stored(number, place, 0);
    assert_eq!(run.replace_core(3, &[]), refusal(4, 0));
    assert_eq!(run.replace_core(1, &[0.0; 17]), refusal(5, 5));
    assert_eq!(run.replace_weights(2, &[f64::NAN; 5]), refusal(6, 2));
    let below = Axis { a: -1.0, ..AXES[1] };
    assert_eq!(run.replace_axis(1, &below), refusal(7, 1));
    assert_same(&run, &first());
}

#[test]
fn a_refused_fresh_run() {
    let s = shape();
    let refused = |source, weights| fresh(&AXES, source, weights).unwrap_err();
    let short = refused(numbers(s.entries() - 1, 1), numbers(s.points(), 2));
    let fewer = refused(numbers(s.entries(), 1), numbers(s.points() - 1, 2));
    let told = [short, fewer].map(Err::<f64, _>);
    assert_eq!(told, [stored(5, 0, 0), stored(5, 1, 0)]);
}

// A run in which nothing moves.
fn still(cores: &[(usize, usize, usize)], source: &[f64], weights: &[f64]) -> Run {
    let (shape, axes) = (
        Shape::new(cores).unwrap(),
        vec![Axis::default(); cores.len()],
    );
    let settings = Settings {
        tau: 1.0,
        c: 0.0,
        cutting: KEEP_ALL,
    };
    Run::fresh(&shape, &axes, &settings, source.to_vec(), weights.to_vec()).unwrap()
}

#[test]
fn a_wild_forecast_and_a_wild_weight_are_told_apart() {
    let source = [3.0, 0.0, 0.0, 4.0, 1.0, 1.0];
    let mut run = still(&[(1, 2, 2), (2, 1, 1)], &source, &[1.0, 2.0, 1.0]);
    let before = run.clone();
    // The Gram matrix is 9, 0; 0, 1e400.
    let first = run.replace_core(0, &[3.0, 0.0, 0.0, 1e200]);
    // The carry 0, 4; 3, 0 makes 4; 3e308 of it.
    let last = run.replace_core(1, &[1e308, 1.0]);
    // The sums 2, 1 and the core 4, 3 make 8e308 of it at once.
    let weight = run.replace_weights(1, &[1e308]);
    let told = [stored(12, 0, 3), stored(13, 1, 1), stored(14, 1, 0)];
    assert_eq!([first, last, weight], told);
    assert_same(&run, &before);
}

#[test]
fn a_wild_axis() {
    let m = f64::MAX;
    let source = [1.0, 0.0, 1.0, 1.0, 1.0, 1.0, 1.0, 0.0, m, m, m, 0.0];
    let mut run = still(&[(1, 1, 2), (2, 5, 1)], &source, &[1.0; 6]);
    let half = Axis {
        b: 0.5,
        xmax: 4.0,
        ..Axis::default()
    };
    // By half a point, 0.78125 of point 2 and 0.125 of each neighbour are 1.03125 m: row 1 of 5 points, point 2.
    assert_eq!(run.replace_axis(1, &half), stored(9, 1, 7));
    // Row 1 isn't kept, so the figure is that of row 0.
    assert_eq!(run.figure(), 5.0);
}
