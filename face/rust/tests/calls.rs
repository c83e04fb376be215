//! The sums done by hand, and refusals, through the wrapper.
use uyavsker::*;

const D: [f64; 6] = [3.0, 0.0, 0.0, 4.0, 1.0, 1.0];

fn shape_of_d() -> Shape {
    Shape::new(&[(1, 2, 2), (2, 1, 1)]).unwrap()
}

fn absolute(eps: f64) -> Cutting {
    let mode = Mode::Absolute;
    Cutting { eps, mode }
}

// A number to be stored isn't finite.
fn stored(number: u8, place: usize, index: usize) -> Refusal {
    Refusal {
        number,
        place,
        index,
    }
}

// Any other refusal: without an index.
fn refusal(number: u8, place: usize) -> Refusal {
    stored(number, place, 0)
}

#[test]
fn single_numbers() {
    assert_eq!(root(2.0).to_bits(), 0x3FF6_A09E_667F_3BCD);
    assert_eq!(root(2f64.powi(-208)), 2f64.powi(-104));
    assert_eq!((floor(-0.25), magnitude(-3.5)), (-1.0, 3.5));
}

#[test]
fn shapes_are_checked() {
    let refused = |cores| Shape::new(cores).unwrap_err();
    assert_eq!(refused(&[]), refusal(1, 0));
    assert_eq!(refused(&[(1, 1, 1); 17]), refusal(1, 0));
    assert_eq!(refused(&[(1, 2, 2), (2, 65, 1)]), refusal(2, 1));
    assert_eq!(refused(&[(1, 2, 2), (3, 1, 1)]), refusal(3, 0));
}

#[test]
fn a_shape_of_most_axes_keeps_every_size() {
    let core = |k: usize| (1 + k % 8, 1 + k, 1 + (k + 1) % 8);
    let cores: Vec<_> = (0..16).map(core).collect();
    let shape = Shape::new(&cores).unwrap();
    assert!(shape.cores().eq(cores));
    assert_eq!((shape.axes(), shape.points()), (16, 136));
}

#[test]
fn a_rounding() {
    let shape = shape_of_d();
    let mut chain = D;
    let mut scratch = vec![7.5; shape.scratch()];
    let rounded = tt_round(&shape, &absolute(0.0), &mut chain, &mut scratch).unwrap();
    assert_eq!(chain, [0.0, 1.0, 1.0, 0.0, 4.0, 3.0]);
    let bond = Bond {
        rank: 2,
        sweeps: 0,
        settled: true,
        dropped: 0.0,
    };
    assert_eq!(rounded.bonds(), [bond]);
    assert!(scratch.iter().all(|x| *x == 0.0));
}

#[test]
fn a_rounding_that_cuts() {
    let mut chain = Chain::new(shape_of_d(), D.to_vec()).unwrap();
    let rounded = chain.round(&absolute(0.75)).unwrap();
    // The bond's values are 4 and 3, and 3 isn't above 0.75*4.
    let bond = Bond {
        rank: 1,
        sweeps: 0,
        settled: true,
        dropped: 3.0,
    };
    assert_eq!(rounded.bonds(), [bond]);
    assert_eq!(rounded.shape, Shape::new(&[(1, 2, 1), (1, 1, 1)]).unwrap());
    assert_eq!(
        (chain.shape(), chain.numbers()),
        (&rounded.shape, &[0.0, 1.0, 4.0][..])
    );
}

#[test]
fn the_largest_value_dropped() {
    let shape = Shape::new(&[(1, 3, 3), (3, 1, 1)]).unwrap();
    let numbers = [2.0, 0.0, 0.0, 0.0, 4.0, 0.0, 0.0, 0.0, 3.0, 1.0, 1.0, 1.0];
    // The bond's values are 2, 4 and 3, of which those above eps times 4 are kept.
    for (eps, rank, dropped) in [(0.75, 1, 3.0), (0.5, 2, 2.0), (0.25, 3, 0.0)] {
        let mut chain = Chain::new(shape, numbers.to_vec()).unwrap();
        let bond = chain.round(&absolute(eps)).unwrap().bonds()[0];
        assert_eq!((bond.rank, bond.dropped), (rank, dropped));
    }
}

// The chain rounded in this mode with eps 0, and what is said of its first bond.
fn rounded(cores: &[(usize, usize, usize)], numbers: &[f64], mode: Mode) -> (Vec<f64>, Bond) {
    let mut chain = Chain::new(Shape::new(cores).unwrap(), numbers.to_vec()).unwrap();
    let bond = chain.round(&Cutting { eps: 0.0, mode }).unwrap().bonds()[0];
    (chain.numbers().to_vec(), bond)
}

fn bond(rank: usize, sweeps: usize, settled: bool) -> Bond {
    Bond {
        rank,
        sweeps,
        settled,
        dropped: 0.0,
    }
}

#[test]
fn a_small_value() {
    let (cores, small) = ([(1, 1, 1); 2], 2f64.powi(-104));
    for (mode, divided) in [(Mode::Absolute, 0.0), (Mode::Scaled, 1.0)] {
        let told = rounded(&cores, &[small, 1.0], mode);
        assert_eq!(told, (vec![divided, small], bond(1, 0, true)));
    }
}

#[test]
fn small_columns_that_are_alike() {
    let (cores, small) = ([(1, 1, 2), (2, 1, 1)], 2f64.powi(-27));
    let told = |mode| rounded(&cores, &[small, small, 1.0, 1.0], mode);
    let stay = vec![1.0, 1.0, small, small];
    assert_eq!(told(Mode::Absolute), (stay, bond(2, 0, true)));
    // They are turned once by c = 1/sqrt(2) as computed. The value is then 2^-26*c, and c*c = 1/2 - 2^-53 of 2^-26 is carried twice.
    let one = vec![1.0, 2.0 * small * (1.0 - f64::EPSILON)];
    assert_eq!(told(Mode::Scaled), (one, bond(1, 1, true)));
}

// The square of 2^-538 is 0, and so is what two columns of 2^-270 have in common once it is squared.
#[test]
fn numbers_that_are_too_small_for_the_scaled_mode() {
    let (less, least) = (2f64.powi(-270), 2f64.powi(-538));
    let none = rounded(&[(1, 1, 1); 2], &[least, 1.0], Mode::Scaled);
    assert_eq!(none, (vec![0.0, 0.0], bond(1, 0, true)));
    let cores = [(1, 1, 2), (2, 1, 1)];
    let both = rounded(&cores, &[less, less, 1.0, 1.0], Mode::Scaled);
    assert_eq!(both, (vec![1.0, 1.0, less, less], bond(2, 0, true)));
}

#[test]
fn columns_that_have_little_in_common() {
    let (cores, little) = ([(1, 2, 2), (2, 1, 1)], 2f64.powi(-50));
    let numbers = vec![1.0, little, 0.0, 1.0, 1.0, 1.0];
    // g*g is 2^-100 and below 1e-30, so no pair is turned; 2*g*g isn't, but is below 1e-30 times 1 + 1.
    let told = [Mode::Absolute, Mode::Scaled].map(|mode| rounded(&cores, &numbers, mode));
    let wanted = [bond(2, 50, false), bond(2, 0, true)].map(|bond| (numbers.clone(), bond));
    assert_eq!(told, wanted);
}

#[test]
fn large_columns_that_have_little_in_common() {
    let (cores, large) = ([(1, 2, 2), (2, 1, 1)], 2f64.powi(50));
    let numbers = [large, 1.0, 0.0, large, 1.0, 1.0];
    // g is 2^50 beside 2^100 on the diagonal: scaled, that is as above. Absolute, the pair is turned.
    let scaled = rounded(&cores, &numbers, Mode::Scaled);
    let divided = vec![1.0, 1.0 / large, 0.0, 1.0, large, large];
    assert_eq!(scaled, (divided, bond(2, 0, true)));
    assert_ne!(rounded(&cores, &numbers, Mode::Absolute).1.sweeps, 0);
}

#[test]
fn a_cut_is_absolute_unless_it_is_told_otherwise() {
    assert_eq!(Mode::default(), Mode::Absolute);
}

#[test]
fn a_setting_below_zero_is_refused_in_both_modes() {
    for mode in [Mode::Absolute, Mode::Scaled] {
        let mut chain = Chain::new(shape_of_d(), D.to_vec()).unwrap();
        let refused = chain.round(&Cutting { eps: -1.0, mode });
        assert_eq!((refused, chain.numbers()), (Err(refusal(7, 0)), &D[..]));
    }
}

#[test]
fn a_figure() {
    let shape = shape_of_d();
    assert_eq!(inner_separable(&shape, &D, &[1.0, 2.0, 1.0]), Ok(11.0));
    let short = inner_separable(&shape, &D, &[1.0, 2.0]).unwrap_err();
    assert_eq!(short, refusal(5, 1));
    assert_eq!(short.to_string(), "refused 5 at 1: a lent length is wrong");
}

#[test]
fn entries_of_cores() {
    let chain = Chain::new(shape_of_d(), D.to_vec()).unwrap();
    assert_eq!(chain.entry(0, (0, 1, 1)), Some(4.0));
    assert_eq!(chain.entry(1, (1, 0, 0)), Some(1.0));
    assert_eq!(
        (chain.entry(0, (1, 0, 0)), chain.entry(2, (0, 0, 0))),
        (None, None)
    );
}

#[test]
fn a_separable_start() {
    let chain = Chain::separable(&[&[1.0, 2.0], &[3.0]]).unwrap();
    assert_eq!(chain.shape(), &Shape::new(&[(1, 2, 1), (1, 1, 1)]).unwrap());
    assert_eq!(chain.inner(&[1.0, 1.0, 1.0]), Ok(9.0));
    let bad = Chain::separable(&[&[1.0], &[f64::NAN]]);
    assert_eq!(bad, Err(refusal(6, 1)));
}

const AXIS: Axis = Axis {
    a: 0.25,
    b: 0.0,
    xmin: 0.0,
    xmax: 3.0,
    boundary: Boundary::Periodic,
};

#[test]
fn a_step() {
    let shape = Shape::new(&[(1, 4, 1)]).unwrap();
    let settings = Settings {
        tau: 1.0,
        c: 0.0,
        cutting: absolute(0.0),
    };
    let mut chain = [4.0, 8.0, 16.0, 0.0];
    let mut scratch = vec![0.0; shape.scratch()];
    step(&shape, &settings, &[AXIS], &mut chain, &mut scratch).unwrap();
    assert_eq!(chain, [4.0, 9.0, 10.0, 5.0]);
    let two = step(&shape, &settings, &[AXIS; 2], &mut chain, &mut scratch);
    let many = step(&shape, &settings, &[AXIS; 17], &mut chain, &mut scratch);
    assert_eq!((two, many), (Err(refusal(5, 0)), Err(refusal(5, 0))));
}

// The numbers of one zone moved by so many of its points, which stand one apart.
fn moved_by(points: f64, boundary: Boundary, numbers: &[f64]) -> Vec<f64> {
    let axis = Axis {
        b: points,
        xmax: numbers.len() as f64 - 1.0,
        boundary,
        ..Axis::default()
    };
    let settings = Settings {
        tau: 1.0,
        c: 0.0,
        cutting: absolute(0.0),
    };
    let shape = Shape::new(&[(1, numbers.len(), 1)]).unwrap();
    let mut chain = Chain::new(shape, numbers.to_vec()).unwrap();
    chain.step(&settings, &[axis]).unwrap();
    chain.numbers().to_vec()
}

#[test]
fn an_axis_that_reflects() {
    let numbers = [4.0, 8.0, 16.0, 0.0];
    let by_one = [5.0, 9.0, 10.0, 4.0];
    // Half of each number, and a quarter of each that stands so far away on 4 8 16 0 0 16 8 4, which goes on like this both ways.
    let table = [
        (1.0, by_one),
        (-1.0, by_one),
        (2.0, [8.0, 5.0, 9.0, 6.0]),
        (3.0, [6.0, 6.0, 13.0, 3.0]),
        (4.0, [2.0, 12.0, 12.0, 2.0]),
        (7.0, by_one),
        (8.0, numbers),
        (-9.0, by_one),
    ];
    for (points, wanted) in table {
        assert_eq!(moved_by(points, Boundary::Reflecting, &numbers), wanted);
    }
}

#[test]
fn an_axis_reflects_only_at_its_ends() {
    let numbers: Vec<f64> = (0..12).map(|i| (i * i % 7) as f64 + 0.1).collect();
    let bits = |boundary| -> Vec<u64> {
        let moved = moved_by(0.3, boundary, &numbers);
        moved.into_iter().map(f64::to_bits).collect()
    };
    let (around, back) = (bits(Boundary::Periodic), bits(Boundary::Reflecting));
    // Less than one point away, an entry is made of two on either side.
    assert_eq!(around[2..10], back[2..10]);
    for end in [0, 1, 10, 11] {
        assert_ne!(around[end], back[end]);
    }
}

#[test]
fn an_axis_of_one_point_has_nothing_beyond_its_ends() {
    for points in [0.3, -1.0, 2.5, 1e9] {
        let [around, back] = [Boundary::Periodic, Boundary::Reflecting]
            .map(|boundary| moved_by(points, boundary, &[0.7])[0].to_bits());
        assert_eq!(around, back);
    }
}

#[test]
fn an_axis_is_periodic_unless_it_is_told_otherwise() {
    assert_eq!(Axis::default().boundary, Boundary::Periodic);
    assert_eq!(Boundary::default(), Boundary::Periodic);
}

#[test]
fn steps_of_a_course_are_single_steps() {
    let shape = Shape::new(&[(1, 4, 1)]).unwrap();
    let mut once = Chain::new(shape, vec![4.0, 8.0, 16.0, 0.0]).unwrap();
    let mut twice = once.clone();
    once.evolve(
        &Course {
            t_final: 2.0,
            steps: 2,
            c: 0.5,
            cutting: absolute(0.0),
        },
        &[AXIS],
    )
    .unwrap();
    let settings = Settings {
        tau: 1.0,
        c: 0.5,
        cutting: absolute(0.0),
    };
    twice.step(&settings, &[AXIS]).unwrap();
    twice.step(&settings, &[AXIS]).unwrap();
    assert_eq!(once, twice);
    let none = once.evolve(
        &Course {
            t_final: 2.0,
            steps: 0,
            c: 0.5,
            cutting: absolute(0.0),
        },
        &[AXIS],
    );
    assert_eq!((none, once), (Err(refusal(7, 0)), twice));
}

// Core 0 has a column of ones, which a step leaves, and two that it halves. The values that it meets are then 2, 1.5 and `third`.
fn halving(third: f64) -> Chain {
    let signs = [(1.0, 1.0), (1.0, -1.0), (-1.0, -1.0), (-1.0, 1.0)];
    let core = signs.map(|(x, y)| [1.0, 1.5 * x, third * y]).concat();
    let shape = Shape::new(&[(1, 4, 3), (3, 1, 1)]).unwrap();
    Chain::new(shape, [core, vec![1.0; 3]].concat()).unwrap()
}

#[test]
fn a_course_answers_the_greatest_value_that_it_dropped() {
    let (axes, cutting) = ([AXIS, Axis::default()], absolute(0.5));
    let (tau, c) = (1.0, 0.0);
    let course = Course {
        t_final: 3.0,
        steps: 3,
        c,
        cutting,
    };
    for third in [0.25, 0.75] {
        let mut chain = halving(third);
        let mut step = || chain.step(&Settings { tau, c, cutting }, &axes).unwrap();
        // A rounding leaves columns of length 1, so the second step meets the values 1 and 0.5, and the third 1 alone.
        let dropped = [step(), step(), step()].map(|stepped| stepped.bonds()[0].dropped);
        assert_eq!(dropped, [third, 0.5, 0.0]);
        let bond = Bond {
            rank: 1,
            sweeps: 0,
            settled: true,
            dropped: third.max(0.5),
        };
        let evolved = halving(third).evolve(&course, &axes).unwrap();
        assert_eq!(evolved.bonds(), [bond]);
    }
}

#[test]
fn a_pair() {
    let (left, right) = ([0.0, 0.0, 0.0, 4.0], [1.0, 1.0]);
    let sizes = [(1, 2, 2), (2, 1, 1)];
    let (mut first, mut second) = ([7.5; 16], [7.5; 8]);
    let mut scratch = vec![7.5; PAIR_SCRATCH];
    let outputs = [&mut first[..], &mut second[..]];
    let paired = contract_and_split(sizes, 0.0, [&left, &right], outputs, &mut scratch).unwrap();
    assert_eq!(paired, Paired { rank: 1, passes: 1 });
    assert_eq!([first[0] * second[0], first[1] * second[0]], [0.0, 4.0]);
    assert!(first[2..].iter().chain(&second[1..]).all(|x| *x == 0.0));
    let outputs = [&mut first[..], &mut second[1..]];
    let short = contract_and_split(sizes, 0.0, [&left, &right], outputs, &mut scratch);
    assert_eq!(short, Err(refusal(5, 3)));
}

#[test]
fn a_file() {
    let chain = Chain::new(shape_of_d(), D.to_vec()).unwrap();
    let file = chain.write().unwrap();
    assert_eq!(Chain::read(&file), Ok(chain));
    assert_eq!(Chain::read(&file[1..]), Err(refusal(11, 0)));
    assert_eq!(text_of(&file), "axes 2 entries 6\n0 1 2 2 32\n1 2 1 1 64\n");
    assert_eq!(text_of(b"TTC1"), "refused 11 at 4\n");
}

#[test]
fn words_are_those_of_the_header() {
    let line = |number| {
        let told = refusal(number, 0);
        let index = if told.has_index() { ", index" } else { "" };
        format!("{number}{index}: {}\n", told.words())
    };
    let lines: String = (0..=15).map(line).collect();
    assert_eq!(lines, include_str!("../../words.stdout"));
}

#[test]
fn an_index_is_told_where_there_is_one() {
    assert_eq!(
        stored(14, 2, 6).to_string(),
        "refused 14 at 2, index 6: a partial sum isn't finite"
    );
    assert_eq!(
        refusal(10, 0).to_string(),
        "refused 10 at 0: a pair's kept rank is above 8"
    );
}

// What a step of these cores refuses; nothing moves where an axis record is blank.
fn refused_step(
    cores: &[(usize, usize, usize)],
    numbers: &[f64],
    c: f64,
    axes: &[Axis],
) -> Refusal {
    let settings = Settings {
        tau: 1.0,
        c,
        cutting: absolute(0.0),
    };
    let mut chain = Chain::new(Shape::new(cores).unwrap(), numbers.to_vec()).unwrap();
    let before = chain.clone();
    let refused = chain.step(&settings, axes).unwrap_err();
    assert_eq!(chain, before);
    refused
}

#[test]
fn a_shifted_entry_that_is_too_large() {
    let half = Axis {
        b: 0.5,
        xmax: 4.0,
        ..Axis::default()
    };
    let m = f64::MAX;
    let chain = [1.0, 0.0, 1.0, 1.0, 1.0, 1.0, 1.0, 0.0, m, m, m, 0.0];
    let axes = [Axis::default(), half];
    let refused = refused_step(&[(1, 1, 2), (2, 5, 1)], &chain, 0.0, &axes);
    // By half a point, 0.78125 of point 2 and 0.125 of each neighbour are 1.03125 m: row 1 of 5 points, point 2.
    assert_eq!(refused, stored(9, 1, 7));
}

#[test]
fn a_scaled_entry_that_is_too_large() {
    let chain = [3.0, 0.0, 0.0, 1e308, 1.0, 1.0];
    let refused = refused_step(&[(1, 2, 2), (2, 1, 1)], &chain, 9.0, &[Axis::default(); 2]);
    // 1 + tau*c is 10, and 10 times the last of four entries is too much.
    assert_eq!(refused, stored(9, 0, 3));
}

// What a rounding of these cores refuses.
fn refused_rounding(cores: &[(usize, usize, usize)], numbers: &[f64]) -> Refusal {
    let mut chain = Chain::new(Shape::new(cores).unwrap(), numbers.to_vec()).unwrap();
    chain.round(&absolute(0.0)).unwrap_err()
}

#[test]
fn a_gram_matrix_that_is_too_large() {
    let chain = [1.0, 3.0, 0.0, 0.0, 1e200, 1.0, 1.0];
    let refused = refused_rounding(&[(1, 1, 1), (1, 2, 2), (2, 1, 1)], &chain);
    // The matrix of core 1 is 9, 0; 0, 1e400.
    assert_eq!(refused, stored(12, 1, 3));
}

#[test]
fn an_absorbed_core_that_is_too_large() {
    let chain = [3.0, 0.0, 0.0, 4.0, 1.0, 1e308, 1.0, 1.0];
    let refused = refused_rounding(&[(1, 2, 2), (2, 2, 1)], &chain);
    // The carry 0, 4; 3, 0 makes 4, 4; 3, 3e308 of core 1.
    assert_eq!(refused, stored(13, 1, 3));
}

#[test]
fn a_sum_that_is_too_large() {
    let shape = Shape::new(&[(1, 1, 1), (1, 1, 3), (3, 1, 1)]).unwrap();
    let chain = [1.0, 1.0, 1.0, 1e308, 1.0, 1.0, 1.0];
    let refused = inner_separable(&shape, &chain, &[1.0, 10.0, 1.0]);
    // The sums of axis 1 are 10, 10, 1e309.
    assert_eq!(refused, Err(stored(14, 1, 2)));
}

// What a pair of 2 rows refuses; the right core has two rows of as many points as the slab has columns.
fn refused_pair(left: [f64; 4], right: &[f64]) -> Refusal {
    let points = right.len() / 2;
    let (mut first, mut second) = ([7.5; 16], vec![7.5; 8 * points]);
    let mut scratch = vec![7.5; PAIR_SCRATCH];
    let outputs = [&mut first[..], &mut second[..]];
    let sizes = [(1, 2, 2), (2, points, 1)];
    let paired = contract_and_split(sizes, 0.0, [&left, right], outputs, &mut scratch);
    assert!(first.iter().chain(&second).all(|x| *x == 7.5));
    paired.unwrap_err()
}

#[test]
fn a_slab_that_is_too_large() {
    let refused = refused_pair([1.0, 0.0, 0.0, 1e200], &[1.0, 1.0, 1.0, 1e200, 1.0, 1.0]);
    // The slab is 1, 1, 1; 1e400, 1e200, 1e200, row after row.
    assert_eq!(refused, stored(9, 0, 3));
}

#[test]
fn a_value_of_a_pair_that_is_too_large() {
    let refused = refused_pair([1.0, 0.0, 0.0, 1.0], &[1.0, 0.0, 0.0, 1e200]);
    // The columns 1, 0 and 0, 1e200 aren't turned, and their values are 1 and the root of 1e400.
    assert_eq!(refused, stored(12, 0, 1));
}

#[test]
fn columns_of_a_pair_that_are_too_large() {
    let refused = refused_pair([1.0, 0.0, 0.0, 1.0], &[1.0, 0.0, 0.0, 0.0, 1e200, 1e200]);
    // Columns 1 and 2 are 0, 1e200: their products are too large for an angle, and column 1 becomes no number from row 0 on.
    assert_eq!(refused, stored(12, 0, 2));
}
