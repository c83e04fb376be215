//! What cases are made of: sizes, cores of several manners, chains, settings and axis records.
use crate::mode::{Cutting, MODES};
use crate::random::{ten_to, Random};
use crate::reflect::{BOUNDARIES, PERIODIC};
use crate::tt_core::TtCore;

/// The most that a case may have of each.
pub struct Most {
    pub cores: usize,
    pub size: usize,
    pub rank: usize,
    pub steps: usize,
}

/// 1 to `most`: often small, at times the most.
pub fn count(r: &mut Random, most: usize) -> usize {
    let upto = match r.below(8) {
        0 => return most,
        1..=2 => most,
        3..=4 => 8,
        _ => 3,
    };
    1 + r.below(upto.min(most))
}

/// How the numbers of a core are drawn.
#[derive(Clone, Copy)]
pub enum Manner {
    /// any between -1 and 1
    Plain,
    /// whole, -3 to 3
    Whole,
    /// +0 and -0
    Zero,
    /// mostly zeros of both signs
    Sparse,
    /// each of any magnitude from 1e-160 to 1e150
    Wild,
    /// each of any magnitude from 1e-12 to 1e12
    Mixed,
    /// columns that are orthogonal and of one norm
    Level,
    /// columns that are multiples of the first ones
    Deficient,
    /// columns that nearly agree
    Near,
    /// each column a thousandth of the one before
    Graded,
    /// about 1e-8, so that a Gram matrix' squares lie about 1e-30
    Faint,
}

const MANNERS: [Manner; 18] = [
    Manner::Plain,
    Manner::Plain,
    Manner::Plain,
    Manner::Plain,
    Manner::Whole,
    Manner::Whole,
    Manner::Zero,
    Manner::Sparse,
    Manner::Wild,
    Manner::Mixed,
    Manner::Level,
    Manner::Level,
    Manner::Deficient,
    Manner::Deficient,
    Manner::Deficient,
    Manner::Near,
    Manner::Graded,
    Manner::Faint,
];

fn zero(r: &mut Random) -> f64 {
    r.of(&[0.0, -0.0])
}

fn sized(r: &mut Random, lo: i32, hi: i32) -> f64 {
    let k = r.between(lo, hi);
    r.signed() * ten_to(k)
}

fn number(r: &mut Random, manner: Manner) -> f64 {
    match manner {
        Manner::Whole => f64::from(r.between(-3, 3)),
        Manner::Zero => zero(r),
        Manner::Sparse if r.below(4) > 0 => zero(r),
        Manner::Wild => sized(r, -160, 150),
        Manner::Mixed => sized(r, -12, 12),
        Manner::Faint => sized(r, -9, -7),
        _ => r.signed(),
    }
}

/// Columns 1 and on, made from those before.
fn relate(r: &mut Random, manner: Manner, rows: usize, columns: usize, data: &mut [f64]) {
    let kept = 1 + r.below(columns);
    let factors: Vec<f64> = (0..columns)
        .map(|_| r.of(&[1.0, 1.0, -1.0, 2.0, 0.0625, 0.0, 0.3, 3.0]))
        .collect();
    for row in 0..rows {
        for j in 0..columns {
            let at = row * columns + j;
            data[at] = match manner {
                Manner::Level if row % columns == j && row < rows / columns.min(rows) * columns => {
                    r.of(&[1.0, -1.0])
                }
                Manner::Level => zero(r),
                Manner::Deficient if j >= kept => data[row * columns + j % kept] * factors[j],
                Manner::Near if j > 0 => data[row * columns] + r.signed() * 1e-9,
                Manner::Graded => data[at] * ten_to(-3 * j as i32),
                _ => data[at],
            };
        }
    }
}

pub fn core(
    r: &mut Random,
    manner: Manner,
    scale: f64,
    r_left: usize,
    n: usize,
    r_right: usize,
) -> TtCore<f64> {
    let rows = r_left * n;
    let mut data: Vec<f64> = (0..rows * r_right).map(|_| number(r, manner)).collect();
    relate(r, manner, rows, r_right, &mut data);
    data.iter_mut().for_each(|x| *x *= scale);
    TtCore {
        r_left,
        n,
        r_right,
        data,
    }
}

/// The scales of the cores: 1, or powers of ten whose product stays within 1e-160 to 1e150, or any such powers, or powers of one range:
/// so small that the squares of a Gram matrix are zero, small enough that 1e-30 decides nothing, or so large that those squares overflow.
pub fn scales(r: &mut Random, cores: usize) -> Vec<f64> {
    let way = r.below(12);
    let (at, all) = (r.below(cores), r.one_in(2));
    let mut total = 0;
    let mut scale = |k: usize| match way {
        0..=4 => 1.0,
        5..=6 => {
            let power = r.between((-160 - total).max(-160), (150 - total).min(150));
            total += power;
            ten_to(power)
        }
        7 => ten_to(r.between(-160, 150)),
        _ if k != at && !all => 1.0,
        8..=9 => ten_to(r.between(-170, -100)),
        10 => ten_to(r.between(-85, -9)),
        _ => ten_to(r.between(76, 150)),
    };
    (0..cores).map(&mut scale).collect()
}

/// How a chain's cores are drawn: all in one manner, or each in its own.
pub fn manners(r: &mut Random, cores: usize) -> Vec<Manner> {
    let one = r.of(&MANNERS);
    let each = r.one_in(3);
    (0..cores)
        .map(|_| if each { r.of(&MANNERS) } else { one })
        .collect()
}

pub fn chain(r: &mut Random, most: &Most) -> Vec<TtCore<f64>> {
    let cores = count(r, most.cores);
    let size = count(r, most.size);
    let rank = count(r, most.rank);
    chain_of(r, cores, size, rank)
}

/// So many cores; half of the bonds have this rank, three of four cores this size, the others less.
pub fn chain_of(r: &mut Random, cores: usize, size: usize, rank: usize) -> Vec<TtCore<f64>> {
    let mut bond = |k: usize| match k {
        _ if k == 0 || k == cores => 1,
        _ if r.one_in(2) => rank,
        _ => 1 + r.below(rank),
    };
    let ranks: Vec<usize> = (0..=cores).map(&mut bond).collect();
    let (scales, manners) = (scales(r, cores), manners(r, cores));
    (0..cores)
        .map(|k| {
            let n = if r.one_in(4) { count(r, size) } else { size };
            core(r, manners[k], scales[k], ranks[k], n, ranks[k + 1])
        })
        .collect()
}

/// One list of numbers per axis, as long as its core's n.
pub fn weights(r: &mut Random, cores: &[TtCore<f64>]) -> Vec<Vec<f64>> {
    let way = r.below(6);
    let manner = r.of(&[
        Manner::Plain,
        Manner::Whole,
        Manner::Mixed,
        Manner::Wild,
        Manner::Sparse,
    ]);
    let list = |r: &mut Random, n: usize| {
        let unit = r.below(n);
        (0..n)
            .map(|i| match way {
                0 => 1.0,
                1..=2 => f64::from(u8::from(i == unit)),
                _ => number(r, manner),
            })
            .collect()
    };
    cores.iter().map(|c| list(r, c.n)).collect()
}

pub fn eps(r: &mut Random) -> f64 {
    let any = r.unit();
    r.of(&[
        0.0, 0.0, 0.0, -0.0, 1e-12, 1e-12, 1e-3, 0.5, 0.5, 1.0, 2.0, any, 1e300,
    ])
}

/// About half of the cuts are scaled.
pub fn cutting(r: &mut Random) -> Cutting {
    Cutting {
        eps: eps(r),
        mode: r.of(&MODES),
    }
}

pub fn tau(r: &mut Random) -> f64 {
    let any = r.unit();
    r.of(&[
        1.0, 1.0, 1.0, 1.0, 0.5, 0.25, any, any, 0.01, 0.0, -0.0, 1e10, 1e-300,
    ])
}

pub fn reaction(r: &mut Random) -> f64 {
    let any = r.signed();
    r.of(&[0.0, 0.0, 0.0, -0.0, any, any, 1.0, -1.0, 100.0, 1e300])
}

/// One axis: a, b, the domain and the boundary.
#[derive(Clone, Copy, Debug)]
pub struct Axis {
    pub a: f64,
    pub b: f64,
    pub domain: (f64, f64),
    pub boundary: usize,
}

/// dx: usual ones, whole ones, small ones for shifts far beyond n, and those that are zero, negative or infinite.
fn domain(r: &mut Random, n: usize) -> (f64, f64) {
    let low = r.signed();
    match r.below(12) {
        0..=3 => (low, low + 4.0 * r.unit() + 0.01),
        4..=6 => (0.0, n as f64 - 1.0),
        7 => (low, low + ten_to(r.between(-9, -2))),
        8 => (low, low),
        9 => (low, low - r.unit()),
        10 => (-1.5e308, 1.5e308),
        _ => (0.0, ten_to(r.between(-3, 100))),
    }
}

/// a and b, which with tau make h: usual, whole, zero, negative, close to zero, and so that both parts cancel.
fn speeds(r: &mut Random, tau: f64) -> (f64, f64) {
    match r.below(15) {
        0..=4 => (r.unit(), 0.0),
        5..=7 => (r.unit(), r.signed()),
        8 => (
            0.25 * f64::from(r.between(0, 9)),
            f64::from(r.between(-3, 3)),
        ),
        9 => (0.25, 0.0),
        10 => (zero(r), zero(r)),
        11 => (0.0, -r.unit()),
        12 => (zero(r), r.of(&[-1.0, 1.0]) * ten_to(r.between(-30, -10))),
        13 => (r.unit() * 1e4, r.signed() * 1e4),
        _ => (0.25 * tau, -1.0),
    }
}

/// With a tau of 1, shifts about 2^31 points, the most there may be, and those that overflow or cancel at infinity.
fn edge(r: &mut Random, n: usize) -> Axis {
    let far = r.of(&[
        2147483648.0,
        2147483648.0,
        2147483647.5,
        2147483648.0000005,
        1e308,
    ]);
    let (a, b) = (r.of(&[0.0, 0.0, 0.0, 1e308]), r.of(&[1.0, -1.0]) * far);
    Axis {
        a,
        b,
        domain: (0.0, n as f64 - 1.0),
        boundary: PERIODIC,
    }
}

/// A periodic axis; `bound` makes others of it.
pub fn axis(r: &mut Random, tau: f64, n: usize) -> Axis {
    if r.one_in(24) {
        return edge(r, n);
    }
    let (a, b) = speeds(r, tau);
    Axis {
        a,
        b,
        domain: domain(r, n),
        boundary: PERIODIC,
    }
}

/// Gives axes their boundaries: all the same, so that at times the Rust's whole call can be asked, or each its own.
pub fn bound(r: &mut Random, axes: &mut [Axis]) {
    let one = r.of(&BOUNDARIES);
    let each = r.one_in(2);
    for axis in axes {
        axis.boundary = if each { r.of(&BOUNDARIES) } else { one };
    }
}

/// Two neighbouring cores whose slab has 1 to 64 rows and columns.
pub fn pair(r: &mut Random, most: &Most) -> [TtCore<f64>; 2] {
    let (left, middle, right) = (
        count(r, most.rank),
        count(r, most.rank),
        count(r, most.rank),
    );
    let nj = count(r, most.size / left.min(most.size));
    let nk = count(r, most.size / right.min(most.size));
    let (scales, manners) = (scales(r, 2), manners(r, 2));
    [
        core(r, manners[0], scales[0], left, nj, middle),
        core(r, manners[1], scales[1], middle, nk, right),
    ]
}

/// Any bit pattern that IEEE 754 has, and those about which a root or a floor turns.
pub fn any_float(r: &mut Random) -> f64 {
    let bits = r.next();
    let small = r.between(-4000, 4000);
    let special = [
        0.0,
        -0.0,
        1.0,
        -1.0,
        f64::INFINITY,
        f64::NEG_INFINITY,
        f64::NAN,
        f64::MAX,
        f64::MIN_POSITIVE,
        5e-324,
    ];
    match r.below(8) {
        0..=2 => f64::from_bits(bits),
        3 => f64::from_bits(bits >> 1),
        4 => f64::from_bits(bits >> r.between(12, 62)),
        5 => f64::from(small) / r.of(&[1.0, 2.0, 4.0, 1024.0, -7.0]),
        6 => beside(r, f64::from(small).powi(2)),
        _ => r.of(&special),
    }
}

/// x, or the next f64 above or below it
fn beside(r: &mut Random, x: f64) -> f64 {
    let bits = x.to_bits();
    f64::from_bits(r.of(&[bits, bits.wrapping_add(1), bits.wrapping_sub(1)]))
}

/// A number about which a floor turns: a whole one or its neighbour, of any size up to 2^54.
pub fn near_whole(r: &mut Random) -> f64 {
    let whole = (r.next() >> r.between(10, 63)) as f64;
    let x = beside(r, whole);
    r.of(&[x, -x])
}

/// A fraction, 0 and 1 included.
pub fn fraction(r: &mut Random) -> f64 {
    let any = r.unit();
    let low = any * ten_to(r.between(-40, 0));
    let eighths = f64::from(r.between(0, 8)) / 8.0;
    r.of(&[
        any,
        any,
        any,
        low,
        eighths,
        0.0,
        1.0,
        1.0 - f64::EPSILON / 2.0,
        f64::MIN_POSITIVE,
    ])
}
