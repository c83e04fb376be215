//! What makes a case one that may be refused: sizes at and past their limits, lengths one off, numbers that aren't finite, other boundaries
//! and modes.
use crate::port::{Axis, Cutting, Shape};
use oracle::random::Random;

/// Sizes about every limit.
const SIZES: [usize; 12] = [0, 1, 2, 8, 9, 16, 17, 63, 64, 65, 1 << 32, usize::MAX];

/// Numbers that aren't finite, and finite ones at the ends of the format.
const NUMBERS: [f64; 12] = [
    f64::NAN,
    f64::NAN,
    f64::INFINITY,
    f64::INFINITY,
    f64::NEG_INFINITY,
    f64::NEG_INFINITY,
    -f64::NAN,
    f64::MAX,
    f64::MIN,
    -0.0,
    5e-324,
    -f64::MIN_POSITIVE,
];

pub fn size(r: &mut Random) -> usize {
    r.of(&SIZES)
}

/// Another count of cores, another size, or two ranks that differ.
pub fn shape(r: &mut Random, s: &mut Shape) {
    let k = r.below(s.d.clamp(1, 16));
    match r.below(6) {
        0 => s.d = r.of(&[0, 17, usize::MAX, s.d.wrapping_add(1), s.d.wrapping_sub(1)]),
        1 => s.left[k] = size(r),
        2 => s.n[k] = size(r),
        3 => s.right[k] = size(r),
        4 => s.left[k] = 1 + r.below(8),
        _ => s.right[k] = 1 + r.below(8),
    }
}

/// One more, one fewer, or none.
pub fn length<T: Clone>(r: &mut Random, xs: &mut Vec<T>) {
    let more = xs.first().cloned();
    match (r.below(5), more) {
        (0..=1, Some(x)) => xs.push(x),
        (4, _) => xs.clear(),
        _ => _ = xs.pop(),
    }
}

pub fn room(r: &mut Random, length: &mut usize) {
    *length = match r.below(5) {
        0..=1 => *length + 1,
        2..=3 => length.saturating_sub(1),
        _ => 0,
    };
}

/// Any number of the list, at any place.
pub fn number(r: &mut Random, xs: &mut [f64]) {
    if !xs.is_empty() {
        let at = r.below(xs.len());
        xs[at] = r.of(&NUMBERS);
    }
}

/// The two boundaries or modes that are known, and others; some are known ones in their lowest byte or in their lower half.
const CHOICES: [usize; 10] = [
    0,
    1,
    2,
    3,
    256,
    257,
    1 << 32,
    (1 << 32) + 1,
    1 << 63,
    usize::MAX,
];

/// One field of any record of the list.
pub fn axis(r: &mut Random, axes: &mut [Axis]) {
    if axes.is_empty() {
        return;
    }
    let at = r.below(axes.len());
    let number = r.of(&NUMBERS);
    match r.below(6) {
        0 => axes[at].a = number,
        1 => axes[at].b = number,
        2 => axes[at].xmin = number,
        3 => axes[at].xmax = number,
        _ => axes[at].boundary = r.of(&CHOICES),
    }
}

/// Another eps or another mode.
pub fn cutting(r: &mut Random, cutting: &mut Cutting) {
    match r.below(2) {
        0 => cutting.eps = setting(r),
        _ => cutting.mode = r.of(&CHOICES),
    }
}

/// A lone setting: not finite, or below zero by as little as may be.
pub fn setting(r: &mut Random) -> f64 {
    let any = r.of(&NUMBERS);
    r.of(&[any, any, any, -5e-324, -1.0, -1e300])
}
