//! The shift of a core with a boundary, which the Rust doesn't have: as the Rust's own, but for the index that a term is taken from. The
//! program stops if it differs from the Rust's own by a bit: over the core where the axis is periodic, else over the core and its mirror image.
use crate::counted::same;
use crate::tt_chernoff::{apply_per_axis_shift, cubic_band_weights};
use crate::tt_core::TtCore;
use num_traits::ToPrimitive;

/// What stands behind the last point: the first again, or the last again and then all in falling order.
pub const PERIODIC: usize = 0;
pub const REFLECTING: usize = 1;
pub const BOUNDARIES: [usize; 2] = [PERIODIC, REFLECTING];

/// The point of n that stands at place i of an axis, where i may be any number.
pub fn point(boundary: usize, i: isize, n: usize) -> usize {
    if boundary == PERIODIC {
        return i.rem_euclid(n as isize) as usize;
    }
    let i = i.rem_euclid(2 * n as isize) as usize;
    if i < n {
        i
    } else {
        2 * n - 1 - i
    }
}

/// Four neighbouring places, the first so far from the point itself, and their weights.
struct Band {
    first: isize,
    weights: [f64; 4],
}

fn band(ratio: f64) -> Band {
    let whole = ratio.floor().to_isize().unwrap_or(0);
    Band {
        first: whole - 1,
        weights: cubic_band_weights(ratio - whole as f64),
    }
}

/// A half of each number, and a quarter of both bands about it.
fn moved(core: &TtCore<f64>, ratio: f64, boundary: usize) -> Vec<f64> {
    let bands = [band(ratio), band(-ratio)];
    let number = |at: usize| {
        let (il, i, ir) = (
            at / core.r_right / core.n,
            at / core.r_right % core.n,
            at % core.r_right,
        );
        let mut v = 0.5 * core.get(il, i, ir);
        for band in &bands {
            for (place, weight) in (i as isize + band.first..).zip(band.weights) {
                v += 0.25 * weight * core.get(il, point(boundary, place, core.n), ir);
            }
        }
        v
    };
    (0..core.data.len()).map(number).collect()
}

/// The points of every fibre, then the same in falling order.
fn mirrored(core: &TtCore<f64>) -> TtCore<f64> {
    let mut data = Vec::new();
    for points in core.data.chunks(core.n * core.r_right) {
        data.extend(points);
        for point in points.chunks(core.r_right).rev() {
            data.extend(point);
        }
    }
    TtCore {
        n: 2 * core.n,
        data,
        ..*core
    }
}

/// The Rust's own shift over a circle: of the axis, or of the axis and its mirror image, of which the first half is the axis.
fn round_the_circle(core: &TtCore<f64>, h: f64, dx: f64, boundary: usize) -> Vec<f64> {
    let mut circle = if boundary == PERIODIC {
        core.clone()
    } else {
        mirrored(core)
    };
    let n = circle.n;
    apply_per_axis_shift(&mut circle, h, dx, n);
    let both = circle.data.chunks(n * core.r_right);
    both.flat_map(|points| &points[..core.n * core.r_right])
        .copied()
        .collect()
}

/// `apply_per_axis_shift` with a boundary.
pub fn shift(core: &mut TtCore<f64>, h: f64, dx: f64, boundary: usize) {
    let rust = round_the_circle(core, h, dx, boundary);
    let stays = dx <= 0.0 || h == 0.0;
    if !stays {
        core.data = moved(core, h / dx, boundary);
    }
    assert!(same(&core.data, &rust), "a shift is not the Rust's");
}
