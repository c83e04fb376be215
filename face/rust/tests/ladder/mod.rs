//! A chain of 16 zones whose rounding and step can be done by hand, and in which no two zones, and no two places of a record, are
//! alike; face/ladder.h has the same and says why.
use uyavsker::{Axis, Boundary, Cutting, Mode, Settings, Shape};

pub const ZONES: usize = 16;
pub const LAST: usize = ZONES - 1;
pub const LAST_POINTS: usize = 24;

/// 1 + tau*c is -1.
pub const SETTINGS: Settings = Settings {
    tau: 4.0,
    c: -0.5,
    cutting: Cutting {
        eps: 1.0 / 32.0,
        mode: Mode::Absolute,
    },
};

pub type Entry = fn(usize, (usize, usize, usize)) -> f64;

/// The rank right of zone k in the source.
pub fn source_rank(k: usize) -> usize {
    match k {
        LAST => 1,
        _ => 2 + 3 * k % 7,
    }
}

/// What a rounding with `SETTINGS` keeps of it.
pub fn kept_rank(k: usize) -> usize {
    match k {
        LAST => 1,
        _ => source_rank(k) - k % 2,
    }
}

pub fn points(k: usize) -> usize {
    9 + k
}

/// The sizes of each core with these ranks.
pub fn cores(rank: fn(usize) -> usize) -> Vec<(usize, usize, usize)> {
    let left = |k: usize| k.checked_sub(1).map_or(1, rank);
    (0..ZONES).map(|k| (left(k), points(k), rank(k))).collect()
}

pub fn shape(rank: fn(usize) -> usize) -> Shape {
    Shape::new(&cores(rank)).unwrap()
}

/// Whether a rounding of the ladder makes all 50 sweeps at bond k.
pub fn sweeps_all(k: usize) -> bool {
    k % 3 == 1
}

/// The value that a rounding of the source drops at bond k, another one at each, and 0 where it keeps all.
pub fn dropped_value(k: usize) -> f64 {
    if kept_rank(k) < source_rank(k) {
        (k + 1) as f64 * 2f64.powi(-14)
    } else {
        0.0
    }
}

pub fn last_entry(il: usize, im: usize) -> f64 {
    (1 + 1000 * il + im * im) as f64
}

// Where the shift finds point i of the last zone.
fn point_found(boundary: Boundary, i: usize) -> usize {
    let there = i % (2 * LAST_POINTS);
    match boundary {
        Boundary::Reflecting if there >= LAST_POINTS => 2 * LAST_POINTS - 1 - there,
        _ => there % LAST_POINTS,
    }
}

/// What a shift by so many points makes of an entry of the last zone.
pub fn moved(
    entry: impl Fn(usize, usize) -> f64,
    boundary: Boundary,
    (il, im): (usize, usize),
    by: usize,
) -> f64 {
    let away = |points: usize| 0.25 * entry(il, point_found(boundary, im + points));
    0.5 * entry(il, im) + away(by) + away(2 * LAST_POINTS - by)
}

pub fn source_entry(k: usize, (il, im, ir): (usize, usize, usize)) -> f64 {
    let row = k.checked_sub(1).map_or(0, |before| ir % kept_rank(before));
    if k == LAST {
        return last_entry(il, im);
    }
    if sweeps_all(k) && (il, im, ir) == (0, 0, 1) {
        return 2f64.powi(-50);
    }
    if (il, im) != (row, ir) {
        return 0.0;
    }
    if ir < kept_rank(k) {
        1.0
    } else {
        dropped_value(k)
    }
}

fn moved_once(il: usize, im: usize) -> f64 {
    moved(last_entry, boundary(LAST), (il, im), 1)
}

pub fn stepped_entry(k: usize, at: (usize, usize, usize)) -> f64 {
    match k {
        0 => -source_entry(k, at),
        LAST => moved_once(at.0, at.1),
        _ => source_entry(k, at),
    }
}

pub fn evolved_entry(k: usize, at: (usize, usize, usize)) -> f64 {
    match k {
        LAST => moved(moved_once, boundary(LAST), (at.0, at.1), 1),
        _ => source_entry(k, at),
    }
}

/// Every third zone reflects, and so does the last.
pub fn boundary(k: usize) -> Boundary {
    match k % 3 {
        0 => Boundary::Reflecting,
        _ => Boundary::Periodic,
    }
}

/// The record that moves zone k by so many points.
pub fn axis(k: usize, boundary: Boundary, by: usize) -> Axis {
    let root = (k + 1) as f64 / 8.0;
    let xmin = 0.5 - 2.0 * k as f64;
    Axis {
        a: root * root,
        b: by as f64 / 4.0 - root,
        xmin,
        xmax: xmin + 8.0 + k as f64,
        boundary,
    }
}

/// Every zone by as many points as it has, which leaves its core, or twice as many where it reflects, which does too; the last by
/// one point.
pub fn axes() -> Vec<Axis> {
    let by = |k: usize| match boundary(k) {
        _ if k == LAST => 1,
        Boundary::Periodic => points(k),
        Boundary::Reflecting => 2 * points(k),
    };
    (0..ZONES).map(|k| axis(k, boundary(k), by(k))).collect()
}

pub fn weights() -> Vec<f64> {
    let count: usize = (0..ZONES).map(points).sum();
    (0..count).map(|p| 1.0 + (p % 5) as f64 / 4.0).collect()
}

/// The numbers of the cores of these sizes, each in room for one of `room`'s, and 0 behind.
pub fn numbers(
    sizes: &[(usize, usize, usize)],
    room: &[(usize, usize, usize)],
    entry: Entry,
) -> Vec<f64> {
    let core = |k: usize, (left, n, right): (usize, usize, usize)| {
        (0..left * n * right).map(move |at| entry(k, (at / right / n, at / right % n, at % right)))
    };
    let slot = |k: usize| {
        let length = room[k].0 * room[k].1 * room[k].2;
        core(k, sizes[k]).chain(std::iter::repeat(0.0)).take(length)
    };
    (0..ZONES).flat_map(slot).collect()
}
