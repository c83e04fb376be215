//! How a cut is made: eps, and a mode, which exchanges three tests and nothing else. The Rust has the absolute mode alone.

/// As the Rust: everything is held against 1e-30.
pub const ABSOLUTE: usize = 0;
/// Held against 1e-30 times the diagonal, and against zero.
pub const SCALED: usize = 1;
pub const MODES: [usize; 2] = [ABSOLUTE, SCALED];

#[derive(Clone, Copy, Debug)]
pub struct Cutting {
    pub eps: f64,
    pub mode: usize,
}

const SMALL: f64 = 1e-30;

/// No further sweep is made: `sum` is that of 2*g*g over the pairs, `diagonal` that of the squared diagonal entries.
pub fn settled(mode: usize, sum: f64, diagonal: f64) -> bool {
    match mode {
        SCALED => sum < SMALL * diagonal || sum == 0.0,
        _ => sum < SMALL,
    }
}

/// Two columns aren't rotated: g is their entry, pp and qq are those on the diagonal.
pub fn skipped(mode: usize, g: f64, pp: f64, qq: f64) -> bool {
    match mode {
        SCALED => g * g < SMALL * (pp * qq) || g == 0.0,
        _ => g * g < SMALL,
    }
}

/// A left factor's column is divided by its value, and not 0.
pub fn divided(mode: usize, value: f64) -> bool {
    match mode {
        SCALED => value > 0.0,
        _ => value > SMALL,
    }
}
