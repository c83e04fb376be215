//! The square root, floor and magnitude against the hardware's, on patterns about which they turn and on any others.
use crate::port;
use oracle::random::Random;

/// The pattern, those beside it, and all of these below zero.
fn about(bits: u64) -> impl Iterator<Item = u64> {
    (0..5).flat_map(move |i| {
        let near = bits.wrapping_add(i).wrapping_sub(2);
        [near, near ^ (1 << 63)]
    })
}

/// Every power of two, the ends of the subnormals and of the format, and every exponent with fractions at its ends and its middle.
fn fixed() -> impl Iterator<Item = u64> {
    let powers = (0..52).map(|k| 1u64 << k).chain((1..2047).map(|e| e << 52));
    let ends = [
        0,
        (1 << 52) - 1,
        0x7fef_ffff_ffff_ffff,
        0x7ff0_0000_0000_0000,
        0x7ff8_0000_0000_0000,
    ];
    let fractions = [
        0x8_0000_0000_0000u64,
        0x7_ffff_ffff_ffff,
        0x6_a09e_667f_3bcd,
        0xf_ffff_ffff_fffe,
    ];
    let inside = (0..2048u64).flat_map(move |e| fractions.map(|f| (e << 52) | f));
    powers.chain(ends).chain(inside).flat_map(about)
}

/// One of: any bits, a subnormal, a square of a whole number, the square of any f64, or what lies between two roots; and those beside it.
fn drawn(r: &mut Random) -> u64 {
    let any = r.next();
    let whole = (any >> 38) as f64;
    let root = f64::from_bits((any >> 12) | ((512 + r.below(1022) as u64) << 52));
    let step = f64::from_bits(root.to_bits() + 1);
    let bits = match r.below(8) {
        0..=1 => any,
        2 => any >> 1,
        3 => any >> r.between(12, 60),
        4 => (whole * whole).to_bits(),
        5..=6 => (root * root).to_bits(),
        _ => (root * step).to_bits(),
    };
    bits.wrapping_add(r.below(5) as u64).wrapping_sub(2)
}

fn agree(x: f64, port: f64, machine: f64) -> Result<(), String> {
    if port.to_bits() == machine.to_bits() || (port.is_nan() && machine.is_nan()) {
        return Ok(());
    }
    Err(format!(
        "of {:016x}: {:016x}, not {:016x}",
        x.to_bits(),
        port.to_bits(),
        machine.to_bits()
    ))
}

fn one(bits: u64) -> Result<(), String> {
    let x = f64::from_bits(bits);
    agree(x, port::root(x), x.sqrt()).map_err(|e| format!("root {e}"))?;
    agree(x, port::floor(x), x.floor()).map_err(|e| format!("floor {e}"))?;
    agree(x, port::magnitude(x), x.abs()).map_err(|e| format!("magnitude {e}"))
}

/// The fixed patterns, then drawn ones; how many there were.
pub fn compare(seed: u64, count: usize) -> Result<usize, String> {
    let mut r = Random::of_case(seed, "roots", 0);
    let mut made = 0;
    for bits in fixed().chain(std::iter::repeat_with(|| drawn(&mut r)).take(count)) {
        one(bits)?;
        made += 1;
    }
    Ok(made)
}
