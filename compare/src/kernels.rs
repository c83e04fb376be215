//! The kernels inside the calls: the difference of two calls that differ in nothing else, or functions counted by themselves.
use crate::clock::Clock;
use crate::rows::{
    chain, level, moved_port, moved_rust, rounded_port, rounded_rust, settings, NO_TRIP, ROUND_TRIP,
};
use oracle::mode::ABSOLUTE;
use oracle::tt_chernoff::TtState;
use oracle::tt_core;
use std::hint::black_box;

type Work = fn(&mut Clock);

/// A call with the kernel and one without it, each of the port and of the Rust, and how often the kernel's unit is done.
pub struct Difference {
    pub name: &'static str,
    pub with: [Work; 2],
    pub without: [Work; 2],
    pub units: u64,
}

/// Off entries whose squares are below 1e-30 while their sum is not: all 50 sweeps are made, and none rotates.
const IDLE: f64 = 0.45e-15;

pub const DIFFERENCES: [Difference; 2] = [
    Difference {
        name: "shift, an entry (step, d 11, n 64, rank 8)",
        with: [
            |c| {
                moved_port(
                    c,
                    &chain::<11, 64, 8>(),
                    settings(1.0, ABSOLUTE),
                    ROUND_TRIP,
                )
            },
            |c| moved_rust(c, &chain::<11, 64, 8>(), 1.0, ROUND_TRIP),
        ],
        without: [
            |c| moved_port(c, &chain::<11, 64, 8>(), settings(1.0, ABSOLUTE), NO_TRIP),
            |c| moved_rust(c, &chain::<11, 64, 8>(), 1.0, NO_TRIP),
        ],
        units: 37_888,
    },
    Difference {
        name: "an idle sweep, rank 8 (tt_round, d 2, n 64)",
        with: [
            |c| rounded_port(c, &level(IDLE), ABSOLUTE),
            |c| rounded_rust(c, &level(IDLE)),
        ],
        without: [
            |c| rounded_port(c, &level(0.0), ABSOLUTE),
            |c| rounded_rust(c, &level(0.0)),
        ],
        units: 50,
    },
];

/// The products that each of absorb, Gram matrix and factor makes in the rounding of a chain with d 16, n 64, rank 8.
pub const PRODUCTS: u64 = 462_848;

/// The Rust's absorb, Gram matrix and factor by themselves, of a core 8 x 64 x 8: 32,768 products each.
pub const RUST: [(&str, Work); 3] = [
    ("absorb, a product", absorb),
    ("Gram matrix, a product", gram),
    ("factor, a product", factor),
];

pub const RUST_PRODUCTS: u64 = 32_768;

fn absorb(clock: &mut Clock) {
    let core = &chain::<3, 64, 8>()[1];
    let carry = vec![0.5; 64];
    clock.run(
        || core.clone(),
        |core| tt_core::absorb_left(&carry, core, 8),
    );
}

/// Its columns are orthogonal, so that no sweep is made.
fn gram(clock: &mut Clock) {
    let identity: Vec<f64> = (0..512 * 8)
        .map(|at| f64::from(u8::from(at / 8 == at % 8)))
        .collect();
    clock.run(
        || (),
        |_| _ = black_box(tt_core::jacobi_gram_ev(&identity, 512, 8)),
    );
}

fn factor(clock: &mut Clock) {
    let state = TtState {
        cores: chain::<3, 64, 8>(),
    };
    let (core, basis, values) = (&state.cores[1].data, [0.5; 64], [2.0; 8]);
    clock.run(
        || (),
        |_| _ = black_box(tt_core::compute_u(core, 512, 8, &basis, &values, 8)),
    );
}
