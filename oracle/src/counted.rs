//! Copies of `jacobi_gram_ev`, `jacobi_svd_trunc` and `jacobi_sweep_all` that count and watch what they make, each held to the Rust's own
//! answer, bit for bit. The first two take a mode: in the absolute one they are held, which makes them models in the scaled one.
use crate::mode::{self, Cutting, ABSOLUTE};
use crate::stored::{Made, Watch};
use crate::{tt_core, tt_dense_expm};

/// The same bits, or both not a number.
pub fn same(xs: &[f64], ys: &[f64]) -> bool {
    let one = |(x, y): (&f64, &f64)| x.to_bits() == y.to_bits() || (x.is_nan() && y.is_nan());
    xs.len() == ys.len() && xs.iter().zip(ys).all(one)
}

/// What `jacobi_gram_ev` did.
pub struct Sweeps {
    pub made: usize,
    /// no further sweep was needed at the end
    pub settled: bool,
    /// the singular values, falling
    pub values: Vec<f64>,
    /// the basis, its columns in the order of the values
    pub basis: Vec<f64>,
}

fn gram(a: &[f64], m: usize, n: usize) -> Vec<f64> {
    let mut g = vec![0.0; n * n];
    for i in 0..n {
        for j in 0..n {
            for k in 0..m {
                g[i * n + j] += a[k * n + i] * a[k * n + j];
            }
        }
    }
    g
}

fn settled(g: &[f64], n: usize, mode: usize) -> bool {
    let mut off_sq = 0.0;
    for i in 0..n {
        for j in (i + 1)..n {
            off_sq += 2.0 * g[i * n + j] * g[i * n + j];
        }
    }
    let mut diagonal = 0.0;
    for i in 0..n {
        diagonal += g[i * n + i] * g[i * n + i];
    }
    mode::settled(mode, off_sq, diagonal)
}

/// `jacobi_sweep`; after each rotation the matrix is looked at, then the basis.
fn sweep(g: &mut [f64], v: &mut [f64], n: usize, mode: usize, watch: &mut Watch) {
    for p in 0..n {
        for q in (p + 1)..n {
            let off = g[p * n + q];
            if mode::skipped(mode, off, g[p * n + p], g[q * n + q]) {
                continue;
            }
            let tau = (g[q * n + q] - g[p * n + p]) / (2.0 * off);
            let root = (1.0 + tau * tau).sqrt();
            let t = 1.0 / if tau >= 0.0 { tau + root } else { tau - root };
            let c = 1.0 / (1.0 + t * t).sqrt();
            tt_core::apply_jacobi_rotation(g, v, n, p, q, c, t * c);
            watch.look(Made::Matrix, g);
            watch.look(Made::Basis, v);
        }
    }
}

/// The columns of v in the order of the falling values.
fn in_order(values: &[f64], v: &[f64], n: usize) -> (Vec<f64>, Vec<f64>) {
    let mut order: Vec<usize> = (0..n).collect();
    order.sort_by(|&a, &b| {
        values[b]
            .partial_cmp(&values[a])
            .unwrap_or(core::cmp::Ordering::Equal)
    });
    let sorted = order.iter().map(|&i| values[i]).collect();
    let columns = (0..n * n).map(|at| v[at / n * n + order[at % n]]).collect();
    (sorted, columns)
}

/// `jacobi_gram_ev` on a matrix of m rows and n columns. It goes on behind a flaw, as the Rust does.
pub fn gram_ev(a: &[f64], m: usize, n: usize, mode: usize, watch: &mut Watch) -> Sweeps {
    let mut g = gram(a, m, n);
    let mut v = tt_core::eye_f::<f64>(n);
    watch.look(Made::Gram, &g);
    let mut made = 0;
    while made < 50 && !settled(&g, n, mode) {
        sweep(&mut g, &mut v, n, mode, watch);
        made += 1;
    }
    let unsorted: Vec<f64> = (0..n).map(|i| g[i * n + i].max(0.0).sqrt()).collect();
    watch.look(Made::Value, &unsorted);
    let (values, basis) = in_order(&unsorted, &v, n);
    if mode == ABSOLUTE {
        let (rust_values, rust_basis) = tt_core::jacobi_gram_ev(a, m, n);
        assert!(
            same(&values, &rust_values) && same(&basis, &rust_basis),
            "gram_ev is not the Rust's"
        );
    }
    Sweeps {
        made,
        settled: settled(&g, n, mode),
        values,
        basis,
    }
}

/// How many values are above the threshold, one at least.
fn kept(values: &[f64], eps: f64) -> usize {
    let largest = values[0];
    let threshold = if largest > 0.0 { eps * largest } else { 0.0 };
    values.iter().filter(|x| **x > threshold).count().max(1)
}

/// `jacobi_svd_trunc` behind its sweeps: left factor, kept values, kept columns of the basis. A value of 1 has the Rust's own `compute_u`
/// answer what is to be divided.
pub fn trunc(
    a: &[f64],
    m: usize,
    n: usize,
    cutting: Cutting,
    sweeps: &Sweeps,
) -> (Vec<f64>, Vec<f64>, Vec<f64>) {
    let r = kept(&sweeps.values, cutting.eps);
    let s = sweeps.values[..r].to_vec();
    let rows = sweeps.basis.chunks(n);
    let v: Vec<f64> = rows.flat_map(|row| &row[..r]).copied().collect();
    let mut u = tt_core::compute_u(a, m, n, &v, &vec![1.0; r], r);
    for (at, x) in u.iter_mut().enumerate() {
        let value = s[at % r];
        *x = if mode::divided(cutting.mode, value) {
            *x / value
        } else {
            0.0
        };
    }
    if cutting.mode == ABSOLUTE {
        let rust = tt_core::jacobi_svd_trunc(a, m, n, cutting.eps);
        assert!(
            same(&u, &rust.0) && same(&s, &rust.1) && same(&v, &rust.2),
            "trunc is not the Rust's"
        );
    }
    (u, s, v)
}

/// One pass over the pairs of columns; after each rotation the columns are looked at, then the basis. Whether it was quiet.
fn pass(work: &mut [f64], v: &mut [f64], m: usize, n: usize, watch: &mut Watch) -> bool {
    let mut quiet = true;
    for p in 0..n {
        for q in (p + 1)..n {
            let (mut alpha, mut bp, mut bq) = (0.0, 0.0, 0.0);
            for row in 0..m {
                let (ap, aq) = (work[p * m + row], work[q * m + row]);
                alpha += ap * aq;
                bp += ap * ap;
                bq += aq * aq;
            }
            let sq = (bp * bq).sqrt();
            if sq <= 0.0 || (alpha / sq).abs() <= 1e-14 {
                continue;
            }
            quiet = false;
            tt_dense_expm::apply_jacobi_rotation(work, v, m, n, p, q, 2.0, alpha, bp, bq);
            for (made, all, length) in [(Made::Columns, &*work, m), (Made::PairBasis, &*v, n)] {
                watch.look_at(made, all, p * length..(p + 1) * length);
                watch.look_at(made, all, q * length..(q + 1) * length);
            }
        }
    }
    quiet
}

/// `jacobi_sweep_all` on n columns of m numbers, column after column, and the basis v; both are left as the Rust leaves them.
/// Answers the passes made.
pub fn sweep_all(work: &mut [f64], v: &mut [f64], m: usize, n: usize, watch: &mut Watch) -> usize {
    let (mut rust_work, mut rust_v) = (work.to_vec(), v.to_vec());
    tt_dense_expm::jacobi_sweep_all(&mut rust_work, &mut rust_v, m, n);
    let mut made = 0;
    let mut quiet = false;
    while made < 100 && !quiet {
        quiet = pass(work, v, m, n, watch);
        made += 1;
    }
    assert!(
        same(work, &rust_work) && same(v, &rust_v),
        "sweep_all is not the Rust's"
    );
    made
}

/// The norms of the columns, and how many of them are kept: `sort_sv_descending`, which answers them sorted.
pub fn norms(work: &[f64], m: usize, n: usize, eps: f64) -> (Vec<f64>, usize) {
    let norm = |column: &[f64]| column.iter().fold(0.0, |sum, x| sum + x * x).sqrt();
    let values: Vec<f64> = work.chunks(m).map(norm).collect();
    let (order, sorted, rank) = tt_dense_expm::sort_sv_descending(work, m, n, eps);
    let in_order: Vec<f64> = order.iter().map(|&i| values[i]).collect();
    assert!(same(&in_order, &sorted), "the norms are not the Rust's");
    (values, rank)
}
