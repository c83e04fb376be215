//! The calls over slices that the caller lends. Refusal 5 gives the position of a slice in the order of docs/CALLS.md.
use crate::layout;
use crate::raw;
use crate::records::{listed, Axis, Course, Cutting, Paired, Rounded, Settings};
use crate::refusal::Refusal;
use crate::shape::{unchecked, Shape};

/// The square root of x, rounded to the nearest f64.
pub fn root(x: f64) -> f64 {
    raw::root(x)
}

/// The largest whole number that is not above x.
pub fn floor(x: f64) -> f64 {
    raw::floor(x)
}

/// x without its sign.
pub fn magnitude(x: f64) -> f64 {
    raw::magnitude(x)
}

/// Entry (il, im, ir) of a core, or none outside of it.
pub fn entry_of(
    shape: &Shape,
    chain: &[f64],
    core: usize,
    indices: (usize, usize, usize),
) -> Option<f64> {
    let seen = raw::entry_of(chain, shape.raw, core, indices);
    seen.inside.then_some(seen.value)
}

/// The separable start: a chain of rank one whose core k holds the vector of axis k. Answers its shape.
pub fn rank1_separable(
    sizes: &[usize],
    vectors: &[f64],
    chain: &mut [f64],
) -> Result<Shape, Refusal> {
    let mut shape = unchecked(&[]);
    shape.d = sizes.len();
    for (n, size) in shape.n.iter_mut().zip(sizes) {
        *n = *size;
    }
    let told = raw::rank1_separable(shape, vectors, chain);
    Refusal::or(told.refusal, Shape { raw: told.shape })
}

/// The figure: the inner product of a chain with its axes' weights.
pub fn inner_separable(shape: &Shape, chain: &[f64], weights: &[f64]) -> Result<f64, Refusal> {
    let told = raw::inner_separable(shape.raw, chain, weights);
    Refusal::or(told.refusal, told.value)
}

/// Rounds a chain, bond by bond from the left; it ends packed at the front of its slice, the rest +0.
pub fn tt_round(
    shape: &Shape,
    cutting: &Cutting,
    chain: &mut [f64],
    scratch: &mut [f64],
) -> Result<Rounded, Refusal> {
    Rounded::of(raw::tt_round(shape.raw, cutting.raw(), chain, scratch))
}

/// One step of a chain, with one record per axis.
pub fn step(
    shape: &Shape,
    settings: &Settings,
    axes: &[Axis],
    chain: &mut [f64],
    scratch: &mut [f64],
) -> Result<Rounded, Refusal> {
    let told = raw::step(
        shape.raw,
        settings.raw(),
        listed(axes),
        axes.len(),
        chain,
        scratch,
    );
    Rounded::of(told)
}

/// All steps of a course; refused at a later step, the chain is that of before the first. Of each bond it answers the last
/// step's rank, sweeps and `settled`, and the greatest `dropped` of all steps.
pub fn evolve(
    shape: &Shape,
    course: &Course,
    axes: &[Axis],
    chain: &mut [f64],
    scratch: &mut [f64],
) -> Result<Rounded, Refusal> {
    let told = raw::evolve(
        shape.raw,
        course.raw(),
        listed(axes),
        axes.len(),
        chain,
        scratch,
    );
    Rounded::of(told)
}

/// How many numbers of scratch a pair takes.
pub const PAIR_SCRATCH: usize = 20_480;

/// Two neighbouring cores, of left rank, size and right rank each, contracted and split again. The new ones stand at the
/// fronts of the outputs, which have room for the rank 8 between them.
pub fn contract_and_split(
    sizes: [(usize, usize, usize); 2],
    eps: f64,
    cores: [&[f64]; 2],
    outputs: [&mut [f64]; 2],
    scratch: &mut [f64],
) -> Result<Paired, Refusal> {
    let [left, right] = sizes.map(|(left, n, right)| layout::Sizes { left, n, right });
    let [left_out, right_out] = outputs;
    let told = raw::contract_and_split(
        (left, right),
        eps,
        (cores[0], cores[1]),
        (left_out, right_out),
        scratch,
    );
    let paired = Paired {
        rank: told.rank,
        passes: told.passes,
    };
    Refusal::or(told.refusal, paired)
}

/// Reads a chain file into room for at least as many numbers as its chain has. Answers its shape.
pub fn read_chain(bytes: &[u8], out: &mut [f64]) -> Result<Shape, Refusal> {
    let told = raw::read_chain(bytes, out);
    Refusal::or(told.refusal, Shape { raw: told.shape })
}

/// Writes the one file of a chain, into exactly its length.
pub fn write_chain(shape: &Shape, chain: &[f64], out: &mut [u8]) -> Result<(), Refusal> {
    Refusal::or(raw::write_chain(shape.raw, chain, out), ())
}

/// The text that `ttlist` prints of a file.
pub fn text_of(bytes: &[u8]) -> String {
    let mut text = [0; layout::TEXT];
    let length = raw::text_of(bytes, &mut text);
    String::from_utf8_lossy(text.get(..length).unwrap_or(&[])).into_owned()
}
