//! The port's calls, declared as face/uyavsker.h has them. All unsafe code stands here: what a call asks is that its slices are as
//! long as said and that a written one overlaps no other, which references ensure.

/// What is told of a refusal, three times 0 where there is none.
#[repr(C)]
#[derive(Clone, Copy, Debug, PartialEq)]
pub struct Told {
    pub number: u8,
    pub place: usize,
    index: usize,
}

impl Told {
    pub const ANSWERED: Told = Told {
        number: 0,
        place: 0,
        index: 0,
    };

    pub fn of([number, place, index]: [usize; 3]) -> Told {
        let number = number as u8;
        Told {
            number,
            place,
            index,
        }
    }
}

#[repr(C)]
#[derive(Clone, Debug, PartialEq)]
pub struct Shape {
    pub d: usize,
    pub left: [usize; 16],
    pub n: [usize; 16],
    pub right: [usize; 16],
}

/// One axis record.
#[repr(C)]
#[derive(Clone, Copy, Debug)]
pub struct Axis {
    pub a: f64,
    pub b: f64,
    pub xmin: f64,
    pub xmax: f64,
    pub boundary: usize,
}

impl Axis {
    pub fn numbers(&self) -> [f64; 4] {
        [self.a, self.b, self.xmin, self.xmax]
    }
}

/// By bits, as a bond.
impl PartialEq for Axis {
    fn eq(&self, other: &Axis) -> bool {
        let all = |x: &Axis| (x.numbers().map(f64::to_bits), x.boundary);
        all(self) == all(other)
    }
}

/// The records of all axes, by value.
#[repr(C)]
pub struct Axes([Axis; 16]);

/// How a cut is made.
#[repr(C)]
#[derive(Clone, Copy, Debug)]
pub struct Cutting {
    pub eps: f64,
    pub mode: usize,
}

/// What a step is given beside its axes.
#[repr(C)]
#[derive(Clone, Copy, Debug)]
pub struct Settings {
    pub tau: f64,
    pub c: f64,
    pub cutting: Cutting,
}

/// By bits, as a bond.
impl PartialEq for Settings {
    fn eq(&self, other: &Settings) -> bool {
        let all = |x: &Settings| {
            let numbers = [x.tau, x.c, x.cutting.eps].map(f64::to_bits);
            (numbers, x.cutting.mode)
        };
        all(self) == all(other)
    }
}

#[repr(C)]
#[derive(Clone, Copy)]
pub struct Course {
    pub t_final: f64,
    pub steps: usize,
    pub c: f64,
    pub cutting: Cutting,
}

/// Left rank, size and right rank of one core.
#[repr(C)]
pub struct Sizes(pub [usize; 3]);

/// What is said of a bond.
#[repr(C)]
#[derive(Clone, Copy, Debug, Default)]
pub struct Bond {
    pub rank: usize,
    pub sweeps: usize,
    pub settled: bool,
    pub dropped: f64,
}

/// By bits: a NaN that others left must stay as it is, and a zero's sign counts.
impl PartialEq for Bond {
    fn eq(&self, other: &Bond) -> bool {
        let all = |b: &Bond| (b.rank, b.sweeps, b.settled, b.dropped.to_bits());
        all(self) == all(other)
    }
}

/// What a rounding, a step and an evolve answer.
#[repr(C)]
#[derive(Clone, Debug, PartialEq)]
pub struct Rounded {
    refusal: Told,
    pub shape: Shape,
    pub bonds: [Bond; 16],
}

impl Rounded {
    pub fn of(refusal: Told, shape: Shape) -> Rounded {
        Rounded {
            refusal,
            shape,
            bonds: [Bond::default(); 16],
        }
    }
}

#[repr(C)]
pub struct Figure {
    refusal: Told,
    value: f64,
}

#[repr(C)]
pub struct Formed {
    refusal: Told,
    shape: Shape,
}

#[repr(C)]
pub struct Paired {
    refusal: Told,
    rank: usize,
    passes: usize,
}

#[repr(C)]
pub struct Seen {
    inside: bool,
    value: f64,
}

/// A kept run's record: its inputs but for source and weights, then what it keeps.
#[repr(C)]
#[derive(Clone, Debug)]
pub struct Record {
    pub shape: Shape,
    pub axes: [Axis; 16],
    pub settings: Settings,
    pub bonds: [Bond; 16],
    pub figure: f64,
}

#[repr(C)]
pub struct Ran {
    refusal: Told,
    run: Record,
}

impl Ran {
    fn told(self) -> (Told, Record) {
        (self.refusal, self.run)
    }
}

type Read<T> = *const T;
type Written<T> = *mut T;

#[rustfmt::skip]
extern "C" {
    fn uyavsker_root(x: f64) -> f64;
    fn uyavsker_floor(x: f64) -> f64;
    fn uyavsker_magnitude(x: f64) -> f64;
    fn uyavsker_entry_of(chain: Read<f64>, n: usize, s: Shape, k: usize, il: usize, im: usize, ir: usize) -> Seen;
    fn uyavsker_rank1_separable(s: Shape, vectors: Read<f64>, n: usize, chain: Written<f64>, m: usize) -> Formed;
    fn uyavsker_inner_separable(s: Shape, chain: Read<f64>, n: usize, weights: Read<f64>, m: usize) -> Figure;
    fn uyavsker_tt_round(s: Shape, cutting: Cutting, chain: Written<f64>, n: usize, scratch: Written<f64>, m: usize) -> Rounded;
    fn uyavsker_step(s: Shape, set: Settings, axes: Axes, count: usize, chain: Written<f64>, n: usize, scratch: Written<f64>, m: usize) -> Rounded;
    fn uyavsker_evolve(s: Shape, course: Course, axes: Axes, count: usize, chain: Written<f64>, n: usize, scratch: Written<f64>, m: usize) -> Rounded;
    fn uyavsker_contract_and_split(l: Sizes, r: Sizes, eps: f64, left: Read<f64>, n: usize, right: Read<f64>, m: usize,
        lefts: Written<f64>, i: usize, rights: Written<f64>, j: usize, scratch: Written<f64>, k: usize) -> Paired;
    fn uyavsker_read_chain(bytes: Read<u8>, n: usize, out: Written<f64>, m: usize) -> Formed;
    fn uyavsker_write_chain(s: Shape, chain: Read<f64>, n: usize, out: Written<u8>, m: usize) -> Told;
    fn uyavsker_fresh_run(s: Shape, axes: Axes, set: Settings, source: Read<f64>, n: usize, weights: Read<f64>, m: usize, chain: Written<f64>, i: usize,
        carries: Written<f64>, j: usize, sums: Written<f64>, k: usize, scratch: Written<f64>, l: usize) -> Ran;
    fn uyavsker_replace_core(r: Record, z: usize, source: Written<f64>, n: usize, weights: Read<f64>, m: usize, chain: Written<f64>, i: usize,
        carries: Written<f64>, j: usize, sums: Written<f64>, k: usize, part: Read<f64>, p: usize, scratch: Written<f64>, l: usize) -> Ran;
    fn uyavsker_replace_weights(r: Record, z: usize, source: Read<f64>, n: usize, weights: Written<f64>, m: usize, chain: Read<f64>, i: usize,
        carries: Read<f64>, j: usize, sums: Written<f64>, k: usize, part: Read<f64>, p: usize, scratch: Written<f64>, l: usize) -> Ran;
    fn uyavsker_replace_axis(r: Record, z: usize, axis: Axis, source: Read<f64>, n: usize, weights: Read<f64>, m: usize, chain: Written<f64>, i: usize,
        carries: Written<f64>, j: usize, sums: Written<f64>, k: usize, scratch: Written<f64>, l: usize) -> Ran;
    fn uyavsker_text_of(bytes: Read<u8>, n: usize, text: Written<u8>) -> usize;
}

pub fn root(x: f64) -> f64 {
    unsafe { uyavsker_root(x) }
}

pub fn floor(x: f64) -> f64 {
    unsafe { uyavsker_floor(x) }
}

pub fn magnitude(x: f64) -> f64 {
    unsafe { uyavsker_magnitude(x) }
}

/// The entry at a core, a left index, a point and a right index.
pub fn entry_of(chain: &[f64], s: &Shape, [k, il, im, ir]: [usize; 4]) -> Option<f64> {
    let seen = unsafe { uyavsker_entry_of(chain.as_ptr(), chain.len(), s.clone(), k, il, im, ir) };
    seen.inside.then_some(seen.value)
}

#[rustfmt::skip]
pub fn rank1_separable(s: &Shape, vectors: &[f64], chain: &mut [f64]) -> (Told, Shape) {
    let made = unsafe {
        uyavsker_rank1_separable(s.clone(), vectors.as_ptr(), vectors.len(), chain.as_mut_ptr(), chain.len())
    };
    (made.refusal, made.shape)
}

#[rustfmt::skip]
pub fn inner_separable(s: &Shape, chain: &[f64], weights: &[f64]) -> (Told, f64) {
    let told = unsafe {
        uyavsker_inner_separable(s.clone(), chain.as_ptr(), chain.len(), weights.as_ptr(), weights.len())
    };
    (told.refusal, told.value)
}

#[rustfmt::skip]
pub fn tt_round(s: &Shape, cutting: Cutting, chain: &mut [f64], scratch: &mut [f64]) -> Rounded {
    unsafe {
        uyavsker_tt_round(s.clone(), cutting, chain.as_mut_ptr(), chain.len(), scratch.as_mut_ptr(), scratch.len())
    }
}

/// What stands where there is no record: nothing that would be accepted if it were looked at.
const NONE: Axis = Axis {
    a: f64::NAN,
    b: f64::NAN,
    xmin: f64::NAN,
    xmax: f64::NAN,
    boundary: usize::MAX,
};

/// The records that there is room for; how many there are is told beside them.
fn listed(axes: &[Axis]) -> Axes {
    Axes(std::array::from_fn(|j| *axes.get(j).unwrap_or(&NONE)))
}

#[rustfmt::skip]
pub fn step(s: &Shape, set: Settings, axes: &[Axis], chain: &mut [f64], scratch: &mut [f64]) -> Rounded {
    unsafe {
        uyavsker_step(s.clone(), set, listed(axes), axes.len(),
            chain.as_mut_ptr(), chain.len(), scratch.as_mut_ptr(), scratch.len())
    }
}

#[rustfmt::skip]
pub fn evolve(s: &Shape, course: Course, axes: &[Axis], chain: &mut [f64], scratch: &mut [f64]) -> Rounded {
    unsafe {
        uyavsker_evolve(s.clone(), course, listed(axes), axes.len(),
            chain.as_mut_ptr(), chain.len(), scratch.as_mut_ptr(), scratch.len())
    }
}

/// Kept rank and passes of a pair; the room is both outputs and scratch.
#[rustfmt::skip]
pub fn contract_and_split(
    sizes: [[usize; 3]; 2],
    eps: f64,
    [left, right]: [&[f64]; 2],
    [lefts, rights, scratch]: [&mut [f64]; 3],
) -> (Told, usize, usize) {
    let made = unsafe {
        uyavsker_contract_and_split(Sizes(sizes[0]), Sizes(sizes[1]), eps,
            left.as_ptr(), left.len(), right.as_ptr(), right.len(),
            lefts.as_mut_ptr(), lefts.len(), rights.as_mut_ptr(), rights.len(), scratch.as_mut_ptr(), scratch.len())
    };
    (made.refusal, made.rank, made.passes)
}

pub fn read_chain(file: &[u8], numbers: &mut [f64]) -> (Told, Shape) {
    let (out, room) = (numbers.as_mut_ptr(), numbers.len());
    let read = unsafe { uyavsker_read_chain(file.as_ptr(), file.len(), out, room) };
    (read.refusal, read.shape)
}

pub fn write_chain(s: &Shape, chain: &[f64], file: &mut [u8]) -> Told {
    let (out, room) = (file.as_mut_ptr(), file.len());
    unsafe { uyavsker_write_chain(s.clone(), chain.as_ptr(), chain.len(), out, room) }
}

pub fn text_of(file: &[u8], text: &mut [u8; 2048]) -> usize {
    unsafe { uyavsker_text_of(file.as_ptr(), file.len(), text.as_mut_ptr()) }
}

/// The slices of a run: source, weights, chain, carries and sums.
pub type Slices<'a> = [&'a mut [f64]; 5];

#[rustfmt::skip]
pub fn fresh_run(run: &Record, [source, weights, chain, carries, sums]: Slices, scratch: &mut [f64]) -> (Told, Record) {
    unsafe {
        uyavsker_fresh_run(run.shape.clone(), Axes(run.axes), run.settings,
            source.as_ptr(), source.len(), weights.as_ptr(), weights.len(), chain.as_mut_ptr(), chain.len(),
            carries.as_mut_ptr(), carries.len(), sums.as_mut_ptr(), sums.len(), scratch.as_mut_ptr(), scratch.len())
    }.told()
}

#[rustfmt::skip]
pub fn replace_core(run: &Record, z: usize, [source, weights, chain, carries, sums]: Slices, part: &[f64], scratch: &mut [f64]) -> (Told, Record) {
    unsafe {
        uyavsker_replace_core(run.clone(), z,
            source.as_mut_ptr(), source.len(), weights.as_ptr(), weights.len(), chain.as_mut_ptr(), chain.len(),
            carries.as_mut_ptr(), carries.len(), sums.as_mut_ptr(), sums.len(), part.as_ptr(), part.len(), scratch.as_mut_ptr(), scratch.len())
    }.told()
}

#[rustfmt::skip]
pub fn replace_weights(run: &Record, z: usize, [source, weights, chain, carries, sums]: Slices, part: &[f64], scratch: &mut [f64]) -> (Told, Record) {
    unsafe {
        uyavsker_replace_weights(run.clone(), z,
            source.as_ptr(), source.len(), weights.as_mut_ptr(), weights.len(), chain.as_ptr(), chain.len(),
            carries.as_ptr(), carries.len(), sums.as_mut_ptr(), sums.len(), part.as_ptr(), part.len(), scratch.as_mut_ptr(), scratch.len())
    }.told()
}

#[rustfmt::skip]
pub fn replace_axis(run: &Record, z: usize, axis: Axis, [source, weights, chain, carries, sums]: Slices, scratch: &mut [f64]) -> (Told, Record) {
    unsafe {
        uyavsker_replace_axis(run.clone(), z, axis,
            source.as_ptr(), source.len(), weights.as_ptr(), weights.len(), chain.as_mut_ptr(), chain.len(),
            carries.as_mut_ptr(), carries.len(), sums.as_mut_ptr(), sums.len(), scratch.as_mut_ptr(), scratch.len())
    }.told()
}
