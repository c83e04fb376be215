//! The records as C has them, with the layout that face/layout.c states too.
use crate::records::Bond;
use std::mem::{offset_of, size_of};

pub const MOST_AXES: usize = 16;
pub const TEXT: usize = 2048;

#[repr(C)]
#[derive(Clone, Copy)]
pub struct Refusal {
    pub number: u8,
    pub place: usize,
    pub index: usize,
}

#[repr(C)]
#[derive(Clone, Copy, Debug)]
pub struct Shape {
    pub d: usize,
    pub left: [usize; MOST_AXES],
    pub n: [usize; MOST_AXES],
    pub right: [usize; MOST_AXES],
}

/// The boundary is a number here: C can have any in it, and one that an enum hasn't must never be read as that enum.
#[repr(C)]
#[derive(Clone, Copy, Debug)]
pub struct Axis {
    pub a: f64,
    pub b: f64,
    pub xmin: f64,
    pub xmax: f64,
    pub boundary: usize,
}

pub const PERIODIC: usize = 0;
pub const REFLECTING: usize = 1;

#[repr(C)]
#[derive(Clone, Copy)]
pub struct Axes {
    pub axis: [Axis; MOST_AXES],
}

/// The mode is a number here, as a boundary is.
#[repr(C)]
#[derive(Clone, Copy, Debug)]
pub struct Cutting {
    pub eps: f64,
    pub mode: usize,
}

pub const ABSOLUTE: usize = 0;
pub const SCALED: usize = 1;

#[repr(C)]
#[derive(Clone, Copy, Debug)]
pub struct Settings {
    pub tau: f64,
    pub c: f64,
    pub cutting: Cutting,
}

#[repr(C)]
#[derive(Clone, Copy)]
pub struct Course {
    pub t_final: f64,
    pub steps: usize,
    pub c: f64,
    pub cutting: Cutting,
}

#[repr(C)]
#[derive(Clone, Copy)]
pub struct Sizes {
    pub left: usize,
    pub n: usize,
    pub right: usize,
}

#[repr(C)]
#[derive(Clone, Copy)]
pub struct Rounded {
    pub refusal: Refusal,
    pub shape: Shape,
    pub bonds: [Bond; MOST_AXES],
}

#[repr(C)]
#[derive(Clone, Copy)]
pub struct Figure {
    pub refusal: Refusal,
    pub value: f64,
}

#[repr(C)]
#[derive(Clone, Copy)]
pub struct Formed {
    pub refusal: Refusal,
    pub shape: Shape,
}

#[repr(C)]
#[derive(Clone, Copy)]
pub struct Paired {
    pub refusal: Refusal,
    pub rank: usize,
    pub passes: usize,
}

#[repr(C)]
#[derive(Clone, Copy)]
pub struct Seen {
    pub inside: bool,
    pub value: f64,
}

#[repr(C)]
#[derive(Clone, Copy, Debug)]
pub struct Run {
    pub shape: Shape,
    pub axes: [Axis; MOST_AXES],
    pub settings: Settings,
    pub bonds: [Bond; MOST_AXES],
    pub figure: f64,
}

#[repr(C)]
#[derive(Clone, Copy)]
pub struct Ran {
    pub refusal: Refusal,
    pub run: Run,
}

const _: () = {
    assert!(size_of::<Refusal>() == 24 && offset_of!(Refusal, number) == 0);
    assert!(offset_of!(Refusal, place) == 8 && offset_of!(Refusal, index) == 16);
    assert!(size_of::<Shape>() == 392 && offset_of!(Shape, left) == 8);
    assert!(offset_of!(Shape, n) == 136 && offset_of!(Shape, right) == 264);
    assert!(size_of::<Axis>() == 40 && offset_of!(Axis, a) == 0);
    assert!(offset_of!(Axis, b) == 8 && offset_of!(Axis, xmin) == 16);
    assert!(offset_of!(Axis, xmax) == 24 && offset_of!(Axis, boundary) == 32);
    assert!(size_of::<Axes>() == 640);
    assert!(size_of::<Cutting>() == 16 && offset_of!(Cutting, eps) == 0);
    assert!(offset_of!(Cutting, mode) == 8);
    assert!(size_of::<Settings>() == 32 && offset_of!(Settings, tau) == 0);
    assert!(offset_of!(Settings, c) == 8 && offset_of!(Settings, cutting) == 16);
    assert!(size_of::<Course>() == 40 && offset_of!(Course, t_final) == 0);
    assert!(offset_of!(Course, steps) == 8 && offset_of!(Course, c) == 16);
    assert!(offset_of!(Course, cutting) == 24);
    assert!(size_of::<Sizes>() == 24 && offset_of!(Sizes, n) == 8);
    assert!(offset_of!(Sizes, right) == 16);
    assert!(size_of::<Bond>() == 32 && offset_of!(Bond, rank) == 0);
    assert!(offset_of!(Bond, sweeps) == 8 && offset_of!(Bond, settled) == 16);
    assert!(offset_of!(Bond, dropped) == 24);
    assert!(size_of::<Rounded>() == 928 && offset_of!(Rounded, shape) == 24);
    assert!(offset_of!(Rounded, bonds) == 416);
    assert!(size_of::<Figure>() == 32 && offset_of!(Figure, value) == 24);
    assert!(size_of::<Formed>() == 416 && offset_of!(Formed, shape) == 24);
    assert!(size_of::<Paired>() == 40 && offset_of!(Paired, rank) == 24);
    assert!(offset_of!(Paired, passes) == 32);
    assert!(size_of::<Seen>() == 16 && offset_of!(Seen, value) == 8);
    assert!(size_of::<Run>() == 1584 && offset_of!(Run, axes) == 392);
    assert!(offset_of!(Run, settings) == 1032 && offset_of!(Run, bonds) == 1064);
    assert!(offset_of!(Run, figure) == 1576);
    assert!(size_of::<Ran>() == 1608 && offset_of!(Ran, run) == 24);
};
