//! The functions of the archive, and all unsafe code. What a function asks is that its slices are as long as said and that a
//! written one overlaps no other, which references ensure.
use crate::layout::*;

mod c {
    use super::*;

    extern "C" {
        pub fn uyavsker_root(x: f64) -> f64;
        pub fn uyavsker_floor(x: f64) -> f64;
        pub fn uyavsker_magnitude(x: f64) -> f64;
        pub fn uyavsker_shape_check(shape: Shape) -> Refusal;
        pub fn uyavsker_entry_of(
            chain: *const f64,
            chain_len: usize,
            shape: Shape,
            k: usize,
            il: usize,
            im: usize,
            ir: usize,
        ) -> Seen;
        pub fn uyavsker_rank1_separable(
            shape: Shape,
            vectors: *const f64,
            vectors_len: usize,
            chain: *mut f64,
            chain_len: usize,
        ) -> Formed;
        pub fn uyavsker_inner_separable(
            shape: Shape,
            chain: *const f64,
            chain_len: usize,
            weights: *const f64,
            weights_len: usize,
        ) -> Figure;
        pub fn uyavsker_tt_round(
            shape: Shape,
            cutting: Cutting,
            chain: *mut f64,
            chain_len: usize,
            scratch: *mut f64,
            scratch_len: usize,
        ) -> Rounded;
        pub fn uyavsker_step(
            shape: Shape,
            settings: Settings,
            axes: Axes,
            count: usize,
            chain: *mut f64,
            chain_len: usize,
            scratch: *mut f64,
            scratch_len: usize,
        ) -> Rounded;
        pub fn uyavsker_evolve(
            shape: Shape,
            course: Course,
            axes: Axes,
            count: usize,
            chain: *mut f64,
            chain_len: usize,
            scratch: *mut f64,
            scratch_len: usize,
        ) -> Rounded;
        pub fn uyavsker_fresh_run(
            shape: Shape,
            axes: Axes,
            settings: Settings,
            source: *const f64,
            source_len: usize,
            weights: *const f64,
            weights_len: usize,
            chain: *mut f64,
            chain_len: usize,
            carries: *mut f64,
            carries_len: usize,
            sums: *mut f64,
            sums_len: usize,
            scratch: *mut f64,
            scratch_len: usize,
        ) -> Ran;
        pub fn uyavsker_replace_core(
            run: Run,
            zone: usize,
            source: *mut f64,
            source_len: usize,
            weights: *const f64,
            weights_len: usize,
            chain: *mut f64,
            chain_len: usize,
            carries: *mut f64,
            carries_len: usize,
            sums: *mut f64,
            sums_len: usize,
            part: *const f64,
            part_len: usize,
            scratch: *mut f64,
            scratch_len: usize,
        ) -> Ran;
        pub fn uyavsker_replace_weights(
            run: Run,
            zone: usize,
            source: *const f64,
            source_len: usize,
            weights: *mut f64,
            weights_len: usize,
            chain: *const f64,
            chain_len: usize,
            carries: *const f64,
            carries_len: usize,
            sums: *mut f64,
            sums_len: usize,
            part: *const f64,
            part_len: usize,
            scratch: *mut f64,
            scratch_len: usize,
        ) -> Ran;
        pub fn uyavsker_replace_axis(
            run: Run,
            zone: usize,
            axis: Axis,
            source: *const f64,
            source_len: usize,
            weights: *const f64,
            weights_len: usize,
            chain: *mut f64,
            chain_len: usize,
            carries: *mut f64,
            carries_len: usize,
            sums: *mut f64,
            sums_len: usize,
            scratch: *mut f64,
            scratch_len: usize,
        ) -> Ran;
        pub fn uyavsker_contract_and_split(
            left: Sizes,
            right: Sizes,
            eps: f64,
            left_core: *const f64,
            left_core_len: usize,
            right_core: *const f64,
            right_core_len: usize,
            left_out: *mut f64,
            left_out_len: usize,
            right_out: *mut f64,
            right_out_len: usize,
            scratch: *mut f64,
            scratch_len: usize,
        ) -> Paired;
        pub fn uyavsker_read_chain(
            bytes: *const u8,
            bytes_len: usize,
            out: *mut f64,
            out_len: usize,
        ) -> Formed;
        pub fn uyavsker_write_chain(
            shape: Shape,
            chain: *const f64,
            chain_len: usize,
            out: *mut u8,
            out_len: usize,
        ) -> Refusal;
        pub fn uyavsker_text_of(bytes: *const u8, bytes_len: usize, text: *mut u8) -> usize;
    }
}

pub fn root(x: f64) -> f64 {
    unsafe { c::uyavsker_root(x) }
}

pub fn floor(x: f64) -> f64 {
    unsafe { c::uyavsker_floor(x) }
}

pub fn magnitude(x: f64) -> f64 {
    unsafe { c::uyavsker_magnitude(x) }
}

pub fn shape_check(shape: Shape) -> Refusal {
    unsafe { c::uyavsker_shape_check(shape) }
}

pub fn entry_of(
    chain: &[f64],
    shape: Shape,
    k: usize,
    (il, im, ir): (usize, usize, usize),
) -> Seen {
    unsafe { c::uyavsker_entry_of(chain.as_ptr(), chain.len(), shape, k, il, im, ir) }
}

pub fn rank1_separable(shape: Shape, vectors: &[f64], chain: &mut [f64]) -> Formed {
    let (v, x) = (vectors, chain);
    unsafe { c::uyavsker_rank1_separable(shape, v.as_ptr(), v.len(), x.as_mut_ptr(), x.len()) }
}

pub fn inner_separable(shape: Shape, chain: &[f64], weights: &[f64]) -> Figure {
    let (x, w) = (chain, weights);
    unsafe { c::uyavsker_inner_separable(shape, x.as_ptr(), x.len(), w.as_ptr(), w.len()) }
}

pub fn tt_round(shape: Shape, cutting: Cutting, chain: &mut [f64], scratch: &mut [f64]) -> Rounded {
    let (x, s) = (chain, scratch);
    unsafe {
        c::uyavsker_tt_round(
            shape,
            cutting,
            x.as_mut_ptr(),
            x.len(),
            s.as_mut_ptr(),
            s.len(),
        )
    }
}

pub fn step(
    shape: Shape,
    settings: Settings,
    axes: Axes,
    count: usize,
    chain: &mut [f64],
    scratch: &mut [f64],
) -> Rounded {
    let (x, s) = (chain, scratch);
    unsafe {
        c::uyavsker_step(
            shape,
            settings,
            axes,
            count,
            x.as_mut_ptr(),
            x.len(),
            s.as_mut_ptr(),
            s.len(),
        )
    }
}

pub fn evolve(
    shape: Shape,
    course: Course,
    axes: Axes,
    count: usize,
    chain: &mut [f64],
    scratch: &mut [f64],
) -> Rounded {
    let (x, s) = (chain, scratch);
    unsafe {
        c::uyavsker_evolve(
            shape,
            course,
            axes,
            count,
            x.as_mut_ptr(),
            x.len(),
            s.as_mut_ptr(),
            s.len(),
        )
    }
}

/// What a run keeps in slices of its own, and scratch.
pub struct Room<'a> {
    pub chain: &'a mut [f64],
    pub carries: &'a mut [f64],
    pub sums: &'a mut [f64],
    pub scratch: &'a mut [f64],
}

pub fn fresh_run(
    shape: Shape,
    axes: Axes,
    settings: Settings,
    source: &[f64],
    weights: &[f64],
    room: Room<'_>,
) -> Ran {
    unsafe {
        c::uyavsker_fresh_run(
            shape,
            axes,
            settings,
            source.as_ptr(),
            source.len(),
            weights.as_ptr(),
            weights.len(),
            room.chain.as_mut_ptr(),
            room.chain.len(),
            room.carries.as_mut_ptr(),
            room.carries.len(),
            room.sums.as_mut_ptr(),
            room.sums.len(),
            room.scratch.as_mut_ptr(),
            room.scratch.len(),
        )
    }
}

pub fn replace_core(
    run: Run,
    zone: usize,
    source: &mut [f64],
    weights: &[f64],
    part: &[f64],
    room: Room<'_>,
) -> Ran {
    unsafe {
        c::uyavsker_replace_core(
            run,
            zone,
            source.as_mut_ptr(),
            source.len(),
            weights.as_ptr(),
            weights.len(),
            room.chain.as_mut_ptr(),
            room.chain.len(),
            room.carries.as_mut_ptr(),
            room.carries.len(),
            room.sums.as_mut_ptr(),
            room.sums.len(),
            part.as_ptr(),
            part.len(),
            room.scratch.as_mut_ptr(),
            room.scratch.len(),
        )
    }
}

pub fn replace_weights(
    run: Run,
    zone: usize,
    source: &[f64],
    weights: &mut [f64],
    part: &[f64],
    room: Room<'_>,
) -> Ran {
    unsafe {
        c::uyavsker_replace_weights(
            run,
            zone,
            source.as_ptr(),
            source.len(),
            weights.as_mut_ptr(),
            weights.len(),
            room.chain.as_ptr(),
            room.chain.len(),
            room.carries.as_ptr(),
            room.carries.len(),
            room.sums.as_mut_ptr(),
            room.sums.len(),
            part.as_ptr(),
            part.len(),
            room.scratch.as_mut_ptr(),
            room.scratch.len(),
        )
    }
}

pub fn replace_axis(
    run: Run,
    zone: usize,
    axis: Axis,
    source: &[f64],
    weights: &[f64],
    room: Room<'_>,
) -> Ran {
    unsafe {
        c::uyavsker_replace_axis(
            run,
            zone,
            axis,
            source.as_ptr(),
            source.len(),
            weights.as_ptr(),
            weights.len(),
            room.chain.as_mut_ptr(),
            room.chain.len(),
            room.carries.as_mut_ptr(),
            room.carries.len(),
            room.sums.as_mut_ptr(),
            room.sums.len(),
            room.scratch.as_mut_ptr(),
            room.scratch.len(),
        )
    }
}

pub fn contract_and_split(
    (left, right): (Sizes, Sizes),
    eps: f64,
    (left_core, right_core): (&[f64], &[f64]),
    (left_out, right_out): (&mut [f64], &mut [f64]),
    scratch: &mut [f64],
) -> Paired {
    unsafe {
        c::uyavsker_contract_and_split(
            left,
            right,
            eps,
            left_core.as_ptr(),
            left_core.len(),
            right_core.as_ptr(),
            right_core.len(),
            left_out.as_mut_ptr(),
            left_out.len(),
            right_out.as_mut_ptr(),
            right_out.len(),
            scratch.as_mut_ptr(),
            scratch.len(),
        )
    }
}

pub fn read_chain(bytes: &[u8], out: &mut [f64]) -> Formed {
    unsafe { c::uyavsker_read_chain(bytes.as_ptr(), bytes.len(), out.as_mut_ptr(), out.len()) }
}

pub fn write_chain(shape: Shape, chain: &[f64], out: &mut [u8]) -> Refusal {
    let x = chain;
    unsafe { c::uyavsker_write_chain(shape, x.as_ptr(), x.len(), out.as_mut_ptr(), out.len()) }
}

pub fn text_of(bytes: &[u8], text: &mut [u8; TEXT]) -> usize {
    unsafe { c::uyavsker_text_of(bytes.as_ptr(), bytes.len(), text.as_mut_ptr()) }
}
