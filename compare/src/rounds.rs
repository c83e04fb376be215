//! Roundings, and what the end of a rounding, a step and an evolve have in common.
use crate::case::{demand, spilt, told, Case, Refusal};
use crate::chains::{cores_of, cut_by, cutting_of, flat, scratch_for, shape_of};
use crate::lent::{self, Lent};
use crate::port::{self, Bond, Cutting, Rounded, Shape};
use crate::{chains, spoil, table};
use oracle::calls::{self, Bonds};
use oracle::draw::{self, Most};
use oracle::random::Random;
use oracle::spill;
use oracle::tt_core::TtCore;

/// The Rust's chain at the end, with counts, flags and dropped values.
pub struct Ended {
    pub cores: Vec<TtCore<f64>>,
    pub bonds: Bonds,
}

/// What a call that rounds must answer on a chain of this shape.
fn answer(s: &Shape, want: &Result<Ended, Refusal>) -> Rounded {
    let mut told = Rounded::of(told(want), s.clone());
    if let Ok(end) = want {
        for (k, c) in end.cores.iter().enumerate() {
            (told.shape.left[k], told.shape.right[k]) = (c.r_left, c.r_right);
        }
        for (k, made) in end.bonds.sweeps.iter().enumerate() {
            told.bonds[k] = Bond {
                rank: end.cores[k].r_right,
                sweeps: *made,
                settled: end.bonds.settled[k],
                dropped: end.bonds.dropped[k],
            };
        }
    }
    told
}

/// What a check refuses leaves scratch unwritten, everything else +0.
pub fn scratch_ends<T>(scratch: &Lent<f64>, want: &Result<T, Refusal>) -> Result<(), String> {
    match want {
        Err(Refusal::Checked(..)) => scratch.unwritten(),
        _ => scratch.holds(&[]),
    }
}

/// Holds a call that rounds to what it must answer and leave.
pub fn ended(
    s: &Shape,
    got: &Rounded,
    chain: &Lent<f64>,
    scratch: &Lent<f64>,
    want: &Result<Ended, Refusal>,
) -> Result<(), String> {
    let told = answer(s, want);
    demand(*got == told, || format!("answered {got:?}\nnot {told:?}"))?;
    match want {
        Err(_) => chain.unwritten()?,
        Ok(end) => chain.holds(&flat(&end.cores))?,
    }
    scratch_ends(scratch, want)
}

#[derive(Debug)]
pub struct Round {
    shape: Shape,
    cutting: Cutting,
    chain: Vec<f64>,
    scratch: usize,
}

impl Round {
    pub fn draw(r: &mut Random, most: &Most) -> Round {
        let (cores, cutting) = if spilt(r) {
            (spill::rounding(r, most), spill::cutting(r))
        } else {
            (chains::draw(r, most), draw::cutting(r))
        };
        let chain = flat(&cores);
        Round {
            shape: shape_of(r, &cores),
            cutting: cutting_of(cutting),
            scratch: scratch_for(&chain),
            chain,
        }
    }
}

impl Case for Round {
    type Answer = Ended;

    fn spoil(&mut self, r: &mut Random) {
        match r.below(6) {
            0 => spoil::shape(r, &mut self.shape),
            1 => spoil::length(r, &mut self.chain),
            2 => spoil::room(r, &mut self.scratch),
            3 => spoil::number(r, &mut self.chain),
            _ => spoil::cutting(r, &mut self.cutting),
        }
    }

    fn refused(&self) -> Option<Refusal> {
        table::round(&self.shape, &self.cutting, &self.chain, self.scratch)
    }

    fn rust(&self) -> Result<Ended, Refusal> {
        let mut cores = cores_of(&self.shape, &self.chain);
        let bonds = calls::round(&mut cores, cut_by(self.cutting))?;
        Ok(Ended { cores, bonds })
    }

    fn port(&self, r: &mut Random, want: &Result<Ended, Refusal>) -> Result<(), String> {
        let mut chain = Lent::of("chain", &self.chain);
        let mut scratch = lent::room(r, "scratch", self.scratch);
        let got = port::tt_round(&self.shape, self.cutting, chain.part(), scratch.part());
        ended(&self.shape, &got, &chain, &scratch, want)
    }
}
