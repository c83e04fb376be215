//! Pairs: two neighbouring cores contracted and split again.
use crate::case::{demand, spilt, told, Case, Refusal};
use crate::lent::{self, Lent};
use crate::rounds::scratch_ends;
use crate::{port, spoil, table};
use oracle::calls;
use oracle::draw::{self, Most};
use oracle::random::Random;
use oracle::spill;
use oracle::tt_chernoff::TtState;
use oracle::tt_core::TtCore;

#[derive(Debug)]
pub struct Pair {
    left_sizes: [usize; 3],
    right_sizes: [usize; 3],
    eps: f64,
    left: Vec<f64>,
    right: Vec<f64>,
    room: [usize; 3],
}

/// Kept rank, passes, and both cores.
pub struct Split {
    rank: usize,
    passes: usize,
    left: Vec<f64>,
    right: Vec<f64>,
}

fn core([r_left, n, r_right]: [usize; 3], data: &[f64]) -> TtCore<f64> {
    TtCore {
        r_left,
        n,
        r_right,
        data: data.to_vec(),
    }
}

impl Pair {
    pub fn draw(r: &mut Random, most: &Most) -> Pair {
        let draw = if spilt(r) { spill::pair } else { draw::pair };
        let [left, right] = draw(r, most);
        Pair {
            left_sizes: [left.r_left, left.n, left.r_right],
            right_sizes: [right.r_left, right.n, right.r_right],
            eps: draw::eps(r),
            room: [
                left.r_left * left.n * 8,
                8 * right.n * right.r_right,
                20_480,
            ],
            left: left.data,
            right: right.data,
        }
    }
}

impl Case for Pair {
    type Answer = Split;

    fn spoil(&mut self, r: &mut Random) {
        let (side, at) = (r.below(2), r.below(3));
        match r.below(9) {
            0 if side == 0 => self.left_sizes[at] = spoil::size(r),
            0 => self.right_sizes[at] = spoil::size(r),
            1 if side == 0 => spoil::length(r, &mut self.left),
            1 => spoil::length(r, &mut self.right),
            2 => spoil::room(r, &mut self.room[at]),
            3..=4 => spoil::number(r, &mut self.left),
            5..=6 => spoil::number(r, &mut self.right),
            _ => self.eps = spoil::setting(r),
        }
    }

    fn refused(&self) -> Option<Refusal> {
        let given = table::Joined {
            left_sizes: self.left_sizes,
            right_sizes: self.right_sizes,
            eps: self.eps,
            left: &self.left,
            right: &self.right,
            room: self.room,
        };
        given.pair()
    }

    fn rust(&self) -> Result<Split, Refusal> {
        let (left, right) = (
            core(self.left_sizes, &self.left),
            core(self.right_sizes, &self.right),
        );
        let mut state = TtState {
            cores: vec![left, right],
        };
        let passes = calls::pair(&mut state, self.eps)?;
        let [left, right] = &state.cores[..] else {
            unreachable!("two cores")
        };
        Ok(Split {
            rank: left.r_right,
            passes,
            left: left.data.clone(),
            right: right.data.clone(),
        })
    }

    fn port(&self, r: &mut Random, want: &Result<Split, Refusal>) -> Result<(), String> {
        let mut left = Lent::of("left", &self.left);
        let mut right = Lent::of("right", &self.right);
        let mut lefts = lent::room(r, "left output", self.room[0]);
        let mut rights = lent::room(r, "right output", self.room[1]);
        let mut scratch = lent::room(r, "scratch", self.room[2]);
        let got = port::contract_and_split(
            [self.left_sizes, self.right_sizes],
            self.eps,
            [left.part(), right.part()],
            [lefts.part(), rights.part(), scratch.part()],
        );
        let counts = want.as_ref().map_or((0, 0), |s| (s.rank, s.passes));
        let told = (told(want), counts.0, counts.1);
        demand(got == told, || format!("answered {got:?}\nnot {told:?}"))?;
        left.unwritten()?;
        right.unwritten()?;
        match want {
            Err(_) => lefts.unwritten().and(rights.unwritten())?,
            Ok(split) => lefts.holds(&split.left).and(rights.holds(&split.right))?,
        }
        scratch_ends(&scratch, want)
    }
}
