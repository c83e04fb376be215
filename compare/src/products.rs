//! Inner products and separable starts.
use crate::case::{demand, spilt, told, Case, Refusal};
use crate::chains::{cores_of, flat, lists_of, shape_of};
use crate::lent::{self, Lent, Word};
use crate::port::{self, Shape};
use crate::{chains, spoil, table};
use oracle::calls;
use oracle::draw::{self, Most};
use oracle::random::Random;
use oracle::spill;
use oracle::tt_chernoff::TtState;

#[derive(Debug)]
pub struct Inner {
    shape: Shape,
    chain: Vec<f64>,
    weights: Vec<f64>,
}

impl Inner {
    pub fn draw(r: &mut Random, most: &Most) -> Inner {
        let (cores, weights) = if spilt(r) {
            spill::product(r, most)
        } else {
            let cores = chains::draw(r, most);
            let weights = draw::weights(r, &cores);
            (cores, weights)
        };
        Inner {
            shape: shape_of(r, &cores),
            chain: flat(&cores),
            weights: weights.concat(),
        }
    }
}

impl Case for Inner {
    type Answer = f64;

    fn spoil(&mut self, r: &mut Random) {
        match r.below(5) {
            0 => spoil::shape(r, &mut self.shape),
            1 => spoil::length(r, &mut self.chain),
            2 => spoil::length(r, &mut self.weights),
            3 => spoil::number(r, &mut self.chain),
            _ => spoil::number(r, &mut self.weights),
        }
    }

    fn refused(&self) -> Option<Refusal> {
        table::inner(&self.shape, &self.chain, &self.weights)
    }

    fn rust(&self) -> Result<f64, Refusal> {
        let cores = cores_of(&self.shape, &self.chain);
        let weights = lists_of(&self.shape, &self.weights);
        Ok(calls::inner(&TtState { cores }, &weights)?)
    }

    fn port(&self, _: &mut Random, want: &Result<f64, Refusal>) -> Result<(), String> {
        let mut chain = Lent::of("chain", &self.chain);
        let mut weights = Lent::of("weights", &self.weights);
        let (refusal, figure) = port::inner_separable(&self.shape, chain.part(), weights.part());
        let told = (told(want), want.as_ref().map_or(0.0, |figure| *figure));
        demand(refusal == told.0 && figure.same(told.1), || {
            format!("answered {refusal:?} {figure:e}\nnot {told:?}")
        })?;
        chain.unwritten()?;
        weights.unwritten()
    }
}

#[derive(Debug)]
pub struct Start {
    shape: Shape,
    vectors: Vec<f64>,
    chain: usize,
}

impl Start {
    pub fn draw(r: &mut Random, most: &Most) -> Start {
        let cores = chains::draw(r, most);
        let vectors = draw::weights(r, &cores).concat();
        let mut shape = shape_of(r, &cores);
        (0..r.below(3)).for_each(|_| shape.left[r.below(16)] = spoil::size(r));
        Start {
            shape,
            chain: vectors.len(),
            vectors,
        }
    }
}

impl Case for Start {
    type Answer = Vec<f64>;

    fn spoil(&mut self, r: &mut Random) {
        match r.below(4) {
            0 => spoil::shape(r, &mut self.shape),
            1 => spoil::length(r, &mut self.vectors),
            2 => spoil::room(r, &mut self.chain),
            _ => spoil::number(r, &mut self.vectors),
        }
    }

    fn refused(&self) -> Option<Refusal> {
        table::start(&self.shape, &self.vectors, self.chain)
    }

    fn rust(&self) -> Result<Vec<f64>, Refusal> {
        let state = TtState::rank1_separable(lists_of(&self.shape, &self.vectors));
        Ok(flat(&state.cores))
    }

    fn port(&self, r: &mut Random, want: &Result<Vec<f64>, Refusal>) -> Result<(), String> {
        let mut vectors = Lent::of("vectors", &self.vectors);
        let mut chain = lent::room(r, "chain", self.chain);
        let got = port::rank1_separable(&self.shape, vectors.part(), chain.part());
        let mut shape = self.shape.clone();
        if want.is_ok() {
            (shape.left, shape.right) = ([1; 16], [1; 16]);
        }
        let told = (told(want), shape);
        demand(got == told, || format!("answered {got:?}\nnot {told:?}"))?;
        vectors.unwritten()?;
        match want {
            Err(_) => chain.unwritten(),
            Ok(front) => chain.holds_bits(front),
        }
    }
}
