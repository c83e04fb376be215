//! Single entries of a core, which never refuse: the number, or that there is none.
use crate::case::{demand, Case, Refusal};
use crate::chains::{self, cores_of, flat, shape_of};
use crate::lent::Lent;
use crate::port::{self, Shape};
use crate::{spoil, table};
use oracle::draw::Most;
use oracle::random::Random;

/// Core, then left index, point and right index.
#[derive(Debug)]
pub struct Entry {
    shape: Shape,
    chain: Vec<f64>,
    at: [usize; 4],
}

impl Entry {
    pub fn draw(r: &mut Random, most: &Most) -> Entry {
        let cores = chains::draw(r, most);
        let k = r.below(cores.len());
        let c = &cores[k];
        Entry {
            shape: shape_of(r, &cores),
            at: [k, r.below(c.r_left), r.below(c.n), r.below(c.r_right)],
            chain: flat(&cores),
        }
    }

    /// Whether there is such a core of an accepted shape, and such an entry of it.
    fn inside(&self) -> bool {
        let (s, [k, il, im, ir]) = (&self.shape, self.at);
        table::shape(s).none() && k < s.d && il < s.left[k] && im < s.n[k] && ir < s.right[k]
    }
}

impl Case for Entry {
    type Answer = Option<f64>;

    fn spoil(&mut self, r: &mut Random) {
        match r.below(4) {
            0 => spoil::shape(r, &mut self.shape),
            1 => self.chain.truncate(r.below(self.chain.len() + 1)),
            2 => self.at[r.below(4)] += 1,
            _ => self.at[r.below(4)] = spoil::size(r),
        }
    }

    fn refused(&self) -> Option<Refusal> {
        None
    }

    /// The Rust's own reader finds the place, in a chain of which every number is its place.
    fn rust(&self) -> Result<Option<f64>, Refusal> {
        if !self.inside() {
            return Ok(None);
        }
        let [k, il, im, ir] = self.at;
        let places: Vec<f64> = (0..table::entries(&self.shape)).map(|i| i as f64).collect();
        let place = cores_of(&self.shape, &places)[k].get(il, im, ir);
        Ok(self.chain.get(place as usize).copied())
    }

    fn port(&self, _: &mut Random, want: &Result<Option<f64>, Refusal>) -> Result<(), String> {
        let mut chain = Lent::of("chain", &self.chain);
        let got = port::entry_of(chain.part(), &self.shape, self.at);
        let told = want.unwrap_or(None);
        let bits = |x: Option<f64>| x.map(f64::to_bits);
        demand(bits(got) == bits(told), || {
            format!("answered {got:?}\nnot {told:?}")
        })?;
        chain.unwritten()
    }
}
