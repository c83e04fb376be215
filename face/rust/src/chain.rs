//! A chain that owns its numbers and the scratch for its calls.
use crate::calls;
use crate::records::{Axis, Course, Cutting, Rounded, Settings};
use crate::refusal::Refusal;
use crate::shape::Shape;

/// The most numbers that a chain has.
const MOST_ENTRIES: usize = 16 * 8 * 64 * 8;

/// A chain's shape with its numbers, core after core.
#[derive(Clone, Debug)]
pub struct Chain {
    shape: Shape,
    numbers: Vec<f64>,
    scratch: Vec<f64>,
}

impl PartialEq for Chain {
    fn eq(&self, other: &Chain) -> bool {
        self.shape == other.shape && self.numbers == other.numbers
    }
}

impl Chain {
    /// The chain of these numbers; another number of them than the shape has is refused with 5.
    pub fn new(shape: Shape, numbers: Vec<f64>) -> Result<Chain, Refusal> {
        if numbers.len() != shape.entries() {
            return Err(Refusal {
                number: 5,
                place: 0,
                index: 0,
            });
        }
        let scratch = vec![0.0; shape.scratch()];
        Ok(Chain {
            shape,
            numbers,
            scratch,
        })
    }

    /// The separable start of one vector per axis.
    pub fn separable(vectors: &[&[f64]]) -> Result<Chain, Refusal> {
        let sizes: Vec<usize> = vectors.iter().map(|vector| vector.len()).collect();
        let mut numbers = vec![0.0; sizes.iter().sum()];
        let shape = calls::rank1_separable(&sizes, &vectors.concat(), &mut numbers)?;
        Chain::new(shape, numbers)
    }

    /// The chain of a file.
    pub fn read(bytes: &[u8]) -> Result<Chain, Refusal> {
        let mut numbers = vec![0.0; MOST_ENTRIES.min(bytes.len() / 8)];
        let shape = calls::read_chain(bytes, &mut numbers)?;
        numbers.truncate(shape.entries());
        Chain::new(shape, numbers)
    }

    /// The chain's file.
    pub fn write(&self) -> Result<Vec<u8>, Refusal> {
        let mut bytes = vec![0; self.shape.file()];
        calls::write_chain(&self.shape, &self.numbers, &mut bytes)?;
        Ok(bytes)
    }

    pub fn shape(&self) -> &Shape {
        &self.shape
    }

    pub fn numbers(&self) -> &[f64] {
        &self.numbers
    }

    /// Entry (il, im, ir) of a core, or none outside of it.
    pub fn entry(&self, core: usize, indices: (usize, usize, usize)) -> Option<f64> {
        calls::entry_of(&self.shape, &self.numbers, core, indices)
    }

    /// The figure: the inner product with the axes' weights.
    pub fn inner(&self, weights: &[f64]) -> Result<f64, Refusal> {
        calls::inner_separable(&self.shape, &self.numbers, weights)
    }

    /// Rounds the chain; refused, it is as it was.
    pub fn round(&mut self, cutting: &Cutting) -> Result<Rounded, Refusal> {
        let rounded = calls::tt_round(&self.shape, cutting, &mut self.numbers, &mut self.scratch)?;
        Ok(self.packed(rounded))
    }

    /// One step, with one record per axis; refused, the chain is as it was.
    pub fn step(&mut self, settings: &Settings, axes: &[Axis]) -> Result<Rounded, Refusal> {
        let (numbers, scratch) = (&mut self.numbers, &mut self.scratch);
        let rounded = calls::step(&self.shape, settings, axes, numbers, scratch)?;
        Ok(self.packed(rounded))
    }

    /// All steps of a course; refused, the chain is as it was. Of each bond it answers the last step's rank, sweeps and
    /// `settled`, and the greatest `dropped` of all steps.
    pub fn evolve(&mut self, course: &Course, axes: &[Axis]) -> Result<Rounded, Refusal> {
        let (numbers, scratch) = (&mut self.numbers, &mut self.scratch);
        let rounded = calls::evolve(&self.shape, course, axes, numbers, scratch)?;
        Ok(self.packed(rounded))
    }

    // The chain is what stands at the front of its room.
    fn packed(&mut self, rounded: Rounded) -> Rounded {
        self.shape = rounded.shape;
        self.numbers.truncate(self.shape.entries());
        self.scratch.truncate(self.shape.scratch());
        rounded
    }
}
