//! Shapes that passed the checks, so that no call refuses them.
use crate::layout;
use crate::raw;
use crate::refusal::Refusal;
use crate::MOST_AXES;
use std::fmt;

/// The ranks and sizes of a chain's cores, within their limits and with ranks that meet.
#[derive(Clone, Copy)]
pub struct Shape {
    pub(crate) raw: layout::Shape,
}

impl Shape {
    /// The shape whose core k has the left rank, size and right rank of entry k.
    pub fn new(cores: &[(usize, usize, usize)]) -> Result<Shape, Refusal> {
        let raw = unchecked(cores);
        Refusal::or(raw::shape_check(raw), Shape { raw })
    }

    /// How many cores there are: 1 to 16.
    pub fn axes(&self) -> usize {
        self.raw.d
    }

    /// Left rank, size and right rank of each core.
    pub fn cores(&self) -> impl Iterator<Item = (usize, usize, usize)> + '_ {
        let sizes = self.raw.left.iter().zip(&self.raw.n).zip(&self.raw.right);
        sizes
            .take(self.raw.d)
            .map(|((left, n), right)| (*left, *n, *right))
    }

    /// How many numbers the chain has.
    pub fn entries(&self) -> usize {
        self.cores().map(|(left, n, right)| left * n * right).sum()
    }

    /// How many weights the chain takes: the sum of the sizes.
    pub fn points(&self) -> usize {
        self.cores().map(|(_, n, _)| n).sum()
    }

    /// How many numbers of scratch a rounding, a step, an evolve, a run or a replacement takes.
    pub fn scratch(&self) -> usize {
        4 * self.entries() + 2048
    }

    /// How many numbers the carries of a run have.
    pub fn carries(&self) -> usize {
        let bonds = self.axes().saturating_sub(1);
        let slots = self.cores().take(bonds);
        slots.map(|(_, _, right)| right * right).sum()
    }

    /// How many numbers the partial sums of a run have.
    pub fn sums(&self) -> usize {
        self.cores().map(|(_, _, right)| right).sum()
    }

    /// How many bytes the chain's file has.
    pub fn file(&self) -> usize {
        8 + 12 * self.axes() + 8 * self.entries()
    }

    // The entries of the bonds, of which there is one less than there are cores.
    pub(crate) fn of_bonds<'a, T>(&self, entries: &'a [T; MOST_AXES]) -> &'a [T] {
        entries.get(..self.axes().saturating_sub(1)).unwrap_or(&[])
    }
}

// The record, which says how many cores there were even where it has no room for all.
pub(crate) fn unchecked(cores: &[(usize, usize, usize)]) -> layout::Shape {
    let none = [0; MOST_AXES];
    let mut raw = layout::Shape {
        d: cores.len(),
        left: none,
        n: none,
        right: none,
    };
    let sizes = raw.left.iter_mut().zip(&mut raw.n).zip(&mut raw.right);
    for (((left, n), right), core) in sizes.zip(cores) {
        (*left, *n, *right) = *core;
    }
    raw
}

impl PartialEq for Shape {
    fn eq(&self, other: &Shape) -> bool {
        self.cores().eq(other.cores())
    }
}

impl Eq for Shape {}

impl fmt::Debug for Shape {
    fn fmt(&self, f: &mut fmt::Formatter<'_>) -> fmt::Result {
        f.debug_list().entries(self.cores()).finish()
    }
}
