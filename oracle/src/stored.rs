//! What the work stores, by kind, and the first number among it that isn't finite.
use std::ops::Range;

/// What was being made.
#[derive(Clone, Copy, Debug, PartialEq)]
pub enum Made {
    /// the entries of a core moved along its axis
    Shift,
    /// the entries of core 0 times 1 + tau*c
    Scaling,
    /// a pair's slab
    Slab,
    Gram,
    /// what the Gram matrix becomes by a rotation
    Matrix,
    /// a bond's basis after a rotation
    Basis,
    /// a bond's singular values, before they are sorted
    Value,
    /// a pair's columns after a rotation
    Columns,
    /// a pair's basis after a rotation, column after column
    PairBasis,
    /// a pair's singular values, before they are sorted
    PairValue,
    Factor,
    Carry,
    /// a core with the carry in it
    Absorbed,
    /// one of the two cores that a pair answers
    NewCore,
    /// the partial sums of an axis
    Sum,
}

impl Made {
    pub const ALL: [Made; 15] = [
        Made::Shift,
        Made::Scaling,
        Made::Slab,
        Made::Gram,
        Made::Matrix,
        Made::Basis,
        Made::Value,
        Made::Columns,
        Made::PairBasis,
        Made::PairValue,
        Made::Factor,
        Made::Carry,
        Made::Absorbed,
        Made::NewCore,
        Made::Sum,
    ];

    /// The number of the refusal where it isn't finite.
    pub fn number(self) -> usize {
        match self {
            Made::Shift | Made::Scaling | Made::Slab => 9,
            Made::Gram | Made::Matrix | Made::Basis | Made::Value => 12,
            Made::Columns | Made::PairBasis | Made::PairValue => 12,
            Made::Factor | Made::Carry | Made::Absorbed | Made::NewCore => 13,
            Made::Sum => 14,
        }
    }

    /// Its name in a line.
    pub fn name(self) -> &'static str {
        match self {
            Made::Shift => "shift",
            Made::Scaling => "scaling",
            Made::Slab => "slab",
            Made::Gram => "gram",
            Made::Matrix => "matrix",
            Made::Basis => "basis",
            Made::Value => "value",
            Made::Columns => "columns",
            Made::PairBasis => "pair-basis",
            Made::PairValue => "pair-value",
            Made::Factor => "factor",
            Made::Carry => "carry",
            Made::Absorbed => "absorbed",
            Made::NewCore => "new-core",
            Made::Sum => "sum",
        }
    }

    pub fn of_name(name: &str) -> Option<Made> {
        Made::ALL.into_iter().find(|made| made.name() == name)
    }
}

/// The first number that isn't finite: what it stands in, of which core, and its flat index there.
#[derive(Clone, Copy, Debug)]
pub struct Flaw {
    pub made: Made,
    pub core: usize,
    pub index: usize,
}

/// Looks at what the work on a core makes, in the order of the work, and keeps the first flaw.
pub struct Watch {
    core: usize,
    first: Option<Flaw>,
}

impl Watch {
    pub fn over(core: usize) -> Watch {
        Watch { core, first: None }
    }

    /// Looks at a part of what was made; the index counts from the start of the whole.
    pub fn look_at(&mut self, made: Made, whole: &[f64], part: Range<usize>) {
        if self.first.is_none() {
            let index = part.into_iter().find(|&at| !whole[at].is_finite());
            self.first = index.map(|index| Flaw {
                made,
                core: self.core,
                index,
            });
        }
    }

    pub fn look(&mut self, made: Made, whole: &[f64]) {
        self.look_at(made, whole, 0..whole.len());
    }

    /// Nothing seen so far has a flaw.
    pub fn demand(&self) -> Result<(), Flaw> {
        self.first.map_or(Ok(()), Err)
    }
}

/// All of what was made is finite.
pub fn demand_finite(made: Made, core: usize, xs: &[f64]) -> Result<(), Flaw> {
    let mut watch = Watch::over(core);
    watch.look(made, xs);
    watch.demand()
}
