//! What goes into a call, and what it answers.
use crate::layout;
use crate::refusal::Refusal;
use crate::shape::Shape;
use crate::MOST_AXES;

/// What lies beyond the ends of an axis of n points.
#[derive(Clone, Copy, Debug, Default, PartialEq, Eq)]
pub enum Boundary {
    /// The other end: what leaves at one comes back in at the other. The shift takes an index i modulo n.
    #[default]
    Periodic,
    /// A mirror: what leaves at an end comes back in there. The shift takes an index i modulo 2n, and then 2n - 1 - i in
    /// place of an i of n or more.
    Reflecting,
}

/// The settings of one axis.
#[derive(Clone, Copy, Debug, Default, PartialEq)]
pub struct Axis {
    pub a: f64,
    pub b: f64,
    pub xmin: f64,
    pub xmax: f64,
    pub boundary: Boundary,
}

impl Axis {
    pub(crate) fn raw(&self) -> layout::Axis {
        layout::Axis {
            a: self.a,
            b: self.b,
            xmin: self.xmin,
            xmax: self.xmax,
            boundary: match self.boundary {
                Boundary::Periodic => layout::PERIODIC,
                Boundary::Reflecting => layout::REFLECTING,
            },
        }
    }

    // A call answers the boundaries that it was given, and Rust gives none but these two: no number that means neither comes here.
    pub(crate) fn of(told: layout::Axis) -> Axis {
        Axis {
            a: told.a,
            b: told.b,
            xmin: told.xmin,
            xmax: told.xmax,
            boundary: match told.boundary {
                layout::REFLECTING => Boundary::Reflecting,
                _ => Boundary::Periodic,
            },
        }
    }
}

/// What a cut takes for nothing. A bond's columns are turned pair by pair, in sweeps, until no two have anything in common; then
/// each that is kept is divided by its value. In the Gram matrix g is what two columns have in common, and the diagonal has what
/// each has by itself.
#[derive(Clone, Copy, Debug, Default, PartialEq, Eq)]
pub enum Mode {
    /// What is below 1e-30, whatever stands beside it: the rule of the library that this is a port of. Sweeps stop where the sum
    /// of 2*g*g over all pairs is; a pair is skipped where g*g is; a column becomes 0 where its value isn't above 1e-30. So where
    /// rare events are multiplied the figure can come out as 0, and columns of small numbers that are alike all stay.
    #[default]
    Absolute,
    /// What is that small beside the bond's own numbers, so rare events keep their chance. Sweeps stop where the sum is below
    /// 1e-30 times the sum of the diagonal's squares, or zero; a pair is skipped where g*g is below 1e-30 times the product of
    /// its two diagonal entries, or g is zero; a column is divided wherever its value is above zero. Powers of small
    /// numbers end up as zero here too: below some 1e-81 columns aren't turned any more, and below some 1e-162 they become 0.
    Scaled,
}

/// How a cut is made: kept is what lies above eps times the largest value.
#[derive(Clone, Copy, Debug, PartialEq)]
pub struct Cutting {
    pub eps: f64,
    pub mode: Mode,
}

impl Cutting {
    pub(crate) fn raw(&self) -> layout::Cutting {
        layout::Cutting {
            eps: self.eps,
            mode: match self.mode {
                Mode::Absolute => layout::ABSOLUTE,
                Mode::Scaled => layout::SCALED,
            },
        }
    }

    // As with a boundary, no number that means neither comes here.
    fn of(told: layout::Cutting) -> Cutting {
        Cutting {
            eps: told.eps,
            mode: match told.mode {
                layout::SCALED => Mode::Scaled,
                _ => Mode::Absolute,
            },
        }
    }
}

/// The lone settings of a step.
#[derive(Clone, Copy, Debug, PartialEq)]
pub struct Settings {
    pub tau: f64,
    pub c: f64,
    pub cutting: Cutting,
}

impl Settings {
    pub(crate) fn raw(&self) -> layout::Settings {
        layout::Settings {
            tau: self.tau,
            c: self.c,
            cutting: self.cutting.raw(),
        }
    }

    pub(crate) fn of(told: layout::Settings) -> Settings {
        Settings {
            tau: told.tau,
            c: told.c,
            cutting: Cutting::of(told.cutting),
        }
    }
}

/// Steps one after another: how far, in how many (1 to 10,000), and the lone settings of each.
#[derive(Clone, Copy, Debug, PartialEq)]
pub struct Course {
    pub t_final: f64,
    pub steps: usize,
    pub c: f64,
    pub cutting: Cutting,
}

impl Course {
    pub(crate) fn raw(&self) -> layout::Course {
        layout::Course {
            t_final: self.t_final,
            steps: self.steps,
            c: self.c,
            cutting: self.cutting.raw(),
        }
    }
}

/// What is said of a bond.
#[repr(C)]
#[derive(Clone, Copy, Debug, PartialEq)]
pub struct Bond {
    /// The rank that is kept.
    pub rank: usize,
    /// The sweeps made.
    pub sweeps: usize,
    /// Whether the sum was small at their end, by the mode's own test: below 1e-30, or below 1e-30 times the sum of the
    /// diagonal's squares, or zero.
    pub settled: bool,
    /// The largest singular value that was dropped, +0 if all were kept; `evolve` answers the greatest of all its steps. The
    /// values are those of the bond's matrix as rounding meets it, which is its left core with what the bond before handed on.
    pub dropped: f64,
}

/// What a call that rounds answers.
#[derive(Clone, Copy, Debug, PartialEq)]
pub struct Rounded {
    /// The chain's shape at the end.
    pub shape: Shape,
    bonds: [Bond; MOST_AXES],
}

impl Rounded {
    pub(crate) fn of(told: layout::Rounded) -> Result<Rounded, Refusal> {
        let rounded = Rounded {
            shape: Shape { raw: told.shape },
            bonds: told.bonds,
        };
        Refusal::or(told.refusal, rounded)
    }

    /// What is said of each bond.
    pub fn bonds(&self) -> &[Bond] {
        self.shape.of_bonds(&self.bonds)
    }
}

/// What splitting a pair answers.
#[derive(Clone, Copy, Debug, PartialEq, Eq)]
pub struct Paired {
    /// The rank between the two new cores.
    pub rank: usize,
    /// The passes made, the quiet one included.
    pub passes: usize,
}

// The records with blanks behind them; a call that gets another count than its own refuses it.
pub(crate) fn listed(axes: &[Axis]) -> layout::Axes {
    let mut axis = [Axis::default().raw(); MOST_AXES];
    for (place, given) in axis.iter_mut().zip(axes) {
        *place = given.raw();
    }
    layout::Axes { axis }
}
