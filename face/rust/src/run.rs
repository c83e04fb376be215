//! A kept run that owns its slices.
use crate::layout;
use crate::raw;
use crate::records::{listed, Axis, Bond, Settings};
use crate::refusal::Refusal;
use crate::shape::Shape;
use crate::MOST_AXES;

#[cfg(test)]
mod tests;

// What a run keeps, and scratch.
#[derive(Clone, Debug)]
struct Slices {
    chain: Vec<f64>,
    carries: Vec<f64>,
    sums: Vec<f64>,
    scratch: Vec<f64>,
}

impl Slices {
    fn new(shape: &Shape) -> Slices {
        Slices {
            chain: vec![0.0; shape.entries()],
            carries: vec![0.0; shape.carries()],
            sums: vec![0.0; shape.sums()],
            scratch: vec![0.0; shape.scratch()],
        }
    }

    fn lent(&mut self) -> raw::Room<'_> {
        raw::Room {
            chain: &mut self.chain,
            carries: &mut self.carries,
            sums: &mut self.sums,
            scratch: &mut self.scratch,
        }
    }
}

/// One step of a source chain and its figure, kept so that a replaced zone costs only the work from it on.
#[derive(Clone, Debug)]
pub struct Run {
    record: layout::Run,
    // The record's own axes and settings, whose boundaries and mode are numbers there.
    axes: [Axis; MOST_AXES],
    settings: Settings,
    source: Vec<f64>,
    weights: Vec<f64>,
    kept: Slices,
}

impl Run {
    /// A fresh run, with one record per axis; another number of records is refused with 5 at 0, as a step has it.
    pub fn fresh(
        shape: &Shape,
        axes: &[Axis],
        settings: &Settings,
        source: Vec<f64>,
        weights: Vec<f64>,
    ) -> Result<Run, Refusal> {
        if axes.len() != shape.axes() {
            return Err(Refusal {
                number: 5,
                place: 0,
                index: 0,
            });
        }
        let mut kept = Slices::new(shape);
        let (axes, settings) = (listed(axes), settings.raw());
        let told = raw::fresh_run(shape.raw, axes, settings, &source, &weights, kept.lent());
        let run = Run {
            record: told.run,
            axes: told.run.axes.map(Axis::of),
            settings: Settings::of(told.run.settings),
            source,
            weights,
            kept,
        };
        Refusal::or(told.refusal, run)
    }

    /// New numbers for the core of a zone. Answers the figure; refused, the run is as it was.
    pub fn replace_core(&mut self, zone: usize, numbers: &[f64]) -> Result<f64, Refusal> {
        let room = self.kept.lent();
        let (source, weights) = (&mut self.source, &self.weights);
        let told = raw::replace_core(self.record, zone, source, weights, numbers, room);
        self.answered(told)
    }

    /// New weights for the points of a zone. Answers the figure; refused, the run is as it was.
    pub fn replace_weights(&mut self, zone: usize, numbers: &[f64]) -> Result<f64, Refusal> {
        let room = self.kept.lent();
        let (source, weights) = (&self.source, &mut self.weights);
        let told = raw::replace_weights(self.record, zone, source, weights, numbers, room);
        self.answered(told)
    }

    /// A new record for the axis of a zone. Answers the figure; refused, the run is as it was.
    pub fn replace_axis(&mut self, zone: usize, axis: &Axis) -> Result<f64, Refusal> {
        let room = self.kept.lent();
        let (source, weights) = (&self.source, &self.weights);
        let told = raw::replace_axis(self.record, zone, axis.raw(), source, weights, room);
        self.answered(told)
    }

    fn answered(&mut self, told: layout::Ran) -> Result<f64, Refusal> {
        self.record = told.run;
        self.axes = told.run.axes.map(Axis::of);
        self.settings = Settings::of(told.run.settings);
        Refusal::or(told.refusal, told.run.figure)
    }

    /// The inner product of the stepped chain with the weights.
    pub fn figure(&self) -> f64 {
        self.record.figure
    }

    pub fn shape(&self) -> Shape {
        Shape {
            raw: self.record.shape,
        }
    }

    pub fn settings(&self) -> &Settings {
        &self.settings
    }

    pub fn axes(&self) -> &[Axis] {
        let axes = &self.axes;
        axes.get(..self.record.shape.d).unwrap_or(axes)
    }

    /// The source chain's numbers.
    pub fn source(&self) -> &[f64] {
        &self.source
    }

    pub fn weights(&self) -> &[f64] {
        &self.weights
    }

    /// The stepped chain, each core where its source begins.
    pub fn stepped(&self) -> &[f64] {
        &self.kept.chain
    }

    /// The carry of each bond, in a slot of its source's rank times as much.
    pub fn carries(&self) -> &[f64] {
        &self.kept.carries
    }

    /// The partial sums of each axis, in a slot of its source's right rank.
    pub fn sums(&self) -> &[f64] {
        &self.kept.sums
    }

    /// What is said of each bond. A new core or axis writes it anew from its zone on, new weights don't.
    pub fn bonds(&self) -> &[Bond] {
        self.shape().of_bonds(&self.record.bonds)
    }
}
