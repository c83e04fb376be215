//! Steps, steps at the edges of the rules, and evolves.
use crate::case::{spilt, Case, Refusal};
use crate::chains::{cores_of, cutting_of, flat, record_of, rule_of, scratch_for, shape_of};
use crate::lent::{self, Lent};
use crate::port::{self, Axis, Course, Cutting, Settings, Shape};
use crate::rounds::{ended, Ended};
use crate::{chains, spoil, table};
use oracle::draw::{self, Most};
use oracle::random::Random;
use oracle::rules::{self, Rule};
use oracle::tt_chernoff::TtState;
use oracle::{calls, spill};

/// A chain and its rule: what a step and an evolve are both given.
#[derive(Debug)]
struct Moving {
    shape: Shape,
    axes: Vec<Axis>,
    c: f64,
    cutting: Cutting,
    chain: Vec<f64>,
    scratch: usize,
}

impl Moving {
    fn of(r: &mut Random, rule: &Rule, state: &TtState<f64>) -> Moving {
        let chain = flat(&state.cores);
        Moving {
            shape: shape_of(r, &state.cores),
            axes: rule.axes().into_iter().map(record_of).collect(),
            c: rule.rust.c,
            cutting: cutting_of(rule.cutting()),
            scratch: scratch_for(&chain),
            chain,
        }
    }

    fn spoil(&mut self, r: &mut Random) {
        match r.below(9) {
            0 => spoil::shape(r, &mut self.shape),
            1 => spoil::length(r, &mut self.axes),
            2 => spoil::length(r, &mut self.chain),
            3 => spoil::room(r, &mut self.scratch),
            4 => spoil::number(r, &mut self.chain),
            5 => spoil::axis(r, &mut self.axes),
            6 => self.c = spoil::setting(r),
            _ => spoil::cutting(r, &mut self.cutting),
        }
    }

    /// What the table looks at; `far` is tau, or t_final.
    fn refused<T>(&self, far: f64, judge: impl Fn(&table::Moved) -> T) -> T {
        judge(&table::Moved {
            shape: &self.shape,
            axes: &self.axes,
            chain: &self.chain,
            scratch: self.scratch,
            far,
            c: self.c,
            cutting: &self.cutting,
        })
    }

    fn rule(&self) -> Rule {
        rule_of(&self.axes, self.c, self.cutting)
    }

    fn state(&self) -> TtState<f64> {
        TtState {
            cores: cores_of(&self.shape, &self.chain),
        }
    }
}

/// Rule, tau and chain.
pub fn drawn(r: &mut Random, most: &Most) -> (Rule, f64, TtState<f64>) {
    let cores = chains::draw(r, most);
    let tau = draw::tau(r);
    (rules::any(r, tau, &cores), tau, TtState { cores })
}

#[derive(Debug)]
pub struct Step {
    given: Moving,
    tau: f64,
}

impl Step {
    pub fn draw(r: &mut Random, most: &Most) -> Step {
        let draw = if spilt(r) { spill::step } else { drawn };
        let (rule, tau, state) = draw(r, most);
        Step {
            given: Moving::of(r, &rule, &state),
            tau,
        }
    }

    /// With settings at the edges of the rules.
    pub fn at_the_edge(r: &mut Random, most: &Most, index: usize) -> Step {
        let (rule, tau, state) = rules::at_the_edge(r, most, index);
        Step {
            given: Moving::of(r, &rule, &state),
            tau,
        }
    }
}

impl Case for Step {
    type Answer = Ended;

    fn spoil(&mut self, r: &mut Random) {
        match r.below(8) {
            0 => self.tau = spoil::setting(r),
            _ => self.given.spoil(r),
        }
    }

    fn refused(&self) -> Option<Refusal> {
        self.given.refused(self.tau, |m| m.step())
    }

    fn rust(&self) -> Result<Ended, Refusal> {
        let mut state = self.given.state();
        let bonds = calls::step(&self.given.rule(), self.tau, &mut state)?;
        Ok(Ended {
            cores: state.cores,
            bonds,
        })
    }

    fn port(&self, r: &mut Random, want: &Result<Ended, Refusal>) -> Result<(), String> {
        let m = &self.given;
        let mut chain = Lent::of("chain", &m.chain);
        let mut scratch = lent::room(r, "scratch", m.scratch);
        let set = Settings {
            tau: self.tau,
            c: m.c,
            cutting: m.cutting,
        };
        let got = port::step(&m.shape, set, &m.axes, chain.part(), scratch.part());
        ended(&m.shape, &got, &chain, &scratch, want)
    }
}

#[derive(Debug)]
pub struct Evolve {
    given: Moving,
    t_final: f64,
    steps: usize,
}

/// So many that the numbers moved stay about the same for every chain; for a small one at times the most there may be.
fn steps_for(r: &mut Random, chain: &[f64]) -> usize {
    if chain.len() <= 8 && r.one_in(8) {
        return 10_000;
    }
    draw::count(r, (20_000 / chain.len()).clamp(1, 200))
}

impl Evolve {
    pub fn draw(r: &mut Random, most: &Most) -> Evolve {
        let draw = if spilt(r) { spill::evolve } else { drawn };
        let (rule, tau, state) = draw(r, most);
        let given = Moving::of(r, &rule, &state);
        let steps = steps_for(r, &given.chain);
        Evolve {
            given,
            t_final: tau * steps as f64,
            steps,
        }
    }
}

impl Case for Evolve {
    type Answer = Ended;

    fn spoil(&mut self, r: &mut Random) {
        match r.below(8) {
            0 => self.t_final = spoil::setting(r),
            1 => self.steps = r.of(&[0, 0, 10_001, usize::MAX]),
            _ => self.given.spoil(r),
        }
    }

    fn refused(&self) -> Option<Refusal> {
        self.given.refused(self.t_final, |m| m.evolve(self.steps))
    }

    fn rust(&self) -> Result<Ended, Refusal> {
        let mut state = self.given.state();
        let bonds = calls::evolve(&self.given.rule(), self.t_final, self.steps, &mut state)?;
        Ok(Ended {
            cores: state.cores,
            bonds,
        })
    }

    fn port(&self, r: &mut Random, want: &Result<Ended, Refusal>) -> Result<(), String> {
        let m = &self.given;
        let mut chain = Lent::of("chain", &m.chain);
        let mut scratch = lent::room(r, "scratch", m.scratch);
        let course = Course {
            t_final: self.t_final,
            steps: self.steps,
            c: m.c,
            cutting: m.cutting,
        };
        let got = port::evolve(&m.shape, course, &m.axes, chain.part(), scratch.part());
        ended(&m.shape, &got, &chain, &scratch, want)
    }
}
