//! What every kind of case does: it is drawn, at times spoilt, judged by the table, asked of the Rust, and the port is held to that.
use crate::port::Told;
use oracle::calls::Refused;
use oracle::random::Random;
use oracle::stored::Made;
use std::fmt::Debug;

/// Why a call is refused.
#[derive(Clone, Copy, Debug)]
pub enum Refusal {
    /// by a check before any work: number and place
    Checked(usize, usize),
    /// in the midst of the work
    Met(Refused),
}

impl Refusal {
    /// Number, place and index, as the port has to tell them.
    pub fn told(&self) -> Told {
        match self {
            Refusal::Checked(number, place) => Told::of([*number, *place, 0]),
            Refusal::Met(why) => Told::of(why.told()),
        }
    }

    /// What was being made, if a number of it isn't finite.
    pub fn made(&self) -> Option<Made> {
        match self {
            Refusal::Met(Refused::NotFinite(flaw)) => Some(flaw.made),
            _ => None,
        }
    }
}

/// What the oracle refuses; how far a shift goes is checked before any work.
impl From<Refused> for Refusal {
    fn from(why: Refused) -> Refusal {
        let [number, place, _] = why.told();
        match why {
            Refused::Far(_) => Refusal::Checked(number, place),
            _ => Refusal::Met(why),
        }
    }
}

/// What a call tells beside its answer.
pub fn told<T>(want: &Result<T, Refusal>) -> Told {
    want.as_ref().err().map_or(Told::ANSWERED, Refusal::told)
}

pub trait Case: Debug + Sized {
    type Answer;
    /// Makes it one that may be refused.
    fn spoil(&mut self, r: &mut Random);
    /// What the table refuses before any work.
    fn refused(&self) -> Option<Refusal>;
    /// The Rust's answer, or a refusal in the midst of the work; asked only where the table refuses nothing.
    fn rust(&self) -> Result<Self::Answer, Refusal>;
    /// Calls the port; says what differs.
    fn port(&self, r: &mut Random, want: &Result<Self::Answer, Refusal>) -> Result<(), String>;
}

/// The refusals on which both agree, one per call, none where both answer; or what differs, and the case.
pub type Agreed = Result<Vec<Option<Refusal>>, String>;

pub fn compare<C: Case>(mut case: C, r: &mut Random) -> Agreed {
    if r.one_in(3) {
        (0..1 + r.below(3)).for_each(|_| case.spoil(r));
    }
    let want = match case.refused() {
        Some(refusal) => Err(refusal),
        None => case.rust(),
    };
    case.port(r, &want)
        .map_err(|what| format!("{what}\n{case:?}"))?;
    Ok(vec![want.err()])
}

/// One case in eight overflows on purpose.
pub fn spilt(r: &mut Random) -> bool {
    r.one_in(8)
}

pub fn demand(ok: bool, what: impl FnOnce() -> String) -> Result<(), String> {
    if ok {
        Ok(())
    } else {
        Err(what())
    }
}
