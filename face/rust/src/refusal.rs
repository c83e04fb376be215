//! Refusals by their number in the table, with its words.
use crate::layout;
use std::error::Error;
use std::fmt;

/// Why a call gave no answer.
#[derive(Clone, Copy, Debug, PartialEq, Eq)]
pub struct Refusal {
    /// The number of the table, 1 to 14.
    pub number: u8,
    /// The core, axis, zone, slice or byte that the number speaks of.
    pub place: usize,
    /// Where a number to be stored isn't finite, which: the flat index of the first such inside what was being stored. An
    /// entry has its place in the core, a matrix counts row after row, a pair's columns and basis column after column; a
    /// singular value has its i in the list as they are made, a partial sum its j. Any other refusal has 0.
    pub index: usize,
}

impl Refusal {
    /// The table's words for the number.
    pub fn words(&self) -> &'static str {
        match self.number {
            0 => "not refused",
            1 => "the number of axes is outside its limits",
            2 => "a size is outside its limits",
            3 => "neighbours' ranks differ, an end rank isn't 1, or a kept rank is 0 or above its source's",
            4 => "there is no such zone",
            5 => "a lent length is wrong",
            6 => "an input number isn't finite",
            7 => "a setting is below zero, a boundary or a mode isn't known, or steps are outside their limits",
            8 => "a shift is too far",
            9 => "a shifted or scaled entry, or an entry of a pair's slab, isn't finite",
            10 => "a pair's kept rank is above 8",
            11 => "a file breaks its rules",
            12 => "a Gram matrix, a basis, a singular value or a pair's columns aren't finite",
            13 => "a left factor, a carry, an absorbed core or a pair's new core isn't finite",
            14 => "a partial sum isn't finite",
            _ => "unknown",
        }
    }

    /// Whether refusals with this number have an index; with any other it is 0 and means nothing.
    pub fn has_index(&self) -> bool {
        matches!(self.number, 9 | 12..=14)
    }

    /// The answer, unless the call was refused.
    pub(crate) fn or<A>(told: layout::Refusal, answer: A) -> Result<A, Refusal> {
        match told.number {
            0 => Ok(answer),
            number => Err(Refusal {
                number,
                place: told.place,
                index: told.index,
            }),
        }
    }
}

impl fmt::Display for Refusal {
    fn fmt(&self, f: &mut fmt::Formatter<'_>) -> fmt::Result {
        write!(f, "refused {} at {}", self.number, self.place)?;
        if self.has_index() {
            write!(f, ", index {}", self.index)?;
        }
        write!(f, ": {}", self.words())
    }
}

impl Error for Refusal {}
