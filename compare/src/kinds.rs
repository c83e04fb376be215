//! The kinds of cases, the order in which they come, and how large they are.
use crate::case::{compare, Agreed};
use crate::files::{List, Read, Write};
use crate::pairs::Pair;
use crate::products::{Inner, Start};
use crate::rounds::Round;
use crate::runs;
use crate::steps::{Evolve, Step};
use crate::views::Entry;
use oracle::draw::Most;
use oracle::random::Random;

/// A kind's name, and the function that compares one case of it.
type Kind = (&'static str, fn(&mut Random, &Most, usize) -> Agreed);

pub const KINDS: [Kind; 12] = [
    ("round", |r, most, _| compare(Round::draw(r, most), r)),
    ("inner", |r, most, _| compare(Inner::draw(r, most), r)),
    ("start", |r, most, _| compare(Start::draw(r, most), r)),
    ("step", |r, most, _| compare(Step::draw(r, most), r)),
    ("edge", |r, most, index| {
        compare(Step::at_the_edge(r, most, index), r)
    }),
    ("evolve", |r, most, _| compare(Evolve::draw(r, most), r)),
    ("pair", |r, most, _| compare(Pair::draw(r, most), r)),
    ("read", |r, most, _| compare(Read::draw(r, most), r)),
    ("list", |r, most, _| compare(List::draw(r, most), r)),
    ("entry", |r, most, _| compare(Entry::draw(r, most), r)),
    ("write", |r, most, _| compare(Write::draw(r, most), r)),
    ("run", |r, most, _| runs::compare(r, most)),
];

/// The most cores, points and rank that a case has: mostly small ones, one in twenty as large as there may be.
fn most(r: &mut Random) -> Most {
    const SMALL: [[usize; 3]; 8] = [
        [16, 8, 3],
        [6, 16, 8],
        [3, 64, 8],
        [4, 4, 8],
        [2, 64, 4],
        [16, 2, 2],
        [5, 8, 8],
        [2, 3, 2],
    ];
    let [cores, size, rank] = if r.one_in(20) {
        [16, 64, 8]
    } else {
        r.of(&SMALL)
    };
    Most {
        cores,
        size,
        rank,
        steps: 1,
    }
}

/// Case `index` of a kind; it depends on seed, kind and index alone. A pair may always have as many lines as there may be.
pub fn one(kind: usize, seed: u64, index: usize) -> Agreed {
    let (name, case) = KINDS[kind];
    let mut r = Random::of_case(seed, name, index);
    let mut most = most(&mut r);
    if name == "pair" && r.one_in(2) {
        most.size = 64;
    }
    case(&mut r, &most, index)
}
