//! Turns lines of cases into the words that the program `replays` reads: how many cases, then of each what is given and what is
//! answered, a float by its bits. `words wrong` writes, in place of each line, one case for every word that its answer has,
//! with that word made wrong. README.md has the order of the words. A word is eight bytes, the lowest first.
use oracle::calls::{self, Refused};
use oracle::stored::{Flaw, Made};
use std::io::{BufWriter, Read, Write};

/// The bits of what stands in an output or in scratch before a call: 7.5.
const MARK: u64 = 0x401e_0000_0000_0000;

/// As many places as an array of a shape or of bonds has.
const PLACES: usize = 16;

/// 16 hex digits are a float's bits, fewer digits a count; a name stands for nothing.
fn number(text: &str) -> Option<u64> {
    if text.len() == 16 {
        u64::from_str_radix(text, 16).ok()
    } else {
        text.parse().ok()
    }
}

fn numbers(words: &[&str]) -> Vec<u64> {
    words.iter().filter_map(|w| number(w)).collect()
}

/// The numbers that follow a name, up to the next; none where the line hasn't got it.
fn named(words: &[&str], name: &str) -> Option<Vec<u64>> {
    let at = words.iter().position(|w| *w == name)?;
    Some(words[at + 1..].iter().map_while(|w| number(w)).collect())
}

/// The same of a list, without how many it has.
fn list(words: &[&str], name: &str) -> Option<Vec<u64>> {
    named(words, name).map(|all| all[1..].to_vec())
}

// ---- what is given
/// How many cores, and the left ranks, sizes and right ranks of all that the line has.
struct Shape(u64, [Vec<u64>; 3]);

fn shape(given: &[&str]) -> Shape {
    let all = named(given, "shape").expect("a shape");
    let side = |i: usize| all[1..].iter().skip(i).step_by(3).copied().collect();
    Shape(all[0], [0, 1, 2].map(side))
}

impl Shape {
    fn words(&self) -> Vec<u64> {
        [vec![self.0], self.1.concat()].concat()
    }
}

/// All that stands behind the shape, with its lengths; `left`, `right`, `axes` and others are names for the reader alone.
fn rest(given: &[&str]) -> Vec<u64> {
    let words: Vec<&str> = given[1..]
        .iter()
        .skip_while(|w| number(w).is_some())
        .copied()
        .collect();
    numbers(&words)
}

/// The length of scratch: as the call asks for, unless the line says it or how many numbers are too few.
fn scratch(given: &[&str]) -> u64 {
    let asked = 4 * list(given, "chain").expect("a chain").len() as u64 + 2048;
    let said = |name: &str| named(given, name).map(|n| n[0]);
    said("scratch").unwrap_or(asked - said("short").unwrap_or(0))
}

/// The lengths of a pair's outputs and scratch.
fn rooms(given: &[&str]) -> Vec<u64> {
    let sides = shape(given).1;
    let asked = || {
        vec![
            sides[0][0] * sides[1][0] * 8,
            8 * sides[1][1] * sides[2][1],
            20480,
        ]
    };
    named(given, "room").unwrap_or_else(asked)
}

/// A pair as it is lent: the sizes of both cores, eps, each core's numbers, and the lengths. A line of the oracle has one chain.
fn pair(given: &[&str]) -> Vec<u64> {
    let sizes = &named(given, "shape").expect("a shape")[1..];
    let eps = named(given, "eps").expect("eps");
    let cores = match list(given, "chain") {
        Some(chain) => {
            let (left, right) = chain.split_at((sizes[0] * sizes[1] * sizes[2]) as usize);
            [left.to_vec(), right.to_vec()]
        }
        None => ["left", "right"].map(|name| list(given, name).expect("a core")),
    };
    let counted = cores
        .iter()
        .flat_map(|c| [vec![c.len() as u64], c.clone()].concat());
    [sizes.to_vec(), eps, counted.collect(), rooms(given)].concat()
}

/// How many numbers a start's chain is lent.
fn start_room(given: &[&str]) -> u64 {
    let asked = || list(given, "vectors").expect("vectors").len() as u64;
    named(given, "room").map_or_else(asked, |n| n[0])
}

fn given_words(kind: &str, given: &[&str]) -> Vec<u64> {
    let told = |w: &&str| matches!(*w, "scratch" | "short" | "room");
    let end = given.iter().position(told).unwrap_or(given.len());
    let all = [shape(given).words(), rest(&given[..end])].concat();
    match kind {
        "pair" => pair(given),
        "inner" => all,
        "entry" => [shape(given).words(), entry(given)].concat(),
        "start" => [all, vec![start_room(given)]].concat(),
        "round" => [all, vec![scratch(given)]].concat(),
        "evolve" => [vec![1], all, vec![scratch(given)]].concat(),
        _ => [vec![0], all, vec![0, scratch(given)]].concat(),
    }
}

/// The chain, and where in it: core, left index, point, right index.
fn entry(given: &[&str]) -> Vec<u64> {
    let chain = list(given, "chain").expect("a chain");
    let at = list(given, "at").expect("four indices");
    [vec![chain.len() as u64], chain, at].concat()
}

// ---- what is answered
/// The words of an answer, and where it can be made wrong.
#[derive(Default)]
struct Answer {
    words: Vec<u64>,
    /// each word that isn't a length
    values: Vec<usize>,
    /// where the length of a list stands that has room for more, and where the list ends
    lists: Vec<(usize, usize)>,
}

impl Answer {
    fn value(&mut self, w: u64) {
        self.values.push(self.words.len());
        self.words.push(w);
    }

    /// The counts at the front of an array, or the bits of floats; 0 stands behind them.
    fn counts(&mut self, each: &[u64]) {
        let at = self.words.len();
        self.words.push(each.len() as u64);
        each.iter().for_each(|w| self.value(*w));
        if each.len() < PLACES {
            self.lists.push((at, self.words.len()));
        }
    }

    fn shape(&mut self, s: &Shape) {
        self.value(s.0);
        s.1.iter().for_each(|side| self.counts(side));
    }

    /// The numbers at the front of a slice of that length, and what stands behind each.
    fn held(&mut self, front: &[u64], length: u64, behind: u64) {
        self.words.push(front.len() as u64);
        if (front.len() as u64) < length {
            self.value(behind);
        } else {
            self.words.push(behind);
        }
        front.iter().for_each(|w| self.value(*w));
    }

    /// Every value turned in its lowest bit, and every list with one number more, each in an answer of its own.
    fn wrong(&self) -> Vec<Vec<u64>> {
        let turned = self.values.iter().map(|at| {
            let mut words = self.words.clone();
            words[*at] ^= 1;
            words
        });
        let longer = self.lists.iter().map(|(at, end)| {
            let mut words = self.words.clone();
            words[*at] += 1;
            words.insert(*end, 1);
            words
        });
        turned.chain(longer).collect()
    }
}

/// A refusal's number, place and index, or three times 0. A line made by hand has them; its index is 0 where it has none.
fn refusal(words: &[&str]) -> [usize; 3] {
    let count = |i: usize| words[i].parse().expect("a count");
    match words[0] {
        "nonfinite" => Refused::NotFinite(Flaw {
            made: Made::of_name(words[1]).expect("what was being made"),
            core: count(2),
            index: count(3),
        })
        .told(),
        "far" => Refused::Far(count(1)).told(),
        "wide" => Refused::Rank(count(1)).told(),
        "refused" => [count(1), count(2), words.get(3).map_or(0, |_| count(3))],
        _ => [0; 3],
    }
}

/// The shape, the bonds' counts, flags and dropped values, and the chain; a refused call has no bonds, and leaves shape and chain as given.
fn rounded(a: &mut Answer, given: &[&str], words: &[&str], refused: bool) {
    let mut s = shape(given);
    let chain = list(given, "chain").expect("a chain");
    let length = chain.len() as u64;
    if refused {
        a.shape(&s);
        (0..3).for_each(|_| a.counts(&[]));
        a.held(&chain, length, 0);
        return;
    }
    let ranks = list(words, "ranks").expect("ranks");
    s.1[0][1..].copy_from_slice(&ranks[..ranks.len() - 1]);
    s.1[2] = ranks;
    a.shape(&s);
    a.counts(&list(words, "sweeps").expect("sweeps"));
    a.counts(&list(words, "settled").expect("flags"));
    a.counts(&list(words, "dropped").expect("dropped values"));
    a.held(&list(words, "chain").expect("a chain"), length, 0);
}

/// The shape, with every rank 1 in all places, and the chain; a refused start leaves both.
fn started(a: &mut Answer, given: &[&str], words: &[&str], refused: bool) {
    let mut s = shape(given);
    let room = start_room(given);
    if refused {
        a.shape(&s);
        return a.held(&[], room, MARK);
    }
    s.1[0] = vec![1; PLACES];
    s.1[2] = vec![1; PLACES];
    a.shape(&s);
    a.held(&list(words, "chain").expect("a chain"), room, 0);
}

/// Rank, passes and both outputs, which a refused pair leaves.
fn paired(a: &mut Answer, given: &[&str], words: &[&str], refused: bool) {
    let behind = if refused { MARK } else { 0 };
    for name in ["rank", "passes"] {
        a.value(named(words, name).map_or(0, |n| n[0]));
    }
    for (name, length) in ["left", "right"].iter().zip(rooms(given)) {
        a.held(&list(words, name).unwrap_or_default(), length, behind);
    }
}

fn answer(kind: &str, given: &[&str], words: &[&str]) -> Answer {
    let mut a = Answer::default();
    if kind == "entry" {
        let value = named(words, "value");
        a.value(value.is_some() as u64);
        a.value(value.map_or(0, |v| v[0]));
        return a;
    }
    let told = refusal(words);
    told.iter().for_each(|w| a.value(*w as u64));
    let refused = told[0] != 0;
    match kind {
        "inner" => a.value(named(words, "figure").map_or(0, |f| f[0])),
        "start" => started(&mut a, given, words, refused),
        "pair" => paired(&mut a, given, words, refused),
        _ => rounded(&mut a, given, words, refused),
    }
    if !matches!(kind, "inner" | "start") {
        let unwritten = refused && !calls::met_in_the_work(told[0]);
        a.held(&[], u64::MAX, if unwritten { MARK } else { 0 });
    }
    a
}

fn main() {
    let wrong = std::env::args().any(|word| word == "wrong");
    let mut text = String::new();
    std::io::stdin()
        .read_to_string(&mut text)
        .expect("lines of cases");
    let mut cases = Vec::new();
    for line in text.lines() {
        let words: Vec<&str> = line.split_whitespace().collect();
        let end = words.iter().position(|w| *w == "=").expect("an answer");
        let given = given_words(words[0], &words[2..end]);
        let a = answer(words[0], &words[2..end], &words[end + 1..]);
        let answers = if wrong { a.wrong() } else { vec![a.words] };
        cases.extend(answers.into_iter().map(|a| [given.clone(), a].concat()));
    }
    let all = [vec![cases.len() as u64], cases.concat()].concat();
    let bytes: Vec<u8> = all.iter().flat_map(|w| w.to_le_bytes()).collect();
    BufWriter::new(std::io::stdout().lock())
        .write_all(&bytes)
        .expect("words written");
}
