//! Prints cases with the Rust's answers, one per line; README.md says how to read them.
use oracle::draw::Most;
use oracle::given;
use oracle::kinds;
use oracle::line::Line;
use oracle::random::Random;
use std::io::{BufWriter, Write};

const USAGE: &str =
    "usage: oracle [spill] KIND SEED COUNT [CORES SIZE RANK STEPS], or oracle given < LINES
  KIND is round, inner, start, entry, step, edge, evolve, pair, root, floor or weights
  spill asks for cases that overflow, of round, inner, step, evolve or pair
  CORES SIZE RANK STEPS are the most of each that a case has: 16 64 8 200 if not given
  LINES are cases of round, inner, step, evolve and pair without an answer";

fn main() {
    let words: Vec<String> = std::env::args().skip(1).collect();
    if words == ["given"] {
        for text in std::io::stdin().lines() {
            println!("{}", given::answered(&text.expect("a line")).text());
        }
        return;
    }
    let (kinds, words) = match words.split_first() {
        Some((first, rest)) if first == "spill" => (&kinds::SPILT[..], rest),
        _ => (&kinds::KINDS[..], &words[..]),
    };
    let numbers: Option<Vec<usize>> = words.iter().skip(1).map(|w| w.parse().ok()).collect();
    let kind = kinds
        .iter()
        .find(|k| words.first().is_some_and(|w| w == k.0));
    let (Some(&(name, draw)), Some(numbers)) = (kind, numbers) else {
        return eprintln!("{USAGE}");
    };
    let (seed, count, most) = match numbers[..] {
        [seed, count] => (
            seed,
            count,
            Most {
                cores: 16,
                size: 64,
                rank: 8,
                steps: 200,
            },
        ),
        [seed, count, cores, size, rank, steps] => (
            seed,
            count,
            Most {
                cores,
                size,
                rank,
                steps,
            },
        ),
        _ => return eprintln!("{USAGE}"),
    };
    let mut out = BufWriter::new(std::io::stdout().lock());
    for index in 0..count {
        let mut line = Line::of_case(name, index);
        draw(
            &mut Random::of_case(seed as u64, name, index),
            &most,
            &mut line,
        );
        if writeln!(out, "{}", line.text()).is_err() {
            return;
        }
    }
}
