//! Cases that are given by hand, as lines without an answer; the Rust's own is put behind each.
use crate::draw::Axis;
use crate::kinds;
use crate::line::Line;
use crate::mode::Cutting;
use crate::rules::Rule;
use crate::tt_chernoff::TtState;
use crate::tt_core::TtCore;

/// The words of a line behind a name.
fn behind<'a>(words: &'a [&'a str], name: &str) -> &'a [&'a str] {
    let at = words.iter().position(|w| *w == name);
    &words[at.expect("all names of the kind") + 1..]
}

fn count(word: &str) -> usize {
    word.parse().expect("a count")
}

fn float(word: &str) -> f64 {
    f64::from_bits(u64::from_str_radix(word, 16).expect("the bits of a float"))
}

/// How many, and each.
fn floats(words: &[&str], name: &str) -> Vec<f64> {
    let list = behind(words, name);
    list[1..=count(list[0])].iter().map(|w| float(w)).collect()
}

fn cores(words: &[&str]) -> Vec<TtCore<f64>> {
    let shape = behind(words, "shape");
    let mut numbers = floats(words, "chain").into_iter();
    shape[1..=3 * count(shape[0])]
        .chunks(3)
        .map(|sizes| {
            let [r_left, n, r_right] = [0, 1, 2].map(|i| count(sizes[i]));
            let data = numbers.by_ref().take(r_left * n * r_right).collect();
            TtCore {
                r_left,
                n,
                r_right,
                data,
            }
        })
        .collect()
}

/// One list an axis.
fn weights(words: &[&str], cores: &[TtCore<f64>]) -> Vec<Vec<f64>> {
    let mut numbers = floats(words, "weights").into_iter();
    cores
        .iter()
        .map(|c| numbers.by_ref().take(c.n).collect())
        .collect()
}

/// Five words an axis.
fn axes(words: &[&str]) -> Vec<Axis> {
    let list = behind(words, "axes");
    list[1..=count(list[0])]
        .chunks(5)
        .map(|axis| Axis {
            a: float(axis[0]),
            b: float(axis[1]),
            domain: (float(axis[2]), float(axis[3])),
            boundary: count(axis[4]),
        })
        .collect()
}

pub fn answered(text: &str) -> Line {
    let words: Vec<&str> = text.split_whitespace().collect();
    let cores = cores(&words);
    let lone = |name: &str| float(behind(&words, name)[0]);
    let cutting = || Cutting {
        eps: lone("eps"),
        mode: count(behind(&words, "mode")[0]),
    };
    let rule = || Rule::of(&axes(&words), lone("c"), cutting());
    let mut line = Line::of_text(text);
    match words[0] {
        "round" => kinds::rounded(&mut line, cores, cutting()),
        "pair" => kinds::split(&mut line, cores, lone("eps")),
        "step" => kinds::stepped(&mut line, &rule(), lone("tau"), TtState { cores }),
        "evolve" => {
            let (t_final, steps) = (lone("t_final"), count(behind(&words, "steps")[0]));
            kinds::evolved(&mut line, &rule(), t_final, steps, TtState { cores });
        }
        "inner" => {
            let weights = weights(&words, &cores);
            kinds::summed(&mut line, cores, &weights);
        }
        kind => panic!("no case of {kind} can be given"),
    }
    line
}
