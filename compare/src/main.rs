//! Compares the port with the Rust of the scope on seeded cases; README.md says how it is run.
use compare::case::{Agreed, Refusal};
use compare::{kinds, roots};
use oracle::stored::Made;
use std::process::ExitCode;

const USAGE: &str = "usage: compare SEED [COUNT], COUNT cases of every kind in turn, or without end
       compare one KIND SEED INDEX, one case alone
       compare roots SEED COUNT, the square root, floor and magnitude against the hardware's";

/// The largest number of a refusal.
const LAST: usize = 14;

#[derive(Default)]
struct Tally {
    /// for each kind the calls, by the number of their refusal, 0 where both answered
    numbers: [[usize; LAST + 1]; kinds::KINDS.len()],
    /// the calls that met a number that isn't finite, by what was being made
    made: [usize; Made::ALL.len()],
}

impl Tally {
    fn add(&mut self, kind: usize, refusal: Option<Refusal>) {
        let number = refusal.map_or(0, |why| why.told().number);
        self.numbers[kind][usize::from(number)] += 1;
        if let Some(made) = refusal.and_then(|why| why.made()) {
            self.made[made as usize] += 1;
        }
    }

    fn calls(&self) -> usize {
        self.numbers.iter().flatten().sum()
    }

    fn print(&self) {
        print!("{:8}{:>9}{:>9}", "kind", "calls", "answered");
        (1..=LAST).for_each(|number| print!("{number:>7}"));
        println!("  (refused, by number)");
        for (kind, row) in kinds::KINDS.iter().zip(&self.numbers) {
            print!("{:8}{:>9}{:>9}", kind.0, row.iter().sum::<usize>(), row[0]);
            row[1..].iter().for_each(|refused| print!("{refused:>7}"));
            println!();
        }
        println!("not finite, by what was being made:");
        for made in Made::ALL {
            let (name, met) = (made.name(), self.made[made as usize]);
            println!("{:>4}  {name:11}{met:>8}", made.number());
        }
    }
}

/// One case; where it differs, what, and how to see it again.
fn one(kind: usize, seed: u64, index: usize) -> Agreed {
    let name = kinds::KINDS[kind].0;
    let again = format!("compare one {name} {seed} {index}");
    let outcome = std::panic::catch_unwind(|| kinds::one(kind, seed, index));
    match outcome {
        Ok(agreed) => agreed.map_err(|what| format!("{again}\n{what}")),
        Err(_) => Err(format!("{again}\nthe oracle stopped")),
    }
}

fn all(seed: u64, count: usize) -> Result<(), String> {
    let mut tally = Tally::default();
    for at in 0..count {
        let (kind, index) = (at % kinds::KINDS.len(), at / kinds::KINDS.len());
        for refusal in one(kind, seed, index)? {
            tally.add(kind, refusal);
        }
        if (at + 1) % 100_000 == 0 {
            println!("{} cases, 0 differences", at + 1);
        }
    }
    tally.print();
    println!(
        "seed {seed}: {count} cases, {} calls, 0 differences",
        tally.calls()
    );
    Ok(())
}

fn run(words: &[&str]) -> Result<(), String> {
    let number = |w: &str| w.parse::<u64>().map_err(|_| USAGE.to_string());
    match words {
        ["one", kind, seed, index] => {
            let at = kinds::KINDS.iter().position(|k| k.0 == *kind);
            let agreed = one(at.ok_or(USAGE)?, number(seed)?, number(index)? as usize)?;
            println!("no difference; refused with {agreed:?}, None where answered");
            Ok(())
        }
        ["roots", seed, count] => {
            let made = roots::compare(number(seed)?, number(count)? as usize)?;
            println!("seed {seed}: {made} patterns, 0 differences");
            Ok(())
        }
        [seed] => all(number(seed)?, usize::MAX),
        [seed, count] => all(number(seed)?, number(count)? as usize),
        _ => Err(USAGE.to_string()),
    }
}

fn main() -> ExitCode {
    let words: Vec<String> = std::env::args().skip(1).collect();
    match run(&words.iter().map(String::as_str).collect::<Vec<&str>>()) {
        Ok(()) => ExitCode::SUCCESS,
        Err(what) => {
            println!("{what}");
            ExitCode::FAILURE
        }
    }
}
