//! What callgrind wrote: all instructions counted, those of each function by itself, and those of each place that calls a function.
use std::collections::BTreeMap;

#[derive(Default)]
pub struct Profile {
    pub total: u64,
    /// by the function's name, without those that it calls
    pub functions: BTreeMap<String, u64>,
    /// by the address that calls, and the name of what is called
    pub sites: BTreeMap<(u64, String), u64>,
}

/// Names are written once, with a number that stands for them later.
#[derive(Default)]
struct Names(BTreeMap<String, String>);

impl Names {
    fn name(&mut self, word: &str) -> String {
        let (number, name) = word.split_once(' ').unwrap_or((word, ""));
        if !name.is_empty() {
            self.0.insert(number.to_string(), name.to_string());
        }
        self.0.get(number).cloned().unwrap_or_default()
    }
}

/// An address is written in full, as a distance from the last one, or as the same.
fn address(word: &str, last: u64) -> Option<u64> {
    match word.as_bytes().first()? {
        b'*' => Some(last),
        b'+' => Some(last + word[1..].parse::<u64>().ok()?),
        b'-' => Some(last - word[1..].parse::<u64>().ok()?),
        _ => u64::from_str_radix(word.strip_prefix("0x")?, 16).ok(),
    }
}

impl Profile {
    /// Of a file with `--dump-instr=yes`: lines are an address, a source line and a count; after `calls=` the count is the callee's.
    pub fn of(text: &str) -> Profile {
        let mut profile = Profile::default();
        let mut names = Names::default();
        let (mut function, mut callee) = (String::new(), String::new());
        let (mut at, mut calling) = (0, false);
        for line in text.lines() {
            if let Some(word) = line.strip_prefix("fn=") {
                function = names.name(word);
            } else if let Some(word) = line.strip_prefix("cfn=") {
                callee = names.name(word);
            } else if line.starts_with("calls=") {
                calling = true;
            } else if let Some(word) = line.strip_prefix("totals: ") {
                profile.total = word.trim().parse().unwrap_or(0);
            } else {
                let words: Vec<&str> = line.split(' ').collect();
                let [place, _, count] = words[..] else {
                    continue;
                };
                let (Some(next), Ok(count)) = (address(place, at), count.parse::<u64>()) else {
                    continue;
                };
                at = next;
                if std::mem::take(&mut calling) {
                    *profile.sites.entry((at, callee.clone())).or_default() += count;
                } else {
                    *profile.functions.entry(function.clone()).or_default() += count;
                }
            }
        }
        profile
    }
}
