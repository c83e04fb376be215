//! Prints the tables of docs/SPEED.md: instructions as callgrind counts them, and the shortest time, of the port and of the Rust.
use compare::clock::Clock;
use compare::kernels::{DIFFERENCES, PRODUCTS, RUST, RUST_PRODUCTS};
use compare::profile::Profile;
use compare::rows::{Row, ROWS};
use std::process::Command;
use std::time::Duration;

type Work = fn(&mut Clock);

/// Calls that are counted at a time.
const CALLS: u64 = 3;

/// One of the works: its table, its place there, and whose it is: 0 the port's, 1 the Rust's.
#[derive(Clone, Copy)]
struct Id(&'static str, usize, usize);

const TABLES: [&str; 4] = ["call", "with", "without", "alone"];

fn work(Id(table, at, whose): Id) -> Work {
    match table {
        "call" if whose == 0 => ROWS[at].port,
        "call" => ROWS[at].rust.expect("a call of the Rust"),
        "with" => DIFFERENCES[at].with[whose],
        "without" => DIFFERENCES[at].without[whose],
        _ => RUST[at].1,
    }
}

fn run(work: Work, calls: usize) -> Duration {
    let mut clock = Clock {
        calls,
        shortest: Duration::MAX,
    };
    work(&mut clock);
    clock.shortest
}

/// This program again, for one work, under callgrind, which counts inside `measured` alone. Where memory is filled or copied it is
/// to count instructions and not bytes, so the C library is told to do without `rep`.
fn counted(Id(table, at, whose): Id) -> Profile {
    let me = std::env::current_exe().expect("a path");
    let out = me.with_file_name("measured.out");
    Command::new("valgrind")
        .args(["--tool=callgrind", "--toggle-collect=measured", "--dump-instr=yes"])
        .arg(format!("--callgrind-out-file={}", out.display()))
        .arg(&me)
        .args([table.to_string(), at.to_string(), whose.to_string(), CALLS.to_string()])
        .env(
            "GLIBC_TUNABLES",
            "glibc.cpu.x86_rep_stosb_threshold=0xffffffff:glibc.cpu.x86_rep_movsb_threshold=0xffffffff",
        )
        .output()
        .expect("valgrind");
    Profile::of(&std::fs::read_to_string(&out).expect("what valgrind wrote"))
}

/// Of one call.
fn instructions(id: Id) -> f64 {
    counted(id).total as f64 / CALLS as f64
}

/// The shortest of many calls, in microseconds.
fn time(id: Id) -> f64 {
    let one = run(work(id), 3).as_nanos().max(1);
    let many = (300_000_000 / one).clamp(30, 20_000) as usize;
    run(work(id), many).as_nanos() as f64 / 1000.0
}

fn calls() {
    println!("| call | port | Rust | port/Rust | port, µs | Rust, µs | port/Rust |");
    println!("|---|---|---|---|---|---|---|");
    for (at, row) in ROWS.iter().enumerate() {
        let one = |measure: fn(Id) -> f64, whose: usize| {
            measure(Id("call", at, whose)) / row.at_a_time as f64
        };
        let (port, quick) = (one(instructions, 0), one(time, 0));
        if row.rust.is_none() {
            println!("| {} | {port:.0} | - | - | {quick:.2} | - | - |", row.name);
            continue;
        }
        let (rust, slow) = (one(instructions, 1), one(time, 1));
        let (less, quicker) = (port / rust, quick / slow);
        println!(
            "| {} | {port:.0} | {rust:.0} | {less:.2} | {quick:.2} | {slow:.2} | {quicker:.2} |",
            row.name
        );
    }
}

/// Instructions a unit of the port and of the Rust.
fn line(name: &str, port: f64, rust: f64) {
    println!("| {name} | {port:.2} | {rust:.2} | {:.2} |", port / rust);
}

/// The port's absorb, Gram matrix and factor are three calls of one function in the walk over cores, in that order.
fn products() -> Vec<f64> {
    let large = |row: &Row| row.name.starts_with("tt_round, d 16");
    let at = ROWS.iter().position(large).expect("a row");
    let sites = counted(Id("call", at, 0)).sites;
    let product = sites
        .iter()
        .filter(|((_, name), _)| name == "bond::strips::product");
    product
        .map(|(_, count)| *count as f64 / (CALLS * PRODUCTS) as f64)
        .collect()
}

fn kernels() {
    println!("| kernel | port | Rust | port/Rust |");
    println!("|---|---|---|---|");
    for (at, x) in DIFFERENCES.iter().enumerate() {
        let made = |whose: usize| {
            let both = ["with", "without"].map(|table| instructions(Id(table, at, whose)));
            (both[0] - both[1]) / x.units as f64
        };
        line(x.name, made(0), made(1));
    }
    for (at, port) in products().iter().enumerate() {
        let rust = instructions(Id("alone", at, 1)) / RUST_PRODUCTS as f64;
        line(RUST[at].0, *port, rust);
    }
}

/// Fills and copies of the C library by one name each.
fn short(name: &str) -> &str {
    let plain = ["memset", "memcpy", "memmove"];
    plain.into_iter().find(|p| name.contains(p)).unwrap_or(name)
}

/// The functions with a hundredth or more of a call's instructions, the most first.
fn shares(profile: &Profile) -> String {
    let mut functions: Vec<(&String, &u64)> = profile.functions.iter().collect();
    functions.sort_by_key(|(_, count)| std::cmp::Reverse(**count));
    let share = |count: u64| 100.0 * count as f64 / profile.total as f64;
    functions
        .iter()
        .filter(|(_, count)| share(**count) >= 1.0)
        .map(|(name, count)| format!("`{}` {:.0}", short(name), share(**count)))
        .collect::<Vec<String>>()
        .join(", ")
}

fn work_goes() {
    println!("| call of the port | of 100 instructions |");
    println!("|---|---|");
    for (at, row) in ROWS.iter().enumerate() {
        println!("| {} | {} |", row.name, shares(&counted(Id("call", at, 0))));
    }
}

fn main() {
    let words: Vec<String> = std::env::args().skip(1).collect();
    if let [table, at, whose, calls] = &words[..] {
        let number = |w: &String| w.parse::<usize>().expect("a number");
        let table = TABLES.iter().find(|t| *t == table).expect("a table");
        run(work(Id(table, number(at), number(whose))), number(calls));
        return;
    }
    calls();
    println!();
    kernels();
    println!();
    work_goes();
}
