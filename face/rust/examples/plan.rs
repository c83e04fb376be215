//! A plan of two zones: its figure, its file and two roundings, of which one drops a value; small numbers rounded in both
//! modes, and a rounding that is refused; of one zone: a step around its axis, one that reflects and one that is refused, and a
//! run with new weights; of two zones again: a run that refuses a wild forecast and a wild weight.
use uyavsker::{text_of, Axis, Boundary, Chain, Cutting, Mode, Refusal, Run, Settings, Shape};

fn print_numbers(name: &str, numbers: &[f64]) {
    let words: Vec<String> = numbers.iter().map(f64::to_string).collect();
    println!("{name} {}", words.join(" "));
}

fn print_file(chain: &Chain) -> Result<(), Refusal> {
    let file = chain.write()?;
    print!("{}", text_of(&file));
    if let Err(refusal) = Chain::read(&file[..file.len() - 1]) {
        println!("{refusal}");
    }
    print_numbers("read", Chain::read(&file)?.numbers());
    Ok(())
}

const ABSOLUTE: Cutting = Cutting {
    eps: 0.0,
    mode: Mode::Absolute,
};

const SCALED: Cutting = Cutting {
    mode: Mode::Scaled,
    ..ABSOLUTE
};

// At its bond the plan has the values 4 and 3. With eps 0.75 the second isn't above 0.75*4, and is dropped.
fn print_rounding(mut chain: Chain, weights: &[f64], eps: f64) -> Result<(), Refusal> {
    let bond = chain.round(&Cutting { eps, ..ABSOLUTE })?.bonds()[0];
    let settled = if bond.settled { "yes" } else { "no" };
    let (rank, sweeps, dropped) = (bond.rank, bond.sweeps, bond.dropped);
    print_numbers("rounded", chain.numbers());
    println!("eps {eps}: rank {rank}, sweeps {sweeps}, settled {settled}, dropped {dropped}");
    println!("figure {}", chain.inner(weights)?);
    Ok(())
}

// A chance of 2^-104 beside a sure one: in absolute mode it is below 1e-30, and vanishes.
fn print_rare(name: &str, cutting: Cutting) -> Result<(), Refusal> {
    let small = 2f64.powi(-104);
    let mut chain = Chain::new(Shape::new(&[(1, 1, 1); 2])?, vec![small, 1.0])?;
    chain.round(&cutting)?;
    let figure = chain.inner(&[1.0; 2])? / small;
    println!("{name}: figure {figure} times 2^-104");
    Ok(())
}

// Two columns of 2^-27 are the same, and one would do: what they have in common is 2^-54, whose square is below 1e-30, so that in
// absolute mode they aren't turned.
fn print_alike(name: &str, cutting: Cutting) -> Result<(), Refusal> {
    let small = 2f64.powi(-27);
    let shape = Shape::new(&[(1, 1, 2), (2, 1, 1)])?;
    let mut chain = Chain::new(shape, vec![small, small, 1.0, 1.0])?;
    let bond = chain.round(&cutting)?.bonds()[0];
    println!("{name}: rank {}, sweeps {}", bond.rank, bond.sweeps);
    Ok(())
}

// As with a boundary below, C's program has a mode refused that isn't known, where here eps is below zero.
fn print_modes() -> Result<(), Refusal> {
    print_rare("absolute", ABSOLUTE)?;
    print_rare("scaled", SCALED)?;
    print_alike("absolute", ABSOLUTE)?;
    print_alike("scaled", SCALED)?;
    let (eps, mode) = (-1.0, Mode::Scaled);
    if let Err(refusal) = print_rare("below zero", Cutting { eps, mode }) {
        println!("{refusal}");
    }
    Ok(())
}

const SETTINGS: Settings = Settings {
    tau: 1.0,
    c: 0.0,
    cutting: ABSOLUTE,
};

const AXIS: Axis = Axis {
    a: 0.25,
    b: 0.0,
    xmin: 0.0,
    xmax: 3.0,
    boundary: Boundary::Periodic,
};

const REFLECTING: Axis = Axis {
    boundary: Boundary::Reflecting,
    ..AXIS
};

// A number may be out of order where a boundary can't: there is none that isn't known. C's program has that refused, with the
// same number.
const BELOW_ZERO: Axis = Axis { a: -0.25, ..AXIS };

// Half of each number stays, and a quarter goes one point up and one down: from an end to the other end, or back to where it was.
fn print_steps(shape: Shape, numbers: &[f64]) -> Result<(), Refusal> {
    let named = [
        ("periodic", AXIS),
        ("reflecting", REFLECTING),
        ("below zero", BELOW_ZERO),
    ];
    for (name, axis) in named {
        let mut chain = Chain::new(shape, numbers.to_vec())?;
        match chain.step(&SETTINGS, &[axis]) {
            Ok(_) => print_numbers(name, chain.numbers()),
            Err(refusal) => println!("{refusal}"),
        }
    }
    Ok(())
}

fn print_run(shape: Shape, numbers: &[f64]) -> Result<(), Refusal> {
    let mut run = Run::fresh(&shape, &[AXIS], &SETTINGS, numbers.to_vec(), vec![1.0; 4])?;
    println!("run {}", run.figure());
    let part = [1.0, 2.0, 1.0, 1.0];
    println!("new weights {}", run.replace_weights(0, &part)?);
    if let Err(refusal) = run.replace_weights(1, &part) {
        println!("{refusal}");
    }
    Ok(())
}

// Each has a number whose products are too large: the number of the refusal tells the core from the weight.
fn print_wild(shape: Shape, numbers: &[f64], weights: &[f64]) -> Result<(), Refusal> {
    let still = [Axis::default(); 2];
    let mut run = Run::fresh(
        &shape,
        &still,
        &SETTINGS,
        numbers.to_vec(),
        weights.to_vec(),
    )?;
    println!("run of two zones {}", run.figure());
    if let Err(refusal) = run.replace_core(0, &[3.0, 0.0, 0.0, 1e200]) {
        println!("a wild forecast: {refusal}");
    }
    if let Err(refusal) = run.replace_weights(1, &[1e308]) {
        println!("a wild weight: {refusal}");
    }
    Ok(())
}

fn main() -> Result<(), Refusal> {
    let (weights, two_zones) = ([1.0, 2.0, 1.0], [3.0, 0.0, 0.0, 4.0, 1.0, 1.0]);
    let shape = Shape::new(&[(1, 2, 2), (2, 1, 1)])?;
    let chain = Chain::new(shape, two_zones.to_vec())?;
    println!("figure {}", chain.inner(&weights)?);
    print_file(&chain)?;
    print_rounding(chain.clone(), &weights, 0.0)?;
    print_rounding(chain, &weights, 0.75)?;
    print_modes()?;
    let (one_zone, numbers) = (Shape::new(&[(1, 4, 1)])?, [4.0, 8.0, 16.0, 0.0]);
    print_steps(one_zone, &numbers)?;
    print_run(one_zone, &numbers)?;
    print_wild(shape, &two_zones, &weights)
}
