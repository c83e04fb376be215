//! Kept runs: a fresh one, then replacements one after another, at times on a run that others wrote to. As long as nobody else wrote,
//! the run must also be, bit for bit, the port's own fresh run on the present inputs.
use crate::case::{demand, spilt, told, Agreed, Refusal};
use crate::chains::{cutting_of, flat, record_of, scratch_for, shape_of};
use crate::lent::{self, Lent, Word};
use crate::model::{self, carry_size, sum_size, Part, Run};
use crate::port::{self, Axis, Bond, Record, Settings, Told};
use crate::rounds::scratch_ends;
use crate::{asked, spoil, steps, table};
use oracle::draw::{self, Most};
use oracle::random::Random;
use oracle::spill;
use oracle::tt_core::TtCore;

/// A list an axis, without gaps.
fn weights(r: &mut Random, cores: &[TtCore<f64>]) -> Vec<f64> {
    let draw = if spilt(r) {
        spill::weights
    } else {
        draw::weights
    };
    draw(r, cores).concat()
}

/// What may stand behind the last axis, where it means nothing.
fn any_axis(r: &mut Random) -> Axis {
    let mut any = || f64::from_bits(r.next());
    let (a, b, xmin, xmax) = (any(), any(), any(), any());
    Axis {
        a,
        b,
        xmin,
        xmax,
        boundary: r.next() as usize,
    }
}

/// Inputs, with room for what is kept.
fn inputs(r: &mut Random, most: &Most) -> Run {
    let step = if spilt(r) { spill::step } else { steps::drawn };
    let (rule, tau, state) = step(r, most);
    let cores = state.cores;
    let mut drawn = rule.axes().into_iter().map(record_of);
    let axes = std::array::from_fn(|_| drawn.next().unwrap_or_else(|| any_axis(r)));
    let record = Record {
        shape: shape_of(r, &cores),
        axes,
        settings: Settings {
            tau,
            c: rule.rust.c,
            cutting: cutting_of(rule.cutting()),
        },
        bonds: [Bond::default(); 16],
        figure: 0.0,
    };
    model::blank(&Run {
        record,
        source: flat(&cores),
        weights: weights(r, &cores),
        chain: vec![],
        carries: vec![],
        sums: vec![],
    })
}

/// Spoils what a run is made from, or a length.
fn spoil_inputs(r: &mut Random, run: &mut Run) {
    let set = &mut run.record.settings;
    match r.below(13) {
        0 => spoil::shape(r, &mut run.record.shape),
        1 => spoil::length(r, &mut run.source),
        2 => spoil::length(r, &mut run.weights),
        3 => spoil::length(r, &mut run.chain),
        4 => spoil::length(r, &mut run.carries),
        5 => spoil::length(r, &mut run.sums),
        6 => spoil::number(r, &mut run.source),
        7 => spoil::number(r, &mut run.weights),
        8 => spoil::axis(r, &mut run.record.axes),
        9 => set.tau = spoil::setting(r),
        10 => set.c = spoil::setting(r),
        _ => spoil::cutting(r, &mut set.cutting),
    }
}

/// What others might write as a bond's dropped value.
fn dropped(r: &mut Random) -> f64 {
    let any = f64::from_bits(r.next());
    r.of(&[
        any,
        any,
        1.0,
        -0.0,
        f64::NAN,
        f64::INFINITY,
        f64::NEG_INFINITY,
    ])
}

/// Writes to what a run keeps, as others might; a dropped value also behind the last bond, where it is unused.
fn write_to(r: &mut Random, run: &mut Run) {
    let k = r.below(run.shape().d.clamp(1, 16));
    let any = f64::from_bits(r.next());
    match r.below(11) {
        0 => spoil::number(r, &mut run.chain),
        1 => spoil::number(r, &mut run.carries),
        2 => spoil::number(r, &mut run.sums),
        3 => run.record.figure = r.of(&[1.0, f64::NAN, f64::INFINITY]),
        4 => run.record.bonds[k].rank = r.of(&[0, 1, 1, 2, 3, 8, 9, usize::MAX]),
        5 => run.record.bonds[k].rank = run.record.bonds[k].rank.saturating_sub(1),
        6 => run.record.bonds[k].sweeps = r.of(&[0, 51, usize::MAX]),
        7 => run.record.bonds[k].settled ^= true,
        8 => {
            let place = r.below(16);
            run.record.bonds[r.of(&[k, place])].dropped = dropped(r);
        }
        9 => {
            let kept = [&mut run.chain, &mut run.carries, &mut run.sums];
            kept.into_iter()
                .flatten()
                .for_each(|x| *x *= r.of(&[1.0, -1.0, 2.0]));
        }
        _ => run.sums.iter_mut().for_each(|x| *x = any),
    }
}

/// A new part for some zone, drawn as the run's own was.
fn request(r: &mut Random, run: &Run) -> (usize, Part) {
    let s = run.shape();
    let d = s.d.clamp(1, 16);
    let any = r.below(d);
    let zone = r.of(&[0, d / 2, d - 1, any]);
    let (left, n, right) = (s.left[zone].min(8), s.n[zone].min(64), s.right[zone].min(8));
    let manner = draw::manners(r, 1)[0];
    let scale = draw::scales(r, 1)[0];
    let mut core = draw::core(r, manner, scale, left.max(1), n.max(1), right.max(1));
    if spilt(r) {
        spill::replace(r, &mut core);
    }
    let mut axis = [draw::axis(r, run.record.settings.tau, n)];
    draw::bound(r, &mut axis);
    let part = match r.below(3) {
        0 => Part::Core(core.data),
        1 => Part::Weights(weights(r, &[core])),
        _ => Part::Axis(record_of(axis[0])),
    };
    (zone, part)
}

fn spoil_request(r: &mut Random, zone: &mut usize, new: &mut Part) {
    match (r.below(3), new) {
        (0, _) => *zone = r.of(&[zone.wrapping_add(1), 16, 17, usize::MAX]),
        (1, Part::Core(xs) | Part::Weights(xs)) => spoil::length(r, xs),
        (_, Part::Core(xs) | Part::Weights(xs)) => spoil::number(r, xs),
        (_, Part::Axis(axis)) => match r.below(3) {
            0 => axis.a = -axis.a,
            _ => spoil::axis(r, std::slice::from_mut(axis)),
        },
    }
}

fn same_bits(xs: &[f64], ys: &[f64]) -> bool {
    xs.len() == ys.len() && xs.iter().zip(ys).all(|(x, y)| x.to_bits() == y.to_bits())
}

/// The same records; of a figure of zero the sign doesn't count.
fn same_record(x: &Record, y: &Record) -> bool {
    x.shape == y.shape
        && x.axes == y.axes
        && x.settings == y.settings
        && x.bonds == y.bonds
        && x.figure.same(y.figure)
}

/// The five slices of a run, lent.
struct Slices([Lent<f64>; 5]);

impl Slices {
    fn of(run: &Run) -> Slices {
        Slices([
            Lent::of("source", &run.source),
            Lent::of("weights", &run.weights),
            Lent::of("chain", &run.chain),
            Lent::of("carries", &run.carries),
            Lent::of("sums", &run.sums),
        ])
    }

    fn parts(&mut self) -> [&mut [f64]; 5] {
        self.0.each_mut().map(|lent| lent.part())
    }

    fn unwritten(&self) -> Result<(), String> {
        self.0.iter().try_for_each(|lent| lent.unwritten())
    }

    fn holds(&self, run: &Run) -> Result<(), String> {
        let slices = [
            &run.source,
            &run.weights,
            &run.chain,
            &run.carries,
            &run.sums,
        ];
        self.0
            .iter()
            .zip(slices)
            .try_for_each(|(lent, xs)| lent.holds(xs))
    }

    /// The run that a call leaves.
    fn left(&mut self, record: Record) -> Run {
        let [source, weights, chain, carries, sums] = self.parts().map(|xs| xs.to_vec());
        Run {
            record,
            source,
            weights,
            chain,
            carries,
            sums,
        }
    }
}

/// Answer, slices and scratch of a fresh run or a replacement on `given`.
fn held(
    given: &Record,
    got: &(Told, Record),
    slices: &Slices,
    scratch: &Lent<f64>,
    want: &Result<Run, Refusal>,
) -> Result<(), String> {
    let record = want.as_ref().map_or(given, |run| &run.record);
    let told = (told(want), record);
    demand(got.0 == told.0 && same_record(&got.1, told.1), || {
        format!("answered {got:?}\nnot {told:?}")
    })?;
    match want {
        Ok(run) => slices.holds(run)?,
        Err(_) => slices.unwritten()?,
    }
    scratch_ends(scratch, want)
}

/// The port's fresh run on these inputs, over room of any content; what it leaves.
fn fresh(
    r: &mut Random,
    run: &Run,
    want: &Result<Run, Refusal>,
    scratch: usize,
) -> Result<Run, String> {
    let mut lent = Run { ..run.clone() };
    for xs in [&mut lent.chain, &mut lent.carries, &mut lent.sums] {
        xs.iter_mut().for_each(|x| *x = f64::from_bits(r.next()));
    }
    let mut slices = Slices::of(&lent);
    let mut scratch = lent::room(r, "scratch", scratch);
    let got = port::fresh_run(&run.record, slices.parts(), scratch.part());
    let mut bare = run.record.clone();
    (bare.bonds, bare.figure) = ([Bond::default(); 16], 0.0);
    held(&bare, &got, &slices, &scratch, want)?;
    let left = slices.left(got.1);
    if want.is_ok() {
        unused_zero(&left, 0, false)?;
    }
    Ok(left)
}

/// What a replacement doesn't write keeps its bits: slots left of its zone, and for new weights all of the chain and the carries.
fn kept_bits(before: &Run, after: &Run, zone: usize, new: &Part) -> Result<(), String> {
    let s = before.shape();
    let upto = |size: &dyn Fn(usize) -> usize, z: usize| (0..z).map(size).sum::<usize>();
    let z = if matches!(new, Part::Weights(_)) {
        s.d
    } else {
        zone
    };
    let chain = upto(&|k| table::core_size(s, k), z);
    let carries = upto(&|k| carry_size(s, k), z);
    let sums = upto(&|k| sum_size(s, k), zone);
    let kept = same_bits(&before.chain[..chain], &after.chain[..chain])
        && same_bits(&before.carries[..carries], &after.carries[..carries])
        && same_bits(&before.sums[..sums], &after.sums[..sums]);
    demand(kept, || {
        "what a replacement doesn't write has other bits".to_string()
    })
}

/// Unused room of the slots that a call writes, from its zone on, is +0; new weights write no core and no carry.
fn unused_zero(run: &Run, zone: usize, sums_only: bool) -> Result<(), String> {
    let s = run.shape();
    let zero = |slot: &[f64], used: usize| slot[used..].iter().all(|x| x.to_bits() == 0);
    for k in zone..s.d {
        let core = table::part(&run.chain, |k| table::core_size(s, k), k);
        let carry = table::part(&run.carries, |k| carry_size(s, k), k);
        let sums = table::part(&run.sums, |k| sum_size(s, k), k);
        let stepped =
            zero(core, run.kept_core(k).data.len()) && zero(carry, run.kept_carry(k).len());
        let ok = (sums_only || stepped) && zero(sums, run.kept_sums(k).len());
        demand(ok, || format!("unused room of zone {k} is not +0"))?;
    }
    Ok(())
}

/// One replacement; the run that it leaves, and its refusal.
fn replace(
    r: &mut Random,
    run: &Run,
    zone: usize,
    new: &Part,
) -> Result<(Run, Option<Refusal>), String> {
    let mut length = scratch_for(&run.source);
    if r.one_in(30) {
        spoil::room(r, &mut length);
    }
    let want = match asked::replace(run, zone, new, length) {
        Some(refusal) => Err(refusal),
        None => model::replace(run, zone, new).map_err(Refusal::from),
    };
    let mut slices = Slices::of(run);
    let mut scratch = lent::room(r, "scratch", length);
    let got = match new {
        Part::Core(xs) => port::replace_core(&run.record, zone, slices.parts(), xs, scratch.part()),
        Part::Weights(xs) => {
            port::replace_weights(&run.record, zone, slices.parts(), xs, scratch.part())
        }
        Part::Axis(axis) => {
            port::replace_axis(&run.record, zone, *axis, slices.parts(), scratch.part())
        }
    };
    held(&run.record, &got, &slices, &scratch, &want)?;
    let left = slices.left(got.1);
    if want.is_ok() {
        kept_bits(run, &left, zone, new)?;
        unused_zero(&left, zone, matches!(new, Part::Weights(_)))?;
    }
    Ok((left, want.err()))
}

/// The run is the port's own fresh run on its inputs, which is the Rust's step and inner product.
fn as_fresh(r: &mut Random, run: &Run) -> Result<(), String> {
    let want = model::fresh(run).map_err(Refusal::from);
    let made = fresh(r, run, &want, scratch_for(&run.source))?;
    let same = same_record(&made.record, &run.record)
        && same_bits(&[made.record.figure], &[run.record.figure])
        && same_bits(&made.chain, &run.chain)
        && same_bits(&made.carries, &run.carries)
        && same_bits(&made.sums, &run.sums);
    demand(same, || format!("not the fresh run\n{made:?}"))
}

/// Replacements one after another on a run that was made fresh; their refusals.
fn sequence(r: &mut Random, mut run: Run, agreed: &mut Vec<Option<Refusal>>) -> Result<(), String> {
    let mut untouched = true;
    for _ in 0..r.below(12) {
        if r.one_in(16) {
            untouched = false;
            let times = 1 + r.below(3);
            (0..times).for_each(|_| {
                if r.one_in(3) {
                    spoil_inputs(r, &mut run)
                } else {
                    write_to(r, &mut run)
                }
            });
        }
        let (mut zone, mut new) = request(r, &run);
        if r.one_in(6) {
            spoil_request(r, &mut zone, &mut new);
        }
        let (left, refusal) = replace(r, &run, zone, &new)
            .map_err(|what| format!("{what}\nzone {zone} {new:?}\n{run:?}"))?;
        agreed.push(refusal);
        run = left;
        if untouched {
            as_fresh(r, &run)
                .map_err(|what| format!("{what}\nafter zone {zone} {new:?}\n{run:?}"))?;
        }
    }
    Ok(())
}

/// A fresh run, at times refused, and replacements on it.
pub fn compare(r: &mut Random, most: &Most) -> Agreed {
    let mut run = inputs(r, most);
    let mut scratch = scratch_for(&run.source);
    if r.one_in(4) {
        (0..1 + r.below(2)).for_each(|_| spoil_inputs(r, &mut run));
    } else if r.one_in(30) {
        spoil::room(r, &mut scratch);
    }
    let want = match asked::fresh(&run, scratch) {
        Some(refusal) => Err(refusal),
        None => model::fresh(&run).map_err(Refusal::from),
    };
    let made = fresh(r, &run, &want, scratch).map_err(|what| format!("{what}\n{run:?}"))?;
    let mut agreed = vec![want.as_ref().err().copied()];
    if want.is_ok() {
        sequence(r, made, &mut agreed)?;
    }
    Ok(agreed)
}
