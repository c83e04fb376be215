//! Every field of every record and every slice of every call, told by its value, as face/fields.c does it from C: if two were
//! exchanged, in the archive or in the package, a test fails.
mod ladder;

use ladder::*;
use uyavsker::*;

// A number to be stored isn't finite.
fn stored<T>(number: u8, place: usize, index: usize) -> Result<T, Refusal> {
    Err(Refusal {
        number,
        place,
        index,
    })
}

// Any other refusal: without an index.
fn refused<T>(number: u8, place: usize) -> Result<T, Refusal> {
    stored(number, place, 0)
}

fn counting(count: usize, first: f64) -> Vec<f64> {
    (0..count).map(|i| first + i as f64).collect()
}

fn source() -> Vec<f64> {
    let sizes = cores(source_rank);
    numbers(&sizes, &sizes, source_entry)
}

#[test]
fn a_shape_and_its_refusal() {
    let mut sizes = cores(source_rank);
    assert!(shape(source_rank).cores().eq(sizes.clone()));
    sizes[9].1 = 65;
    assert_eq!(Shape::new(&sizes), refused(2, 9));
}

#[test]
fn an_entry() {
    let shape = shape(source_rank);
    let chain = counting(shape.entries(), 0.0);
    assert_eq!(entry_of(&shape, &chain, 5, (6, 4, 2)), Some(1572.0));
    assert_eq!(entry_of(&shape, &chain, 5, (6, 4, 3)), None);
}

#[test]
fn a_start() {
    let sizes: Vec<usize> = (0..ZONES).map(points).collect();
    let (vectors, mut chain) = (counting(264, 1.0), counting(264, -264.0));
    assert_eq!(
        rank1_separable(&sizes, &vectors[1..], &mut chain),
        refused(5, 0)
    );
    assert_eq!(
        rank1_separable(&sizes, &vectors, &mut chain[1..]),
        refused(5, 1)
    );
    let started = rank1_separable(&sizes, &vectors, &mut chain).unwrap();
    assert!(started.cores().eq(sizes.iter().map(|n| (1, *n, 1))));
    assert_eq!((&chain, vectors), (&counting(264, 1.0), counting(264, 1.0)));
}

#[test]
fn a_figure_of_slices_of_one_length() {
    let shape = Shape::new(&[(1, 1, 1); 2]).unwrap();
    let (large, small) = (2f64.powi(600), 2f64.powi(-600));
    assert_eq!(
        inner_separable(&shape, &[large, small], &[1.0, large]),
        Ok(large)
    );
    assert_eq!(
        inner_separable(&shape, &[1.0, large], &[large, small]),
        stored(14, 1, 0)
    );
}

// What is said of the ladder's bonds, where `all` says whether all sweeps are made at one. Only the first rounding drops something:
// what it leaves has no value but 1.
fn bonds(all: impl Fn(usize) -> bool) -> Vec<Bond> {
    let bond = |k| Bond {
        rank: kept_rank(k),
        sweeps: if all(k) { 50 } else { 0 },
        settled: !all(k),
        dropped: dropped_value(k),
    };
    (0..LAST).map(bond).collect()
}

// Holds what is said of bonds to what is wanted, and what was dropped by its bits, which tell +0 from -0.
fn assert_bonds(said: &[Bond], wanted: &[Bond]) {
    let bits = |bonds: &[Bond]| -> Vec<u64> { bonds.iter().map(|b| b.dropped.to_bits()).collect() };
    assert_eq!(said, wanted);
    assert_eq!(bits(said), bits(wanted));
}

// Holds what a call answers, and the slices it was lent, to the ladder after so many roundings.
fn assert_rounded(rounded: &Rounded, lent: (&[f64], &[f64]), times: usize, entry: Entry) {
    let kept = cores(kept_rank);
    let all = |k: usize| sweeps_all(k) && (times == 1 || kept_rank(k) > 1);
    assert_bonds(rounded.bonds(), &bonds(all));
    assert!(rounded.shape.cores().eq(kept.clone()));
    let mut chain = numbers(&kept, &kept, entry);
    chain.resize(lent.0.len(), 0.0);
    assert_eq!(lent.0, chain);
    assert!(lent.1.iter().all(|x| *x == 0.0));
}

#[test]
fn a_rounding() {
    let shape = shape(source_rank);
    let (mut chain, mut scratch) = (source(), counting(shape.scratch(), 5e5));
    let round = |x: &mut [f64], s: &mut [f64]| tt_round(&shape, &SETTINGS.cutting, x, s);
    assert_eq!(round(&mut chain[1..], &mut scratch), refused(5, 0));
    assert_eq!(round(&mut chain, &mut scratch[1..]), refused(5, 1));
    let rounded = round(&mut chain, &mut scratch).unwrap();
    assert_rounded(&rounded, (&chain, &scratch), 1, source_entry);
}

#[test]
fn a_step() {
    let shape = shape(source_rank);
    let (mut chain, mut scratch) = (source(), counting(shape.scratch(), 5e5));
    let records = axes();
    let made = |r: &[Axis], x: &mut [f64], s: &mut [f64]| step(&shape, &SETTINGS, r, x, s);
    assert_eq!(made(&records[1..], &mut chain, &mut scratch), refused(5, 0));
    assert_eq!(made(&records, &mut chain[1..], &mut scratch), refused(5, 1));
    assert_eq!(made(&records, &mut chain, &mut scratch[1..]), refused(5, 2));
    let rounded = made(&records, &mut chain, &mut scratch).unwrap();
    assert_rounded(&rounded, (&chain, &scratch), 1, stepped_entry);
}

#[test]
fn a_course() {
    let shape = shape(source_rank);
    let (mut chain, mut scratch) = (source(), counting(shape.scratch(), 5e5));
    let records = axes();
    let course = Course {
        t_final: 8.0,
        steps: 2,
        c: SETTINGS.c,
        cutting: SETTINGS.cutting,
    };
    let made = |r: &[Axis], x: &mut [f64], s: &mut [f64]| evolve(&shape, &course, r, x, s);
    assert_eq!(made(&records[1..], &mut chain, &mut scratch), refused(5, 0));
    assert_eq!(made(&records, &mut chain[1..], &mut scratch), refused(5, 1));
    assert_eq!(made(&records, &mut chain, &mut scratch[1..]), refused(5, 2));
    let rounded = made(&records, &mut chain, &mut scratch).unwrap();
    assert_rounded(&rounded, (&chain, &scratch), 2, evolved_entry);
}

// The place of entry (il, im, ir) of zone k of the source.
fn entry(k: usize, (il, im, ir): (usize, usize, usize)) -> usize {
    let sizes = cores(source_rank);
    let before: usize = sizes[..k].iter().map(|(l, n, r)| l * n * r).sum();
    before + (il * sizes[k].1 + im) * sizes[k].2 + ir
}

// Zone 5 has three columns, and 1e200 in a row of its own in the last: the Gram matrix at (2, 2).
#[test]
fn a_refused_rounding() {
    let shape = shape(source_rank);
    let (mut chain, mut scratch) = (source(), vec![0.0; shape.scratch()]);
    chain[entry(5, (2, 2, 2))] = 1e200;
    let rounded = tt_round(&shape, &SETTINGS.cutting, &mut chain, &mut scratch);
    assert_eq!(rounded, stored(12, 5, 8));
}

// Of zone 6 column 2 alone is kept, and 1e100 carried from it to row 2 of zone 7, which becomes row 0 of two columns.
#[test]
fn a_refused_step() {
    let shape = shape(source_rank);
    let (mut chain, mut scratch) = (source(), vec![0.0; shape.scratch()]);
    chain[entry(6, (0, 2, 2))] = 1e100;
    chain[entry(7, (2, 9, 1))] = 1e300;
    let stepped = step(&shape, &SETTINGS, &axes(), &mut chain, &mut scratch);
    assert_eq!(stepped, stored(13, 7, 19));
}

// Sum 6 of zone 2 is sum 2 of zone 1, which is 1.25, times entry (2, 6, 6) and the weight of point 6.
#[test]
fn a_refused_figure() {
    let mut chain = source();
    chain[entry(2, (2, 6, 6))] = f64::MAX;
    let figure = inner_separable(&shape(source_rank), &chain, &weights());
    assert_eq!(figure, stored(14, 2, 6));
}

fn ladder_run() -> Run {
    Run::fresh(&shape(source_rank), &axes(), &SETTINGS, source(), weights()).unwrap()
}

// What a run of the ladder keeps, worked out by hand.
struct Wanted {
    axes: Vec<Axis>,
    source: Vec<f64>,
    weights: Vec<f64>,
    chain: Vec<f64>,
    sums: Vec<f64>,
}

// The sums of an axis: at ir those of (sum[il]*core[il,im,ir])*weight[im].
fn next_sums(before: &[f64], core: &[f64], right: usize, weights: &[f64]) -> Vec<f64> {
    let n = weights.len();
    let term = |at: usize, ir: usize| before[at / n] * core[at * right + ir] * weights[at % n];
    let sum = |ir: usize| (0..before.len() * n).fold(0.0, |sum, at| sum + term(at, ir));
    (0..right).map(sum).collect()
}

impl Wanted {
    fn fresh() -> Wanted {
        let mut wanted = Wanted {
            axes: axes(),
            source: source(),
            weights: weights(),
            chain: numbers(&cores(kept_rank), &cores(source_rank), stepped_entry),
            sums: Vec::new(),
        };
        wanted.sum_up();
        wanted
    }

    // The sums from zone 0 on, each axis' in its slot, over the cores where they stand.
    fn sum_up(&mut self) {
        let (mut chain, mut weights, mut before) = (&self.chain[..], &self.weights[..], vec![1.0]);
        self.sums.clear();
        for (k, (left, n, right)) in cores(source_rank).into_iter().enumerate() {
            before = next_sums(&before, chain, kept_rank(k), &weights[..n]);
            self.sums.extend(&before);
            self.sums
                .resize(self.sums.len() + right - before.len(), 0.0);
            (chain, weights) = (&chain[left * n * right..], &weights[n..]);
        }
    }

    fn last_core(&mut self) -> &mut [f64] {
        let start = self.chain.len() - 2 * LAST_POINTS;
        &mut self.chain[start..]
    }

    // The last zone of these entries, moved; the carry left of it has 1 at (j, j).
    fn put_last(&mut self, entry: impl Fn(usize, usize) -> f64, boundary: Boundary, by: usize) {
        for (at, number) in self.last_core().iter_mut().enumerate() {
            *number = moved(&entry, boundary, (at / LAST_POINTS, at % LAST_POINTS), by);
        }
    }

    fn assert_is(&self, run: &Run) {
        assert_bonds(run.bonds(), &bonds(sweeps_all));
        assert_eq!(run.shape(), shape(source_rank));
        assert_eq!((run.axes(), run.settings()), (&self.axes[..], &SETTINGS));
        assert_eq!(
            (run.source(), run.weights()),
            (&self.source[..], &self.weights[..])
        );
        assert_eq!(
            (run.stepped(), run.sums()),
            (&self.chain[..], &self.sums[..])
        );
        assert_eq!(run.carries(), carries());
        assert_eq!(Some(&run.figure()), self.sums.last());
    }
}

// A carry has 1 at (j, j), in rows as long as the source's rank.
fn carries() -> Vec<f64> {
    let slot = |k: usize| {
        let rank = source_rank(k);
        (0..rank * rank)
            .map(move |at| f64::from(at / rank == at % rank && at % rank < kept_rank(k)))
    };
    (0..LAST).flat_map(slot).collect()
}

#[test]
fn a_fresh_run() {
    Wanted::fresh().assert_is(&ladder_run());
}

#[test]
fn a_new_core() {
    let (mut run, mut wanted) = (ladder_run(), Wanted::fresh());
    let part = counting(2 * LAST_POINTS, 4e5);
    let start = wanted.source.len() - part.len();
    wanted.source[start..].copy_from_slice(&part);
    wanted.put_last(
        |il, im| part[il * LAST_POINTS + im],
        Boundary::Reflecting,
        1,
    );
    wanted.sum_up();
    assert_eq!(run.replace_core(LAST, &part[1..]), refused(5, 5));
    assert_eq!(
        run.replace_core(LAST, &part).as_ref().ok(),
        wanted.sums.last()
    );
    wanted.assert_is(&run);
}

#[test]
fn new_weights() {
    let (mut run, mut wanted) = (ladder_run(), Wanted::fresh());
    let part = counting(LAST_POINTS, 4e5);
    let start = wanted.weights.len() - part.len();
    wanted.weights[start..].copy_from_slice(&part);
    wanted.sum_up();
    assert_eq!(run.replace_weights(LAST, &part[1..]), refused(5, 5));
    assert_eq!(
        run.replace_weights(LAST, &part).as_ref().ok(),
        wanted.sums.last()
    );
    wanted.assert_is(&run);
}

// By two points around the axis, where it had been by one and back from its ends.
#[test]
fn a_new_axis() {
    let (mut run, mut wanted) = (ladder_run(), Wanted::fresh());
    wanted.axes[LAST] = axis(LAST, Boundary::Periodic, 2);
    wanted.put_last(last_entry, Boundary::Periodic, 2);
    wanted.sum_up();
    assert_eq!(
        run.replace_axis(LAST, &wanted.axes[LAST]).as_ref().ok(),
        wanted.sums.last()
    );
    wanted.assert_is(&run);
}

// The numbers of zone k of four, and what a shift by four points makes of them. Around its axis a number comes back to where it
// was. Where the axis reflects, it meets the one that stands as far from the other end, and both become their mean, 1/2. Either
// way the length is 1, and rounding leaves them.
fn four(k: usize, boundary: Boundary) -> ([f64; 4], [f64; 4]) {
    let slope = (k + 1) as f64 / 32.0;
    let mut signs = [0.5; 4];
    signs[k % 4] = -0.5;
    match boundary {
        Boundary::Periodic => (signs, signs),
        Boundary::Reflecting => ([-1.5, -0.5, 0.5, 1.5].map(|x| 0.5 + x * slope), [0.5; 4]),
    }
}

// The zones that have this bit in their number reflect, so that no two zones do so for the same bits.
fn four_boundary(bit: usize, k: usize) -> Boundary {
    match k >> bit & 1 {
        0 => Boundary::Periodic,
        _ => Boundary::Reflecting,
    }
}

fn four_axis(boundary: Boundary) -> Axis {
    Axis {
        b: 4.0,
        xmax: 3.0,
        boundary,
        ..Axis::default()
    }
}

const FOUR_SETTINGS: Settings = Settings {
    tau: 1.0,
    c: 0.0,
    cutting: Cutting {
        eps: 0.0,
        mode: Mode::Absolute,
    },
};

// Sixteen such zones: their axes, their numbers before a step and after it.
fn fours(bit: usize) -> (Vec<Axis>, Vec<f64>, Vec<f64>) {
    let boundaries: Vec<Boundary> = (0..ZONES).map(|k| four_boundary(bit, k)).collect();
    let zones = boundaries.iter().enumerate().map(|(k, b)| four(k, *b));
    let (before, after): (Vec<_>, Vec<_>) = zones.unzip();
    let axes = boundaries.into_iter().map(four_axis).collect();
    (axes, before.concat(), after.concat())
}

fn four_shape() -> Shape {
    Shape::new(&[(1, 4, 1); ZONES]).unwrap()
}

#[test]
fn boundaries_in_steps() {
    for bit in 0..4 {
        let (axes, before, after) = fours(bit);
        let chain = Chain::new(four_shape(), before.clone()).unwrap();
        let (mut stepped, mut evolved) = (chain.clone(), chain);
        stepped.step(&FOUR_SETTINGS, &axes).unwrap();
        assert_eq!(stepped.numbers(), after);
        // A second step leaves what the first has made.
        let course = Course {
            t_final: 2.0,
            steps: 2,
            c: 0.0,
            cutting: FOUR_SETTINGS.cutting,
        };
        evolved.evolve(&course, &axes).unwrap();
        assert_eq!(evolved.numbers(), after);
        let run = Run::fresh(&four_shape(), &axes, &FOUR_SETTINGS, before, vec![1.0; 64]).unwrap();
        assert_eq!((run.stepped(), run.axes()), (&after[..], &axes[..]));
    }
}

// A run in which one zone has the other boundary, and is then given its own.
#[test]
fn replaced_boundaries() {
    let (axes, before, after) = fours(0);
    for zone in 0..ZONES {
        let mut other = axes.clone();
        other[zone] = four_axis(match axes[zone].boundary {
            Boundary::Periodic => Boundary::Reflecting,
            Boundary::Reflecting => Boundary::Periodic,
        });
        let source = before.clone();
        let mut run =
            Run::fresh(&four_shape(), &other, &FOUR_SETTINGS, source, vec![1.0; 64]).unwrap();
        assert_eq!(run.axes(), other);
        assert_ne!(run.stepped(), after);
        run.replace_axis(zone, &axes[zone]).unwrap();
        assert_eq!((run.stepped(), run.axes()), (&after[..], &axes[..]));
    }
}

const MODES: [Mode; 2] = [Mode::Absolute, Mode::Scaled];

// Three zones in which nothing moves. The columns of zone 0 have 2^-50 in common, of which g*g is below 1e-30 and 2*g*g isn't, but is
// below 1e-30 times 1 + 1. Zone 1 has the value 2^-104, which is below 1e-30.
fn small() -> (Shape, Vec<f64>) {
    let shape = Shape::new(&[(1, 2, 2), (2, 1, 1), (1, 1, 1)]).unwrap();
    let (little, rare) = (2f64.powi(-50), 2f64.powi(-104));
    (shape, vec![1.0, little, 0.0, 1.0, rare, 0.0, 1.0])
}

fn small_settings(mode: Mode) -> Settings {
    Settings {
        tau: 0.0,
        c: 3.0,
        cutting: Cutting {
            eps: 1.0 / 32.0,
            mode,
        },
    }
}

// What they become, and what is said of their bonds. Absolute: all sweeps are made, and the column of zone 1 becomes 0; scaled: none is,
// and it is divided by its value.
fn small_after(mode: Mode) -> (Vec<f64>, [Bond; 2]) {
    let scaled = mode == Mode::Scaled;
    let mut after = small().1;
    (after[4], after[6]) = (f64::from(scaled), after[4]);
    let bond = |rank, settled: bool| Bond {
        rank,
        sweeps: if settled { 0 } else { 50 },
        settled,
        dropped: 0.0,
    };
    (after, [bond(2, scaled), bond(1, true)])
}

#[test]
fn modes_in_steps() {
    let (shape, before) = small();
    for mode in MODES {
        let (after, bonds) = small_after(mode);
        let (settings, records) = (small_settings(mode), [Axis::default(); 3]);
        let mut chains = [0; 3].map(|_| Chain::new(shape, before.clone()).unwrap());
        let course = Course {
            t_final: 0.0,
            steps: 2,
            c: settings.c,
            cutting: settings.cutting,
        };
        let told = [
            chains[0].round(&settings.cutting),
            chains[1].step(&settings, &records),
            chains[2].evolve(&course, &records),
        ];
        for rounded in told {
            assert_bonds(rounded.unwrap().bonds(), &bonds);
        }
        assert_eq!(
            (chains[0].numbers(), chains[1].numbers()),
            (&after[..], &after[..])
        );
        // A second step finds 0 where the first has left it, and hands that on.
        let mut twice = after;
        twice[6] *= twice[4];
        assert_eq!(chains[2].numbers(), twice);
    }
}

fn small_run(mode: Mode) -> Run {
    let ((shape, source), records) = (small(), [Axis::default(); 3]);
    Run::fresh(
        &shape,
        &records,
        &small_settings(mode),
        source,
        vec![1.0; 4],
    )
    .unwrap()
}

fn assert_small(run: &Run, mode: Mode) {
    let (after, bonds) = small_after(mode);
    let (little, rare) = (2f64.powi(-50), 2f64.powi(-104));
    assert_bonds(run.bonds(), &bonds);
    assert_eq!(run.settings(), &small_settings(mode));
    assert_eq!(run.stepped(), after);
    assert_eq!(run.carries(), [1.0, 0.0, 0.0, 1.0, rare]);
    assert_eq!(run.sums(), [1.0, 1.0 + little, after[4], after[4] * rare]);
    assert_eq!(run.figure(), after[4] * rare);
}

// A replacement by what stands there makes anew what a fresh run made in the same mode.
#[test]
fn modes_in_runs() {
    for mode in MODES {
        let mut run = small_run(mode);
        assert_small(&run, mode);
        run.replace_core(0, &[1.0; 4]).unwrap();
        assert_ne!(run.stepped(), small_after(mode).0);
        run.replace_core(0, &small().1[..4]).unwrap();
        assert_small(&run, mode);
        for zone in 0..3 {
            run.replace_core(1, &[1.0, 0.0]).unwrap();
            assert_eq!(run.figure(), 1.0);
            run.replace_core(1, &small().1[4..6]).unwrap();
            run.replace_axis(zone, &Axis::default()).unwrap();
            assert_small(&run, mode);
        }
        run.replace_weights(1, &[0.5]).unwrap();
        run.replace_weights(1, &[1.0]).unwrap();
        assert_small(&run, mode);
    }
}

// As in the figure and in the rounding above; a run has zone 0 with another sign, and point 6 of zone 2 is point 25 of all.
#[test]
fn refused_runs() {
    let (mut run, mut wild) = (ladder_run(), weights());
    wild[25] = f64::MAX;
    let fresh = Run::fresh(
        &shape(source_rank),
        &axes(),
        &SETTINGS,
        source(),
        wild.clone(),
    );
    assert_eq!(fresh.map(|run| run.figure()), stored(14, 2, 6));
    assert_eq!(run.replace_weights(2, &wild[19..30]), stored(14, 2, 6));
    let mut core = source()[entry(5, (0, 0, 0))..entry(6, (0, 0, 0))].to_vec();
    core[entry(5, (2, 2, 2)) - entry(5, (0, 0, 0))] = 1e200;
    assert_eq!(run.replace_core(5, &core), stored(12, 5, 8));
    Wanted::fresh().assert_is(&run);
}

// The scope's chain D: source and chain, weights and sums, carries and new core are of one length. Nothing moves.
#[test]
fn a_run_of_slices_of_one_length() {
    let shape = Shape::new(&[(1, 2, 2), (2, 1, 1)]).unwrap();
    let settings = Settings {
        tau: 0.0,
        ..FOUR_SETTINGS
    };
    let source = vec![3.0, 0.0, 0.0, 4.0, 1.0, 1.0];
    let mut run = Run::fresh(
        &shape,
        &[Axis::default(); 2],
        &settings,
        source,
        vec![1.0, 2.0, 1.0],
    )
    .unwrap();
    assert_eq!(run.stepped(), [0.0, 1.0, 1.0, 0.0, 4.0, 3.0]);
    assert_eq!(
        (run.carries(), run.sums()),
        (&[0.0, 4.0, 3.0, 0.0][..], &[2.0, 1.0, 11.0][..])
    );
    assert_eq!(run.replace_core(0, &[0.0, 6.0, 5.0, 0.0]), Ok(16.0));
    assert_eq!(run.source(), [0.0, 6.0, 5.0, 0.0, 1.0, 1.0]);
    assert_eq!(run.stepped(), [1.0, 0.0, 0.0, 1.0, 6.0, 5.0]);
    assert_eq!(
        (run.carries(), run.sums()),
        (&[0.0, 6.0, 5.0, 0.0][..], &[1.0, 2.0, 16.0][..])
    );
    assert_eq!(run.weights(), [1.0, 2.0, 1.0]);
}

// Numbers with a few of them set, the others 0.
fn set(count: usize, places: &[(usize, f64)]) -> Vec<f64> {
    let mut numbers = vec![0.0; count];
    for (place, number) in places {
        numbers[*place] = *number;
    }
    numbers
}

// The slab has 32 at row 14, column 31, then 16 at row 1, column 9, then 2, which is not above 2^-4 of the largest.
#[test]
fn a_pair() {
    let cores = [
        set(54, &[(3, 4.0), (43, 2.0), (53, 1.0)]),
        set(120, &[(9, 4.0), (71, 16.0), (116, 2.0)]),
    ];
    let lengths = [54, 120, 144, 320, PAIR_SCRATCH];
    let mut lent = [
        counting(144, 1e5),
        counting(320, 2e5),
        counting(PAIR_SCRATCH, 3e5),
    ];
    let mut split = |n: [usize; 5]| {
        let [lefts, rights, scratch] = &mut lent;
        let outputs = [&mut lefts[..n[2]], &mut rights[..n[3]]];
        let given = [&cores[0][..n[0]], &cores[1][..n[1]]];
        contract_and_split(
            [(2, 9, 3), (3, 10, 4)],
            0.0625,
            given,
            outputs,
            &mut scratch[..n[4]],
        )
    };
    for place in 0..5 {
        let mut wrong = lengths;
        wrong[place] -= 1;
        assert_eq!(split(wrong), refused(5, place));
    }
    assert_eq!(split(lengths), Ok(Paired { rank: 2, passes: 1 }));
    assert_eq!(lent[0], set(144, &[(28, 32.0), (3, 16.0)]));
    assert_eq!(lent[1], set(320, &[(31, 1.0), (49, 1.0)]));
    assert!(lent[2].iter().all(|x| *x == 0.0));
}

// The slab of 18 rows has 1e200 at row 14, columns 31 and 36: these have no angle, and column 31 becomes no number.
#[test]
fn a_refused_pair() {
    let cores = [
        set(54, &[(43, 1e100)]),
        set(120, &[(71, 1e100), (76, 1e100)]),
    ];
    let (mut lefts, mut rights, mut scratch) = ([7.5; 144], [7.5; 320], vec![7.5; PAIR_SCRATCH]);
    let outputs = [&mut lefts[..], &mut rights[..]];
    let given = [&cores[0][..], &cores[1][..]];
    let sizes = [(2, 9, 3), (3, 10, 4)];
    let paired = contract_and_split(sizes, 0.0625, given, outputs, &mut scratch);
    assert_eq!(paired, stored(12, 0, 558));
}

// 0, 4; 4, 0 before 1, 0; 0, 2 is 0, 8; 4, 0. The left core has the values, the right one what they stand at.
#[test]
fn a_pair_of_slices_of_one_length() {
    let (first, second) = ([0.0, 4.0, 4.0, 0.0], [1.0, 0.0, 0.0, 2.0]);
    let (mut lefts, mut rights, mut scratch) = ([7.5; 16], [7.5; 16], vec![7.5; PAIR_SCRATCH]);
    let outputs = [&mut lefts[..], &mut rights[..]];
    let paired = contract_and_split(
        [(1, 2, 2), (2, 2, 1)],
        0.0,
        [&first, &second],
        outputs,
        &mut scratch,
    );
    assert_eq!(paired, Ok(Paired { rank: 2, passes: 1 }));
    assert_eq!(lefts.to_vec(), set(16, &[(0, 8.0), (3, 4.0)]));
    assert_eq!(rights.to_vec(), set(16, &[(1, 1.0), (2, 1.0)]));
}

// The file of the ladder by the scope's text.
fn file_of(chain: &[f64]) -> Vec<u8> {
    let mut bytes = b"TTC1\x10\0\0\0".to_vec();
    let mut begins = 8 + 12 * ZONES;
    for (left, n, right) in cores(source_rank) {
        for size in [left, n, right, 0] {
            bytes.extend((size as u16).to_le_bytes());
        }
        bytes.extend((begins as u32).to_le_bytes());
        begins += 8 * left * n * right;
    }
    bytes.extend(chain.iter().flat_map(|x| x.to_le_bytes()));
    bytes
}

#[test]
fn a_file() {
    let shape = shape(source_rank);
    let chain = counting(shape.entries(), 0.0);
    let (mut bytes, mut read) = (vec![7; shape.file()], counting(shape.entries(), 1e5));
    assert_eq!(write_chain(&shape, &chain[1..], &mut bytes), refused(5, 0));
    assert_eq!(write_chain(&shape, &chain, &mut bytes[1..]), refused(5, 1));
    assert_eq!(write_chain(&shape, &chain, &mut bytes), Ok(()));
    assert_eq!(bytes, file_of(&chain));
    assert_eq!(read_chain(&bytes, &mut read[1..]), refused(5, 1));
    assert_eq!(read_chain(&bytes, &mut read), Ok(shape));
    assert_eq!(read, chain);
}
