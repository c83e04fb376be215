/* Every field of every record and every slice of every call, told by its value. What a call is given has no two places alike, and
 * what it answers is worked out by hand: if two fields or two slices were exchanged, in the archive or in the header, a test fails. */
#include "ladder.h"

#include <float.h>
#include <math.h>
#include <stdio.h>
#include <string.h>

static size_t failures;

static void expect(bool holds, const char *what)
{
    if (!holds) {
        printf("fields: %s\n", what);
        failures++;
    }
}

/* A number to be stored isn't finite. */
static void expect_stored(uyavsker_refusal told, uint8_t number, size_t place, size_t index, const char *what)
{
    expect(told.number == number && told.place == place && told.index == index, what);
}

/* Any other refusal, and none: without an index. */
static void expect_refusal(uyavsker_refusal told, uint8_t number, size_t place, const char *what)
{
    expect_stored(told, number, place, 0, what);
}

static bool same(const double *a, const double *b, size_t count)
{
    for (size_t i = 0; i < count; i++)
        if (a[i] != b[i])
            return false;
    return true;
}

static bool same_sizes(const size_t *a, const size_t *b, size_t count)
{
    return memcmp(a, b, count * sizeof *a) == 0;
}

static bool same_shape(const uyavsker_shape *a, const uyavsker_shape *b)
{
    return a->d == b->d && same_sizes(a->left, b->left, ZONES) && same_sizes(a->n, b->n, ZONES)
        && same_sizes(a->right, b->right, ZONES);
}

/* By its bits, since == takes -0 for +0 and no NaN for itself. */
static bool same_bits(double a, double b)
{
    return memcmp(&a, &b, sizeof a) == 0;
}

static bool same_bond(const uyavsker_bond *a, const uyavsker_bond *b)
{
    return a->rank == b->rank && a->sweeps == b->sweeps && a->settled == b->settled && same_bits(a->dropped, b->dropped);
}

static bool same_bonds(const uyavsker_bond *a, const uyavsker_bond *b)
{
    for (size_t k = 0; k < ZONES; k++)
        if (!same_bond(&a[k], &b[k]))
            return false;
    return true;
}

static bool same_axis(const uyavsker_axis *a, const uyavsker_axis *b)
{
    return a->a == b->a && a->b == b->b && a->xmin == b->xmin && a->xmax == b->xmax && a->boundary == b->boundary;
}

/* ---- what is lent: the slices of a run, of which other calls take some ---- */

enum { MOST_SLICES = 7 };

static struct slices {
    double source[NUMBERS], weights[POINTS], chain[NUMBERS], carries[CARRIES], sums[SUMS], part[NUMBERS];
    double scratch[UYAVSKER_SCRATCH(NUMBERS)];
} lent, wanted;

static uyavsker_shape source, kept;
static uyavsker_axes axes;

static bool as_wanted(void)
{
    return same(lent.source, wanted.source, NUMBERS) && same(lent.weights, wanted.weights, POINTS)
        && same(lent.chain, wanted.chain, NUMBERS) && same(lent.carries, wanted.carries, CARRIES)
        && same(lent.sums, wanted.sums, SUMS) && same(lent.part, wanted.part, NUMBERS)
        && same(lent.scratch, wanted.scratch, UYAVSKER_SCRATCH(NUMBERS));
}

/* Entry (il, im, ir) of zone k of the ladder. */
static double *entry_at(double *chain, size_t k, size_t il, size_t im, size_t ir)
{
    for (size_t before = 0; before < k; before++)
        chain += source.left[before] * source.n[before] * source.right[before];
    return chain + (il * source.n[k] + im) * source.right[k] + ir;
}

static void fill(double *numbers, size_t count, double first)
{
    for (size_t i = 0; i < count; i++)
        numbers[i] = first + (double)i;
}

/* A call with these lengths refuses each that is one short, by its place, and answers once all are right. */
static void expect_lengths(uyavsker_refusal call(const size_t *lengths), const size_t *lengths, size_t count, const char *what)
{
    for (size_t i = 0; i < count; i++) {
        size_t wrong[MOST_SLICES];
        memcpy(wrong, lengths, count * sizeof *lengths);
        wrong[i]--;
        expect_refusal(call(wrong), UYAVSKER_LENGTH, i, what);
    }
    expect_refusal(call(lengths), UYAVSKER_NONE, 0, what);
}

/* ---- single numbers, shapes, entries ---- */

static void single_numbers(void)
{
    expect(uyavsker_root(2.25) == 1.5 && uyavsker_floor(-2.25) == -3 && uyavsker_magnitude(-2.25) == 2.25, "single numbers");
}

static void shapes(void)
{
    uyavsker_shape large = source;
    large.n[9] = 65;
    expect_refusal(uyavsker_shape_check(source), UYAVSKER_NONE, 0, "shape_check");
    expect_refusal(uyavsker_shape_check(large), UYAVSKER_SIZE, 9, "shape_check of a size");
}

/* Zone 5 has the sizes 7, 14, 3; before it stand 18 + 100 + 440 + 384 + 364 numbers. */
static void entries(void)
{
    fill(lent.chain, NUMBERS, 0);
    uyavsker_seen seen = uyavsker_entry_of(lent.chain, NUMBERS, source, 5, 6, 4, 2);
    uyavsker_seen outside = uyavsker_entry_of(lent.chain, NUMBERS, source, 5, 6, 4, 3);
    expect(seen.inside && seen.value == 1306 + 6 * 42 + 4 * 3 + 2, "entry_of");
    expect(!outside.inside && outside.value == 0, "entry_of outside");
}

static uyavsker_formed formed;

static uyavsker_refusal start(const size_t *lengths)
{
    formed = uyavsker_rank1_separable(source, lent.part, lengths[0], lent.chain, lengths[1]);
    return formed.refusal;
}

static void starts(void)
{
    uyavsker_shape one = source;
    fill(lent.part, NUMBERS, 1);
    fill(lent.chain, NUMBERS, -NUMBERS);
    expect_lengths(start, (size_t[]){POINTS, POINTS}, 2, "rank1_separable");
    for (size_t k = 0; k < ZONES; k++)
        one.left[k] = one.right[k] = 1;
    expect(same_shape(&formed.shape, &one), "shape of rank1_separable");
    fill(wanted.part, NUMBERS, 1);
    expect(same(lent.part, wanted.part, NUMBERS) && same(lent.chain, wanted.part, POINTS), "slices of rank1_separable");
    lent.part[POINTS - 1] = NAN;
    expect_refusal(start((size_t[]){POINTS, POINTS}), UYAVSKER_NUMBER, LAST, "rank1_separable refused");
    expect(same_shape(&formed.shape, &source), "shape of rank1_separable refused");
}

/* ---- the figure ---- */

static uyavsker_shape two_zones(size_t left, size_t rank, size_t right)
{
    return (uyavsker_shape){.d = 2, .left = {1, rank}, .n = {left, right}, .right = {rank, 1}};
}

static void figures(void)
{
    const double d[] = {3, 0, 0, 4, 1, 1}, weights[] = {1, 2, 1};
    const double first[] = {0x1p600, 0x1p-600}, second[] = {1, 0x1p600};
    uyavsker_figure eleven = uyavsker_inner_separable(two_zones(2, 2, 1), d, 6, weights, 3);
    uyavsker_figure refused = uyavsker_inner_separable(two_zones(2, 2, 1), d, 6, weights, 2);
    uyavsker_figure alike = uyavsker_inner_separable(two_zones(1, 1, 1), first, 2, second, 2);
    uyavsker_figure exchanged = uyavsker_inner_separable(two_zones(1, 1, 1), second, 2, first, 2);
    expect_refusal(eleven.refusal, UYAVSKER_NONE, 0, "inner_separable");
    expect_refusal(refused.refusal, UYAVSKER_LENGTH, 1, "inner_separable refused");
    expect(eleven.value == 11 && refused.value == 0, "the figure");
    expect(alike.refusal.number == UYAVSKER_NONE && alike.value == 0x1p600, "slices of inner_separable");
    expect_stored(exchanged.refusal, UYAVSKER_SUM, 1, 0, "slices of inner_separable exchanged");
}

/* ---- what rounds a chain ---- */

static uyavsker_rounded rounded;

/* What is said of the ladder's bonds after so many roundings, and nothing behind them. Only the first rounding drops something: what
 * it leaves has no value but 1. */
static void put_bonds(uyavsker_bond *bonds, size_t times)
{
    memset(bonds, 0, ZONES * sizeof *bonds);
    for (size_t k = 0; k < LAST; k++) {
        bool all = sweeps_all(k) && (times == 1 || kept_rank(k) > 1);
        bonds[k] = (uyavsker_bond){.rank = kept_rank(k), .sweeps = all ? 50 : 0, .settled = !all, .dropped = dropped_value(k)};
    }
}

static void expect_rounded(size_t times, double entry(size_t, size_t, size_t, size_t), const char *what)
{
    uyavsker_bond bonds[ZONES];
    put_bonds(bonds, times);
    put_cores(wanted.chain, &kept, &kept, entry);
    memset(wanted.scratch, 0, sizeof wanted.scratch);
    expect(same_shape(&rounded.shape, &kept) && same_bonds(rounded.bonds, bonds), what);
    expect(same(lent.chain, wanted.chain, NUMBERS) && same(lent.scratch, wanted.scratch, UYAVSKER_SCRATCH(NUMBERS)), what);
}

static uyavsker_refusal round_ladder(const size_t *lengths)
{
    rounded = uyavsker_tt_round(source, ladder_settings.cutting, lent.chain, lengths[0], lent.scratch, lengths[1]);
    return rounded.refusal;
}

static uyavsker_refusal step_ladder(const size_t *lengths)
{
    rounded = uyavsker_step(source, ladder_settings, axes, lengths[0], lent.chain, lengths[1], lent.scratch, lengths[2]);
    return rounded.refusal;
}

static uyavsker_refusal evolve_ladder(const size_t *lengths)
{
    const uyavsker_course course = {.t_final = 8, .steps = 2, .c = -0.5, .cutting = {.eps = 0x1p-5}};
    rounded = uyavsker_evolve(source, course, axes, lengths[0], lent.chain, lengths[1], lent.scratch, lengths[2]);
    return rounded.refusal;
}

static void roundings(void)
{
    const size_t lengths[] = {ZONES, NUMBERS, UYAVSKER_SCRATCH(NUMBERS)};
    put_cores(lent.chain, &source, &source, source_entry);
    expect_lengths(round_ladder, lengths + 1, 2, "tt_round");
    expect_rounded(1, source_entry, "answer of tt_round");
    put_cores(lent.chain, &source, &source, source_entry);
    expect_lengths(step_ladder, lengths, 3, "step");
    expect_rounded(1, stepped_entry, "answer of step");
    put_cores(lent.chain, &source, &source, source_entry);
    expect_lengths(evolve_ladder, lengths, 3, "evolve");
    expect_rounded(2, evolved_entry, "answer of evolve");
}

/* At its bond the chain has the values 2, 4 and 3, and keeps what lies above eps times 4. */
static double dropped_with(double eps)
{
    double chain[] = {2, 0, 0, 0, 4, 0, 0, 0, 3, 1, 1, 1};
    uyavsker_rounded told = uyavsker_tt_round(two_zones(3, 3, 1), (uyavsker_cutting){.eps = eps}, chain, 12, lent.scratch,
                                              UYAVSKER_SCRATCH(12));
    return told.bonds[0].dropped;
}

static void largest_values_dropped(void)
{
    expect(same_bits(dropped_with(0.75), 3), "the larger of two values dropped");
    expect(same_bits(dropped_with(0.5), 2), "the one value dropped");
    expect(same_bits(dropped_with(0.25), 0), "no value dropped");
}

/* ---- kept runs ---- */

static uyavsker_ran ran;
static uyavsker_run given;
static size_t zone;

static uyavsker_refusal fresh(const size_t *n)
{
    ran = uyavsker_fresh_run(given.shape, axes, given.settings, lent.source, n[0], lent.weights, n[1], lent.chain, n[2], lent.carries,
                             n[3], lent.sums, n[4], lent.scratch, n[5]);
    return ran.refusal;
}

static uyavsker_refusal new_core(const size_t *n)
{
    ran = uyavsker_replace_core(given, zone, lent.source, n[0], lent.weights, n[1], lent.chain, n[2], lent.carries, n[3], lent.sums,
                                n[4], lent.part, n[5], lent.scratch, n[6]);
    return ran.refusal;
}

static uyavsker_refusal new_weights(const size_t *n)
{
    ran = uyavsker_replace_weights(given, zone, lent.source, n[0], lent.weights, n[1], lent.chain, n[2], lent.carries, n[3], lent.sums,
                                   n[4], lent.part, n[5], lent.scratch, n[6]);
    return ran.refusal;
}

/* Moves the last zone by two points around its axis, where it had been by one and back from its ends; any other as before. */
static uyavsker_axis new_record(void)
{
    return zone == LAST ? ladder_axis(LAST, UYAVSKER_PERIODIC, 2) : ladder_axes().axis[zone];
}

static uyavsker_refusal new_axis(const size_t *n)
{
    ran = uyavsker_replace_axis(given, zone, new_record(), lent.source, n[0], lent.weights, n[1], lent.chain, n[2],
                                lent.carries, n[3], lent.sums, n[4], lent.scratch, n[5]);
    return ran.refusal;
}

/* Holds the answered record to `given`, field by field. */
static void expect_record(const char *what)
{
    const uyavsker_run *run = &ran.run;
    bool alike = same_bonds(run->bonds, given.bonds);
    for (size_t k = 0; k < ZONES; k++)
        alike = alike && same_axis(&run->axes[k], &given.axes[k]);
    expect(alike && same_shape(&run->shape, &given.shape) && run->figure == given.figure, what);
    expect(run->settings.tau == given.settings.tau && run->settings.c == given.settings.c, what);
    expect(run->settings.cutting.eps == given.settings.cutting.eps, what);
    expect(run->settings.cutting.mode == given.settings.cutting.mode, what);
}

/* What is given to a fresh run, and behind it what no call has written yet. */
static void give_ladder(void)
{
    given = (uyavsker_run){.shape = source, .settings = ladder_settings};
    memcpy(given.axes, axes.axis, sizeof given.axes);
    fill(lent.chain, NUMBERS, 1e5);
    fill(lent.carries, CARRIES, 2e5);
    fill(lent.sums, SUMS, 3e5);
    fill(lent.part, NUMBERS, 4e5);
    fill(lent.scratch, UYAVSKER_SCRATCH(NUMBERS), 5e5);
    put_cores(lent.source, &source, &source, source_entry);
    for (size_t point = 0; point < POINTS; point++)
        lent.weights[point] = ladder_weight(point);
    wanted = lent;
    memset(wanted.scratch, 0, sizeof wanted.scratch);
}

/* Every value that is kept is 1, so a carry has 1 at (j, j), in rows as long as the source's rank. */
static void want_carries(void)
{
    double *carry = wanted.carries;
    memset(carry, 0, sizeof wanted.carries);
    for (size_t k = 0; k < LAST; k++) {
        size_t rank = source_rank(k);
        for (size_t j = 0; j < kept_rank(k); j++)
            carry[j * rank + j] = 1;
        carry += rank * rank;
    }
}

/* The new sum at ir adds (sum[il]*core[il,im,ir])*weight[im]. */
static double sum_at(size_t k, size_t ir, const double *before, const double *weights)
{
    double sum = 0;
    for (size_t il = 0; il < kept.left[k]; il++)
        for (size_t im = 0; im < kept.n[k]; im++)
            sum += before[il] * stepped_entry(k, il, im, ir) * weights[im];
    return sum;
}

static void want_sums(void)
{
    const double one = 1, *before = &one, *weights = wanted.weights;
    double *sums = wanted.sums;
    memset(sums, 0, sizeof wanted.sums);
    for (size_t k = 0; k < ZONES; k++) {
        for (size_t ir = 0; ir < kept.right[k]; ir++)
            sums[ir] = sum_at(k, ir, before, weights);
        before = sums;
        weights += kept.n[k];
        sums += source.right[k];
    }
}

static void fresh_runs(void)
{
    give_ladder();
    const size_t lengths[] = {NUMBERS, POINTS, NUMBERS, CARRIES, SUMS, UYAVSKER_SCRATCH(NUMBERS)};
    expect_lengths(fresh, lengths, 6, "fresh_run");
    put_cores(wanted.chain, &kept, &source, stepped_entry);
    want_carries();
    want_sums();
    expect(as_wanted(), "slices of fresh_run");
    put_bonds(given.bonds, 1);
    given.figure = wanted.sums[SUMS - 1];
    expect_record("record of fresh_run");
}

/* What others wrote to every bond's record, and behind them. */
static void mark_bonds(void)
{
    for (size_t k = 0; k < ZONES; k++)
        given.bonds[k] = (uyavsker_bond){.rank = kept_rank(k), .sweeps = 100 + k, .settled = k % 4 == 1, .dropped = 6e5 + (double)k};
}

/* A run that others wrote to, with another value in every field and slice. What a replacement of the last zone reads of it are the
 * carry 2, 3; 5, 7 and the sums 11, 13 left of that zone. */
static void give_written_run(void)
{
    give_ladder();
    zone = LAST;
    mark_bonds();
    given.figure = -7.5;
    memcpy(lent.carries + CARRIES - 4, (double[]){2, 3, 5, 7}, 4 * sizeof(double));
    memcpy(lent.sums + SUMS - 3, (double[]){11, 13}, 2 * sizeof(double));
    wanted = lent;
    memset(wanted.scratch, 0, sizeof wanted.scratch);
}

/* The last zone of these entries moved, and what the carry left of it makes of that. */
static void want_last(double entry(size_t, size_t), size_t boundary, size_t by)
{
    double *core = wanted.chain + NUMBERS - LAST_NUMBERS;
    for (size_t im = 0; im < LAST_POINTS; im++) {
        double first = moved(entry, boundary, 0, im, by), second = moved(entry, boundary, 1, im, by);
        core[im] = 2 * first + 3 * second;
        core[LAST_POINTS + im] = 5 * first + 7 * second;
    }
}

static void want_figure(void)
{
    const double *core = wanted.chain + NUMBERS - LAST_NUMBERS, *weights = wanted.weights + POINTS - LAST_POINTS;
    double figure = 0;
    for (size_t at = 0; at < LAST_NUMBERS; at++)
        figure += (at < LAST_POINTS ? 11 : 13) * core[at] * weights[at % LAST_POINTS];
    wanted.sums[SUMS - 1] = figure;
}

static void expect_replaced(const char *what)
{
    given.figure = wanted.sums[SUMS - 1];
    expect(as_wanted(), what);
    expect_record(what);
}

static double part_entry(size_t il, size_t im)
{
    return lent.part[il * LAST_POINTS + im];
}

static void replacements(void)
{
    const size_t without_part[] = {NUMBERS, POINTS, NUMBERS, CARRIES, SUMS, UYAVSKER_SCRATCH(NUMBERS)};
    const size_t with_core[] = {NUMBERS, POINTS, NUMBERS, CARRIES, SUMS, LAST_NUMBERS, UYAVSKER_SCRATCH(NUMBERS)};
    const size_t with_weights[] = {NUMBERS, POINTS, NUMBERS, CARRIES, SUMS, LAST_POINTS, UYAVSKER_SCRATCH(NUMBERS)};

    give_written_run();
    memcpy(wanted.source + NUMBERS - LAST_NUMBERS, lent.part, LAST_NUMBERS * sizeof(double));
    want_last(part_entry, UYAVSKER_REFLECTING, 1);
    want_figure();
    expect_lengths(new_core, with_core, 7, "replace_core");
    expect_replaced("answer of replace_core");

    give_written_run();
    memcpy(wanted.weights + POINTS - LAST_POINTS, lent.part, LAST_POINTS * sizeof(double));
    want_figure();
    expect_lengths(new_weights, with_weights, 7, "replace_weights");
    expect_replaced("answer of replace_weights");

    give_written_run();
    want_last(last_entry, UYAVSKER_PERIODIC, 2);
    want_figure();
    expect_lengths(new_axis, without_part, 6, "replace_axis");
    given.axes[LAST] = new_record();
    expect_replaced("answer of replace_axis");
}

/* New weights only look for numbers that aren't finite in the source and in the carries: here in zone 5 and at bond 1. */
static void numbers_that_new_weights_look_at(void)
{
    const size_t lengths[] = {NUMBERS, POINTS, NUMBERS, CARRIES, SUMS, LAST_POINTS, UYAVSKER_SCRATCH(NUMBERS)};
    give_written_run();
    lent.source[1306] = NAN;
    expect_refusal(new_weights(lengths), UYAVSKER_NUMBER, 5, "source of replace_weights");
    give_written_run();
    lent.carries[4] = NAN;
    expect_refusal(new_weights(lengths), UYAVSKER_NUMBER, 1, "carries of replace_weights");
}

/* What a bond dropped is a number of its left core; behind the d - 1 bonds nobody asks for it. Either way it stays. */
static void expect_dropped_is_looked_at(uyavsker_refusal call(const size_t *lengths), const size_t *lengths, const char *what)
{
    const double wild[] = {NAN, INFINITY, -INFINITY};
    for (size_t k = 0; k < ZONES; k++) {
        bool asked = k < LAST;
        give_written_run();
        given.bonds[k].dropped = wild[k % 3];
        expect_refusal(call(lengths), asked ? UYAVSKER_NUMBER : UYAVSKER_NONE, asked ? k : 0, what);
        expect(same_bonds(ran.run.bonds, given.bonds), what);
    }
}

static void dropped_that_is_not_finite(void)
{
    const size_t without_part[] = {NUMBERS, POINTS, NUMBERS, CARRIES, SUMS, UYAVSKER_SCRATCH(NUMBERS)};
    const size_t with_core[] = {NUMBERS, POINTS, NUMBERS, CARRIES, SUMS, LAST_NUMBERS, UYAVSKER_SCRATCH(NUMBERS)};
    const size_t with_weights[] = {NUMBERS, POINTS, NUMBERS, CARRIES, SUMS, LAST_POINTS, UYAVSKER_SCRATCH(NUMBERS)};
    expect_dropped_is_looked_at(new_core, with_core, "dropped, not finite, in replace_core");
    expect_dropped_is_looked_at(new_weights, with_weights, "dropped, not finite, in replace_weights");
    expect_dropped_is_looked_at(new_axis, without_part, "dropped, not finite, in replace_axis");
}

/* A fresh run to whose bonds others wrote. The new part for zone 5 is what stands there already: so many numbers from `part` on. */
static void give_marked_run(const double *part, size_t count)
{
    const size_t lengths[] = {NUMBERS, POINTS, NUMBERS, CARRIES, SUMS, UYAVSKER_SCRATCH(NUMBERS)};
    give_ladder();
    expect_refusal(fresh(lengths), UYAVSKER_NONE, 0, "a run to be marked");
    given = ran.run;
    mark_bonds();
    zone = 5;
    memcpy(lent.part, part, count * sizeof *part);
    wanted = lent;
}

/* The record has what was written left of zone 5 and behind the bonds, and from zone 5 on what a fresh run says. */
static void expect_said_from_zone(const char *what)
{
    uyavsker_bond fresh_bonds[ZONES];
    put_bonds(fresh_bonds, 1);
    memcpy(given.bonds + zone, fresh_bonds + zone, (LAST - zone) * sizeof *fresh_bonds);
    expect(as_wanted(), what);
    expect_record(what);
}

/* Zone 5 has the sizes 7, 14, 3; before it stand 9 + 10 + 11 + 12 + 13 points. */
static void bonds_that_are_said_anew(void)
{
    enum { CORE = 7 * 14 * 3 };
    const size_t without_part[] = {NUMBERS, POINTS, NUMBERS, CARRIES, SUMS, UYAVSKER_SCRATCH(NUMBERS)};
    const size_t with_core[] = {NUMBERS, POINTS, NUMBERS, CARRIES, SUMS, CORE, UYAVSKER_SCRATCH(NUMBERS)};
    const size_t with_weights[] = {NUMBERS, POINTS, NUMBERS, CARRIES, SUMS, 14, UYAVSKER_SCRATCH(NUMBERS)};

    give_marked_run(lent.weights + 55, 14);
    expect_refusal(new_weights(with_weights), UYAVSKER_NONE, 0, "the same weights");
    expect(as_wanted(), "slices with the same weights");
    expect_record("record with the same weights");

    give_marked_run(entry_at(lent.source, 5, 0, 0, 0), CORE);
    expect_refusal(new_core(with_core), UYAVSKER_NONE, 0, "the same core");
    expect_said_from_zone("answer with the same core");

    give_marked_run(lent.source, 0);
    expect_refusal(new_axis(without_part), UYAVSKER_NONE, 0, "the same axis");
    expect_said_from_zone("answer with the same axis");
}

/* ---- refusals in the work: number, place and index differ from each other, and where they can from 0 ---- */

/* Of a chain that isn't rounded nothing is said, whatever was found at the bonds before. */
static void expect_unrounded(uyavsker_refusal told, uint8_t number, size_t place, size_t index, const char *what)
{
    const uyavsker_bond blank[ZONES] = {{.rank = 0}};
    expect_stored(told, number, place, index, what);
    expect(same_bonds(rounded.bonds, blank), what);
}

static void refused_roundings(void)
{
    const size_t lengths[] = {ZONES, NUMBERS, UYAVSKER_SCRATCH(NUMBERS)};

    /* Zone 5 has three columns, and 1e200 in a row of its own in the last: the Gram matrix at (2, 2). */
    put_cores(lent.chain, &source, &source, source_entry);
    *entry_at(lent.chain, 5, 2, 2, 2) = 1e200;
    expect_unrounded(round_ladder(lengths + 1), UYAVSKER_SPECTRUM, 5, 2 * 3 + 2, "tt_round refused");

    /* Zone 3, of 12 points and 4 columns, moves by half a point: 0.78125 of point 6 and 0.125 of each neighbour are too much. */
    put_cores(lent.chain, &source, &source, source_entry);
    for (size_t im = 5; im <= 7; im++)
        *entry_at(lent.chain, 3, 1, im, 2) = DBL_MAX;
    axes.axis[3] = ladder_axis(3, ladder_boundary(3), 0.5);
    expect_unrounded(step_ladder(lengths), UYAVSKER_ENTRY, 3, (1 * 12 + 6) * 4 + 2, "step refused");
    axes = ladder_axes();

    /* Of zone 6 column 2 alone is kept, and 1e100 carried from it to row 2 of zone 7, which becomes row 0 of two columns. */
    put_cores(lent.chain, &source, &source, source_entry);
    *entry_at(lent.chain, 6, 0, 2, 2) = 1e100;
    *entry_at(lent.chain, 7, 2, 9, 1) = 1e300;
    expect_unrounded(evolve_ladder(lengths), UYAVSKER_FACTOR, 7, 9 * 2 + 1, "evolve refused");
}

/* Sum 6 of zone 2 is sum 2 of zone 1, which is 1.25, times entry (2, 6, 6) and the weight of point 6. */
static void refused_figure(void)
{
    give_ladder();
    *entry_at(lent.source, 2, 2, 6, 6) = DBL_MAX;
    uyavsker_figure figure = uyavsker_inner_separable(source, lent.source, NUMBERS, lent.weights, POINTS);
    expect_stored(figure.refusal, UYAVSKER_SUM, 2, 6, "inner_separable refused with an index");
    expect(figure.value == 0, "a refused figure");
}

/* The same sum in a run, which has zone 0 with another sign; point 6 of zone 2 is point 9 + 10 + 6 of all. */
static void refused_weights(void)
{
    const size_t lengths[] = {NUMBERS, POINTS, NUMBERS, CARRIES, SUMS, UYAVSKER_SCRATCH(NUMBERS)};
    const size_t with_part[] = {NUMBERS, POINTS, NUMBERS, CARRIES, SUMS, 11, UYAVSKER_SCRATCH(NUMBERS)};
    give_ladder();
    lent.weights[9 + 10 + 6] = DBL_MAX;
    expect_stored(fresh(lengths), UYAVSKER_SUM, 2, 6, "fresh_run refused");
    expect_record("record of fresh_run refused");
    lent.weights[9 + 10 + 6] = 1;
    expect_refusal(fresh(lengths), UYAVSKER_NONE, 0, "fresh_run after a refused one");
    given = ran.run;
    zone = 2;
    lent.part[6] = DBL_MAX;
    expect_stored(new_weights(with_part), UYAVSKER_SUM, 2, 6, "replace_weights refused");
    expect_record("record of replace_weights refused");
}

/* Half of the largest number at (1, 10) of the last zone is a quarter of it once moved, and an eighth on both sides. The second row of
 * the carry takes that 7 times, and 7/4 is too much. */
static void refused_cores(void)
{
    const size_t without_part[] = {NUMBERS, POINTS, NUMBERS, CARRIES, SUMS, UYAVSKER_SCRATCH(NUMBERS)};
    const size_t with_part[] = {NUMBERS, POINTS, NUMBERS, CARRIES, SUMS, LAST_NUMBERS, UYAVSKER_SCRATCH(NUMBERS)};
    give_written_run();
    lent.part[LAST_POINTS + 10] = DBL_MAX / 2;
    expect_stored(new_core(with_part), UYAVSKER_FACTOR, LAST, LAST_POINTS + 10, "replace_core refused");
    expect_record("record of replace_core refused");
    give_written_run();
    *entry_at(lent.source, LAST, 1, 10, 0) = DBL_MAX / 2;
    expect_stored(new_axis(without_part), UYAVSKER_FACTOR, LAST, LAST_POINTS + 10, "replace_axis refused");
    expect_record("record of replace_axis refused");
}

/* The scope's chain D for a run, in which nothing moves. Behind its two axes stand boundaries that nobody asks for, and they stay. */
static void give_d(double eps)
{
    give_ladder();
    given = (uyavsker_run){.shape = two_zones(2, 2, 1), .settings = {.cutting = {.eps = eps}}};
    given.axes[1].boundary = UYAVSKER_REFLECTING;
    for (size_t k = 2; k < ZONES; k++)
        given.axes[k].boundary = 100 + k;
    memcpy(axes.axis, given.axes, sizeof given.axes);
    memcpy(lent.source, (double[]){3, 0, 0, 4, 1, 1}, 6 * sizeof(double));
    memcpy(lent.weights, (double[]){1, 2, 1}, 3 * sizeof(double));
    wanted = lent;
    memset(wanted.scratch, 0, UYAVSKER_SCRATCH(6) * sizeof(double));
}

/* A run of D, whose source and chain, weights and sums, carries and new core are of one length. */
static void slices_of_one_length(void)
{
    const size_t lengths[] = {6, 3, 6, 4, 3, UYAVSKER_SCRATCH(6)};
    const size_t with_part[] = {6, 3, 6, 4, 3, 4, UYAVSKER_SCRATCH(6)};
    give_d(0);
    given.bonds[0] = (uyavsker_bond){.rank = 2, .settled = true};
    given.figure = 11;
    memcpy(wanted.chain, (double[]){0, 1, 1, 0, 4, 3}, 6 * sizeof(double));
    memcpy(wanted.carries, (double[]){0, 4, 3, 0}, 4 * sizeof(double));
    memcpy(wanted.sums, (double[]){2, 1, 11}, 3 * sizeof(double));
    expect_refusal(fresh(lengths), UYAVSKER_NONE, 0, "a run of D");
    expect_record("record of a run of D");
    expect(as_wanted(), "slices of a run of D");

    zone = 0;
    memcpy(lent.part, (double[]){0, 6, 5, 0}, 4 * sizeof(double));
    wanted = lent;
    memcpy(wanted.source, (double[]){0, 6, 5, 0}, 4 * sizeof(double));
    memcpy(wanted.chain, (double[]){1, 0, 0, 1, 6, 5}, 6 * sizeof(double));
    memcpy(wanted.carries, (double[]){0, 6, 5, 0}, 4 * sizeof(double));
    memcpy(wanted.sums, (double[]){1, 2, 16}, 3 * sizeof(double));
    expect_refusal(new_core(with_part), UYAVSKER_NONE, 0, "a new core in D");
    given.figure = 16;
    expect_record("record of a new core in D");
    expect(as_wanted(), "slices of a new core in D");
}

/* D has the values 4 and 3 at its bond; 3 isn't above three quarters of 4, and is dropped. What is left makes 2*4 with the weights. A
 * new core has 6 and 4, of which 4 is dropped, and makes 1*6. Behind the one bond stands what isn't finite, and stays. */
static void cuts_in_a_run(void)
{
    const double wild[] = {NAN, INFINITY, -INFINITY};
    const size_t lengths[] = {6, 3, 6, 4, 3, UYAVSKER_SCRATCH(6)};
    const size_t with_part[] = {6, 3, 6, 4, 3, 4, UYAVSKER_SCRATCH(6)};
    give_d(0.75);
    given.bonds[0] = (uyavsker_bond){.rank = 1, .settled = true, .dropped = 3};
    given.figure = 8;
    expect_refusal(fresh(lengths), UYAVSKER_NONE, 0, "a run of D that is cut");
    expect_record("record of a run of D that is cut");

    zone = 0;
    memcpy(lent.part, (double[]){0, 6, 4, 0}, 4 * sizeof(double));
    for (size_t k = 1; k < ZONES; k++)
        given.bonds[k].dropped = wild[k % 3];
    expect_refusal(new_core(with_part), UYAVSKER_NONE, 0, "a new core in D that is cut");
    given.bonds[0].dropped = 4;
    given.figure = 6;
    expect_record("record of a new core in D that is cut");
}

/* ---- boundaries: zones of four points, each of which moves by four ---- */

enum { FOURS = 4 * ZONES };

static const size_t four_lengths[] = {FOURS, FOURS, FOURS, LAST, ZONES, UYAVSKER_SCRATCH(FOURS)};
static const size_t four_lengths_with_part[] = {FOURS, FOURS, FOURS, LAST, ZONES, 4, UYAVSKER_SCRATCH(FOURS)};

/* Around its axis a number comes back to where it was. Where the axis reflects, it meets the one that stands as far from the other
 * end, and both become their mean, 1/2. Either way four numbers of length 1 are left, which rounding leaves. */
static double four_entry(size_t k, size_t boundary, size_t im)
{
    if (boundary == UYAVSKER_REFLECTING)
        return 0.5 + ((double)im - 1.5) * (double)(k + 1) / 32;
    return im == k % 4 ? -0.5 : 0.5;
}

static uyavsker_axis four_axis(size_t boundary)
{
    return (uyavsker_axis){.b = 4, .xmax = 3, .boundary = boundary};
}

/* The zones that have this bit in their number reflect, so that no two zones do so for the same bits. */
static size_t four_boundary(size_t bit, size_t k)
{
    return k >> bit & 1 ? UYAVSKER_REFLECTING : UYAVSKER_PERIODIC;
}

static void give_fours(size_t bit)
{
    give_ladder();
    given = (uyavsker_run){.shape = {.d = ZONES}, .settings = {.tau = 1}};
    for (size_t k = 0; k < ZONES; k++) {
        size_t boundary = four_boundary(bit, k);
        given.shape.left[k] = given.shape.right[k] = 1;
        given.shape.n[k] = 4;
        given.axes[k] = four_axis(boundary);
        for (size_t im = 0; im < 4; im++) {
            double entry = four_entry(k, boundary, im);
            lent.source[4 * k + im] = lent.chain[4 * k + im] = entry;
            wanted.chain[4 * k + im] = boundary == UYAVSKER_REFLECTING ? 0.5 : entry;
        }
    }
    memcpy(axes.axis, given.axes, sizeof given.axes);
}

static uyavsker_refusal step_fours(void)
{
    return uyavsker_step(given.shape, given.settings, axes, ZONES, lent.chain, FOURS, lent.scratch, UYAVSKER_SCRATCH(FOURS)).refusal;
}

/* A second step leaves what the first has made. */
static uyavsker_refusal evolve_fours(void)
{
    const uyavsker_course course = {.t_final = 2, .steps = 2};
    return uyavsker_evolve(given.shape, course, axes, ZONES, lent.chain, FOURS, lent.scratch, UYAVSKER_SCRATCH(FOURS)).refusal;
}

static uyavsker_refusal replace_four_axis(uyavsker_axis axis)
{
    ran = uyavsker_replace_axis(given, zone, axis, lent.source, FOURS, lent.weights, FOURS, lent.chain, FOURS, lent.carries, LAST,
                                lent.sums, ZONES, lent.scratch, UYAVSKER_SCRATCH(FOURS));
    return ran.refusal;
}

static void expect_fours(uyavsker_refusal told, const char *what)
{
    expect_refusal(told, UYAVSKER_NONE, 0, what);
    expect(same(lent.chain, wanted.chain, FOURS), what);
}

static void boundaries_in_steps(void)
{
    for (size_t bit = 0; bit < 4; bit++) {
        give_fours(bit);
        expect_fours(step_fours(), "boundaries in step");
        give_fours(bit);
        expect_fours(evolve_fours(), "boundaries in evolve");
        give_fours(bit);
        expect_fours(fresh(four_lengths), "boundaries in fresh_run");
    }
}

/* A run in which one zone has the other boundary, and is then given its own. */
static void replaced_boundaries(void)
{
    for (zone = 0; zone < ZONES; zone++) {
        size_t boundary = four_boundary(0, zone);
        give_fours(0);
        axes.axis[zone] = four_axis(boundary == UYAVSKER_PERIODIC ? UYAVSKER_REFLECTING : UYAVSKER_PERIODIC);
        expect_refusal(fresh(four_lengths), UYAVSKER_NONE, 0, "a run with another boundary");
        expect(!same(lent.chain, wanted.chain, FOURS), "chain with another boundary");
        given = ran.run;
        expect_fours(replace_four_axis(four_axis(boundary)), "a replaced boundary");
        for (size_t k = 0; k < ZONES; k++)
            expect(ran.run.axes[k].boundary == four_boundary(0, k), "record with a replaced boundary");
    }
}

/* A fresh run with a boundary that isn't known at axis k, then a kept one that others wrote it to, and a new record that has it. */
static void expect_unknown(size_t k, size_t boundary)
{
    give_fours(0);
    axes.axis[k].boundary = given.axes[k].boundary = boundary;
    expect_refusal(step_fours(), UYAVSKER_SETTING, k, "an unknown boundary in step");
    expect_refusal(evolve_fours(), UYAVSKER_SETTING, k, "an unknown boundary in evolve");
    expect_refusal(fresh(four_lengths), UYAVSKER_SETTING, k, "an unknown boundary in fresh_run");
    expect_record("record with an unknown boundary");

    give_fours(0);
    expect_refusal(fresh(four_lengths), UYAVSKER_NONE, 0, "a run without it");
    given = ran.run;
    wanted = lent;
    zone = k;
    expect_refusal(replace_four_axis(four_axis(boundary)), UYAVSKER_SETTING, k, "an unknown boundary in a new record");
    expect_record("record without it");
    given.axes[k].boundary = boundary;
    zone = (k + 5) % ZONES;
    expect_refusal(new_core(four_lengths_with_part), UYAVSKER_SETTING, k, "an unknown boundary in replace_core");
    expect_refusal(new_weights(four_lengths_with_part), UYAVSKER_SETTING, k, "an unknown boundary in replace_weights");
    expect_refusal(new_axis(four_lengths), UYAVSKER_SETTING, k, "an unknown boundary in replace_axis");
    expect_record("record of a run with an unknown boundary");
    expect(as_wanted(), "slices of a run with an unknown boundary");
}

/* Numbers of no boundary and of no mode. Who reads fewer of their bits takes each for a known one. */
static const size_t unknown[] = {2, 3, 0x100, 0x10001, 0x100000000, 0x8000000000000001, SIZE_MAX - 1, SIZE_MAX};
enum { UNKNOWN = sizeof unknown / sizeof *unknown };

static void unknown_boundaries(void)
{
    for (size_t k = 0; k < ZONES; k++)
        for (size_t i = 0; i < UNKNOWN; i++)
            expect_unknown(k, unknown[i]);
}

/* It is looked at with a, after the numbers that aren't finite and before shifts that are too far. */
static void unknown_boundaries_beside_others(void)
{
    give_fours(0);
    axes.axis[9].boundary = 2;
    axes.axis[3].b = DBL_MAX;
    expect_refusal(fresh(four_lengths), UYAVSKER_SETTING, 9, "an unknown boundary behind a shift that is too far");
    axes.axis[12].a = -1;
    expect_refusal(fresh(four_lengths), UYAVSKER_SETTING, 9, "an unknown boundary before an a below zero");
    axes.axis[6].a = -1;
    expect_refusal(fresh(four_lengths), UYAVSKER_SETTING, 6, "an unknown boundary behind an a below zero");
    axes.axis[14].xmin = NAN;
    expect_refusal(fresh(four_lengths), UYAVSKER_NUMBER, 14, "an unknown boundary before a number that isn't finite");
}

/* ---- modes: three zones in which nothing moves ---- */

enum { SMALLS = 7, SMALL_POINTS = 4, SMALL_CARRIES = 5, SMALL_SUMS = 4, SMALL_CORE = 4 };

static const size_t small_lengths[] = {SMALLS, SMALL_POINTS, SMALLS, SMALL_CARRIES, SMALL_SUMS, UYAVSKER_SCRATCH(SMALLS)};
static const size_t small_core[] = {SMALLS, SMALL_POINTS, SMALLS, SMALL_CARRIES, SMALL_SUMS, SMALL_CORE, UYAVSKER_SCRATCH(SMALLS)};
static const size_t small_weights[] = {SMALLS, SMALL_POINTS, SMALLS, SMALL_CARRIES, SMALL_SUMS, 1, UYAVSKER_SCRATCH(SMALLS)};

/* The columns of zone 0 have 2^-50 in common, of which g*g is below 1e-30 and 2*g*g isn't, but is below 1e-30 times 1 + 1. Zone 1 has
 * the value 2^-104, which is below 1e-30. */
static void give_small(size_t mode)
{
    const double small[] = {1, 0x1p-50, 0, 1, 0x1p-104, 0, 1};
    give_ladder();
    memset(&axes, 0, sizeof axes);
    given = (uyavsker_run){.shape = {.d = 3, .left = {1, 2, 1}, .n = {2, 1, 1}, .right = {2, 1, 1}},
                           .settings = {.c = 3, .cutting = {.eps = 0x1p-5, .mode = mode}}};
    memcpy(lent.source, small, sizeof small);
    memcpy(lent.chain, small, sizeof small);
    memcpy(lent.part, small, SMALL_CORE * sizeof *small);
    for (size_t point = 0; point < SMALL_POINTS; point++)
        lent.weights[point] = 1;
    wanted = lent;
}

/* Absolute: all sweeps are made, and the column of zone 1 becomes 0; scaled: none is, and it is divided by its value. */
static void want_small(size_t mode)
{
    const double divided = mode == UYAVSKER_SCALED ? 1 : 0, last = 0x1p-104;
    given.bonds[0] = mode == UYAVSKER_SCALED ? (uyavsker_bond){.rank = 2, .settled = true} : (uyavsker_bond){.rank = 2, .sweeps = 50};
    given.bonds[1] = (uyavsker_bond){.rank = 1, .settled = true};
    given.figure = divided * last;
    memcpy(wanted.chain, (double[]){1, 0x1p-50, 0, 1, divided, 0, last}, SMALLS * sizeof(double));
    memset(wanted.scratch, 0, UYAVSKER_SCRATCH(SMALLS) * sizeof(double));
}

/* And what a run keeps beside that. */
static void want_small_run(size_t mode)
{
    want_small(mode);
    memcpy(wanted.carries, (double[]){1, 0, 0, 1, 0x1p-104}, SMALL_CARRIES * sizeof(double));
    memcpy(wanted.sums, (double[]){1, 1 + 0x1p-50, wanted.chain[4], given.figure}, SMALL_SUMS * sizeof(double));
}

static uyavsker_refusal round_small(void)
{
    rounded = uyavsker_tt_round(given.shape, given.settings.cutting, lent.chain, SMALLS, lent.scratch, UYAVSKER_SCRATCH(SMALLS));
    return rounded.refusal;
}

static uyavsker_refusal step_small(void)
{
    rounded = uyavsker_step(given.shape, given.settings, axes, 3, lent.chain, SMALLS, lent.scratch, UYAVSKER_SCRATCH(SMALLS));
    return rounded.refusal;
}

static uyavsker_refusal evolve_small(void)
{
    const uyavsker_course course = {.steps = 2, .c = 3, .cutting = given.settings.cutting};
    rounded = uyavsker_evolve(given.shape, course, axes, 3, lent.chain, SMALLS, lent.scratch, UYAVSKER_SCRATCH(SMALLS));
    return rounded.refusal;
}

static uyavsker_refusal small_axis(void)
{
    ran = uyavsker_replace_axis(given, zone, axes.axis[zone], lent.source, SMALLS, lent.weights, SMALL_POINTS, lent.chain, SMALLS,
                                lent.carries, SMALL_CARRIES, lent.sums, SMALL_SUMS, lent.scratch, UYAVSKER_SCRATCH(SMALLS));
    return ran.refusal;
}

static void expect_small(uyavsker_refusal told, const char *what)
{
    expect_refusal(told, UYAVSKER_NONE, 0, what);
    expect(same_shape(&rounded.shape, &given.shape) && same_bonds(rounded.bonds, given.bonds), what);
    expect(as_wanted(), what);
}

static void modes_in_steps(void)
{
    for (size_t mode = UYAVSKER_ABSOLUTE; mode <= UYAVSKER_SCALED; mode++) {
        give_small(mode);
        want_small(mode);
        expect_small(round_small(), "a mode in tt_round");
        give_small(mode);
        want_small(mode);
        expect_small(step_small(), "a mode in step");
        give_small(mode);
        want_small(mode);
        /* A second step finds 0 where the first has left it, and hands that on. */
        wanted.chain[6] *= wanted.chain[4];
        expect_small(evolve_small(), "a mode in evolve");
    }
}

static void expect_small_run(uyavsker_refusal told, const char *what)
{
    expect_refusal(told, UYAVSKER_NONE, 0, what);
    expect_record(what);
    expect(as_wanted(), what);
}

/* A fresh run in one mode, to which others then write the other: new weights leave what the first one made, a new core and a new record
 * for zone 0 go by the mode that they find. What is new is what stood there. */
static void modes_in_runs(void)
{
    for (size_t mode = UYAVSKER_ABSOLUTE; mode <= UYAVSKER_SCALED; mode++) {
        size_t other = mode == UYAVSKER_ABSOLUTE ? UYAVSKER_SCALED : UYAVSKER_ABSOLUTE;
        give_small(mode);
        want_small_run(mode);
        expect_small_run(fresh(small_lengths), "a mode in fresh_run");
        given.settings.cutting.mode = other;
        zone = 1;
        expect_small_run(new_weights(small_weights), "another mode in replace_weights");
        zone = 0;
        want_small_run(other);
        expect_small_run(new_core(small_core), "another mode in replace_core");
        given.settings.cutting.mode = mode;
        want_small_run(mode);
        expect_small_run(small_axis(), "another mode in replace_axis");
    }
}

/* No call that takes a mode knows this one, and none writes anything. */
static void expect_unknown_mode(size_t mode)
{
    give_small(mode);
    expect_unrounded(round_small(), UYAVSKER_SETTING, 0, 0, "an unknown mode in tt_round");
    expect_unrounded(step_small(), UYAVSKER_SETTING, 0, 0, "an unknown mode in step");
    expect_unrounded(evolve_small(), UYAVSKER_SETTING, 0, 0, "an unknown mode in evolve");
    expect_refusal(fresh(small_lengths), UYAVSKER_SETTING, 0, "an unknown mode in fresh_run");
    expect_record("record with an unknown mode");
    expect(as_wanted(), "slices with an unknown mode");
}

/* The same in a run that others wrote it to. */
static void expect_run_of_unknown_mode(size_t mode)
{
    give_small(UYAVSKER_SCALED);
    expect_refusal(fresh(small_lengths), UYAVSKER_NONE, 0, "a run of a known mode");
    given = ran.run;
    given.settings.cutting.mode = mode;
    wanted = lent;
    for (zone = 0; zone < 3; zone++)
        expect_refusal(small_axis(), UYAVSKER_SETTING, 0, "an unknown mode in replace_axis");
    zone = 0;
    expect_refusal(new_core(small_core), UYAVSKER_SETTING, 0, "an unknown mode in replace_core");
    zone = 1;
    expect_refusal(new_weights(small_weights), UYAVSKER_SETTING, 0, "an unknown mode in replace_weights");
    expect_record("record of a run of an unknown mode");
    expect(as_wanted(), "slices of a run of an unknown mode");
}

static void unknown_modes(void)
{
    for (size_t i = 0; i < UNKNOWN; i++) {
        expect_unknown_mode(unknown[i]);
        expect_run_of_unknown_mode(unknown[i]);
    }
}

/* It is looked at with eps, after the numbers that aren't finite and before what is wrong with an axis. */
static void unknown_modes_beside_others(void)
{
    give_small(2);
    axes.axis[1].a = -1;
    expect_refusal(step_small(), UYAVSKER_SETTING, 0, "an unknown mode before an a below zero");
    axes.axis[2].xmin = NAN;
    expect_refusal(step_small(), UYAVSKER_NUMBER, 2, "an unknown mode behind a record that isn't finite");
    lent.chain[4] = NAN;
    expect_refusal(round_small(), UYAVSKER_NUMBER, 1, "an unknown mode behind a core that isn't finite");
    expect_refusal(uyavsker_tt_round(given.shape, given.settings.cutting, lent.chain, SMALLS - 1, lent.scratch,
                                     UYAVSKER_SCRATCH(SMALLS)).refusal, UYAVSKER_LENGTH, 0, "an unknown mode behind a length");
}

/* The scope's P12: two columns of 2^-27. Scaled, they are turned once by c = 1/sqrt(2) as computed, which leaves the value 2^-26*c and
 * c*c = 1/2 - 2^-53 to be carried. */
static void columns_alike(void)
{
    const double absolute[] = {1, 1, 0x1p-27, 0x1p-27}, scaled[] = {1, 0x1p-26 * (1 - 0x1p-52), 0, 0};
    const uyavsker_bond bonds[] = {{.rank = 2, .settled = true}, {.rank = 1, .sweeps = 1, .settled = true}};
    for (size_t mode = UYAVSKER_ABSOLUTE; mode <= UYAVSKER_SCALED; mode++) {
        double chain[] = {0x1p-27, 0x1p-27, 1, 1};
        rounded = uyavsker_tt_round(two_zones(1, 2, 1), (uyavsker_cutting){.mode = mode}, chain, 4, lent.scratch, UYAVSKER_SCRATCH(4));
        expect_refusal(rounded.refusal, UYAVSKER_NONE, 0, "columns that are alike");
        expect(same_bond(&rounded.bonds[0], &bonds[mode]), "bond of columns that are alike");
        expect(same(chain, mode == UYAVSKER_SCALED ? scaled : absolute, 4), "columns that are alike");
    }
}

/* ---- pairs ---- */

static uyavsker_paired paired;

/* The slab has 32 at row 14, column 31, then 16 at row 1, column 9, then 2, which is not above 2^-4 of the largest. */
static uyavsker_refusal split(const size_t *n)
{
    const uyavsker_sizes left = {.left = 2, .n = 9, .right = 3}, right = {.left = 3, .n = 10, .right = 4};
    paired = uyavsker_contract_and_split(left, right, 0x1p-4, lent.source, n[0], lent.weights, n[1], lent.chain, n[2], lent.part, n[3],
                                         lent.scratch, n[4]);
    return paired.refusal;
}

static void pairs(void)
{
    give_ladder();
    memset(lent.source, 0, 54 * sizeof(double));
    memset(lent.weights, 0, 120 * sizeof(double));
    lent.source[1 * 3 + 0] = 4;
    lent.weights[0 * 40 + 9] = 4;
    lent.source[14 * 3 + 1] = 2;
    lent.weights[1 * 40 + 31] = 16;
    lent.source[17 * 3 + 2] = 1;
    lent.weights[2 * 40 + 36] = 2;
    wanted = lent;
    memset(wanted.scratch, 0, UYAVSKER_PAIR_SCRATCH * sizeof(double));
    memset(wanted.chain, 0, 144 * sizeof(double));
    memset(wanted.part, 0, 320 * sizeof(double));
    wanted.chain[14 * 2 + 0] = 32;
    wanted.part[0 * 40 + 31] = 1;
    wanted.chain[1 * 2 + 1] = 16;
    wanted.part[1 * 40 + 9] = 1;
    expect_lengths(split, (size_t[]){54, 120, 144, 320, UYAVSKER_PAIR_SCRATCH}, 5, "contract_and_split");
    expect(paired.rank == 2 && paired.passes == 1, "answer of contract_and_split");
    expect(as_wanted(), "slices of contract_and_split");
}

/* A slab of 18 rows and 40 columns that has the product of these two at row 14, column 31, and maybe once more at column 36. */
static uyavsker_refusal split_large(double left, double right, bool twice)
{
    memset(lent.source, 0, 54 * sizeof(double));
    memset(lent.weights, 0, 120 * sizeof(double));
    lent.source[14 * 3 + 1] = left;
    lent.weights[1 * 40 + 31] = right;
    lent.weights[1 * 40 + 36] = twice ? right : 0;
    return split((size_t[]){54, 120, 144, 320, UYAVSKER_PAIR_SCRATCH});
}

/* The slab counts row after row, its columns column after column. The square of 1e200 is too large for a value; a column of zeros is
 * turned by 0 beside it; two such columns have no angle, and the first of them is stored as no number from its row 0 on. */
static void refused_pairs(void)
{
    expect_stored(split_large(1e200, 1e200, false), UYAVSKER_ENTRY, 0, 14 * 40 + 31, "a pair's slab refused");
    expect_stored(split_large(1e100, 1e100, false), UYAVSKER_SPECTRUM, 0, 31, "a pair's value refused");
    expect_stored(split_large(1e100, 1e100, true), UYAVSKER_SPECTRUM, 0, 31 * 18, "a pair's columns refused");
    expect(paired.rank == 0 && paired.passes == 0, "answer of contract_and_split refused");
}

/* 0, 4; 4, 0 before 1, 0; 0, 2 is 0, 8; 4, 0. The left core has the values, the right one what they stand at. */
static void pairs_of_one_length(void)
{
    const uyavsker_sizes left = {.left = 1, .n = 2, .right = 2}, right = {.left = 2, .n = 2, .right = 1};
    const double first[] = {0, 4, 4, 0}, second[] = {1, 0, 0, 2}, lefts[16] = {8, 0, 0, 4}, rights[16] = {0, 1, 1, 0};
    paired = uyavsker_contract_and_split(left, right, 0, first, 4, second, 4, lent.chain, 16, lent.part, 16, lent.scratch,
                                         UYAVSKER_PAIR_SCRATCH);
    expect_refusal(paired.refusal, UYAVSKER_NONE, 0, "a pair of one length");
    expect(same(lent.chain, lefts, 16) && same(lent.part, rights, 16), "slices of a pair of one length");
}

/* ---- chain files ---- */

enum { BODIES = 8 + 12 * ZONES, FILE_BYTES = BODIES + 8 * NUMBERS };

static uint8_t file[FILE_BYTES], written[FILE_BYTES];

static uint8_t *put_bytes(uint8_t *at, size_t value, size_t count)
{
    for (size_t i = 0; i < count; i++)
        *at++ = (uint8_t)(value >> 8 * i);
    return at;
}

/* The file of the ladder by the scope's text; the number at place p is p. */
static void make_file(void)
{
    uint8_t *at = put_bytes(file, 0x31435454, 4);
    size_t begins = BODIES;
    at = put_bytes(at, ZONES, 4);
    for (size_t k = 0; k < ZONES; k++) {
        at = put_bytes(at, source.left[k], 2);
        at = put_bytes(at, source.n[k], 2);
        at = put_bytes(at, source.right[k], 4);
        at = put_bytes(at, begins, 4);
        begins += 8 * source.left[k] * source.n[k] * source.right[k];
    }
    fill(wanted.chain, NUMBERS, 0);
    memcpy(at, wanted.chain, 8 * NUMBERS);
}

static uyavsker_refusal read_ladder(const size_t *lengths)
{
    formed = uyavsker_read_chain(file, FILE_BYTES, lent.chain, lengths[0]);
    return formed.refusal;
}

static uyavsker_refusal write_ladder(const size_t *lengths)
{
    return uyavsker_write_chain(source, lent.source, lengths[0], written, lengths[1]);
}

static void files(void)
{
    const char *listed = "axes 1 entries 4\n0 1 4 1 20\n";
    const uint8_t small[52] = "TTC1\1\0\0\0\1\0\4\0\1\0\0\0\24\0\0\0\0\0\0\0\0\0\20\100\0\0\0\0\0\0\40\100\0\0\0\0\0\0\60\100";
    uint8_t text[UYAVSKER_TEXT];
    make_file();
    fill(lent.source, NUMBERS, 0);
    expect_lengths(write_ladder, (size_t[]){NUMBERS, FILE_BYTES}, 2, "write_chain");
    expect(memcmp(written, file, FILE_BYTES) == 0, "file of write_chain");
    expect_refusal(read_ladder((size_t[]){NUMBERS - 1}), UYAVSKER_LENGTH, 1, "read_chain of less room");
    expect_refusal(read_ladder((size_t[]){NUMBERS}), UYAVSKER_NONE, 0, "read_chain");
    expect(same_shape(&formed.shape, &source) && same(lent.chain, wanted.chain, NUMBERS), "answer of read_chain");
    expect(uyavsker_text_of(small, 52, text) == strlen(listed) && memcmp(text, listed, strlen(listed)) == 0, "text_of");
}

int main(void)
{
    source = ladder_shape(source_rank);
    kept = ladder_shape(kept_rank);
    axes = ladder_axes();
    single_numbers();
    shapes();
    entries();
    starts();
    figures();
    roundings();
    largest_values_dropped();
    fresh_runs();
    replacements();
    numbers_that_new_weights_look_at();
    dropped_that_is_not_finite();
    bonds_that_are_said_anew();
    refused_roundings();
    refused_figure();
    refused_weights();
    refused_cores();
    slices_of_one_length();
    cuts_in_a_run();
    boundaries_in_steps();
    replaced_boundaries();
    unknown_boundaries();
    unknown_boundaries_beside_others();
    modes_in_steps();
    modes_in_runs();
    unknown_modes();
    unknown_modes_beside_others();
    columns_alike();
    pairs();
    refused_pairs();
    pairs_of_one_length();
    files();
    return failures == 0 ? 0 : 1;
}
