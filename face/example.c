/* A plan of two zones: its figure, its file and two roundings, of which one drops a value; small numbers rounded in both modes, and in
 * one that is refused; of one zone: a step around its axis, one that reflects and one that is refused, and a run with new weights; of
 * two zones again: a run that refuses a wild forecast and a wild weight. */
#include "uyavsker.h"

#include <stdio.h>

#define ENTRIES 6
#define BYTES (8 + 12 * 2 + 8 * ENTRIES)

static void print_numbers(const char *name, const double *numbers, size_t count)
{
    printf("%s", name);
    for (size_t i = 0; i < count; i++)
        printf(" %g", numbers[i]);
    printf("\n");
}

/* Prints a refusal, and tells whether there was one. */
static bool refused(uyavsker_refusal refusal)
{
    if (refusal.number == UYAVSKER_NONE)
        return false;
    printf("refused %d at %zu", refusal.number, refusal.place);
    if (uyavsker_has_index(refusal.number))
        printf(", index %zu", refusal.index);
    printf(": %s\n", uyavsker_words(refusal.number));
    return true;
}

static size_t entries_of(uyavsker_shape shape)
{
    size_t entries = 0;
    for (size_t k = 0; k < shape.d; k++)
        entries += shape.left[k] * shape.n[k] * shape.right[k];
    return entries;
}

static void print_figure(uyavsker_shape shape, const double *chain)
{
    const double weights[] = {1, 2, 1};
    uyavsker_figure figure = uyavsker_inner_separable(shape, chain, entries_of(shape), weights, 3);
    if (!refused(figure.refusal))
        printf("figure %g\n", figure.value);
}

static void print_file(uyavsker_shape shape, const double *chain)
{
    uint8_t file[BYTES];
    uint8_t text[UYAVSKER_TEXT];
    double read[ENTRIES];
    if (refused(uyavsker_write_chain(shape, chain, ENTRIES, file, BYTES)))
        return;
    size_t length = uyavsker_text_of(file, BYTES, text);
    fwrite(text, 1, length, stdout);
    refused(uyavsker_read_chain(file, BYTES - 1, read, ENTRIES).refusal);
    if (!refused(uyavsker_read_chain(file, BYTES, read, ENTRIES).refusal))
        print_numbers("read", read, ENTRIES);
}

/* At its bond the plan has the values 4 and 3. With eps 0.75 the second isn't above 0.75*4, and is dropped. */
static void print_rounding(uyavsker_shape shape, double eps)
{
    double chain[] = {3, 0, 0, 4, 1, 1};
    double scratch[UYAVSKER_SCRATCH(ENTRIES)];
    uyavsker_rounded rounded =
        uyavsker_tt_round(shape, (uyavsker_cutting){.eps = eps}, chain, ENTRIES, scratch, UYAVSKER_SCRATCH(ENTRIES));
    if (refused(rounded.refusal))
        return;
    uyavsker_bond bond = rounded.bonds[0];
    print_numbers("rounded", chain, entries_of(rounded.shape));
    printf("eps %g: rank %zu, sweeps %zu, settled %s, dropped %g\n", eps, bond.rank, bond.sweeps, bond.settled ? "yes" : "no",
           bond.dropped);
    print_figure(rounded.shape, chain);
}

/* A chance of 2^-104 beside a sure one: in absolute mode it is below 1e-30, and vanishes. */
static void print_rare(const char *name, uyavsker_cutting cutting)
{
    const uyavsker_shape shape = {.d = 2, .left = {1, 1}, .n = {1, 1}, .right = {1, 1}};
    const double weights[] = {1, 1};
    double chain[] = {0x1p-104, 1};
    double scratch[UYAVSKER_SCRATCH(2)];
    if (refused(uyavsker_tt_round(shape, cutting, chain, 2, scratch, UYAVSKER_SCRATCH(2)).refusal))
        return;
    uyavsker_figure figure = uyavsker_inner_separable(shape, chain, 2, weights, 2);
    if (!refused(figure.refusal))
        printf("%s: figure %g times 2^-104\n", name, figure.value * 0x1p104);
}

/* Two columns of 2^-27 are the same, and one would do: what they have in common is 2^-54, whose square is below 1e-30, so that in
 * absolute mode they aren't turned. */
static void print_alike(const char *name, uyavsker_cutting cutting)
{
    const uyavsker_shape shape = {.d = 2, .left = {1, 2}, .n = {1, 1}, .right = {2, 1}};
    double chain[] = {0x1p-27, 0x1p-27, 1, 1};
    double scratch[UYAVSKER_SCRATCH(4)];
    uyavsker_rounded rounded = uyavsker_tt_round(shape, cutting, chain, 4, scratch, UYAVSKER_SCRATCH(4));
    if (!refused(rounded.refusal))
        printf("%s: rank %zu, sweeps %zu\n", name, rounded.bonds[0].rank, rounded.bonds[0].sweeps);
}

static void print_modes(void)
{
    const uyavsker_cutting absolute = {.mode = UYAVSKER_ABSOLUTE}, scaled = {.mode = UYAVSKER_SCALED}, unknown = {.mode = 2};
    print_rare("absolute", absolute);
    print_rare("scaled", scaled);
    print_alike("absolute", absolute);
    print_alike("scaled", scaled);
    print_rare("unknown", unknown);
}

static const uyavsker_shape one_zone = {.d = 1, .left = {1}, .n = {4}, .right = {1}};
static const uyavsker_settings settings = {.tau = 1, .c = 0, .cutting = {.eps = 0}};
static const uyavsker_axes axes = {.axis = {{.a = 0.25, .b = 0, .xmin = 0, .xmax = 3}}};

/* Half of each number stays, and a quarter goes one point up and one down: from an end to the other end, or back to where it was. */
static void print_step(const char *name, size_t boundary)
{
    double chain[] = {4, 8, 16, 0};
    double scratch[UYAVSKER_SCRATCH(4)];
    uyavsker_axes bounded = axes;
    bounded.axis[0].boundary = boundary;
    if (!refused(uyavsker_step(one_zone, settings, bounded, 1, chain, 4, scratch, UYAVSKER_SCRATCH(4)).refusal))
        print_numbers(name, chain, 4);
}

static void print_run(void)
{
    const double source[] = {4, 8, 16, 0};
    const double part[] = {1, 2, 1, 1};
    double weights[] = {1, 1, 1, 1};
    double chain[4], carries[1], sums[1];
    double scratch[UYAVSKER_SCRATCH(4)];
    uyavsker_ran ran = uyavsker_fresh_run(one_zone, axes, settings, source, 4, weights, 4, chain, 4, carries, 0,
                                          sums, 1, scratch, UYAVSKER_SCRATCH(4));
    if (refused(ran.refusal))
        return;
    printf("run %g\n", ran.run.figure);
    ran = uyavsker_replace_weights(ran.run, 0, source, 4, weights, 4, chain, 4, carries, 0, sums, 1, part, 4,
                                   scratch, UYAVSKER_SCRATCH(4));
    if (!refused(ran.refusal))
        printf("new weights %g\n", ran.run.figure);
    refused(uyavsker_replace_weights(ran.run, 1, source, 4, weights, 4, chain, 4, carries, 0, sums, 1, part, 4,
                                     scratch, UYAVSKER_SCRATCH(4)).refusal);
}

/* Each has a number whose products are too large: the number of the refusal tells the core from the weight. */
static void print_wild(uyavsker_shape shape)
{
    const uyavsker_axes still = {.axis = {{.a = 0}}};
    const double forecast[] = {3, 0, 0, 1e200}, weight[] = {1e308};
    double source[] = {3, 0, 0, 4, 1, 1}, weights[] = {1, 2, 1};
    double chain[ENTRIES], carries[4], sums[3];
    double scratch[UYAVSKER_SCRATCH(ENTRIES)];
    uyavsker_ran ran = uyavsker_fresh_run(shape, still, settings, source, ENTRIES, weights, 3, chain, ENTRIES,
                                          carries, 4, sums, 3, scratch, UYAVSKER_SCRATCH(ENTRIES));
    if (refused(ran.refusal))
        return;
    printf("run of two zones %g\n", ran.run.figure);
    printf("a wild forecast: ");
    refused(uyavsker_replace_core(ran.run, 0, source, ENTRIES, weights, 3, chain, ENTRIES, carries, 4, sums, 3,
                                  forecast, 4, scratch, UYAVSKER_SCRATCH(ENTRIES)).refusal);
    printf("a wild weight: ");
    refused(uyavsker_replace_weights(ran.run, 1, source, ENTRIES, weights, 3, chain, ENTRIES, carries, 4, sums, 3,
                                     weight, 1, scratch, UYAVSKER_SCRATCH(ENTRIES)).refusal);
}

int main(void)
{
    uyavsker_shape shape = {.d = 2, .left = {1, 2}, .n = {2, 1}, .right = {2, 1}};
    const double chain[] = {3, 0, 0, 4, 1, 1};
    print_figure(shape, chain);
    print_file(shape, chain);
    print_rounding(shape, 0);
    print_rounding(shape, 0.75);
    print_modes();
    print_step("periodic", UYAVSKER_PERIODIC);
    print_step("reflecting", UYAVSKER_REFLECTING);
    print_step("unknown", 2);
    print_run();
    print_wild(shape);
    return 0;
}
