/* Zone chains: the proved numeric core of a district heating plan, for C.
 *
 * Link with libzones.a, which `face/archive` writes to target/staticlib (x86-64 Linux).
 *
 * Records go in and out by value; a slice is a pointer and how many elements it has. No pointer is null, each leads to as
 * many elements as the length beside it says, and a slice that a call writes overlaps no other slice of that call. That is
 * all that a call asks: whatever else it is given, it answers or refuses, and a refused call has written neither chain,
 * run nor output. docs/CALLS.md states every call. */
#ifndef UYAVSKER_H
#define UYAVSKER_H

#include <stdbool.h>
#include <stddef.h>
#include <stdint.h>

#ifdef __cplusplus
extern "C" {
#endif

#define UYAVSKER_MOST_AXES 16
#define UYAVSKER_MOST_POINTS 64
#define UYAVSKER_MOST_RANK 8
#define UYAVSKER_MOST_STEPS 10000

/* Numbers of scratch: for a chain of n numbers, and for a pair. */
#define UYAVSKER_SCRATCH(n) (4 * (n) + 2048)
#define UYAVSKER_PAIR_SCRATCH 20480

/* Bytes of the text that a listing is put into. */
#define UYAVSKER_TEXT 2048

/* The numbers of the scope's table, and what the place is. With 9, 12, 13 and 14 a number to be stored isn't finite, and
 * the index says which: it is the flat index of the first such number inside what was being stored. */
enum {
    UYAVSKER_NONE = 0,      /* not refused */
    UYAVSKER_AXES = 1,      /* d is outside its limits: 0 */
    UYAVSKER_SIZE = 2,      /* a size is outside its limits: the first such core */
    UYAVSKER_BOND = 3,      /* ranks that don't meet, or a kept rank that can't be: the bond's left core */
    UYAVSKER_ZONE = 4,      /* a zone number of d or more: 0 */
    UYAVSKER_LENGTH = 5,    /* a lent length is wrong: the slice, from 0, in the call's order */
    UYAVSKER_NUMBER = 6,    /* a number isn't finite: its core, axis or zone; a bond's: its left core; a lone setting 0 */
    UYAVSKER_SETTING = 7,   /* a setting is below zero, a boundary or a mode isn't known, or steps are outside limits: the axis
                             * for a and for a boundary, else 0 */
    UYAVSKER_REACH = 8,     /* a shift is too far: the first such axis */
    UYAVSKER_ENTRY = 9,     /* a shifted entry: its axis; a scaled one: 0; index as in its core.
                             * An entry of a pair's slab: 0; index row after row */
    UYAVSKER_RANK = 10,     /* a pair's kept rank is above 8: 0 */
    UYAVSKER_FILE = 11,     /* a file breaks its rules: the byte */
    UYAVSKER_SPECTRUM = 12, /* a Gram matrix or a basis, index row after row, or a singular value, index i in the list
                             * as they are made: the bond's left core. A pair's columns or basis, index column after
                             * column, or its value i: 0 */
    UYAVSKER_FACTOR = 13,   /* a left factor or a carry, index row after row: the bond's left core. An absorbed core: itself;
                             * a pair's new cores: 0 and 1; index as in that core */
    UYAVSKER_SUM = 14       /* a partial sum: its axis; index j */
};

/* A refusal by its number, its place and its index. */
typedef struct {
    uint8_t number;
    size_t place;
    size_t index;
} uyavsker_refusal;

/* Whether refusals with this number have an index; with any other it is 0 and means nothing. */
static inline bool uyavsker_has_index(uint8_t number)
{
    return number == UYAVSKER_ENTRY || number == UYAVSKER_SPECTRUM || number == UYAVSKER_FACTOR || number == UYAVSKER_SUM;
}

/* The table's words for a number. */
static inline const char *uyavsker_words(uint8_t number)
{
    switch (number) {
    case UYAVSKER_NONE: return "not refused";
    case UYAVSKER_AXES: return "the number of axes is outside its limits";
    case UYAVSKER_SIZE: return "a size is outside its limits";
    case UYAVSKER_BOND: return "neighbours' ranks differ, an end rank isn't 1, or a kept rank is 0 or above its source's";
    case UYAVSKER_ZONE: return "there is no such zone";
    case UYAVSKER_LENGTH: return "a lent length is wrong";
    case UYAVSKER_NUMBER: return "an input number isn't finite";
    case UYAVSKER_SETTING: return "a setting is below zero, a boundary or a mode isn't known, or steps are outside their limits";
    case UYAVSKER_REACH: return "a shift is too far";
    case UYAVSKER_ENTRY: return "a shifted or scaled entry, or an entry of a pair's slab, isn't finite";
    case UYAVSKER_RANK: return "a pair's kept rank is above 8";
    case UYAVSKER_FILE: return "a file breaks its rules";
    case UYAVSKER_SPECTRUM: return "a Gram matrix, a basis, a singular value or a pair's columns aren't finite";
    case UYAVSKER_FACTOR: return "a left factor, a carry, an absorbed core or a pair's new core isn't finite";
    case UYAVSKER_SUM: return "a partial sum isn't finite";
    default: return "unknown";
    }
}

/* ---- what goes into a call ---- */

/* d cores; core k has the sizes left[k], n[k], right[k]. */
typedef struct {
    size_t d;
    size_t left[UYAVSKER_MOST_AXES];
    size_t n[UYAVSKER_MOST_AXES];
    size_t right[UYAVSKER_MOST_AXES];
} uyavsker_shape;

/* What lies beyond the ends of an axis of n points. The shift takes an index i modulo n where it is periodic; where it is
 * reflecting modulo 2n, and then 2n - 1 - i in place of an i of n or more. */
enum {
    UYAVSKER_PERIODIC = 0,  /* the other end: what leaves at one comes back in at the other */
    UYAVSKER_REFLECTING = 1 /* a mirror: what leaves at an end comes back in there */
};

/* The settings of one axis. Of the boundary there are the two above: any other is refused with 7 at the axis. */
typedef struct {
    double a;
    double b;
    double xmin;
    double xmax;
    size_t boundary;
} uyavsker_axis;

/* Room for the records of as many axes as a chain can have. What stands behind the d axes of a chain is never looked at. */
typedef struct {
    uyavsker_axis axis[UYAVSKER_MOST_AXES];
} uyavsker_axes;

/* What a cut takes for nothing. A bond's columns are turned pair by pair, in sweeps, until no two have anything in common; then
 * each that is kept is divided by its value. In the Gram matrix g is what two columns have in common, and the diagonal has what
 * each has by itself.
 *
 * Absolute: nothing is what is below 1e-30, whatever stands beside it. Sweeps stop where the sum of 2*g*g over all pairs is; a
 * pair is skipped where g*g is; a column becomes 0 where its value isn't above 1e-30. So where rare events are multiplied the
 * figure can come out as 0, and columns of small numbers that are alike all stay.
 *
 * Scaled: nothing is what is that small beside the bond's own numbers, so rare events keep their chance. Sweeps stop where the
 * sum is below 1e-30 times the sum of the diagonal's squares, or zero; a pair is skipped where g*g is below 1e-30 times the
 * product of its two diagonal entries, or g is zero; a column is divided wherever its value is above zero. Powers of
 * small numbers end up as zero here too: below some 1e-81 columns aren't turned any more, and below some 1e-162 they become 0. */
enum {
    UYAVSKER_ABSOLUTE = 0, /* the Rust's own rule */
    UYAVSKER_SCALED = 1    /* for chances that are small all together */
};

/* How a cut is made: kept is what lies above eps times the largest value. Of the mode there are the two above: any other is
 * refused with 7 at 0. An initialiser that names no mode leaves it 0, which is absolute. */
typedef struct {
    double eps;
    size_t mode;
} uyavsker_cutting;

/* The lone settings of a step. */
typedef struct {
    double tau;
    double c;
    uyavsker_cutting cutting;
} uyavsker_settings;

/* Steps one after another: how far, in how many, and the lone settings of each. */
typedef struct {
    double t_final;
    size_t steps;
    double c;
    uyavsker_cutting cutting;
} uyavsker_course;

/* The sizes of one core. */
typedef struct {
    size_t left;
    size_t n;
    size_t right;
} uyavsker_sizes;

/* ---- what a call answers ---- */

/* What is said of a bond: the rank kept, the sweeps made, whether the sum was small at their end, by the mode's own test, and
 * the largest singular value that was dropped, +0 if all were kept. The values are those of the bond's matrix as rounding
 * meets it, which is its left core with what the bond before handed on. `settled` holds nothing but true and false. */
typedef struct {
    size_t rank;
    size_t sweeps;
    bool settled;
    double dropped;
} uyavsker_bond;

/* The chain's shape at the end, and what is said of each of the d - 1 bonds; blank behind them, and after a refusal: 0, 0,
 * false, +0. */
typedef struct {
    uyavsker_refusal refusal;
    uyavsker_shape shape;
    uyavsker_bond bonds[UYAVSKER_MOST_AXES];
} uyavsker_rounded;

/* The figure, +0 where it is refused. */
typedef struct {
    uyavsker_refusal refusal;
    double value;
} uyavsker_figure;

/* The shape of the chain that a separable start makes, or that a file holds. */
typedef struct {
    uyavsker_refusal refusal;
    uyavsker_shape shape;
} uyavsker_formed;

/* The rank that a pair keeps, and the passes made. */
typedef struct {
    uyavsker_refusal refusal;
    size_t rank;
    size_t passes;
} uyavsker_paired;

/* A number of a core, or +0 outside of it. */
typedef struct {
    bool inside;
    double value;
} uyavsker_seen;

/* A kept run but for its five slices: what it is made from; what is said of bond k; the figure. `dropped` of the first d - 1
 * bonds must be finite, else a replacement refuses the run with 6 at the bond's left core; behind them it may be anything,
 * and stays. The mode must be known, else a replacement refuses the run with 7 at 0. */
typedef struct {
    uyavsker_shape shape;
    uyavsker_axis axes[UYAVSKER_MOST_AXES];
    uyavsker_settings settings;
    uyavsker_bond bonds[UYAVSKER_MOST_AXES];
    double figure;
} uyavsker_run;

/* After a refusal: the run as it was given; a fresh one with blank bonds and the figure +0. */
typedef struct {
    uyavsker_refusal refusal;
    uyavsker_run run;
} uyavsker_ran;

/* ---- single numbers ---- */

double uyavsker_root(double x);
double uyavsker_floor(double x);
double uyavsker_magnitude(double x);

/* ---- a chain ---- */

/* The verdict on a shape: 1, 2, 3. */
uyavsker_refusal uyavsker_shape_check(uyavsker_shape shape);

/* Entry (il, im, ir) of core k. */
uyavsker_seen uyavsker_entry_of(const double *chain, size_t chain_len, uyavsker_shape shape, size_t k,
                                size_t il, size_t im, size_t ir);

/* The separable start: reads d and n of the shape, and the vectors; the chain has as many numbers. */
uyavsker_formed uyavsker_rank1_separable(uyavsker_shape shape, const double *vectors, size_t vectors_len,
                                         double *chain, size_t chain_len);

/* The figure: the inner product of a chain with its axes' weights. */
uyavsker_figure uyavsker_inner_separable(uyavsker_shape shape, const double *chain, size_t chain_len,
                                         const double *weights, size_t weights_len);

/* Rounds a chain, which ends packed at the front of its slice, the rest +0. */
uyavsker_rounded uyavsker_tt_round(uyavsker_shape shape, uyavsker_cutting cutting, double *chain, size_t chain_len,
                                   double *scratch, size_t scratch_len);

/* ---- steps; the first `count` axis records are read, and count is d ---- */

uyavsker_rounded uyavsker_step(uyavsker_shape shape, uyavsker_settings settings, uyavsker_axes axes, size_t count,
                               double *chain, size_t chain_len, double *scratch, size_t scratch_len);

/* Of each bond it answers rank, sweeps and settled of the last step, and the greatest `dropped` of all steps. */
uyavsker_rounded uyavsker_evolve(uyavsker_shape shape, uyavsker_course course, uyavsker_axes axes, size_t count,
                                 double *chain, size_t chain_len, double *scratch, size_t scratch_len);

/* ---- kept runs ----
 *
 * The slices of a run: the source chain, the weights, the stepped chain (as long as the source), the carries (right[k] times
 * right[k] numbers for each of the d - 1 bonds) and the sums (right[k] numbers per axis). A new core or axis writes anew
 * what is said of the bonds from its zone on; new weights write nothing of that. */

/* One step of the source, then its inner product with the weights. */
uyavsker_ran uyavsker_fresh_run(uyavsker_shape shape, uyavsker_axes axes, uyavsker_settings settings,
                                const double *source, size_t source_len, const double *weights, size_t weights_len,
                                double *chain, size_t chain_len, double *carries, size_t carries_len,
                                double *sums, size_t sums_len, double *scratch, size_t scratch_len);

/* The part is a core's numbers for its zone. */
uyavsker_ran uyavsker_replace_core(uyavsker_run run, size_t zone, double *source, size_t source_len,
                                   const double *weights, size_t weights_len, double *chain, size_t chain_len,
                                   double *carries, size_t carries_len, double *sums, size_t sums_len,
                                   const double *part, size_t part_len, double *scratch, size_t scratch_len);

/* The part is weights for the points of its zone. */
uyavsker_ran uyavsker_replace_weights(uyavsker_run run, size_t zone, const double *source, size_t source_len,
                                      double *weights, size_t weights_len, const double *chain, size_t chain_len,
                                      const double *carries, size_t carries_len, double *sums, size_t sums_len,
                                      const double *part, size_t part_len, double *scratch, size_t scratch_len);

uyavsker_ran uyavsker_replace_axis(uyavsker_run run, size_t zone, uyavsker_axis axis,
                                   const double *source, size_t source_len, const double *weights, size_t weights_len,
                                   double *chain, size_t chain_len, double *carries, size_t carries_len,
                                   double *sums, size_t sums_len, double *scratch, size_t scratch_len);

/* ---- a pair: two neighbouring cores contracted and split again ---- */

/* The outputs have room for left.left * left.n * 8 and 8 * right.n * right.right numbers. */
uyavsker_paired uyavsker_contract_and_split(uyavsker_sizes left, uyavsker_sizes right, double eps,
                                            const double *left_core, size_t left_core_len,
                                            const double *right_core, size_t right_core_len,
                                            double *left_out, size_t left_out_len,
                                            double *right_out, size_t right_out_len,
                                            double *scratch, size_t scratch_len);

/* ---- chain files ---- */

/* Reads a file into room for at least as many numbers as its chain has. */
uyavsker_formed uyavsker_read_chain(const uint8_t *bytes, size_t bytes_len, double *out, size_t out_len);

/* Writes the file, into exactly 8 + 12 * d bytes and 8 per number. */
uyavsker_refusal uyavsker_write_chain(uyavsker_shape shape, const double *chain, size_t chain_len,
                                      uint8_t *out, size_t out_len);

/* The text that `ttlist` prints of a file, at the front of UYAVSKER_TEXT bytes; answers its length. */
size_t uyavsker_text_of(const uint8_t *bytes, size_t bytes_len, uint8_t *text);

#ifdef __cplusplus
}
#endif

#endif
