/* A chain of 16 zones whose rounding and step can be done by hand, and in which no two zones, and no two places of a record, are alike. */
#ifndef LADDER_H
#define LADDER_H

#include "uyavsker.h"

enum { ZONES = 16, LAST = ZONES - 1, NUMBERS = 5281, POINTS = 264, LAST_POINTS = 24, LAST_NUMBERS = 48, CARRIES = 410, SUMS = 73 };

/* The rank right of zone k in the source, and what a rounding with `eps` keeps of it. */
size_t source_rank(size_t k);
size_t kept_rank(size_t k);

/* The shape with these ranks, and with 9 + k points in zone k. */
uyavsker_shape ladder_shape(size_t (*rank)(size_t k));

/* The value that a rounding of the source drops at bond k, another one at each, and +0 where it keeps all. Its square is exact, and
 * so is the root of that. */
double dropped_value(size_t k);

/* Number (il, im, ir) of zone k. But in the last zone each column has one number in a row of its own, which is then its value:
 * 1, or what is dropped. Column 1 of every third zone also has 2^-50 beside the 1 of column 0: g*g is 2^-100, which is below
 * 1e-30, so in absolute mode no sweep rotates, and 2*g*g isn't, so all 50 are made. */
double source_entry(size_t k, size_t il, size_t im, size_t ir);

/* The same after one step and after two: zone 0 changes its sign, and the last zone is moved along its axis by one point. */
double stepped_entry(size_t k, size_t il, size_t im, size_t ir);
double evolved_entry(size_t k, size_t il, size_t im, size_t ir);

/* Entry (il, im) of the last zone, and what a shift by so many points makes of a last zone's: 0.5 of the entry itself and 0.25 of
 * each that stands so far away, around the axis or back from its ends. */
double last_entry(size_t il, size_t im);
double moved(double entry(size_t, size_t), size_t boundary, size_t il, size_t im, size_t by);

/* Whether a rounding of the ladder makes all 50 sweeps at bond k. */
bool sweeps_all(size_t k);

/* Settings with 1 + tau*c = -1 in absolute mode, and an axis record that moves zone k by so many points. */
extern const uyavsker_settings ladder_settings;
uyavsker_axis ladder_axis(size_t k, size_t boundary, double by);

/* The boundary of zone k: every third zone reflects, and so does the last. */
size_t ladder_boundary(size_t k);

/* Every zone by as many points as it has, which leaves its core, or twice as many where it reflects, which does too; the last by
 * one point. */
uyavsker_axes ladder_axes(void);

/* Weights that differ from their neighbours. */
double ladder_weight(size_t point);

/* Puts the cores of a shape where those of the shape `room` begin, and +0 behind each. */
void put_cores(double *out, const uyavsker_shape *shape, const uyavsker_shape *room, double (*entry)(size_t, size_t, size_t, size_t));

#endif
