#include "ladder.h"

#include <string.h>

size_t source_rank(size_t k)
{
    return k == LAST ? 1 : 2 + 3 * k % 7;
}

size_t kept_rank(size_t k)
{
    return k == LAST ? 1 : source_rank(k) - k % 2;
}

uyavsker_shape ladder_shape(size_t (*rank)(size_t))
{
    uyavsker_shape shape = {.d = ZONES};
    for (size_t k = 0; k < ZONES; k++) {
        shape.left[k] = k == 0 ? 1 : rank(k - 1);
        shape.n[k] = 9 + k;
        shape.right[k] = rank(k);
    }
    return shape;
}

bool sweeps_all(size_t k)
{
    return k % 3 == 1;
}

double dropped_value(size_t k)
{
    return kept_rank(k) < source_rank(k) ? (double)(k + 1) * 0x1p-14 : 0;
}

double last_entry(size_t il, size_t im)
{
    return 1 + 1000 * (double)il + (double)(im * im);
}

/* Where the shift finds point i of the last zone. */
static size_t point_found(size_t boundary, size_t i)
{
    size_t there = i % (2 * LAST_POINTS);
    if (boundary == UYAVSKER_REFLECTING && there >= LAST_POINTS)
        return 2 * LAST_POINTS - 1 - there;
    return there % LAST_POINTS;
}

double moved(double entry(size_t, size_t), size_t boundary, size_t il, size_t im, size_t by)
{
    size_t ahead = point_found(boundary, im + by), behind = point_found(boundary, im + 2 * LAST_POINTS - by);
    return 0.5 * entry(il, im) + 0.25 * entry(il, ahead) + 0.25 * entry(il, behind);
}

double source_entry(size_t k, size_t il, size_t im, size_t ir)
{
    size_t row = k == 0 ? 0 : ir % kept_rank(k - 1);
    if (k == LAST)
        return last_entry(il, im);
    if (sweeps_all(k) && il == 0 && im == 0 && ir == 1)
        return 0x1p-50;
    if (im != ir || il != row)
        return 0;
    return ir < kept_rank(k) ? 1 : dropped_value(k);
}

static double moved_once(size_t il, size_t im)
{
    return moved(last_entry, ladder_boundary(LAST), il, im, 1);
}

double stepped_entry(size_t k, size_t il, size_t im, size_t ir)
{
    double entry = source_entry(k, il, im, ir);
    if (k == LAST)
        return moved_once(il, im);
    return k == 0 ? -entry : entry;
}

double evolved_entry(size_t k, size_t il, size_t im, size_t ir)
{
    return k == LAST ? moved(moved_once, ladder_boundary(LAST), il, im, 1) : source_entry(k, il, im, ir);
}

const uyavsker_settings ladder_settings = {.tau = 4, .c = -0.5, .cutting = {.eps = 0x1p-5, .mode = UYAVSKER_ABSOLUTE}};

/* The points stand one apart, and 2*sqrt(4*a) + 4*b is `by`. */
uyavsker_axis ladder_axis(size_t k, size_t boundary, double by)
{
    double root = (double)(k + 1) / 8, xmin = 0.5 - 2 * (double)k;
    return (uyavsker_axis){.a = root * root, .b = by / 4 - root, .xmin = xmin, .xmax = xmin + 8 + (double)k, .boundary = boundary};
}

size_t ladder_boundary(size_t k)
{
    return k % 3 == 0 ? UYAVSKER_REFLECTING : UYAVSKER_PERIODIC;
}

uyavsker_axes ladder_axes(void)
{
    uyavsker_axes axes;
    for (size_t k = 0; k < ZONES; k++) {
        size_t boundary = ladder_boundary(k), back = boundary == UYAVSKER_REFLECTING ? 2 * (9 + k) : 9 + k;
        axes.axis[k] = ladder_axis(k, boundary, k == LAST ? 1 : (double)back);
    }
    return axes;
}

double ladder_weight(size_t point)
{
    return 1 + (double)(point % 5) / 4;
}

void put_cores(double *out, const uyavsker_shape *shape, const uyavsker_shape *room, double (*entry)(size_t, size_t, size_t, size_t))
{
    memset(out, 0, NUMBERS * sizeof *out);
    for (size_t k = 0; k < shape->d; k++) {
        double *next = out;
        for (size_t il = 0; il < shape->left[k]; il++)
            for (size_t im = 0; im < shape->n[k]; im++)
                for (size_t ir = 0; ir < shape->right[k]; ir++)
                    *next++ = entry(k, il, im, ir);
        out += room->left[k] * room->n[k] * room->right[k];
    }
}
