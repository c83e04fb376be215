/* The layout that the archive's records have, field by field: a header that departs from it doesn't compile. */
#include "uyavsker.h"

#define SIZE(record, bytes) _Static_assert(sizeof(record) == (bytes), #record " has another size")
#define AT(record, field, byte) \
    _Static_assert(offsetof(record, field) == (byte), #record "." #field " stands elsewhere")

SIZE(uyavsker_refusal, 24);
AT(uyavsker_refusal, number, 0);
AT(uyavsker_refusal, place, 8);
AT(uyavsker_refusal, index, 16);

SIZE(uyavsker_shape, 392);
AT(uyavsker_shape, d, 0);
AT(uyavsker_shape, left, 8);
AT(uyavsker_shape, n, 136);
AT(uyavsker_shape, right, 264);

SIZE(uyavsker_axis, 40);
AT(uyavsker_axis, a, 0);
AT(uyavsker_axis, b, 8);
AT(uyavsker_axis, xmin, 16);
AT(uyavsker_axis, xmax, 24);
AT(uyavsker_axis, boundary, 32);

SIZE(uyavsker_axes, 640);

SIZE(uyavsker_cutting, 16);
AT(uyavsker_cutting, eps, 0);
AT(uyavsker_cutting, mode, 8);

SIZE(uyavsker_settings, 32);
AT(uyavsker_settings, tau, 0);
AT(uyavsker_settings, c, 8);
AT(uyavsker_settings, cutting, 16);

SIZE(uyavsker_course, 40);
AT(uyavsker_course, t_final, 0);
AT(uyavsker_course, steps, 8);
AT(uyavsker_course, c, 16);
AT(uyavsker_course, cutting, 24);

SIZE(uyavsker_sizes, 24);
AT(uyavsker_sizes, left, 0);
AT(uyavsker_sizes, n, 8);
AT(uyavsker_sizes, right, 16);

SIZE(uyavsker_bond, 32);
AT(uyavsker_bond, rank, 0);
AT(uyavsker_bond, sweeps, 8);
AT(uyavsker_bond, settled, 16);
AT(uyavsker_bond, dropped, 24);

SIZE(uyavsker_rounded, 928);
AT(uyavsker_rounded, refusal, 0);
AT(uyavsker_rounded, shape, 24);
AT(uyavsker_rounded, bonds, 416);

SIZE(uyavsker_figure, 32);
AT(uyavsker_figure, refusal, 0);
AT(uyavsker_figure, value, 24);

SIZE(uyavsker_formed, 416);
AT(uyavsker_formed, refusal, 0);
AT(uyavsker_formed, shape, 24);

SIZE(uyavsker_paired, 40);
AT(uyavsker_paired, refusal, 0);
AT(uyavsker_paired, rank, 24);
AT(uyavsker_paired, passes, 32);

SIZE(uyavsker_seen, 16);
AT(uyavsker_seen, inside, 0);
AT(uyavsker_seen, value, 8);

SIZE(uyavsker_run, 1584);
AT(uyavsker_run, shape, 0);
AT(uyavsker_run, axes, 392);
AT(uyavsker_run, settings, 1032);
AT(uyavsker_run, bonds, 1064);
AT(uyavsker_run, figure, 1576);

SIZE(uyavsker_ran, 1608);
AT(uyavsker_ran, refusal, 0);
AT(uyavsker_ran, run, 24);
