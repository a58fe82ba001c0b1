/* A sheet by GSL, where GSL is installed: see steffen.c. */
#ifndef STEFFEN_H
#define STEFFEN_H

#include <stddef.h>

/* GSL asks for so many points. */
#define STEFFEN_POINTS_MIN 3

/* Fills out with the curve at start + i * step. Returns 1 if it could. */
int steffen_sheet(const double *areas, const double *values, size_t count,
                  double start, double step, double *out, size_t out_len);

#endif
