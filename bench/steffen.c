/*
 * A sheet by GSL's Steffen interpolation, in doubles. It is another curve:
 * it has no use for the slopes, checks next to nothing and rounds nothing. It
 * is here as a yardstick of time alone.
 */
#include <gsl/gsl_interp.h>

#include "steffen.h"

int steffen_sheet(const double *areas, const double *values, size_t count,
                  double start, double step, double *out, size_t out_len)
{
    gsl_interp *curve = gsl_interp_alloc(gsl_interp_steffen, count);
    gsl_interp_accel *place = gsl_interp_accel_alloc();
    int good = curve != NULL && place != NULL &&
               gsl_interp_init(curve, areas, values, count) == 0;
    for (size_t i = 0; good && i < out_len; i++)
        out[i] = gsl_interp_eval(curve, areas, values,
                                 start + (double)i * step, place);
    gsl_interp_accel_free(place);
    gsl_interp_free(curve);
    return good;
}
