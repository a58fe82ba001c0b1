/*
 * desk.h: read one factor from a curve file. desk_reading wants a scratch of 12
 * bytes for each point, desk_reading_two one of 24 bytes for any file.
 *
 * Link with libfactor_curves. C99 or later, and C++. The other calls, and the
 * refusal numbers in words, are in factor_curves.h, which this includes.
 *
 *     #include <stdio.h>
 *     #include "desk.h"
 *
 *     uint8_t scratch[DESK_SCRATCH_ENOUGH];
 *     int32_t answer = desk_reading(file, file_length, 550,
 *                                   scratch, sizeof scratch);
 *     if (DESK_IS_REFUSED(answer))
 *         printf("refused: %s\n", desk_reason(DESK_REFUSAL(answer)));
 *     else
 *         printf("factor %.4f\n", answer / 10000.0);
 */
#ifndef DESK_H
#define DESK_H

#include "factor_curves.h"

#ifdef __cplusplus
extern "C" {
#endif

/* A curve file: a header, then the points. */
#define DESK_HEADER_BYTES 7 /* before the first point */
#define DESK_POINT_BYTES 12 /* for each point */
#define DESK_POINTS_MAX CURVE_POINTS_MAX /* points of an accepted curve */
#define DESK_COUNT_MAX CURVE_COUNT_MAX   /* points that a header can state */

/* The longest file of an accepted curve. */
#define DESK_FILE_MAX (DESK_HEADER_BYTES + DESK_POINT_BYTES * DESK_POINTS_MAX)
/* The scratch for any accepted curve. */
#define DESK_SCRATCH_MAX (DESK_POINT_BYTES * DESK_POINTS_MAX)
/* The scratch for any file at all: with this much, never refusal 11. */
#define DESK_SCRATCH_ENOUGH (DESK_POINT_BYTES * DESK_COUNT_MAX)
/* The scratch of desk_reading_two for any file at all: two points. */
#define DESK_SCRATCH_TWO 24

/*
 * The refusal numbers of factor_curves.h under a desk's names. If several
 * apply, the first in this order is given: 9, 10, 11, 1, 2, then 3 to 5 by
 * point, 6, 7. Numbers 8 and 12 to 14 are not used here.
 */
#define DESK_REFUSED_COUNT CURVE_REFUSED_COUNT
#define DESK_REFUSED_SHAPE CURVE_REFUSED_SHAPE
#define DESK_REFUSED_AREA CURVE_REFUSED_AREA
#define DESK_REFUSED_VALUE CURVE_REFUSED_VALUE
#define DESK_REFUSED_SLOPE CURVE_REFUSED_SLOPE
#define DESK_REFUSED_SEGMENT CURVE_REFUSED_SEGMENT
#define DESK_REFUSED_OUTSIDE CURVE_REFUSED_OUTSIDE
#define DESK_REFUSED_MARK CURVE_REFUSED_MARK
#define DESK_REFUSED_LENGTH CURVE_REFUSED_LENGTH
#define DESK_REFUSED_SCRATCH CURVE_REFUSED_ROOM

/* Whether an answer of a desk reading is a refusal, and if so its number. */
#define DESK_IS_REFUSED(answer) ((answer) < -1000000)
#define DESK_REFUSAL(answer) (-1000000 - (answer))

/* A refusal number in words. */
#define desk_reason(number) curve_refusal_words(number)

/*
 * The factor at an area.
 *
 *   bytes, bytes_len      a whole curve file; it is only read
 *   area                  in tenths of a square metre; any number may be asked
 *   scratch, scratch_len  memory lent for the call: 12 bytes for each point
 *                         of the file are needed
 *
 * What the caller owes, and nothing else:
 *   - each pointer is good for its length, scratch also for writing; where
 *     the length is 0 it may be null;
 *   - the two do not overlap; during the call nothing else writes the file,
 *     or reads or writes the scratch.
 * What the bytes hold is free.
 *
 * Returns the factor in ten-thousandths (10889 is 1.0889), from -200,000 to
 * 400,000; a convex curve may dip below zero, a concave one may pass 200,000.
 * It is rounded once, to the nearest ten-thousandth, an exact half to the even
 * one. Which curve a shape code gives stands in factor_curves.h. Or returns
 * -1,000,000 less the refusal number: use DESK_IS_REFUSED and DESK_REFUSAL.
 *
 * With a factor, the first 12 * count bytes of the scratch are the file's
 * point records, in file order; its other bytes keep what they held. With a
 * refusal the whole scratch does.
 *
 * Nothing is kept between calls and nothing is allocated, so threads may call
 * at the same time, each with a scratch of its own.
 */
int32_t desk_reading(const uint8_t *bytes, size_t bytes_len, uint32_t area,
                     uint8_t *scratch, size_t scratch_len);

/*
 * The same factor for a terminal with little memory to lend: the scratch needs
 * DESK_SCRATCH_TWO bytes, whatever the file's count. Fewer are refusal 11, at
 * its place in the order. Otherwise the answer is what desk_reading returns
 * with a scratch that is long enough. The caller owes the same.
 *
 * With a factor, the first 24 bytes of the scratch are the file's records of
 * the two points between which it was read, the left one first: those of the
 * last segment that begins at the area or before it. So an inner point's area
 * is read in the segment on its right, the last area in the last segment. The
 * other bytes keep what they held; with a refusal the whole scratch does.
 */
int32_t desk_reading_two(const uint8_t *bytes, size_t bytes_len, uint32_t area,
                         uint8_t *scratch, size_t scratch_len);

#ifdef __cplusplus
}
#endif

#endif
