/*
 * factor_curves.h: price factors between a tariff's rated points.
 *
 * Link with libfactor_curves (cc ... $(pkg-config --cflags --libs
 * factor_curves)). C99 or later, and C++. The desk readings have a header of
 * their own, desk.h, and are in the same library.
 *
 *     #include <stdio.h>
 *     #include "factor_curves.h"
 *
 *     const uint32_t areas[] = {500, 600}, values[] = {10000, 14000};
 *     const int32_t slopes[] = {0, 10000};
 *     int64_t answer = curve_read(areas, 2, values, 2, slopes, 2,
 *                                 CURVE_CONVEX, 550);
 *     if (CURVE_IS_REFUSED(answer))
 *         printf("refused %d at %lu: %s\n", CURVE_REFUSAL(answer),
 *                (unsigned long)CURVE_PLACE(answer),
 *                curve_refusal_words(CURVE_REFUSAL(answer)));
 *     else
 *         printf("factor %.4f\n", (double)answer / 10000);
 */
#ifndef FACTOR_CURVES_H
#define FACTOR_CURVES_H

#include <stddef.h>
#include <stdint.h>

#ifdef __cplusplus
extern "C" {
#endif

#define FACTOR_CURVES_VERSION "0.8.0"

/*
 * A curve is three lists of one length, 2 to 64, and a shape code. Point i is
 *
 *   areas[i]   tenths of a square metre, 0 to 20,000, each larger than the
 *              one before it, by at most 2,000
 *   values[i]  the factor in units of one ten-thousandth, 0 to 200,000
 *   slopes[i]  hundredths of a unit for each tenth of a square metre,
 *              -10,000 to 10,000
 *
 * The shape code says what holds from each point to the next; their chord is
 * the straight line between them. On a rising curve a larger area never reads
 * a smaller factor, on a falling one never a larger. A convex curve bends up,
 * a concave one down.
 *
 * Each code gives a curve of its own, but lists that curve_check accepts under
 * CURVE_RISING and under CURVE_CONVEX give the convex curve under both, and
 * read alike. Where a single segment is not convex, CURVE_RISING gives the
 * rising curve, from the first point to the last.
 */
#define CURVE_RISING 1  /* the value rises and both slopes are 0 or more, or
                           the value stays and both slopes are 0 */
#define CURVE_CONVEX 2  /* the chord's slope is above the left slope and below
                           the right one, or equals both */
#define CURVE_FALLING 3 /* the value falls and both slopes are 0 or less, or
                           the value stays and both slopes are 0 */
#define CURVE_CONCAVE 4 /* the chord's slope is below the left slope and above
                           the right one, or equals both */

#define CURVE_POINTS_MAX 64    /* points of an accepted curve */
#define CURVE_ENTRIES_MAX 1024 /* entries of a sheet */
#define CURVE_FILE_MAX 775     /* bytes of an accepted curve's file */
#define CURVE_COUNT_MAX 255    /* points that a file's head can state */
#define CURVE_TRIPLE_BYTES 24  /* bytes of a point for curve_import */

/*
 * Refusal numbers, in the order in which a call tries them (14, 3, 4 and 5
 * together, point by point). The place counts from 0.
 */
#define CURVE_REFUSED_MARK 9     /* under 7 bytes, not TRF, or not version 1 */
#define CURVE_REFUSED_LENGTH 10  /* the length is not 7 + 12 * count */
#define CURVE_REFUSED_TRIPLES 13 /* the length is no multiple of 24 bytes */
#define CURVE_REFUSED_ROOM 11    /* a lent list, or the scratch, is too short */
#define CURVE_REFUSED_COUNT 1    /* lengths differ, or not 2 to 64 points */
#define CURVE_REFUSED_SHAPE 2    /* the shape code is outside 1 to 4 */
#define CURVE_REFUSED_FIGURE 14  /* a point has a figure that is no finite whole
                                    number; the place is the point */
#define CURVE_REFUSED_AREA 3     /* a point's area; the place is the point */
#define CURVE_REFUSED_VALUE 4    /* a point's value; the place is the point */
#define CURVE_REFUSED_SLOPE 5    /* a point's slope; the place is the point;
                                    curve_fill_slopes tries it after 6 */
#define CURVE_REFUSED_SEGMENT 6  /* no shape; the place is the left point */
#define CURVE_REFUSED_BUFFER 12  /* a file does not fit into the buffer */
#define CURVE_REFUSED_SHEET 8    /* step 0, no entries or more than 1,024 */
#define CURVE_REFUSED_OUTSIDE 7  /* an area outside the curve; the place is 0,
                                    curve_pair: 1 for the plan area,
                                    curve_sheet: the first entry outside */

/*
 * An answer is the result, or a refusal as -(2^32 * number + place). The two
 * never meet: no result is below -200,000.
 */
#define CURVE_IS_REFUSED(answer) ((answer) <= -INT64_C(4294967296))
#define CURVE_REFUSAL(answer) ((int)(-(answer) / INT64_C(4294967296)))
#define CURVE_PLACE(answer) ((uint32_t)(-(answer) % INT64_C(4294967296)))

/* A result of curve_open. */
#define CURVE_SHAPE(result) ((uint32_t)((result) / 256))
#define CURVE_COUNT(result) ((uint32_t)((result) % 256))

/* A refusal number in words, for people; never null. */
const char *curve_refusal_words(int number);

/*
 * What a caller of the eight calls owes, and nothing else:
 *   - a pointer is good for its length, which counts entries (bytes for a
 *     file or triples); where the length is 0 it may be null;
 *   - a list that a call writes (it is not const) overlaps no other one of
 *     the call, and nothing else reads or writes it during the call; lists
 *     that are only read may overlap, and nothing writes them meanwhile.
 * All numbers may be anything. A refusal leaves every list as it was.
 * Nothing is kept between calls and nothing is allocated, so threads may call
 * at the same time.
 */

/* The number of segments, 1 to 63, if the curve is accepted. */
int64_t curve_check(const uint32_t *areas, size_t areas_len,
                    const uint32_t *values, size_t values_len,
                    const int32_t *slopes, size_t slopes_len, uint32_t shape);

/*
 * The factor at an area, in units: -200,000 to 400,000. Only a convex curve
 * goes below 0, only a concave one above 200,000. The exact value is rounded
 * once, to the nearest unit, an exact half to the even one; so is every factor
 * of curve_pair and curve_sheet.
 */
int64_t curve_read(const uint32_t *areas, size_t areas_len,
                   const uint32_t *values, size_t values_len,
                   const int32_t *slopes, size_t slopes_len, uint32_t shape,
                   uint32_t area);

/*
 * 3, and in the first three entries of out the factor at the form area, that
 * at the plan area, and the plan factor less the form factor; later entries
 * keep what they held. An out shorter than 3 is refused 11 before all else.
 */
int64_t curve_pair(const uint32_t *areas, size_t areas_len,
                   const uint32_t *values, size_t values_len,
                   const int32_t *slopes, size_t slopes_len, uint32_t shape,
                   uint32_t form, uint32_t plan, int32_t *out, size_t out_len);

/*
 * The number of entries, out_len, 1 to 1,024; out[i] is then the factor at
 * the area start + i * step, a sum that never wraps.
 */
int64_t curve_sheet(const uint32_t *areas, size_t areas_len,
                    const uint32_t *values, size_t values_len,
                    const int32_t *slopes, size_t slopes_len, uint32_t shape,
                    uint32_t start, uint32_t step, int32_t *out,
                    size_t out_len);

/*
 * The curve of a curve file: 256 * shape + count, taken apart by CURVE_SHAPE
 * and CURVE_COUNT. The points are then in the first count entries of the
 * lists, which may be longer (CURVE_COUNT_MAX is enough for any file); later
 * entries keep what they held.
 */
int64_t curve_open(const uint8_t *bytes, size_t bytes_len, uint32_t *areas,
                   size_t areas_len, uint32_t *values, size_t values_len,
                   int32_t *slopes, size_t slopes_len);

/*
 * The length of the curve's file, 7 + 12 * count, which is then in the first
 * bytes of out; later bytes keep what they held. A shorter out is refused 12;
 * CURVE_FILE_MAX bytes are enough for any curve. The file opens as the same
 * curve, and no other file does.
 */
int64_t curve_write(const uint32_t *areas, size_t areas_len,
                    const uint32_t *values, size_t values_len,
                    const int32_t *slopes, size_t slopes_len, uint32_t shape,
                    uint8_t *out, size_t out_len);

/*
 * The number of points, 2 to 64, if these areas and values rise or stay level
 * from each point to the next; slopes then holds a slope for each point, by
 * the harmonic rule, rounded down. With these slopes the curve is accepted as
 * CURVE_RISING. What slopes held before is not looked at. A segment that falls
 * is refused 6, and then a slope above 10,000 is refused 5.
 */
int64_t curve_fill_slopes(const uint32_t *areas, size_t areas_len,
                          const uint32_t *values, size_t values_len,
                          int32_t *slopes, size_t slopes_len);

/*
 * The number of points, 2 to 64, of the triples that a statistics package
 * exports: area, value and slope of each point as binary64 numbers, 8 bytes
 * each, little-endian, and nothing before or after them. They are checked with
 * the shape code given, and are then in the first entries of the lists; later
 * entries keep what they held.
 *
 * A figure is taken if it is a whole number; minus zero is 0. Any other one, an
 * infinity or a not-a-number too, is refused 14. A whole number beyond its
 * limits is refused as everywhere, of whatever size it is, a negative area 3
 * and a negative value 4.
 *
 * A bytes_len that is no multiple of CURVE_TRIPLE_BYTES is refused 13. Then a
 * list with fewer entries than there are triples is refused 11. So lists of
 * CURVE_POINTS_MAX entries are enough for all that can be accepted; too many
 * points are refused 1 only if the lists have an entry for each, otherwise 11.
 */
int64_t curve_import(const uint8_t *bytes, size_t bytes_len, uint32_t shape,
                     uint32_t *areas, size_t areas_len, uint32_t *values,
                     size_t values_len, int32_t *slopes, size_t slopes_len);

#ifdef __cplusplus
}
#endif

#endif
