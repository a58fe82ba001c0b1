/*
 * The calls in plain C, with __int128 for the products that 64 bits cannot
 * hold. Same checks, same order of refusals, same answers.
 */
#include "plain.h"

#include <string.h>

enum { RISING = 1, CONVEX, FALLING, CONCAVE };

typedef struct {
    uint32_t area;
    uint32_t value;
    int32_t slope;
} point;

/* A refusal of the curve calls; the desk readings give its number alone. */
static int64_t refused(int number, size_t place)
{
    return -((INT64_C(1) << 32) * number + (int64_t)place);
}

static int32_t desk_refused(int64_t refusal)
{
    return -1000000 - (int32_t)(-refusal >> 32);
}

static uint32_t load32(const uint8_t *p)
{
    return (uint32_t)p[0] | (uint32_t)p[1] << 8 | (uint32_t)p[2] << 16 |
           (uint32_t)p[3] << 24;
}

/*
 * On a little-endian machine. Of four stores of a byte gcc 12 makes stores of
 * words that it puts together from bytes, which takes twice the time.
 */
static inline void store32(uint8_t *p, uint32_t x)
{
    memcpy(p, &x, 4);
}

static inline point load_point(const uint8_t *record)
{
    point p = {load32(record), load32(record + 4),
               (int32_t)load32(record + 8)};
    return p;
}

/* ---- one point, one segment ---- */

/* The refusal at one point, or 0. The first point has no one before it. */
static inline int point_fault(point p, uint32_t before, int first)
{
    if (p.area > 20000 || (!first && p.area - before - 1 > 1999))
        return 3;
    if (p.value > 200000)
        return 4;
    if (p.slope < -10000 || p.slope > 10000)
        return 5;
    return 0;
}

/*
 * For points within the limits, where 32 bits hold every product. Falling and
 * concave are rising and convex with the signs changed.
 */
static inline int has_shape(point l, point r, uint32_t shape)
{
    int32_t sign = shape <= CONVEX ? 1 : -1;
    int32_t h = (int32_t)(r.area - l.area);
    int32_t rise = (int32_t)(r.value - l.value);
    if (shape == RISING || shape == FALLING) {
        int32_t d0 = sign * l.slope, d1 = sign * r.slope;
        if (sign * rise > 0)
            return (d0 | d1) >= 0;
        return rise == 0 && (d0 | d1) == 0;
    }
    int32_t b = 100 * rise - h * l.slope;
    int32_t a = h * r.slope - 100 * rise;
    return (sign * a > 0 && sign * b > 0) || (a == 0 && b == 0);
}

/* The greatest whole number not above n / d, for d above 0. */
static inline int64_t floor_div(int64_t n, int64_t d)
{
    int64_t q = n / d;
    return q - (n % d < 0);
}

/* k is a value and a half, rounded down: at a tie the even unit, else k. */
static inline int32_t to_even(int64_t k, int tie)
{
    return (int32_t)(k - (tie && (k & 1)));
}

static inline int32_t rising(point l, point r, int64_t t, int64_t u)
{
    int64_t h = t + u;
    int64_t rise = (int64_t)r.value - l.value;
    if (rise == 0)
        return (int32_t)l.value;
    int64_t g = 100 * rise, e0 = h * l.slope, e1 = h * r.slope;
    int64_t num = t * (g * t + e0 * u);
    int64_t den = g * (t * t + u * u) + (e0 + e1) * t * u;
    unsigned __int128 n = (unsigned __int128)num * (uint64_t)(2 * rise) +
                          (uint64_t)den;
    uint64_t q = (uint64_t)(n / (uint64_t)(2 * den));
    return to_even(l.value + (int64_t)q, (uint64_t)n == q * 2 * (uint64_t)den);
}

/* Rising, seen from the right end. */
static inline int32_t falling(point l, point r, int64_t t, int64_t u)
{
    point first = {0, r.value, -r.slope}, last = {0, l.value, -l.slope};
    return rising(first, last, u, t);
}

/* The left tangent plus (b t)^2 / w, rounded once. */
static inline int32_t convex(point l, point r, int64_t t, int64_t u)
{
    int64_t h = t + u;
    int64_t g = 100 * ((int64_t)r.value - l.value);
    int64_t a = h * r.slope - g, b = g - h * l.slope;
    int64_t scale = 100 * h;
    int64_t n = scale * (2 * (int64_t)l.value + 1) + 2 * h * l.slope * t;
    uint64_t w = (uint64_t)(a * u + b * t), rest = 0;
    if (w != 0) {
        uint64_t bt = (uint64_t)(b * t);
        uint64_t q = (uint64_t)((unsigned __int128)bt * (2 * bt) / w);
        n += (int64_t)q;
        rest = bt * (2 * bt) - q * w;
    }
    int64_t k = floor_div(n, 2 * scale);
    return to_even(k, rest == 0 && n == k * 2 * scale);
}

/* The chord plus au bt / (100 h (au + bt)), rounded once. */
static inline int32_t concave(point l, point r, int64_t t, int64_t u)
{
    int64_t h = t + u;
    int64_t g = 100 * ((int64_t)r.value - l.value);
    uint64_t au = (uint64_t)((g - h * r.slope) * u);
    uint64_t bt = (uint64_t)((h * l.slope - g) * t);
    uint64_t w = au + bt, rest = 0;
    uint64_t n = (uint64_t)(200 * (l.value * u + r.value * t) + 100 * h);
    if (w != 0) {
        uint64_t q = (uint64_t)((unsigned __int128)au * (2 * bt) / w);
        n += q;
        rest = au * (2 * bt) - q * w;
    }
    uint64_t k = n / (uint64_t)(200 * h);
    return to_even((int64_t)k, rest == 0 && n == k * (uint64_t)(200 * h));
}

static inline int32_t segment_factor(point l, point r, uint32_t shape,
                                     uint32_t area)
{
    int64_t t = (int64_t)area - l.area;
    int64_t u = (int64_t)r.area - area;
    if (shape == RISING)
        return rising(l, r, t, u);
    if (shape == CONVEX)
        return convex(l, r, t, u);
    if (shape == FALLING)
        return falling(l, r, t, u);
    return concave(l, r, t, u);
}

/* ---- points in a file ---- */

/* Rows 3 to 6 from point i on, all before it being good: a refusal, or 0. */
static inline int64_t scan(const uint8_t *records, size_t count,
                           uint32_t shape, size_t i)
{
    point l = load_point(records + 12 * i);
    int fault = point_fault(l, 0, 1);
    size_t shapeless = count;
    if (fault)
        return refused(fault, i);
    for (i++; i < count; i++) {
        point r = load_point(records + 12 * i);
        fault = point_fault(r, l.area, 0);
        if (fault)
            return refused(fault, i);
        if (!has_shape(l, r, shape) && shapeless == count)
            shapeless = i - 1;
        l = r;
    }
    return shapeless < count ? refused(6, shapeless) : 0;
}

/*
 * The last point up to which all points are good and all segments convex, the
 * first slope being 0 or more. Then they rise too: no slope is below the one
 * before it.
 */
static inline size_t convex_run(const uint8_t *records, size_t count)
{
    point l = load_point(records);
    size_t i = 1;
    if (point_fault(l, 0, 1) || l.slope < 0)
        return 0;
    for (; i < count; i++) {
        point r = load_point(records + 12 * i);
        if (point_fault(r, l.area, 0) || !has_shape(l, r, CONVEX))
            break;
        l = r;
    }
    return i - 1;
}

/*
 * Rows 3 to 6 under code 1: a refusal, or 0. The convex rule comes first: a
 * curve that is convex too is read by it. If that is asked for, one pass makes
 * the convex test as far as it goes and the rising test from there on. With 64
 * convex points a reading takes 0.7 of the time that it takes with a second
 * pass after the check, with two that are not convex 1.1 of it.
 */
static inline int64_t scan_rising(const uint8_t *records, size_t count,
                                  uint32_t *rule)
{
    size_t run = rule ? convex_run(records, count) : 0;
    if (run < count - 1)
        return scan(records, count, RISING, run);
    *rule = CONVEX;
    return 0;
}

/* Rows 9 and 10: a refusal, or 0. */
static inline int64_t head_fault(const uint8_t *bytes, size_t bytes_len)
{
    if (bytes_len < 7 || memcmp(bytes, "TRF\1\0", 5) != 0)
        return refused(9, 0);
    if (bytes_len != 7 + 12 * (size_t)bytes[6])
        return refused(10, 0);
    return 0;
}

/*
 * Rows 1 to 6 of a file with a good head: a refusal, or 0. A call that reads
 * lends the shape code for *rule, where it finds the code of the rule.
 */
static inline int64_t file_fault(const uint8_t *bytes, uint32_t *rule)
{
    size_t count = bytes[6];
    uint32_t shape = bytes[5];
    if (count < 2 || count > 64)
        return refused(1, 0);
    if (shape == RISING)
        return scan_rising(bytes + 7, count, rule);
    if (shape == CONVEX)
        return scan(bytes + 7, count, CONVEX, 0);
    if (shape == FALLING)
        return scan(bytes + 7, count, FALLING, 0);
    if (shape == CONCAVE)
        return scan(bytes + 7, count, CONCAVE, 0);
    return refused(2, 0);
}

/* The last segment whose left area is not above the area. */
static inline size_t find_record(const uint8_t *records, size_t count,
                                 uint32_t area)
{
    size_t low = 0, left = count - 1;
    while (left > 1) {
        size_t half = left / 2;
        low += load32(records + 12 * (low + half)) <= area ? half : 0;
        left -= half;
    }
    return low;
}

/* Either desk reading: the scratch gets the two points read between, or all. */
static inline int32_t desk(const uint8_t *bytes, size_t bytes_len,
                           uint32_t area, uint8_t *scratch,
                           size_t scratch_len, int two)
{
    int64_t fault = head_fault(bytes, bytes_len);
    if (fault)
        return desk_refused(fault);
    size_t count = bytes[6];
    if (two ? scratch_len < 24 : scratch_len < 12 * count)
        return desk_refused(refused(11, 0));
    const uint8_t *records = bytes + 7;
    uint32_t rule = bytes[5];
    fault = file_fault(bytes, &rule);
    if (fault)
        return desk_refused(fault);
    if (area < load32(records) || area > load32(records + 12 * (count - 1)))
        return desk_refused(refused(7, 0));
    const uint8_t *left = records + 12 * find_record(records, count, area);
    point l = load_point(left), r = load_point(left + 12);
    if (two) {
        memcpy(scratch, left, 24);
        return segment_factor(l, r, rule, area);
    }
    /* Not memcpy: gcc 12 puts rep movs for it, which is slow to start. */
    memmove(scratch, records, 12 * count);
    return segment_factor(l, r, rule, area);
}

int32_t plain_desk_reading(const uint8_t *bytes, size_t bytes_len,
                           uint32_t area, uint8_t *scratch,
                           size_t scratch_len)
{
    return desk(bytes, bytes_len, area, scratch, scratch_len, 0);
}

int32_t plain_desk_reading_two(const uint8_t *bytes, size_t bytes_len,
                               uint32_t area, uint8_t *scratch,
                               size_t scratch_len)
{
    return desk(bytes, bytes_len, area, scratch, scratch_len, 1);
}

int64_t plain_curve_open(const uint8_t *bytes, size_t bytes_len,
                         uint32_t *areas, size_t areas_len, uint32_t *values,
                         size_t values_len, int32_t *slopes,
                         size_t slopes_len)
{
    int64_t fault = head_fault(bytes, bytes_len);
    if (fault)
        return fault;
    size_t count = bytes[6];
    if (areas_len < count || values_len < count || slopes_len < count)
        return refused(11, 0);
    fault = file_fault(bytes, NULL);
    if (fault)
        return fault;
    for (size_t i = 0; i < count; i++) {
        point p = load_point(bytes + 7 + 12 * i);
        areas[i] = p.area;
        values[i] = p.value;
        slopes[i] = p.slope;
    }
    return 256 * bytes[5] + (int64_t)count;
}

/* ---- points in lists ---- */

typedef struct {
    const uint32_t *areas, *values;
    const int32_t *slopes;
    size_t count;
} lists;

static inline point point_at(lists c, size_t i)
{
    point p = {c.areas[i], c.values[i], c.slopes[i]};
    return p;
}

/* Rows 3 to 6 from point i on, all before it being good: a refusal, or 0. */
static inline int64_t scan_lists(lists c, uint32_t shape, size_t i)
{
    point l = point_at(c, i);
    int fault = point_fault(l, 0, 1);
    size_t shapeless = c.count;
    if (fault)
        return refused(fault, i);
    for (i++; i < c.count; i++) {
        point r = point_at(c, i);
        fault = point_fault(r, l.area, 0);
        if (fault)
            return refused(fault, i);
        if (!has_shape(l, r, shape) && shapeless == c.count)
            shapeless = i - 1;
        l = r;
    }
    return shapeless < c.count ? refused(6, shapeless) : 0;
}

/* As for files. */
static inline size_t convex_run_of_lists(lists c)
{
    point l = point_at(c, 0);
    size_t i = 1;
    if (point_fault(l, 0, 1) || l.slope < 0)
        return 0;
    for (; i < c.count; i++) {
        point r = point_at(c, i);
        if (point_fault(r, l.area, 0) || !has_shape(l, r, CONVEX))
            break;
        l = r;
    }
    return i - 1;
}

/* As for files. */
static inline int64_t scan_rising_lists(lists c, uint32_t *rule)
{
    size_t run = rule ? convex_run_of_lists(c) : 0;
    if (run < c.count - 1)
        return scan_lists(c, RISING, run);
    *rule = CONVEX;
    return 0;
}

/* Rows 1 to 6: a refusal, or 0; and the rule, as for files. */
static inline int64_t lists_fault(lists c, size_t values_len,
                                  size_t slopes_len, uint32_t shape,
                                  uint32_t *rule)
{
    if (values_len != c.count || slopes_len != c.count)
        return refused(1, 0);
    if (c.count < 2 || c.count > 64)
        return refused(1, 0);
    if (shape == RISING)
        return scan_rising_lists(c, rule);
    if (shape == CONVEX)
        return scan_lists(c, CONVEX, 0);
    if (shape == FALLING)
        return scan_lists(c, FALLING, 0);
    if (shape == CONCAVE)
        return scan_lists(c, CONCAVE, 0);
    return refused(2, 0);
}

static inline int outside(lists c, uint32_t area)
{
    return area < c.areas[0] || area > c.areas[c.count - 1];
}

/* The factor at an area that is not outside. */
static inline int32_t factor(lists c, uint32_t shape, uint32_t area)
{
    size_t low = 0, left = c.count - 1;
    while (left > 1) {
        size_t half = left / 2;
        low += c.areas[low + half] <= area ? half : 0;
        left -= half;
    }
    return segment_factor(point_at(c, low), point_at(c, low + 1), shape, area);
}

int64_t plain_curve_check(const uint32_t *areas, size_t areas_len,
                          const uint32_t *values, size_t values_len,
                          const int32_t *slopes, size_t slopes_len,
                          uint32_t shape)
{
    lists c = {areas, values, slopes, areas_len};
    int64_t fault = lists_fault(c, values_len, slopes_len, shape, NULL);
    return fault ? fault : (int64_t)areas_len - 1;
}

int64_t plain_curve_read(const uint32_t *areas, size_t areas_len,
                         const uint32_t *values, size_t values_len,
                         const int32_t *slopes, size_t slopes_len,
                         uint32_t shape, uint32_t area)
{
    lists c = {areas, values, slopes, areas_len};
    uint32_t rule = shape;
    int64_t fault = lists_fault(c, values_len, slopes_len, shape, &rule);
    if (fault)
        return fault;
    if (outside(c, area))
        return refused(7, 0);
    return factor(c, rule, area);
}

int64_t plain_curve_pair(const uint32_t *areas, size_t areas_len,
                         const uint32_t *values, size_t values_len,
                         const int32_t *slopes, size_t slopes_len,
                         uint32_t shape, uint32_t form, uint32_t plan,
                         int32_t *out, size_t out_len)
{
    lists c = {areas, values, slopes, areas_len};
    if (out_len < 3)
        return refused(11, 0);
    uint32_t rule = shape;
    int64_t fault = lists_fault(c, values_len, slopes_len, shape, &rule);
    if (fault)
        return fault;
    if (outside(c, form))
        return refused(7, 0);
    if (outside(c, plan))
        return refused(7, 1);
    out[0] = factor(c, rule, form);
    out[1] = factor(c, rule, plan);
    out[2] = out[1] - out[0];
    return 3;
}

/* Fills the entries from index i on whose areas are below end. */
static inline size_t fill(point l, point r, uint32_t shape, uint64_t end,
                          uint32_t start, uint32_t step, int32_t *out,
                          size_t i, size_t m)
{
    uint64_t area = start + (uint64_t)step * i;
    for (; i < m && area < end; i++, area += step)
        out[i] = segment_factor(l, r, shape, (uint32_t)area);
    return i;
}

/* The entries of a sheet whose areas are not outside. */
static inline void fill_sheet(lists c, uint32_t shape, uint32_t start,
                              uint32_t step, int32_t *out, size_t m)
{
    size_t i = 0;
    for (size_t k = 0; k + 1 < c.count && i < m; k++) {
        point l = point_at(c, k), r = point_at(c, k + 1);
        uint64_t end = k + 2 < c.count ? r.area : (uint64_t)r.area + 1;
        if (shape == RISING)
            i = fill(l, r, RISING, end, start, step, out, i, m);
        else if (shape == CONVEX)
            i = fill(l, r, CONVEX, end, start, step, out, i, m);
        else if (shape == FALLING)
            i = fill(l, r, FALLING, end, start, step, out, i, m);
        else
            i = fill(l, r, CONCAVE, end, start, step, out, i, m);
    }
}

int64_t plain_curve_sheet(const uint32_t *areas, size_t areas_len,
                          const uint32_t *values, size_t values_len,
                          const int32_t *slopes, size_t slopes_len,
                          uint32_t shape, uint32_t start, uint32_t step,
                          int32_t *out, size_t out_len)
{
    lists c = {areas, values, slopes, areas_len};
    uint32_t rule = shape;
    int64_t fault = lists_fault(c, values_len, slopes_len, shape, &rule);
    if (fault)
        return fault;
    if (step == 0 || out_len == 0 || out_len > 1024)
        return refused(8, 0);
    if (outside(c, start))
        return refused(7, 0);
    uint64_t last = start + (uint64_t)step * (out_len - 1);
    if (last > areas[areas_len - 1])
        return refused(7, (areas[areas_len - 1] - start) / step + 1);
    fill_sheet(c, rule, start, step, out, out_len);
    return (int64_t)out_len;
}

int64_t plain_curve_write(const uint32_t *areas, size_t areas_len,
                          const uint32_t *values, size_t values_len,
                          const int32_t *slopes, size_t slopes_len,
                          uint32_t shape, uint8_t *out, size_t out_len)
{
    lists c = {areas, values, slopes, areas_len};
    int64_t fault = lists_fault(c, values_len, slopes_len, shape, NULL);
    if (fault)
        return fault;
    size_t length = 7 + 12 * c.count;
    if (out_len < length)
        return refused(12, 0);
    memcpy(out, "TRF\1\0", 5);
    out[5] = (uint8_t)shape;
    out[6] = (uint8_t)c.count;
    for (size_t i = 0; i < c.count; i++) {
        uint8_t *record = out + 7 + 12 * i;
        point p = point_at(c, i);
        store32(record, p.area);
        store32(record + 4, p.value);
        store32(record + 8, (uint32_t)p.slope);
    }
    return (int64_t)length;
}

/* ---- slopes by the harmonic rule ---- */

typedef struct {
    uint64_t rise, gap;
} chord;

/* From the point at i to the next one, which is not lower. */
static inline chord chord_at(const uint32_t *areas, const uint32_t *values,
                             size_t i)
{
    chord c = {values[i + 1] - values[i], areas[i + 1] - areas[i]};
    return c;
}

/* Hundredths, rounded down, between two chords. */
static inline uint64_t inner_slope(chord l, chord r)
{
    if (l.rise == 0 || r.rise == 0)
        return 0;
    return 100 * l.rise * r.rise * (l.gap + r.gap) /
           (l.gap * r.gap * (l.rise + r.rise));
}

/* At the end of the first or the last chord; the other one is beside it. */
static inline uint64_t end_slope(chord own, chord other)
{
    if (own.rise == 0)
        return 0;
    if (other.rise == 0)
        return 200 * own.rise / own.gap;
    return 100 * own.rise * (own.rise + other.rise) * other.gap /
           (own.gap * (own.gap + other.gap) * other.rise);
}

/* Rows 3, 4 and 6: a refusal, or 0. */
static inline int64_t rising_fault(const uint32_t *areas,
                                   const uint32_t *values, size_t count)
{
    size_t fall = count;
    for (size_t i = 0; i < count; i++) {
        point p = {areas[i], values[i], 0};
        int fault = point_fault(p, i == 0 ? 0 : areas[i - 1], i == 0);
        if (fault)
            return refused(fault, i);
        if (i > 0 && values[i] < values[i - 1] && fall == count)
            fall = i - 1;
    }
    return fall < count ? refused(6, fall) : 0;
}

int64_t plain_curve_fill_slopes(const uint32_t *areas, size_t areas_len,
                                const uint32_t *values, size_t values_len,
                                int32_t *slopes, size_t slopes_len)
{
    size_t count = areas_len;
    int32_t filled[64];
    if (values_len != count || slopes_len != count)
        return refused(1, 0);
    if (count < 2 || count > 64)
        return refused(1, 0);
    int64_t fault = rising_fault(areas, values, count);
    if (fault)
        return fault;
    chord before = chord_at(areas, values, 0), after = before;
    for (size_t i = 0; i < count; i++) {
        uint64_t slope;
        if (i + 1 < count)
            after = chord_at(areas, values, i);
        if (count == 2)
            slope = 100 * after.rise / after.gap;
        else if (i == 0)
            slope = end_slope(after, chord_at(areas, values, 1));
        else if (i + 1 == count)
            slope = end_slope(before, chord_at(areas, values, i - 2));
        else
            slope = inner_slope(before, after);
        if (slope > 10000)
            return refused(5, i);
        filled[i] = (int32_t)slope;
        before = after;
    }
    memcpy(slopes, filled, count * sizeof slopes[0]);
    return (int64_t)count;
}

/* ---- binary64 triples ---- */

typedef struct {
    double area, value, slope;
} triple;

/*
 * On a little-endian machine. Figure by figure: of 24 bytes at once gcc 12
 * makes a copy in memory, from which it loads the figures.
 */
static inline double load_figure(const uint8_t *p)
{
    double x;
    memcpy(&x, p, 8);
    return x;
}

static inline triple load_triple(const uint8_t *p)
{
    triple t = {load_figure(p), load_figure(p + 8), load_figure(p + 16)};
    return t;
}

/* A finite whole number. From 2^52 on there are no others but infinities. */
static int is_whole(double x)
{
    if (x > -0x1p52 && x < 0x1p52)
        return (double)(int64_t)x == x;
    return x - x == 0;
}

/* For figures within the limits, which 32 bits hold. */
static inline point whole_point(triple t)
{
    point p = {(uint32_t)(int32_t)t.area, (uint32_t)(int32_t)t.value,
               (int32_t)t.slope};
    return p;
}

/* Whether each figure is whole and within its limits; then p is the point. */
static inline int taken(triple t, point *p)
{
    if (!(t.area >= 0 && t.area <= 20000 && t.value >= 0 &&
          t.value <= 200000 && t.slope >= -10000 && t.slope <= 10000))
        return 0;
    *p = whole_point(t);
    return (double)(int32_t)p->area == t.area &&
           (double)(int32_t)p->value == t.value && (double)p->slope == t.slope;
}

/*
 * The refusal at a triple that is not taken, or whose area is not by 1 to
 * 2,000 beyond the one before.
 */
static int triple_fault(triple t, uint32_t before, int first)
{
    if (!is_whole(t.area) || !is_whole(t.value) || !is_whole(t.slope))
        return 14;
    if (t.area < 0 || t.area > 20000)
        return 3;
    if (!first && (t.area <= before || t.area > before + 2000.0))
        return 3;
    if (t.value < 0 || t.value > 200000)
        return 4;
    return 5;
}

/* Rows 14 and 3 to 6: a refusal, or 0. */
static inline int64_t scan_triples(const uint8_t *bytes, size_t n,
                                   uint32_t shape)
{
    triple t = load_triple(bytes);
    point l, r;
    size_t shapeless = n;
    if (!taken(t, &l))
        return refused(triple_fault(t, 0, 1), 0);
    for (size_t i = 1; i < n; i++) {
        t = load_triple(bytes + 24 * i);
        if (!taken(t, &r) || r.area - l.area - 1 >= 2000)
            return refused(triple_fault(t, l.area, 0), i);
        if (!has_shape(l, r, shape) && shapeless == n)
            shapeless = i - 1;
        l = r;
    }
    return shapeless < n ? refused(6, shapeless) : 0;
}

/* Rows 1, 2, 14 and 3 to 6: a refusal, or 0. */
static inline int64_t triples_fault(const uint8_t *bytes, size_t n,
                                    uint32_t shape)
{
    if (n < 2 || n > 64)
        return refused(1, 0);
    if (shape == RISING)
        return scan_triples(bytes, n, RISING);
    if (shape == CONVEX)
        return scan_triples(bytes, n, CONVEX);
    if (shape == FALLING)
        return scan_triples(bytes, n, FALLING);
    if (shape == CONCAVE)
        return scan_triples(bytes, n, CONCAVE);
    return refused(2, 0);
}

/* Two passes: to keep the points until all are checked takes more time. */
int64_t plain_curve_import(const uint8_t *bytes, size_t bytes_len,
                           uint32_t shape, uint32_t *areas, size_t areas_len,
                           uint32_t *values, size_t values_len,
                           int32_t *slopes, size_t slopes_len)
{
    size_t n = bytes_len / 24;
    if (bytes_len != 24 * n)
        return refused(13, 0);
    if (areas_len < n || values_len < n || slopes_len < n)
        return refused(11, 0);
    int64_t fault = triples_fault(bytes, n, shape);
    if (fault)
        return fault;
    for (size_t i = 0; i < n; i++) {
        point whole = whole_point(load_triple(bytes + 24 * i));
        areas[i] = whole.area;
        values[i] = whole.value;
        slopes[i] = whole.slope;
    }
    return (int64_t)n;
}
