/*
 * Times the archive against plain.c on the same inputs in one run.
 *
 *     bench FOLDER
 *
 * FOLDER has the files that curves.py wrote. plain.c is here twice: compiled
 * for any x86-64 (plain_...) and for this machine (native_...). For each row:
 * 64 curves, the answers and buffers of the three compared, then batches of
 * them in turn. A ratio is the median over the repetitions of (archive time /
 * other time). Sheets are timed against GSL too, if steffen.c is linked.
 */
#define _POSIX_C_SOURCE 199309L
#include <stdio.h>
#include <stdlib.h>
#include <string.h>
#include <time.h>

#include "desk.h"
#include "factor_curves.h"
#include "steffen.h"

enum { CURVES = 64, CALLS = 4096, ENTRIES = CURVE_ENTRIES_MAX };
enum { REPETITIONS = 101 };
enum { ARCHIVE, PLAIN, NATIVE, VERSIONS, STEFFEN = VERSIONS, SIDES };

/* ---- the versions ---- */

typedef struct {
    __typeof__(desk_reading) *desk;
    __typeof__(desk_reading_two) *desk_two;
    __typeof__(curve_read) *read;
    __typeof__(curve_pair) *pair;
    __typeof__(curve_check) *check;
    __typeof__(curve_open) *open;
    __typeof__(curve_write) *write;
    __typeof__(curve_sheet) *sheet;
    __typeof__(curve_fill_slopes) *fill_slopes;
    __typeof__(curve_import) *import;
} version;

/* What is not linked has the address 0 and is not timed. */
#define WEAK __attribute__((weak))
#define DECLARE(name)                                                          \
    __typeof__(name) plain_##name WEAK, native_##name WEAK;
DECLARE(desk_reading)
DECLARE(desk_reading_two)
DECLARE(curve_read)
DECLARE(curve_pair)
DECLARE(curve_check)
DECLARE(curve_open)
DECLARE(curve_write)
DECLARE(curve_sheet)
DECLARE(curve_fill_slopes)
DECLARE(curve_import)
__typeof__(steffen_sheet) steffen_sheet WEAK;

#define ALL(prefix)                                                            \
    {prefix##desk_reading, prefix##desk_reading_two, prefix##curve_read,       \
     prefix##curve_pair,   prefix##curve_check,      prefix##curve_open,       \
     prefix##curve_write,  prefix##curve_sheet,                                \
     prefix##curve_fill_slopes, prefix##curve_import}
static const version versions[VERSIONS] = {ALL(), ALL(plain_), ALL(native_)};

/* ---- inputs ---- */

typedef struct {
    uint32_t shape;
    size_t count, file_len;
    uint32_t areas[CURVE_POINTS_MAX], values[CURVE_POINTS_MAX];
    int32_t slopes[CURVE_POINTS_MAX];
    double x[CURVE_POINTS_MAX], y[CURVE_POINTS_MAX];
    uint8_t file[CURVE_FILE_MAX];
    uint8_t triples[CURVE_TRIPLE_BYTES * CURVE_POINTS_MAX];
} curve;

static curve curves[CURVES];
static uint32_t call_areas[CALLS], more_areas[CALLS];

static void die(const char *why, const char *what)
{
    fprintf(stderr, "bench: %s%s\n", why, what);
    exit(1);
}

static void load(curve *c, const char *name)
{
    FILE *file = fopen(name, "rb");
    if (file == NULL)
        die("cannot read ", name);
    c->file_len = fread(c->file, 1, sizeof c->file, file);
    fclose(file);
    int64_t opened = curve_open(c->file, c->file_len, c->areas, CURVE_POINTS_MAX,
                                c->values, CURVE_POINTS_MAX, c->slopes,
                                CURVE_POINTS_MAX);
    if (CURVE_IS_REFUSED(opened))
        die("refused: ", name);
    c->shape = CURVE_SHAPE(opened);
    c->count = CURVE_COUNT(opened);
    for (size_t i = 0; i < c->count; i++) {
        c->x[i] = c->areas[i];
        c->y[i] = c->values[i];
        double triple[] = {c->x[i], c->y[i], c->slopes[i]};
        memcpy(c->triples + CURVE_TRIPLE_BYTES * i, triple, sizeof triple);
    }
}

/* An area of the curve, from a fixed seed. */
static uint32_t some_area(const curve *c)
{
    static uint64_t state = 20000;
    uint32_t first = c->areas[0], last = c->areas[c->count - 1];
    state = state * 6364136223846793005u + 1442695040888963407u;
    return first + (uint32_t)((state >> 33) % (last - first + 1));
}

static void load_all(const char *folder, const char *shape, int count,
                     const char *tariff)
{
    char name[4096];
    for (int i = 0; i < CURVES; i++) {
        snprintf(name, sizeof name, "%s/%s-%d-%s-%02d.trf", folder, shape,
                 count, tariff, i);
        load(&curves[i], name);
    }
    for (int i = 0; i < CALLS; i++) {
        call_areas[i] = some_area(&curves[i % CURVES]);
        more_areas[i] = some_area(&curves[i % CURVES]);
    }
}

/* ---- one call; i says which curve and area ---- */

typedef struct {
    uint8_t scratch[DESK_SCRATCH_MAX];
    uint32_t areas[CURVE_POINTS_MAX], values[CURVE_POINTS_MAX];
    int32_t slopes[CURVE_POINTS_MAX];
    uint8_t file[CURVE_FILE_MAX];
    int32_t sheet[ENTRIES];
} output;

typedef int64_t one_fn(const version *v, int i, output *to);

#define LISTS(c)                                                               \
    (c)->areas, (c)->count, (c)->values, (c)->count, (c)->slopes, (c)->count,  \
        (c)->shape

static inline int64_t one_desk(const version *v, int i, output *to)
{
    const curve *c = &curves[i % CURVES];
    return v->desk(c->file, c->file_len, call_areas[i], to->scratch,
                   DESK_SCRATCH_MAX);
}

static inline int64_t one_desk_two(const version *v, int i, output *to)
{
    const curve *c = &curves[i % CURVES];
    return v->desk_two(c->file, c->file_len, call_areas[i], to->scratch,
                       DESK_SCRATCH_TWO);
}

static inline int64_t one_read(const version *v, int i, output *to)
{
    (void)to;
    return v->read(LISTS(&curves[i % CURVES]), call_areas[i]);
}

static inline int64_t one_pair(const version *v, int i, output *to)
{
    return v->pair(LISTS(&curves[i % CURVES]), call_areas[i], more_areas[i],
                   to->sheet, 3);
}

static inline int64_t one_check(const version *v, int i, output *to)
{
    (void)to;
    return v->check(LISTS(&curves[i % CURVES]));
}

static inline int64_t one_open(const version *v, int i, output *to)
{
    const curve *c = &curves[i % CURVES];
    return v->open(c->file, c->file_len, to->areas, CURVE_POINTS_MAX,
                   to->values, CURVE_POINTS_MAX, to->slopes, CURVE_POINTS_MAX);
}

static inline int64_t one_write(const version *v, int i, output *to)
{
    return v->write(LISTS(&curves[i % CURVES]), to->file, CURVE_FILE_MAX);
}

/* The points alone; only those of rising curves have slopes to fill. */
static inline int64_t one_fill_slopes(const version *v, int i, output *to)
{
    const curve *c = &curves[i % CURVES];
    return v->fill_slopes(c->areas, c->count, c->values, c->count, to->slopes,
                          c->count);
}

static inline int64_t one_import(const version *v, int i, output *to)
{
    const curve *c = &curves[i % CURVES];
    return v->import(c->triples, CURVE_TRIPLE_BYTES * c->count, c->shape,
                     to->areas, CURVE_POINTS_MAX, to->values, CURVE_POINTS_MAX,
                     to->slopes, CURVE_POINTS_MAX);
}

/* From the first area on, as far as whole steps go. */
static uint32_t step_of(const curve *c)
{
    return (c->areas[c->count - 1] - c->areas[0]) / (ENTRIES - 1);
}

static inline int64_t one_sheet(const version *v, int i, output *to)
{
    const curve *c = &curves[i % CURVES];
    return v->sheet(LISTS(c), c->areas[0], step_of(c), to->sheet, ENTRIES);
}

static double steffen_out[ENTRIES];

static inline int64_t one_steffen(const version *v, int i, output *to)
{
    const curve *c = &curves[i % CURVES];
    (void)v;
    (void)to;
    if (!steffen_sheet(c->x, c->y, c->count, c->x[0], step_of(c), steffen_out,
                       ENTRIES) ||
        steffen_out[0] != c->y[0])
        die("GSL refuses a curve", "");
    return (int64_t)steffen_out[ENTRIES - 1];
}

/* ---- batches ---- */

static output written[2];
static volatile int64_t sink;

static double now(void)
{
    struct timespec t;
    clock_gettime(CLOCK_MONOTONIC, &t);
    return (double)t.tv_sec * 1e9 + (double)t.tv_nsec;
}

/* Nanoseconds for one call. */
static inline double timed(one_fn *one, const version *v, int calls, int loops)
{
    int64_t sum = 0;
    double start = now();
    for (int loop = 0; loop < loops; loop++)
        for (int i = 0; i < calls; i++)
            sum ^= one(v, i, &written[0]);
    sink = sum;
    return (now() - start) / loops / calls;
}

typedef double batch_fn(const version *v, int loops);

#define BATCH(name)                                                            \
    static double name##_batch(const version *v, int loops)                    \
    {                                                                          \
        return timed(one_##name, v, CALLS, loops);                             \
    }
BATCH(desk)
BATCH(desk_two)
BATCH(read)
BATCH(pair)
BATCH(check)
BATCH(open)
BATCH(write)
BATCH(fill_slopes)
BATCH(import)

/* Nanoseconds for one entry, which do not depend much on the points. */
static double sheet_batch(const version *v, int loops)
{
    (void)loops;
    return timed(one_sheet, v, CURVES, 2) / ENTRIES;
}

static double steffen_batch(void)
{
    return timed(one_steffen, NULL, CURVES, 2) / ENTRIES;
}

/* ---- the calls ---- */

typedef struct {
    const char *name;
    int present, calls;
    int shapes, tariffs; /* how many of them, from the first on */
    one_fn *one;
    batch_fn *batch;
    double least[SIDES], most[SIDES]; /* ratios */
} call;

/* The three agree on every input, and refuse none. */
static void compare(const call *c)
{
    for (int i = 0; i < c->calls; i++) {
        memset(&written[0], 0x5A, sizeof written[0]);
        int64_t wanted = c->one(&versions[ARCHIVE], i, &written[0]);
        if (wanted < -200000)
            die("refused: ", c->name);
        for (int k = PLAIN; k < VERSIONS; k++) {
            memset(&written[1], 0x5A, sizeof written[1]);
            if (c->one(&versions[k], i, &written[1]) != wanted)
                die("the answers differ: ", c->name);
            if (memcmp(&written[0], &written[1], sizeof written[0]) != 0)
                die("the buffers differ: ", c->name);
        }
    }
}

/* ---- measuring ---- */

typedef struct {
    int sides;
    double ns[SIDES], ratio[SIDES];
} timing;

static int by_size(const void *a, const void *b)
{
    double x = *(const double *)a, y = *(const double *)b;
    return (x > y) - (x < y);
}

static double median(double *x)
{
    qsort(x, REPETITIONS, sizeof *x, by_size);
    return x[REPETITIONS / 2];
}

/* Which goes first changes with each repetition. */
static timing measure(const call *c, int sides, int loops)
{
    static double ns[SIDES][REPETITIONS], ratio[SIDES][REPETITIONS];
    timing t = {sides, {0}, {0}};
    for (int r = 0; r < REPETITIONS; r++) {
        for (int turn = 0; turn < sides; turn++) {
            int k = (r + turn) % sides;
            ns[k][r] = k == STEFFEN ? steffen_batch()
                                    : c->batch(&versions[k], loops);
        }
        for (int k = 0; k < sides; k++)
            ratio[k][r] = ns[ARCHIVE][r] / ns[k][r];
    }
    for (int k = 0; k < sides; k++) {
        t.ns[k] = median(ns[k]);
        t.ratio[k] = median(ratio[k]);
    }
    return t;
}

static void widen(call *c, const timing *t)
{
    for (int k = PLAIN; k < t->sides; k++) {
        if (c->most[k] == 0 || t->ratio[k] < c->least[k])
            c->least[k] = t->ratio[k];
        if (t->ratio[k] > c->most[k])
            c->most[k] = t->ratio[k];
    }
}

/* ---- the table ---- */

static void print_head(void)
{
    printf("| %-16s | points | %-13s | tariff  | archive |   plain | ratio "
           "|  native | ratio |     GSL | ratio |\n"
           "|------------------|--------|---------------|---------|---------|"
           "---------|-------|---------|-------|---------|-------|\n",
           "call", "shape");
}

static void print_row(const char *name, const char *shape, int count,
                      const char *tariff, const timing *t)
{
    printf("| %-16s | %6d | %-13s | %-7s | %7.2f |", name, count, shape,
           tariff, t->ns[ARCHIVE]);
    for (int k = PLAIN; k < SIDES; k++)
        if (k < t->sides)
            printf(" %7.2f | %5.2f |", t->ns[k], t->ratio[k]);
        else
            printf(" %7s | %5s |", "", "");
    putchar('\n');
    fflush(stdout);
}

static void print_range(const call *c)
{
    static const char *const others[] = {"archive", "plain", "native", "GSL"};
    printf("%s:", c->name);
    if (!c->present)
        printf(" SKIPPED, not in plain.c");
    for (int k = PLAIN; k < SIDES; k++)
        if (c->most[k] > 0)
            printf("%s %.2f to %.2f of %s", k > PLAIN ? "," : "", c->least[k],
                   c->most[k], others[k]);
    putchar('\n');
}

static void rows(call *c, const char *folder)
{
    static const char *const shapes[] = {"rising",  "convex",
                                         "falling", "concave",
                                         "rising-convex", "rising-late"};
    static const char *const tariffs[] = {"typical", "extreme"};
    static const int counts[] = {2, 8, 64}, loops[] = {6, 3, 1};
    for (int n = 0; n < 3; n++)
        for (int s = 0; s < c->shapes; s++)
            for (int k = 0; k < c->tariffs; k++) {
                load_all(folder, shapes[s], counts[n], tariffs[k]);
                compare(c);
                int gsl = c->one == one_sheet && steffen_sheet != NULL &&
                          counts[n] >= STEFFEN_POINTS_MIN;
                timing t = measure(c, VERSIONS + gsl, loops[n]);
                print_row(c->name, shapes[s], counts[n], tariffs[k], &t);
                widen(c, &t);
            }
}

#define CALL(title, function, name, calls, shapes, tariffs)                   \
    {title, plain_##function && native_##function, calls, shapes, tariffs,    \
     one_##name, name##_batch, {0}, {0}}

int main(int argc, char **argv)
{
    call calls[] = {
        CALL("desk reading", desk_reading, desk, CALLS, 6, 2),
        CALL("desk reading two", desk_reading_two, desk_two, CALLS, 6, 2),
        CALL("sheet entry", curve_sheet, sheet, CURVES, 6, 2),
        CALL("read", curve_read, read, CALLS, 6, 2),
        CALL("pair", curve_pair, pair, CALLS, 6, 1),
        CALL("check", curve_check, check, CALLS, 4, 1),
        CALL("open", curve_open, open, CALLS, 4, 1),
        CALL("write", curve_write, write, CALLS, 4, 1),
        CALL("fill slopes", curve_fill_slopes, fill_slopes, CALLS, 1, 1),
        CALL("import", curve_import, import, CALLS, 4, 1),
    };
    size_t count = sizeof calls / sizeof *calls;
    if (argc != 2)
        die("usage: bench FOLDER", "");
    print_head();
    for (size_t k = 0; k < count; k++)
        if (calls[k].present)
            rows(&calls[k], argv[1]);
    printf("nanoseconds; ratio: archive / other, median of %d\n", REPETITIONS);
    printf("code 1: the convex rule reads rising-convex; the rising rule reads "
           "rising,\nwhich fails the convex test at once, and rising-late, "
           "which fails it at the end\n");
    for (size_t k = 0; k < count; k++)
        print_range(&calls[k]);
    return 0;
}
