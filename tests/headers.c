/*
 * What the headers define: sizes, numbers, answers taken apart, words, calls.
 * Good C99 and C++.
 */
#include <stdio.h>
#include <string.h>

#include "desk.h"
#include "factor_curves.h"

static int tests, failures;

static void expect(const char *name, int good)
{
    tests++;
    if (good)
        return;
    failures++;
    printf("DIFFERENCE: %s\n", name);
}

/* Document 01: the units, the sheet, the curve file; document 02: shapes. */
static void sizes(void)
{
    expect("points", CURVE_POINTS_MAX == 64 && DESK_POINTS_MAX == 64);
    expect("entries", CURVE_ENTRIES_MAX == 1024);
    expect("count", CURVE_COUNT_MAX == 255 && DESK_COUNT_MAX == 255);
    expect("shapes", CURVE_RISING == 1 && CURVE_CONVEX == 2);
    expect("mirrored", CURVE_FALLING == 3 && CURVE_CONCAVE == 4);
    expect("file", CURVE_FILE_MAX == 7 + 12 * 64 &&
                       DESK_FILE_MAX == 7 + 12 * 64);
    expect("scratch", DESK_SCRATCH_MAX == 12 * 64);
    expect("any scratch", DESK_SCRATCH_ENOUGH == 12 * 255);
    expect("scratch of two", DESK_SCRATCH_TWO == 24);
    expect("triple", CURVE_TRIPLE_BYTES == 24);
}

/*
 * Document 01, Refusals and their places; document 02, items 1 and 7: numbers
 * 12 to 14.
 */
static void numbers(void)
{
    static const int curve[] = {
        CURVE_REFUSED_COUNT, CURVE_REFUSED_SHAPE, CURVE_REFUSED_AREA,
        CURVE_REFUSED_VALUE, CURVE_REFUSED_SLOPE, CURVE_REFUSED_SEGMENT,
        CURVE_REFUSED_OUTSIDE, CURVE_REFUSED_SHEET, CURVE_REFUSED_MARK,
        CURVE_REFUSED_LENGTH, CURVE_REFUSED_ROOM, CURVE_REFUSED_BUFFER,
        CURVE_REFUSED_TRIPLES, CURVE_REFUSED_FIGURE};
    static const int desk[] = {
        DESK_REFUSED_COUNT, DESK_REFUSED_SHAPE, DESK_REFUSED_AREA,
        DESK_REFUSED_VALUE, DESK_REFUSED_SLOPE, DESK_REFUSED_SEGMENT,
        DESK_REFUSED_OUTSIDE, 8, DESK_REFUSED_MARK, DESK_REFUSED_LENGTH,
        DESK_REFUSED_SCRATCH};
    for (int i = 0; i < 14; i++)
        expect("a refusal's number",
               curve[i] == i + 1 && (i >= 11 || desk[i] == i + 1));
}

static void answers(void)
{
    for (int number = 1; number <= 14; number++) {
        const uint32_t places[] = {0, 1, 63, 1023, UINT32_MAX};
        for (int i = 0; i < 5; i++) {
            int64_t answer = -((int64_t)number * 4294967296 + places[i]);
            expect("a refusal", CURVE_IS_REFUSED(answer));
            expect("its number", CURVE_REFUSAL(answer) == number);
            expect("its place", CURVE_PLACE(answer) == places[i]);
        }
        expect("a desk's", DESK_IS_REFUSED(-1000000 - number) &&
                               DESK_REFUSAL(-1000000 - number) == number);
    }
    expect("a result", !CURVE_IS_REFUSED((int64_t)-200000) &&
                           !CURVE_IS_REFUSED((int64_t)0) &&
                           !CURVE_IS_REFUSED((int64_t)400000) &&
                           !DESK_IS_REFUSED(-200000) &&
                           !DESK_IS_REFUSED(400000));
    for (int shape = 1; shape <= 4; shape++) {
        int64_t opened = 256 * shape + 64;
        expect("a result of curve_open",
               CURVE_SHAPE(opened) == (uint32_t)shape &&
                   CURVE_COUNT(opened) == 64);
    }
}

/* Each number has its own words, and no other number has them. */
static void words(void)
{
    const char *unknown = curve_refusal_words(0);
    for (int n = 1; n <= 14; n++) {
        expect("words", strlen(curve_refusal_words(n)) > 10);
        expect("known", strcmp(curve_refusal_words(n), unknown) != 0);
        expect("a desk's words", n == 8 || n >= 12 ||
                                     (strcmp(desk_reason(n), unknown) &&
                                      strlen(desk_reason(n)) > 10));
        for (int m = 1; m < n; m++)
            expect("its own words", strcmp(curve_refusal_words(n),
                                           curve_refusal_words(m)) != 0);
    }
    const int others[] = {-1, 15, 256 + 1, 2147483647, -2147483647 - 1};
    for (int i = 0; i < 5; i++)
        expect("unknown", strcmp(curve_refusal_words(others[i]), unknown) == 0);
}

#define THREE_LISTS                                                            \
    const uint32_t *, size_t, const uint32_t *, size_t, const int32_t *, size_t

/* What the calls take and give; document 01's K3 by each of them. */
static void calls(void)
{
    int64_t (*check)(THREE_LISTS, uint32_t) = curve_check;
    int64_t (*read)(THREE_LISTS, uint32_t, uint32_t) = curve_read;
    int64_t (*pair)(THREE_LISTS, uint32_t, uint32_t, uint32_t, int32_t *,
                    size_t) = curve_pair;
    int64_t (*sheet)(THREE_LISTS, uint32_t, uint32_t, uint32_t, int32_t *,
                     size_t) = curve_sheet;
    int64_t (*write)(THREE_LISTS, uint32_t, uint8_t *, size_t) = curve_write;
    int64_t (*open)(const uint8_t *, size_t, uint32_t *, size_t, uint32_t *,
                    size_t, int32_t *, size_t) = curve_open;
    int64_t (*fill)(const uint32_t *, size_t, const uint32_t *, size_t,
                    int32_t *, size_t) = curve_fill_slopes;
    int64_t (*take)(const uint8_t *, size_t, uint32_t, uint32_t *, size_t,
                    uint32_t *, size_t, int32_t *, size_t) = curve_import;
    int32_t (*desk[])(const uint8_t *, size_t, uint32_t, uint8_t *, size_t) = {
        desk_reading, desk_reading_two};
    uint32_t a[] = {500, 600}, v[] = {10000, 14000};
    int32_t s[] = {0, 10000}, out[3];
    const double triples[] = {500, 10000, -0.0, 600, 14000, 10000};
    uint8_t file[CURVE_FILE_MAX], scratch[DESK_SCRATCH_MAX];
    expect("check", check(a, 2, v, 2, s, 2, CURVE_CONVEX) == 1);
    expect("read", read(a, 2, v, 2, s, 2, CURVE_CONVEX, 550) == 10800);
    expect("pair", pair(a, 2, v, 2, s, 2, CURVE_CONVEX, 550, 550, out, 3) == 3);
    expect("sheet", sheet(a, 2, v, 2, s, 2, CURVE_CONVEX, 550, 1, out, 3) == 3);
    expect("write", write(a, 2, v, 2, s, 2, CURVE_CONVEX, file, 775) == 31);
    expect("open", open(file, 31, a, 2, v, 2, s, 2) == 256 * CURVE_CONVEX + 2);
    for (int i = 0; i < 2; i++)
        expect("desk", desk[i](file, 31, 550, scratch, 24) == 10800);
    expect("fill", fill(a, 2, v, 2, s, 2) == 2);
    expect("filled", s[0] == 4000 && s[1] == 4000 &&
                         check(a, 2, v, 2, s, 2, CURVE_RISING) == 1);
    a[0] = v[0] = v[1] = 7;
    expect("import", take((const uint8_t *)triples, 2 * CURVE_TRIPLE_BYTES,
                          CURVE_CONVEX, a, 2, v, 2, s, 2) == 2);
    expect("imported", a[0] == 500 && v[0] == 10000 && s[0] == 0 &&
                           a[1] == 600 && v[1] == 14000 && s[1] == 10000);
}

/* Document 02, item 7: the numbers of curve_import's own, with their places. */
static void triples(void)
{
    double t[] = {0, 5, 0, 1, 5, 0.5};
    uint32_t a[2], v[2];
    int32_t s[2];
    const uint8_t *bytes = (const uint8_t *)t;
    int64_t answer = curve_import(bytes, 47, 1, a, 2, v, 2, s, 2);
    expect("47 bytes", CURVE_REFUSAL(answer) == CURVE_REFUSED_TRIPLES &&
                           CURVE_PLACE(answer) == 0);
    answer = curve_import(bytes, 48, 1, a, 2, v, 2, s, 2);
    expect("half a hundredth", CURVE_REFUSAL(answer) == CURVE_REFUSED_FIGURE &&
                                   CURVE_PLACE(answer) == 1);
    t[5] = 1e300;
    answer = curve_import(bytes, 48, 1, a, 2, v, 2, s, 2);
    expect("a large slope", CURVE_REFUSAL(answer) == CURVE_REFUSED_SLOPE &&
                                CURVE_PLACE(answer) == 1);
}

/* Document 02, item 6: 1/2, 3/2 and 5/2 go to the even unit. */
static void halves(void)
{
    const uint32_t a[] = {0, 6}, v[] = {0, 3};
    const int32_t s[] = {50, 50};
    uint8_t file[CURVE_FILE_MAX], scratch[DESK_SCRATCH_MAX];
    int32_t out[3];
    int64_t answer = curve_sheet(a, 2, v, 2, s, 2, CURVE_CONVEX, 1, 2, out, 3);
    expect("halves", answer == 3 && out[0] == 0 && out[1] == 2 && out[2] == 2);
    answer = curve_pair(a, 2, v, 2, s, 2, CURVE_RISING, 1, 3, out, 3);
    expect("of a pair", answer == 3 && out[0] == 0 && out[1] == 2);
    answer = curve_write(a, 2, v, 2, s, 2, CURVE_CONCAVE, file, 31);
    expect("by the desk",
           answer == 31 && desk_reading(file, 31, 1, scratch, 24) == 0 &&
               desk_reading_two(file, 31, 3, scratch, 24) == 2);
}

/*
 * Document 02, item 8: K1 is convex too, and turned round it is not. The code
 * that is filed stays.
 */
static void at_once(void)
{
    const uint32_t a[] = {500, 600}, v[] = {10000, 14000};
    const int32_t s[][2] = {{0, 10000}, {10000, 0}};
    static const int32_t at_550[] = {10800, 13111};
    uint8_t file[CURVE_FILE_MAX], scratch[DESK_SCRATCH_MAX];
    uint32_t areas[2], values[2];
    int32_t slopes[2], out[3];
    for (int i = 0; i < 2; i++) {
        expect("read", curve_read(a, 2, v, 2, s[i], 2, CURVE_RISING, 550) ==
                           at_550[i]);
        int64_t answer = curve_pair(a, 2, v, 2, s[i], 2, CURVE_RISING, 500, 550,
                                    out, 3);
        expect("of a pair", answer == 3 && out[1] == at_550[i]);
        answer = curve_sheet(a, 2, v, 2, s[i], 2, CURVE_RISING, 500, 50, out,
                             3);
        expect("of a sheet", answer == 3 && out[1] == at_550[i]);
        answer = curve_write(a, 2, v, 2, s[i], 2, CURVE_RISING, file, 31);
        expect("filed", answer == 31 && file[5] == CURVE_RISING);
        expect("by the desk",
               desk_reading(file, 31, 550, scratch, 24) == at_550[i] &&
                   desk_reading_two(file, 31, 550, scratch, 24) == at_550[i]);
        answer = curve_open(file, 31, areas, 2, values, 2, slopes, 2);
        expect("opened", CURVE_SHAPE(answer) == CURVE_RISING);
    }
}

/* Document 02, item 4: a half on a falling curve; a factor past 200,000. */
static void mirrored(void)
{
    const uint32_t a[] = {0, 2}, v[] = {1, 0};
    const int32_t s[] = {-50, -50};
    const uint32_t wide[] = {0, 2000}, level[] = {200000, 200000};
    const int32_t bent[] = {10000, -10000};
    uint8_t file[CURVE_FILE_MAX], scratch[DESK_SCRATCH_MAX];
    int64_t answer = curve_check(a, 2, v, 2, s, 2, 5);
    expect("code 5", CURVE_REFUSAL(answer) == CURVE_REFUSED_SHAPE);
    expect("falling", curve_read(a, 2, v, 2, s, 2, CURVE_FALLING, 1) == 0);
    answer = curve_read(wide, 2, level, 2, bent, 2, CURVE_CONCAVE, 1000);
    expect("concave", answer == 250000);
    answer = curve_write(wide, 2, level, 2, bent, 2, CURVE_CONCAVE, file, 31);
    expect("concave, by the desk",
           answer == 31 && desk_reading(file, 31, 1000, scratch, 24) == 250000);
    expect("concave, by the second desk reading",
           desk_reading_two(file, 31, 1000, scratch, 24) == 250000);
}

int main(void)
{
    sizes();
    numbers();
    answers();
    words();
    calls();
    halves();
    at_once();
    mirrored();
    triples();
    printf("%d tests, %d failures\n", tests, failures);
    return failures > 0 || tests == 0;
}
