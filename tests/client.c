/*
 * Compares the calls with expected answers and expected lists.
 *
 *     client LEAST [heap] [some] [first] < cases
 *
 * The stream is described in cases.py. Fails on any difference, on a stream
 * that ends early, with fewer than LEAST cases, or with fewer than a
 * thirtieth of that for a call, or if a call never gave a result or one of
 * the refusal numbers that it can give. Each case is run with its lists at
 * the start and at the end of pages, against pages that trap; Import also with
 * its bytes at other addresses. What was written is opened again and must be
 * the lists that went in; what was opened is written and imported again and
 * must be the file that went in, and the same lists. What was imported, or
 * refused by rows 1 to 6, is so by Check too. Where the scratch is long enough,
 * a desk reading gives the number that the other one gives, and Open and Read.
 * Points that are accepted under code 1 and under code 2 read alike under both.
 * Slopes that were filled must be accepted, and be the same whatever the list
 * held before.
 *
 *     heap    each list is a block of its own, for a memory checker
 *     some    not every call and refusal is asked for
 *     first   ends at the first difference
 */
#include <signal.h>
#include <stdio.h>
#include <stdlib.h>
#include <string.h>
#include <unistd.h>

#include "desk.h"
#include "factor_curves.h"
#include "lend.h"

enum { NUMBER_MAX = 14, SHOWN = 5, ENTRIES_SHOWN = 70, VALUE_MAX = 200000 };

static unsigned long ran[KINDS_MAX], failures, below_zero, high, filled, alike;
static unsigned long called[CALLS], refusals[CALLS][NUMBER_MAX + 1];
static int use_heap, some, first;
static test_case current;

static int is_desk(int call)
{
    return call == DESK || call == DESK_TWO;
}

static int refusal_number(int call, int64_t answer)
{
    if (is_desk(call))
        return DESK_IS_REFUSED(answer) ? (int)DESK_REFUSAL(answer) : 0;
    return CURVE_IS_REFUSED(answer) ? CURVE_REFUSAL(answer) : 0;
}

/* ---- a difference ---- */

static void print_list(const test_case *c, int k)
{
    const list_form *form = &forms[c->call][k];
    printf("  list %d of %lu entries", k, (unsigned long)c->length[k]);
    for (uint32_t i = 0; i < c->length[k] && i < ENTRIES_SHOWN; i++)
        if (form->width == 1)
            printf(" %02X", c->list[k][i]);
        else
            printf(" %ld", (long)((int32_t *)c->list[k])[i]);
    printf("%s\n", form->written ? " wanted" : "");
}

/* The first few; the lists of the first. */
static void show(const test_case *c, int64_t got, const char *what, long at)
{
    if (++failures > SHOWN)
        return;
    printf("DIFFERENCE in case %lu (%s), %s: %s", taken, names[c->kind],
           call_names[c->call], what);
    if (at >= 0)
        printf(" at byte %ld", at);
    printf("\n  answer %lld, wanted %lld; numbers %lu %lu %lu\n",
           (long long)got, (long long)c->wanted, (unsigned long)c->number[0],
           (unsigned long)c->number[1], (unsigned long)c->number[2]);
    for (int k = 0; failures == 1 && k < LISTS; k++)
        if (forms[c->call][k].width > 0)
            print_list(c, k);
    fflush(stdout);
    if (first)
        exit(1);
}

static void on_trap(int sig)
{
    static char text[200];
    int n = snprintf(text, sizeof text,
                     "client: case %lu (%s): signal %d in %s, numbers "
                     "%u %u %u\n", taken, names[current.kind], sig,
                     call_names[current.call], (unsigned)current.number[0],
                     (unsigned)current.number[1], (unsigned)current.number[2]);
    if (write(2, text, (size_t)n) < 0)
        _exit(3);
    _exit(2);
}

/* ---- one case ---- */

static void compare(const test_case *c, int64_t got, uint8_t *const list[])
{
    if (got != c->wanted) {
        show(c, got, "answer", -1);
        return;
    }
    for (int k = 0; k < LISTS; k++) {
        size_t i = 0;
        while (i < c->size[k] && list[k][i] == c->list[k][i])
            i++;
        if (i < c->size[k]) {
            show(c, got, forms[c->call][k].written ? "a list that was lent"
                                                   : "a list to be read",
                 (long)i);
            return;
        }
    }
}

/* By Open and Read, as a desk reading gives it. */
static int64_t opened_and_read(const test_case *c, const uint8_t *file)
{
    uint32_t areas[CURVE_COUNT_MAX], values[CURVE_COUNT_MAX];
    int32_t slopes[CURVE_COUNT_MAX];
    int64_t other = curve_open(file, c->length[0], areas, CURVE_COUNT_MAX,
                               values, CURVE_COUNT_MAX, slopes,
                               CURVE_COUNT_MAX);
    if (!CURVE_IS_REFUSED(other)) {
        size_t count = CURVE_COUNT(other);
        other = curve_read(areas, count, values, count, slopes, count,
                           CURVE_SHAPE(other), c->number[0]);
    }
    return CURVE_IS_REFUSED(other) ? -1000000 - CURVE_REFUSAL(other) : other;
}

/* By the other desk reading, with a scratch that is enough for any file. */
static int64_t other_desk(const test_case *c, const uint8_t *file)
{
    uint8_t all[DESK_SCRATCH_ENOUGH], two[DESK_SCRATCH_TWO];
    if (c->call == DESK)
        return desk_reading_two(file, c->length[0], c->number[0], two,
                                sizeof two);
    return desk_reading(file, c->length[0], c->number[0], all, sizeof all);
}

/* The number of a desk reading, and that of a call without a short scratch. */
static int agrees(int64_t desk, int64_t other)
{
    if (desk == -1000000 - DESK_REFUSED_SCRATCH)
        return other != -1000000 - DESK_REFUSED_MARK &&
               other != -1000000 - DESK_REFUSED_LENGTH;
    return desk == other;
}

/* The same number if code 1 of the file is 2, or refusal 6. */
static int desk_reads_alike(const test_case *c, const uint8_t *file,
                            int64_t desk)
{
    uint8_t other[CURVE_FILE_MAX], scratch[DESK_SCRATCH_MAX];
    size_t n = c->length[0];
    if (DESK_IS_REFUSED(desk) || file[5] != CURVE_RISING || n > sizeof other)
        return 1;
    memcpy(other, file, n);
    other[5] = CURVE_CONVEX;
    int64_t read =
        (c->call == DESK ? desk_reading : desk_reading_two)(
            other, n, c->number[0], scratch, sizeof scratch);
    alike += read == desk;
    return read == desk || read == -1000000 - DESK_REFUSED_SEGMENT;
}

static void check_desk(const test_case *c, const uint8_t *file, int64_t desk)
{
    if (!desk_reads_alike(c, file, desk))
        show(c, desk, "under code 2 it reads something else", -1);
    if (!agrees(desk, opened_and_read(c, file)))
        show(c, desk, "Open and Read say something else", -1);
    if (!agrees(desk, other_desk(c, file)))
        show(c, desk, "the other desk reading says something else", -1);
}

/* The same answer and list under code 2 as under 1, if it is accepted so. */
static int reads_alike(const test_case *c, uint8_t *const list[], int64_t got)
{
    test_case other = *c;
    if ((c->call != READ && c->call != PAIR && c->call != SHEET) ||
        c->number[0] != CURVE_RISING || got != c->wanted ||
        CURVE_IS_REFUSED(got))
        return 1;
    other.number[0] = CURVE_CONVEX;
    other.call = CHECK;
    if (CURVE_IS_REFUSED(invoke(&other, list)))
        return 1;
    other.call = c->call;
    alike++;
    if (c->call == READ)
        return invoke(&other, list) == got;
    fill_list(list[3], c->size[3], c->fill);
    return invoke(&other, list) == got &&
           memcmp(list[3], c->list[3], c->size[3]) == 0;
}

/* The bytes that were written open as the lists that went in. */
static int opens_again(const test_case *c, uint8_t *const list[], size_t length)
{
    uint32_t areas[CURVE_COUNT_MAX], values[CURVE_COUNT_MAX];
    int32_t slopes[CURVE_COUNT_MAX];
    int64_t opened = curve_open(list[3], length, areas, CURVE_COUNT_MAX,
                                values, CURVE_COUNT_MAX, slopes,
                                CURVE_COUNT_MAX);
    return !CURVE_IS_REFUSED(opened) && CURVE_SHAPE(opened) == c->number[0] &&
           CURVE_COUNT(opened) == c->length[0] &&
           memcmp(areas, list[0], c->size[0]) == 0 &&
           memcmp(values, list[1], c->size[1]) == 0 &&
           memcmp(slopes, list[2], c->size[2]) == 0;
}

/* The points that were opened are written as the bytes that went in. */
static int writes_again(const test_case *c, uint8_t *const list[],
                        int64_t opened)
{
    uint8_t file[CURVE_FILE_MAX];
    size_t count = CURVE_COUNT(opened);
    fill_list(file, sizeof file, c->fill);
    return curve_write((const uint32_t *)list[1], count,
                       (const uint32_t *)list[2], count,
                       (const int32_t *)list[3], count, CURVE_SHAPE(opened),
                       file, sizeof file) == c->length[0] &&
           memcmp(file, list[0], c->size[0]) == 0;
}

/* So are they if they are exported as binary64 and imported. */
static int imports_again(const test_case *c, uint8_t *const list[],
                         int64_t opened)
{
    double triples[3 * CURVE_POINTS_MAX] = {0};
    uint32_t areas[CURVE_POINTS_MAX], values[CURVE_POINTS_MAX];
    int32_t slopes[CURVE_POINTS_MAX];
    size_t n = CURVE_COUNT(opened);
    for (size_t i = 0; i < n; i++) {
        triples[3 * i] = ((const uint32_t *)list[1])[i];
        triples[3 * i + 1] = ((const uint32_t *)list[2])[i];
        triples[3 * i + 2] = ((const int32_t *)list[3])[i];
    }
    return curve_import((const uint8_t *)triples, CURVE_TRIPLE_BYTES * n,
                        CURVE_SHAPE(opened), areas, n, values, n, slopes,
                        n) == (int64_t)n &&
           memcmp(areas, c->list[1], n * sizeof *areas) == 0 &&
           memcmp(values, c->list[2], n * sizeof *values) == 0 &&
           memcmp(slopes, c->list[3], n * sizeof *slopes) == 0;
}

/* There and back, where the result is the expected one. */
static int comes_back(const test_case *c, uint8_t *const list[], int64_t got)
{
    if (got != c->wanted || CURVE_IS_REFUSED(got))
        return 1;
    if (c->call == WRITE)
        return opens_again(c, list, (size_t)got);
    return c->call != OPEN ||
           (writes_again(c, list, got) && imports_again(c, list, got));
}

/* The case again, with this in every entry of the slope list. */
static int fills_over(const test_case *c, uint8_t *const list[], int32_t found)
{
    int32_t *slopes = (int32_t *)list[2];
    const int32_t *wanted = (const int32_t *)c->list[2];
    for (uint32_t i = 0; i < c->length[2]; i++)
        slopes[i] = found;
    if (invoke(c, list) != c->wanted)
        return 0;
    for (uint32_t i = 0; i < c->length[2]; i++)
        if (slopes[i] != (CURVE_IS_REFUSED(c->wanted) ? found : wanted[i]))
            return 0;
    return 1;
}

/* The same whatever the slope list held, and when it held these slopes. */
static int fills_again(const test_case *c, uint8_t *const list[], int64_t got)
{
    static const int32_t found[] = {0,     1,     -1,        10000,
                                    10001, 12345, INT32_MIN, INT32_MAX};
    if (got != c->wanted)
        return 1;
    if (invoke(c, list) != got ||
        (c->size[2] > 0 && memcmp(list[2], c->list[2], c->size[2]) != 0))
        return 0;
    for (size_t k = 0; k < sizeof found / sizeof *found; k++)
        if (!fills_over(c, list, found[k]))
            return 0;
    return 1;
}

/* The points with their filled slopes are a rising curve. */
static int is_accepted(const test_case *c, uint8_t *const list[], int64_t got)
{
    const uint32_t *areas = (const uint32_t *)list[0];
    const uint32_t *values = (const uint32_t *)list[1];
    size_t n = c->length[0];
    return got != c->wanted || CURVE_IS_REFUSED(got) ||
           curve_check(areas, n, values, n, (const int32_t *)list[2], n,
                       CURVE_RISING) == got - 1;
}

static void check_filled(const test_case *c, uint8_t *const list[],
                         int64_t got)
{
    if (!is_accepted(c, list, got))
        show(c, got, "the filled curve is not accepted", -1);
    if (!fills_again(c, list, got))
        show(c, got, "not the same when filled again", -1);
}

/* The points of triples as lists, if 32 bits hold all of them. */
static int as_lists(const uint8_t *bytes, size_t n, uint32_t *areas,
                    uint32_t *values, int32_t *slopes)
{
    for (size_t i = 0; i < n; i++) {
        double f[3];
        memcpy(f, bytes + CURVE_TRIPLE_BYTES * i, sizeof f);
        if (!(f[0] >= 0 && f[0] <= UINT32_MAX && f[1] >= 0 &&
              f[1] <= UINT32_MAX && f[2] >= INT32_MIN && f[2] <= INT32_MAX))
            return 0;
        areas[i] = (uint32_t)f[0];
        values[i] = (uint32_t)f[1];
        slopes[i] = (int32_t)f[2];
        if (areas[i] != f[0] || values[i] != f[1] || slopes[i] != f[2])
            return 0;
    }
    return 1;
}

/* Import's answer without rows 13, 11 and 14, as Check gives it. */
static int is_checked(const test_case *c, const uint8_t *bytes, int64_t got)
{
    uint32_t areas[CURVE_COUNT_MAX], values[CURVE_COUNT_MAX];
    int32_t slopes[CURVE_COUNT_MAX];
    int number = CURVE_IS_REFUSED(got) ? CURVE_REFUSAL(got) : 0;
    size_t n = c->length[0] / CURVE_TRIPLE_BYTES;
    if (number > CURVE_REFUSED_SEGMENT || n > CURVE_COUNT_MAX ||
        !as_lists(bytes, n, areas, values, slopes))
        return 1;
    return curve_check(areas, n, values, n, slopes, n, c->number[0]) ==
           (number > 0 ? got : got - 1);
}

static void run_case(const test_case *c, int where)
{
    uint8_t *list[LISTS];
    lend(c, where, list);
    int64_t got = invoke(c, list);
    compare(c, got, list);
    if (c->call == FILL_SLOPES)
        check_filled(c, list, got);
    if (!reads_alike(c, list, got))
        show(c, got, "under code 2 it reads something else", -1);
    if (!guards_are_whole(c, where, list))
        show(c, got, "entries beside a list were changed", -1);
    if (is_desk(c->call))
        check_desk(c, list[0], got);
    if (!comes_back(c, list, got))
        show(c, got, "not the same after Write, Open or Import", -1);
    if (c->call == IMPORT && !is_checked(c, list[0], got))
        show(c, got, "Check says something else", -1);
    give_back(where, list);
}

static void run_all(test_case *c)
{
    while (take_case(c)) {
        int number = refusal_number(c->call, c->wanted);
        if (use_heap)
            run_case(c, ON_HEAP);
        else {
            run_case(c, AT_START);
            run_case(c, AT_END);
            if (c->call == IMPORT)
                run_case(c, AT_ODD);
        }
        ran[c->kind]++;
        called[c->call]++;
        if (number <= NUMBER_MAX)
            refusals[c->call][number]++;
        below_zero += number == 0 && c->wanted < 0;
        high += number == 0 && c->wanted > VALUE_MAX;
        filled += number == 0 && c->call == SHEET ? c->length[3] : 0;
        free(c->data);
    }
}

/* ---- the report ---- */

/* Whether the call can give the number; 0 is a result. */
static int can_give(int call, int number)
{
    static const char *const numbers[CALLS] = {
        [DESK] = "111111110111000", [DESK_TWO] = "111111110111000",
        [CHECK] = "111111100000000", [READ] = "111111110000000",
        [PAIR] = "111111110001000", [SHEET] = "111111111000000",
        [OPEN] = "111111100111000", [WRITE] = "111111100000100",
        [FILL_SLOPES] = "110111100000000", [IMPORT] = "111111100001011"};
    return numbers[call][number] == '1';
}

static int report_calls(void)
{
    int missing = 0;
    for (int call = 0; call < CALLS; call++) {
        printf("  %8lu  %s: %lu results; refusals", called[call],
               call_names[call], refusals[call][0]);
        for (int n = 0; n <= NUMBER_MAX; n++) {
            if (!can_give(call, n))
                continue;
            if (n > 0)
                printf(" %d: %lu", n, refusals[call][n]);
            missing += refusals[call][n] == 0;
        }
        printf("\n");
    }
    return missing;
}

static int report(unsigned long least)
{
    int faults = 0;
    for (int k = 0; k < kinds; k++)
        printf("  %8lu  %s\n", ran[k], names[k]);
    int missing = report_calls();
    printf("  %8lu  in all; %lu factors read below zero, %lu above 200,000; "
           "%lu entries of sheets; %lu read alike under codes 1 and 2\n", taken,
           below_zero, high, filled, alike);
    if (!some && missing > 0)
        faults += printf("  an answer that a call can give was not seen\n");
    for (int call = 0; !some && call < CALLS; call++)
        if (called[call] < least / 30)
            faults += printf("  too few of %s\n", call_names[call]);
    if (!some && alike < least / 60)
        faults += printf("  too few of curves under two codes\n");
    if (taken < least)
        faults += printf("  fewer than %lu cases\n", least);
    if (failures > 0)
        faults += printf("  %lu DIFFERENCES\n", failures);
    return faults > 0;
}

int main(int argc, char **argv)
{
    if (argc < 2) {
        fprintf(stderr, "usage: client LEAST [heap] [some] [first] < cases\n");
        return 2;
    }
    unsigned long least = strtoul(argv[1], NULL, 10);
    for (int i = 2; i < argc; i++) {
        use_heap |= strcmp(argv[i], "heap") == 0;
        some |= strcmp(argv[i], "some") == 0;
        first |= strcmp(argv[i], "first") == 0;
    }
    if (!use_heap) {
        make_rooms();
        signal(SIGSEGV, on_trap);
        signal(SIGBUS, on_trap);
        signal(SIGFPE, on_trap);
    }
    take_names();
    run_all(&current);
    return report(least);
}
