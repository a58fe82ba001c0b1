/*
 * Lengths that 32 bits cannot hold. A list of 2^32 entries and more is good
 * memory here, of which only the first page can be written; nothing beyond it
 * may change. Expected answers are those of the documents' rows.
 *
 * Exit status: 0 as expected, 1 a difference, 3 no such memory to be had.
 */
#define _DEFAULT_SOURCE
#include <stdio.h>
#include <stdlib.h>
#include <string.h>
#include <sys/mman.h>
#include <unistd.h>

#include "desk.h"
#include "factor_curves.h"

#define FAR ((size_t)1 << 32)
#define REFUSED(number) (-INT64_C(4294967296) * (number))

static int tests, failures;

static void expect(const char *name, int64_t got, int64_t wanted)
{
    tests++;
    if (got == wanted)
        return;
    failures++;
    printf("DIFFERENCE, %s: %lld, wanted %lld\n", name, (long long)got,
           (long long)wanted);
}

/* Room for FAR + 64 entries of 4 bytes, with this at its start. */
static void *far_list(const void *start, size_t size)
{
    void *list = mmap(NULL, 4 * (FAR + 64), PROT_READ,
                      MAP_PRIVATE | MAP_ANONYMOUS | MAP_NORESERVE, -1, 0);
    size_t page = (size_t)sysconf(_SC_PAGESIZE);
    if (list == MAP_FAILED || mprotect(list, page, PROT_READ | PROT_WRITE))
        exit(3);
    memcpy(list, start, size);
    return list;
}

/* Document 01's K3: three lists, and a file. */
static const uint32_t areas[] = {500, 600}, values[] = {10000, 14000};
static const int32_t slopes[] = {0, 10000};
static const uint8_t file[31] = {
    84, 82, 70, 1, 0, 2, 2, 0xF4, 1, 0, 0, 0x10, 0x27, 0, 0, 0, 0, 0, 0,
    0x58, 2, 0, 0, 0xB0, 0x36, 0, 0, 0x10, 0x27, 0, 0};

static void read_far_lists(void)
{
    uint32_t *a = far_list(areas, sizeof areas);
    uint32_t *v = far_list(values, sizeof values);
    int32_t *s = far_list(slopes, sizeof slopes);
    int32_t out[] = {7, 7, 7};
    uint8_t buffer[31] = {7};
    size_t n = FAR + 2;
    expect("check", curve_check(a, 2, v, 2, s, 2, 2), 1);
    expect("areas", curve_check(a, n, v, 2, s, 2, 2), REFUSED(1));
    expect("values", curve_check(a, 2, v, n, s, 2, 2), REFUSED(1));
    expect("slopes", curve_check(a, 2, v, 2, s, n, 2), REFUSED(1));
    expect("all lists", curve_check(a, n, v, n, s, n, 2), REFUSED(1));
    expect("read", curve_read(a, n, v, n, s, n, 2, 550), REFUSED(1));
    expect("read", curve_read(a, 2, v, n, s, 2, 2, 550), REFUSED(1));
    expect("pair", curve_pair(a, 2, v, 2, s, n, 2, 550, 550, out, 3),
           REFUSED(1));
    expect("sheet", curve_sheet(a, n, v, 2, s, 2, 2, 550, 1, out, 3),
           REFUSED(1));
    expect("sheet", curve_sheet(a, n, v, n, s, n, 2, 550, 1, out, 3),
           REFUSED(1));
    expect("out as found", out[0] == 7 && out[1] == 7 && out[2] == 7, 1);
    expect("write", curve_write(a, n, v, n, s, n, 2, buffer, 31), REFUSED(1));
    expect("write", curve_write(a, 2, v, n, s, 2, 2, buffer, 31), REFUSED(1));
    expect("buffer as found", buffer[0] == 7 && buffer[6] == 0, 1);
}

static void write_far_lists(void)
{
    static const int32_t found[4] = {7, 7, 7, 7};
    int32_t *out = far_list(found, sizeof found);
    expect("entries", curve_sheet(areas, 2, values, 2, slopes, 2, 2, 500, 25,
                                  out, FAR + 4), REFUSED(8));
    expect("no entry written", memcmp(out, found, sizeof found), 0);
    expect("pair", curve_pair(areas, 2, values, 2, slopes, 2, 2, 525, 550, out,
                              FAR), 3);
    expect("form", out[0], 10182);
    expect("plan", out[1], 10800);
    expect("difference", out[2], 618);
    expect("fourth entry", out[3], 7);
}

static void open_far_lists(void)
{
    static const uint32_t found[3] = {7, 7, 7};
    uint8_t *bytes = far_list(file, sizeof file);
    uint32_t *a = far_list(found, sizeof found);
    uint32_t *v = far_list(found, sizeof found);
    int32_t *s = far_list(found, sizeof found);
    expect("file", curve_open(bytes, FAR + 31, a, 2, v, 2, s, 2),
           REFUSED(10));
    expect("as found", a[0] == 7 && v[0] == 7 && s[0] == 7, 1);
    expect("open", curve_open(bytes, 31, a, FAR, v, FAR + 1, s, FAR), 514);
    expect("areas", a[0] == 500 && a[1] == 600 && a[2] == 7, 1);
    expect("values", v[0] == 10000 && v[1] == 14000 && v[2] == 7, 1);
    expect("slopes", s[0] == 0 && s[1] == 10000 && s[2] == 7, 1);
}

/* By a desk reading: a far file, and scratches of FAR bytes and more. */
static void read_at_desk(int32_t (*desk)(const uint8_t *, size_t, uint32_t,
                                         uint8_t *, size_t))
{
    static const uint8_t found[25] = {7, [24] = 7};
    uint8_t *bytes = far_list(file, sizeof file);
    uint8_t *scratch = far_list(found, sizeof found);
    expect("file", desk(bytes, FAR + 31, 550, scratch, 24), -1000010);
    expect("outside", desk(bytes, 31, 601, scratch, FAR), -1000007);
    expect("as found", memcmp(scratch, found, sizeof found), 0);
    for (size_t more = 0; more < 25; more += 8) {
        memcpy(scratch, found, sizeof found);
        expect("desk", desk(bytes, 31, 550, scratch, FAR + more), 10800);
        expect("records", memcmp(scratch, file + 7, 24), 0);
        expect("byte after them", scratch[24], 7);
    }
}

static void write_far_buffer(void)
{
    static const uint8_t found[32] = {7, [31] = 7};
    uint8_t *out = far_list(found, sizeof found);
    expect("write, no shape", curve_write(areas, 2, values, 2, slopes, 2, 5,
                                          out, FAR + 4), REFUSED(2));
    expect("no byte written", memcmp(out, found, sizeof found), 0);
    for (size_t more = 0; more < 32; more += 4) {
        memcpy(out, found, sizeof found);
        expect("write", curve_write(areas, 2, values, 2, slopes, 2, 2, out,
                                    FAR + more), 31);
        expect("file", memcmp(out, file, sizeof file), 0);
        expect("byte after the file", out[31], 7);
    }
}

/* K3's points without their slopes: the chord's is 4,000 hundredths. */
static void fill_far_slopes(void)
{
    static const int32_t found[3] = {7, 7, 7};
    uint32_t *a = far_list(areas, sizeof areas);
    uint32_t *v = far_list(values, sizeof values);
    int32_t *s = far_list(found, sizeof found);
    size_t n = FAR + 2;
    expect("fill, areas", curve_fill_slopes(a, n, v, 2, s, 2), REFUSED(1));
    expect("fill, values", curve_fill_slopes(a, 2, v, n, s, 2), REFUSED(1));
    expect("fill, slopes", curve_fill_slopes(a, 2, v, 2, s, n), REFUSED(1));
    expect("fill, the read lists", curve_fill_slopes(a, n, v, n, s, 2),
           REFUSED(1));
    expect("fill, all lists", curve_fill_slopes(a, n, v, n, s, n), REFUSED(1));
    expect("slopes as found", memcmp(s, found, sizeof found), 0);
    expect("fill", curve_fill_slopes(a, 2, v, 2, s, 2), 2);
    expect("filled", s[0] == 4000 && s[1] == 4000 && s[2] == 7, 1);
}

/*
 * K3's points as triples. 2^32 is 16 more than a multiple of 24; three times
 * it and 48 bytes are 2^29 + 2 points.
 */
static void import_far_lists(void)
{
    static const double triples[6] = {500, 10000, 0, 600, 14000, 10000};
    static const uint32_t found[3] = {7, 7, 7};
    uint8_t *bytes = far_list(triples, sizeof triples);
    uint32_t *a = far_list(found, sizeof found);
    uint32_t *v = far_list(found, sizeof found);
    int32_t *s = far_list(found, sizeof found);
    size_t many = 3 * FAR + 48, n = ((size_t)1 << 29) + 2;
    expect("triples", curve_import(bytes, FAR + 48, 2, a, 2, v, 2, s, 2),
           REFUSED(13));
    expect("short lists", curve_import(bytes, many, 2, a, 2, v, 2, s, 2),
           REFUSED(11));
    expect("areas", curve_import(bytes, many, 2, a, n - 1, v, n, s, n),
           REFUSED(11));
    expect("values", curve_import(bytes, many, 2, a, n, v, n - 1, s, FAR),
           REFUSED(11));
    expect("slopes", curve_import(bytes, many, 2, a, FAR, v, FAR, s, 64),
           REFUSED(11));
    expect("2^29 + 2 points", curve_import(bytes, many, 2, a, n, v, FAR, s, n),
           REFUSED(1));
    expect("2^16 + 2 points", curve_import(bytes, 24 * 65538, 2, a, 65538, v,
                                           65538, s, 65538), REFUSED(1));
    expect("2^16 + 2 points, short lists",
           curve_import(bytes, 24 * 65538, 2, a, 2, v, 2, s, 2), REFUSED(11));
    expect("as found", a[0] == 7 && v[0] == 7 && s[0] == 7, 1);
    expect("import", curve_import(bytes, 48, 2, a, FAR, v, FAR + 1, s, FAR), 2);
    expect("areas", a[0] == 500 && a[1] == 600 && a[2] == 7, 1);
    expect("values", v[0] == 10000 && v[1] == 14000 && v[2] == 7, 1);
    expect("slopes", s[0] == 0 && s[1] == 10000 && s[2] == 7, 1);
}

int main(void)
{
    if (sizeof(size_t) < 8)
        return 3;
    read_far_lists();
    write_far_lists();
    open_far_lists();
    read_at_desk(desk_reading);
    read_at_desk(desk_reading_two);
    write_far_buffer();
    fill_far_slopes();
    import_far_lists();
    printf("%d tests, %d failures\n", tests, failures);
    return failures > 0 || tests == 0;
}
