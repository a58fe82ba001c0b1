/*
 * quote: one factor from a curve file.
 *
 *     quote [-2] FILE AREA
 *
 * AREA is in tenths of a square metre. Prints the factor, or the refusal in
 * words. With -2 it lends 24 bytes, whatever the file, and also prints between
 * which two points' areas the factor was read. Exit status: 0 a factor, 1 a
 * refusal, 2 wrong usage or no such file.
 *
 * Build: cc -Iinclude samples/quote.c target/lib/libfactor_curves.a -o quote
 */
#include <stdio.h>
#include <string.h>

#include "desk.h"

/* One byte more than a file can state, so that a longer one shows. */
#define FILE_ROOM (DESK_HEADER_BYTES + DESK_POINT_BYTES * DESK_COUNT_MAX + 1)

/* Decimal digits, at most 4,294,967,295. Returns 1 if it is so. */
static int parse_area(const char *text, uint32_t *area)
{
    uint64_t sum = 0;
    if (*text == '\0')
        return 0;
    for (; *text != '\0'; text++) {
        if (*text < '0' || *text > '9')
            return 0;
        sum = sum * 10 + (uint64_t)(*text - '0');
        if (sum > UINT32_MAX)
            return 0;
    }
    *area = (uint32_t)sum;
    return 1;
}

/* Up to FILE_ROOM bytes of the file. Returns 1 if they could be read. */
static int read_file(const char *name, uint8_t *bytes, size_t *length)
{
    FILE *file = fopen(name, "rb");
    int good;
    if (file == NULL)
        return 0;
    *length = fread(bytes, 1, FILE_ROOM, file);
    good = !ferror(file);
    fclose(file);
    return good;
}

static void print_factor(int32_t units)
{
    int32_t size = units < 0 ? -units : units;
    printf("factor %s%ld.%04ld (%ld units)\n", units < 0 ? "-" : "",
           (long)(size / 10000), (long)(size % 10000), (long)units);
}

/* The area of a point record, its first four bytes, the lowest first. */
static unsigned long record_area(const uint8_t *record)
{
    return record[0] | (unsigned long)record[1] << 8 |
           (unsigned long)record[2] << 16 | (unsigned long)record[3] << 24;
}

int main(int argc, char **argv)
{
    static uint8_t bytes[FILE_ROOM], scratch[DESK_SCRATCH_ENOUGH];
    int two = argc > 1 && strcmp(argv[1], "-2") == 0;
    char **words = argv + 1 + two; /* FILE AREA */
    size_t length;
    uint32_t area;
    int32_t answer;

    if (argc != 3 + two || words[0][0] == '-' ||
        !parse_area(words[1], &area)) {
        fprintf(stderr, "usage: quote [-2] FILE AREA\n");
        return 2;
    }
    if (!read_file(words[0], bytes, &length)) {
        fprintf(stderr, "quote: cannot read %s\n", words[0]);
        return 2;
    }
    if (two)
        answer = desk_reading_two(bytes, length, area, scratch,
                                  DESK_SCRATCH_TWO);
    else
        answer = desk_reading(bytes, length, area, scratch, sizeof scratch);
    if (DESK_IS_REFUSED(answer)) {
        printf("refused %ld: %s\n", (long)DESK_REFUSAL(answer),
               curve_refusal_words(DESK_REFUSAL(answer)));
        return 1;
    }
    print_factor(answer);
    if (two)
        printf("between %lu and %lu\n", record_area(scratch),
               record_area(scratch + DESK_POINT_BYTES));
    return 0;
}
