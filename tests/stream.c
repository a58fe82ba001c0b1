#include "stream.h"

#include <stdio.h>
#include <stdlib.h>

#include "desk.h"
#include "factor_curves.h"

#define BYTES {1, 0}
#define POINT_LISTS {4, 0}, {4, 0}, {4, 0}
#define WRITTEN_LISTS {4, 1}, {4, 1}, {4, 1}

const char *const call_names[CALLS] = {
    "desk_reading", "desk_reading_two", "curve_check",
    "curve_read",   "curve_pair",       "curve_sheet",
    "curve_open",   "curve_write",      "curve_fill_slopes",
    "curve_import"};

const list_form forms[CALLS][LISTS] = {
    [DESK] = {BYTES, {1, 1}},
    [DESK_TWO] = {BYTES, {1, 1}},
    [CHECK] = {POINT_LISTS},
    [READ] = {POINT_LISTS},
    [PAIR] = {POINT_LISTS, {4, 1}},
    [SHEET] = {POINT_LISTS, {4, 1}},
    [OPEN] = {BYTES, WRITTEN_LISTS},
    [WRITE] = {POINT_LISTS, {1, 1}},
    [FILL_SLOPES] = {{4, 0}, {4, 0}, {4, 1}},
    [IMPORT] = {BYTES, WRITTEN_LISTS},
};

char names[KINDS_MAX][256];
int kinds;
unsigned long taken;

void die(const char *why)
{
    fprintf(stderr, "case %lu: %s\n", taken, why);
    exit(2);
}

static void take(void *to, size_t length)
{
    if (length > 0 && fread(to, 1, length, stdin) != length)
        die("the stream ends early");
}

static uint32_t number32(const uint8_t *p)
{
    return (uint32_t)p[0] | (uint32_t)p[1] << 8 | (uint32_t)p[2] << 16 |
           (uint32_t)p[3] << 24;
}

void take_names(void)
{
    uint8_t length;
    take(&length, 1);
    kinds = length;
    if (kinds > KINDS_MAX)
        die("too many kinds");
    for (int k = 0; k < kinds; k++) {
        take(&length, 1);
        take(names[k], length);
    }
}

static void take_lists(test_case *c)
{
    size_t all = 0;
    for (int k = 0; k < LISTS; k++) {
        c->size[k] = (size_t)c->length[k] * (size_t)forms[c->call][k].width;
        if (c->size[k] > LIST_BYTES_MAX)
            die("a list is too long");
        all += c->size[k];
    }
    c->data = malloc(all ? all : 1);
    if (c->data == NULL)
        die("no memory");
    take(c->data, all);
    all = 0;
    for (int k = 0; k < LISTS; k++) {
        c->list[k] = c->data + all;
        all += c->size[k];
    }
}

int take_case(test_case *c)
{
    uint8_t head[39], *p = head + 3;
    take(head, sizeof head);
    c->kind = head[0];
    c->call = head[1];
    c->fill = head[2];
    for (int k = 0; k < NUMBERS; k++, p += 4)
        c->number[k] = number32(p);
    for (int k = 0; k < LISTS; k++, p += 4)
        c->length[k] = number32(p);
    c->wanted = (int64_t)(number32(p) | (uint64_t)number32(p + 4) << 32);
    if (c->kind == END_KIND) {
        if (c->number[0] != taken)
            die("not all cases came");
        return 0;
    }
    if (c->kind >= kinds || c->call >= CALLS)
        die("bad case");
    take_lists(c);
    taken++;
    return 1;
}

void fill_list(uint8_t *list, size_t size, uint8_t fill)
{
    for (size_t i = 0; i < size; i++)
        list[i] = (uint8_t)(1 + (fill + 31 * i) % 255);
}

#define FILE_AND_SCRATCH list[0], c->length[0], number[0], list[1],           \
                         c->length[1]
#define THREE_LISTS (const uint32_t *)list[0], c->length[0],                  \
                    (const uint32_t *)list[1], c->length[1],                  \
                    (const int32_t *)list[2], c->length[2]
#define LENT_LISTS (uint32_t *)list[1], c->length[1], (uint32_t *)list[2],    \
                   c->length[2], (int32_t *)list[3], c->length[3]

int64_t invoke(const test_case *c, uint8_t *const list[LISTS])
{
    const uint32_t *number = c->number;
    switch (c->call) {
    case DESK:
        return desk_reading(FILE_AND_SCRATCH);
    case DESK_TWO:
        return desk_reading_two(FILE_AND_SCRATCH);
    case CHECK:
        return curve_check(THREE_LISTS, number[0]);
    case READ:
        return curve_read(THREE_LISTS, number[0], number[1]);
    case PAIR:
        return curve_pair(THREE_LISTS, number[0], number[1], number[2],
                          (int32_t *)list[3], c->length[3]);
    case SHEET:
        return curve_sheet(THREE_LISTS, number[0], number[1], number[2],
                           (int32_t *)list[3], c->length[3]);
    case OPEN:
        return curve_open(list[0], c->length[0], LENT_LISTS);
    case WRITE:
        return curve_write(THREE_LISTS, number[0], list[3], c->length[3]);
    case IMPORT:
        return curve_import(list[0], c->length[0], number[0], LENT_LISTS);
    default:
        return curve_fill_slopes((const uint32_t *)list[0], c->length[0],
                                 (const uint32_t *)list[1], c->length[1],
                                 (int32_t *)list[2], c->length[2]);
    }
}
