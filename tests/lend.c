#define _DEFAULT_SOURCE
#include "lend.h"

#include <stdio.h>
#include <stdlib.h>
#include <string.h>
#include <sys/mman.h>
#include <unistd.h>

enum { ROOM = 5 * 65536, GUARD = 64, GUARD_BYTE = 0xA5 };

/* ROOM bytes, seen twice: by the client, and by the call it lends them to. */
typedef struct {
    uint8_t *ours, *lent;
} room;

/* For each list, one that may be read only and one that may be written. */
static room rooms[LISTS][2];

static room make_room(int written)
{
    room r;
    size_t page = (size_t)sysconf(_SC_PAGESIZE);
    int access = written ? PROT_READ | PROT_WRITE : PROT_READ;
    FILE *file = tmpfile();
    if (file == NULL || ftruncate(fileno(file), ROOM) != 0)
        die("no temporary file");
    uint8_t *fence = mmap(NULL, ROOM + 2 * page, PROT_NONE,
                          MAP_PRIVATE | MAP_ANONYMOUS, -1, 0);
    if (fence == MAP_FAILED)
        die("no memory");
    r.lent = mmap(fence + page, ROOM, access, MAP_SHARED | MAP_FIXED,
                  fileno(file), 0);
    r.ours = mmap(NULL, ROOM, PROT_READ | PROT_WRITE, MAP_SHARED,
                  fileno(file), 0);
    if (r.lent == MAP_FAILED || r.ours == MAP_FAILED)
        die("no memory");
    return r;
}

void make_rooms(void)
{
    for (int k = 0; k < LISTS; k++)
        for (int written = 0; written < 2; written++)
            rooms[k][written] = make_room(written);
}

/* Without entries a null pointer is as good as any. */
static uint8_t *on_heap(size_t size)
{
    if (size == 0 && taken % 2 == 0)
        return NULL;
    uint8_t *block = malloc(size ? size : 1);
    if (block == NULL)
        die("no memory");
    return block;
}

static void set_list(const test_case *c, int k, uint8_t *to)
{
    if (forms[c->call][k].written)
        fill_list(to, c->size[k], c->fill);
    else if (c->size[k] > 0)
        memcpy(to, c->list[k], c->size[k]);
}

/* Whether list k, only read, holds what the list before it holds. */
static int is_repeated(const test_case *c, int k)
{
    return k > 0 && !forms[c->call][k].written && c->size[k] > 0 &&
           c->size[k] == c->size[k - 1] &&
           memcmp(c->list[k], c->list[k - 1], c->size[k]) == 0;
}

/* How far from the start of its room list k lies. */
static size_t offset(const test_case *c, int where, int k)
{
    const list_form *form = &forms[c->call][k];
    if (where == AT_END)
        return ROOM - c->size[k];
    return where == AT_ODD && form->width == 1 && !form->written
               ? 1 + taken % 7 : 0;
}

void lend(const test_case *c, int where, uint8_t *list[LISTS])
{
    for (int k = 0; k < LISTS; k++) {
        size_t size = c->size[k];
        int written = forms[c->call][k].written;
        const room *r = &rooms[k][written];
        size_t at = offset(c, where, k);
        list[k] = NULL;
        if (forms[c->call][k].width == 0)
            continue;
        if (where == ON_HEAP) {
            list[k] = on_heap(size);
            set_list(c, k, list[k]);
            continue;
        }
        set_list(c, k, r->ours + at);
        if (written)
            memset(r->ours + (at > 0 ? at - GUARD : size), GUARD_BYTE, GUARD);
        if (size > 0 || where == AT_END)
            list[k] = r->lent + at;
        if (where == AT_START && is_repeated(c, k))
            list[k] = list[k - 1];
    }
}

int guards_are_whole(const test_case *c, int where,
                     uint8_t *const list[LISTS])
{
    for (int k = 0; where != ON_HEAP && k < LISTS; k++) {
        if (!forms[c->call][k].written || list[k] == NULL)
            continue;
        const uint8_t *beside = where == AT_END ? list[k] - GUARD
                                                : list[k] + c->size[k];
        for (int i = 0; i < GUARD; i++)
            if (beside[i] != GUARD_BYTE)
                return 0;
    }
    return 1;
}

void give_back(int where, uint8_t *const list[LISTS])
{
    for (int k = 0; where == ON_HEAP && k < LISTS; k++)
        free(list[k]);
}
