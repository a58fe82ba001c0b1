/*
 * Memory to lend to a call. Fenced: between pages that trap, and a list that
 * is only read in pages that cannot be written; bytes that are only read also
 * one to seven after the start of a page. On the heap: a
 * block for each list, for a memory checker. Lists without entries are null
 * pointers too, and lists that are only read and hold the same are one list
 * too.
 */
#ifndef LEND_H
#define LEND_H

#include "stream.h"

enum { AT_START, AT_END, AT_ODD, ON_HEAP };

/* Once, before lists are lent at the start or the end of fenced memory. */
void make_rooms(void);

/* The lists of a case as they are before the call. */
void lend(const test_case *c, int where, uint8_t *list[LISTS]);

/* Whether all is as found beside the lists that were lent to be written. */
int guards_are_whole(const test_case *c, int where,
                     uint8_t *const list[LISTS]);

void give_back(int where, uint8_t *const list[LISTS]);

#endif
