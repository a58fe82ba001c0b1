/* The calls and the stream of cases that cases.py writes and describes. */
#ifndef STREAM_H
#define STREAM_H

#include <stddef.h>
#include <stdint.h>

enum { DESK, DESK_TWO, CHECK, READ, PAIR, SHEET, OPEN, WRITE, FILL_SLOPES,
       IMPORT, CALLS };
enum { LISTS = 4, NUMBERS = 3, KINDS_MAX = 128, END_KIND = 255 };
enum { LIST_BYTES_MAX = 4 * 66560 };

/* What a call takes as its k-th list. */
typedef struct {
    int width;   /* bytes of an entry; 0: there is no such list */
    int written; /* lent to be written */
} list_form;

extern const char *const call_names[CALLS];
extern const list_form forms[CALLS][LISTS];

typedef struct {
    uint8_t kind, call, fill;
    uint32_t number[NUMBERS];
    uint32_t length[LISTS]; /* in entries */
    int64_t wanted;
    uint8_t *list[LISTS]; /* before the call, or after it if written */
    size_t size[LISTS];   /* in bytes */
    uint8_t *data;        /* what the lists lie in */
} test_case;

/* The kinds of the stream, and how many cases have been taken. */
extern char names[KINDS_MAX][256];
extern int kinds;
extern unsigned long taken;

void die(const char *why);
void take_names(void);

/* 1 if there is a case, whose data is to be freed; 0 at the end. */
int take_case(test_case *c);

/* What a list that is lent to be written holds before the call. */
void fill_list(uint8_t *list, size_t size, uint8_t fill);

/* The answer of the call on these lists. */
int64_t invoke(const test_case *c, uint8_t *const list[LISTS]);

#endif
