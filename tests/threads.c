/*
 * Calls from two threads at once.
 *
 *     threads LEAST ROUNDS < cases
 *
 * The stream is described in cases.py. First one thread runs all cases, then
 * two run them at the same time, ROUNDS times, and wait for each other after
 * each batch: the lists that are only read are the same for both, those to be
 * written are each thread's own. Fails if a case alone is not as expected, if
 * a thread gets another answer or list than that, or with fewer than LEAST
 * cases.
 */
#define _POSIX_C_SOURCE 200112L
#include <pthread.h>
#include <stdio.h>
#include <stdlib.h>
#include <string.h>

#include "stream.h"

enum { THREADS = 2, BATCH = 100 };

typedef struct {
    int second;
    unsigned long ran, differences;
    uint8_t *own[LISTS];
} worker;

static test_case *cases;
static size_t count;
static unsigned long rounds;
static pthread_barrier_t barrier;

static void take_all(void)
{
    size_t room = 0;
    test_case c;
    take_names();
    while (take_case(&c)) {
        if (count == room) {
            room = room ? 2 * room : 1024;
            cases = realloc(cases, room * sizeof *cases);
            if (cases == NULL)
                die("no memory");
        }
        cases[count++] = c;
    }
}

/* Whether the answer and the lists are as expected. */
static int as_expected(const test_case *c, uint8_t *const own[LISTS])
{
    uint8_t *list[LISTS];
    for (int k = 0; k < LISTS; k++) {
        list[k] = c->list[k];
        if (forms[c->call][k].written) {
            list[k] = own[k];
            fill_list(own[k], c->size[k], c->fill);
        }
    }
    int good = invoke(c, list) == c->wanted;
    for (int k = 0; k < LISTS; k++)
        if (forms[c->call][k].written)
            good &= memcmp(own[k], c->list[k], c->size[k]) == 0;
    return good;
}

/* The cases from start up to end, or from end down. */
static void run_cases(worker *w, size_t start, size_t end, int down)
{
    for (size_t i = start; i < end; i++) {
        const test_case *c = &cases[down ? start + end - 1 - i : i];
        w->differences += !as_expected(c, w->own);
        w->ran++;
    }
}

/* In every other round the second thread takes each batch from its end. */
static void *work(void *argument)
{
    worker *w = argument;
    for (unsigned long round = 0; round < rounds; round++)
        for (size_t start = 0; start < count; start += BATCH) {
            size_t end = count - start > BATCH ? start + BATCH : count;
            pthread_barrier_wait(&barrier);
            run_cases(w, start, end, w->second && round % 2 == 1);
        }
    return NULL;
}

static void prepare(worker *w, int second)
{
    memset(w, 0, sizeof *w);
    w->second = second;
    for (int k = 0; k < LISTS; k++)
        if ((w->own[k] = malloc(LIST_BYTES_MAX)) == NULL)
            die("no memory");
}

static int report(const worker *alone, const worker *together,
                  unsigned long least)
{
    unsigned long ran = 0, differences = 0;
    for (int i = 0; i < THREADS; i++) {
        ran += together[i].ran;
        differences += together[i].differences;
    }
    printf("  %8lu  cases by one thread, %lu differences\n"
           "  %8lu  by %d threads at once, %lu differences\n", alone->ran,
           alone->differences, ran, THREADS, differences);
    if (alone->ran < least || ran != THREADS * rounds * count)
        return printf("  fewer than %lu cases\n", least) > 0;
    return alone->differences + differences > 0;
}

int main(int argc, char **argv)
{
    pthread_t threads[THREADS];
    worker alone, together[THREADS];
    if (argc != 3) {
        fprintf(stderr, "usage: threads LEAST ROUNDS < cases\n");
        return 2;
    }
    rounds = strtoul(argv[2], NULL, 10);
    take_all();
    prepare(&alone, 0);
    run_cases(&alone, 0, count, 0);
    pthread_barrier_init(&barrier, NULL, THREADS);
    for (int i = 0; i < THREADS; i++) {
        prepare(&together[i], i);
        if (pthread_create(&threads[i], NULL, work, &together[i]) != 0)
            die("no thread");
    }
    for (int i = 0; i < THREADS; i++)
        pthread_join(threads[i], NULL);
    return report(&alone, together, strtoul(argv[1], NULL, 10));
}
