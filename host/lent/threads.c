#define _DEFAULT_SOURCE
#include "../../second/generate/book.h"
#include "../../second/generate/random.h"
#include "compare.h"
#include "runs.h"

#include <inttypes.h>
#include <pthread.h>
#include <sched.h>
#include <stdio.h>
#include <stdlib.h>

enum { THREADS = 8 };

struct worker {
    unsigned number;
    uint64_t seed;
    unsigned long calls;
    struct frumxadda_change sum; /* of the changes reported to this thread */
};

/* What the threads share, under one lock: the book on both sides, and what its sessions talk about. */
static struct {
    pthread_mutex_t lock;
    struct books books;
    struct second_evening evening;
    unsigned last;       /* the thread that made the last call */
    unsigned long turns; /* calls that came after another thread's */
    unsigned long accepted[SECOND_LETTERS];
} shared = { .lock = PTHREAD_MUTEX_INITIALIZER };

/* The draws are the thread's own, whatever the others do in between. */
static void make_call(struct worker *worker)
{
    struct second_ask ask;

    shared.evening.seed = worker->seed;
    second_generate_ask(&shared.evening, shared.books.second, &ask);
    worker->seed = shared.evening.seed;
    struct second_reply reply = compare_call(&shared.books, &ask);
    worker->sum.up += reply.change_up;
    worker->sum.down += reply.change_down;
    shared.accepted[ask.letter] += reply.refusal == 0;
    shared.turns += shared.last != worker->number;
    shared.last = worker->number;
}

static void *work(void *argument)
{
    struct worker *worker = argument;
    uint64_t pauses = worker->seed ^ UINT64_MAX;

    for (unsigned long i = 0; i < worker->calls; i++) {
        pthread_mutex_lock(&shared.lock);
        make_call(worker);
        pthread_mutex_unlock(&shared.lock);
        if (second_draw(&pauses) % 2)
            sched_yield();
    }
    return NULL;
}

static void start_book(uint64_t *seed)
{
    shared.evening.seed = second_draw(seed);
    second_start_evening(&shared.evening);
    shared.evening.rows = SECOND_BOOK_ROWS;
    shared.evening.settings = (struct second_settings) { 100000, 90000, 5000, 4000 };
    shared.evening.pool = (struct second_pool) { 40000000, 40000000 };
    fresh_books(&shared.books, SECOND_BOOK_ROWS);
}

/* Starts the threads, and waits for the last; returns the sum of the changes that were reported to them all. */
static struct frumxadda_change work_all(uint64_t *seed, unsigned long count)
{
    static struct worker workers[THREADS];
    struct frumxadda_change sum = { 0, 0 };
    pthread_t threads[THREADS];

    for (unsigned i = 0; i < THREADS; i++) {
        workers[i] = (struct worker) { .number = i, .seed = second_draw(seed), .calls = count / THREADS };
        if (pthread_create(&threads[i], NULL, work, &workers[i]) != 0)
            exit(2);
    }
    for (unsigned i = 0; i < THREADS; i++) {
        pthread_join(threads[i], NULL);
        sum.up += workers[i].sum.up;
        sum.down += workers[i].sum.down;
    }
    return sum;
}

static void print_accepted(unsigned long count)
{
    static const char *const names[] = { "offers", "answers", "cancels", "closes", "bearers", "statements" };

    printf("threads: %d of them, %lu calls compared, %lu right after another thread's; accepted", THREADS, count,
        shared.turns);
    for (unsigned i = 0; i < SECOND_LETTERS; i++)
        printf("%s %lu %s", i ? "," : "", shared.accepted[i], names[i]);
    printf("\n");
    for (unsigned i = 0; i < SECOND_LETTERS; i++)
        if (shared.accepted[i] == 0)
            exit(1);
}

void run_threads(uint64_t *seed, unsigned long count)
{
    start_book(seed);
    struct frumxadda_change sum = work_all(seed, count);
    struct frumxadda_rates booked = booked_in_all(shared.books.proved, shared.books.count);
    print_accepted(count / THREADS * THREADS);
    printf("threads: the changes sum up to %" PRId64 " up, %" PRId64 " down; booked are %" PRIu64 " up, %" PRIu64
           " down\n", sum.up, sum.down, booked.up, booked.down);
    if (sum.up < 0 || (uint64_t)sum.up != booked.up || sum.down < 0 || (uint64_t)sum.down != booked.down)
        exit(1);
}
