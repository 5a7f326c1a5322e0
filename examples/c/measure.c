/*
 * Nanoseconds for a pair of enter and exit, by each way of locking, and for a poll, beside pthread_mutex_lock and unlock; then for an increment
 * that threads contend for. Each is the best of several rounds: what else runs on the machine only makes a round longer.
 *
 * A pair logs two entries. Where the log has one page that is never handed out, each pair writes to memory that nobody touched before, and the
 * system's page faults are a good part of what it takes; where a page of 1,000 entries is handed out whenever it is full, its memory is used again.
 * A heap that was begun with 0 entries keeps no log. The mutex is measured twice, too: the C library leaves the atomic acts out of it in a process
 * that never started a thread.
 */
#include <pthread.h>

#include "common.h"

enum { PAIRS = 40000, ROUNDS = 15, SHARED = 60000, WHOLE = 400000, PAGE = 1000, NO_LOG = 0 };

static double nanoseconds(void) {
    struct timespec t;
    clock_gettime(CLOCK_MONOTONIC, &t);
    return t.tv_sec * 1e9 + t.tv_nsec;
}

static void keep_least(double *best, double found) {
    if (*best == 0 || found < *best)
        *best = found;
}

static void need(const char *what, biasrun_answer a, uint32_t kind, uint32_t detail) {
    if (a.kind != kind || a.detail != detail)
        fail(what, a);
}

static void begin(biasrun_handle *heap, unsigned threads, uint32_t page, bool biased, biasrun_handle *passes) {
    need("begin", biasrun_begin(heap, threads, page, 7, biased), BIASRUN_DONE, 0);
    need("add_class", biasrun_add_class(heap, 0), BIASRUN_DONE, 0);
    need("add_object", biasrun_add_object(heap, 0), BIASRUN_DONE, 0);
    need("open", biasrun_open(heap), BIASRUN_DONE, 0);
    for (unsigned t = 0; t < threads; t++)
        need("pass", biasrun_pass(heap, t, &passes[t]), BIASRUN_DONE, 0);
}

/* A page that is full is handed out, and filled again. Nobody reads it here. An exit finds room always. */
static void enter(biasrun_handle *pass, uint32_t path) {
    biasrun_answer a = biasrun_enter(pass, 0, 1);
    if (a.kind == BIASRUN_FULL) {
        biasrun_take_page(pass);
        a = biasrun_enter(pass, 0, 1);
    }
    need("enter", a, BIASRUN_DONE, path);
}

static double pairs(biasrun_handle *pass, uint32_t path) {
    double from = nanoseconds();
    for (int k = 0; k < PAIRS; k++) {
        enter(pass, path);
        need("exit", biasrun_exit(pass, 0), BIASRUN_DONE, 0);
    }
    return (nanoseconds() - from) / PAIRS;
}

static double polls(biasrun_handle *pass) {
    double from = nanoseconds();
    for (int k = 0; k < PAIRS; k++)
        need("poll", biasrun_poll(pass), BIASRUN_DONE, 0);
    return (nanoseconds() - from) / PAIRS;
}

/* A way of locking: the path of an enter of an object that the thread doesn't hold, and that of one that it holds. */
struct way {
    const char *name;
    uint32_t first, again;
};

/* What is measured of a way. */
struct found {
    double fresh, used, nested, unlogged;
};

/* The object's lock is a bias, a lock record, or a monitor, which it is once the second thread has tried to enter while the first was inside. */
static void prepare(const struct way *way, biasrun_handle *passes) {
    set_running(&passes[0]);
    enter(&passes[0], way->first == BIASRUN_BIAS_OWN ? BIASRUN_BIAS_TAKEN : BIASRUN_STACK_FIRST);
    if (way->first == BIASRUN_MONITOR_FIRST) {
        set_running(&passes[1]);
        need("enter", biasrun_enter(&passes[1], 0, 1), BIASRUN_PENDING, BIASRUN_OWNED);
    }
    need("exit", biasrun_exit(&passes[0], 0), BIASRUN_DONE, 0);
    if (way->first == BIASRUN_MONITOR_FIRST) {
        enter(&passes[1], way->first);
        need("exit", biasrun_exit(&passes[1], 0), BIASRUN_DONE, 0);
        need("stop", biasrun_stop(&passes[1]), BIASRUN_DONE, 0);
    }
}

/* One round of a way, with a log of so many entries to a page, or none. */
static void by(const struct way *way, uint32_t page, struct found *best, double *poll) {
    biasrun_handle heap = BIASRUN_EMPTY, passes[2] = {BIASRUN_EMPTY, BIASRUN_EMPTY};
    begin(&heap, 2, page, way->first == BIASRUN_BIAS_OWN, passes);
    prepare(way, passes);
    keep_least(page == PAGE ? &best->used : page == NO_LOG ? &best->unlogged : &best->fresh, pairs(&passes[0], way->first));
    if (page == PAGE) {
        enter(&passes[0], way->first);
        keep_least(&best->nested, pairs(&passes[0], way->again));
        need("exit", biasrun_exit(&passes[0], 0), BIASRUN_DONE, 0);
        keep_least(poll, polls(&passes[0]));
    }
    need("stop", biasrun_stop(&passes[0]), BIASRUN_DONE, 0);
    for (int t = 0; t < 2; t++)
        need("leave", biasrun_leave(&passes[t]), BIASRUN_DONE, 0);
    need("free", biasrun_free(&heap), BIASRUN_DONE, 0);
}

static pthread_mutex_t mutex = PTHREAD_MUTEX_INITIALIZER;

static double by_mutex(void) {
    double from = nanoseconds();
    for (int k = 0; k < PAIRS; k++) {
        pthread_mutex_lock(&mutex);
        __asm__ volatile("" ::: "memory");
        pthread_mutex_unlock(&mutex);
    }
    return (nanoseconds() - from) / PAIRS;
}

static void *nothing(void *argument) {
    return argument;
}

static void start_a_thread(void) {
    pthread_t started;
    if (pthread_create(&started, 0, nothing, 0) || pthread_join(started, 0))
        exit(1);
}

static long sum;
static int each;

static void *shared(void *argument) {
    biasrun_handle *pass = argument;
    struct log log = {0};
    set_running(pass);
    for (int k = 0; k < each; k++) {
        MAKE(pass, &log, biasrun_enter(pass, 0, 1));
        sum++;
        MAKE(pass, &log, biasrun_exit(pass, 0));
    }
    need("stop", biasrun_stop(pass), BIASRUN_DONE, 0);
    return 0;
}

static void *shared_mutex(void *argument) {
    for (int k = 0; k < each; k++) {
        pthread_mutex_lock(&mutex);
        sum++;
        pthread_mutex_unlock(&mutex);
    }
    return argument;
}

/* What an increment takes that so many threads contend for: with a log, without one, or by a mutex. */
static double contended(int threads, uint32_t page, bool with_mutex) {
    biasrun_handle heap = BIASRUN_EMPTY, passes[4] = {BIASRUN_EMPTY, BIASRUN_EMPTY, BIASRUN_EMPTY, BIASRUN_EMPTY};
    pthread_t started[4];
    begin(&heap, threads, page, false, passes);
    sum = 0;
    each = SHARED / threads;
    double from = nanoseconds();
    for (int t = 0; t < threads; t++)
        pthread_create(&started[t], 0, with_mutex ? shared_mutex : shared, &passes[t]);
    for (int t = 0; t < threads; t++)
        pthread_join(started[t], 0);
    double found = (nanoseconds() - from) / SHARED;
    if (sum != (long)each * threads)
        exit(1);
    for (int t = 0; t < threads; t++)
        need("leave", biasrun_leave(&passes[t]), BIASRUN_DONE, 0);
    need("free", biasrun_free(&heap), BIASRUN_DONE, 0);
    return found;
}

int main(void) {
    static const struct way ways[] = {{"bias", BIASRUN_BIAS_OWN, BIASRUN_BIAS_OWN},
                                      {"lock record", BIASRUN_STACK_FIRST, BIASRUN_STACK_AGAIN},
                                      {"monitor", BIASRUN_MONITOR_FIRST, BIASRUN_MONITOR_AGAIN}};
    struct found found[3] = {{0}};
    double poll = 0, before = 0, after = 0, many[3][3] = {{0}};
    for (int r = 0; r < ROUNDS; r++)
        keep_least(&before, by_mutex());
    start_a_thread();
    for (int r = 0; r < ROUNDS; r++) {
        for (int k = 0; k < 3; k++) {
            by(&ways[k], WHOLE, &found[k], &poll);
            by(&ways[k], PAGE, &found[k], &poll);
            by(&ways[k], NO_LOG, &found[k], &poll);
        }
        keep_least(&after, by_mutex());
    }
    for (int r = 0; r < 5; r++)
        for (int k = 0; k < 3; k++)
            for (int m = 0; m < 3; m++)
                keep_least(&many[k][m], contended(1 << k, m == 1 ? NO_LOG : WHOLE, m == 2));
    for (int k = 0; k < 3; k++)
        printf("enter and exit by %-12s %7.1f ns, %5.1f mutexes; pages used again %7.1f ns, %5.1f; nested %7.1f ns, %5.1f; without a log %7.1f ns, %5.1f\n",
               ways[k].name, found[k].fresh, found[k].fresh / after, found[k].used, found[k].used / after, found[k].nested, found[k].nested / after,
               found[k].unlogged, found[k].unlogged / after);
    printf("a poll                         %7.1f ns, %5.1f mutexes\n", poll, poll / after);
    printf("pthread_mutex lock and unlock  %7.1f ns; before the process started a thread %7.1f ns\n", after, before);
    for (int k = 0; k < 3; k++)
        printf("%d threads on one object: %7.1f ns an increment, without a log %7.1f ns, and by a pthread_mutex %7.1f ns\n", 1 << k, many[k][0], many[k][1],
               many[k][2]);
    return 0;
}
