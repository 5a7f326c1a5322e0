/* What the examples have in common: how a call is made again until it is done, how logs are collected, and how a journal is written. */
#ifndef EXAMPLES_COMMON_H
#define EXAMPLES_COMMON_H
#include <inttypes.h>
#include <sched.h>
#include <stdio.h>
#include <stdlib.h>
#include <string.h>
#include <time.h>

#include "biasrun.h"

/* Ends the program where something went another way than it has to. */
static inline void fail(const char *what, biasrun_answer a) {
    fprintf(stderr, "%s: kind %u, detail %u, word %" PRIu64 "\n", what, a.kind, a.detail, a.word);
    exit(1);
}

/* The moment in milliseconds, for the policy of bulk operations. */
static inline uint64_t moment(void) {
    struct timespec t;
    clock_gettime(CLOCK_MONOTONIC, &t);
    return (uint64_t)t.tv_sec * 1000 + (uint64_t)t.tv_nsec / 1000000;
}

static inline void set_running(biasrun_handle *pass) {
    biasrun_answer a;
    while ((a = biasrun_resume(pass)).kind == BIASRUN_PENDING)
        sched_yield();
    if (a.kind != BIASRUN_DONE)
        fail("resume", a);
}

/* Where another thread asks for a safepoint, this one stops until that is over. Where this one asks, it doesn't run, and the poll is misuse: the call
   that asked is made again. */
static inline void stop_where_asked(biasrun_handle *pass) {
    if (biasrun_poll(pass).kind == BIASRUN_PENDING) {
        biasrun_stop(pass);
        set_running(pass);
    }
}

/* Between two tries of a call that may take long. */
static inline void give_way(biasrun_handle *pass) {
    stop_where_asked(pass);
    sched_yield();
}

/* A moment in which this processor reads no word that another one works on. */
static inline void pause_a_moment(void) {
#if defined(__x86_64__) || defined(__i386__)
    __builtin_ia32_pause();
#elif defined(__aarch64__)
    __asm__ volatile("yield");
#endif
}

/* Between two tries of a call, of which so many were made. An owner mostly lets go soon: so the first tries follow one another on the processor, each
   after twice the time of the one before, in which the owner works undisturbed: the last after half a millisecond or so. After these, others may run. */
static inline void give_way_after(biasrun_handle *pass, unsigned tries) {
    const unsigned most_tries = 12, fewest_moments = 8;
    if (tries >= most_tries) {
        give_way(pass);
        return;
    }
    stop_where_asked(pass);
    for (unsigned k = 0; k < fewest_moments << tries; k++)
        pause_a_moment();
}

/* The log of one thread, as its pages came. */
struct log {
    biasrun_entry *entries;
    size_t length, room;
};

static inline biasrun_entry *next_of(struct log *log) {
    if (log->length == log->room) {
        log->room = log->room ? 2 * log->room : 1024;
        log->entries = realloc(log->entries, log->room * sizeof(biasrun_entry));
        if (!log->entries)
            exit(1);
    }
    return &log->entries[log->length++];
}

/* Hands out a page, and adds it to the log. */
static inline void take_page(biasrun_handle *pass, struct log *log) {
    biasrun_answer a = biasrun_take_page(pass);
    if (a.kind != BIASRUN_DONE || a.word == 0)
        fail("take_page", a);
    for (uint64_t k = 0; k < a.word; k++) {
        biasrun_answer b = biasrun_page_entry(pass, k, next_of(log));
        if (b.kind != BIASRUN_DONE)
            fail("page_entry", b);
    }
}

/* Makes the call until it is done, hands out a page where the log has no room, and ends the program where the call is refused. */
#define MAKE(pass, log, call)                                     \
    do {                                                          \
        biasrun_answer made_;                                     \
        unsigned tries_ = 0;                                      \
        while ((made_ = (call)).kind != BIASRUN_DONE)             \
            if (made_.kind == BIASRUN_PENDING)                    \
                give_way_after(pass, tries_++);                   \
            else if (made_.kind == BIASRUN_FULL)                  \
                take_page(pass, log);                             \
            else                                                  \
                fail(#call, made_);                               \
    } while (0)

/* Adds what a closed heap has of the thread's log. */
static inline void add_rest(biasrun_handle *closed, unsigned thread, struct log *log) {
    biasrun_answer a = biasrun_rest_length(closed, thread);
    if (a.kind != BIASRUN_DONE)
        fail("rest_length", a);
    for (uint64_t k = 0; k < a.word; k++) {
        biasrun_answer b = biasrun_rest_entry(closed, thread, k, next_of(log));
        if (b.kind != BIASRUN_DONE)
            fail("rest_entry", b);
    }
}

/* A heap of one object with a slot, and a pass for each thread. */
static inline void open_heap(biasrun_handle *heap, unsigned threads, unsigned page, biasrun_handle *passes) {
    biasrun_answer a;
    if ((a = biasrun_begin(heap, threads, page, 7, true)).kind || (a = biasrun_add_class(heap, 1)).kind ||
        (a = biasrun_add_object(heap, 0)).kind || (a = biasrun_open(heap)).kind)
        fail("a heap", a);
    for (unsigned t = 0; t < threads; t++)
        if ((a = biasrun_pass(heap, t, &passes[t])).kind)
            fail("a pass", a);
}

/* Gives the passes back, closes the heap, and adds what is left of each log. */
static inline void close_heap(biasrun_handle *heap, unsigned threads, biasrun_handle *passes, struct log *logs) {
    biasrun_answer a;
    for (unsigned t = 0; t < threads; t++)
        if ((a = biasrun_leave(&passes[t])).kind)
            fail("leave", a);
    if ((a = biasrun_close(heap)).kind)
        fail("close", a);
    for (unsigned t = 0; t < threads; t++)
        add_rest(heap, t, &logs[t]);
    if ((a = biasrun_free(heap)).kind)
        fail("free", a);
}

/* THE JOURNAL. The names are those of the program that stands before it. */
struct line {
    biasrun_entry entry;
    unsigned thread;
};

static inline int by_stamp(const void *one, const void *other) {
    const struct line *a = one, *b = other;
    if (a->entry.stamp != b->entry.stamp)
        return a->entry.stamp < b->entry.stamp ? -1 : 1;
    return (a->thread > b->thread) - (a->thread < b->thread);
}

/* The entries of all logs by their stamps, and at equal stamps by their threads; `count` gets how many they are. */
static inline struct line *by_stamps(const struct log *logs, unsigned threads, size_t *count) {
    size_t sum = 0, at = 0;
    for (unsigned t = 0; t < threads; t++)
        sum += logs[t].length;
    struct line *lines = malloc((sum ? sum : 1) * sizeof(struct line));
    if (!lines)
        exit(1);
    for (unsigned t = 0; t < threads; t++)
        for (size_t k = 0; k < logs[t].length; k++)
            lines[at++] = (struct line){logs[t].entries[k], t};
    qsort(lines, sum, sizeof *lines, by_stamp);
    *count = sum;
    return lines;
}

static inline void write_value(FILE *to, biasrun_value v, const char *const *objects) {
    if (v.kind == BIASRUN_NIL)
        fprintf(to, "nil");
    else if (v.kind == BIASRUN_NUMBER)
        fprintf(to, "%" PRId64, v.number);
    else
        fprintf(to, "%s", objects[v.object]);
}

static inline void write_line(FILE *to, const struct line *line, const char *const *threads, const char *const *objects) {
    static const char *const paths[] = {"", "bias-own", "bias-taken", "stack-first", "stack-again", "monitor-first", "monitor-again"};
    const biasrun_entry *e = &line->entry;
    const char *o = objects[e->object];
    fprintf(to, "@%" PRIu64 " %s ", e->stamp, threads[line->thread]);
    switch (e->kind) {
    case BIASRUN_ENTERED: fprintf(to, "enter %s %s", o, paths[e->detail]); break;
    case BIASRUN_EXITED: fprintf(to, "exit %s", o); break;
    case BIASRUN_GOT: fprintf(to, "get %s %u ", o, e->detail); write_value(to, e->value, objects); break;
    case BIASRUN_STORED: fprintf(to, "put %s %u ", o, e->detail); write_value(to, e->value, objects); break;
    case BIASRUN_WAITED: fprintf(to, "wait %s", o); break;
    case BIASRUN_RESUMED: fprintf(to, "resume %s", o); break;
    case BIASRUN_NOTIFIED: fprintf(to, "notify %s %s", o, e->detail ? threads[e->number] : "none"); break;
    case BIASRUN_NOTIFIED_ALL: fprintf(to, "notifyall %s %u", o, e->number); break;
    case BIASRUN_HASHED:
        fprintf(to, "hash %s %u", o, e->number);
        if (e->detail)
            fprintf(to, " draw %u", e->detail);
        break;
    case BIASRUN_PRINTED: fprintf(to, "print "); write_value(to, e->value, objects); break;
    case BIASRUN_DUMPED: fprintf(to, "dump %u", e->number); break;
    case BIASRUN_FINISHED: fprintf(to, "done"); break;
    default: fprintf(to, "?");
    }
    fputc('\n', to);
}

static inline void write_journal(FILE *to, const struct line *lines, size_t count, const char *const *threads, const char *const *objects) {
    fprintf(to, "%%journal\n");
    for (size_t k = 0; k < count; k++)
        write_line(to, &lines[k], threads, objects);
}
#endif
