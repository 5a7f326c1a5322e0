/*
 * A loop of one call of the library for C, or of a pair of enter and exit, for callgrind: tools/bench --c takes the difference of two lengths.
 *     c_pairs WAY ENTRIES TURNS
 * ENTRIES is the length of a page of the log, or 0 for none. A page has to have room for the whole loop.
 */
#include <pthread.h>

#include "common.h"

static biasrun_handle heap = BIASRUN_EMPTY, pass = BIASRUN_EMPTY, other = BIASRUN_EMPTY;
static pthread_mutex_t mutex = PTHREAD_MUTEX_INITIALIZER;

static void need(const char *what, biasrun_answer a, uint32_t kind, uint32_t detail) {
    if (a.kind != kind || a.detail != detail)
        fail(what, a);
}

static void done(const char *what, biasrun_answer a) {
    need(what, a, BIASRUN_DONE, 0);
}

__attribute__((noinline)) static void pairs(int turns, uint32_t path) {
    for (int k = 0; k < turns; k++) {
        need("enter", biasrun_enter(&pass, 0, 1), BIASRUN_DONE, path);
        need("exit", biasrun_exit(&pass, 0), BIASRUN_DONE, 0);
    }
}

__attribute__((noinline)) static void polls(int turns) {
    for (int k = 0; k < turns; k++)
        need("poll", biasrun_poll(&pass), BIASRUN_DONE, 0);
}

__attribute__((noinline)) static void gets(int turns) {
    biasrun_value v;
    for (int k = 0; k < turns; k++)
        need("get", biasrun_get(&pass, 0, 0, &v), BIASRUN_DONE, BIASRUN_NUMBER);
}

__attribute__((noinline)) static void puts_of(int turns) {
    for (int k = 0; k < turns; k++)
        need("put", biasrun_put(&pass, 0, 0, (biasrun_value){BIASRUN_NUMBER, 0, k}), BIASRUN_DONE, 0);
}

__attribute__((noinline)) static void locks(int turns) {
    for (int k = 0; k < turns; k++) {
        pthread_mutex_lock(&mutex);
        __asm__ volatile("" ::: "memory");
        pthread_mutex_unlock(&mutex);
    }
}

static void open_with(uint32_t entries, bool biased) {
    done("begin", biasrun_begin(&heap, 2, entries, 7, biased));
    done("add_class", biasrun_add_class(&heap, 1));
    done("add_object", biasrun_add_object(&heap, 0));
    done("open", biasrun_open(&heap));
    done("pass", biasrun_pass(&heap, 0, &pass));
    done("pass", biasrun_pass(&heap, 1, &other));
    done("resume", biasrun_resume(&pass));
}

/* The object's lock is a bias, a lock record, or a monitor, which it is once the second thread has tried to enter while the first was inside. */
static void prepare(bool biased, bool monitor) {
    need("enter", biasrun_enter(&pass, 0, 1), BIASRUN_DONE, biased ? BIASRUN_BIAS_TAKEN : BIASRUN_STACK_FIRST);
    if (monitor) {
        done("resume", biasrun_resume(&other));
        need("enter", biasrun_enter(&other, 0, 1), BIASRUN_PENDING, BIASRUN_OWNED);
    }
    done("exit", biasrun_exit(&pass, 0));
    if (monitor) {
        need("enter", biasrun_enter(&other, 0, 1), BIASRUN_DONE, BIASRUN_MONITOR_FIRST);
        done("exit", biasrun_exit(&other, 0));
        done("stop", biasrun_stop(&other));
    }
}

static void by(const char *way, uint32_t entries, int turns) {
    bool biased = !strncmp(way, "bias", 4), monitor = !strncmp(way, "monitor", 7), again = strstr(way, "again");
    uint32_t first = biased ? BIASRUN_BIAS_OWN : monitor ? BIASRUN_MONITOR_FIRST : BIASRUN_STACK_FIRST;
    uint32_t nested = biased ? BIASRUN_BIAS_OWN : monitor ? BIASRUN_MONITOR_AGAIN : BIASRUN_STACK_AGAIN;
    bool inside = again || !strcmp(way, "get") || !strcmp(way, "put");
    open_with(entries, biased);
    prepare(biased, monitor);
    if (inside)
        need("enter", biasrun_enter(&pass, 0, 1), BIASRUN_DONE, first);
    if (!strcmp(way, "poll"))
        polls(turns);
    else if (!strcmp(way, "get"))
        gets(turns);
    else if (!strcmp(way, "put"))
        puts_of(turns);
    else
        pairs(turns, again ? nested : first);
    if (inside)
        done("exit", biasrun_exit(&pass, 0));
    done("stop", biasrun_stop(&pass));
    done("leave", biasrun_leave(&pass));
    done("leave", biasrun_leave(&other));
    done("free", biasrun_free(&heap));
}

static void *nothing(void *argument) {
    return argument;
}

int main(int count, char **words) {
    pthread_t started;
    if (count != 4)
        return 2;
    int turns = atoi(words[3]);
    if (!strcmp(words[1], "mutex-after") && (pthread_create(&started, 0, nothing, 0) || pthread_join(started, 0)))
        return 2;
    if (!strncmp(words[1], "mutex", 5))
        locks(turns);
    else
        by(words[1], atoi(words[2]), turns);
    return 0;
}
