/*
 * 4 threads add to one number, 100,000 times in sum, each time between enter and exit: to slot 0 of the object, and to a variable of C.
 * Both must be exact. A page of a log is far shorter than what a thread logs, so that each hands out page after page. The program that the
 * threads run, and after it the journal of what they did, goes to the file that is named.
 */
#include <pthread.h>

#include "common.h"

enum { THREADS = 4, EACH = 25000, PAGE = 1000 };

static biasrun_handle passes[THREADS];
static struct log logs[THREADS];
static long sum;
static const char *const thread_names[] = {"t0", "t1", "t2", "t3"};
static const char *const object_names[] = {"count"};

static void *work(void *argument) {
    biasrun_handle *pass = argument;
    struct log *log = &logs[pass - passes];
    set_running(pass);
    for (int i = 0; i < EACH; i++) {
        biasrun_value v;
        MAKE(pass, log, biasrun_enter(pass, 0, moment()));
        sum++;
        MAKE(pass, log, biasrun_get(pass, 0, 0, &v));
        v.number++;
        MAKE(pass, log, biasrun_put(pass, 0, 0, v));
        MAKE(pass, log, biasrun_exit(pass, 0));
        if (i % 64 == 0)
            give_way(pass);
    }
    MAKE(pass, log, biasrun_finish(pass));
    MAKE(pass, log, biasrun_stop(pass));
    return 0;
}

static void write_program(FILE *to) {
    fprintf(to, "class Counter 1\nobject count Counter\n");
    for (int t = 0; t < THREADS; t++)
        fprintf(to,
                "thread %s\nlocal o\nlocal i\nlocal one\nlocal most\nlocal x\nref o count\nset i 0\nset one 1\nset most %d\n"
                "label again\nenter o\nget x o 0\nadd x x one\nput o 0 x\nexit o\nadd i i one\njlt i most again\nend\n",
                thread_names[t], EACH);
}

int main(int count, char **words) {
    biasrun_handle heap = BIASRUN_EMPTY;
    pthread_t threads[THREADS];
    open_heap(&heap, THREADS, PAGE, passes);
    for (int t = 0; t < THREADS; t++)
        pthread_create(&threads[t], 0, work, &passes[t]);
    for (int t = 0; t < THREADS; t++)
        pthread_join(threads[t], 0);
    close_heap(&heap, THREADS, passes, logs);

    size_t entries;
    struct line *lines = by_stamps(logs, THREADS, &entries);
    FILE *to = count > 1 ? fopen(words[1], "w") : 0;
    if (to) {
        write_program(to);
        write_journal(to, lines, entries, thread_names, object_names);
        fclose(to);
    }
    int64_t last = -1;
    for (size_t k = 0; k < entries; k++)
        if (lines[k].entry.kind == BIASRUN_STORED)
            last = lines[k].entry.value.number;
    free(lines);
    for (int t = 0; t < THREADS; t++)
        free(logs[t].entries);
    printf("sum %ld, last put %" PRId64 ", entries %zu\n", sum, last, entries);
    return sum == THREADS * EACH && last == THREADS * EACH && entries == THREADS * (4 * EACH + 1) ? 0 : 1;
}
