/*
 * A buffer of 4 numbers between 2 writers and 2 readers, by enter, wait, notify_all and exit of one object. How many numbers there are stands
 * in slot 0 of the object and in a variable of C; the numbers themselves are C's. Who has to wait for an owner or a notify sleeps on a condition
 * variable. The program that the threads run, and after it the journal of what they did, goes to the file that is named.
 */
#include <pthread.h>

#include "common.h"

enum { WRITERS = 2, THREADS = 4, EACH = 5000, MOST = 4, PAGE = 400 };

static biasrun_handle passes[THREADS];
static struct log logs[THREADS];
static int buffer[MOST], have;
static long sum, waits;
static const char *const thread_names[] = {"w0", "w1", "r0", "r1"};
static const char *const object_names[] = {"buffer"};

/* Where threads sleep. A thread that lets the object go counts up and wakes them; it does so after a notify, too, as it leaves the object then. */
static pthread_mutex_t lot = PTHREAD_MUTEX_INITIALIZER;
static pthread_cond_t changed = PTHREAD_COND_INITIALIZER;
static unsigned long changes;

static unsigned long changes_now(void) {
    pthread_mutex_lock(&lot);
    unsigned long now = changes;
    pthread_mutex_unlock(&lot);
    return now;
}

static void tell_change(void) {
    pthread_mutex_lock(&lot);
    changes++;
    pthread_cond_broadcast(&changed);
    pthread_mutex_unlock(&lot);
}

/* Sleeps until there was a change since `seen`, which was read before the call that is pending: so none is missed. The thread is stopped
   meanwhile, so that a safepoint needn't wait for it. */
static void sleep_since(biasrun_handle *pass, unsigned long seen) {
    if (biasrun_stop(pass).kind != BIASRUN_DONE) {
        give_way(pass);
        return;
    }
    pthread_mutex_lock(&lot);
    while (changes == seen)
        pthread_cond_wait(&changed, &lot);
    pthread_mutex_unlock(&lot);
    set_running(pass);
}

/* An enter that is tried until it is done. */
static void enter(biasrun_handle *pass, struct log *log) {
    for (;;) {
        unsigned long seen = changes_now();
        biasrun_answer a = biasrun_enter(pass, 0, moment());
        if (a.kind == BIASRUN_DONE)
            return;
        if (a.kind == BIASRUN_FULL)
            take_page(pass, log);
        else if (a.kind != BIASRUN_PENDING)
            fail("enter", a);
        else if (a.detail == BIASRUN_OWNED)
            sleep_since(pass, seen);
        else
            give_way(pass);
    }
}

/* A wait that is tried until it is done. The first answer that it wasn't notified tells that it has let the object go. */
static void wait_for_change(biasrun_handle *pass, struct log *log) {
    for (int told = 0;;) {
        unsigned long seen = changes_now();
        biasrun_answer a = biasrun_wait(pass, 0, moment());
        if (a.kind == BIASRUN_DONE)
            return;
        if (a.kind == BIASRUN_FULL)
            take_page(pass, log);
        else if (a.kind != BIASRUN_PENDING)
            fail("wait", a);
        else if (a.detail == BIASRUN_NOT_NOTIFIED && !told) {
            told = 1;
            tell_change();
        } else if (a.detail == BIASRUN_NOT_NOTIFIED || a.detail == BIASRUN_OWNED)
            sleep_since(pass, seen);
        else
            give_way(pass);
    }
}

/* How many numbers there are, by the object's slot. */
static int64_t there_are(biasrun_handle *pass, struct log *log) {
    biasrun_value v;
    MAKE(pass, log, biasrun_get(pass, 0, 0, &v));
    return v.number;
}

static void *work(void *argument) {
    biasrun_handle *pass = argument;
    struct log *log = &logs[pass - passes];
    int writes = pass - passes < WRITERS;
    set_running(pass);
    for (int i = 0; i < EACH; i++) {
        int64_t n;
        enter(pass, log);
        while ((n = there_are(pass, log)) == (writes ? MOST : 0)) {
            waits++;
            wait_for_change(pass, log);
        }
        if (n != have)
            exit(1);
        if (writes)
            buffer[have++] = i;
        else
            sum += buffer[--have];
        biasrun_value v = {BIASRUN_NUMBER, 0, have};
        MAKE(pass, log, biasrun_put(pass, 0, 0, v));
        MAKE(pass, log, biasrun_notify_all(pass, 0, moment()));
        MAKE(pass, log, biasrun_exit(pass, 0));
        tell_change();
    }
    MAKE(pass, log, biasrun_finish(pass));
    MAKE(pass, log, biasrun_stop(pass));
    return 0;
}

static void write_program(FILE *to) {
    fprintf(to, "class Buffer 1\nobject buffer Buffer\n");
    for (int t = 0; t < THREADS; t++) {
        int writes = t < WRITERS;
        fprintf(to,
                "thread %s\nlocal o\nlocal i\nlocal one\nlocal most\nlocal full\nlocal n\nref o buffer\nset i 0\nset one 1\nset most %d\n"
                "set full %d\nlabel again\nenter o\nlabel look\nget n o 0\njeq n full none\njump there\nlabel none\nwait o\njump look\n"
                "label there\n%s n n one\nput o 0 n\nnotifyall o\nexit o\nadd i i one\njlt i most again\nend\n",
                thread_names[t], EACH, writes ? MOST : 0, writes ? "add" : "sub");
    }
}

int main(int count, char **words) {
    biasrun_handle heap = BIASRUN_EMPTY;
    pthread_t threads[THREADS];
    open_heap(&heap, THREADS, PAGE, passes);
    for (int t = 0; t < THREADS; t++)
        pthread_create(&threads[t], 0, work, &passes[t]);
    for (int t = 0; t < THREADS; t++)
        pthread_join(threads[t], 0);
    close_heap(&heap, THREADS, passes, logs);

    size_t entries;
    struct line *lines = by_stamps(logs, THREADS, &entries);
    FILE *to = count > 1 ? fopen(words[1], "w") : 0;
    if (to) {
        write_program(to);
        write_journal(to, lines, entries, thread_names, object_names);
        fclose(to);
    }
    free(lines);
    for (int t = 0; t < THREADS; t++)
        free(logs[t].entries);
    /* a round has an Enter, a Get, a Put, a NotifyAll and an Exit, a wait a Wait, a Resume and a Get, and a thread its end */
    size_t due = THREADS * (5 * (size_t)EACH + 1) + 3 * (size_t)waits;
    printf("sum %ld, waits %ld, entries %zu\n", sum, waits, entries);
    return sum == (long)WRITERS * EACH * (EACH - 1) / 2 && have == 0 && entries == due ? 0 : 1;
}
