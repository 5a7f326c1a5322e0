/* Calls that may not be made, and those that are refused, each with its answer. Nothing that is answered so changes anything. */
#include "common.h"

static int bad;

static void want(const char *what, biasrun_answer a, uint32_t kind, uint32_t detail) {
    if (a.kind == kind && a.detail == detail)
        return;
    bad++;
    printf("%s: kind %u detail %u word %" PRIu64 ", and wanted were %u %u\n", what, a.kind, a.detail, a.word, kind, detail);
}

/* Done, with this detail and this word. */
static void answers(const char *what, biasrun_answer a, uint32_t detail, uint64_t word) {
    want(what, a, BIASRUN_DONE, detail);
    if (a.kind == BIASRUN_DONE && a.word != word) {
        bad++;
        printf("%s: word %" PRIu64 ", and wanted was %" PRIu64 "\n", what, a.word, word);
    }
}

#define ANSWERS(call, detail, word) answers(#call, call, detail, word)
#define DONE(call) want(#call, call, BIASRUN_DONE, 0)
#define MISUSE(call, which) want(#call, call, BIASRUN_MISUSE, which)
#define REFUSED(call, which) want(#call, call, BIASRUN_REFUSED, which)
#define PENDING(call, cause) want(#call, call, BIASRUN_PENDING, cause)

static biasrun_value number(int64_t n) {
    biasrun_value v = {BIASRUN_NUMBER, 0, n};
    return v;
}

static biasrun_value object(uint32_t o) {
    biasrun_value v = {BIASRUN_OBJECT, o, 0};
    return v;
}

/* Every call that is for a pass. */
static void no_pass(biasrun_handle *h, uint32_t which) {
    biasrun_value v;
    biasrun_entry e;
    MISUSE(biasrun_poll(h), which);
    MISUSE(biasrun_stop(h), which);
    MISUSE(biasrun_resume(h), which);
    MISUSE(biasrun_enter(h, 0, 1), which);
    MISUSE(biasrun_exit(h, 0), which);
    MISUSE(biasrun_wait(h, 0, 1), which);
    MISUSE(biasrun_notify(h, 0, 1), which);
    MISUSE(biasrun_notify_all(h, 0, 1), which);
    MISUSE(biasrun_hash(h, 0, 1), which);
    MISUSE(biasrun_get(h, 0, 0, &v), which);
    MISUSE(biasrun_put(h, 0, 0, number(1)), which);
    MISUSE(biasrun_print(h, number(1)), which);
    MISUSE(biasrun_dump(h), which);
    MISUSE(biasrun_check_stuck(h), which);
    MISUSE(biasrun_finish(h), which);
    MISUSE(biasrun_unfinished(h), which);
    MISUSE(biasrun_log_length(h), which);
    MISUSE(biasrun_take_page(h), which);
    MISUSE(biasrun_page_entry(h, 0, &e), which);
    MISUSE(biasrun_leave(h), which);
}

/* Every call that is for a closed heap. */
static void not_closed(biasrun_handle *h, uint32_t which) {
    biasrun_entry e;
    biasrun_counts c;
    MISUSE(biasrun_rest_length(h, 0), which);
    MISUSE(biasrun_rest_entry(h, 0, 0, &e), which);
    MISUSE(biasrun_class_counts(h, 0, 0, &c), which);
    MISUSE(biasrun_dump_cut(h, 0, 0, 0), which);
    MISUSE(biasrun_dump_cell(h, 0, 0, 0), which);
    MISUSE(biasrun_was_halted(h), which);
}

static void plans(biasrun_handle *heap) {
    biasrun_handle none = BIASRUN_EMPTY;
    MISUSE(biasrun_begin(heap, 0, 10, 1, true), BIASRUN_NO_THREAD);
    MISUSE(biasrun_begin(heap, 17, 10, 1, true), BIASRUN_NO_THREAD);
    MISUSE(biasrun_begin(heap, 2, 400001, 1, true), BIASRUN_TOO_MANY_ENTRIES);
    MISUSE(biasrun_add_class(&none, 1), BIASRUN_EMPTY_HANDLE);
    MISUSE(biasrun_add_object(&none, 0), BIASRUN_EMPTY_HANDLE);
    MISUSE(biasrun_open(&none), BIASRUN_EMPTY_HANDLE);
    MISUSE(biasrun_pass(&none, 0, heap), BIASRUN_EMPTY_HANDLE);
    MISUSE(biasrun_close(&none), BIASRUN_EMPTY_HANDLE);
    MISUSE(biasrun_free(&none), BIASRUN_EMPTY_HANDLE);
    not_closed(&none, BIASRUN_EMPTY_HANDLE);
    DONE(biasrun_begin(&none, 1, 10, 1, true));
    DONE(biasrun_free(&none));
    DONE(biasrun_begin(&none, 1, 10, 1, true));
    for (int k = 0; k < 64; k++)
        DONE(biasrun_add_class(&none, 0));
    MISUSE(biasrun_add_class(&none, 0), BIASRUN_TOO_MANY_CLASSES);
    MISUSE(biasrun_add_object(&none, 64), BIASRUN_NO_CLASS);
    for (int k = 0; k < 4096; k++)
        DONE(biasrun_add_object(&none, 63));
    MISUSE(biasrun_add_object(&none, 0), BIASRUN_TOO_MANY_OBJECTS);
    DONE(biasrun_open(&none));
    DONE(biasrun_free(&none));
    MISUSE(biasrun_free(&none), BIASRUN_EMPTY_HANDLE);
    DONE(biasrun_begin(heap, 2, 2, 1, true));
    MISUSE(biasrun_begin(heap, 2, 2, 1, true), BIASRUN_TAKEN);
    no_pass(heap, BIASRUN_OTHER_KIND);
    not_closed(heap, BIASRUN_OTHER_KIND);
    MISUSE(biasrun_close(heap), BIASRUN_OTHER_KIND);
    MISUSE(biasrun_add_class(heap, 17), BIASRUN_TOO_MANY_SLOTS);
    MISUSE(biasrun_pass(heap, 0, &none), BIASRUN_OTHER_KIND);
    DONE(biasrun_add_class(heap, 2));
    DONE(biasrun_add_object(heap, 0));
    DONE(biasrun_open(heap));
    MISUSE(biasrun_open(heap), BIASRUN_OTHER_KIND);
    MISUSE(biasrun_add_class(heap, 1), BIASRUN_OTHER_KIND);
    MISUSE(biasrun_add_object(heap, 0), BIASRUN_OTHER_KIND);
    no_pass(heap, BIASRUN_OTHER_KIND);
    not_closed(heap, BIASRUN_OTHER_KIND);
}

static void passes(biasrun_handle *heap, biasrun_handle *a, biasrun_handle *b) {
    biasrun_handle c = BIASRUN_EMPTY;
    no_pass(a, BIASRUN_EMPTY_HANDLE);
    MISUSE(biasrun_pass(heap, 2, a), BIASRUN_NO_THREAD);
    DONE(biasrun_pass(heap, 0, a));
    DONE(biasrun_leave(a));
    MISUSE(biasrun_leave(a), BIASRUN_EMPTY_HANDLE);
    DONE(biasrun_pass(heap, 0, a));
    MISUSE(biasrun_pass(heap, 1, a), BIASRUN_TAKEN);
    MISUSE(biasrun_pass(heap, 0, b), BIASRUN_PASS_TAKEN);
    DONE(biasrun_pass(heap, 1, b));
    MISUSE(biasrun_pass(a, 0, &c), BIASRUN_OTHER_KIND);
    MISUSE(biasrun_pass(&c, 0, a), BIASRUN_TAKEN);
    MISUSE(biasrun_put(&c, 0, 0, (biasrun_value){3, 0, 0}), BIASRUN_NO_VALUE);
    MISUSE(biasrun_free(a), BIASRUN_OTHER_KIND);
    MISUSE(biasrun_open(a), BIASRUN_OTHER_KIND);
    MISUSE(biasrun_close(a), BIASRUN_OTHER_KIND);
    not_closed(a, BIASRUN_OTHER_KIND);
    MISUSE(biasrun_close(heap), BIASRUN_IN_USE);
}

static void standing(biasrun_handle *a) {
    MISUSE(biasrun_enter(a, 0, 1), BIASRUN_STOPPED);
    MISUSE(biasrun_enter(a, 9, 1), BIASRUN_STOPPED);
    MISUSE(biasrun_poll(a), BIASRUN_STOPPED);
    MISUSE(biasrun_stop(a), BIASRUN_STOPPED);
    MISUSE(biasrun_check_stuck(a), BIASRUN_STOPPED);
    DONE(biasrun_resume(a));
    MISUSE(biasrun_resume(a), BIASRUN_RUNNING);
    MISUSE(biasrun_leave(a), BIASRUN_RUNNING);
}

static void operands(biasrun_handle *a) {
    biasrun_value v = number(5), odd = {3, 0, 0};
    biasrun_entry e = {.stamp = 77};
    MISUSE(biasrun_enter(a, 1, 1), BIASRUN_NO_OBJECT);
    MISUSE(biasrun_hash(a, UINT32_MAX, 1), BIASRUN_NO_OBJECT);
    MISUSE(biasrun_get(a, 1, 0, &v), BIASRUN_NO_OBJECT);
    MISUSE(biasrun_get(a, 0, 2, &v), BIASRUN_NO_SLOT);
    MISUSE(biasrun_put(a, 0, 2, number(1)), BIASRUN_NO_SLOT);
    MISUSE(biasrun_put(a, 0, 0, odd), BIASRUN_NO_VALUE);
    MISUSE(biasrun_put(a, 0, 0, object(1)), BIASRUN_NO_VALUE);
    MISUSE(biasrun_put(a, 0, 0, number(INT64_C(1) << 61)), BIASRUN_NO_VALUE);
    MISUSE(biasrun_put(a, 0, 0, number(-(INT64_C(1) << 61) - 1)), BIASRUN_NO_VALUE);
    MISUSE(biasrun_print(a, number(INT64_MIN)), BIASRUN_NO_VALUE);
    REFUSED(biasrun_exit(a, 0), BIASRUN_NOT_OWNER);
    REFUSED(biasrun_wait(a, 0, 1), BIASRUN_NOT_OWNER);
    REFUSED(biasrun_notify(a, 0, 1), BIASRUN_NOT_OWNER);
    REFUSED(biasrun_notify_all(a, 0, 1), BIASRUN_NOT_OWNER);
    REFUSED(biasrun_get(a, 0, 0, &v), BIASRUN_UNGUARDED);
    REFUSED(biasrun_put(a, 0, 0, number(1)), BIASRUN_UNGUARDED);
    MISUSE(biasrun_page_entry(a, 0, &e), BIASRUN_NO_ENTRY);
    if (v.kind != BIASRUN_NUMBER || v.number != 5 || e.stamp != 77 || biasrun_log_length(a).word != 0) {
        bad++;
        printf("a call that was refused has changed something\n");
    }
}

/* What goes through slots and logs is what was given. */
static void values(biasrun_handle *a) {
    biasrun_value v = {7, 7, 7}, least = number(-(INT64_C(1) << 61));
    biasrun_entry e;
    want("enter", biasrun_enter(a, 0, 1), BIASRUN_DONE, BIASRUN_BIAS_TAKEN);
    want("get", biasrun_get(a, 0, 0, &v), BIASRUN_DONE, BIASRUN_NUMBER);
    if (v.number != 0)
        bad++;
    DONE(biasrun_put(a, 0, 1, least));
    want("get", biasrun_get(a, 0, 1, &v), BIASRUN_DONE, BIASRUN_NUMBER);
    if (v.number != least.number || v.object != 0)
        bad++;
    DONE(biasrun_put(a, 0, 1, object(0)));
    want("get", biasrun_get(a, 0, 1, &v), BIASRUN_DONE, BIASRUN_OBJECT);
    if (v.object != 0 || v.number != 0)
        bad++;
    MISUSE(biasrun_page_entry(a, 2, &e), BIASRUN_NO_ENTRY);
    ANSWERS(biasrun_take_page(a), 0, 6);
    MISUSE(biasrun_page_entry(a, 6, &e), BIASRUN_NO_ENTRY);
    DONE(biasrun_page_entry(a, 2, &e));
    if (e.kind != BIASRUN_STORED || e.object != 0 || e.detail != 1 || e.value.number != least.number)
        bad++;
    MISUSE(biasrun_finish(a), BIASRUN_HOLDING);
}

/* b asks for a safepoint, since a has the bias. */
static void unfinished(biasrun_handle *a, biasrun_handle *b) {
    DONE(biasrun_resume(b));
    PENDING(biasrun_enter(b, 0, 1), BIASRUN_STOPPING);
    MISUSE(biasrun_exit(b, 0), BIASRUN_UNFINISHED);
    MISUSE(biasrun_finish(b), BIASRUN_UNFINISHED);
    MISUSE(biasrun_check_stuck(b), BIASRUN_UNFINISHED);
    want("unfinished", biasrun_unfinished(b), BIASRUN_DONE, BIASRUN_OF_ENTER);
    MISUSE(biasrun_poll(b), BIASRUN_ASKING);
    MISUSE(biasrun_stop(b), BIASRUN_ASKING);
    MISUSE(biasrun_resume(b), BIASRUN_ASKING);
    MISUSE(biasrun_leave(b), BIASRUN_ASKING);
    PENDING(biasrun_poll(a), BIASRUN_REQUESTED);
    DONE(biasrun_stop(a));
    MISUSE(biasrun_leave(a), BIASRUN_HOLDING);
    PENDING(biasrun_resume(a), BIASRUN_REQUESTED);
    PENDING(biasrun_enter(b, 0, 1), BIASRUN_OWNED);
    DONE(biasrun_resume(a));
    DONE(biasrun_stop(b));
    MISUSE(biasrun_leave(b), BIASRUN_UNFINISHED);
    DONE(biasrun_resume(b));
}

/* a looks whether all stand still, for which b has to stop. It holds the object and could go on, so nobody is stuck. */
static void looks(biasrun_handle *a, biasrun_handle *b) {
    PENDING(biasrun_check_stuck(a), BIASRUN_STOPPING);
    MISUSE(biasrun_exit(a, 0), BIASRUN_CHECK_UNFINISHED);
    MISUSE(biasrun_print(a, number(1)), BIASRUN_CHECK_UNFINISHED);
    MISUSE(biasrun_stop(a), BIASRUN_ASKING);
    DONE(biasrun_stop(b));
    want("check_stuck", biasrun_check_stuck(a), BIASRUN_DONE, 0);
    DONE(biasrun_resume(b));
}

/* Enters stop while the page has room for the exits; those are never full. A page that is handed out makes room. */
static void room(biasrun_handle *a) {
    int holds = 1;
    uint64_t before = biasrun_log_length(a).word, page;
    biasrun_answer last;
    while ((last = biasrun_enter(a, 0, 1)).kind == BIASRUN_DONE)
        holds++;
    want("enter, where no room would be left to exit", last, BIASRUN_FULL, 0);
    while ((last = biasrun_print(a, number(1))).kind == BIASRUN_DONE)
        ;
    want("print, where it would take that room", last, BIASRUN_FULL, 0);
    want("hash", biasrun_hash(a, 0, 1), BIASRUN_FULL, 0);
    want("wait", biasrun_wait(a, 0, 1), BIASRUN_FULL, 0);
    want("dump", biasrun_dump(a), BIASRUN_FULL, 0);
    page = biasrun_log_length(a).word - before;
    ANSWERS(biasrun_take_page(a), 0, page);
    ANSWERS(biasrun_log_length(a), 0, before + page);
    ANSWERS(biasrun_take_page(a), 0, 0);
    DONE(biasrun_print(a, number(1)));
    for (; holds > 0; holds--)
        DONE(biasrun_exit(a, 0));
    page = biasrun_log_length(a).word - before - page;
    ANSWERS(biasrun_take_page(a), 0, page);
    REFUSED(biasrun_exit(a, 0), BIASRUN_NOT_OWNER);
    DONE(biasrun_finish(a));
}

/* Thread a has ended, and logged that alone since its last page. */
static void ends(biasrun_handle *heap, biasrun_handle *a, biasrun_handle *b) {
    MISUSE(biasrun_enter(a, 0, 1), BIASRUN_ENDED);
    MISUSE(biasrun_finish(a), BIASRUN_ENDED);
    MISUSE(biasrun_check_stuck(a), BIASRUN_ENDED);
    DONE(biasrun_stop(a));
    DONE(biasrun_leave(a));
    no_pass(a, BIASRUN_EMPTY_HANDLE);
    DONE(biasrun_pass(heap, 0, a));
    MISUSE(biasrun_enter(a, 0, 1), BIASRUN_ENDED);
    DONE(biasrun_leave(a));
    MISUSE(biasrun_close(heap), BIASRUN_IN_USE);
    want("enter", biasrun_enter(b, 0, 1), BIASRUN_DONE, BIASRUN_MONITOR_FIRST);
    for (int k = 0; k < 4; k++)
        ANSWERS(biasrun_dump(b), 0, k + 1);
    REFUSED(biasrun_dump(b), BIASRUN_TOO_MANY_DUMPS);
    DONE(biasrun_exit(b, 0));
    want("check_stuck", biasrun_check_stuck(b), BIASRUN_DONE, 0);
    DONE(biasrun_finish(b));
    DONE(biasrun_stop(b));
    DONE(biasrun_leave(b));
}

/* What a closed heap tells: thread b took the bias of a, entered, made its dumps inside, left and ended. */
static void closed(biasrun_handle *heap) {
    biasrun_handle none = BIASRUN_EMPTY;
    biasrun_entry e;
    biasrun_counts c = {7, 7, 7, 7};
    DONE(biasrun_close(heap));
    MISUSE(biasrun_close(heap), BIASRUN_OTHER_KIND);
    MISUSE(biasrun_pass(heap, 0, &none), BIASRUN_OTHER_KIND);
    MISUSE(biasrun_open(heap), BIASRUN_OTHER_KIND);
    no_pass(heap, BIASRUN_OTHER_KIND);
    ANSWERS(biasrun_rest_length(heap, 0), 0, 1);
    ANSWERS(biasrun_rest_length(heap, 1), 0, 7);
    MISUSE(biasrun_rest_length(heap, 2), BIASRUN_NO_THREAD);
    static const uint32_t kinds[] = {BIASRUN_ENTERED, BIASRUN_DUMPED, BIASRUN_DUMPED, BIASRUN_DUMPED, BIASRUN_DUMPED, BIASRUN_EXITED,
                                     BIASRUN_FINISHED};
    for (int k = 0; k < 7; k++) {
        DONE(biasrun_rest_entry(heap, 1, k, &e));
        if (e.kind != kinds[k])
            bad++;
    }
    MISUSE(biasrun_rest_entry(heap, 1, 7, &e), BIASRUN_NO_ENTRY);
    MISUSE(biasrun_rest_entry(heap, 2, 0, &e), BIASRUN_NO_THREAD);
    DONE(biasrun_class_counts(heap, 1, 0, &c));
    if (c.single != 1 || c.rebias != 0 || c.revoke != 0 || c.reset != 0)
        bad++;
    MISUSE(biasrun_class_counts(heap, 2, 0, &c), BIASRUN_NO_THREAD);
    MISUSE(biasrun_class_counts(heap, 1, 1, &c), BIASRUN_NO_CLASS);
    /* the first dump was made when b had entered */
    ANSWERS(biasrun_dump_cut(heap, 1, 0, 1), 0, 1);
    MISUSE(biasrun_dump_cut(heap, 2, 0, 1), BIASRUN_NO_THREAD);
    MISUSE(biasrun_dump_cut(heap, 1, 4, 1), BIASRUN_NO_DUMP);
    MISUSE(biasrun_dump_cut(heap, 1, 0, 2), BIASRUN_NO_THREAD);
    ANSWERS(biasrun_dump_cell(heap, 1, 3, 0), 1, 1);
    MISUSE(biasrun_dump_cell(heap, 2, 3, 0), BIASRUN_NO_THREAD);
    MISUSE(biasrun_dump_cell(heap, 0, 0, 0), BIASRUN_NO_DUMP);
    MISUSE(biasrun_dump_cell(heap, 1, 3, 1), BIASRUN_NO_OBJECT);
    ANSWERS(biasrun_was_halted(heap), 0, 0);
    DONE(biasrun_free(heap));
    MISUSE(biasrun_free(heap), BIASRUN_EMPTY_HANDLE);
}

/* A heap whose page has more room, for the 64 holds. */
static void deep(void) {
    biasrun_handle heap = BIASRUN_EMPTY, a = BIASRUN_EMPTY;
    DONE(biasrun_begin(&heap, 1, 1000, 1, false));
    DONE(biasrun_add_class(&heap, 0));
    DONE(biasrun_add_object(&heap, 0));
    DONE(biasrun_open(&heap));
    DONE(biasrun_pass(&heap, 0, &a));
    DONE(biasrun_resume(&a));
    for (int k = 0; k < 64; k++)
        want("enter", biasrun_enter(&a, 0, 1), BIASRUN_DONE, k ? BIASRUN_STACK_AGAIN : BIASRUN_STACK_FIRST);
    REFUSED(biasrun_enter(&a, 0, 1), BIASRUN_TOO_DEEP);
    for (int k = 0; k < 64; k++)
        DONE(biasrun_exit(&a, 0));
    want("enter", biasrun_enter(&a, 0, 1), BIASRUN_DONE, BIASRUN_STACK_FIRST);
    PENDING(biasrun_wait(&a, 0, 1), BIASRUN_NOT_NOTIFIED);
    want("check_stuck", biasrun_check_stuck(&a), BIASRUN_DONE, 1);
    PENDING(biasrun_resume(&a), BIASRUN_HALTED);
    DONE(biasrun_leave(&a));
    DONE(biasrun_close(&heap));
    ANSWERS(biasrun_was_halted(&heap), 1, 0);
    DONE(biasrun_free(&heap));
}

/* A heap that is given back while a thread has its pass, which stays good. */
static void heap_goes_first(void) {
    biasrun_handle heap = BIASRUN_EMPTY, a = BIASRUN_EMPTY;
    DONE(biasrun_begin(&heap, 1, 10, 1, true));
    DONE(biasrun_add_class(&heap, 0));
    DONE(biasrun_add_object(&heap, 0));
    DONE(biasrun_open(&heap));
    DONE(biasrun_pass(&heap, 0, &a));
    DONE(biasrun_free(&heap));
    DONE(biasrun_resume(&a));
    want("enter", biasrun_enter(&a, 0, 1), BIASRUN_DONE, BIASRUN_BIAS_TAKEN);
    DONE(biasrun_exit(&a, 0));
    DONE(biasrun_stop(&a));
    DONE(biasrun_leave(&a));
}

/* A heap that keeps no log: no page is ever full, and none has an entry. What is counted, and a dump, are as elsewhere. */
static void no_log(void) {
    biasrun_handle heap = BIASRUN_EMPTY, a = BIASRUN_EMPTY;
    biasrun_entry e;
    DONE(biasrun_begin(&heap, 1, 0, 1, false));
    DONE(biasrun_add_class(&heap, 0));
    DONE(biasrun_add_object(&heap, 0));
    DONE(biasrun_open(&heap));
    DONE(biasrun_pass(&heap, 0, &a));
    DONE(biasrun_resume(&a));
    for (int k = 0; k < 1000; k++) {
        want("enter", biasrun_enter(&a, 0, 1), BIASRUN_DONE, BIASRUN_STACK_FIRST);
        DONE(biasrun_exit(&a, 0));
    }
    ANSWERS(biasrun_log_length(&a), 0, 2000);
    ANSWERS(biasrun_take_page(&a), 0, 0);
    MISUSE(biasrun_page_entry(&a, 0, &e), BIASRUN_NO_ENTRY);
    want("enter", biasrun_enter(&a, 0, 1), BIASRUN_DONE, BIASRUN_STACK_FIRST);
    ANSWERS(biasrun_dump(&a), 0, 1);
    DONE(biasrun_exit(&a, 0));
    DONE(biasrun_finish(&a));
    ANSWERS(biasrun_log_length(&a), 0, 2004);
    DONE(biasrun_stop(&a));
    DONE(biasrun_leave(&a));
    DONE(biasrun_close(&heap));
    ANSWERS(biasrun_rest_length(&heap, 0), 0, 0);
    MISUSE(biasrun_rest_entry(&heap, 0, 0, &e), BIASRUN_NO_ENTRY);
    ANSWERS(biasrun_dump_cut(&heap, 0, 0, 0), 0, 2001);
    ANSWERS(biasrun_dump_cell(&heap, 0, 0, 0), 1, 0);
    DONE(biasrun_free(&heap));
}

int main(void) {
    biasrun_handle heap = BIASRUN_EMPTY, a = BIASRUN_EMPTY, b = BIASRUN_EMPTY;
    plans(&heap);
    passes(&heap, &a, &b);
    standing(&a);
    operands(&a);
    values(&a);
    unfinished(&a, &b);
    looks(&a, &b);
    room(&a);
    ends(&heap, &a, &b);
    closed(&heap);
    deep();
    heap_goes_first();
    no_log();
    printf("%d answers were others\n", bad);
    return bad != 0;
}
