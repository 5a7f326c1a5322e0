/*
 * One heap of tools/c_fight, over the library for C: threads make random calls on a few objects, and judge each answer by what they know themselves.
 *     c_fight SEED FILE
 * The first answer that is another one than it has to be ends the program with status 1, and is told on standard error. Else the counts go to standard
 * output, and to the file the logs and dumps, which tools/c_fight judges.
 *
 * NOBODY WAITS FOR GOOD. A pending enter can't be taken back, so a thread enters no object below one that it holds. It waits on the highest one that
 * it holds, and then on that alone, or with the one token that there is: a thread of its own, the rescuer, notifies whoever waits so. One worker at
 * least doesn't wait; who has made all its turns notifies all waiters until every other one has.
 */
#include "c_fight.h"

/* The passes that nobody has, and the handle of the heap. Who takes the lock is stopped, since others may ask for a safepoint under it. */
static pthread_mutex_t lock = PTHREAD_MUTEX_INITIALIZER;
static struct seat *idle[MOST_THREADS];
static unsigned idle_count;
static biasrun_handle heap = BIASRUN_EMPTY;

static atomic_uint working, awake;
/* Who has the token waits on object `rescue` - 1, or has waited where it is over. The rescuer alone gives the token back: else it could still be after
   an object that the next one holds. */
static atomic_uint token, rescue, over;

/* WHAT THREADS DO. */

static void enter(struct worker *w, uint32_t o) {
    struct seat *s = w->seat;
    biasrun_answer a = made(w, BIASRUN_OF_ENTER, o);
    if (s->holds == MOST_HOLDS) {
        bad(w, "enter", a, BIASRUN_REFUSED, BIASRUN_TOO_DEEP, 0);
        return;
    }
    uint32_t path = a.detail;
    bool again = path == BIASRUN_BIAS_OWN || path == BIASRUN_STACK_AGAIN || path == BIASRUN_MONITOR_AGAIN;
    bool first = path == BIASRUN_BIAS_OWN || path == BIASRUN_BIAS_TAKEN || path == BIASRUN_STACK_FIRST || path == BIASRUN_MONITOR_FIRST;
    want(w, "enter", a, BIASRUN_DONE, path, 0);
    if (!(s->depth[o] ? again : first) || (!biased && path <= BIASRUN_BIAS_TAKEN))
        wrong(w, "an enter goes by this path", a);
    if (s->depth[o])
        owns(w, o);
    else
        need(w, object[o].owner == 0 && object[o].depth == 0, "an object is entered that another thread holds");
    object[o].owner = s->number + 1;
    object[o].depth++;
    object[o].raised++;
    s->raised[o]++;
    s->depth[o]++;
    s->holds++;
    logs(w, (biasrun_entry){.kind = BIASRUN_ENTERED, .object = o, .detail = path});
}

static void leave_once(struct worker *w, uint32_t o) {
    struct seat *s = w->seat;
    owns(w, o);
    s->depth[o]--;
    if (--object[o].depth == 0)
        object[o].owner = 0;
    want(w, "exit", made(w, BIASRUN_OF_EXIT, o), BIASRUN_DONE, 0, 0);
    s->holds--;
    logs(w, (biasrun_entry){.kind = BIASRUN_EXITED, .object = o});
}

/* The object with the highest number that the thread holds, plus 1, or 0. */
static uint32_t highest(const struct seat *s) {
    uint32_t o = objects;
    while (o && !s->depth[o - 1])
        o--;
    return o;
}

/* An object that the thread holds, which it does. */
static uint32_t held(const struct seat *s, uint64_t chosen) {
    uint32_t o = chosen % objects;
    while (!s->depth[o])
        o = (o + 1) % objects;
    return o;
}

static void leave_all(struct worker *w) {
    while (w->seat->holds)
        leave_once(w, held(w->seat, draw(&w->noise, objects)));
}

/* The thread lets the object go within the wait. Before that nobody else looks at what is known of it. */
static void wait_on(struct worker *w, uint32_t o) {
    struct seat *s = w->seat;
    struct object *at = &object[o];
    owns(w, o);
    at->queue[at->queued++] = s->number;
    at->owner = at->depth = 0;
    atomic_fetch_add(&at->sleepers, 1);
    want(w, "wait", made(w, BIASRUN_OF_WAIT, o), BIASRUN_DONE, 0, 0);
    atomic_fetch_sub(&at->sleepers, 1);
    need(w, at->owner == 0 && at->depth == 0, "a wait is done while another thread holds the object");
    for (unsigned k = 0; k < at->queued; k++)
        need(w, at->queue[k] != s->number, "a wait is done that nobody notified");
    at->owner = s->number + 1;
    at->depth = s->depth[o];
    logs(w, (biasrun_entry){.kind = BIASRUN_WAITED, .object = o});
    logs(w, (biasrun_entry){.kind = BIASRUN_RESUMED, .object = o});
}

/* A wait, where not all others wait, and nobody else waits with other holds. */
static void maybe_wait(struct worker *w) {
    struct seat *s = w->seat;
    uint32_t o = highest(s);
    unsigned none = 0, others = atomic_load(&awake);
    if (!o)
        return;
    bool alone = s->depth[o - 1] == s->holds;
    while (others > 1 && !atomic_compare_exchange_strong(&awake, &others, others - 1))
        ;
    if (others <= 1)
        return;
    if (alone)
        wait_on(w, o - 1);
    else if (rescues && atomic_compare_exchange_strong(&token, &none, 1)) {
        atomic_store(&rescue, o);
        wait_on(w, o - 1);
        atomic_store(&over, 1);
    }
    atomic_fetch_add(&awake, 1);
}

static void notify(struct worker *w, uint32_t o, bool all) {
    struct object *at = &object[o];
    unsigned first = at->queue[0], count = at->queued;
    owns(w, o);
    biasrun_answer a = made(w, all ? BIASRUN_OF_NOTIFY_ALL : BIASRUN_OF_NOTIFY, o);
    want(w, "notify", a, BIASRUN_DONE, !all && count, all ? count : count ? first : 0);
    at->queued -= all ? count : count != 0;
    memmove(at->queue, at->queue + 1, at->queued * sizeof *at->queue);
    logs(w, (biasrun_entry){.kind = all ? BIASRUN_NOTIFIED_ALL : BIASRUN_NOTIFIED, .object = o, .detail = a.detail, .number = a.word});
}

static void hash(struct worker *w, uint32_t o) {
    uint64_t known = 0;
    biasrun_answer a = made(w, BIASRUN_OF_HASH, o);
    want(w, "hash", a, BIASRUN_DONE, 0, a.word);
    if (a.word == 0 || a.word >= UINT64_C(1) << 31)
        wrong(w, "a hash", a);
    if (!atomic_compare_exchange_strong_explicit(&object[o].hash, &known, a.word + 1, memory_order_relaxed, memory_order_relaxed) && known != a.word + 1)
        wrong(w, "a hash is another one than before", a);
    logs(w, (biasrun_entry){.kind = BIASRUN_HASHED, .object = o, .number = a.word});
}

static void get_or_put(struct worker *w, uint32_t o, bool put) {
    if (!object[o].slots)
        return;
    struct call c = {put ? PUT : GET, o, draw(&w->choice, object[o].slots), drawn_value(&w->choice)};
    biasrun_value v = {7, 7, 7}, *known = &object[o].slot[c.slot];
    owns(w, o);
    biasrun_answer a = make(w, &c, &v);
    want(w, put ? "put" : "get", a, BIASRUN_DONE, put ? 0 : known->kind, 0);
    need(w, put || same(v, *known), "a get gives another value than the last put");
    if (put)
        *known = c.value;
    logs(w, (biasrun_entry){.kind = put ? BIASRUN_STORED : BIASRUN_GOT, .object = o, .detail = c.slot, .value = *known});
}

static void print(struct worker *w) {
    struct call c = {PRINT, 0, 0, drawn_value(&w->choice)};
    want(w, "print", make(w, &c, 0), BIASRUN_DONE, 0, 0);
    logs(w, (biasrun_entry){.kind = BIASRUN_PRINTED, .value = c.value});
}

static void dump(struct worker *w) {
    struct seat *s = w->seat;
    biasrun_answer a = made(w, BIASRUN_OF_DUMP, 0);
    if (s->dumps == MOST_DUMPS) {
        bad(w, "dump", a, BIASRUN_REFUSED, BIASRUN_TOO_MANY_DUMPS, 0);
        return;
    }
    s->dumped[s->dumps].length = s->length;
    memcpy(s->dumped[s->dumps].depth, s->depth, sizeof s->depth);
    want(w, "dump", a, BIASRUN_DONE, 0, ++s->dumps);
    logs(w, (biasrun_entry){.kind = BIASRUN_DUMPED, .number = s->dumps});
}

static void finish(struct worker *w) {
    want(w, "finish", made(w, FINISH, 0), BIASRUN_DONE, 0, 0);
    w->seat->ended = true;
    logs(w, (biasrun_entry){.kind = BIASRUN_FINISHED});
    MISUSE(biasrun_enter(&w->seat->pass, 0, 0), BIASRUN_ENDED);
    MISUSE(biasrun_finish(&w->seat->pass), BIASRUN_ENDED);
    give_way_to_others(w, 0);
}

/* Enters one object until the thread has as many holds as it may have, the last of them sometimes on a higher object, and once more. It polls
   then, so that others can revoke the biases of what it holds: that is why some workers begin so, while objects are biased still. */
static void dive(struct worker *w, uint32_t o, unsigned polls) {
    uint32_t last = o + (draw(&w->noise, 4) ? 0 : draw(&w->noise, objects - o));
    while (w->seat->holds < MOST_HOLDS - 1) {
        enter(w, o);
        if (draw(&w->noise, 32) == 0)
            give_way_to_others(w, 0);
    }
    enter(w, last);
    enter(w, o);
    for (unsigned k = 0; k < polls; k++)
        give_way_to_others(w, 0);
    leave_once(w, last);
    while (w->seat->depth[o] > 1)
        leave_once(w, o);
}

/* MISUSES of a thread that runs and has nothing pending. */

/* A refusal comes after a page was handed out, where that is full. */
static void refused(struct worker *w, uint32_t what, uint32_t o, uint32_t why) {
    bad(w, "a call without a hold", made(w, what, o), BIASRUN_REFUSED, why, 0);
}

static void misuse_of_hold(struct worker *w, uint32_t o) {
    static const uint32_t asks[] = {BIASRUN_OF_EXIT, BIASRUN_OF_WAIT, BIASRUN_OF_NOTIFY, BIASRUN_OF_NOTIFY_ALL, GET, PUT};
    uint32_t what = asks[draw(&w->noise, 6)];
    if (w->seat->depth[o] || (what >= GET && !object[o].slots))
        return;
    refused(w, what, o, what >= GET ? BIASRUN_UNGUARDED : BIASRUN_NOT_OWNER);
}

static void misuse_of_operand(struct worker *w, uint32_t o) {
    biasrun_handle *p = &w->seat->pass;
    biasrun_value v = {BIASRUN_NUMBER, 0, INT64_C(1) << 61}, kept = {9, 9, 9};
    biasrun_entry e;
    switch (draw(&w->noise, 8)) {
    case 0: MISUSE(biasrun_enter(p, objects + draw(&w->noise, 9), 0), BIASRUN_NO_OBJECT); return;
    case 1: MISUSE(biasrun_hash(p, UINT32_MAX, 0), BIASRUN_NO_OBJECT); return;
    case 2: MISUSE(biasrun_get(p, o, object[o].slots, &kept), BIASRUN_NO_SLOT); break;
    case 3: MISUSE(biasrun_put(p, o, object[o].slots, (biasrun_value){0, 0, 0}), BIASRUN_NO_SLOT); return;
    case 4: MISUSE(biasrun_print(p, v), BIASRUN_NO_VALUE); return;
    case 5: MISUSE(biasrun_print(p, (biasrun_value){BIASRUN_OBJECT, objects, 0}), BIASRUN_NO_VALUE); return;
    case 6: MISUSE(biasrun_put(p, o, 0, (biasrun_value){3, 0, 0}), BIASRUN_NO_VALUE); return;
    default: MISUSE(biasrun_page_entry(p, w->seat->page + draw(&w->noise, 3), &e), BIASRUN_NO_ENTRY); return;
    }
    need(w, kept.kind == 9 && kept.number == 9, "a get that is misuse changes the value");
}

static void misuse_of_handle(struct worker *w) {
    biasrun_handle *p = &w->seat->pass, none = BIASRUN_EMPTY;
    switch (draw(&w->noise, 8)) {
    case 0: MISUSE(biasrun_enter(&none, 0, 0), BIASRUN_EMPTY_HANDLE); return;
    case 1: MISUSE(biasrun_leave(&none), BIASRUN_EMPTY_HANDLE); return;
    case 2: MISUSE(biasrun_rest_length(p, 0), BIASRUN_OTHER_KIND); return;
    case 3: MISUSE(biasrun_close(p), BIASRUN_OTHER_KIND); return;
    case 4: MISUSE(biasrun_free(p), BIASRUN_OTHER_KIND); return;
    case 5: MISUSE(biasrun_resume(p), BIASRUN_RUNNING); return;
    case 6: MISUSE(biasrun_leave(p), BIASRUN_RUNNING); return;
    default:
        if (w->seat->holds)
            MISUSE(biasrun_finish(p), BIASRUN_HOLDING);
    }
}

static void misuse(struct worker *w, uint32_t o) {
    switch (draw(&w->noise, 3)) {
    case 0: misuse_of_hold(w, o); break;
    case 1: misuse_of_operand(w, o); break;
    default: misuse_of_handle(w);
    }
    check_length(w);
}

/* PASSES. */

/* A pass of a thread that hasn't ended, out of those that nobody has. Under the lock. */
static struct seat *picked(struct worker *w) {
    uint64_t from = draw(&w->noise, MOST_THREADS);
    for (unsigned k = 0; k < idle_count; k++) {
        unsigned at = (from + k) % idle_count;
        struct seat *s = idle[at];
        if (!s->ended) {
            idle[at] = idle[--idle_count];
            return s;
        }
    }
    return 0;
}

static void take_pass(struct worker *w, struct seat *s) {
    biasrun_handle other = BIASRUN_EMPTY;
    w->seat = s;
    DONE(biasrun_pass(&heap, s->number, &s->pass));
    s->page = 0;
    MISUSE(biasrun_pass(&heap, s->number, &s->pass), BIASRUN_TAKEN);
    MISUSE(biasrun_pass(&heap, s->number, &other), BIASRUN_PASS_TAKEN);
    MISUSE(biasrun_pass(&heap, threads, &other), BIASRUN_NO_THREAD);
    MISUSE(biasrun_close(&heap), BIASRUN_IN_USE);
    check_length(w);
}

static void give_back(struct worker *w) {
    check_length(w);
    DONE(biasrun_leave(&w->seat->pass));
    MISUSE(biasrun_poll(&w->seat->pass), BIASRUN_EMPTY_HANDLE);
    idle[idle_count++] = w->seat;
}

/* The worker gives its pass back and takes another one; its thread ends before that where it is asked to and another one is left. */
static void change_pass(struct worker *w, bool ends) {
    leave_all(w);
    DONE(biasrun_stop(&w->seat->pass));
    pthread_mutex_lock(&lock);
    struct seat *next = ends ? picked(w) : 0;
    pthread_mutex_unlock(&lock);
    if (next) {
        set_running_again(w);
        finish(w);
        DONE(biasrun_stop(&w->seat->pass));
        misuse_stopped(w, 0);
    }
    pthread_mutex_lock(&lock);
    give_back(w);
    take_pass(w, next ? next : picked(w));
    pthread_mutex_unlock(&lock);
    set_running_again(w);
}

/* TURNS. */

/* An object that the thread may enter: one that it holds, or one above all those. */
static uint32_t may_enter(struct worker *w, uint32_t o) {
    uint32_t top = highest(w->seat);
    if (!top || w->seat->depth[o] || o >= top)
        return o;
    return held(w->seat, o);
}

/* What is done with an object that the thread holds. */
static void inside(struct worker *w, uint64_t kind, uint32_t o) {
    if (kind < 25)
        get_or_put(w, o, kind < 12);
    else if (kind < 32)
        notify(w, o, kind < 28);
    else if (kind < 37)
        maybe_wait(w);
    else if (kind == 37)
        dive(w, highest(w->seat) - 1, draw(&w->noise, 8));
    else
        leave_once(w, o);
}

static void turn(struct worker *w) {
    uint64_t kind = draw(&w->choice, 100), rare = draw(&w->choice, 8);
    uint32_t o = draw(&w->choice, 16) < home ? w->number % objects : draw(&w->choice, objects);
    for (uint32_t k = 0; k < objects; k++)
        if (w->seat->depth[k])
            owns(w, k);
    if (kind < 60 && w->seat->holds)
        inside(w, kind, held(w->seat, o));
    else if (kind < 84 && w->seat->holds < deep)
        enter(w, may_enter(w, o));
    else if (kind < 88)
        print(w);
    else if (kind < 90)
        hash(w, o);
    else if (kind < 94)
        misuse(w, o);
    else if (kind < 97)
        give_way_to_others(w, 0);
    else if (kind == 97)
        hand_out(w, 0);
    else if (kind == 98 && rare < 4)
        change_pass(w, rare == 0);
    else if (kind == 98 && rare < 6)
        check_stuck(w, 0);
    else if (rare < 4)
        dump(w);
    else
        leave_all(w);
}

/* Notifies all waiters, the highest objects first, until nobody has turns left. */
static void sweep(struct worker *w) {
    while (atomic_load(&working)) {
        for (uint32_t o = objects; o--;)
            if (atomic_load(&object[o].sleepers)) {
                enter(w, o);
                notify(w, o, true);
                leave_once(w, o);
            }
        stand_still(w, 0);
        sched_yield();
    }
}

static void *work(void *argument) {
    struct worker *w = argument;
    set_running_again(w);
    if (w->number % 8 == 0)
        dive(w, draw(&w->noise, objects), 20);
    for (unsigned k = 0; k < turns; k++) {
        w->choice = mixed(seed + 1000003 * (w->number + 1)) + 7919 * k;
        turn(w);
    }
    leave_all(w);
    atomic_fetch_sub(&working, 1);
    sweep(w);
    if (draw(&w->choice, 2))
        finish(w);
    DONE(biasrun_stop(&w->seat->pass));
    return 0;
}

/* Notifies who waits with other holds. It holds nothing then, and nobody that does is below it. */
static void *save(void *argument) {
    struct worker *w = argument;
    set_running_again(w);
    while (atomic_load(&working)) {
        uint32_t o = atomic_load(&rescue);
        if (o && atomic_load(&over)) {
            atomic_store(&over, 0);
            atomic_store(&rescue, 0);
            atomic_store(&token, 0);
        } else if (o) {
            enter(w, o - 1);
            notify(w, o - 1, true);
            leave_once(w, o - 1);
        }
        give_way_to_others(w, 0);
    }
    DONE(biasrun_stop(&w->seat->pass));
    return 0;
}

/* THE HEAP. */

static void misuse_plan(struct worker *w) {
    biasrun_handle none = BIASRUN_EMPTY;
    MISUSE(biasrun_begin(&heap, threads, page, hash_start, biased), BIASRUN_TAKEN);
    MISUSE(biasrun_begin(&none, draw(&w->noise, 2) ? 0 : MOST_THREADS + 1, page, hash_start, biased), BIASRUN_NO_THREAD);
    MISUSE(biasrun_begin(&none, threads, 400001 + draw(&w->noise, 1000), hash_start, biased), BIASRUN_TOO_MANY_ENTRIES);
    MISUSE(biasrun_add_class(&heap, MOST_SLOTS + 1 + draw(&w->noise, 1000)), BIASRUN_TOO_MANY_SLOTS);
    MISUSE(biasrun_add_object(&heap, classes + draw(&w->noise, 1000)), BIASRUN_NO_CLASS);
    MISUSE(biasrun_pass(&heap, 0, &none), BIASRUN_OTHER_KIND);
    MISUSE(biasrun_open(&none), BIASRUN_EMPTY_HANDLE);
}

static void plan(struct worker *w) {
    unsigned slots[MOST_CLASSES];
    DONE(biasrun_begin(&heap, threads, page, hash_start, biased));
    for (unsigned k = 0; k < classes; k++) {
        slots[k] = draw(&w->choice, 3) ? draw(&w->choice, 4) : draw(&w->choice, MOST_SLOTS + 1);
        ANSWERS(biasrun_add_class(&heap, slots[k]), 0, k);
    }
    for (unsigned o = 0; o < objects; o++) {
        unsigned of = draw(&w->choice, classes);
        object[o].slots = slots[of];
        for (unsigned k = 0; k < MOST_SLOTS; k++)
            object[o].slot[k] = (biasrun_value){BIASRUN_NUMBER, 0, 0};
        ANSWERS(biasrun_add_object(&heap, of), 0, o);
    }
    misuse_plan(w);
    DONE(biasrun_open(&heap));
    MISUSE(biasrun_open(&heap), BIASRUN_OTHER_KIND);
    for (unsigned t = 0; t < threads; t++) {
        seats[t].number = t;
        idle[idle_count++] = &seats[t];
    }
}

/* What sort of heap it is. A class has bulk rebiases and revocations where many of its objects go from thread to thread. */
static void choose(struct worker *w) {
    static const unsigned paces[] = {1, 100, 10000};
    bool bulk = draw(&w->choice, 4) == 0;
    threads = 2 + draw(&w->choice, MOST_THREADS - 1);
    rescues = threads > 2 && draw(&w->choice, 2);
    workers = threads - rescues;
    workers = workers > 3 ? workers - draw(&w->choice, 3) : workers;
    classes = bulk ? 1 : 1 + draw(&w->choice, MOST_CLASSES);
    objects = bulk ? 50 + draw(&w->choice, 51) : 1 + draw(&w->choice, draw(&w->choice, 2) ? 4 : 40);
    page = draw(&w->choice, 3) ? 1 + draw(&w->choice, 1 << draw(&w->choice, 13)) : 0;
    biased = bulk || draw(&w->choice, 3);
    hash_start = draw(&w->choice, 2) ? draw(&w->choice, UINT64_C(1) << 32) : draw(&w->choice, 3);
    turns = (page ? 60 : 200) << draw(&w->choice, 4);
    deep = bulk ? 1 + draw(&w->choice, 3) : 2 + draw(&w->choice, 12);
    home = bulk ? 0 : draw(&w->choice, 17);
    pace = paces[draw(&w->choice, 3)];
}

/* The thread waits, and no other one runs: the wait is pending at once. */
static void begin_wait(struct worker *w, uint32_t o) {
    enter(w, o);
    hand_out(w, 0);
    object[o].owner = object[o].depth = 0;
    biasrun_answer a = biasrun_wait(&w->seat->pass, o, now());
    want(w, "wait", a, BIASRUN_PENDING, BIASRUN_NOT_NOTIFIED, a.word);
    logs(w, (biasrun_entry){.kind = BIASRUN_WAITED, .object = o});
}

/* Threads that haven't ended end, or wait for a notify that nobody can make any more. The last one finds the run stuck, and all hear of it. */
static void halt(struct worker *w) {
    struct seat *waits[MOST_THREADS], *s;
    unsigned count = 0;
    while ((s = picked(w))) {
        take_pass(w, s);
        set_running_again(w);
        bool last = true;
        for (unsigned k = 0; k < idle_count; k++)
            last = last && idle[k]->ended;
        if (!last && draw(&w->choice, 3) == 0) {
            finish(w);
            DONE(biasrun_stop(&s->pass));
            give_back(w);
            continue;
        }
        begin_wait(w, draw(&w->choice, objects));
        waits[count++] = s;
        if (last)
            ANSWERS(biasrun_check_stuck(&s->pass), 1, 0);
        else
            DONE(biasrun_stop(&s->pass));
    }
    for (unsigned k = 0; k < count; k++) {
        w->seat = waits[k];
        biasrun_answer a = biasrun_resume(&waits[k]->pass);
        want(w, "resume", a, BIASRUN_PENDING, BIASRUN_HALTED, a.word);
        give_back(w);
    }
    DONE(biasrun_close(&heap));
    ANSWERS(biasrun_was_halted(&heap), count != 0, 0);
}

/* WHAT IS LEFT. */

static void put_words(FILE *to, const uint64_t *words, size_t count) {
    fwrite(words, sizeof *words, count, to);
}

static uint64_t word_of(struct worker *w, const char *what, biasrun_answer a) {
    want(w, what, a, BIASRUN_DONE, 0, a.word);
    return a.word;
}

/* A dump tells of the objects that its own thread held just that, and of no other one that this thread held it. */
static void left_of_dump(struct worker *w, FILE *to, const struct seat *s, unsigned k) {
    for (unsigned t = 0; t < threads; t++) {
        uint64_t cut = word_of(w, "dump_cut", biasrun_dump_cut(&heap, s->number, k, t));
        need(w, cut <= seats[t].length && (t != s->number || cut == s->dumped[k].length), "the cut of a dump");
        put_words(to, &cut, 1);
    }
    for (unsigned o = 0; o < objects; o++) {
        biasrun_answer a = biasrun_dump_cell(&heap, s->number, k, o);
        uint64_t cell[2] = {a.detail, a.word};
        want(w, "dump_cell", a, BIASRUN_DONE, a.detail, a.word);
        bool own = a.detail && a.word == s->number;
        need(w, own == (s->dumped[k].depth[o] != 0) && (!own || a.detail == s->dumped[k].depth[o]), "a dump tells another hold of its own thread");
        put_words(to, cell, 2);
    }
}

static void left_of_thread(struct worker *w, FILE *to, struct seat *s) {
    biasrun_counts c;
    biasrun_entry e;
    add_rest(&heap, s->number, &s->log);
    MISUSE(biasrun_rest_entry(&heap, s->number, word_of(w, "rest_length", biasrun_rest_length(&heap, s->number)), &e), BIASRUN_NO_ENTRY);
    need(w, s->log.length == (page ? s->length : 0), "a log has another length");
    uint64_t chain = 0;
    for (size_t k = 0; k < s->log.length; k++)
        chain = chained(chain, &s->log.entries[k]);
    need(w, !page || chain == s->chain, "a log has other entries than its thread's calls made");
    for (unsigned k = 0; k < classes; k++) {
        DONE(biasrun_class_counts(&heap, s->number, k, &c));
        need(w, biased || c.single + c.rebias + c.revoke == 0, "biases are revoked where there are none");
    }
    uint64_t sizes[2] = {s->log.length, s->dumps};
    put_words(to, sizes, 2);
    fwrite(s->log.entries, sizeof(biasrun_entry), s->log.length, to);
    for (unsigned k = 0; k < s->dumps; k++)
        left_of_dump(w, to, s, k);
    MISUSE(biasrun_dump_cut(&heap, s->number, s->dumps, 0), BIASRUN_NO_DUMP);
    free(s->log.entries);
}

static void left(struct worker *w, const char *name) {
    FILE *to = fopen(name, "wb");
    if (!to) {
        perror(name);
        exit(1);
    }
    uint64_t head[] = {threads, objects, page, biased, hash_start};
    put_words(to, head, 5);
    for (unsigned o = 0; o < objects; o++) {
        uint64_t slots = object[o].slots;
        unsigned long raised = 0;
        for (unsigned t = 0; t < threads; t++)
            raised += seats[t].raised[o];
        need(w, raised == object[o].raised, "a count that owners raise alone");
        put_words(to, &slots, 1);
    }
    for (unsigned t = 0; t < threads; t++)
        left_of_thread(w, to, &seats[t]);
    fclose(to);
    MISUSE(biasrun_close(&heap), BIASRUN_OTHER_KIND);
    DONE(biasrun_free(&heap));
}

/* Has the workers and the rescuer fight, and adds up what they counted. */
static void fight(struct worker *w, struct worker *all) {
    pthread_t started[MOST_THREADS];
    unsigned many = workers + rescues;
    atomic_store(&working, workers);
    atomic_store(&awake, workers);
    for (unsigned k = 0; k < many; k++) {
        all[k].number = k;
        all[k].noise = mixed(seed ^ mixed(k));
        take_pass(&all[k], picked(w));
    }
    for (unsigned k = 0; k < many; k++)
        if (pthread_create(&started[k], 0, k < workers ? work : save, &all[k])) {
            fprintf(stderr, "no thread can be started\n");
            exit(1);
        }
    for (unsigned k = 0; k < many; k++) {
        pthread_join(started[k], 0);
        give_back(&all[k]);
        w->calls += all[k].calls;
        w->misuses += all[k].misuses;
        w->entries += all[k].entries;
    }
}

int main(int count, char **words) {
    static struct worker all[MOST_THREADS + 1];
    struct worker *w = &all[MOST_THREADS];
    if (count != 3)
        return 2;
    seed = strtoull(words[1], 0, 10);
    w->number = MOST_THREADS;
    w->choice = mixed(seed);
    alarm(SECONDS);
    choose(w);
    plan(w);
    fight(w, all);
    if (draw(&w->choice, 4) == 0)
        halt(w);
    else
        DONE(biasrun_close(&heap));
    w->seat = 0;
    left(w, words[2]);
    printf("%u %lu %lu %lu\n", threads, w->calls, w->entries, w->misuses);
    return 0;
}
