/*
 * What the threads of tools/c_fight.c know, and how they make a call until it is done: what they know of an object, of a thread of the heap and of
 * themselves; how they draw; and what they do, and may not do, while they are stopped, ask for a safepoint, or have an operation pending.
 */
#ifndef C_FIGHT_H
#define C_FIGHT_H
#include <pthread.h>
#include <stdatomic.h>
#include <unistd.h>

#include "common.h"

enum { MOST_THREADS = 16, MOST_CLASSES = 8, MOST_OBJECTS = 100, MOST_SLOTS = 16, MOST_HOLDS = 64, MOST_DUMPS = 4, SECONDS = 300 };

/* The operations of the header have its numbers; these make no unfinished one. */
enum { GET = 8, PUT, PRINT, FINISH };

struct call {
    uint32_t what, object, slot;
    biasrun_value value;
};

/* An object, and what is known of it. All but the last two is touched by the thread that holds it alone, and by no atomic act, so that two owners show. */
struct object {
    unsigned slots, owner, depth, queued, queue[MOST_THREADS]; /* the owner's number plus 1, or 0; who waits, in order */
    unsigned long raised;
    biasrun_value slot[MOST_SLOTS];
    _Atomic uint64_t hash; /* plus 1, or 0 before anybody asked */
    atomic_uint sleepers;  /* who is in a wait, before it has let go and after it was notified, too */
};

struct dump {
    uint64_t length;
    unsigned depth[MOST_OBJECTS];
};

/* A thread of the heap, and what is known of it. Whoever has its pass has this. */
struct seat {
    unsigned number, holds, dumps;
    bool ended;
    biasrun_handle pass;
    struct log log;
    uint64_t length, page, chain; /* how many entries were logged, the last page's, and a hash of them all */
    unsigned depth[MOST_OBJECTS];
    unsigned long raised[MOST_OBJECTS];
    struct dump dumped[MOST_DUMPS];
};

/* A thread of the system. Its choices are drawn anew for each turn, so that what others do doesn't change them; `noise` is for what it does meanwhile. */
struct worker {
    unsigned number;
    uint64_t choice, noise;
    unsigned long calls, misuses, entries;
    struct seat *seat;
};

static uint64_t seed;
static unsigned threads, workers, classes, objects, page, turns, deep, home, pace, hash_start;
static bool biased, rescues;
static struct object object[MOST_OBJECTS];
static struct seat seats[MOST_THREADS];

/* DRAWS. */

static uint64_t mixed(uint64_t x) {
    x = (x ^ x >> 30) * 0xbf58476d1ce4e5b9;
    x = (x ^ x >> 27) * 0x94d049bb133111eb;
    return x ^ x >> 31;
}

static uint64_t draw(uint64_t *state, uint64_t below) {
    return mixed(*state += 0x9e3779b97f4a7c15) % below;
}

static biasrun_value drawn_value(uint64_t *state) {
    uint64_t kind = draw(state, 8);
    if (kind == 0)
        return (biasrun_value){BIASRUN_NIL, 0, 0};
    if (kind == 1)
        return (biasrun_value){BIASRUN_OBJECT, draw(state, objects), 0};
    if (kind == 2)
        return (biasrun_value){BIASRUN_NUMBER, 0, draw(state, 2) ? (INT64_C(1) << 61) - 1 : -(INT64_C(1) << 61)};
    return (biasrun_value){BIASRUN_NUMBER, 0, (int64_t)draw(state, UINT64_C(1) << 62) - (INT64_C(1) << 61)};
}

static bool same(biasrun_value a, biasrun_value b) {
    return a.kind == b.kind && a.object == b.object && a.number == b.number;
}

/* WHAT IS WRONG. */

static _Noreturn void wrong(const struct worker *w, const char *what, biasrun_answer a) {
    static atomic_flag told = ATOMIC_FLAG_INIT;
    if (!atomic_flag_test_and_set(&told)) {
        fprintf(stderr, "worker %u, thread %u: %s: kind %u, detail %u, word %" PRIu64 "\n", w->number, w->seat ? w->seat->number : 0, what, a.kind,
                a.detail, a.word);
        _exit(1);
    }
    for (;;)
        pause();
}

/* The call has to be answered so. */
static void want(struct worker *w, const char *what, biasrun_answer a, uint32_t kind, uint32_t detail, uint64_t word) {
    w->calls++;
    if (a.kind != kind || a.detail != detail || a.word != word)
        wrong(w, what, a);
}

/* The same of a call that may not be made, or is refused. */
static void bad(struct worker *w, const char *what, biasrun_answer a, uint32_t kind, uint32_t detail, uint64_t word) {
    want(w, what, a, kind, detail, word);
    w->misuses++;
}

#define DONE(call) want(w, #call, call, BIASRUN_DONE, 0, 0)
#define ANSWERS(call, detail, word) want(w, #call, call, BIASRUN_DONE, detail, word)
#define MISUSE(call, why) bad(w, #call, call, BIASRUN_MISUSE, why, 0)
#define UNFINISHED(call, of) bad(w, #call, call, BIASRUN_MISUSE, BIASRUN_UNFINISHED, of)
#define REFUSED(call, why) bad(w, #call, call, BIASRUN_REFUSED, why, 0)

/* This has to be so; `what` is told where it isn't. */
static void need(struct worker *w, bool is_so, const char *what) {
    if (!is_so)
        wrong(w, what, (biasrun_answer){0, 0, 0});
}

/* The objects that the thread holds are its own, as often as it knows. */
static void owns(struct worker *w, uint32_t o) {
    need(w, object[o].owner == w->seat->number + 1 && object[o].depth == w->seat->depth[o], "an object that this thread holds is another's");
}

/* THE LOG. */

/* Hands out a page. `more` is how many entries the operation that is pending may have logged already. */
static void hand_out(struct worker *w, unsigned more) {
    struct seat *s = w->seat;
    biasrun_answer a = biasrun_take_page(&s->pass);
    biasrun_entry e;
    want(w, "take_page", a, BIASRUN_DONE, 0, a.word);
    for (uint64_t k = 0; k < a.word; k++)
        DONE(biasrun_page_entry(&s->pass, k, next_of(&s->log)));
    MISUSE(biasrun_page_entry(&s->pass, a.word, &e), BIASRUN_NO_ENTRY);
    s->page = a.word;
    need(w, page ? s->log.length - s->length <= more : a.word == 0, "a page has another length");
}

/* The hash of some entries and one more, by what the call that logged it tells: that isn't the stamp, and not whether a hash was drawn. */
static uint64_t chained(uint64_t chain, const biasrun_entry *e) {
    chain = mixed(chain ^ ((uint64_t)e->kind << 32 | e->object));
    chain = mixed(chain ^ ((uint64_t)(e->kind == BIASRUN_HASHED ? 0 : e->detail) << 32 | e->number));
    chain = mixed(chain ^ ((uint64_t)e->value.kind << 32 | e->value.object));
    return mixed(chain ^ (uint64_t)e->value.number);
}

/* The thread has logged this entry. */
static void logs(struct worker *w, biasrun_entry e) {
    w->seat->chain = chained(w->seat->chain, &e);
    w->seat->length++;
    w->entries++;
}

static void check_length(struct worker *w) {
    ANSWERS(biasrun_log_length(&w->seat->pass), 0, w->seat->length);
}

/* CALLS. */

static uint64_t now(void) {
    return moment() * pace;
}

static biasrun_answer once(struct worker *w, const struct call *c, biasrun_value *out) {
    biasrun_handle *p = &w->seat->pass;
    w->calls++;
    switch (c->what) {
    case BIASRUN_OF_ENTER: return biasrun_enter(p, c->object, now());
    case BIASRUN_OF_EXIT: return biasrun_exit(p, c->object);
    case BIASRUN_OF_WAIT: return biasrun_wait(p, c->object, now());
    case BIASRUN_OF_NOTIFY: return biasrun_notify(p, c->object, now());
    case BIASRUN_OF_NOTIFY_ALL: return biasrun_notify_all(p, c->object, now());
    case BIASRUN_OF_HASH: return biasrun_hash(p, c->object, now());
    case BIASRUN_OF_DUMP: return biasrun_dump(p);
    case GET: return biasrun_get(p, c->object, c->slot, out);
    case PUT: return biasrun_put(p, c->object, c->slot, c->value);
    case PRINT: return biasrun_print(p, c->value);
    default: return biasrun_finish(p);
    }
}

static void set_running_again(struct worker *w) {
    biasrun_answer a;
    while ((a = biasrun_resume(&w->seat->pass)).kind == BIASRUN_PENDING && (a.detail == BIASRUN_REQUESTED || a.detail == BIASRUN_RACED)) {
        w->calls++;
        sched_yield();
    }
    want(w, "resume", a, BIASRUN_DONE, 0, 0);
}

/* Calls that a thread may not make while it is stopped; `c` is what it has unfinished, or null. */
static void misuse_stopped(struct worker *w, const struct call *c) {
    biasrun_handle *p = &w->seat->pass;
    biasrun_value v;
    switch (draw(&w->noise, 6)) {
    case 0: MISUSE(biasrun_poll(p), BIASRUN_STOPPED); return;
    case 1: MISUSE(biasrun_stop(p), BIASRUN_STOPPED); return;
    case 2:
        if (w->seat->ended)
            MISUSE(biasrun_check_stuck(p), BIASRUN_ENDED);
        else
            MISUSE(biasrun_check_stuck(p), BIASRUN_STOPPED);
        return;
    case 3:
        if (c)
            bad(w, "the pending call, stopped", once(w, c, &v), BIASRUN_MISUSE, BIASRUN_STOPPED, 0);
        else
            MISUSE(biasrun_enter(p, objects, 0), w->seat->ended ? BIASRUN_ENDED : BIASRUN_STOPPED);
        return;
    case 4:
        if (c)
            UNFINISHED(biasrun_print(p, drawn_value(&w->noise)), c->what);
        else
            MISUSE(biasrun_print(p, drawn_value(&w->noise)), w->seat->ended ? BIASRUN_ENDED : BIASRUN_STOPPED);
        return;
    default:
        if (c)
            UNFINISHED(biasrun_leave(p), c->what);
        else if (w->seat->holds)
            MISUSE(biasrun_leave(p), BIASRUN_HOLDING);
    }
}

static void stand_still(struct worker *w, const struct call *c) {
    DONE(biasrun_stop(&w->seat->pass));
    if (draw(&w->noise, 4) == 0)
        misuse_stopped(w, c);
    if (draw(&w->noise, 64) == 0)
        usleep(50);
    set_running_again(w);
}

static void give_way_to_others(struct worker *w, const struct call *c) {
    biasrun_answer a = biasrun_poll(&w->seat->pass);
    w->calls++;
    if (a.kind == BIASRUN_PENDING && a.detail == BIASRUN_REQUESTED)
        stand_still(w, c);
    else if (a.kind != BIASRUN_DONE)
        wrong(w, "poll", a);
    else if (draw(&w->noise, 32) == 0)
        stand_still(w, c);
    sched_yield();
}

/* Calls that a thread may not make while it asks for a safepoint, for this operation, or for a check where `c` is null. */
static void misuse_asking(struct worker *w, const struct call *c) {
    biasrun_handle *p = &w->seat->pass;
    switch (draw(&w->noise, 6)) {
    case 0: MISUSE(biasrun_poll(p), BIASRUN_ASKING); return;
    case 1: MISUSE(biasrun_stop(p), BIASRUN_ASKING); return;
    case 2: MISUSE(biasrun_resume(p), BIASRUN_ASKING); return;
    case 3: MISUSE(biasrun_leave(p), BIASRUN_ASKING); return;
    case 4:
        if (c)
            UNFINISHED(biasrun_check_stuck(p), c->what);
        return;
    default:
        if (c)
            UNFINISHED(biasrun_finish(p), c->what);
        else
            MISUSE(biasrun_finish(p), BIASRUN_CHECK_UNFINISHED);
    }
}

/* Somebody can always go on, so the run isn't stuck. */
static void check_stuck(struct worker *w, const struct call *c) {
    biasrun_answer a;
    while ((a = biasrun_check_stuck(&w->seat->pass)).kind == BIASRUN_PENDING) {
        w->calls++;
        if (a.detail != BIASRUN_STOPPING)
            give_way_to_others(w, c);
        else if (draw(&w->noise, 8) == 0)
            misuse_asking(w, 0);
        sched_yield();
    }
    want(w, "check_stuck", a, BIASRUN_DONE, 0, 0);
}

/* What else a thread may do, and may not, while an operation is pending and the thread runs. */
static void poke_pending(struct worker *w, const struct call *c) {
    biasrun_handle *p = &w->seat->pass;
    biasrun_value v;
    switch (draw(&w->noise, 8)) {
    case 0: ANSWERS(biasrun_unfinished(p), c->what, c->object); return;
    case 1: UNFINISHED(biasrun_finish(p), c->what); return;
    case 2: UNFINISHED(biasrun_get(p, c->object, 0, &v), c->what); return;
    case 3: UNFINISHED(biasrun_enter(p, c->object + 1, 0), c->what); return;
    case 4: MISUSE(biasrun_leave(p), BIASRUN_RUNNING); return;
    case 5: MISUSE(biasrun_resume(p), BIASRUN_RUNNING); return;
    case 6: hand_out(w, c->what == BIASRUN_OF_WAIT); return;
    default:
        if (draw(&w->noise, 8) == 0)
            check_stuck(w, c);
    }
}

static void pending(struct worker *w, const struct call *c, biasrun_answer a) {
    bool waits = c->what == BIASRUN_OF_WAIT;
    if (a.detail < BIASRUN_OWNED || a.detail >= BIASRUN_HALTED || (a.detail == BIASRUN_OWNED && !waits && c->what != BIASRUN_OF_ENTER) ||
        (a.detail == BIASRUN_NOT_NOTIFIED && !waits))
        wrong(w, "a call is pending", a);
    if (a.detail == BIASRUN_STOPPING) {
        if (draw(&w->noise, 8) == 0)
            misuse_asking(w, c);
        sched_yield();
        return;
    }
    if (draw(&w->noise, 16) == 0)
        poke_pending(w, c);
    give_way_to_others(w, c);
}

/* Makes the call until it is done or refused. A page is handed out where there is no room, and then there is. An exit, a finish, and a wait that has let
   go, have room always. */
static biasrun_answer make(struct worker *w, const struct call *c, biasrun_value *out) {
    bool has_room = !page || c->what == BIASRUN_OF_EXIT || c->what == FINISH;
    for (;;) {
        biasrun_answer a = once(w, c, out);
        if (a.kind == BIASRUN_PENDING) {
            has_room = has_room || a.detail == BIASRUN_NOT_NOTIFIED;
            pending(w, c, a);
        } else if (a.kind == BIASRUN_FULL && !has_room) {
            hand_out(w, 0);
            has_room = true;
        } else
            return a;
    }
}

static biasrun_answer made(struct worker *w, uint32_t what, uint32_t o) {
    struct call c = {what, o, 0, {0, 0, 0}};
    return make(w, &c, 0);
}
#endif
