/*
 * biasrun: HotSpot's monitors for a C runtime.
 *
 * A heap has threads and objects. Each thread makes its calls with its own pass, and each object is a monitor with slots. Every call is one try:
 * none waits, and none on an open heap takes memory, but for biasrun_pass, the first biasrun_take_page of a pass, and biasrun_close. Link the
 * program with liblock_runtime_c.a, liblibc_c.a and the threads' library. docs/LIBRARY.md shows how a runtime is built on it.
 *
 * HANDLES. A biasrun_handle has a plan, a heap, a pass or a closed heap, or nothing. What C owes:
 *   - a handle is zeroed (BIASRUN_EMPTY) before it is used first, and then it is as this library left it: C reads and writes none of its bytes;
 *   - it isn't copied, and what it has is given back by biasrun_leave or biasrun_free, else the memory is lost;
 *   - it is in one call at a time. Another thread may have it next, ordered by a thread's start or join, a lock, or a SeqCst atomic.
 *     So each thread makes its calls with the handle of its own pass. The handle of the heap stays with who opened it, or under a lock;
 *     to close the heap the passes have to be given back first, ordered in the same way;
 *   - it is in no call of a signal handler, and none of a forked child.
 * Every other argument may be anything: what a call asks is tested, and a call that may not be made is answered BIASRUN_MISUSE. It changes nothing.
 * `out` points to room for what it gets, and has another handle than the first argument.
 *
 * THE PROGRAM'S OWN DATA. Steps are sequentially consistent, and an enter that is done comes after the exit that let the object go. So data
 * that is touched between enter and exit alone is guarded, as under a mutex.
 */
#ifndef BIASRUN_H
#define BIASRUN_H

#include <stdbool.h>
#include <stdint.h>

#ifdef __cplusplus
extern "C" {
#endif

typedef struct biasrun_handle {
    void *pointer;
    uint64_t live;
} biasrun_handle;

#define BIASRUN_EMPTY { 0, 0 }

/* What a call came to. What `detail` and `word` say stands at each kind and each call; else they are 0. */
typedef struct biasrun_answer {
    uint32_t kind;
    uint32_t detail;
    uint64_t word;
} biasrun_answer;

enum biasrun_kind {
    BIASRUN_DONE = 0,
    /* Nothing is done yet, but for a wait that let go. The same call is to be made again; `detail` is the biasrun_cause, and `word` the
       word that was found. Until a pending operation is done the thread may begin no other one; a biasrun_check_stuck it may. */
    BIASRUN_PENDING = 1,
    /* The runtime refuses the call; `detail` is the biasrun_refusal. Nothing has changed. */
    BIASRUN_REFUSED = 2,
    /* The call may not be made; `detail` is the first biasrun_misuse that holds. Nothing has changed. */
    BIASRUN_MISUSE = 3,
    /* The page of the thread's log has no room for the call beside what the thread's holds need for their exits, and the thread for its end.
       Nothing has changed; biasrun_take_page makes room. After calls of this library alone no exit, no finish, and no wait that has let go is
       answered so. Where the heap keeps no log, no call is before the log has some 2^41 entries. */
    BIASRUN_FULL = 4,
    /* There is no memory: of biasrun_begin, add_class, add_object, open, pass, take_page and close alone. Nothing has changed, but that
       biasrun_take_page has let the page before go. */
    BIASRUN_NO_MEMORY = 5
};

enum biasrun_cause {
    /* Another thread owns the object's monitor. */
    BIASRUN_OWNED = 1,
    /* The thread waits, and wasn't notified. */
    BIASRUN_NOT_NOTIFIED = 2,
    /* Another thread changed a word meanwhile. */
    BIASRUN_RACED = 3,
    /* Another thread is inflating the object's lock. */
    BIASRUN_INFLATING = 4,
    /* The thread asks for a safepoint, and doesn't run: others run still. It makes the same call again; a poll or a stop is misuse. */
    BIASRUN_STOPPING = 5,
    /* Another thread asks for a safepoint: the thread has to stop, and to resume until that is done. */
    BIASRUN_REQUESTED = 6,
    /* Some thread found the run stuck. No thread resumes any more. */
    BIASRUN_HALTED = 7
};

enum biasrun_refusal {
    /* The thread has 64 holds. */
    BIASRUN_TOO_DEEP = 1,
    /* The thread has no hold on the object that it leaves, waits on or notifies. */
    BIASRUN_NOT_OWNER = 2,
    /* The thread has no hold on the object whose slot it reads or writes. */
    BIASRUN_UNGUARDED = 3,
    /* The thread has made 4 dumps. */
    BIASRUN_TOO_MANY_DUMPS = 4
};

/* In the order in which a call tries those that it may answer. But biasrun_pass looks at `out` before all else, and biasrun_put and
   biasrun_print at the kind of the value; biasrun_leave tries RUNNING, ASKING, UNFINISHED, HOLDING; and what is read of a closed heap tries the
   arguments from the left. */
enum biasrun_misuse {
    BIASRUN_EMPTY_HANDLE = 1,
    /* The handle has something of another kind than the call asks for: a plan, a heap, a pass, or a closed heap. */
    BIASRUN_OTHER_KIND = 2,
    /* `out` isn't empty. */
    BIASRUN_TAKEN = 3,
    /* Threads are 1 to 16; a thread is below their number. */
    BIASRUN_NO_THREAD = 4,
    /* The thread has its pass. */
    BIASRUN_PASS_TAKEN = 5,
    /* More than 400,000 entries for a page. */
    BIASRUN_TOO_MANY_ENTRIES = 6,
    /* More than 64 classes. */
    BIASRUN_TOO_MANY_CLASSES = 7,
    /* More than 16 slots. */
    BIASRUN_TOO_MANY_SLOTS = 8,
    /* More than 4,096 objects. */
    BIASRUN_TOO_MANY_OBJECTS = 9,
    /* The plan or heap has no such class. */
    BIASRUN_NO_CLASS = 10,
    /* The page, or what is left of the log, has no such entry. */
    BIASRUN_NO_ENTRY = 11,
    /* The thread has ended. */
    BIASRUN_ENDED = 12,
    /* A biasrun_check_stuck is pending for BIASRUN_STOPPING. */
    BIASRUN_CHECK_UNFINISHED = 13,
    /* Another operation is pending: `word` says which, as a biasrun_operation. biasrun_unfinished says the object, too. */
    BIASRUN_UNFINISHED = 14,
    /* The thread asks for a safepoint: what is pending has to be made again. */
    BIASRUN_ASKING = 15,
    /* The thread doesn't run. */
    BIASRUN_STOPPED = 16,
    /* The thread runs. */
    BIASRUN_RUNNING = 17,
    BIASRUN_NO_OBJECT = 18,
    BIASRUN_NO_SLOT = 19,
    /* The value is none: its kind is no biasrun_value_kind, its number isn't from -2^61 to 2^61 - 1, or there is no such object. */
    BIASRUN_NO_VALUE = 20,
    /* The thread holds an object. */
    BIASRUN_HOLDING = 21,
    /* A thread has a pass of the heap still. */
    BIASRUN_IN_USE = 22,
    /* Not all passes of the heap came back. After calls of this library alone no call is answered so. */
    BIASRUN_PASS_LOST = 23,
    /* The thread made no such dump. */
    BIASRUN_NO_DUMP = 24
};

enum biasrun_operation {
    BIASRUN_OF_ENTER = 1,
    BIASRUN_OF_EXIT = 2,
    BIASRUN_OF_WAIT = 3,
    BIASRUN_OF_NOTIFY = 4,
    BIASRUN_OF_NOTIFY_ALL = 5,
    BIASRUN_OF_HASH = 6,
    BIASRUN_OF_DUMP = 7
};

/* How an enter took the monitor. */
enum biasrun_path {
    BIASRUN_BIAS_OWN = 1,
    BIASRUN_BIAS_TAKEN = 2,
    BIASRUN_STACK_FIRST = 3,
    BIASRUN_STACK_AGAIN = 4,
    BIASRUN_MONITOR_FIRST = 5,
    BIASRUN_MONITOR_AGAIN = 6
};

/* What a slot may have. A slot begins as the number 0. */
typedef struct biasrun_value {
    uint32_t kind;
    uint32_t object; /* of BIASRUN_OBJECT, else 0 */
    int64_t number;  /* of BIASRUN_NUMBER, else 0 */
} biasrun_value;

enum biasrun_value_kind {
    BIASRUN_NIL = 0,
    BIASRUN_NUMBER = 1,
    BIASRUN_OBJECT = 2
};

/* An entry of a thread's log. */
typedef struct biasrun_entry {
    uint64_t stamp;
    uint32_t kind;
    uint32_t object;     /* of the kinds up to BIASRUN_MADE, else 0 */
    uint32_t detail;     /* as said at the kind, else 0 */
    uint32_t number;     /* as said at the kind, else 0 */
    biasrun_value value; /* of BIASRUN_GOT, BIASRUN_STORED and BIASRUN_PRINTED, else nil */
} biasrun_entry;

enum biasrun_entry_kind {
    BIASRUN_ENTERED = 1,       /* detail: the biasrun_path */
    BIASRUN_EXITED = 2,
    BIASRUN_GOT = 3,           /* detail: the slot */
    BIASRUN_STORED = 4,        /* detail: the slot */
    BIASRUN_WAITED = 5,
    BIASRUN_RESUMED = 6,
    BIASRUN_NOTIFIED = 7,      /* detail: 1 where a thread was woken; number: that thread */
    BIASRUN_NOTIFIED_ALL = 8,  /* number: how many were woken */
    BIASRUN_HASHED = 9,        /* detail: the number of the draw that gave the hash, from 1, or 0; number: the hash */
    BIASRUN_MADE = 10,         /* detail: the class. No call of this library logs it. */
    BIASRUN_PRINTED = 11,
    BIASRUN_DUMPED = 12,       /* number: of the dump, from 1 */
    BIASRUN_FAULTED = 13,      /* no call of this library logs it */
    BIASRUN_SPENT = 14,        /* no call of this library logs it */
    BIASRUN_FINISHED = 15
};

/* What came of the reviews of a class's biases that a thread carried out. */
typedef struct biasrun_counts {
    uint64_t single; /* one bias was revoked */
    uint64_t rebias; /* all biases of the class got a new epoch, so that each may be taken again */
    uint64_t revoke; /* the class's objects aren't biased any more */
    uint64_t reset;  /* the class's count of revocations was set to 0 first, since they were long ago */
} biasrun_counts;

/* A HEAP. It is planned class by class and object by object, and then opened. */

/* A plan in `out`, without classes and objects. Threads are 1 to 16. A page of each thread's log gets room for `entries`, at most 400,000, and for
   66 to 67 more. With 0 entries the heap keeps no log, and has the locks alone: see THE LOG. Hashes are drawn from generators that start from
   `hash_start`. With `biased` objects are biased to threads. */
biasrun_answer biasrun_begin(biasrun_handle *out, uint32_t threads, uint32_t entries, uint32_t hash_start, bool biased);
/* One more class, whose objects have so many slots. Done: `word` is its number, from 0. */
biasrun_answer biasrun_add_class(biasrun_handle *plan, uint32_t slots);
/* One more object. Done: `word` is its number, from 0. */
biasrun_answer biasrun_add_object(biasrun_handle *plan, uint32_t class_number);
/* The plan becomes its heap, in the same handle. */
biasrun_answer biasrun_open(biasrun_handle *plan);
/* The pass of this thread, from 0, in `out`. The thread is stopped. One that was given back is as it was then. */
biasrun_answer biasrun_pass(biasrun_handle *heap, uint32_t thread, biasrun_handle *out);
/* Closes the heap, of which no thread has a pass: what is left of it takes its place in the handle. A call that is answered otherwise leaves the
   heap as it was, but for BIASRUN_PASS_LOST: nothing is left then. */
biasrun_answer biasrun_close(biasrun_handle *heap);
/* Gives a plan, a heap or a closed heap back; its handle is empty then. Passes that were taken stay good. */
biasrun_answer biasrun_free(biasrun_handle *other_than_pass);

/* HOW A THREAD STANDS. A thread runs, is stopped, or is stopped and asks for a safepoint. Only one that runs begins operations. */

/* Whether another thread asks for a safepoint: pending for BIASRUN_REQUESTED where one does. The thread runs. */
biasrun_answer biasrun_poll(biasrun_handle *pass);
/* Stops the thread, which runs. One that will make no call for a while has to be stopped, since others may wait for it. */
biasrun_answer biasrun_stop(biasrun_handle *pass);
/* Sets the thread running, which is stopped. Pending for BIASRUN_REQUESTED, BIASRUN_RACED or BIASRUN_HALTED. */
biasrun_answer biasrun_resume(biasrun_handle *pass);

/* OPERATIONS. `now` is the moment in milliseconds, for the policy of bulk operations. It doesn't fall. */

/* Done: `detail` is the biasrun_path. */
biasrun_answer biasrun_enter(biasrun_handle *pass, uint32_t object, uint64_t now);
biasrun_answer biasrun_exit(biasrun_handle *pass, uint32_t object);
/* Done: the thread was notified, and has the object again with all of its holds. */
biasrun_answer biasrun_wait(biasrun_handle *pass, uint32_t object, uint64_t now);
/* Done: `detail` is 1 where a thread was woken, and `word` that thread. */
biasrun_answer biasrun_notify(biasrun_handle *pass, uint32_t object, uint64_t now);
/* Done: `word` is how many were woken. */
biasrun_answer biasrun_notify_all(biasrun_handle *pass, uint32_t object, uint64_t now);
/* Done: `word` is the object's identity hash. */
biasrun_answer biasrun_hash(biasrun_handle *pass, uint32_t object, uint64_t now);
/* Done: `out` is the slot's value, and `detail` its kind. Else `out` is as it was. */
biasrun_answer biasrun_get(biasrun_handle *pass, uint32_t object, uint32_t slot, biasrun_value *out);
biasrun_answer biasrun_put(biasrun_handle *pass, uint32_t object, uint32_t slot, biasrun_value value);
/* Logs the value. Nothing is written anywhere. */
biasrun_answer biasrun_print(biasrun_handle *pass, biasrun_value value);
/* Logs a dump, at a safepoint. Done: `word` is its number among the thread's dumps. */
biasrun_answer biasrun_dump(biasrun_handle *pass);
/* Whether the run is stuck, looked for at a safepoint. Done: `detail` is 1 where it is; then the run is halted, and this thread stopped. */
biasrun_answer biasrun_check_stuck(biasrun_handle *pass);
/* Ends the thread, which holds nothing. It may only poll, stop and resume then. */
biasrun_answer biasrun_finish(biasrun_handle *pass);
/* Done: `detail` is the biasrun_operation that is pending, and `word` its object, or 0 and 0. */
biasrun_answer biasrun_unfinished(biasrun_handle *pass);

/* Gives the pass back; its handle is empty then. The thread is stopped, asks for nothing, has nothing pending and holds nothing, or knows that
   the run is halted. It may take its pass again. */
biasrun_answer biasrun_leave(biasrun_handle *pass);

/* THE LOG of the pass's own thread. It is written page by page, and a page is handed out when the thread asks for it: before it is full, or when a
   call is answered BIASRUN_FULL. The pages of a thread, one after the other, and at last what biasrun_close leaves, are its log. Stamps order the
   entries of all threads; where two have the same, that of the lower thread comes first.

   A heap that was begun with 0 entries keeps none. They are stamped and counted as elsewhere, but every page is empty, and so is what
   biasrun_close leaves of the logs; dumps and counts it leaves as elsewhere. */

/* Done: `word` is how many entries the log has, with those that were handed out, or not kept. */
biasrun_answer biasrun_log_length(biasrun_handle *pass);
/* Hands out the entries since the last page, and makes room for as many again. Done: `word` is how many they are. They can be read until the pass
   is given back or hands out another page. A log has at most 2^41 entries: from there on no page makes room. */
biasrun_answer biasrun_take_page(biasrun_handle *pass);
/* Done: `out` is the entry of this number, from 0, of the page that was handed out last. Else `out` is as it was. */
biasrun_answer biasrun_page_entry(biasrun_handle *pass, uint64_t number, biasrun_entry *out);

/* A CLOSED HEAP. */

/* Done: `word` is how many entries of this thread's log no page had, of those that were kept. */
biasrun_answer biasrun_rest_length(biasrun_handle *closed, uint32_t thread);
/* Done: `out` is the entry of this number among them, from 0. Else `out` is as it was. */
biasrun_answer biasrun_rest_entry(biasrun_handle *closed, uint32_t thread, uint64_t number, biasrun_entry *out);
/* Done: `out` is what this thread did to the biases of this class. Else `out` is as it was. */
biasrun_answer biasrun_class_counts(biasrun_handle *closed, uint32_t thread, uint32_t class_number, biasrun_counts *out);
/* Done: `word` is how many entries the log of `other` had when this dump of the thread, from 0, was made. */
biasrun_answer biasrun_dump_cut(biasrun_handle *closed, uint32_t thread, uint32_t dump, uint32_t other);
/* Done: `detail` is how often the object was held by this dump of the thread, from 0, and `word` by which thread, or 0 where it wasn't held. */
biasrun_answer biasrun_dump_cell(biasrun_handle *closed, uint32_t thread, uint32_t dump, uint32_t object);
/* Done: `detail` is 1 where the run was found stuck, else 0. */
biasrun_answer biasrun_was_halted(biasrun_handle *closed);

#ifdef __cplusplus
}
#endif
#endif
