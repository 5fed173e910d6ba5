/* How many hops a second two rings carry: a call goes over one and is taken, and its answer comes back over the other. They
   have the places and the bytes of a line, and do nothing else: no call is looked at and no state is kept. An item is
   published by a release, or, with -DPUBLISHED=memory_order_seq_cst, by the order that a line's rings have. */
#include <pthread.h>
#include <sched.h>
#include <stdatomic.h>
#include <stdbool.h>
#include <stdio.h>
#include <stdlib.h>
#include <string.h>
#include <time.h>

#ifndef PUBLISHED
#define PUBLISHED memory_order_release
#endif

enum { HOPS = 3000000, PLACES = 64, CALL_BYTES = 152, ANSWERED_BYTES = 184, APART = 128 };

typedef struct { char bytes[CALL_BYTES]; } call;

/* A call beside its answer. */
typedef struct { char bytes[ANSWERED_BYTES]; } answered;

/* A ring for one end that pushes and one that pops. Each end has the other's index as it last saw it, and looks anew only
   where that leaves it nothing to do. What the two ends write lies apart. */
#define RING(item)                                                                                             \
    typedef struct {                                                                                           \
        _Alignas(APART) atomic_size_t popped;                                                                  \
        size_t seen_pushed;                                                                                    \
        _Alignas(APART) atomic_size_t pushed;                                                                  \
        size_t seen_popped;                                                                                    \
        _Alignas(APART) item places[PLACES];                                                                   \
    } item##_ring;                                                                                             \
                                                                                                               \
    static bool push_##item(item##_ring *ring, const item *from) {                                             \
        size_t at = atomic_load_explicit(&ring->pushed, memory_order_relaxed);                                 \
        if (at - ring->seen_popped == PLACES) {                                                                \
            ring->seen_popped = atomic_load_explicit(&ring->popped, memory_order_acquire);                     \
            if (at - ring->seen_popped == PLACES) return false;                                                \
        }                                                                                                      \
        ring->places[at % PLACES] = *from;                                                                     \
        atomic_store_explicit(&ring->pushed, at + 1, PUBLISHED);                                               \
        return true;                                                                                           \
    }                                                                                                          \
                                                                                                               \
    static bool pop_##item(item##_ring *ring, item *to) {                                                      \
        size_t at = atomic_load_explicit(&ring->popped, memory_order_relaxed);                                 \
        if (at == ring->seen_pushed) {                                                                         \
            ring->seen_pushed = atomic_load_explicit(&ring->pushed, memory_order_acquire);                     \
            if (at == ring->seen_pushed) return false;                                                         \
        }                                                                                                      \
        *to = ring->places[at % PLACES];                                                                       \
        atomic_store_explicit(&ring->popped, at + 1, PUBLISHED);                                               \
        return true;                                                                                           \
    }

RING(call)
RING(answered)

static call_ring calls;
static answered_ring answers;

static double now(void) {
    struct timespec time;
    clock_gettime(CLOCK_MONOTONIC, &time);
    return time.tv_sec + time.tv_nsec / 1e9;
}

static void show(const char *place, double seconds) {
    printf("%d hops %s\n%.0f a second\n", HOPS, place, HOPS / seconds);
}

/* The bytes of each answer go into the next call, so that none of the copying can be left out. */
static void hops_in_one_thread(void) {
    call issued, taken;
    answered back, heard;
    memset(&issued, 7, sizeof issued);
    memset(&back, 0, sizeof back);
    for (int hop = 0; hop < HOPS; hop++) {
        if (!push_call(&calls, &issued) || !pop_call(&calls, &taken)) exit(1);
        memcpy(back.bytes, taken.bytes, sizeof taken.bytes);
        if (!push_answered(&answers, &back) || !pop_answered(&answers, &heard)) exit(1);
        issued.bytes[0] ^= heard.bytes[1];
    }
    if (issued.bytes[0] != (HOPS % 2 == 0 ? 7 : 0)) exit(1);
}

static void *answer_all(void *unused) {
    call taken;
    answered back;
    memset(&back, 0, sizeof back);
    for (int hop = 0; hop < HOPS; hop++) {
        while (!pop_call(&calls, &taken)) sched_yield();
        memcpy(back.bytes, taken.bytes, sizeof taken.bytes);
        while (!push_answered(&answers, &back)) sched_yield();
    }
    return unused;
}

static void hops_between_threads(void) {
    pthread_t taker;
    call issued;
    answered heard;
    memset(&issued, 7, sizeof issued);
    if (pthread_create(&taker, NULL, answer_all, NULL) != 0) exit(1);
    for (int out = 0, back = 0; back < HOPS;) {
        bool issues = out < HOPS && push_call(&calls, &issued);
        bool hears = pop_answered(&answers, &heard);
        out += issues;
        back += hears;
        if (!issues && !hears) sched_yield();
    }
    pthread_join(taker, NULL);
}

int main(void) {
    double start = now();
    hops_in_one_thread();
    show("in one thread", now() - start);
    start = now();
    hops_between_threads();
    show("between two threads", now() - start);
    return 0;
}
