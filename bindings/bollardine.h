/* The calls of the static library libcapi.a, as C (from C11 on) and C++ (from C++11 on) declare them. A compiler
 * that lays a struct out in another way than the library refuses this file; beside that nothing checks these
 * declarations against the library's source but the programs that use them. */
#ifndef BOLLARDINE_H
#define BOLLARDINE_H

#if !defined(__x86_64__) || !defined(__linux__)
#error "libcapi.a is for Linux on x86-64"
#endif

#include <stdbool.h>
#include <stddef.h>
#include <stdint.h>

#ifdef __cplusplus
#define BOLLARDINE_LAID_OUT(holds) static_assert(holds, "libcapi.a has this struct laid out in another way: " #holds)
extern "C" {
#else
#define BOLLARDINE_LAID_OUT(holds) _Static_assert(holds, "libcapi.a has this struct laid out in another way: " #holds)
#endif

/* A thread; phase 0 is inactive, 1 contending, 2 non-contending. */
struct bollardine_thread {
    uint8_t app;
    uint8_t phase;
    uint32_t share;
    uint32_t period;
    uint32_t jobs;
    int64_t w;
    int64_t e;
};
BOLLARDINE_LAID_OUT(sizeof(struct bollardine_thread) == 32);
BOLLARDINE_LAID_OUT(offsetof(struct bollardine_thread, app) == 0);
BOLLARDINE_LAID_OUT(offsetof(struct bollardine_thread, phase) == 1);
BOLLARDINE_LAID_OUT(offsetof(struct bollardine_thread, share) == 4);
BOLLARDINE_LAID_OUT(offsetof(struct bollardine_thread, period) == 8);
BOLLARDINE_LAID_OUT(offsetof(struct bollardine_thread, jobs) == 12);
BOLLARDINE_LAID_OUT(offsetof(struct bollardine_thread, w) == 16);
BOLLARDINE_LAID_OUT(offsetof(struct bollardine_thread, e) == 24);

/* A state; had is 64 where nobody had the tick just ended. Read it as you like, and hand on only what a call gave. */
struct bollardine_state {
    struct bollardine_thread threads[64];
    size_t count;
    size_t had;
    uint32_t q;
    uint32_t clock;
    bool completed;
    bool closed;
};
BOLLARDINE_LAID_OUT(sizeof(struct bollardine_state) == 2080);
BOLLARDINE_LAID_OUT(offsetof(struct bollardine_state, threads) == 0);
BOLLARDINE_LAID_OUT(offsetof(struct bollardine_state, count) == 2048);
BOLLARDINE_LAID_OUT(offsetof(struct bollardine_state, had) == 2056);
BOLLARDINE_LAID_OUT(offsetof(struct bollardine_state, q) == 2064);
BOLLARDINE_LAID_OUT(offsetof(struct bollardine_state, clock) == 2068);
BOLLARDINE_LAID_OUT(offsetof(struct bollardine_state, completed) == 2072);
BOLLARDINE_LAID_OUT(offsetof(struct bollardine_state, closed) == 2073);

/* A row as it is written; period 0 stands for 100. */
struct bollardine_row {
    uint16_t app;
    uint16_t share;
    uint32_t period;
};
BOLLARDINE_LAID_OUT(sizeof(struct bollardine_row) == 8);
BOLLARDINE_LAID_OUT(offsetof(struct bollardine_row, app) == 0);
BOLLARDINE_LAID_OUT(offsetof(struct bollardine_row, share) == 2);
BOLLARDINE_LAID_OUT(offsetof(struct bollardine_row, period) == 4);

/* A table; its rows are the first `threads` of `rows`. */
struct bollardine_table {
    uint16_t q;
    uint16_t threads;
    struct bollardine_row rows[64];
};
BOLLARDINE_LAID_OUT(sizeof(struct bollardine_table) == 516);
BOLLARDINE_LAID_OUT(offsetof(struct bollardine_table, q) == 0);
BOLLARDINE_LAID_OUT(offsetof(struct bollardine_table, threads) == 2);
BOLLARDINE_LAID_OUT(offsetof(struct bollardine_table, rows) == 4);

/* An answer: the refusal's number, or 0, and the state. */
struct bollardine_answered {
    uint8_t refusal;
    struct bollardine_state state;
};
BOLLARDINE_LAID_OUT(sizeof(struct bollardine_answered) == 2088);
BOLLARDINE_LAID_OUT(offsetof(struct bollardine_answered, refusal) == 0);
BOLLARDINE_LAID_OUT(offsetof(struct bollardine_answered, state) == 8);

/* A step's answer: the refusal's number, or 0; the thread that has the tick, or 65,535; and the state. */
struct bollardine_stepped {
    uint8_t refusal;
    uint16_t thread;
    struct bollardine_state state;
};
BOLLARDINE_LAID_OUT(sizeof(struct bollardine_stepped) == 2088);
BOLLARDINE_LAID_OUT(offsetof(struct bollardine_stepped, refusal) == 0);
BOLLARDINE_LAID_OUT(offsetof(struct bollardine_stepped, thread) == 2);
BOLLARDINE_LAID_OUT(offsetof(struct bollardine_stepped, state) == 8);

/* Every call but bollardine_begin asks for a state that these calls gave, and for nothing else; a row has
 * `length` entries, and may be NULL where that is 0. */
struct bollardine_answered bollardine_begin(struct bollardine_table t);
struct bollardine_answered bollardine_complete(struct bollardine_state s, uint16_t i);
struct bollardine_answered bollardine_arrive(struct bollardine_state s, uint16_t i);
struct bollardine_answered bollardine_drop(struct bollardine_state s, uint16_t i);
struct bollardine_stepped bollardine_step(struct bollardine_state s);
struct bollardine_answered bollardine_run(struct bollardine_state s, uint32_t to, uint16_t *row, size_t length);
uint32_t bollardine_free_share(struct bollardine_state s, uint16_t a);

#undef BOLLARDINE_LAID_OUT
#ifdef __cplusplus
}
#endif

#endif
