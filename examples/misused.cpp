// Calls from C++ that are wrong, and what is answered. With WRONG defined it is a program that no compiler takes: 1 packs the
// structs, 2 hands over an answer in the place of a state, 3 lends a row of int.
#if defined(WRONG) && WRONG == 1
#pragma pack(1)
#endif
#include "../bindings/bollardine.h"

#include <cstdio>

static struct bollardine_table worked()
{
    struct bollardine_table t = {};
    t.q = 10;
    t.threads = 3;
    t.rows[0] = {0, 3, 10};
    t.rows[1] = {0, 2, 10};
    t.rows[2] = {1, 5, 4};
    return t;
}

// A refused table hands out a state that has no thread.
static void without_schedule()
{
    struct bollardine_table t = worked();
    t.q = 0;
    struct bollardine_answered a = bollardine_begin(t);
    std::printf("a table of no parts: refused %u\n", a.refusal);
    std::printf("an arrival there: refused %u\n", bollardine_arrive(a.state, 0).refusal);
    struct bollardine_stepped x = bollardine_step(a.state);
    std::printf("a step there: refused %u, thread %u\n", x.refusal, x.thread);
}

static void rows(struct bollardine_state s)
{
    uint16_t row[3] = {7, 7, 7};
    std::printf("a run of 5 ticks into 3: refused %u", bollardine_run(s, 5, row, 3).refusal);
    std::printf(", the row is %u %u %u\n", row[0], row[1], row[2]);
    std::printf("no row, to the present clock: refused %u\n", bollardine_run(s, 0, nullptr, 0).refusal);
    std::printf("no row, one tick: refused %u\n", bollardine_run(s, 1, nullptr, 0).refusal);
    std::printf("no row, beyond the clock's end: refused %u\n", bollardine_run(s, 2147483648u, nullptr, 0).refusal);
}

int main()
{
    without_schedule();
    struct bollardine_answered a = bollardine_begin(worked());
    struct bollardine_state old = a.state;
    std::printf("thread 3 of 3: refused %u\n", bollardine_arrive(old, 3).refusal);
    std::printf("a completion before any tick: refused %u\n", bollardine_complete(old, 0).refusal);
    rows(old);
    bollardine_arrive(old, 0);
    std::printf("an answer that is not taken: jobs %u\n", old.threads[0].jobs);
    std::printf("application 65,535: free share %u\n", bollardine_free_share(old, 65535));
#if defined(WRONG) && WRONG == 2
    bollardine_step(a);
#elif defined(WRONG) && WRONG == 3
    int entries[8];
    bollardine_run(a.state, 8, entries, 8);
#endif
    return 0;
}
