/* The worked example of document 01 by direct calls from C: a table, arrivals, runs into a lent row,
 * completions, a job that is dropped again, and a single step. It writes the number and the thread of
 * each tick. */
#include <stdio.h>
#include <stdlib.h>

#include "../bindings/bollardine.h"

/* The state that a call gave, or the end of the program with the refusal's number. */
static struct bollardine_state accepted(struct bollardine_answered a)
{
    if (a.refusal != 0) {
        printf("refused %u\n", a.refusal);
        exit(1);
    }
    return a.state;
}

/* Runs to the moment `to` and writes the ticks. */
static struct bollardine_state run(struct bollardine_state s, uint32_t to)
{
    uint16_t row[8];
    uint32_t from = s.clock;
    s = accepted(bollardine_run(s, to, row, 8));
    for (uint32_t t = from; t < to; t++) {
        if (row[t - from] == 65535)
            printf("%u -\n", t);
        else
            printf("%u %u\n", t, row[t - from]);
    }
    return s;
}

int main(void)
{
    struct bollardine_table table = {.q = 10, .threads = 3, .rows = {{0, 3, 10}, {0, 2, 10}, {1, 5, 4}}};
    struct bollardine_state s = accepted(bollardine_begin(table));
    s = accepted(bollardine_arrive(s, 0));
    s = accepted(bollardine_arrive(s, 2));
    printf("free share of application 0: %u\n", bollardine_free_share(s, 0));
    s = accepted(bollardine_arrive(s, 2));
    printf("jobs of thread 2: %u", s.threads[2].jobs);
    s = accepted(bollardine_drop(s, 2));
    printf(", after a drop %u\n", s.threads[2].jobs);
    s = run(s, 2);
    s = accepted(bollardine_arrive(s, 1));
    s = run(s, 5);
    s = accepted(bollardine_complete(s, 0));
    s = run(s, 6);
    s = accepted(bollardine_complete(s, 1));
    s = run(s, 7);
    s = accepted(bollardine_complete(s, 2));
    struct bollardine_stepped last = bollardine_step(s);
    printf("7 %s, clock %u\n", last.refusal == 0 && last.thread == 65535 ? "-" : "?", last.state.clock);
    s = last.state;
    printf("thread 1 a second time: refused %u\n", bollardine_complete(s, 1).refusal);
    return 0;
}
