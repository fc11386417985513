/* What the library does with memory: how much stack each call takes, beside what a thread takes that calls nothing, and that two
 * answers to one call have the same fields, whatever stood in their memory before; bytes between fields may differ. */
#include <pthread.h>
#include <stdint.h>
#include <stdio.h>
#include <stdlib.h>
#include <string.h>

#include "../bindings/bollardine.h"

#define STACK 262144
#define MOST 20480

/* The same functions; the memory in which the answer is to stand goes first, as on x86-64 it does for every long struct. */
void *begin_at(void *a, struct bollardine_table t) __asm__("bollardine_begin");
void *complete_at(void *a, struct bollardine_state s, uint16_t i) __asm__("bollardine_complete");
void *arrive_at(void *a, struct bollardine_state s, uint16_t i) __asm__("bollardine_arrive");
void *drop_at(void *a, struct bollardine_state s, uint16_t i) __asm__("bollardine_drop");
void *step_at(void *a, struct bollardine_state s) __asm__("bollardine_step");
void *run_at(void *a, struct bollardine_state s, uint32_t to, uint16_t *row, size_t length) __asm__("bollardine_run");

static const char *const NAMES[] = {"begin", "complete", "arrive", "drop", "step", "run", "free_share"};
static struct bollardine_table table;
static struct bollardine_state state;
static unsigned char answer[4096];
static volatile uint32_t share;

static void *nothing(void *which) { return which; }

/* Makes one call, its answer into `answer`. */
static void *call(void *which)
{
    static uint16_t row[8];
    switch (*(int *)which) {
    case 0: begin_at(answer, table); break;
    case 1: complete_at(answer, state, 0); break;
    case 2: arrive_at(answer, state, 1); break;
    case 3: drop_at(answer, state, 0); break;
    case 4: step_at(answer, state); break;
    case 5: run_at(answer, state, state.clock + 8, row, 8); break;
    default: share = bollardine_free_share(state, 0);
    }
    return which;
}

/* How many bytes of a stack a thread that does this has touched. */
static size_t touched(void *(*does)(void *), int which)
{
    pthread_attr_t attributes;
    pthread_t thread;
    unsigned char *stack;
    size_t untouched = 0;
    if (posix_memalign((void **)&stack, 4096, STACK) != 0)
        exit(2);
    memset(stack, 0xa5, STACK);
    if (pthread_attr_init(&attributes) != 0 || pthread_attr_setstack(&attributes, stack, STACK) != 0 ||
        pthread_create(&thread, &attributes, does, &which) != 0 || pthread_join(thread, NULL) != 0)
        exit(2);
    while (untouched < STACK && stack[untouched] == 0xa5)
        untouched++;
    free(stack);
    return STACK - untouched;
}

static int same_thread(const struct bollardine_thread *x, const struct bollardine_thread *y)
{
    return x->app == y->app && x->phase == y->phase && x->share == y->share && x->period == y->period && x->jobs == y->jobs &&
           x->w == y->w && x->e == y->e;
}

static int same_state(const struct bollardine_state *x, const struct bollardine_state *y)
{
    for (int i = 0; i < 64; i++)
        if (!same_thread(&x->threads[i], &y->threads[i]))
            return 0;
    return x->count == y->count && x->had == y->had && x->q == y->q && x->clock == y->clock && x->completed == y->completed &&
           x->closed == y->closed;
}

/* Whether the call gives the same answer where other bytes stood; it writes how many bytes differ, and none of them is a field's. */
static int answered_alike(int which)
{
    static struct bollardine_stepped first, second;
    size_t differ = 0;
    memset(answer, 0xaa, sizeof answer);
    call(&which);
    memcpy(&first, answer, sizeof first);
    memset(answer, 0x55, sizeof answer);
    call(&which);
    memcpy(&second, answer, sizeof second);
    for (size_t i = 0; i < sizeof first; i++)
        differ += ((unsigned char *)&first)[i] != ((unsigned char *)&second)[i];
    for (size_t i = sizeof first; i < sizeof answer; i++)
        if (answer[i] != 0x55)
            return 0;
    fprintf(stderr, "%s: %zu bytes between fields differ\n", NAMES[which], differ);
    return first.refusal == second.refusal && (which != 4 || first.thread == second.thread) && same_state(&first.state, &second.state);
}

int main(void)
{
    table = (struct bollardine_table){.q = 10, .threads = 3, .rows = {{0, 3, 10}, {0, 2, 10}, {1, 5, 4}}};
    state = bollardine_step(bollardine_arrive(bollardine_begin(table).state, 0).state).state;
    size_t bare = touched(nothing, 0);
    for (int which = 0; which < 7; which++) {
        size_t stack = touched(call, which) - bare;
        fprintf(stderr, "%s: %zu bytes of stack\n", NAMES[which], stack);
        if (stack > MOST || stack < sizeof table) {
            printf("%s takes %zu bytes of stack\n", NAMES[which], stack);
            return 1;
        }
        if (which < 6 && !answered_alike(which)) {
            printf("two answers of %s differ in a field, or reach beyond it\n", NAMES[which]);
            return 1;
        }
    }
    printf("no call takes more than %d bytes of stack, and what stood in an answer's memory changes no field\n", MOST);
    return 0;
}
