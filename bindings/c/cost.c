/*
 * What a call costs: its time, and the stack that it uses. The figures are taken by hand, on a quiet machine.
 *
 * Time is taken with the largest buffers, for 4,096 entries, and with buffers for 16. The table has as many buckets as
 * the store has entries, and one key in each; the adds fill it. So the chains are short, and what is measured is the
 * price of the call itself. A figure is the median of some rounds.
 *
 * The stack is that of one call, made on a stack that was painted before: what is no longer painted was used. It is the
 * most that the call used at rest, during a move and on a new store. Calls were made before it, so what the dynamic
 * linker does at a first use is not in it.
 *
 * Status 0: every call was answered as it should be. 1: one was not, and standard error says which.
 */
#define _XOPEN_SOURCE 600

#include "calls.h"

#include <inttypes.h>
#include <stdio.h>
#include <string.h>
#include <time.h>
#include <ucontext.h>

enum { ROUNDS = 9, CALLS_PER_ROUND = 4096, STACK_BYTES = 4 << 20 };

/* The two capacities that are measured. CALLS_PER_ROUND is a multiple of each. */
static const uint32_t capacities[] = {SUSPECTS_MOST_CAPACITY, 16};
enum { WIDTHS = sizeof capacities / sizeof *capacities };

struct memory {
    uint8_t state[SUSPECTS_STATE_BYTES];
    uint8_t first[SUSPECTS_MOST_BUCKET_BYTES], second[SUSPECTS_MOST_BUCKET_BYTES];
    uint8_t entries[SUSPECTS_MOST_ENTRY_BYTES], list[SUSPECTS_LIST_BYTES_FOR(SUSPECTS_MOST_CAPACITY)];
    uint8_t answer[SUSPECTS_ANSWER_BYTES];
};

static struct memory memory;

/* How many entries the store has, and what is lent for them. */
static uint32_t capacity;
static struct lent lent;

static void lend(uint32_t entries)
{
    const struct suspects store = {
        memory.state,  sizeof memory.state, memory.first,   (size_t)4 * entries,
        memory.second, (size_t)4 * entries, memory.entries, SUSPECTS_ENTRY_BYTES_FOR(entries)};
    capacity = entries;
    lent.store = store;
    lent.list = memory.list;
    lent.list_len = SUSPECTS_LIST_BYTES_FOR(entries);
    lent.answer = memory.answer;
    lent.answer_len = sizeof memory.answer;
}

static void must(enum call call, uint64_t a, uint32_t b)
{
    uint32_t number = make_call(call, &lent, a, b);
    if (number == SUSPECTS_DONE) return;
    fprintf(stderr, "cost: %s answered %" PRIu32 ", %s\n", call_names[call], number, suspects_number_name(number));
    exit(1);
}

/* A key for each bucket of a table with as many buckets as the capacity. Its higher bits are arbitrary. */
static uint32_t key_for(uint32_t bucket) { return bucket + capacity * (bucket % 1013); }

static void fill(uint32_t size, uint32_t keys)
{
    must(INIT, capacity, size);
    for (uint32_t i = 0; i < keys; i++) must(ADD, key_for(i), i);
}

/* The first number of a call, with a bucket whose turn it is. A walk takes the buckets in an order of its own. */
static uint32_t number_for(enum call call, uint32_t bucket)
{
    switch (call) {
    case INIT: return capacity;
    case RESIZE: return capacity / 2;
    case SCAN: return bucket == 0 ? 0 : suspects_get32(memory.answer);
    case ITERATE: return bucket;
    case SUGGESTED_SIZE:
    case ALLOW_RESIZE: return 1;
    default: return key_for(bucket);
    }
}

/* ---- Time ---- */

static const enum call timed[] = {FIND, UPDATE, ADD, SCAN, ITERATE};
enum { TIMED = sizeof timed / sizeof *timed };

static double now(void)
{
    struct timespec t;
    clock_gettime(CLOCK_MONOTONIC, &t);
    return (double)t.tv_sec * 1e9 + (double)t.tv_nsec;
}

/* The nanoseconds of a call for each bucket, all together. */
static double time_over_buckets(enum call call)
{
    double begin;
    if (call == ADD) fill(capacity, 0);
    begin = now();
    for (uint32_t i = 0; i < capacity; i++) must(call, number_for(call, i), i);
    return now() - begin;
}

static int by_size(const void *a, const void *b)
{
    double x = *(const double *)a, y = *(const double *)b;
    return (x > y) - (x < y);
}

static double time_of(enum call call)
{
    double rounds[ROUNDS] = {0};
    fill(capacity, capacity);
    for (int i = 0; i < ROUNDS; i++)
        for (uint32_t j = 0; j < CALLS_PER_ROUND; j += capacity) rounds[i] += time_over_buckets(call) / CALLS_PER_ROUND;
    qsort(rounds, ROUNDS, sizeof *rounds, by_size);
    return rounds[ROUNDS / 2];
}

/* ---- The stack ---- */

static uint8_t stack[STACK_BYTES];
static ucontext_t here, there;

/* The call that is made on that stack, or CALLS for none; and its number. */
static enum call on_stack;
static uint32_t stack_number;

/* The bucket is one whose key is held, but for an add. */
static void make_on_stack(void)
{
    uint32_t bucket = on_stack == ADD ? capacity - 1 : 0;
    if (on_stack != CALLS) stack_number = make_call(on_stack, &lent, number_for(on_stack, bucket), capacity);
}

static size_t depth_on(uint8_t paint)
{
    size_t left = 0;
    memset(stack, paint, sizeof stack);
    getcontext(&there);
    there.uc_stack.ss_sp = stack;
    there.uc_stack.ss_size = sizeof stack;
    there.uc_link = &here;
    makecontext(&there, make_on_stack, 0);
    swapcontext(&here, &there);
    while (left < sizeof stack && stack[left] == paint) left++;
    return sizeof stack - left;
}

/* How far down a call comes, with the store as it is; the store is left so. A byte that is written and has the paint's
   value does not show, so there are two paints. */
static size_t depth_of(enum call call)
{
    static struct memory before;
    size_t deepest = 0;
    before = memory;
    for (int i = 0; i < 2; i++) {
        size_t depth;
        on_stack = call;
        stack_number = SUSPECTS_DONE;
        depth = depth_on(i == 0 ? 0xa5 : 0x5a);
        memory = before;
        if (stack_number == SUSPECTS_BAD_STATE || stack_number == SUSPECTS_DAMAGED) {
            fprintf(stderr, "cost: %s answered %" PRIu32 "\n", call_names[call], stack_number);
            exit(1);
        }
        if (depth > deepest) deepest = depth;
    }
    return deepest;
}

static void be_at_rest(void) { fill(capacity, capacity - 1); }

static void be_moving(void)
{
    fill(capacity, capacity - 1);
    must(RESIZE, capacity / 2, 0);
}

static void be_new(void) { fill(1, 0); }

/* Fills in the most stack that each call uses. */
static void measure_stack(size_t *most)
{
    void (*const situations[])(void) = {be_at_rest, be_moving, be_new};
    memset(most, 0, CALLS * sizeof *most);
    for (size_t i = 0; i < sizeof situations / sizeof *situations; i++) {
        size_t none;
        situations[i]();
        none = depth_of(CALLS);
        for (int call = 0; call < CALLS; call++) {
            size_t used = depth_of((enum call)call) - none;
            if (used > most[call]) most[call] = used;
        }
    }
}

/* ---- The tables ---- */

int main(void)
{
    static double took[WIDTHS][TIMED];
    static size_t used[WIDTHS][CALLS];
    for (int w = 0; w < WIDTHS; w++) {
        lend(capacities[w]);
        for (int i = 0; i < TIMED; i++) took[w][i] = time_of(timed[i]);
        measure_stack(used[w]);
    }
    printf("%-26s", "buffers for");
    for (int w = 0; w < WIDTHS; w++) printf("%8" PRIu32 " entries", capacities[w]);
    puts("\nnanoseconds a call");
    for (int i = 0; i < TIMED; i++) {
        printf("  %-24s", call_names[timed[i]]);
        for (int w = 0; w < WIDTHS; w++) printf("%16.0f", took[w][i]);
        putchar('\n');
    }
    puts("bytes of stack");
    for (int call = 0; call < CALLS; call++) {
        printf("  %-24s", call_names[call]);
        for (int w = 0; w < WIDTHS; w++) printf("%16zu", used[w][call]);
        putchar('\n');
    }
    return 0;
}
