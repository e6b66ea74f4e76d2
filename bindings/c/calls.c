/*
 * Tries every function of suspects.h against the archive, so that the two agree on the arguments and their order, and
 * lengths and pointers at their edges. The answers that are due are those of docs/PASSES.md, "A pass, call by call",
 * and of docs/SPECIFICATION.md, "Answers", "Calls over bytes" and "Cases".
 *
 * Status 0: all is as it should be. 1: something is not, and standard error says what.
 */
#include "calls.h"

#include <inttypes.h>
#include <stdbool.h>
#include <stdio.h>
#include <string.h>

/* The buffers have room for 8 entries, and for tables of up to 16 buckets. */
struct memory {
    uint8_t state[SUSPECTS_STATE_BYTES], first[64], second[64], entries[96], list[64], answer[SUSPECTS_ANSWER_BYTES];
};

static struct memory memory;

static struct lent lend(void)
{
    struct lent lent = {{memory.state, sizeof memory.state, memory.first, sizeof memory.first, memory.second,
                         sizeof memory.second, memory.entries, sizeof memory.entries},
                        memory.list,
                        sizeof memory.list,
                        memory.answer,
                        sizeof memory.answer};
    return lent;
}

/* The slices of a call by their numbers, in the order in which it takes them. */
enum { SLICES = 6, LIST = 4 };

struct slice {
    uint8_t **at;
    size_t *len;
};

static struct slice slice_of(struct lent *lent, int slice)
{
    struct slice slices[SLICES] = {
        {&lent->store.state, &lent->store.state_len},
        {&lent->store.first, &lent->store.first_len},
        {&lent->store.second, &lent->store.second_len},
        {&lent->store.entries, &lent->store.entries_len},
        {&lent->list, &lent->list_len},
        {&lent->answer, &lent->answer_len},
    };
    return slices[slice];
}

static bool takes_list(enum call call) { return call == SCAN || call == ITERATE; }

static void fail(const char *what, enum call call)
{
    fprintf(stderr, "calls: %s: %s\n", call_names[call], what);
    exit(1);
}

/* ---- A sequence of calls ---- */

struct row {
    enum call call;
    uint64_t a;
    uint32_t b, number, one, two;
    uint32_t pairs[4]; /* the keys and values of the list, where the call hands out any: two keys at most */
};

static const struct row rows[] = {
    /* A pass, call by call. The values are the keys times ten. */
    {INIT, 8, 4, 0, 0, 0, {0}},
    {ADD, 1, 10, 0, 0, 0, {0}},
    {ADD, 3, 30, 0, 0, 0, {0}},
    {ADD, 6, 60, 0, 0, 0, {0}},
    {BEGIN_SAFE, 0, 0, 0, 0, 0, {0}},
    {ITERATE, 0, 0, 0, 2, 1, {1, 10}},
    {ADD, 9, 90, 0, 0, 0, {0}},
    {REHASH_STEP, 0, 0, SUSPECTS_PAUSED, 0, 0, {0}},
    {ITERATE, 2, 0, 0, 3, 1, {6, 60}},
    {DELETE, 3, 0, 0, 0, 0, {0}},
    {ADD, 3, 30, 0, 0, 0, {0}},
    {DELETE, 1, 0, 0, 0, 0, {0}},
    {ADD, 1, 10, 0, 0, 0, {0}},
    {ITERATE, 3, 0, 0, 6, 1, {1, 10}},
    {ITERATE, 6, 0, 0, 8, 1, {3, 30}},
    {ITERATE, 8, 0, 0, 12, 0, {0}},
    {END_SAFE, 0, 0, 0, 0, 0, {0}},
    {END_SAFE, 0, 0, SUSPECTS_NO_CAREFUL_PASS, 0, 0, {0}},
    /* The move goes on, from 4 buckets to 8; key 9 is in old bucket 1, and key 6 in old bucket 2. */
    {RESIZE, 16, 0, SUSPECTS_MOVING, 0, 0, {0}},
    {REHASH_STEP, 0, 0, 0, 1, 1, {0}},
    {REHASH_STEP, 0, 0, 0, 1, 0, {0}},
    {REHASH_STEP, 0, 0, SUSPECTS_NOT_MOVING, 0, 0, {0}},
    /* Single keys. Key 9 came to bucket 1 behind key 1, and so to its head. */
    {FIND, 9, 0, 0, 90, 0, {0}},
    {UPDATE, 9, UINT32_MAX, 0, 0, 0, {0}},
    {FIND, 9, 0, 0, UINT32_MAX, 0, {0}},
    {UPDATE, 2, 20, SUSPECTS_ABSENT, 0, 0, {0}},
    {ADD, 9, 90, SUSPECTS_PRESENT, 0, 0, {0}},
    {SCAN, 1, 0, 0, 5, 2, {9, UINT32_MAX, 1, 10}},
    {SCAN, 0, 0, 0, 4, 0, {0}},
    /* Four keys: sizes for them, and the tables. */
    {SUGGESTED_SIZE, 1, 0, 0, 8, 0, {0}},
    {SUGGESTED_SIZE, 0, 0, 0, 4, 0, {0}},
    {SUGGESTED_SIZE, 2, 0, SUSPECTS_BAD_STATE, 0, 0, {0}},
    {RESIZE, 8, 0, SUSPECTS_BAD_SIZE, 0, 0, {0}},
    {RESIZE, 32, 0, SUSPECTS_BAD_SIZE, 0, 0, {0}},
    {RESIZE, 4, 0, 0, 0, 0, {0}},
    {INIT, 8, 3, SUSPECTS_BAD_SIZE, 0, 0, {0}},
    {INIT, 9, 4, SUSPECTS_BAD_STATE, 0, 0, {0}},
    /* A store of one cell, which may not grow: it would have to with one key for one bucket. */
    {INIT, 1, 1, 0, 0, 0, {0}},
    {ALLOW_RESIZE, 0, 0, 0, 0, 0, {0}},
    {ALLOW_RESIZE, 2, 0, SUSPECTS_BAD_STATE, 0, 0, {0}},
    {ADD, UINT32_MAX, 7, 0, 0, 0, {0}},
    {REHASH_STEP, 0, 0, SUSPECTS_NOT_MOVING, 0, 0, {0}},
    {ADD, 0, 7, SUSPECTS_FULL, 0, 0, {0}},
    /* The fingerprint of a new store of size 4 is 13078267905649422074. */
    {INIT, 8, 4, 0, 0, 0, {0}},
    {BEGIN_ITERATOR, 0, 0, 0, 13078267905649422074u & UINT32_MAX, 13078267905649422074u >> 32, {0}},
    {END_ITERATOR, 13078267905649422074u, 0, 0, 0, 0, {0}},
    {END_ITERATOR, 13078267905649422074u + 1, 0, SUSPECTS_CHANGED, 0, 0, {0}},
    {END_ITERATOR, 13078267905649422074u - (UINT64_C(1) << 32), 0, SUSPECTS_CHANGED, 0, 0, {0}},
};

/* How many keys a call hands out: its second result, if it is one that has a list. */
static uint32_t keys_of(const struct row *r) { return takes_list(r->call) ? r->two : 0; }

static bool list_is_due(const struct row *r)
{
    for (uint32_t i = 0; i < 2 * keys_of(r); i++)
        if (suspects_get32(memory.list + 4 * i) != r->pairs[i]) return false;
    return true;
}

static void try_rows(void)
{
    for (size_t i = 0; i < sizeof rows / sizeof *rows; i++) {
        const struct row *r = &rows[i];
        struct lent lent = lend();
        uint32_t number = make_call(r->call, &lent, r->a, r->b);
        uint32_t one = suspects_get32(memory.answer), two = suspects_get32(memory.answer + 4);
        if (number != r->number || one != r->one || two != r->two || !list_is_due(r)) {
            fprintf(stderr,
                    "calls: row %zu, %s of %" PRIu64 " and %" PRIu32 ": %" PRIu32 ", %s, and %" PRIu32 " %" PRIu32
                    ", where %" PRIu32 " and %" PRIu32 " %" PRIu32 " are due; or another list\n",
                    i + 1, call_names[r->call], r->a, r->b, number, suspects_number_name(number), one, two, r->number,
                    r->one, r->two);
            exit(1);
        }
    }
}

/* ---- The state, field by field ---- */

enum { FIELDS = SUSPECTS_STATE_BYTES / 4 };

static void must(enum call call, uint64_t a, uint32_t b)
{
    const struct lent lent = lend();
    if (make_call(call, &lent, a, b) != SUSPECTS_DONE) fail("it is refused on the way to a state", call);
}

static void expect_state(const uint32_t *due)
{
    static const int at[FIELDS] = {SUSPECTS_AT_SECOND_IS_CURRENT, SUSPECTS_AT_OLD_SIZE,      SUSPECTS_AT_NEW_SIZE,
                                   SUSPECTS_AT_OLD_USED,          SUSPECTS_AT_NEW_USED,      SUSPECTS_AT_REHASHING,
                                   SUSPECTS_AT_REHASH_INDEX,      SUSPECTS_AT_FREE_HEAD,     SUSPECTS_AT_CAPACITY,
                                   SUSPECTS_AT_RESIZE_ALLOWED,    SUSPECTS_AT_SAFE_ITERATORS};
    for (int i = 0; i < FIELDS; i++) {
        uint32_t is = suspects_get32(memory.state + at[i]);
        if (is == due[i]) continue;
        fprintf(stderr, "calls: the state's field at %d is %" PRIu32 ", where %" PRIu32 " is due\n", at[i], is, due[i]);
        exit(1);
    }
}

/* Two states in which no two fields have the same value both times, so that none can be taken for another. */
static void try_state(void)
{
    static const uint32_t moving[FIELDS] = {0, 4, 8, 1, 4, 1, 3, 6, 7, 0, 2};
    static const uint32_t at_rest[FIELDS] = {1, 8, 0, 5, 0, 0, 0, 6, 7, 0, 0};
    static const uint32_t keys[] = {1, 3, 6, 9};
    must(INIT, 7, 4);
    for (int i = 0; i < 4; i++) must(ADD, keys[i], 1);
    must(REHASH_STEP, 0, 0); /* moves keys 9 and 1 */
    must(ADD, 17, 1);        /* moves key 6 */
    must(ALLOW_RESIZE, 0, 0);
    for (int i = 0; i < 2; i++) must(BEGIN_SAFE, 0, 0);
    expect_state(moving);
    for (int i = 0; i < 2; i++) must(END_SAFE, 0, 0);
    must(REHASH_STEP, 0, 0); /* moves key 3, the last one */
    expect_state(at_rest);
}

/* ---- The numbers that no row above is answered ---- */

static void expect_number(enum call call, const struct lent *lent, uint64_t a, uint32_t number, uint32_t two)
{
    if (make_call(call, lent, a, 0) != number) fail("it answers another number than is due", call);
    if (suspects_get64(memory.answer) != (uint64_t)two << 32) fail("its answer is another than is due", call);
}

static void try_other_numbers(void)
{
    struct lent lent = lend();
    must(INIT, 8, 4);
    must(ADD, 1, 10);
    for (int i = 0; i < SUSPECTS_MOST_CAREFUL_PASSES; i++) must(BEGIN_SAFE, 0, 0);
    expect_number(BEGIN_SAFE, &lent, 0, SUSPECTS_TOO_MANY_CAREFUL_PASSES, 0);
    lent.list_len = 4; /* a pair takes eight bytes */
    expect_number(SCAN, &lent, 1, SUSPECTS_SHORT, 1);
    expect_number(ITERATE, &lent, 0, SUSPECTS_SHORT, 1);
    suspects_put32(memory.entries, 1); /* the link of entry 1 */
    expect_number(FIND, &lent, 1, SUSPECTS_DAMAGED, 0);
}

/* ---- Lengths and pointers, on a new store ---- */

/* A refusal by the first check leaves every slice as it was, but for an answer of eight bytes, which becomes zeros. */
static void expect_first_check(enum call call, const struct lent *lent)
{
    struct memory due;
    memset(memory.answer, 0xff, sizeof memory.answer);
    due = memory;
    if (lent->answer_len == sizeof due.answer) memset(due.answer, 0, sizeof due.answer);
    if (make_call(call, lent, 1, 1) != SUSPECTS_BAD_STATE) fail("the first check lets it pass", call);
    if (memcmp(&due, &memory, sizeof due) != 0) fail("the first check has written", call);
}

static void try_wrong_lengths(enum call call)
{
    static const size_t wrong[SLICES] = {SUSPECTS_STATE_BYTES - 4, 63, 61, 94, 6, SUSPECTS_ANSWER_BYTES - 4};
    for (int slice = 0; slice < SLICES; slice++) {
        struct lent lent = lend();
        if (slice == LIST && !takes_list(call)) continue;
        *slice_of(&lent, slice).len = wrong[slice];
        expect_first_check(call, &lent);
    }
}

/* Buffers that are one number longer than they may be. */
static void try_long_buffers(enum call call)
{
    static uint8_t room[SUSPECTS_MOST_ENTRY_BYTES + 4];
    static const size_t most[] = {SUSPECTS_MOST_BUCKET_BYTES, SUSPECTS_MOST_BUCKET_BYTES, SUSPECTS_MOST_ENTRY_BYTES};
    for (int buffer = 0; buffer < 3; buffer++) {
        struct lent lent = lend();
        *slice_of(&lent, buffer + 1).at = room;
        *slice_of(&lent, buffer + 1).len = most[buffer] + 4;
        expect_first_check(call, &lent);
    }
}

/* A flag of the state above 1. A start reads no state, and so finds nothing wrong. */
static void try_flags(enum call call)
{
    static const int flags[] = {SUSPECTS_AT_SECOND_IS_CURRENT, SUSPECTS_AT_REHASHING, SUSPECTS_AT_RESIZE_ALLOWED};
    const struct memory before = memory;
    const struct lent lent = lend();
    for (size_t i = 0; i < sizeof flags / sizeof *flags; i++) {
        suspects_put32(memory.state + flags[i], 256);
        if (call != INIT)
            expect_first_check(call, &lent);
        else if (make_call(call, &lent, 8, 4) != SUSPECTS_DONE)
            fail("it looks at a flag of the state", call);
        memory = before;
    }
}

/* With length 0 a null pointer is answered like any other; and where nothing at all is lent, 1 is. */
static void try_nulls(enum call call)
{
    const struct memory before = memory;
    struct lent none = lend();
    for (int slice = 0; slice < SLICES; slice++) {
        struct lent lent = lend();
        uint32_t number;
        *slice_of(&none, slice).at = NULL;
        *slice_of(&none, slice).len = 0;
        *slice_of(&lent, slice).len = 0;
        number = make_call(call, &lent, 1, 1);
        memory = before;
        *slice_of(&lent, slice).at = NULL;
        if (make_call(call, &lent, 1, 1) != number) fail("a null pointer with length 0 makes a difference", call);
        memory = before;
    }
    if (make_call(call, &none, 1, 1) != SUSPECTS_BAD_STATE) fail("it does not answer 1 with nothing lent", call);
}

/* What the header has itself: a number that is put lies with its lowest byte first and comes back; and the bytes to
   lend for a capacity. */
static void try_header(void)
{
    const uint8_t bytes[8] = {8, 7, 6, 5, 4, 3, 2, 1};
    uint8_t put[8];
    suspects_put64(put, UINT64_C(0x0102030405060708));
    if (memcmp(put, bytes, 8) != 0 || suspects_get64(put) != UINT64_C(0x0102030405060708) ||
        suspects_get32(put + 4) != 0x01020304) {
        fputs("calls: a number is put or got in another order\n", stderr);
        exit(1);
    }
    for (uint32_t c = 1; c <= SUSPECTS_MOST_CAPACITY; c++) {
        size_t size = SUSPECTS_BUCKET_BYTES_FOR(c) / 4;
        if (size < 4 || (size & (size - 1)) != 0 || size > SUSPECTS_MOST_SIZE ||
            (size < 2 * c && size != SUSPECTS_MOST_SIZE) || (size > 4 && size / 2 >= 2 * c)) {
            fprintf(stderr, "calls: SUSPECTS_BUCKET_BYTES_FOR(%" PRIu32 ") is wrong\n", c);
            exit(1);
        }
    }
}

/* The numbers that a function can answer have the names of docs/SPECIFICATION.md, "Answers", and no other has one. */
static void try_names(void)
{
    static const char *const names[] = {
        "done",       "bad state", "damaged", "absent", "present", "full", "bad size", "moving",
        "not moving", "short",     NULL,      NULL,     NULL,      NULL,   NULL,       "changed",
        "no careful pass", "too many careful passes", "paused", NULL,
    };
    for (uint32_t n = 0; n < sizeof names / sizeof *names; n++) {
        const char *due = names[n] != NULL ? names[n] : "no number of the store";
        if (strcmp(suspects_number_name(n), due) == 0) continue;
        fprintf(stderr, "calls: the name of %" PRIu32 " is '%s', where '%s' is due\n", n, suspects_number_name(n), due);
        exit(1);
    }
}

int main(void)
{
    try_header();
    try_names();
    try_rows();
    try_state();
    try_other_numbers();
    must(INIT, 8, 4);
    for (int call = 0; call < CALLS; call++) {
        try_wrong_lengths((enum call)call);
        try_long_buffers((enum call)call);
        try_flags((enum call)call);
        try_nulls((enum call)call);
    }
    return 0;
}
