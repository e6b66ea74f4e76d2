/*
 * A verified store of suspect cells, for C and C++.
 *
 * The store holds suspect flip-flops, each with a count of fails, in a hash dictionary of two tables. It grows by
 * itself: behind an add a move to a larger table may begin, and each add or delete then moves a bucket. It hands the
 * cells out a few at a time, by a cursor that stays good while all this goes on. Every function here is proved to
 * answer, and to leave the memory, as docs/SPECIFICATION.md says ("Calls over bytes"); this header says it in short.
 * What is said of walks and careful passes, over many calls, is proved of sequences of the plain calls, on numbers,
 * that these functions make. It is not stated once more of sequences of these functions (docs/PROMISES.md, "Calls over
 * bytes").
 *
 * The archive is made by `rt lib` in crates/exports (crates/exports/out/libexports.a), for Linux on x86-64.
 *
 * WORDS
 *
 * A key names a cell: scan chain * 65,536 + position, with positions counted from 0 at the scan-out cell. A value is a
 * fail count. Every 32-bit number is a key, and every one is a value. A table of size n has n buckets; a key is in the
 * bucket key modulo n. During a move there are two tables, the old one and the new one, and keys go from the old one to
 * the new one in steps. A careful pass under way pauses the move: then no step is taken.
 *
 * AN EXAMPLE
 *
 * This is example.c, with the command that builds it in a folder target and runs it, and what it writes.
 *
 *     // gcc -std=c99 bindings/c/example.c crates/exports/out/libexports.a -o target/example && target/example
 *     // find: done, 25 fails
 *     #include "suspects.h"
 *     #include <stdio.h>
 *
 *     static uint8_t state[SUSPECTS_STATE_BYTES], answer[SUSPECTS_ANSWER_BYTES];
 *     static uint8_t first[SUSPECTS_BUCKET_BYTES_FOR(100)], second[SUSPECTS_BUCKET_BYTES_FOR(100)];
 *     static uint8_t entries[SUSPECTS_ENTRY_BYTES_FOR(100)];
 *     static const struct suspects store = {state,  sizeof state,  first,   sizeof first,
 *                                           second, sizeof second, entries, sizeof entries};
 *
 *     int main(void)
 *     {
 *         uint32_t cell = suspects_key(1, 7); // scan chain 1, position 7
 *         uint32_t number = suspects_init(SUSPECTS_LENT(store), answer, sizeof answer, 100, 4);
 *         if (number == SUSPECTS_DONE) number = suspects_add(SUSPECTS_LENT(store), answer, sizeof answer, cell, 25);
 *         if (number == SUSPECTS_DONE) number = suspects_find(SUSPECTS_LENT(store), answer, sizeof answer, cell);
 *         printf("find: %s, %u fails\n", suspects_number_name(number), (unsigned)suspects_get32(answer));
 *         return number == SUSPECTS_DONE ? 0 : 1;
 *     }
 *
 * viewer.c is a whole viewer: it walks through the store while failures still arrive, and makes a careful pass.
 *
 * WHO OWNS WHAT
 *
 * The caller owns all memory and lends it to each call: a state, two bucket buffers and an entry buffer, which together
 * are the store, and an answer; a list too where keys are handed out. No function keeps anything between two calls, and
 * none allocates. A store is its bytes: it may be copied, moved and written to a file, and another process can go on
 * with it. All numbers in it are little-endian on every machine.
 *
 * Each slice is a pointer and a length in bytes.
 *
 *   - The pointer must be valid for that many bytes, to be read and, where it is not one to const, to be written. It
 *     needs no alignment. With a length of 0 it may be null.
 *   - Each byte lent must have been written once, whatever it is: clear fresh memory before suspects_init (static
 *     memory is clear, and so is calloc's).
 *   - The slices of one call must not overlap.
 *   - Two calls on one store must not run at the same time, unless both are of the functions whose store is const;
 *     each of the two then has an answer, and a list, of its own. Calls on different stores may.
 *   - While a call runs, nothing else may write what it is lent, or read what it is lent as not const. It may store
 *     such bytes anew also where they stay the same, and on a refusal too; "Writes", at each function, names those that
 *     may become others.
 *   - A call must run to its end. One that is cut short, by a longjmp for instance, leaves the store half written.
 *
 * No more is asked. Any bytes, any lengths and any numbers are safe: a state that is no state, a chain that loops, a
 * cursor that was made up. Each call comes to its end and is answered with a number. What a damaged store answers is
 * fixed too (docs/SPECIFICATION.md, "The calls").
 *
 * THE NUMBERS
 *
 * Each function returns the answer's number (enum suspects_number). 0 is done; any other is a refusal, and then the
 * state, the buffers and the list are what they were before. Where more than one number would apply, the one that is
 * named first at the function is given.
 *
 * 1 comes before all others, but for a second one of suspects_init. It says that the state is not one of a store with
 * these buffers (docs/SPECIFICATION.md, "Sound state"), or that a length or a flag is wrong:
 *
 *   - the state has another length than 44 bytes, or the answer another than 8;
 *   - a flag of the state is above 1 (suspects_init does not look), or the flag given as a number is;
 *   - the length of a bucket buffer, of the entry buffer or of the list is not divisible by four;
 *   - a bucket buffer has more than 16,384 bytes, or the entry buffer more than 49,152. A list may be longer.
 *
 * THE ANSWER
 *
 * Eight bytes, written by every call, on a refusal too: two 32-bit results, or the one 64-bit fingerprint. What a call
 * does not use is 0, and on a refusal all of it is, but for 9, where the second is the number of keys that need room.
 * An answer that does not have 8 bytes stays as it is.
 *
 * THE STATE AND THE BUFFERS
 *
 * The state is eleven 32-bit numbers, 44 bytes. SUSPECTS_AT_.. below has the offsets.
 *
 *     at   field                what it says
 *      0   second_is_current    1 if the second bucket buffer is the current one, 0 if the first is
 *      4   old_size             the size of the table in the current buffer: the old one, or the only one
 *      8   new_size             the size of the new table, in the other buffer; 0 with no move
 *     12   old_used             the keys held in the table in the current buffer
 *     16   new_used             the keys held in the new table; 0 with no move
 *     20   rehashing            1 if a move is under way, else 0
 *     24   rehash_index         the next bucket of the old table to move; 0 with no move
 *     28   free_head            the first free entry, 0 for none
 *     32   capacity             how many entries the store has
 *     36   resize_allowed       1 if the table may grow as soon as it has as many keys as buckets, else 0
 *     40   safe_iterators       the pause count: how many careful passes are under way
 *
 * Read the fields as you like; leave the writing to the functions. The keys held are old_used plus new_used.
 *
 * A bucket buffer is 32-bit numbers, one for each bucket: the number of the first entry of its chain, or 0. The entry
 * buffer is three 32-bit numbers for each entry, at 12 * (n - 1) for entry n: its link, which is the next entry's
 * number or 0, its key, and its value. Entries are numbered from 1. The list is two 32-bit numbers for each key that is
 * handed out, the key and its value.
 *
 * HOW MUCH TO LEND
 *
 * For a capacity of c cells, 1 to 4,096:
 *
 *   - the entry buffer: 12 * c bytes, SUSPECTS_ENTRY_BYTES_FOR(c);
 *   - each bucket buffer: four bytes for each bucket of the largest table that it is to hold. A table grows to the
 *     least power of two that is at least twice the keys held. With SUSPECTS_BUCKET_BYTES_FOR(c) there is room for
 *     that, up to the 4,096 buckets that a buffer can have. (With more than 2,048 keys it would grow to 8,192, and so
 *     not at all: a table that has fewer than 4,096 buckets then needs a suspects_resize.) With shorter buffers it
 *     grows as long as there is room, and with a second one of length 0 never. No add is refused for that, but chains
 *     become long, and calls slow;
 *   - the list: SUSPECTS_LIST_BYTES_FOR(c) is enough for every call. A shorter one is answered 9 where it is too short.
 *
 * WHAT A CALL COSTS
 *
 * A call has room on its stack for the longest buffers. It clears that room and copies all three buffers there, and a
 * call that may change the store copies them back. A walk call and a pass call do so with their list too, with up to
 * 32,768 bytes of it. So a part of the time is the same for every call. The rest goes by the lengths that are lent, and
 * by the keys held only where chains are long: lend no more than the capacity needs.
 *
 * Measured by cost.c on one machine, with the older kit, the least of three runs: with buffers, and a list, for 4,096
 * cells a suspects_find took 4.4 microseconds, a suspects_update or a suspects_add 5.4, and a suspects_scan or a
 * suspects_iterate 6.4; with those for 16 cells 1.8, and 2.5 with a list.
 *
 * A call needs a stack of its own for these copies. Measured by cost.c, 115,092 bytes for suspects_scan and
 * suspects_iterate at most, and 82,680 for any other function, whatever the lengths that are lent. A thread's first
 * call may need some 4 KB more: where the dynamic linker binds `memcpy` and `memset` lazily, the first call that comes
 * to them in the process binds them. See to it that a thread that makes calls has as much.
 */
#ifndef SUSPECTS_H
#define SUSPECTS_H

#include <stddef.h>
#include <stdint.h>

#ifdef __cplusplus
extern "C" {
#endif

/* The lengths of the state and of the answer, and the most that a buffer may have. */
#define SUSPECTS_STATE_BYTES 44
#define SUSPECTS_ANSWER_BYTES 8
#define SUSPECTS_MOST_BUCKET_BYTES 16384
#define SUSPECTS_MOST_ENTRY_BYTES 49152

/* What fits into such buffers: entries, and buckets of one table. */
#define SUSPECTS_MOST_CAPACITY 4096
#define SUSPECTS_MOST_SIZE 4096

/* The most careful passes that can be under way at a time. */
#define SUSPECTS_MOST_CAREFUL_PASSES 255

/* Where the fields of the state are. */
#define SUSPECTS_AT_SECOND_IS_CURRENT 0
#define SUSPECTS_AT_OLD_SIZE 4
#define SUSPECTS_AT_NEW_SIZE 8
#define SUSPECTS_AT_OLD_USED 12
#define SUSPECTS_AT_NEW_USED 16
#define SUSPECTS_AT_REHASHING 20
#define SUSPECTS_AT_REHASH_INDEX 24
#define SUSPECTS_AT_FREE_HEAD 28
#define SUSPECTS_AT_CAPACITY 32
#define SUSPECTS_AT_RESIZE_ALLOWED 36
#define SUSPECTS_AT_SAFE_ITERATORS 40

/*
 * How many bytes to lend ("How much to lend" above), for a capacity of 1 to 4,096 cells and for a number of keys. Each
 * is a constant expression where its argument is one.
 */
#define SUSPECTS_ENTRY_BYTES_FOR(capacity) ((size_t)12 * (size_t)(capacity))
#define SUSPECTS_LIST_BYTES_FOR(keys) ((size_t)8 * (size_t)(keys))
#define SUSPECTS_BUCKET_BYTES_FOR(capacity)                                                                            \
    ((size_t)4 * ((capacity) <= 2      ? 4                                                                             \
                  : (capacity) <= 4    ? 8                                                                             \
                  : (capacity) <= 8    ? 16                                                                            \
                  : (capacity) <= 16   ? 32                                                                            \
                  : (capacity) <= 32   ? 64                                                                            \
                  : (capacity) <= 64   ? 128                                                                           \
                  : (capacity) <= 128  ? 256                                                                           \
                  : (capacity) <= 256  ? 512                                                                           \
                  : (capacity) <= 512  ? 1024                                                                          \
                  : (capacity) <= 1024 ? 2048                                                                          \
                                       : SUSPECTS_MOST_SIZE))

/* The answers' numbers. 10 is given only by the program that runs scripts, and 11 to 14 by nothing. */
enum suspects_number {
    SUSPECTS_DONE = 0,
    SUSPECTS_BAD_STATE = 1,                /* not the state of a store with these buffers; or a wrong length or flag */
    SUSPECTS_DAMAGED = 2,                  /* a chain that the call must read is not sound */
    SUSPECTS_ABSENT = 3,                   /* the key is not held */
    SUSPECTS_PRESENT = 4,                  /* the key is held already */
    SUSPECTS_FULL = 5,                     /* as many keys are held as the capacity says */
    SUSPECTS_BAD_SIZE = 6,                 /* capacity or size not legal; at a resize also: no room, or the same */
    SUSPECTS_MOVING = 7,                   /* a move is under way */
    SUSPECTS_NOT_MOVING = 8,               /* no move is under way */
    SUSPECTS_SHORT = 9,                    /* the list has no room for the keys to be handed out */
    SUSPECTS_CHANGED = 15,                 /* the fingerprint is not the store's now */
    SUSPECTS_NO_CAREFUL_PASS = 16,         /* no careful pass is under way */
    SUSPECTS_TOO_MANY_CAREFUL_PASSES = 17, /* 255 of them are */
    SUSPECTS_PAUSED = 18                   /* a move is under way, and a careful pass pauses it */
};

/* A store: the four slices that every call takes first. It only points at them, and may be copied and be const. */
struct suspects {
    uint8_t *state;
    size_t state_len;
    uint8_t *first;
    size_t first_len;
    uint8_t *second;
    size_t second_len;
    uint8_t *entries;
    size_t entries_len;
};

/*
 * The eight arguments that every call begins with, out of a struct suspects (not a pointer to one):
 *
 *     suspects_find(SUSPECTS_LENT(store), answer, sizeof answer, key)
 */
#define SUSPECTS_LENT(store)                                                                                           \
    (store).state, (store).state_len, (store).first, (store).first_len, (store).second, (store).second_len,            \
        (store).entries, (store).entries_len

/* A number at p, as the store has it: in the state, in a buffer, in a list, in an answer. */
static inline uint32_t suspects_get32(const uint8_t *p)
{
    return (uint32_t)p[0] | (uint32_t)p[1] << 8 | (uint32_t)p[2] << 16 | (uint32_t)p[3] << 24;
}

static inline void suspects_put32(uint8_t *p, uint32_t n)
{
    p[0] = (uint8_t)(n & 255);
    p[1] = (uint8_t)(n >> 8 & 255);
    p[2] = (uint8_t)(n >> 16 & 255);
    p[3] = (uint8_t)(n >> 24);
}

/* The fingerprint, in the answer of suspects_begin_iterator. */
static inline uint64_t suspects_get64(const uint8_t *p)
{
    return (uint64_t)suspects_get32(p) | (uint64_t)suspects_get32(p + 4) << 32;
}

static inline void suspects_put64(uint8_t *p, uint64_t n)
{
    suspects_put32(p, (uint32_t)(n & 0xffffffff));
    suspects_put32(p + 4, (uint32_t)(n >> 32));
}

/* A cell's key, and back. */
static inline uint32_t suspects_key(uint16_t chain, uint16_t position) { return (uint32_t)chain << 16 | position; }

static inline uint16_t suspects_chain(uint32_t key) { return (uint16_t)(key >> 16); }

static inline uint16_t suspects_position(uint32_t key) { return (uint16_t)(key & 65535); }

/* A number's name, for messages. */
static inline const char *suspects_number_name(uint32_t number)
{
    switch (number) {
    case SUSPECTS_DONE: return "done";
    case SUSPECTS_BAD_STATE: return "bad state";
    case SUSPECTS_DAMAGED: return "damaged";
    case SUSPECTS_ABSENT: return "absent";
    case SUSPECTS_PRESENT: return "present";
    case SUSPECTS_FULL: return "full";
    case SUSPECTS_BAD_SIZE: return "bad size";
    case SUSPECTS_MOVING: return "moving";
    case SUSPECTS_NOT_MOVING: return "not moving";
    case SUSPECTS_SHORT: return "short";
    case SUSPECTS_CHANGED: return "changed";
    case SUSPECTS_NO_CAREFUL_PASS: return "no careful pass";
    case SUSPECTS_TOO_MANY_CAREFUL_PASSES: return "too many careful passes";
    case SUSPECTS_PAUSED: return "paused";
    default: return "no number of the store";
    }
}

/* ---- A store, and single keys ------------------------------------------------------------------------------------ */

/*
 * Makes an empty store of a capacity, 1 to 4,096 cells, with one table of a size, a power of two from 1 to 4,096.
 * Growth is allowed, and no careful pass is under way. The state is not read, so any 44 bytes will do, those of a store
 * in use too.
 *
 * Numbers: 1 for a length; 6 for a capacity that is not 1 to 65,536, or a size that is not a power of two from 1 to
 * 65,536; 1 where the first bucket buffer or the entry buffer is too short for them, as it is above 4,096.
 * Answer: zeros.
 * Writes, on 0: the state, 4 * size bytes of the first bucket buffer, 12 * capacity bytes of the entry buffer.
 */
uint32_t suspects_init(uint8_t *state, size_t state_len, uint8_t *first, size_t first_len, uint8_t *second,
                       size_t second_len, uint8_t *entries, size_t entries_len, uint8_t *answer, size_t answer_len,
                       uint32_t capacity, uint32_t size);

/*
 * Finds a key.
 *
 * Numbers: 1; 2 for the key's chains; 3 where it is not held.
 * Answer: its value.
 * Writes: nothing else.
 */
uint32_t suspects_find(const uint8_t *state, size_t state_len, const uint8_t *first, size_t first_len,
                       const uint8_t *second, size_t second_len, const uint8_t *entries, size_t entries_len,
                       uint8_t *answer, size_t answer_len, uint32_t key);

/*
 * Gives a held key another value.
 *
 * Numbers: 1; 2 for the key's chains; 3 where it is not held.
 * Answer: zeros.
 * Writes, on 0: the value, in the entry buffer.
 */
uint32_t suspects_update(uint8_t *state, size_t state_len, uint8_t *first, size_t first_len, uint8_t *second,
                         size_t second_len, uint8_t *entries, size_t entries_len, uint8_t *answer, size_t answer_len,
                         uint32_t key, uint32_t value);

/*
 * Adds a key that is not held. During a move that is not paused it takes a step first. Behind it the table may grow, if
 * no move is under way then: where it has at least as many keys as buckets and growth is allowed, or more than five
 * times as many in any case, a move begins to the size that suspects_suggested_size answers for growing, if the other
 * bucket buffer has room for that.
 *
 * Numbers: 1; 2 for the step; 2 for the key's chains; 4 where it is held; 5 where the store is full; 2 for the free
 * chain. Growth has no number, and refuses nothing.
 * Answer: zeros.
 * Writes, on 0: the state, and both bucket buffers and the entry buffer as the step, the add and growth need it.
 */
uint32_t suspects_add(uint8_t *state, size_t state_len, uint8_t *first, size_t first_len, uint8_t *second,
                      size_t second_len, uint8_t *entries, size_t entries_len, uint8_t *answer, size_t answer_len,
                      uint32_t key, uint32_t value);

/*
 * Deletes a key. During a move that is not paused it takes a step first.
 *
 * Numbers: 1; 2 for the step; 2 for the key's chains; 3 where it is not held.
 * Answer: zeros.
 * Writes, on 0: the state, and the bucket buffers and the entry buffer as the step and the delete need it.
 */
uint32_t suspects_delete(uint8_t *state, size_t state_len, uint8_t *first, size_t first_len, uint8_t *second,
                         size_t second_len, uint8_t *entries, size_t entries_len, uint8_t *answer, size_t answer_len,
                         uint32_t key);

/* ---- The tables -------------------------------------------------------------------------------------------------- */

/*
 * Begins a move of all keys to a table of another size, larger or smaller. It moves nothing yet: steps do.
 *
 * Numbers: 1; 7 during a move; 6 where the size is not a power of two from 1 to 65,536, or is the present one, or is
 * more than the other bucket buffer has room for.
 * Answer: zeros.
 * Writes, on 0: the state, and 4 * size bytes of the other bucket buffer.
 */
uint32_t suspects_resize(uint8_t *state, size_t state_len, uint8_t *first, size_t first_len, uint8_t *second,
                         size_t second_len, uint8_t *entries, size_t entries_len, uint8_t *answer, size_t answer_len,
                         uint32_t size);

/*
 * Takes one step of the move: moves the keys of the next filled bucket to the new table, or passes ten empty ones. The
 * step behind which the old table has no keys ends the move. A program with time to spare may call it until its second
 * result is 0, and then a move is over sooner than by adds and deletes alone.
 *
 * Numbers: 1; 8 with no move; 18 while the move is paused; 2 for the chain to be moved, or where the old table has keys
 * by its count and none in the buckets that are left.
 * Answer: the number of keys moved; 1 if the move goes on, 0 if it is over.
 * Writes, on 0: the state, and where keys are moved both bucket buffers and the links in the entry buffer.
 */
uint32_t suspects_rehash_step(uint8_t *state, size_t state_len, uint8_t *first, size_t first_len, uint8_t *second,
                              size_t second_len, uint8_t *entries, size_t entries_len, uint8_t *answer,
                              size_t answer_len);

/*
 * Suggests a size for the keys held: the least power of two that is at least twice as many (growing is 1), or as many
 * (growing is 0), but 4 at least and 65,536 at most. It begins no move.
 *
 * Numbers: 1, also for a flag `growing` above 1.
 * Answer: the size. A size above 4,096 is more than a bucket buffer has room for.
 * Writes: nothing else.
 */
uint32_t suspects_suggested_size(const uint8_t *state, size_t state_len, const uint8_t *first, size_t first_len,
                                 const uint8_t *second, size_t second_len, const uint8_t *entries, size_t entries_len,
                                 uint8_t *answer, size_t answer_len, uint32_t growing);

/*
 * Says whether the table may grow as soon as it has as many keys as buckets (1), or only with more than five times as
 * many (0).
 *
 * Numbers: 1, also for a flag `allowed` above 1.
 * Answer: zeros.
 * Writes, on 0: the state.
 */
uint32_t suspects_allow_resize(uint8_t *state, size_t state_len, uint8_t *first, size_t first_len, uint8_t *second,
                               size_t second_len, uint8_t *entries, size_t entries_len, uint8_t *answer,
                               size_t answer_len, uint32_t allowed);

/* ---- All keys, a few at a time: docs/PASSES.md says when to use which -------------------------------------------- */

/*
 * A walk call. A walk is a series of them: the first with cursor 0, each next one with the cursor that the one before
 * it answered, until 0 is answered. Calls of every kind may come in between. Each key that is held throughout comes at
 * least once, and exactly once if the table only grows meanwhile. A walk needs no end, and may be left at any time.
 *
 * A refused call answers no cursor: go on with the one that it was given.
 *
 * Numbers: 1; 2 for the chains of the buckets that it hands out, each and all together; 9 where the list is too short
 * for their keys.
 * Answer: the next cursor; the number of keys handed out, often 0. With 9: 0; the number of keys that need room.
 * Writes, on 0: the list, a key and its value for each key handed out, and nothing behind them.
 */
uint32_t suspects_scan(const uint8_t *state, size_t state_len, const uint8_t *first, size_t first_len,
                       const uint8_t *second, size_t second_len, const uint8_t *entries, size_t entries_len,
                       uint8_t *list, size_t list_len, uint8_t *answer, size_t answer_len, uint32_t cursor);

/*
 * A pass call. A pass is a series of them, between a begin and an end: the first with place 0, each next one with the
 * place that the one before it answered. Each call hands out the next filled bucket. None is left when no key is handed
 * out; the place answered then is the end, which is old_size plus new_size of the state. (The call that hands out the
 * last bucket of all answers the end too.)
 *
 * A refused call answers no place: go on with the one that it was given.
 *
 * Numbers: 1; 2 for the chain of the bucket; 9 where the list is too short for its keys.
 * Answer: the next place; the number of keys handed out. With 9: 0; the number of keys that need room.
 * Writes, on 0: the list, a key and its value for each key handed out, and nothing behind them.
 */
uint32_t suspects_iterate(const uint8_t *state, size_t state_len, const uint8_t *first, size_t first_len,
                          const uint8_t *second, size_t second_len, const uint8_t *entries, size_t entries_len,
                          uint8_t *list, size_t list_len, uint8_t *answer, size_t answer_len, uint32_t place);

/*
 * Begins a plain pass, one during which nothing changes the store: each key comes exactly once. The store keeps nothing
 * of it; the fingerprint is for suspects_end_iterator.
 *
 * Numbers: 1.
 * Answer: the fingerprint, 64 bits (suspects_get64).
 * Writes: nothing else.
 */
uint32_t suspects_begin_iterator(const uint8_t *state, size_t state_len, const uint8_t *first, size_t first_len,
                                 const uint8_t *second, size_t second_len, const uint8_t *entries, size_t entries_len,
                                 uint8_t *answer, size_t answer_len);

/*
 * Ends a plain pass. 15 proves that the store has changed since the fingerprint was taken. 0 does not prove that it has
 * not: one key deleted and another added, for one, leave the fingerprint as it was.
 *
 * Numbers: 1; 15 where the fingerprint is not the store's now.
 * Answer: zeros.
 * Writes: nothing else.
 */
uint32_t suspects_end_iterator(const uint8_t *state, size_t state_len, const uint8_t *first, size_t first_len,
                               const uint8_t *second, size_t second_len, const uint8_t *entries, size_t entries_len,
                               uint8_t *answer, size_t answer_len, uint64_t fingerprint);

/*
 * Begins a careful pass. Until it has ended no key moves, so that each key that is held throughout comes exactly once,
 * whatever other calls come in between; none comes twice unless it was deleted and added again. A move that is under
 * way, or that begins meanwhile, stands still: end the pass soon. There may be several. The store only counts them, so
 * that one end too many may end the pause of another pass; a suspects_init ends them all.
 *
 * Numbers: 1; 17 where 255 are under way.
 * Answer: zeros.
 * Writes, on 0: the state.
 */
uint32_t suspects_begin_safe(uint8_t *state, size_t state_len, uint8_t *first, size_t first_len, uint8_t *second,
                             size_t second_len, uint8_t *entries, size_t entries_len, uint8_t *answer,
                             size_t answer_len);

/*
 * Ends a careful pass.
 *
 * Numbers: 1; 16 where none is under way.
 * Answer: zeros.
 * Writes, on 0: the state.
 */
uint32_t suspects_end_safe(uint8_t *state, size_t state_len, uint8_t *first, size_t first_len, uint8_t *second,
                           size_t second_len, uint8_t *entries, size_t entries_len, uint8_t *answer, size_t answer_len);

#ifdef __cplusplus
}
#endif

#endif
