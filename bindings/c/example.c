// gcc -std=c99 bindings/c/example.c crates/exports/out/libexports.a -o target/example && target/example
// find: done, 25 fails
#include "suspects.h"
#include <stdio.h>

static uint8_t state[SUSPECTS_STATE_BYTES], answer[SUSPECTS_ANSWER_BYTES];
static uint8_t first[SUSPECTS_BUCKET_BYTES_FOR(100)], second[SUSPECTS_BUCKET_BYTES_FOR(100)];
static uint8_t entries[SUSPECTS_ENTRY_BYTES_FOR(100)];
static const struct suspects store = {state,  sizeof state,  first,   sizeof first,
                                      second, sizeof second, entries, sizeof entries};

int main(void)
{
    uint32_t cell = suspects_key(1, 7); // scan chain 1, position 7
    uint32_t number = suspects_init(SUSPECTS_LENT(store), answer, sizeof answer, 100, 4);
    if (number == SUSPECTS_DONE) number = suspects_add(SUSPECTS_LENT(store), answer, sizeof answer, cell, 25);
    if (number == SUSPECTS_DONE) number = suspects_find(SUSPECTS_LENT(store), answer, sizeof answer, cell);
    printf("find: %s, %u fails\n", suspects_number_name(number), (unsigned)suspects_get32(answer));
    return number == SUSPECTS_DONE ? 0 : 1;
}
