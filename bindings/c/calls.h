/* The functions of suspects.h by their numbers, for calls.c and cost.c, which try and measure all of them in turn. */
#ifndef CALLS_H
#define CALLS_H

#include "suspects.h"

#include <stdlib.h>

enum call {
    INIT,
    FIND,
    UPDATE,
    ADD,
    DELETE,
    RESIZE,
    REHASH_STEP,
    SCAN,
    ITERATE,
    BEGIN_ITERATOR,
    END_ITERATOR,
    BEGIN_SAFE,
    END_SAFE,
    SUGGESTED_SIZE,
    ALLOW_RESIZE,
    CALLS
};

static const char *const call_names[CALLS] = {
    "suspects_init",     "suspects_find",           "suspects_update",       "suspects_add",
    "suspects_delete",   "suspects_resize",         "suspects_rehash_step",  "suspects_scan",
    "suspects_iterate",  "suspects_begin_iterator", "suspects_end_iterator", "suspects_begin_safe",
    "suspects_end_safe", "suspects_suggested_size", "suspects_allow_resize",
};

/* All that a call can be lent. Only a walk call and a pass call take the list. */
struct lent {
    struct suspects store;
    uint8_t *list;
    size_t list_len;
    uint8_t *answer;
    size_t answer_len;
};

/* Makes a call, with as many of the two numbers as it takes. */
static inline uint32_t make_call(enum call call, const struct lent *lent, uint64_t a, uint32_t b)
{
#define STORE SUSPECTS_LENT(lent->store)
#define LIST lent->list, lent->list_len
#define ANSWER lent->answer, lent->answer_len
    uint32_t n = (uint32_t)(a & UINT32_MAX);
    switch (call) {
    case INIT: return suspects_init(STORE, ANSWER, n, b);
    case FIND: return suspects_find(STORE, ANSWER, n);
    case UPDATE: return suspects_update(STORE, ANSWER, n, b);
    case ADD: return suspects_add(STORE, ANSWER, n, b);
    case DELETE: return suspects_delete(STORE, ANSWER, n);
    case RESIZE: return suspects_resize(STORE, ANSWER, n);
    case REHASH_STEP: return suspects_rehash_step(STORE, ANSWER);
    case SCAN: return suspects_scan(STORE, LIST, ANSWER, n);
    case ITERATE: return suspects_iterate(STORE, LIST, ANSWER, n);
    case BEGIN_ITERATOR: return suspects_begin_iterator(STORE, ANSWER);
    case END_ITERATOR: return suspects_end_iterator(STORE, ANSWER, a);
    case BEGIN_SAFE: return suspects_begin_safe(STORE, ANSWER);
    case END_SAFE: return suspects_end_safe(STORE, ANSWER);
    case SUGGESTED_SIZE: return suspects_suggested_size(STORE, ANSWER, n);
    case ALLOW_RESIZE: return suspects_allow_resize(STORE, ANSWER, n);
    case CALLS: break;
    }
    abort();
#undef STORE
#undef LIST
#undef ANSWER
}

#endif
