/* What tells whether two sides gave the same documents: each one, in its turn, goes into a sum. crates/bench_store
 * makes the same sum. */
#ifndef CHECK_H
#define CHECK_H

#include <stddef.h>
#include <stdint.h>

struct bytes {
    const uint8_t *start;
    size_t length;
};

struct check {
    uint64_t value;
    uint64_t count;
};

/* Adds a document by its length, its first byte and its last, so that it has to be there, and is not read through. */
static inline void check_add(struct check *check, struct bytes document) {
    uint64_t first = document.length > 0 ? document.start[0] : 0;
    uint64_t last = document.length > 0 ? document.start[document.length - 1] : 0;
    check->value = check->value * 1000003u + document.length + 256 * first + 65536 * last;
    check->count++;
}

#endif
