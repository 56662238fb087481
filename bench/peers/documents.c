#include "documents.h"

#include <stdlib.h>

#include "side.h"

/* The seeds and steps of crates/bench_store. */
static const uint64_t POOL_SEED = 88172645463325252u;
static const uint64_t NUMBERS_SEED = 1234567890123456789u;
static const uint64_t THREAD_STEP = 1000000007u;
static const uint64_t LENGTH_STEP = 0x9e3779b97f4a7c15u;
enum { POOL_LENGTH = 1 << 20, POOL_STEP = 4099, WHOLE_EVERY = 16, SAME_LENGTH = 1000, MOST_DOUBLED = 6 };

/* Steps the generator of crates/bench_store, and answers its new state. */
static uint64_t next(uint64_t *state) {
    *state ^= *state << 13;
    *state ^= *state >> 7;
    *state ^= *state << 17;
    return *state;
}

/* The largest of many lengths, by their mean. */
static size_t largest(size_t mean) {
    return (mean / 4) << MOST_DOUBLED;
}

struct documents documents_of(size_t length, bool are_many) {
    require((are_many ? largest(length) : length) < POOL_LENGTH, "documents", "a document has to be below 1 MiB");
    struct documents documents = {malloc(POOL_LENGTH), length, are_many};
    require(documents.pool != NULL, "documents", "no memory");
    uint64_t state = POOL_SEED, word = 0;
    for (size_t at = 0; at < POOL_LENGTH; at++) {
        word = at % 8 == 0 ? next(&state) : word >> 8;
        documents.pool[at] = (uint8_t)word;
    }
    return documents;
}

void documents_free(struct documents *documents) {
    free(documents->pool);
    documents->pool = NULL;
}

/* Of many lengths half have a quarter of the mean, a quarter of them twice that, and so on, in runs of a thousand
 * documents: so the blocks of one place have many documents, and those of another few. */
static size_t length_of(const struct documents *documents, size_t number) {
    if (!documents->are_many) {
        return documents->length;
    }
    uint64_t bits = (number / SAME_LENGTH + 1) * LENGTH_STEP >> 32;
    size_t length = documents->length / 4;
    for (int doubled = 0; doubled < MOST_DOUBLED && bits % 2 == 0; doubled++) {
        length *= 2;
        bits /= 2;
    }
    return length;
}

struct bytes document_at(const struct documents *documents, size_t number) {
    size_t length = length_of(documents, number);
    size_t start = number * POOL_STEP % (POOL_LENGTH - length);
    return (struct bytes){documents->pool + start, length};
}

static unsigned binary_digits(uint32_t number) {
    unsigned digits = 0;
    for (; number > 0; number >>= 1) {
        digits++;
    }
    return digits;
}

static uint64_t next_number(enum order order, uint64_t *state, size_t question, uint32_t count, uint32_t hot) {
    switch (order) {
    case UNIFORM:
        return next(state) % count;
    case HOT:
        return next(state) % WHOLE_EVERY == 0 ? next(state) % count : next(state) % (hot < count ? hot : count);
    case ZIPF: {
        uint32_t front = count >> (next(state) % binary_digits(count));
        return next(state) % (front > 0 ? front : 1);
    }
    case SEQUENCE:
        break;
    }
    return question % count;
}

uint32_t *numbers_of(enum order order, size_t questions, uint32_t count, uint32_t hot, unsigned thread) {
    uint32_t *numbers = malloc((questions + 1) * sizeof *numbers);
    require(numbers != NULL, "documents", "no memory");
    require(count > 0 && hot > 0, "documents", "there is nothing to ask for");
    uint64_t state = NUMBERS_SEED + thread * THREAD_STEP;
    for (size_t question = 0; question < questions; question++) {
        numbers[question] = (uint32_t)next_number(order, &state, question, count, hot);
    }
    return numbers;
}
