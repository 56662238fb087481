/* What is stored, and which of it is asked for when. Nothing differs from run to run, or from crates/bench_store. */
#ifndef DOCUMENTS_H
#define DOCUMENTS_H

#include <stdbool.h>
#include <stddef.h>
#include <stdint.h>

#include "check.h"

/* Pieces of a pool of bytes: all of one length, or of many lengths, of which it is the mean. */
struct documents {
    uint8_t *pool;
    size_t length;
    bool are_many;
};

/* Makes the pool. The length is below 1 MiB, or below 64 KiB for many. */
struct documents documents_of(size_t length, bool are_many);

void documents_free(struct documents *documents);

/* The document of a number. */
struct bytes document_at(const struct documents *documents, size_t number);

enum order {
    UNIFORM,  /* each as often as the others */
    HOT,      /* fifteen of sixteen times one of the first `hot` documents */
    ZIPF,     /* the first ones the more often: half of the documents as often as the half before them */
    SEQUENCE  /* one after the other */
};

/* `questions` numbers below `count`, in memory that the caller frees. Each thread has a list of its own. */
uint32_t *numbers_of(enum order order, size_t questions, uint32_t count, uint32_t hot, unsigned thread);

#endif
