/* What both sides of ours have in common. */
#ifndef ZEVK_SIDE_H
#define ZEVK_SIDE_H

#include "side.h"

/* Ends the program with the text of an error, if it is one. */
void expect_done(uint32_t error);

/* Writes a store by the library for C. */
void write_store(const char *path, const struct documents *documents, const struct settings *settings);

#endif
