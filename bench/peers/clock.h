#ifndef CLOCK_H
#define CLOCK_H

#include <stdint.h>

/* Nanoseconds since some moment, never going back. */
uint64_t clock_now(void);

#endif
