/* What this process takes of the machine's memory, in bytes. */
#ifndef MEMORY_H
#define MEMORY_H

#include <stdint.h>

/* Memory of its own, that is no file's. */
uint64_t own_memory(void);

/* The most that was in memory at once, with the pages of mapped files. */
uint64_t peak_memory(void);

#endif
