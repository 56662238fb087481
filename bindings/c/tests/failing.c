/* Makes one call of a program fail: the one whose number FAIL_AT says, counted from 1.
 *
 * The program is linked with --wrap for each of these calls.
 */
#define _POSIX_C_SOURCE 200809L
#include "failing.h"
#include <fcntl.h>
#include <stdio.h>
#include <unistd.h>

#define FAILS(name) fails()

WRAPPED(void *, malloc, (size_t size), (size), NULL)
WRAPPED(void *, realloc, (void *block, size_t size), (block, size), NULL)
WRAPPED(FILE *, fopen, (const char *path, const char *mode), (path, mode), NULL)
WRAPPED(ssize_t, getline, (char **line, size_t *room, FILE *file), (line, room, file), -1)
WRAPPED(int, fflush, (FILE *file), (file), EOF)
WRAPPED(int, fsync, (int descriptor), (descriptor), -1)
WRAPPED(int, fclose, (FILE *file), (file), EOF)
WRAPPED(int, renameat2, (int folder, const char *from, int other, const char *to, unsigned flags),
        (folder, from, other, to, flags), -1)
WRAPPED(int, open, (const char *path, int flags), (path, flags), -1)
WRAPPED(int, close, (int descriptor), (descriptor), -1)

/* Nothing can fail where nothing is written. */
size_t __real_fwrite(const void *bytes, size_t size, size_t count, FILE *file);
size_t __wrap_fwrite(const void *bytes, size_t size, size_t count, FILE *file);
size_t __wrap_fwrite(const void *bytes, size_t size, size_t count, FILE *file) {
    return count > 0 && fails() ? 0 : __real_fwrite(bytes, size, count, file);
}
