/* Calls that fail by number: the one whose number FAIL_AT says, counted from 1, of those that are WRAPPED.
 *
 * A program that includes it says by FAILS(name) whether the call of this name fails.
 */
#include <errno.h>
#include <stdlib.h>

/* Whether this call fails. */
static int fails(void) {
    static long calls = 0;
    const char *at = getenv("FAIL_AT");
    if (at == NULL || ++calls != strtol(at, NULL, 10)) {
        return 0;
    }
    errno = ENOSPC;
    return 1;
}

#define WRAPPED(result, name, parameters, arguments, failure)    \
    result __real_##name parameters;                             \
    result __wrap_##name parameters;                             \
    result __wrap_##name parameters {                            \
        return FAILS(name) ? failure : __real_##name arguments; \
    }
