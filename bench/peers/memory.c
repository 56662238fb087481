#include "memory.h"

#include <inttypes.h>
#include <stdio.h>
#include <string.h>

#include "side.h"

/* A line of /proc/self/status, as "RssAnon:", in bytes. */
static uint64_t status_line(const char *name) {
    char line[256];
    uint64_t kibibytes = 0;
    FILE *status = fopen("/proc/self/status", "r");
    require(status != NULL, "memory", "no /proc/self/status");
    while (fgets(line, sizeof line, status) != NULL) {
        if (strncmp(line, name, strlen(name)) == 0) {
            require(sscanf(line + strlen(name), "%" SCNu64, &kibibytes) == 1, "memory", "a line without a number");
        }
    }
    fclose(status);
    return kibibytes * 1024;
}

uint64_t own_memory(void) {
    return status_line("RssAnon:");
}

uint64_t peak_memory(void) {
    return status_line("VmHWM:");
}
