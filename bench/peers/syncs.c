/* Some libraries sync now and then as they write, and others leave that to their user. So that all are compared alike,
 * their calls come here first and are dropped; afterwards `path_sync` asks for everything at once. */
#include <fcntl.h>
#include <stdbool.h>
#include <stddef.h>
#include <sys/mman.h>
#include <sys/syscall.h>
#include <unistd.h>

#include "files.h"

bool syncs_reach_the_system = false;

int fsync(int file) {
    return syncs_reach_the_system ? (int)syscall(SYS_fsync, file) : 0;
}

int fdatasync(int file) {
    return syncs_reach_the_system ? (int)syscall(SYS_fdatasync, file) : 0;
}

int msync(void *start, size_t length, int how) {
    return syncs_reach_the_system ? (int)syscall(SYS_msync, start, length, how) : 0;
}

int sync_file_range(int file, off64_t from, off64_t length, unsigned how) {
    return syncs_reach_the_system ? (int)syscall(SYS_sync_file_range, file, from, length, how) : 0;
}
