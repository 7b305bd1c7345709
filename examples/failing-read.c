/* Preloaded, it shortens the reads of `judge` and `run` to 160 bytes, and lets read number FAIL_AT, from 0, fail with the error FAIL_WITH. */
#define _GNU_SOURCE
#include <dlfcn.h>
#include <errno.h>
#include <stdlib.h>
#include <string.h>
#include <unistd.h>

ssize_t read(int file, void *room, size_t size) {
    static int reads;
    ssize_t (*next)(int, void *, size_t) = (ssize_t (*)(int, void *, size_t))dlsym(RTLD_NEXT, "read");
    if (strcmp(program_invocation_short_name, "judge") != 0 && strcmp(program_invocation_short_name, "run") != 0) return next(file, room, size);
    if (reads++ == atoi(getenv("FAIL_AT"))) {
        errno = atoi(getenv("FAIL_WITH"));
        return -1;
    }
    return next(file, room, size < 160 ? size : 160);
}
