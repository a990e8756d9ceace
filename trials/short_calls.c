/* Loaded before the C library: of the reads and writes of a process the one with the number SHORT in the environment, or
   with LASTS there each one from it on, is asked for a part of its bytes. MADE names a file that gets how many there were. */
#define _GNU_SOURCE
#include <dlfcn.h>
#include <stdio.h>
#include <stdlib.h>
#include <sys/syscall.h>
#include <unistd.h>

static unsigned long made;

static size_t shorter(size_t count) {
    const char *number = getenv("SHORT");
    unsigned long at = number ? strtoul(number, 0, 10) : 0;
    int is_short = ++made == at || (at && getenv("LASTS") && made > at);
    if (!is_short || count < 2) return count;
    return getenv("LASTS") && count > 100 ? 100 : count / 2;
}

#define BEFORE(name, parameters, arguments) \
    ssize_t name parameters { \
        static ssize_t (*next) parameters; \
        if (!next) next = dlsym(RTLD_NEXT, #name); \
        count = shorter(count); \
        return next arguments; \
    }

BEFORE(read, (int file, void *into, size_t count), (file, into, count))
BEFORE(write, (int file, const void *from, size_t count), (file, from, count))
BEFORE(pread, (int file, void *into, size_t count, off_t at), (file, into, count, at))
BEFORE(pread64, (int file, void *into, size_t count, off64_t at), (file, into, count, at))
BEFORE(pwrite, (int file, const void *from, size_t count, off_t at), (file, from, count, at))
BEFORE(pwrite64, (int file, const void *from, size_t count, off64_t at), (file, from, count, at))

static void tell(void) {
    unsigned long count = made;
    FILE *file = getenv("MADE") ? fopen(getenv("MADE"), "w") : 0;
    if (!file) return;
    fprintf(file, "%lu", count);
    fclose(file);
}

__attribute__((destructor)) static void end(void) { tell(); }

void _exit(int status) {
    tell();
    for (;;) syscall(SYS_exit_group, status);
}
