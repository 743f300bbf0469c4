// Loaded before the C library, it makes one call of a program fail, and leaves all others to that library.
//
// FAILING_CALL is the kind of the call, `allocation`, `read` or `write` (to standard output), and FAILING_NUMBER the number of
// the one that fails, from 1 on. Once it is reached there is a file of the name FAILING_NOTE, by which the caller knows that
// the program makes as many. With FAILING_STAYS all later ones fail too, with FAILING_SILENTLY a write that fails takes nothing
// and reports no error, and with FAILING_PIECES every read and write moves one byte.
#define _GNU_SOURCE
#include <dlfcn.h>
#include <errno.h>
#include <fcntl.h>
#include <stdlib.h>
#include <string.h>
#include <sys/syscall.h>
#include <unistd.h>

static unsigned long count;

// Says whether this call, of this kind, fails.
static int fails(const char *kind) {
    const char *wanted = getenv("FAILING_CALL");
    const char *number = getenv("FAILING_NUMBER");
    const char *note = getenv("FAILING_NOTE");
    if (!wanted || !number || !note || strcmp(wanted, kind))
        return 0;
    unsigned long failing = strtoul(number, NULL, 10);
    count++;
    if (count < failing || (count > failing && !getenv("FAILING_STAYS")))
        return 0;
    int file = open(note, O_CREAT | O_WRONLY, 0600);
    if (file < 0)
        _exit(99);
    close(file);
    return 1;
}

// Returns how many bytes a read or a write moves at most.
static size_t piece(size_t size) {
    return size > 1 && getenv("FAILING_PIECES") ? 1 : size;
}

void *malloc(size_t size) {
    static void *(*next)(size_t);
    if (!next)
        next = (void *(*)(size_t))dlsym(RTLD_NEXT, "malloc");
    return fails("allocation") ? NULL : next(size);
}

void *realloc(void *old, size_t size) {
    static void *(*next)(void *, size_t);
    if (!next)
        next = (void *(*)(void *, size_t))dlsym(RTLD_NEXT, "realloc");
    return fails("allocation") ? NULL : next(old, size);
}

ssize_t read(int file, void *buffer, size_t size) {
    if (fails("read")) {
        errno = EINTR;
        return -1;
    }
    return syscall(SYS_read, file, buffer, piece(size));
}

ssize_t write(int file, const void *buffer, size_t size) {
    if (file != 1)
        return syscall(SYS_write, file, buffer, size);
    if (fails("write")) {
        errno = ENOSPC;
        return getenv("FAILING_SILENTLY") ? 0 : -1;
    }
    return syscall(SYS_write, file, buffer, piece(size));
}
