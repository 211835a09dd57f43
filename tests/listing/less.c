/* Stands before the C library by LD_PRELOAD, so that pread and write do less than they are asked, or fail, as a disk or a
 * pipe may. The environment says what:
 *   LESS_READ n            a read of NET, MOD or STIM gives at most n bytes
 *   LESS_FILE name, LESS_READ_FAILS k   the k-th read of this file fails
 *   LESS_WRITE n           a write to standard output takes at most n bytes
 *   LESS_WRITE_FAILS k     the k-th write to standard output fails
 *   LESS_SEEN path         a file that is made at the first read, to show that all this was in force */
#define _GNU_SOURCE
#include <errno.h>
#include <fcntl.h>
#include <stdio.h>
#include <stdlib.h>
#include <string.h>
#include <sys/syscall.h>
#include <unistd.h>

static long number(const char *name)
{
    const char *value = getenv(name);
    return value ? atol(value) : 0;
}

/* The last part of the path that is open as a descriptor. */
static const char *name_of(int descriptor, char *path, size_t size)
{
    char link[40];
    snprintf(link, sizeof link, "/proc/self/fd/%d", descriptor);
    ssize_t length = readlink(link, path, size - 1);
    path[length > 0 ? length : 0] = 0;
    char *slash = strrchr(path, '/');
    return slash ? slash + 1 : path;
}

ssize_t pread(int descriptor, void *buffer, size_t count, off_t place)
{
    static long reads;
    char path[4096];
    const char *name = name_of(descriptor, path, sizeof path), *file = getenv("LESS_FILE"), *seen = getenv("LESS_SEEN");
    if (!strcmp(name, "NET") || !strcmp(name, "MOD") || !strcmp(name, "STIM")) {
        long most = number("LESS_READ");
        if (most && count > (size_t)most)
            count = most;
        if (seen)
            close(open(seen, O_CREAT | O_WRONLY, 0644));
        if (file && !strcmp(name, file) && ++reads == number("LESS_READ_FAILS")) {
            errno = EIO;
            return -1;
        }
    }
    return syscall(SYS_pread64, descriptor, buffer, count, place);
}

ssize_t write(int descriptor, const void *buffer, size_t count)
{
    static long writes;
    if (descriptor == STDOUT_FILENO) {
        long most = number("LESS_WRITE");
        if (most && count > (size_t)most)
            count = most;
        if (++writes == number("LESS_WRITE_FAILS")) {
            errno = ENOSPC;
            return -1;
        }
    }
    return syscall(SYS_write, descriptor, buffer, count);
}
