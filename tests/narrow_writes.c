/* Preloaded into the program: a write to standard output takes at most WRITE_WIDTH bytes. One write fails, once
   WRITE_LIMIT bytes were taken; or takes none of its bytes, if WRITE_TAKES_NONE isn't 0. Later ones are good again. */
#define _GNU_SOURCE
#include <errno.h>
#include <stdlib.h>
#include <sys/syscall.h>
#include <unistd.h>

static size_t asked_of(const char *name)
{
    const char *number = getenv(name);
    return number ? (size_t)atol(number) : 0;
}

static size_t least(size_t one, size_t other)
{
    return one < other ? one : other;
}

ssize_t write(int file, const void *bytes, size_t count)
{
    static size_t taken;
    static int has_failed;
    if (file == STDOUT_FILENO) {
        size_t left = asked_of("WRITE_LIMIT") - taken;
        if (!has_failed && left == 0) {
            has_failed = 1;
            errno = EIO;
            return asked_of("WRITE_TAKES_NONE") ? 0 : -1;
        }
        count = least(count, asked_of("WRITE_WIDTH"));
        if (!has_failed)
            count = least(count, left);
        taken += count;
    }
    return syscall(SYS_write, file, bytes, count);
}
