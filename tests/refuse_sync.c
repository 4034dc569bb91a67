/* Preloaded into the program: writes into the file EVENTS_FILE in which order it writes and syncs, a letter for each, once
   it is done: r for a write to standard output, w for one to a file, s for a sync of a file's data and f for one of a
   whole file or folder. The REFUSED_SYNC-th sync of these is refused, which is an x. Before the first, the file SWAP_FROM
   gets the name SWAP_TO, as if another process did that. */
#define _GNU_SOURCE
#include <errno.h>
#include <fcntl.h>
#include <stdio.h>
#include <stdlib.h>
#include <sys/syscall.h>
#include <unistd.h>

static void note(char event)
{
    const char *name = getenv("EVENTS_FILE");
    int kept = errno, events = syscall(SYS_openat, AT_FDCWD, name ? name : "", O_CREAT | O_WRONLY | O_APPEND, 0600);
    if (events >= 0) {
        syscall(SYS_write, events, &event, 1);
        syscall(SYS_close, events);
    }
    errno = kept;
}

ssize_t write(int file, const void *bytes, size_t count)
{
    ssize_t written = syscall(SYS_write, file, bytes, count);
    if (file != STDERR_FILENO)
        note(file == STDOUT_FILENO ? 'r' : 'w');
    return written;
}

static int synced(long call, int file, char event)
{
    static long asked;
    const char *refused = getenv("REFUSED_SYNC"), *from = getenv("SWAP_FROM"), *to = getenv("SWAP_TO");
    if (asked == 0 && from && to)
        rename(from, to);
    if (++asked == (refused ? atol(refused) : 0)) {
        note('x');
        errno = EIO;
        return -1;
    }
    int status = syscall(call, file);
    note(event);
    return status;
}

int fdatasync(int file)
{
    return synced(SYS_fdatasync, file, 's');
}

int fsync(int file)
{
    return synced(SYS_fsync, file, 'f');
}
