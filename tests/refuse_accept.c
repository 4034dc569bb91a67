/* Preloaded into the program: the first REFUSED_TIMES times that it accepts a connection are refused, for the reason
   with the number REFUSED_ACCEPT. */
#define _GNU_SOURCE
#include <errno.h>
#include <stdatomic.h>
#include <stdlib.h>
#include <sys/socket.h>
#include <sys/syscall.h>
#include <unistd.h>

static long asked_of(const char *name)
{
    const char *number = getenv(name);
    return number ? atol(number) : 0;
}

int accept4(int listener, struct sockaddr *address, socklen_t *length, int flags)
{
    static atomic_long tried;
    if (atomic_fetch_add(&tried, 1) < asked_of("REFUSED_TIMES")) {
        errno = asked_of("REFUSED_ACCEPT");
        return -1;
    }
    return syscall(SYS_accept4, listener, address, length, flags);
}

int accept(int listener, struct sockaddr *address, socklen_t *length)
{
    return accept4(listener, address, length, 0);
}
