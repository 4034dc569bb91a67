/* Preloaded into the program: the first LATE_LOOKS times that it looks for what was typed, and something was, it sees
   nothing. */
#define _GNU_SOURCE
#include <poll.h>
#include <stdlib.h>
#include <sys/syscall.h>
#include <unistd.h>

int poll(struct pollfd *asked, nfds_t count, int wait)
{
    static long late;
    const char *looks = getenv("LATE_LOOKS");
    int ready = syscall(SYS_poll, asked, count, wait);
    if (ready <= 0 || late >= (looks ? atol(looks) : 0))
        return ready;
    late++;
    for (nfds_t each = 0; each < count; each++)
        asked[each].revents = 0;
    return 0;
}
