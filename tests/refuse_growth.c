/* Preloaded into the program: refuses one growth of memory, the REFUSED_GROWTH-th that is asked for once its main has
   begun, and then makes the file REFUSED_FILE, by which a test sees that it was reached. */
#define _GNU_SOURCE
#include <dlfcn.h>
#include <errno.h>
#include <fcntl.h>
#include <stdatomic.h>
#include <stdlib.h>
#include <string.h>
#include <sys/mman.h>
#include <sys/syscall.h>
#include <unistd.h>

void *__libc_malloc(size_t);
void *__libc_calloc(size_t, size_t);
void *__libc_realloc(void *, size_t);
void *__libc_memalign(size_t, size_t);

static atomic_long asked;
static atomic_int has_begun;
static long refused;
static const char *file;

/* Whether this growth is the one to refuse. */
static int is_refused(void)
{
    if (!has_begun || atomic_fetch_add(&asked, 1) + 1 != refused)
        return 0;
    int made = syscall(SYS_openat, AT_FDCWD, file, O_CREAT | O_WRONLY, 0600);
    if (made >= 0)
        syscall(SYS_close, made);
    errno = ENOMEM;
    return 1;
}

void *malloc(size_t size)
{
    return is_refused() ? NULL : __libc_malloc(size);
}

void *calloc(size_t count, size_t size)
{
    return is_refused() ? NULL : __libc_calloc(count, size);
}

void *realloc(void *old, size_t size)
{
    return is_refused() ? NULL : __libc_realloc(old, size);
}

int posix_memalign(void **made, size_t align, size_t size)
{
    if (is_refused())
        return ENOMEM;
    *made = __libc_memalign(align, size);
    return *made ? 0 : ENOMEM;
}

void *mmap(void *at, size_t length, int protection, int flags, int opened, off_t offset)
{
    if (is_refused())
        return MAP_FAILED;
    return (void *)syscall(SYS_mmap, at, length, protection, flags, opened, offset);
}

static int (*real_main)(int, char **, char **);

static int counted_main(int count, char **words, char **environment)
{
    has_begun = 1;
    return real_main(count, words, environment);
}

/* Stands in front of the C library's, so that what is asked for before main isn't counted. */
int __libc_start_main(int (*main)(int, char **, char **), int count, char **words, void (*begin)(void),
                      void (*end)(void), void (*end_linker)(void), void *stack)
{
    int (*start)(int (*)(int, char **, char **), int, char **, void (*)(void), void (*)(void), void (*)(void),
                 void *) = dlsym(RTLD_NEXT, "__libc_start_main");
    const char *number = getenv("REFUSED_GROWTH");
    refused = number ? atol(number) : 0;
    file = getenv("REFUSED_FILE");
    real_main = main;
    return start(counted_main, count, words, begin, end, end_linker, stack);
}
