/*
 * Memory that is refused, for a program that this library is preloaded into. Each call that asks for memory counts:
 *   REFUSE_FROM   the number of the first call that is refused, counted from 1 ..
 *   REFUSE_TO     .. and of the last
 *   REFUSED       a file that is made where a call was refused
 */
#define _GNU_SOURCE
#include <errno.h>
#include <fcntl.h>
#include <stddef.h>
#include <stdlib.h>
#include <sys/syscall.h>
#include <unistd.h>

extern void *__libc_malloc(size_t size);
extern void *__libc_calloc(size_t count, size_t size);
extern void *__libc_realloc(void *block, size_t size);

static long number(const char *name)
{
    const char *text = getenv(name);
    return text ? atol(text) : 0;
}

static void tell(void)
{
    static int told;
    const char *path = getenv("REFUSED");
    if (path && !__atomic_exchange_n(&told, 1, __ATOMIC_RELAXED))
        syscall(SYS_close, syscall(SYS_openat, AT_FDCWD, path, O_WRONLY | O_CREAT, 0600));
}

static int is_refused(void)
{
    static long asked;
    long call = __atomic_add_fetch(&asked, 1, __ATOMIC_RELAXED);
    if (call < number("REFUSE_FROM") || call > number("REFUSE_TO"))
        return 0;
    tell();
    errno = ENOMEM;
    return 1;
}

void *malloc(size_t size)
{
    return is_refused() ? NULL : __libc_malloc(size);
}

void *calloc(size_t count, size_t size)
{
    return is_refused() ? NULL : __libc_calloc(count, size);
}

void *realloc(void *block, size_t size)
{
    return is_refused() ? NULL : __libc_realloc(block, size);
}
