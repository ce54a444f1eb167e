/* Refuses one call of a program that is linked with the C library, for bench/refused_memory.py: loaded before it (LD_PRELOAD), it counts
 * calls and makes one fail. REFUSE says which: `alloc` (malloc, calloc, realloc and the like give nothing), `io` (read, write and sync fail with
 * EIO), or `short` (a read or write of several bytes moves one). CALL is its number, from 1. The call that was refused makes the file MARK, so
 * that no such file is there once the number is above that of the calls. */
#define _GNU_SOURCE
#include <errno.h>
#include <fcntl.h>
#include <stdatomic.h>
#include <stddef.h>
#include <stdlib.h>
#include <string.h>
#include <sys/syscall.h>
#include <sys/types.h>
#include <unistd.h>

extern void *__libc_malloc(size_t size);
extern void *__libc_calloc(size_t count, size_t size);
extern void *__libc_realloc(void *old, size_t size);
extern void *__libc_memalign(size_t alignment, size_t size);

enum { NOTHING, ALLOC, IO, SHORT };
static int kind;
static long number;
static const char *mark;
static atomic_long calls;

/* Before the program's own code. What the loader allocates earlier isn't counted. */
__attribute__((constructor)) static void begin(void)
{
    const char *what = getenv("REFUSE"), *which = getenv("CALL");
    mark = getenv("MARK");
    if (!what || !which || !mark)
        return;
    number = atol(which);
    kind = !strcmp(what, "alloc") ? ALLOC : !strcmp(what, "io") ? IO : !strcmp(what, "short") ? SHORT : NOTHING;
}

static int is_refused(int asked)
{
    if (kind != asked || atomic_fetch_add(&calls, 1) + 1 != number)
        return 0;
    long file = syscall(SYS_openat, AT_FDCWD, mark, O_CREAT | O_WRONLY, 0600);
    if (file >= 0)
        syscall(SYS_close, file);
    return 1;
}

static int no_memory(void)
{
    if (!is_refused(ALLOC))
        return 0;
    errno = ENOMEM;
    return 1;
}

void *malloc(size_t size)
{
    return no_memory() ? NULL : __libc_malloc(size);
}

void *calloc(size_t count, size_t size)
{
    return no_memory() ? NULL : __libc_calloc(count, size);
}

void *realloc(void *old, size_t size)
{
    return no_memory() ? NULL : __libc_realloc(old, size);
}

void *memalign(size_t alignment, size_t size)
{
    return no_memory() ? NULL : __libc_memalign(alignment, size);
}

void *aligned_alloc(size_t alignment, size_t size)
{
    return memalign(alignment, size);
}

int posix_memalign(void **to, size_t alignment, size_t size)
{
    void *got = memalign(alignment, size);
    if (!got)
        return ENOMEM;
    *to = got;
    return 0;
}

static int fails(void)
{
    if (!is_refused(IO))
        return 0;
    errno = EIO;
    return 1;
}

static size_t moved(size_t count)
{
    return count > 1 && is_refused(SHORT) ? 1 : count;
}

ssize_t read(int file, void *into, size_t count)
{
    return fails() ? -1 : syscall(SYS_read, file, into, moved(count));
}

ssize_t write(int file, const void *from, size_t count)
{
    return fails() ? -1 : syscall(SYS_write, file, from, moved(count));
}

ssize_t pread64(int file, void *into, size_t count, off64_t at)
{
    return fails() ? -1 : syscall(SYS_pread64, file, into, moved(count), at);
}

ssize_t pread(int file, void *into, size_t count, off_t at)
{
    return pread64(file, into, count, at);
}

ssize_t pwrite64(int file, const void *from, size_t count, off64_t at)
{
    return fails() ? -1 : syscall(SYS_pwrite64, file, from, moved(count), at);
}

ssize_t pwrite(int file, const void *from, size_t count, off_t at)
{
    return pwrite64(file, from, count, at);
}

int fsync(int file)
{
    return fails() ? -1 : syscall(SYS_fsync, file);
}

int fdatasync(int file)
{
    return fails() ? -1 : syscall(SYS_fdatasync, file);
}
