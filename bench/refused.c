/* Is loaded before the program (LD_PRELOAD) and answers some of its calls of one kind otherwise
 * than the system would. The calls of a kind are counted from 1, in all threads together.
 *
 *   REFUSED_KIND    memory, open, read, write or close; memory are requests for pieces of it, for
 *                   pages and for a thread
 *   REFUSED_HOW     an error's number, or 0: a read or a write is then of one byte
 *   REFUSED_FIRST   the first call that is answered so, and
 *   REFUSED_LAST    the last one
 *   REFUSED_COUNT   a file of eight bytes, which gets the number of the calls
 */
#define _GNU_SOURCE
#include <dlfcn.h>
#include <errno.h>
#include <fcntl.h>
#include <pthread.h>
#include <stdarg.h>
#include <stdatomic.h>
#include <stdint.h>
#include <stdlib.h>
#include <string.h>
#include <sys/mman.h>
#include <sys/syscall.h>
#include <unistd.h>

enum kind { NONE, MEMORY, OPEN, READ, WRITE, CLOSE };

static const char *const names[] = { "", "memory", "open", "read", "write", "close" };
static enum kind counted_kind = NONE;
static uint64_t first, last;
static int how;
static _Atomic uint64_t none, *calls = &none;

/* Whether this call is one of those that are answered otherwise. */
static int is_refused(enum kind kind)
{
    if (kind != counted_kind)
        return 0;
    uint64_t number = atomic_fetch_add(calls, 1) + 1;
    if (number < first || number > last)
        return 0;
    errno = kind == MEMORY ? ENOMEM : how;
    return 1;
}

extern void *__libc_malloc(size_t size);
extern void *__libc_calloc(size_t count, size_t size);
extern void *__libc_realloc(void *piece, size_t size);
extern void *__libc_memalign(size_t alignment, size_t size);

static void *(*real_malloc)(size_t) = __libc_malloc;
static void *(*real_calloc)(size_t, size_t) = __libc_calloc;
static void *(*real_realloc)(void *, size_t) = __libc_realloc;
static void *(*real_memalign)(size_t, size_t) = __libc_memalign;

void *malloc(size_t size)
{
    return is_refused(MEMORY) ? NULL : real_malloc(size);
}

void *calloc(size_t count, size_t size)
{
    return is_refused(MEMORY) ? NULL : real_calloc(count, size);
}

void *realloc(void *piece, size_t size)
{
    return is_refused(MEMORY) ? NULL : real_realloc(piece, size);
}

void *aligned_alloc(size_t alignment, size_t size)
{
    return is_refused(MEMORY) ? NULL : real_memalign(alignment, size);
}

int posix_memalign(void **place, size_t alignment, size_t size)
{
    void *piece = is_refused(MEMORY) ? NULL : real_memalign(alignment, size);
    if (!piece)
        return ENOMEM;
    *place = piece;
    return 0;
}

void *mmap(void *hint, size_t size, int protection, int flags, int file, off_t from)
{
    if (is_refused(MEMORY))
        return MAP_FAILED;
    return (void *)syscall(SYS_mmap, hint, size, protection, flags, file, from);
}

int pthread_create(
    pthread_t *thread, const pthread_attr_t *wanted, void *(*start)(void *), void *given)
{
    static int (*real)(pthread_t *, const pthread_attr_t *, void *(*)(void *), void *);
    if (is_refused(MEMORY))
        return EAGAIN;
    if (!real)
        *(void **)&real = dlsym(RTLD_NEXT, "pthread_create");
    return real(thread, wanted, start, given);
}

int open(const char *path, int flags, ...)
{
    va_list rest;
    va_start(rest, flags);
    int mode = flags & O_CREAT ? va_arg(rest, int) : 0;
    va_end(rest);
    return is_refused(OPEN) ? -1 : (int)syscall(SYS_openat, AT_FDCWD, path, flags, mode);
}

ssize_t read(int file, void *into, size_t size)
{
    if (is_refused(READ)) {
        if (how)
            return -1;
        size = size > 1 ? 1 : size;
    }
    return syscall(SYS_read, file, into, size);
}

ssize_t write(int file, const void *from, size_t size)
{
    if (is_refused(WRITE)) {
        if (how)
            return -1;
        size = size > 1 ? 1 : size;
    }
    return syscall(SYS_write, file, from, size);
}

int close(int file)
{
    int answer = (int)syscall(SYS_close, file);
    return is_refused(CLOSE) ? -1 : answer;
}

__attribute__((constructor)) static void begin(void)
{
    const char *kind = getenv("REFUSED_KIND"), *path = getenv("REFUSED_COUNT");
    if (!kind || !path)
        return;
    first = strtoull(getenv("REFUSED_FIRST"), NULL, 10);
    last = strtoull(getenv("REFUSED_LAST"), NULL, 10);
    how = atoi(getenv("REFUSED_HOW"));
    int file = (int)syscall(SYS_openat, AT_FDCWD, path, O_RDWR, 0);
    calls = (void *)syscall(SYS_mmap, NULL, 8, PROT_READ | PROT_WRITE, MAP_SHARED, file, 0);
    syscall(SYS_close, file);
    for (int it = MEMORY; it <= CLOSE; it++)
        if (!strcmp(kind, names[it]))
            counted_kind = it;
}
