/* Stands between a program and the C library, and refuses one of its calls.
 *
 * REFUSE_SORT says of which sort the call is: memory, io or short. REFUSE_AT says the number of the call among those of its sort, from 1; 0 refuses
 * none. A call for memory gets none, and a call of files or of an output fails as where the machine's device does; a short one, of those that read or write
 * several bytes, moves one byte. How many calls of the sort there were stands in the file REFUSE_COUNT, as a number of the machine's own. tools/starve builds and uses it.
 */
#define _GNU_SOURCE
#include <dirent.h>
#include <dlfcn.h>
#include <errno.h>
#include <fcntl.h>
#include <stdarg.h>
#include <stdatomic.h>
#include <stddef.h>
#include <stdlib.h>
#include <string.h>
#include <sys/mman.h>
#include <sys/stat.h>
#include <sys/types.h>
#include <sys/uio.h>
#include <unistd.h>

enum sort { NONE, MEMORY, IO, SHORT };

static enum sort wanted;
static long at;
/* The count is in the file itself, since a program may end with no word to its libraries. */
static atomic_long none, *calls = &none;

extern void *__libc_malloc(size_t);
extern void *__libc_calloc(size_t, size_t);
extern void *__libc_realloc(void *, size_t);

static void count_in(const char *file)
{
    int to = open(file, O_RDWR | O_CREAT | O_TRUNC, 0600);
    if (to < 0 || ftruncate(to, sizeof *calls) != 0)
        return;
    void *there = mmap(NULL, sizeof *calls, PROT_READ | PROT_WRITE, MAP_SHARED, to, 0);
    if (there != MAP_FAILED)
        calls = there;
    close(to);
}

__attribute__((constructor)) static void begin(void)
{
    const char *sort = getenv("REFUSE_SORT"), *number = getenv("REFUSE_AT"), *file = getenv("REFUSE_COUNT");
    if (file)
        count_in(file);
    at = number ? strtol(number, NULL, 10) : 0;
    if (sort)
        wanted = strcmp(sort, "memory") == 0 ? MEMORY : strcmp(sort, "io") == 0 ? IO : strcmp(sort, "short") == 0 ? SHORT : NONE;
}

/* Whether this call, which is of the sort, is the one to be refused. */
static int refused(enum sort sort)
{
    return wanted == sort && atomic_fetch_add(calls, 1) + 1 == at;
}

static int failed(void)
{
    if (!refused(IO))
        return 0;
    errno = EIO;
    return 1;
}

void *malloc(size_t size)
{
    if (!refused(MEMORY))
        return __libc_malloc(size);
    errno = ENOMEM;
    return NULL;
}

void *calloc(size_t count, size_t size)
{
    if (!refused(MEMORY))
        return __libc_calloc(count, size);
    errno = ENOMEM;
    return NULL;
}

void *realloc(void *old, size_t size)
{
    if (!refused(MEMORY))
        return __libc_realloc(old, size);
    errno = ENOMEM;
    return NULL;
}

#define NEXT(name) ((__typeof__(&name))dlsym(RTLD_NEXT, #name))

/* How many of these bytes are moved at most. */
static size_t moved(size_t count)
{
    return count > 1 && refused(SHORT) ? 1 : count;
}

ssize_t read(int from, void *into, size_t count)
{
    return failed() ? -1 : NEXT(read)(from, into, moved(count));
}

ssize_t write(int to, const void *from, size_t count)
{
    return failed() ? -1 : NEXT(write)(to, from, moved(count));
}

/* Under this name too the C library hands out its `write`. */
ssize_t __write(int to, const void *from, size_t count)
{
    return failed() ? -1 : NEXT(write)(to, from, moved(count));
}

ssize_t writev(int to, const struct iovec *parts, int count)
{
    if (failed())
        return -1;
    if (count > 0 && parts[0].iov_len > 0 && refused(SHORT))
        return NEXT(write)(to, parts[0].iov_base, 1);
    return NEXT(writev)(to, parts, count);
}

ssize_t getdents64(int from, void *into, size_t count)
{
    return failed() ? -1 : NEXT(getdents64)(from, into, count);
}

#define OPENED(name)                                     \
    {                                                    \
        va_list rest;                                    \
        va_start(rest, flags);                           \
        int mode = va_arg(rest, int);                    \
        va_end(rest);                                    \
        return failed() ? -1 : name;                     \
    }

int open(const char *path, int flags, ...) OPENED(NEXT(open)(path, flags, mode))
int open64(const char *path, int flags, ...) OPENED(NEXT(open64)(path, flags, mode))
int openat(int in, const char *path, int flags, ...) OPENED(NEXT(openat)(in, path, flags, mode))
int openat64(int in, const char *path, int flags, ...) OPENED(NEXT(openat64)(in, path, flags, mode))

int rename(const char *from, const char *to)
{
    return failed() ? -1 : NEXT(rename)(from, to);
}

int renameat(int in, const char *from, int out, const char *to)
{
    return failed() ? -1 : NEXT(renameat)(in, from, out, to);
}

int fsync(int file)
{
    return failed() ? -1 : NEXT(fsync)(file);
}

int fdatasync(int file)
{
    return failed() ? -1 : NEXT(fdatasync)(file);
}

int unlink(const char *path)
{
    return failed() ? -1 : NEXT(unlink)(path);
}

int unlinkat(int in, const char *path, int flags)
{
    return failed() ? -1 : NEXT(unlinkat)(in, path, flags);
}

int mkdir(const char *path, mode_t mode)
{
    return failed() ? -1 : NEXT(mkdir)(path, mode);
}

int mkdirat(int in, const char *path, mode_t mode)
{
    return failed() ? -1 : NEXT(mkdirat)(in, path, mode);
}
