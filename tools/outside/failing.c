/* The C library's calls by which a program reaches what is round it, some of which fail. It is preloaded, and told by the
   environment: each of FAIL_MEMORY, FAIL_READ, FAIL_WRITE, FAIL_SAY and FAIL_OPEN is the number of the call that fails, from 1: a
   request for memory, a read of standard input, a write of standard output, one of standard error, an opening of a file, or a read
   of one (FAIL_FILE). FAIL_AS is the number of the error (EIO where it is left out; one for EINTR, after which programs go on).
   With FAIL_SHORT reads and writes go byte by byte. COUNTS names a file, of eight numbers of 64 bits, which gets how many calls
   there were: requests for memory, those behind the first write of standard output, reads, writes, writes of standard error,
   openings, reads of files. It relies on the GNU C library. */
#define _GNU_SOURCE
#include <errno.h>
#include <fcntl.h>
#include <stdarg.h>
#include <stdint.h>
#include <stdlib.h>
#include <string.h>
#include <sys/mman.h>
#include <sys/syscall.h>
#include <sys/uio.h>
#include <unistd.h>

void *__libc_malloc(size_t);
void *__libc_calloc(size_t, size_t);
void *__libc_realloc(void *, size_t);
void *__libc_memalign(size_t, size_t);

enum { MEMORY, LATE, READ, WRITE, SAY, OPEN, FILES, KINDS };

static uint64_t own[KINDS + 1], *counts = own, failing[KINDS];
static int error = EIO, is_short, begun;

static uint64_t told(const char *name)
{
    const char *value = getenv(name);
    return value ? strtoull(value, 0, 10) : 0;
}

static void begin(void)
{
    begun = 1;
    failing[MEMORY] = told("FAIL_MEMORY");
    failing[READ] = told("FAIL_READ");
    failing[WRITE] = told("FAIL_WRITE");
    failing[SAY] = told("FAIL_SAY");
    failing[OPEN] = told("FAIL_OPEN");
    failing[FILES] = told("FAIL_FILE");
    is_short = told("FAIL_SHORT") != 0;
    if (told("FAIL_AS"))
        error = told("FAIL_AS");
    const char *path = getenv("COUNTS");
    int at = path ? syscall(SYS_openat, AT_FDCWD, path, O_RDWR | O_CREAT | O_TRUNC, 0600) : -1;
    if (at < 0)
        return;
    if (ftruncate(at, sizeof own) == 0) {
        void *shared = mmap(0, sizeof own, PROT_READ | PROT_WRITE, MAP_SHARED, at, 0);
        if (shared != MAP_FAILED)
            counts = shared;
    }
    syscall(SYS_close, at);
}

/* Counts a call, and says whether it is to fail. */
static int fails(int kind)
{
    if (!begun)
        begin();
    if (++counts[kind] != failing[kind])
        return 0;
    errno = kind == MEMORY ? ENOMEM : error;
    return 1;
}

static int refuses(void)
{
    int is_refused = fails(MEMORY);
    counts[LATE] += counts[WRITE] > 0;
    return is_refused;
}

void *malloc(size_t n) { return refuses() ? 0 : __libc_malloc(n); }
void *calloc(size_t n, size_t m) { return refuses() ? 0 : __libc_calloc(n, m); }
void *realloc(void *p, size_t n) { return refuses() ? 0 : __libc_realloc(p, n); }
void *memalign(size_t a, size_t n) { return refuses() ? 0 : __libc_memalign(a, n); }
void *aligned_alloc(size_t a, size_t n) { return refuses() ? 0 : __libc_memalign(a, n); }

int posix_memalign(void **p, size_t a, size_t n)
{
    void *made = refuses() ? 0 : __libc_memalign(a, n);
    if (!made)
        return ENOMEM;
    *p = made;
    return 0;
}

ssize_t read(int fd, void *p, size_t n)
{
    if (fails(fd == 0 ? READ : FILES))
        return -1;
    return syscall(SYS_read, fd, p, is_short && n > 1 ? 1 : n);
}

ssize_t write(int fd, const void *p, size_t n)
{
    if ((fd == 1 || fd == 2) && fails(fd == 1 ? WRITE : SAY))
        return -1;
    return syscall(SYS_write, fd, p, is_short && n > 1 ? 1 : n);
}

ssize_t __write(int fd, const void *p, size_t n) { return write(fd, p, n); }

ssize_t writev(int fd, const struct iovec *pieces, int n)
{
    if ((fd == 1 || fd == 2) && fails(fd == 1 ? WRITE : SAY))
        return -1;
    return syscall(SYS_writev, fd, pieces, is_short && n > 1 ? 1 : n);
}

static int opened(int folder, const char *path, int how, mode_t mode)
{
    return fails(OPEN) ? -1 : syscall(SYS_openat, folder, path, how, mode);
}

#define MODE_OF(how) ({ va_list more; va_start(more, how); mode_t mode = how & (O_CREAT | O_TMPFILE) ? va_arg(more, mode_t) : 0; va_end(more); mode; })

int open(const char *path, int how, ...) { return opened(AT_FDCWD, path, how, MODE_OF(how)); }
int open64(const char *path, int how, ...) { return opened(AT_FDCWD, path, how, MODE_OF(how)); }
int openat(int folder, const char *path, int how, ...) { return opened(folder, path, how, MODE_OF(how)); }
int openat64(int folder, const char *path, int how, ...) { return opened(folder, path, how, MODE_OF(how)); }
