/* Loaded before a program by LD_PRELOAD, it refuses one call of the program's: REFUSE is the kind of the call, its
   number from 1 on, and for a write how many bytes are taken before it fails. How many calls of that kind there were
   stands in the file that REFUSE_CALLS names, however the program ends. tools/refuse.py sets both. */
#define _GNU_SOURCE
#include <errno.h>
#include <fcntl.h>
#include <stdatomic.h>
#include <stdarg.h>
#include <stdio.h>
#include <stdlib.h>
#include <string.h>
#include <sys/mman.h>
#include <sys/syscall.h>
#include <sys/uio.h>
#include <unistd.h>

void *__libc_malloc(size_t);
void *__libc_calloc(size_t, size_t);
void *__libc_realloc(void *, size_t);
void *__libc_memalign(size_t, size_t);

static _Atomic long *calls;
static char kind[8];
static long refused;
static size_t kept;

__attribute__((constructor)) static void begin(void) {
  const char *asked = getenv("REFUSE"), *file = getenv("REFUSE_CALLS");
  if (!asked || !file || sscanf(asked, "%7s %ld %zu", kind, &refused, &kept) != 3) _exit(99);
  int fd = syscall(SYS_open, file, O_RDWR);
  void *shared = mmap(0, sizeof *calls, PROT_READ | PROT_WRITE, MAP_SHARED, fd, 0);
  if (fd < 0 || shared == MAP_FAILED) _exit(99);
  syscall(SYS_close, fd);
  calls = shared;
}

/* the number of this call among those of its kind, or 0 for one of another kind */
static long number_of(const char *its) {
  return calls && !strcmp(kind, its) ? atomic_fetch_add(calls, 1) + 1 : 0;
}

static int is_refused(const char *its, int error) {
  long number = number_of(its);
  if (!number || number != refused) return 0;
  errno = error;
  return 1;
}

/* ---- memory */

void *malloc(size_t size) { return is_refused("memory", ENOMEM) ? 0 : __libc_malloc(size); }

void *calloc(size_t count, size_t size) { return is_refused("memory", ENOMEM) ? 0 : __libc_calloc(count, size); }

void *realloc(void *at, size_t size) { return is_refused("memory", ENOMEM) ? 0 : __libc_realloc(at, size); }

void *memalign(size_t unit, size_t size) { return is_refused("memory", ENOMEM) ? 0 : __libc_memalign(unit, size); }

void *aligned_alloc(size_t unit, size_t size) { return memalign(unit, size); }

int posix_memalign(void **at, size_t unit, size_t size) {
  void *made = memalign(unit, size);
  if (!made) return ENOMEM;
  *at = made;
  return 0;
}

/* ---- files */

static int opened(int folder, const char *name, int flags, int mode) {
  return is_refused("read", EIO) ? -1 : syscall(SYS_openat, folder, name, flags, mode);
}

static int mode_of(int flags, va_list more) { return flags & (O_CREAT | O_TMPFILE) ? va_arg(more, int) : 0; }

#define OPENS(name, first, ...)                                 \
  int name(__VA_ARGS__, int flags, ...) {                       \
    va_list more;                                               \
    va_start(more, flags);                                      \
    int mode = mode_of(flags, more);                            \
    va_end(more);                                               \
    return opened(first, path, flags, mode);                    \
  }
OPENS(open, AT_FDCWD, const char *path)
OPENS(open64, AT_FDCWD, const char *path)
OPENS(openat, folder, int folder, const char *path)
OPENS(openat64, folder, int folder, const char *path)

ssize_t read(int fd, void *into, size_t size) {
  return is_refused("read", EIO) ? -1 : syscall(SYS_read, fd, into, size);
}

ssize_t pread(int fd, void *into, size_t size, off_t at) {
  return is_refused("read", EIO) ? -1 : syscall(SYS_pread64, fd, into, size, at);
}

ssize_t pread64(int fd, void *into, size_t size, off64_t at) { return pread(fd, into, size, at); }

/* ---- output: some bytes are taken, and then it fails */

ssize_t write(int fd, const void *bytes, size_t size) {
  long number = fd == 1 ? number_of("write") : 0;
  if (number && number == refused && kept) return syscall(SYS_write, fd, bytes, size < kept ? size : kept);
  if (number && refused && number >= refused) {
    errno = EIO;
    return -1;
  }
  return syscall(SYS_write, fd, bytes, size);
}

ssize_t writev(int fd, const struct iovec *pieces, int count) {
  for (int i = 0; i < count; i++)
    if (pieces[i].iov_len) return write(fd, pieces[i].iov_base, pieces[i].iov_len);
  return 0;
}
