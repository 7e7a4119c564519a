// Refuses calls of the program that this library is loaded ahead of. REFUSED_CALL says which: growth (of memory), read,
// write, open, look (at a file), lock, permissions, sync or rename. The one whose number, counted from 1, is in
// REFUSED_AT is refused, or that one and all later ones if it is in REFUSED_FROM; the first ones, as interrupted, up to
// the number in INTERRUPTED. Of byte-read and byte-written the byte of that number and all later ones can't be moved,
// standard error aside. If REFUSED_LOG names a descriptor, a byte is written to it for each. ONE_BYTE has each read and
// write move one byte at most. The scripts build it if there is a C compiler.
#define _GNU_SOURCE
#include <errno.h>
#include <fcntl.h>
#include <stdarg.h>
#include <stdlib.h>
#include <string.h>
#include <sys/file.h>
#include <sys/stat.h>
#include <sys/syscall.h>
#include <unistd.h>

void *__libc_malloc(size_t size);
void *__libc_realloc(void *old, size_t size);

static long number(const char *name) {
  const char *text = getenv(name);
  return text == NULL ? 0 : atol(text);
}

static int log_refusal(int fault) {
  if (number("REFUSED_LOG") > 0) syscall(SYS_write, number("REFUSED_LOG"), "!", 1);
  errno = fault;
  return 1;
}

static int is_refused(const char *call, int fault) {
  static long count = 0;
  const char *named = getenv("REFUSED_CALL");
  if (named == NULL || strcmp(call, named) != 0) return 0;
  count++;
  if (count <= number("INTERRUPTED")) return log_refusal(EINTR);
  if (count != number("REFUSED_AT") && (number("REFUSED_FROM") == 0 || count < number("REFUSED_FROM"))) return 0;
  return log_refusal(fault);
}

// How many of `size` bytes may be moved after those that were.
static size_t room(const char *call, size_t size, long moved) {
  const char *named = getenv("REFUSED_CALL");
  size_t most = size > 1 && getenv("ONE_BYTE") != NULL ? 1 : size;
  if (named == NULL || strcmp(call, named) != 0) return most;
  long left = number("REFUSED_AT") - 1 - moved;
  return (size_t)left < most ? (size_t)left : most;
}

void *malloc(size_t size) { return is_refused("growth", ENOMEM) ? NULL : __libc_malloc(size); }

void *realloc(void *old, size_t size) { return is_refused("growth", ENOMEM) ? NULL : __libc_realloc(old, size); }

ssize_t read(int file, void *bytes, size_t size) {
  static long moved = 0;
  size_t most = room("byte-read", size, moved);
  if (is_refused("read", EIO) || (most == 0 && size > 0 && log_refusal(EIO))) return -1;
  ssize_t count = syscall(SYS_read, file, bytes, most);
  moved += count > 0 ? count : 0;
  return count;
}

ssize_t write(int file, const void *bytes, size_t size) {
  static long moved = 0;
  size_t most = file == 2 ? size : room("byte-written", size, moved);
  if (is_refused("write", ENOSPC) || (most == 0 && size > 0 && log_refusal(ENOSPC))) return -1;
  ssize_t count = syscall(SYS_write, file, bytes, most);
  moved += file != 2 && count > 0 ? count : 0;
  return count;
}

int open(const char *path, int flags, ...) {
  va_list rest;
  va_start(rest, flags);
  int mode = flags & O_CREAT ? va_arg(rest, int) : 0;
  va_end(rest);
  return is_refused("open", EMFILE) ? -1 : (int)syscall(SYS_openat, AT_FDCWD, path, flags, mode);
}

int statx(int folder, const char *path, int flags, unsigned mask, struct statx *found) {
  return is_refused("look", EIO) ? -1 : (int)syscall(SYS_statx, folder, path, flags, mask, found);
}

int fsync(int file) { return is_refused("sync", EIO) ? -1 : (int)syscall(SYS_fsync, file); }

int fdatasync(int file) { return is_refused("sync", EIO) ? -1 : (int)syscall(SYS_fdatasync, file); }

int rename(const char *old, const char *new) { return is_refused("rename", EIO) ? -1 : (int)syscall(SYS_rename, old, new); }

int fchmod(int file, mode_t mode) { return is_refused("permissions", EPERM) ? -1 : (int)syscall(SYS_fchmod, file, mode); }

int flock(int file, int how) { return is_refused("lock", ENOLCK) ? -1 : (int)syscall(SYS_flock, file, how); }
