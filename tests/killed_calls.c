// Kills a program that this library is loaded ahead of, at one of its calls that write to files: the one whose number,
// counted from 1, is in KILLED_AT. Half of the bytes of that call are written, and nothing after them; a call that has no
// bytes isn't made. If it lives on, the file that KILLED_COUNT names gets the number of its calls. Standard output and
// standard error aren't counted. tests/end_to_end.d/database builds it if there is a C compiler.
#define _GNU_SOURCE
#include <fcntl.h>
#include <signal.h>
#include <stdio.h>
#include <stdlib.h>
#include <sys/syscall.h>
#include <unistd.h>

static long count = 0;

static int is_last(void) {
  const char *at = getenv("KILLED_AT");
  count++;
  return at != NULL && count == atol(at);
}

static void end_here(void) { kill(getpid(), SIGKILL); }

ssize_t write(int file, const void *bytes, size_t size) {
  if (file > 2 && is_last()) {
    syscall(SYS_write, file, bytes, size / 2);
    end_here();
  }
  return syscall(SYS_write, file, bytes, size);
}

ssize_t pwrite64(int file, const void *bytes, size_t size, off64_t offset) {
  if (is_last()) {
    syscall(SYS_pwrite64, file, bytes, size / 2, offset);
    end_here();
  }
  return syscall(SYS_pwrite64, file, bytes, size, offset);
}

ssize_t pwrite(int file, const void *bytes, size_t size, off_t offset) { return pwrite64(file, bytes, size, offset); }

int fsync(int file) {
  if (is_last()) end_here();
  return (int)syscall(SYS_fsync, file);
}

int fdatasync(int file) {
  if (is_last()) end_here();
  return (int)syscall(SYS_fdatasync, file);
}

int ftruncate64(int file, off64_t size) {
  if (is_last()) end_here();
  return (int)syscall(SYS_ftruncate, file, size);
}

int ftruncate(int file, off_t size) { return ftruncate64(file, size); }

int unlink(const char *path) {
  if (is_last()) end_here();
  return (int)syscall(SYS_unlink, path);
}

__attribute__((destructor)) static void tell(void) {
  const char *path = getenv("KILLED_COUNT");
  FILE *file = path == NULL ? NULL : fopen(path, "w");
  if (file != NULL) {
    fprintf(file, "%ld\n", count);
    count = -1000000;
    fclose(file);
  }
}

// A program that ends so runs no destructor.
void _exit(int status) {
  tell();
  syscall(SYS_exit_group, status);
  __builtin_unreachable();
}
