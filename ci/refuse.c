/* Refuses the allocations of one run of a program, each in turn; or its calls of devices.

   Preloaded, it forks at each allocation that the program makes. The child's allocation is refused, and the child runs on to its end, with files of its own for
   its standard output and error, which begin with what was written by then. The parent waits for it, and goes on as if nothing had been. The environment says:

     REFUSE_TO     the folder for out.N and err.N, what was written where allocation N was refused, and log, a line 'N STATUS SIGNAL' for each
     REFUSE_MOST   how many allocations are counted at most
     REFUSE_EVERY  each so many-th is refused
     REFUSE_ALL    if it is there: every allocation after the refused one is refused as well
     REFUSE_CALLS  if it is there: not allocations are counted and refused, but the calls open, read and write, which then fail (EIO)

   Where a child may write files, let it write none that the parent reads: they share them. */
#define _GNU_SOURCE
#include <errno.h>
#include <fcntl.h>
#include <link.h>
#include <stdarg.h>
#include <stdint.h>
#include <stdio.h>
#include <stdlib.h>
#include <string.h>
#include <sys/syscall.h>
#include <sys/wait.h>
#include <unistd.h>

/* The descriptors whose places are put back after a child. */
enum { OPEN_FILES = 40, LOG_FD = 600 };

static char folder[200];
static long count, most, every = 1;
static int ready, is_child, stays_refused, counts_calls, log_fd = -1;
static uintptr_t low, high;

static int find_program(struct dl_phdr_info *info, size_t size, void *data) {
  (void)size, (void)data;
  if (low || info->dlpi_name[0]) return 0;
  low = info->dlpi_addr;
  for (int k = 0; k < info->dlpi_phnum; k++) {
    uintptr_t end = low + info->dlpi_phdr[k].p_vaddr + info->dlpi_phdr[k].p_memsz;
    if (info->dlpi_phdr[k].p_type == PT_LOAD && end > high) high = end;
  }
  return 0;
}

/* Puts a copy of what was written to a descriptor so far in its place. */
static void write_apart(const char *name, int fd) {
  char path[300], bytes[65536];
  off_t at = 0;
  long n;
  snprintf(path, sizeof path, "%s/%s.%ld", folder, name, count);
  int copy = syscall(SYS_open, path, O_RDWR | O_CREAT | O_TRUNC | O_APPEND, 0666);
  while ((n = syscall(SYS_pread64, fd, bytes, sizeof bytes, at)) > 0) {
    if (syscall(SYS_write, copy, bytes, n) != n) _exit(99);
    at += n;
  }
  dup2(copy, fd);
  syscall(SYS_close, copy);
}

/* Whether this is the child, whose allocation is to be refused. */
static int is_refused_here(void) {
  off_t places[OPEN_FILES];
  for (int fd = 0; fd < OPEN_FILES; fd++) places[fd] = lseek(fd, 0, SEEK_CUR);
  pid_t child = fork();
  if (child == 0) {
    is_child = 1;
    write_apart("out", 1);
    write_apart("err", 2);
    alarm(60);
    return 1;
  }
  int status = 0;
  char line[100];
  waitpid(child, &status, 0);
  int n = snprintf(line, sizeof line, "%ld %d %d\n", count, WIFEXITED(status) ? WEXITSTATUS(status) : -1, WIFSIGNALED(status) ? WTERMSIG(status) : 0);
  if (child < 0 || syscall(SYS_write, log_fd, line, n) != n) _exit(99);
  for (int fd = 0; fd < OPEN_FILES; fd++)
    if (fd != 1 && fd != 2 && places[fd] >= 0) lseek(fd, places[fd], SEEK_SET);
  return 0;
}

/* Whether what the program asks for, at this place of its code, is refused: an allocation, or a call of a device. */
static int is_refused(void *asked_at, int is_call) {
  if (!ready || is_call != counts_calls || (uintptr_t)asked_at < low || (uintptr_t)asked_at >= high) return 0;
  if (is_child) return stays_refused;
  count++;
  return count <= most && (count - 1) % every == 0 && is_refused_here();
}

__attribute__((constructor)) static void begin(void) {
  char path[300];
  const char *to = getenv("REFUSE_TO"), *limit = getenv("REFUSE_MOST"), *step = getenv("REFUSE_EVERY");
  if (!to || strlen(to) >= sizeof folder) return;
  strcpy(folder, to);
  most = limit ? atol(limit) : 1000;
  every = step && atol(step) > 0 ? atol(step) : 1;
  stays_refused = getenv("REFUSE_ALL") != NULL;
  counts_calls = getenv("REFUSE_CALLS") != NULL;
  snprintf(path, sizeof path, "%s/log", folder);
  int fd = syscall(SYS_open, path, O_WRONLY | O_CREAT | O_TRUNC | O_APPEND, 0666);
  log_fd = fcntl(fd, F_DUPFD, LOG_FD);
  syscall(SYS_close, fd);
  dl_iterate_phdr(find_program, NULL);
  ready = log_fd >= 0;
}

extern void *__libc_malloc(size_t);
extern void *__libc_realloc(void *, size_t);

void *malloc(size_t size) {
  if (!is_refused(__builtin_return_address(0), 0)) return __libc_malloc(size);
  errno = ENOMEM;
  return NULL;
}

void *realloc(void *old, size_t size) {
  if (!is_refused(__builtin_return_address(0), 0)) return __libc_realloc(old, size);
  errno = ENOMEM;
  return NULL;
}

static int is_failing_call(void *asked_at) {
  if (!is_refused(asked_at, 1)) return 0;
  errno = EIO;
  return 1;
}

int open(const char *path, int flags, ...) {
  va_list words;
  va_start(words, flags);
  int mode = flags & O_CREAT ? va_arg(words, int) : 0;
  va_end(words);
  return is_failing_call(__builtin_return_address(0)) ? -1 : syscall(SYS_openat, AT_FDCWD, path, flags, mode);
}

ssize_t read(int fd, void *bytes, size_t size) {
  return is_failing_call(__builtin_return_address(0)) ? -1 : syscall(SYS_read, fd, bytes, size);
}

ssize_t write(int fd, const void *bytes, size_t size) {
  return is_failing_call(__builtin_return_address(0)) ? -1 : syscall(SYS_write, fd, bytes, size);
}
