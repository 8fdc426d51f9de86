/* Preloaded into a program, it lets each read and each write move one byte at most. */
#define _GNU_SOURCE
#include <stdlib.h>
#include <sys/syscall.h>
#include <unistd.h>

/* Scripts see the environment without it. */
__attribute__((constructor)) static void hide(void) { unsetenv("LD_PRELOAD"); }

ssize_t read(int fd, void *bytes, size_t size) { return syscall(SYS_read, fd, bytes, size > 1 ? 1 : size); }

ssize_t write(int fd, const void *bytes, size_t size) { return syscall(SYS_write, fd, bytes, size > 1 ? 1 : size); }
