/*
 * For .ci/typed, loaded before the C library: read and write that fail now and then, as the system's may.
 *
 *     INTERRUPT_READS   every other read of standard input is interrupted by a signal (EINTR), before it moves a byte
 *     INTERRUPT_WRITES  every other write to standard output likewise, and the others take one byte each
 *     FAIL_READ=n       the n-th read of standard input fails (EIO), and every later one
 */
#define _GNU_SOURCE
#include <errno.h>
#include <stdlib.h>
#include <sys/syscall.h>
#include <unistd.h>

static unsigned long reads, writes, moved;

ssize_t read(int fd, void *bytes, size_t n)
{
    const char *last = getenv("FAIL_READ");
    if (fd == 0) {
        reads++;
        if (getenv("INTERRUPT_READS") != NULL && reads % 2 == 1) {
            errno = EINTR;
            return -1;
        }
        if (last != NULL && ++moved >= strtoul(last, NULL, 10)) {
            errno = EIO;
            return -1;
        }
    }
    return syscall(SYS_read, fd, bytes, n);
}

ssize_t write(int fd, const void *bytes, size_t n)
{
    if (fd == 1 && getenv("INTERRUPT_WRITES") != NULL) {
        writes++;
        if (writes % 2 == 1) {
            errno = EINTR;
            return -1;
        }
        n = n > 1 ? 1 : n;
    }
    return syscall(SYS_write, fd, bytes, n);
}
