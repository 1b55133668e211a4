/* Loaded before the C library (LD_PRELOAD): as many reads of standard input as INTERRUPTIONS says are interrupted by a signal. The
 * others hand back one byte fewer than was asked for, as a slow pipe would, so that the two kinds alternate. */
#define _GNU_SOURCE
#include <errno.h>
#include <stdlib.h>
#include <sys/syscall.h>
#include <unistd.h>

ssize_t read(int descriptor, void *room, size_t bytes)
{
    static long done;
    const char *wanted = getenv("INTERRUPTIONS");
    if (descriptor == STDIN_FILENO && wanted != NULL && done < atol(wanted)) {
        done++;
        errno = EINTR;
        return -1;
    }
    return syscall(SYS_read, descriptor, room, bytes > 1 ? bytes - 1 : bytes);
}
