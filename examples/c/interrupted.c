/* read and write of a system that is hard on its callers, to be loaded before the C library's: every second call is
 * interrupted by a signal, and the others take 1 to 97 bytes at most. */
#define _GNU_SOURCE
#include <errno.h>
#include <sys/syscall.h>
#include <unistd.h>

static unsigned long calls;

/* How many bytes this call takes; 0 if it is interrupted. */
static size_t part(size_t count)
{
    size_t most = ++calls % 2 == 0 ? 1 + calls % 97 : 0;
    return count < most ? count : most;
}

static ssize_t interrupted(void)
{
    errno = EINTR;
    return -1;
}

ssize_t read(int file, void *bytes, size_t count)
{
    size_t taken = part(count);
    return taken == 0 ? interrupted() : syscall(SYS_read, file, bytes, taken);
}

ssize_t write(int file, const void *bytes, size_t count)
{
    size_t taken = part(count);
    return taken == 0 ? interrupted() : syscall(SYS_write, file, bytes, taken);
}
