/* Stands in front of the C library's read and write, for tests/front: the letters of FAULTS_READ and FAULTS_WRITE are for one call each.
   i: interrupted, e: an error of the device, s: one byte only. Any other letter, and every call behind the last one, goes through. */
#include <errno.h>
#include <stdlib.h>
#include <sys/syscall.h>
#include <sys/types.h>
#include <unistd.h>

static char next_fault(const char *name, size_t *used)
{
    const char *faults = getenv(name);
    if (!faults || !faults[*used])
        return '.';
    return faults[(*used)++];
}

static ssize_t call(long number, char fault, int fd, const void *bytes, size_t count)
{
    if (fault == 'i' || fault == 'e') {
        errno = fault == 'i' ? EINTR : EIO;
        return -1;
    }
    return syscall(number, fd, bytes, fault == 's' && count ? 1 : count);
}

ssize_t read(int fd, void *bytes, size_t count)
{
    static size_t used;
    return call(SYS_read, next_fault("FAULTS_READ", &used), fd, bytes, count);
}

ssize_t write(int fd, const void *bytes, size_t count)
{
    static size_t used;
    return call(SYS_write, fd == 1 ? next_fault("FAULTS_WRITE", &used) : '.', fd, bytes, count);
}
