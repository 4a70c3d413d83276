/* A disk that is hard to write on, for scripts/tries/parts: it is loaded below a program. A write takes 1,000 bytes at
 * most, as a write may, and with NO_SYNC=N in the environment the Nth file or folder cannot be put on the disk. */
#define _GNU_SOURCE
#include <dlfcn.h>
#include <errno.h>
#include <stdlib.h>
#include <sys/types.h>

enum { MOST_BYTES = 1000 };

ssize_t write(int file, const void *bytes, size_t count)
{
    ssize_t (*write_all)(int, const void *, size_t) = dlsym(RTLD_NEXT, "write");
    return write_all(file, bytes, count < MOST_BYTES ? count : MOST_BYTES);
}

int fsync(int file)
{
    int (*sync)(int) = dlsym(RTLD_NEXT, "fsync");
    static int count;
    const char *failing = getenv("NO_SYNC");
    count++;
    if (failing != NULL && count == atoi(failing)) {
        errno = EIO;
        return -1;
    }
    return sync(file);
}
