/* A library to be loaded before the C library's own: the call that FAILING names fails, each with an errno of its own, on files that are
 * written. So the tests see what the client does where a disk is full, a network's file is lost, or a folder is closed. */
#define _GNU_SOURCE
#include <dlfcn.h>
#include <errno.h>
#include <fcntl.h>
#include <stdlib.h>
#include <string.h>
#include <sys/stat.h>
#include <sys/types.h>

static int asks(const char *what)
{
    const char *asked = getenv("FAILING");
    return asked && strcmp(asked, what) == 0;
}

static int fails(const char *call, int reason)
{
    if (!asks(call))
        return 0;
    errno = reason;
    return 1;
}

/* A file that is open for writing, and no terminal or pipe. */
static int is_written(int file)
{
    struct stat s;
    int flags = fcntl(file, F_GETFL);
    return flags >= 0 && (flags & O_ACCMODE) != O_RDONLY && fstat(file, &s) == 0 && S_ISREG(s.st_mode);
}

/* Half of the bytes are written before a write fails. What is slow is interrupted every other time, and takes five bytes at most. */
ssize_t write(int file, const void *bytes, size_t length)
{
    static unsigned calls;
    ssize_t (*real)(int, const void *, size_t) = (ssize_t(*)(int, const void *, size_t))dlsym(RTLD_NEXT, "write");
    if (!is_written(file))
        return real(file, bytes, length);
    calls++;
    if (asks("slowly") && calls % 2 == 1) {
        errno = EINTR;
        return -1;
    }
    if (asks("slowly"))
        return real(file, bytes, length < 5 ? length : 5);
    if (!fails("write", ENOSPC))
        return real(file, bytes, length);
    return calls > 1 ? -1 : real(file, bytes, length / 2);
}

int fsync(int file)
{
    int (*real)(int) = (int (*)(int))dlsym(RTLD_NEXT, "fsync");
    return fails("fsync", EIO) ? -1 : real(file);
}

int fchmod(int file, mode_t mode)
{
    int (*real)(int, mode_t) = (int (*)(int, mode_t))dlsym(RTLD_NEXT, "fchmod");
    return fails("fchmod", EROFS) ? -1 : real(file, mode);
}

/* The file is closed all the same, as the system does it. */
int close(int file)
{
    int (*real)(int) = (int (*)(int))dlsym(RTLD_NEXT, "close");
    int written = is_written(file), closed = real(file);
    return written && fails("close", EDQUOT) ? -1 : closed;
}

int rename(const char *from, const char *to)
{
    int (*real)(const char *, const char *) = (int (*)(const char *, const char *))dlsym(RTLD_NEXT, "rename");
    return fails("rename", EPERM) || fails("unlink", EPERM) ? -1 : real(from, to);
}

/* Fails with the rename before it. */
int unlink(const char *name)
{
    int (*real)(const char *) = (int (*)(const char *))dlsym(RTLD_NEXT, "unlink");
    return fails("unlink", EBUSY) ? -1 : real(name);
}
