/* Files that are read and written so that nothing is lost: a file is written beside its name, under a name that no file has, and
 * takes its name when all of it is on the disk. */
#define _XOPEN_SOURCE 700
#include <errno.h>
#include <fcntl.h>
#include <stdio.h>
#include <stdlib.h>
#include <string.h>
#include <sys/stat.h>
#include <unistd.h>

#include "client.h"

static int cannot_write(const char *name, const char *reason)
{
    return trouble("cannot write", name, reason);
}

int read_file(const char *name, uint8_t *bytes, size_t room, size_t *length)
{
    FILE *file = fopen(name, "rb");
    int failed;
    if (!file)
        return trouble("cannot read", name, strerror(errno));
    *length = fread(bytes, 1, room, file);
    failed = ferror(file) ? errno : 0;
    fclose(file);
    return failed ? trouble("cannot read", name, strerror(failed)) : DONE;
}

int is_file(const char *name)
{
    struct stat there;
    return lstat(name, &there) == 0 && S_ISREG(there.st_mode);
}

int same_file(const char *one, const char *other)
{
    struct stat a, b;
    return stat(one, &a) == 0 && stat(other, &b) == 0 && a.st_dev == b.st_dev && a.st_ino == b.st_ino;
}

/* Whether a file may take this name, and the mode of the file that has it; 0 where none has. */
static int may_write(const char *name, mode_t *mode)
{
    struct stat there;
    *mode = 0;
    if (lstat(name, &there) != 0)
        return errno == ENOENT ? DONE : cannot_write(name, strerror(errno));
    if (S_ISLNK(there.st_mode))
        return cannot_write(name, "it is a link; name the file that it leads to");
    if (!S_ISREG(there.st_mode))
        return cannot_write(name, S_ISDIR(there.st_mode) ? "it is a directory" : "it is no regular file");
    if (access(name, W_OK) != 0)
        return cannot_write(name, strerror(errno));
    *mode = there.st_mode;
    return DONE;
}

/* Opens a new file in the folder of the name, for writing, under a name that nothing had; -1 and errno where there is none. */
static int open_beside(const char *name, mode_t mode, char **beside)
{
    const char *slash = strrchr(name, '/');
    int folder = slash ? (int)(slash - name) + 1 : 0;
    size_t room = (size_t)folder + 64;
    int file = -1, attempt;
    *beside = malloc(room);
    if (!*beside)
        return -1;
    for (attempt = 0; attempt < 100; attempt++) {
        snprintf(*beside, room, "%.*sjolvente-%ld-%d.part", folder, name, (long)getpid(), attempt);
        file = open(*beside, O_WRONLY | O_CREAT | O_EXCL, mode ? S_IRUSR | S_IWUSR : 0666);
        if (file >= 0 || errno != EEXIST)
            break;
    }
    return file;
}

/* Gives an open file the rights of a mode unless that is 0 or it has them; some disks know no others. 0, or the error's number. */
static int give_rights(int file, mode_t mode)
{
    struct stat now;
    if (mode == 0 || (fstat(file, &now) == 0 && (now.st_mode & 0777) == (mode & 0777)))
        return 0;
    return fchmod(file, mode & 0777) == 0 ? 0 : errno;
}

/* Fills an open file, has it flushed to the disk and closes it; 0, or the error's number. */
static int fill(int file, mode_t mode, const uint8_t *bytes, size_t length)
{
    size_t done = 0;
    int failed = give_rights(file, mode);
    while (!failed && done < length) {
        ssize_t written = write(file, bytes + done, length - done);
        if (written >= 0)
            done += (size_t)written;
        else if (errno != EINTR)
            failed = errno;
    }
    if (!failed && fsync(file) != 0)
        failed = errno;
    if (close(file) != 0 && !failed)
        failed = errno;
    return failed;
}

int write_file(const char *name, const uint8_t *bytes, size_t length)
{
    mode_t mode;
    char *beside;
    int file, failed, status = may_write(name, &mode);
    if (status != DONE)
        return status;
    file = open_beside(name, mode, &beside);
    if (file < 0)
        failed = errno;
    else {
        failed = fill(file, mode, bytes, length);
        if (!failed && rename(beside, name) != 0)
            failed = errno;
        if (failed && unlink(beside) != 0)
            trouble("cannot remove", beside, strerror(errno));
    }
    free(beside);
    return failed ? cannot_write(name, strerror(failed)) : DONE;
}
