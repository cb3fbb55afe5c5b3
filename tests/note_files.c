/* Loaded before the C library: notes, in the order of the program's calls, what it changes in files and folders, what it asks the system to
   write to the device, and what it tells anyone. Each note is added to the file that the variable NOTED names. It has a line with a word,
   the number of a file, another number, and how many bytes come after that line:

     made FILE          the file is new, and empty; an earlier file may have had its number
     name FILE PATH     the path now leads to this file
     gone PATH          the path leads to no file
     data FILE AT BYTES these bytes were written to the file, at this place
     size FILE SIZE     the file was cut, or made longer with zeros
     sync FILE          the system was asked to write the file, or the entries of this folder, to the device, and said that it did
     told STREAM BYTES  these bytes were written to standard output, which is stream 1, or sent through a socket, which is stream 0

   A rename is two notes, since a device may keep one of its changes only. Calls that fail change nothing, and are not noted. */
#define _GNU_SOURCE
#include <dlfcn.h>
#include <errno.h>
#include <fcntl.h>
#include <stdarg.h>
#include <stdio.h>
#include <stdlib.h>
#include <string.h>
#include <sys/socket.h>
#include <sys/stat.h>
#include <sys/syscall.h>
#include <sys/uio.h>
#include <unistd.h>

/* The function of this name in what is loaded after this file. */
#define NEXT(name) ((__typeof__(&name))dlsym(RTLD_NEXT, #name))

static void note(const char *what, unsigned long file, long number, const void *bytes, size_t size)
{
    char line[96];
    int before = errno, length = snprintf(line, sizeof line, "%s %lu %ld %zu\n", what, file, number, size);
    struct iovec both[] = {{line, length}, {(void *)bytes, size}};
    int noted = syscall(SYS_openat, AT_FDCWD, getenv("NOTED"), O_WRONLY | O_CREAT | O_APPEND | O_CLOEXEC, 0600);
    if (syscall(SYS_writev, noted, both, 2) != (long)(length + size))
        abort();
    syscall(SYS_close, noted);
    errno = before;
}

static void note_path(const char *what, unsigned long file, const char *path)
{
    note(what, file, 0, path, strlen(path));
}

/* The number of the file at a path, or 0 if there is none. */
static unsigned long at_path(const char *path)
{
    struct stat found;
    int before = errno;
    unsigned long file = lstat(path, &found) ? 0 : found.st_ino;
    errno = before;
    return file;
}

/* The number of an open file, or 0 if it is none that a device keeps. */
static unsigned long of(int fd)
{
    struct stat found;
    int before = errno;
    unsigned long file = fstat(fd, &found) || !(S_ISREG(found.st_mode) || S_ISDIR(found.st_mode)) ? 0 : found.st_ino;
    errno = before;
    return file;
}

static int opened(int folder, const char *path, int flags, mode_t mode)
{
    struct stat found;
    int is_new = flags & O_CREAT && fstatat(folder, path, &found, AT_SYMLINK_NOFOLLOW);
    int fd = syscall(SYS_openat, folder, path, flags, mode);
    if (fd >= 0 && is_new) {
        note("made", of(fd), 0, "", 0);
        note_path("name", of(fd), path);
    } else if (fd >= 0 && flags & O_TRUNC && of(fd)) {
        note("size", of(fd), 0, "", 0);
    }
    return fd;
}

int open(const char *path, int flags, ...)
{
    va_list rest;
    va_start(rest, flags);
    mode_t mode = flags & O_CREAT ? va_arg(rest, mode_t) : 0;
    va_end(rest);
    return opened(AT_FDCWD, path, flags, mode);
}

int openat(int folder, const char *path, int flags, ...)
{
    va_list rest;
    va_start(rest, flags);
    mode_t mode = flags & O_CREAT ? va_arg(rest, mode_t) : 0;
    va_end(rest);
    return opened(folder, path, flags, mode);
}

static ssize_t written(int fd, const void *bytes, size_t size)
{
    long at = lseek(fd, 0, SEEK_CUR);
    ssize_t moved = NEXT(write)(fd, bytes, size);
    if (moved > 0 && fd == 1)
        note("told", 1, 0, bytes, moved);
    else if (moved > 0 && of(fd))
        note("data", of(fd), at, bytes, moved);
    return moved;
}

ssize_t write(int fd, const void *bytes, size_t size) { return written(fd, bytes, size); }
ssize_t __write(int fd, const void *bytes, size_t size) { return written(fd, bytes, size); }

ssize_t send(int fd, const void *bytes, size_t size, int flags)
{
    ssize_t moved = NEXT(send)(fd, bytes, size, flags);
    if (moved > 0)
        note("told", 0, 0, bytes, moved);
    return moved;
}

int ftruncate(int fd, off_t size)
{
    int failed = NEXT(ftruncate)(fd, size);
    if (!failed)
        note("size", of(fd), size, "", 0);
    return failed;
}

int fsync(int fd)
{
    int failed = NEXT(fsync)(fd);
    if (!failed)
        note("sync", of(fd), 0, "", 0);
    return failed;
}

int fdatasync(int fd)
{
    int failed = NEXT(fdatasync)(fd);
    if (!failed)
        note("sync", of(fd), 0, "", 0);
    return failed;
}

int rename(const char *from, const char *to)
{
    unsigned long file = at_path(from);
    int failed = NEXT(rename)(from, to);
    if (!failed) {
        note_path("name", file, to);
        note_path("gone", 0, from);
    }
    return failed;
}

int link(const char *from, const char *to)
{
    int failed = NEXT(link)(from, to);
    if (!failed)
        note_path("name", at_path(from), to);
    return failed;
}

int unlink(const char *path)
{
    int failed = NEXT(unlink)(path);
    if (!failed)
        note_path("gone", 0, path);
    return failed;
}
