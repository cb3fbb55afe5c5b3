/* Loaded by planted.py before the C library and before any other file here, for a bug of the program that can be planted in a call of the
   C library, without a build. Each bug is an edit of this file in planted/. As it stands, each call is made as it is by what is loaded
   after this file, which may be a file that makes it go wrong. */
#define _GNU_SOURCE
#include <dlfcn.h>
#include <errno.h>
#include <fcntl.h>
#include <stdarg.h>
#include <stdio.h>
#include <stdlib.h>
#include <string.h>
#include <sys/file.h>
#include <sys/stat.h>
#include <time.h>
#include <unistd.h>

/* The function of this name in what is loaded after this file. */
#define NEXT(name) ((__typeof__(&name))dlsym(RTLD_NEXT, #name))

int open(const char *path, int flags, ...)
{
    va_list rest;
    va_start(rest, flags);
    int mode = flags & O_CREAT ? va_arg(rest, int) : 0;
    va_end(rest);
    return NEXT(open)(path, flags, mode);
}

int flock(int fd, int how)
{
    return NEXT(flock)(fd, how);
}

int rename(const char *from, const char *to)
{
    return NEXT(rename)(from, to);
}

int unlink(const char *path)
{
    return NEXT(unlink)(path);
}

int fsync(int fd)
{
    return NEXT(fsync)(fd);
}

ssize_t read(int fd, void *bytes, size_t size)
{
    return NEXT(read)(fd, bytes, size);
}

ssize_t write(int fd, const void *bytes, size_t size)
{
    return NEXT(write)(fd, bytes, size);
}

int clock_gettime(clockid_t clock, struct timespec *now)
{
    return NEXT(clock_gettime)(clock, now);
}

void *malloc(size_t size)
{
    return NEXT(malloc)(size);
}
