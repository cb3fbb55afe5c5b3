/* Loaded before the C library: one of a program's calls of the system goes wrong, the one whose number the variable REFUSED gives,
   counted from 1 among the calls that the variable CALLS names, as in "read,write". HOW says what goes wrong:

     refused      the call is not made, and fails with EIO
     late         the call is made, and is then said to have failed with EIO
     interrupted  the call is not made, and fails with EINTR
     short        a read or a write moves one byte
     signal N     the program gets the signal with this number before the call

   How many such calls there were, which one went wrong, and which file it was of, is written to the file that COUNTED names, when the
   program ends or just before that signal. A file is given by its path, as the call or the system has it, or is `input`, `output` or
   `faults`; the clock is `clock`. Where TORN names a file, reading its end fails. */
#define _GNU_SOURCE
#include <dlfcn.h>
#include <errno.h>
#include <fcntl.h>
#include <signal.h>
#include <stdarg.h>
#include <stdio.h>
#include <stdlib.h>
#include <string.h>
#include <sys/socket.h>
#include <sys/stat.h>
#include <sys/syscall.h>
#include <time.h>
#include <unistd.h>

enum turn { GOES_ON, REFUSED, LATE, SHORT, SIGNALLED };

/* Neither count nor descriptor is kept from other threads: a program has one. */
static unsigned long calls;
static const char *wrong = "none";
static char wrong_file[4096] = "none";
static int torn = -1;

static int is_named(const char *name)
{
    const char *at = getenv("CALLS");
    size_t length = strlen(name);
    while (at) {
        if (!strncmp(at, name, length) && (at[length] == ',' || !at[length]))
            return 1;
        at = strchr(at, ',');
        at = at ? at + 1 : NULL;
    }
    return 0;
}

/* The file of a descriptor. */
static const char *of(int fd)
{
    static const char *const streams[] = {"input", "output", "faults"};
    static char file[4096];
    char link[32];
    int before = errno;
    if (fd >= 0 && fd <= 2)
        return streams[fd];
    snprintf(link, sizeof link, "/proc/self/fd/%d", fd);
    long length = syscall(SYS_readlink, link, file, sizeof file - 1);
    file[length < 0 ? 0 : length] = 0;
    errno = before;
    return file;
}

/* Writes what COUNTED is to have. */
__attribute__((destructor)) static void tell(void)
{
    char text[sizeof wrong_file + 64];
    const char *path = getenv("COUNTED");
    int fd = path ? (int)syscall(SYS_openat, AT_FDCWD, path, O_WRONLY | O_CREAT | O_TRUNC, 0600) : -1;
    if (fd >= 0)
        syscall(SYS_write, fd, text, snprintf(text, sizeof text, "%lu %s %s", calls, wrong, wrong_file));
}

/* Notes the file of the call that goes wrong, and sends the signal if one is due. */
static void note(const char *file)
{
    const char *how = getenv("HOW");
    int number;
    snprintf(wrong_file, sizeof wrong_file, "%s", file);
    if (how && sscanf(how, "signal %d", &number) == 1) {
        tell();
        raise(number);
    }
}

static enum turn next_turn(const char *name)
{
    const char *number = getenv("REFUSED"), *how = getenv("HOW");
    if (!is_named(name) || ++calls != (number ? strtoul(number, NULL, 10) : 0))
        return GOES_ON;
    wrong = name;
    if (!how)
        how = "refused";
    errno = strcmp(how, "interrupted") ? EIO : EINTR;
    if (!strncmp(how, "signal", 6))
        return SIGNALLED;
    return !strcmp(how, "late") ? LATE : !strcmp(how, "short") ? SHORT : REFUSED;
}

static void *next(const char *name)
{
    return dlsym(RTLD_NEXT, name);
}

/* A call of a file that is made as it is, or goes wrong. */
#define CALL(result, name, failed, file, parameters, arguments)     \
    result name parameters                                          \
    {                                                               \
        enum turn turn = next_turn(#name);                          \
        if (turn != GOES_ON)                                        \
            note(file);                                             \
        if (turn == REFUSED)                                        \
            return failed;                                          \
        result made = ((result(*) parameters)next(#name))arguments; \
        if (turn == LATE) {                                         \
            errno = EIO;                                            \
            return failed;                                          \
        }                                                           \
        return made;                                                \
    }

/* As CALL, of `size` bytes of the file of `fd`. */
#define MOVE(name, parameters, arguments)                                      \
    static ssize_t name##_whole parameters                                     \
    {                                                                          \
        return ((ssize_t(*) parameters)next(#name))arguments;                  \
    }                                                                          \
    static ssize_t name##_made parameters                                      \
    {                                                                          \
        enum turn turn = next_turn(#name);                                     \
        if (turn != GOES_ON)                                                   \
            note(of(fd));                                                      \
        if (turn == REFUSED)                                                   \
            return -1;                                                         \
        if (turn == SHORT && size > 1)                                         \
            size = 1;                                                          \
        ssize_t moved = name##_whole arguments;                                \
        if (turn == LATE) {                                                    \
            errno = EIO;                                                       \
            return -1;                                                         \
        }                                                                      \
        return moved;                                                          \
    }

MOVE(read, (int fd, void *bytes, size_t size), (fd, bytes, size))
MOVE(write, (int fd, const void *bytes, size_t size), (fd, bytes, size))
MOVE(recv, (int fd, void *bytes, size_t size, int flags), (fd, bytes, size, flags))
MOVE(send, (int fd, const void *bytes, size_t size, int flags), (fd, bytes, size, flags))

ssize_t read(int fd, void *bytes, size_t size)
{
    ssize_t moved = read_made(fd, bytes, size);
    if (moved == 0 && size > 0 && fd == torn) {
        errno = EIO;
        return -1;
    }
    return moved;
}

ssize_t write(int fd, const void *bytes, size_t size) { return write_made(fd, bytes, size); }
ssize_t __write(int fd, const void *bytes, size_t size) { return write_made(fd, bytes, size); }
ssize_t recv(int fd, void *bytes, size_t size, int flags) { return recv_made(fd, bytes, size, flags); }
ssize_t send(int fd, const void *bytes, size_t size, int flags) { return send_made(fd, bytes, size, flags); }

CALL(int, fsync, -1, of(fd), (int fd), (fd))
CALL(int, fdatasync, -1, of(fd), (int fd), (fd))
CALL(int, ftruncate, -1, of(fd), (int fd, off_t size), (fd, size))
CALL(int, flock, -1, of(fd), (int fd, int how), (fd, how))
CALL(int, fchmod, -1, of(fd), (int fd, mode_t mode), (fd, mode))
CALL(int, fchown, -1, of(fd), (int fd, uid_t owner, gid_t group), (fd, owner, group))
CALL(off_t, lseek, -1, of(fd), (int fd, off_t offset, int from), (fd, offset, from))
CALL(int, rename, -1, to, (const char *from, const char *to), (from, to))
CALL(int, link, -1, to, (const char *from, const char *to), (from, to))
CALL(int, unlink, -1, path, (const char *path), (path))
CALL(char *, realpath, NULL, path, (const char *path, char *found), (path, found))
CALL(int, statx, -1, *path ? path : of(fd), (int fd, const char *path, int flags, unsigned mask, struct statx *found),
     (fd, path, flags, mask, found))
CALL(int, socket, -1, "socket", (int domain, int type, int protocol), (domain, type, protocol))
CALL(int, bind, -1, of(fd), (int fd, const struct sockaddr *to, socklen_t size), (fd, to, size))
CALL(int, listen, -1, of(fd), (int fd, int backlog), (fd, backlog))
CALL(int, connect, -1, of(fd), (int fd, const struct sockaddr *to, socklen_t size), (fd, to, size))
CALL(int, accept4, -1, of(fd), (int fd, struct sockaddr *from, socklen_t *size, int flags), (fd, from, size, flags))
CALL(int, shutdown, -1, of(fd), (int fd, int how), (fd, how))
CALL(int, ioctl, -1, of(fd), (int fd, unsigned long what, void *more), (fd, what, more))
CALL(int, clock_gettime, -1, "clock", (clockid_t clock, struct timespec *now), (clock, now))

static int opened(const char *call, int folder, const char *path, int flags, mode_t mode)
{
    enum turn turn = next_turn(call);
    if (turn != GOES_ON)
        note(path);
    if (turn == REFUSED)
        return -1;
    int fd = syscall(SYS_openat, folder, path, flags, mode);
    const char *name = getenv("TORN");
    if (fd >= 0 && name && !strcmp(path, name))
        torn = fd;
    if (turn == LATE) {
        errno = EIO;
        return -1;
    }
    return fd;
}

/* The mode that follows these flags, where they say that one does. */
static mode_t mode_after(int flags, va_list more)
{
    return flags & O_CREAT || (flags & O_TMPFILE) == O_TMPFILE ? va_arg(more, mode_t) : 0;
}

int open(const char *path, int flags, ...)
{
    va_list more;
    va_start(more, flags);
    mode_t mode = mode_after(flags, more);
    va_end(more);
    return opened("open", AT_FDCWD, path, flags, mode);
}

int openat(int folder, const char *path, int flags, ...)
{
    va_list more;
    va_start(more, flags);
    mode_t mode = mode_after(flags, more);
    va_end(more);
    return opened("openat", folder, path, flags, mode);
}
