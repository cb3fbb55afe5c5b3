/* Loaded before the C library: the machine's clock stands at the second that the file has whose name the variable CLOCK gives. Other
   clocks go on as they do. */
#define _GNU_SOURCE
#include <dlfcn.h>
#include <fcntl.h>
#include <stdlib.h>
#include <sys/syscall.h>
#include <time.h>
#include <unistd.h>

int clock_gettime(clockid_t clock, struct timespec *now)
{
    char text[32] = "";
    const char *path = getenv("CLOCK");
    if (clock != CLOCK_REALTIME || !path)
        return ((int (*)(clockid_t, struct timespec *))dlsym(RTLD_NEXT, "clock_gettime"))(clock, now);
    int fd = syscall(SYS_openat, AT_FDCWD, path, O_RDONLY);
    syscall(SYS_read, fd, text, sizeof text - 1);
    syscall(SYS_close, fd);
    now->tv_sec = strtoll(text, NULL, 10);
    now->tv_nsec = 0;
    return 0;
}
