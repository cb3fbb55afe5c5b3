/* Loaded before the C library: refuses one request for memory, the one whose number the variable REFUSED gives, counted from 1, or, if
   the variable LASTING is set, that one and all after it. It says on standard error at the end how many there were. */
#include <stdio.h>
#include <stdlib.h>

extern void *__libc_malloc(size_t size);
extern void *__libc_realloc(void *block, size_t size);

static unsigned long requests;

static int is_refused(void)
{
    const char *number = getenv("REFUSED");
    unsigned long first = number ? strtoul(number, NULL, 10) : 0;
    requests++;
    return first && (requests == first || (requests > first && getenv("LASTING")));
}

void *malloc(size_t size)
{
    return is_refused() ? NULL : __libc_malloc(size);
}

void *realloc(void *block, size_t size)
{
    return is_refused() ? NULL : __libc_realloc(block, size);
}

__attribute__((destructor)) static void tell(void)
{
    char text[32];
    int length = snprintf(text, sizeof text, "requests %lu\n", requests);
    fwrite(text, 1, length, stderr);
}
