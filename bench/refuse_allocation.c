/* Preloaded into the program: refuses the allocation of the number in REFUSE, counted from 1, and writes how many were asked for to
   descriptor 9 where COUNT is set. */
#define _GNU_SOURCE
#include <errno.h>
#include <stdio.h>
#include <stdlib.h>
#include <unistd.h>

extern void *__libc_malloc(size_t);
extern void *__libc_calloc(size_t, size_t);
extern void *__libc_realloc(void *, size_t);
extern void *__libc_memalign(size_t, size_t);

static long asked = 0;
static long refused = -1;

static int is_refused(void)
{
    if (refused < 0) {
        char *number = getenv("REFUSE");
        refused = number ? atol(number) : 0;
    }
    asked++;
    if (refused == 0 || asked != refused)
        return 0;
    errno = ENOMEM;
    return 1;
}

void *malloc(size_t size)
{
    return is_refused() ? NULL : __libc_malloc(size);
}

void *calloc(size_t many, size_t size)
{
    return is_refused() ? NULL : __libc_calloc(many, size);
}

void *realloc(void *old, size_t size)
{
    return is_refused() ? NULL : __libc_realloc(old, size);
}

void *aligned_alloc(size_t alignment, size_t size)
{
    return is_refused() ? NULL : __libc_memalign(alignment, size);
}

int posix_memalign(void **out, size_t alignment, size_t size)
{
    if (is_refused())
        return ENOMEM;
    *out = __libc_memalign(alignment, size);
    return *out ? 0 : ENOMEM;
}

__attribute__((destructor)) static void tell(void)
{
    if (getenv("COUNT")) {
        char line[32];
        int length = snprintf(line, sizeof line, "%ld\n", asked);
        if (write(9, line, (size_t)length) < 0)
            return;
    }
}
