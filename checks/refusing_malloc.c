/* Counts the allocations of a program and refuses some of them. It is put under the program by LD_PRELOAD.

   The file that REFUSING_MALLOC names has four numbers of 64 bits: how many allocations there were, the first and the
   last that are refused, and how many were refused. It is mapped, so the count of a program that is killed is there
   too, and can be read while the program runs. Without that file it counts and refuses nothing. */

#include "mapped.h"

#include <errno.h>
#include <stdint.h>

extern void *__libc_malloc(size_t size);
extern void *__libc_calloc(size_t count, size_t size);
extern void *__libc_realloc(void *old, size_t size);
extern void *__libc_memalign(size_t alignment, size_t size);

struct numbers {
    uint64_t count, first, last, refused;
};

static struct numbers *numbers;

__attribute__((constructor)) static void map_numbers(void)
{
    numbers = mapped("REFUSING_MALLOC", sizeof *numbers);
}

/* Counts an allocation. Whether it is refused. */
static int is_refused(void)
{
    if (!numbers)
        return 0;
    uint64_t number = __atomic_add_fetch(&numbers->count, 1, __ATOMIC_RELAXED);
    if (number < numbers->first || number > numbers->last)
        return 0;
    __atomic_add_fetch(&numbers->refused, 1, __ATOMIC_RELAXED);
    errno = ENOMEM;
    return 1;
}

void *malloc(size_t size)
{
    return is_refused() ? NULL : __libc_malloc(size);
}

void *calloc(size_t count, size_t size)
{
    return is_refused() ? NULL : __libc_calloc(count, size);
}

void *realloc(void *old, size_t size)
{
    return is_refused() ? NULL : __libc_realloc(old, size);
}

void *aligned_alloc(size_t alignment, size_t size)
{
    return is_refused() ? NULL : __libc_memalign(alignment, size);
}

int posix_memalign(void **place, size_t alignment, size_t size)
{
    void *found = is_refused() ? NULL : __libc_memalign(alignment, size);
    if (!found)
        return ENOMEM;
    *place = found;
    return 0;
}
