/* One allocation of a program fails: the one whose number FAIL_ALLOC names, counted from 1 on over all its threads. At the end
   the number of all is written into the file that FAIL_COUNT names. Loaded before the C library (LD_PRELOAD). Only the program
   whose path FAIL_PROGRAM names is counted, so that one which starts it is left alone. */

#include "../preload.h"

extern int *__errno_location(void);
extern long atol(const char *);

enum { ENOMEM = 12 };

static long made, failing = -1;

/* The number of the allocation that fails, 0 where none does. Threads that ask for it at once find the same. */
static long number_that_fails(void)
{
    long number = __atomic_load_n(&failing, __ATOMIC_RELAXED);
    if (number < 0) {
        const char *told = getenv("FAIL_ALLOC");
        number = told && is_meant("FAIL_PROGRAM") ? atol(told) : 0;
        __atomic_store_n(&failing, number, __ATOMIC_RELAXED);
    }
    return number;
}

static int fails(void)
{
    long number = number_that_fails();
    if (__atomic_add_fetch(&made, 1, __ATOMIC_RELAXED) != number)
        return 0;
    *__errno_location() = ENOMEM;
    return 1;
}

void *malloc(size_t size)
{
    static void *kept;
    return fails() ? (void *)0 : ((void *(*)(size_t))next_of(&kept, "malloc"))(size);
}

void *realloc(void *block, size_t size)
{
    static void *kept;
    return fails() ? (void *)0 : ((void *(*)(void *, size_t))next_of(&kept, "realloc"))(block, size);
}

__attribute__((destructor)) static void tell(void)
{
    const char *name = getenv("FAIL_COUNT");
    long count = __atomic_load_n(&made, __ATOMIC_RELAXED);
    int file = name && is_meant("FAIL_PROGRAM") ? open(name, O_WRONLY | O_TRUNC) : -1;
    if (file >= 0) {
        dprintf(file, "%ld\n", count);
        close(file);
    }
}

/* A program that ends by this runs no destructor. */
void _exit(int status)
{
    tell();
    end(status);
}
