/* Counts what a program does, over all its threads: what it asks memory for, what it copies, which threads it starts, and how
   often it comes to places of its own code. Loaded before the C library (LD_PRELOAD). At the end the counts are written into the
   file that COUNT_INTO names. Only the program whose path COUNT_PROGRAM names is counted. With COUNT_ALONE no thread can be
   started. COUNT_PLACES has words of hexadecimal digits. The first is the entry point of the program's file. For each place there
   are two: where it lies in the file, and how many bytes its first operations have. A jump takes the place of these, so they have
   at least as many bytes as it, and mean the same wherever they stand. At a place the flags may change. */

#include "../preload.h"

extern unsigned long strtoul(const char *, char **, int);
extern unsigned long getauxval(unsigned long);
extern void *mmap(void *, size_t, int, int, int, long);
extern int mprotect(void *, size_t, int);

#define MAP_FAILED ((void *)-1L)
enum { EAGAIN = 11, AT_ENTRY = 9, PROT_READ = 1, PROT_WRITE = 2, PROT_EXEC = 4, PROT_ALL = 7 };
enum { MAP_PRIVATE = 2, MAP_ANONYMOUS = 32, MAP_FIXED_NOREPLACE = 0x100000 };
enum { PAGE = 4096, JUMP = 5, STUB = 64, MOST_PLACES = PAGE / STUB, NOT_COUNTED = 120 };

enum { ALLOCATIONS, ALLOCATED, COPIES, COPIED, THREADS, KINDS };
static long counts[KINDS], *reached;
static int places, is_counted, is_alone;

static void add(int kind, size_t more)
{
    __atomic_add_fetch(&counts[kind], more, __ATOMIC_RELAXED);
}

void *malloc(size_t size)
{
    static void *kept;
    add(ALLOCATIONS, 1);
    add(ALLOCATED, size);
    return ((void *(*)(size_t))next_of(&kept, "malloc"))(size);
}

void *realloc(void *block, size_t size)
{
    static void *kept;
    add(ALLOCATIONS, 1);
    add(ALLOCATED, size);
    return ((void *(*)(void *, size_t))next_of(&kept, "realloc"))(block, size);
}

static void *copy(void **kept, const char *name, void *to, const void *from, size_t size)
{
    add(COPIES, 1);
    add(COPIED, size);
    return ((void *(*)(void *, const void *, size_t))next_of(kept, name))(to, from, size);
}

void *memcpy(void *to, const void *from, size_t size)
{
    static void *kept;
    return copy(&kept, "memcpy", to, from, size);
}

void *memmove(void *to, const void *from, size_t size)
{
    static void *kept;
    return copy(&kept, "memmove", to, from, size);
}

int pthread_create(void *thread, const void *how, void *(*body)(void *), void *given)
{
    static void *kept;
    if (is_alone)
        return EAGAIN;
    add(THREADS, 1);
    return ((int (*)(void *, const void *, void *(*)(void *), void *))next_of(&kept, "pthread_create"))(thread, how, body, given);
}

/* Memory from which a jump reaches the program: a page for how often each place was reached, and one for the stubs. */
static unsigned char *pages_below(unsigned char *base)
{
    for (unsigned char *at = base - 16 * PAGE; base - at < 1L << 30; at -= 16 * PAGE) {
        void *found = mmap(at, 2 * PAGE, PROT_ALL, MAP_PRIVATE | MAP_ANONYMOUS | MAP_FIXED_NOREPLACE, -1, 0);
        if (found != MAP_FAILED)
            return found;
    }
    end(NOT_COUNTED);
    return 0;
}

static unsigned char *put(unsigned char *at, const void *bytes, size_t size)
{
    for (const unsigned char *from = bytes; size; size--)
        *at++ = *from++;
    return at;
}

/* Puts an operation whose last four bytes say how far a target is from its end. */
static unsigned char *put_to(unsigned char *at, const char *operation, const void *target)
{
    at = put(at, operation, strlen(operation));
    int distance = (int)((const unsigned char *)target - (at + sizeof distance));
    return put(at, &distance, sizeof distance);
}

/* Whoever comes to this place goes through a stub. It adds one to the count, does what stood here, and comes back. */
static void count_at(unsigned char *place, size_t whole, unsigned char *stub, long *count)
{
    static const char jump[] = "\xe9", lock_inc[] = "\xf0\x48\xff\x05";
    unsigned char *page = place - (size_t)place % PAGE;
    size_t changed = (size_t)(place + JUMP - page);
    put_to(put(put_to(stub, lock_inc, count), place, whole), jump, place + whole);
    if (mprotect(page, changed, PROT_ALL))
        end(NOT_COUNTED);
    put_to(place, jump, stub);
    mprotect(page, changed, PROT_READ | PROT_EXEC);
}

__attribute__((constructor)) static void begin(void)
{
    char *words = getenv("COUNT_PLACES");
    is_counted = words && is_meant("COUNT_PROGRAM");
    if (!is_counted)
        return;
    unsigned char *base = (unsigned char *)getauxval(AT_ENTRY) - strtoul(words, &words, 16);
    unsigned char *pages = pages_below(base);
    reached = (long *)pages;
    for (; *words && places < MOST_PLACES; places++) {
        unsigned char *place = base + strtoul(words, &words, 16);
        size_t whole = strtoul(words, &words, 16);
        count_at(place, whole, pages + PAGE + places * STUB, reached + places);
    }
    is_alone = getenv("COUNT_ALONE") != 0;
    /* What was done before is no part of the program. */
    for (int kind = 0; kind < KINDS; kind++)
        counts[kind] = 0;
}

__attribute__((destructor)) static void tell(void)
{
    long found[KINDS + MOST_PLACES];
    const char *name = getenv("COUNT_INTO");
    int file = name && is_counted ? open(name, O_WRONLY | O_TRUNC) : -1;
    if (file < 0)
        return;
    /* What is written here is no part of the program either. */
    for (int kind = 0; kind < KINDS + places; kind++)
        found[kind] = __atomic_load_n(kind < KINDS ? &counts[kind] : &reached[kind - KINDS], __ATOMIC_RELAXED);
    for (int kind = 0; kind < KINDS + places; kind++)
        dprintf(file, "%ld\n", found[kind]);
    close(file);
}

/* A program that ends by this runs no destructor. */
void _exit(int status)
{
    tell();
    end(status);
}
