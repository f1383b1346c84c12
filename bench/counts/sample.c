/* A program whose counts are known: its own threads come 1000 times each to a place of it. See self_test.py. */

typedef unsigned long size_t;
extern void *malloc(size_t);
extern void *realloc(void *, size_t);
extern void *memcpy(void *, const void *, size_t);
extern void *memmove(void *, const void *, size_t);
extern int pthread_create(unsigned long *, const void *, void *(*)(void *), void *);
extern int pthread_join(unsigned long, void **);

enum { THREADS = 4, TIMES = 1000 };

static volatile long kept;

__attribute__((noinline)) static long passed(long first, long second)
{
    for (long left = 7; left; left--)
        kept += first * left + second;
    return kept;
}

static void *pass(void *given)
{
    for (int time = 0; time < TIMES; time++)
        passed((long)given, time);
    return given;
}

int main(int count, char **words)
{
    unsigned long threads[THREADS];
    int started = 0, size = 100 * count;
    char *room = realloc(malloc(size), 3 * size);
    memcpy(room, words[0], 1);
    memcpy(room + 2 * size, room, size);
    memmove(room + 1, room, 2 * size);
    while (started < THREADS && !pthread_create(&threads[started], 0, pass, (void *)(long)started))
        started++;
    if (!started)
        pass(room);
    while (started)
        pthread_join(threads[--started], 0);
    return 0;
}
