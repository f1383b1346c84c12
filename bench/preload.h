/* What libraries have in common that are loaded before the C library (LD_PRELOAD). The kit's compiler has no headers, so what
   they use of the C library of Linux on x86-64 is declared here. */

typedef unsigned long size_t;
extern void *dlsym(void *, const char *);
extern char *getenv(const char *);
extern size_t strlen(const char *);
extern int memcmp(const void *, const void *, size_t);
extern long readlink(const char *, char *, size_t);
extern int open(const char *, int, ...);
extern int dprintf(int, const char *, ...);
extern int close(int);
extern long syscall(long, ...);

#define RTLD_NEXT ((void *)-1L)
enum { O_WRONLY = 1, O_TRUNC = 01000, SYS_exit_group = 231, PATH_MAX = 4096 };

/* What the C library has by this name. Threads that ask for it at once find the same. */
static void *next_of(void **kept, const char *name)
{
    void *next = __atomic_load_n(kept, __ATOMIC_RELAXED);
    if (!next) {
        next = dlsym(RTLD_NEXT, name);
        __atomic_store_n(kept, next, __ATOMIC_RELAXED);
    }
    return next;
}

/* Whether the program is the one whose path a variable of the environment has, and not one which starts it. */
static int is_meant(const char *variable)
{
    char path[PATH_MAX];
    const char *meant = getenv(variable);
    long length = readlink("/proc/self/exe", path, sizeof path);
    return meant && length >= 0 && strlen(meant) == (size_t)length && !memcmp(meant, path, (size_t)length);
}

static void end(long status)
{
    for (;;)
        syscall(SYS_exit_group, status);
}
