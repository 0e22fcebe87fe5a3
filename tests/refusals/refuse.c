/* Preloaded into a program, refuses one of its calls for memory or for a thread: that of REFUSED_CALL, counted from 1, and
   with REFUSED_ALWAYS each later one too. Writes a byte to descriptor 3 when it refuses the first. With LISTED_CALLS it
   refuses none, and writes a byte for each: T for the start of a thread, t for memory for that, else m. */
#define _GNU_SOURCE
#include <dlfcn.h>
#include <errno.h>
#include <pthread.h>
#include <stdatomic.h>
#include <stdlib.h>
#include <sys/mman.h>
#include <unistd.h>

extern void *__libc_malloc(size_t);
extern void *__libc_calloc(size_t, size_t);
extern void *__libc_realloc(void *, size_t);
extern void *__libc_memalign(size_t, size_t);

typedef int creating(pthread_t *, const pthread_attr_t *, void *(*)(void *), void *);
typedef void *mapping(void *, size_t, int, int, int, off_t);

static creating *create;
static mapping *map;
static long refused_call; /* none while it is 0, so not before the program's own start */
static int always;
static int listed;
static atomic_long calls;
static _Thread_local int is_starting; /* whether this thread is starting another */

__attribute__((constructor)) static void start(void)
{
    create = (creating *)dlsym(RTLD_NEXT, "pthread_create");
    map = (mapping *)dlsym(RTLD_NEXT, "mmap");
    const char *text = getenv("REFUSED_CALL");
    always = getenv("REFUSED_ALWAYS") != NULL;
    listed = getenv("LISTED_CALLS") != NULL;
    refused_call = text ? atol(text) : 0;
}

static void tell(const char *byte)
{
    if (write(3, byte, 1) != 1)
        abort();
}

/* Whether a call of this kind, as it is listed, is refused. */
static int refuses(const char *kind)
{
    if (listed)
        tell(kind);
    if (refused_call == 0)
        return 0;
    long call = atomic_fetch_add(&calls, 1) + 1;
    if (call == refused_call)
        tell("r");
    return always ? call >= refused_call : call == refused_call;
}

static int refuses_memory(void)
{
    return refuses(is_starting ? "t" : "m");
}

static void *none(void)
{
    errno = ENOMEM;
    return NULL;
}

void *malloc(size_t size)
{
    return refuses_memory() ? none() : __libc_malloc(size);
}

void *calloc(size_t count, size_t size)
{
    return refuses_memory() ? none() : __libc_calloc(count, size);
}

void *realloc(void *old, size_t size)
{
    return refuses_memory() ? none() : __libc_realloc(old, size);
}

void *aligned_alloc(size_t align, size_t size)
{
    return refuses_memory() ? none() : __libc_memalign(align, size);
}

int posix_memalign(void **found, size_t align, size_t size)
{
    if (refuses_memory() || (*found = __libc_memalign(align, size)) == NULL)
        return ENOMEM;
    return 0;
}

void *mmap(void *at, size_t size, int access, int flags, int file, off_t from)
{
    if (refuses_memory()) {
        errno = ENOMEM;
        return MAP_FAILED;
    }
    return map(at, size, access, flags, file, from);
}

int pthread_create(pthread_t *thread, const pthread_attr_t *attributes, void *(*body)(void *), void *argument)
{
    if (refuses("T"))
        return EAGAIN;
    is_starting = 1;
    int status = create(thread, attributes, body, argument);
    is_starting = 0;
    return status;
}
