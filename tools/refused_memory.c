/* Refuses requests for memory, or starts of threads, by their number. LD_PRELOAD loads it before a program, and the environment says what is
   refused. `tools/refused_memory.py` builds it, and says what it is for.

       REFUSE_FIRST, REFUSE_LAST    the calls of malloc, calloc and realloc that find no memory: from this number to that one
       REFUSE_START                 the start of a thread that fails, by its number
       REFUSE_TOLD                  the number of a file that is open for writing: it gets a byte at the first refusal

   Numbers of calls begin at 1. A variable that isn't set refuses nothing. */
#define _GNU_SOURCE
#include <dlfcn.h>
#include <errno.h>
#include <pthread.h>
#include <stdatomic.h>
#include <stdlib.h>
#include <unistd.h>

/* The calls of the C library under names that no other library takes. */
extern void *__libc_malloc(size_t size);
extern void *__libc_calloc(size_t count, size_t size);
extern void *__libc_realloc(void *block, size_t size);

typedef int start_of_thread(pthread_t *, const pthread_attr_t *, void *(*)(void *), void *);

static atomic_ulong requests, starts, refused;
static unsigned long first, last, refused_start;
static int told = -1;
static start_of_thread *really_start;

static unsigned long number_of(const char *name, unsigned long absent) {
    const char *text = getenv(name);
    return text ? strtoul(text, NULL, 10) : absent;
}

__attribute__((constructor)) static void read_words(void) {
    really_start = (start_of_thread *)dlsym(RTLD_NEXT, "pthread_create");
    told = (int)number_of("REFUSE_TOLD", -1ul);
    refused_start = number_of("REFUSE_START", 0);
    last = number_of("REFUSE_LAST", 0);
    atomic_store(&requests, 0);
    first = number_of("REFUSE_FIRST", 0);
}

/* Counts a refusal, and writes a byte at the first one. */
static void tell(void) {
    if (atomic_fetch_add(&refused, 1) == 0 && told >= 0 && write(told, "x", 1) != 1)
        abort();
}

/* Counts a request for memory, and returns whether it is refused. */
static int is_refused(void) {
    if (first == 0)
        return 0;
    unsigned long number = atomic_fetch_add(&requests, 1) + 1;
    if (number < first || number > last)
        return 0;
    tell();
    errno = ENOMEM;
    return 1;
}

void *malloc(size_t size) { return is_refused() ? NULL : __libc_malloc(size); }

void *calloc(size_t count, size_t size) { return is_refused() ? NULL : __libc_calloc(count, size); }

void *realloc(void *block, size_t size) { return is_refused() ? NULL : __libc_realloc(block, size); }

int pthread_create(pthread_t *thread, const pthread_attr_t *attributes, void *(*body)(void *), void *argument) {
    if (atomic_fetch_add(&starts, 1) + 1 == refused_start) {
        tell();
        return EAGAIN;
    }
    return really_start(thread, attributes, body, argument);
}
