/* Refuses requests for memory of a program, to see what it answers.
 *
 *     cc -shared -fPIC -O1 -o refuse_memory.so refuse_memory.c -ldl
 *     REFUSE_AT=3 LD_PRELOAD=$PWD/refuse_memory.so PROGRAM WORD..
 *     REFUSE_FROM=3 LD_PRELOAD=$PWD/refuse_memory.so PROGRAM WORD..
 *
 * Loaded before the C library, it counts the calls of malloc and realloc together. The call whose
 * number REFUSE_AT names answers "no memory", and so does each call from that one on whose number
 * REFUSE_FROM names. At the first of these the line `refused` is written to standard error. All
 * other calls go through. Where both are absent or 0 none is refused. For one thread.
 */
#define _GNU_SOURCE
#include <dlfcn.h>
#include <errno.h>
#include <stdlib.h>
#include <unistd.h>

static void *(*next_malloc)(size_t);
static void *(*next_realloc)(void *, size_t);
static long refuse_at;
static long refuse_from;
static long calls;
static int is_told;

static long number_of(const char *name) {
    const char *number = getenv(name);
    return number ? atol(number) : 0;
}

static void find_next(void) {
    if (next_realloc) return;
    refuse_at = number_of("REFUSE_AT");
    refuse_from = number_of("REFUSE_FROM");
    next_malloc = (void *(*)(size_t))dlsym(RTLD_NEXT, "malloc");
    next_realloc = (void *(*)(void *, size_t))dlsym(RTLD_NEXT, "realloc");
}

static int is_refused(void) {
    static const char line[] = "refused\n";
    find_next();
    ++calls;
    if (calls != refuse_at && (refuse_from == 0 || calls < refuse_from)) return 0;
    if (!is_told && write(2, line, sizeof line - 1) < 0) abort();
    is_told = 1;
    errno = ENOMEM;
    return 1;
}

void *malloc(size_t size) { return is_refused() ? NULL : next_malloc(size); }

void *realloc(void *old, size_t size) { return is_refused() ? NULL : next_realloc(old, size); }
