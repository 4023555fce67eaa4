/* Makes one allocation fail, or that one and all after it. For refusals.sh, loaded before the C library.
 *
 * REFUSE_AT=N        the Nth allocation fails, counted from 1; without it none does
 * REFUSE_ON=1        and so does each one after it
 * REFUSE_COUNT=FILE  at the end the number of allocations is written there
 */
#define _GNU_SOURCE
#include <dlfcn.h>
#include <errno.h>
#include <stdatomic.h>
#include <stdio.h>
#include <stdlib.h>
#include <string.h>
#include <sys/syscall.h>
#include <unistd.h>

static atomic_ulong made;
static unsigned long refused_at;
static int refuses_on;

static void *(*next_malloc)(size_t);
static void *(*next_calloc)(size_t, size_t);
static void *(*next_realloc)(void *, size_t);
static void *(*next_aligned_alloc)(size_t, size_t);
static int (*next_posix_memalign)(void **, size_t, size_t);

/* What dlsym itself asks for, while the functions above aren't known yet. */
static char early[65536];
static size_t early_used;

static int is_early(const void *at) { return (const char *)at >= early && (const char *)at < early + sizeof early; }

static void *take_early(size_t size) {
    size_t from = (early_used + 15) & ~(size_t)15;
    if (from + size > sizeof early) return NULL;
    early_used = from + size;
    return early + from;
}

__attribute__((constructor)) static void begin(void) {
    next_malloc = dlsym(RTLD_NEXT, "malloc");
    next_calloc = dlsym(RTLD_NEXT, "calloc");
    next_realloc = dlsym(RTLD_NEXT, "realloc");
    next_aligned_alloc = dlsym(RTLD_NEXT, "aligned_alloc");
    next_posix_memalign = dlsym(RTLD_NEXT, "posix_memalign");
    const char *at = getenv("REFUSE_AT");
    refused_at = at ? strtoul(at, NULL, 10) : 0;
    refuses_on = getenv("REFUSE_ON") != NULL;
    atomic_store(&made, 0);
}

static void write_count(void) {
    const char *to = getenv("REFUSE_COUNT");
    if (!to) return;
    unsigned long number = atomic_load(&made);
    refused_at = 0;
    FILE *file = fopen(to, "w");
    if (!file) return;
    fprintf(file, "%lu\n", number);
    fclose(file);
}

__attribute__((destructor)) static void end(void) { write_count(); }

/* The program ends so, with no destructor run. */
void _exit(int status) {
    write_count();
    syscall(SYS_exit_group, status);
    __builtin_unreachable();
}

static int is_refused(void) {
    unsigned long number = atomic_fetch_add(&made, 1) + 1;
    if (!refused_at || number < refused_at || (number > refused_at && !refuses_on)) return 0;
    errno = ENOMEM;
    return 1;
}

void *malloc(size_t size) {
    if (!next_malloc) return take_early(size);
    return is_refused() ? NULL : next_malloc(size);
}

void *calloc(size_t count, size_t size) {
    if (!next_calloc) return take_early(count * size);
    return is_refused() ? NULL : next_calloc(count, size);
}

void *realloc(void *at, size_t size) {
    if (!next_realloc || is_early(at)) {
        void *to = next_malloc ? next_malloc(size) : take_early(size);
        if (to && at) memcpy(to, at, size);
        return to;
    }
    return is_refused() ? NULL : next_realloc(at, size);
}

void *aligned_alloc(size_t align, size_t size) {
    if (!next_aligned_alloc) return take_early(size);
    return is_refused() ? NULL : next_aligned_alloc(align, size);
}

int posix_memalign(void **at, size_t align, size_t size) {
    if (!next_posix_memalign) return (*at = take_early(size)) ? 0 : ENOMEM;
    return is_refused() ? ENOMEM : next_posix_memalign(at, align, size);
}

void free(void *at) {
    static void (*next_free)(void *);
    if (!at || is_early(at)) return;
    if (!next_free) next_free = dlsym(RTLD_NEXT, "free");
    next_free(at);
}
