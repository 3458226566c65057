/* Refuses one request for memory: with REFUSE=N the N-th call of malloc, realloc, aligned_alloc or posix_memalign that the program makes
   after its start fails. With COUNT=FILE how many there were stands there, as a word of eight bytes. It is loaded before the C library (LD_PRELOAD). */
#define _GNU_SOURCE
#include <dlfcn.h>
#include <errno.h>
#include <fcntl.h>
#include <stdatomic.h>
#include <stdlib.h>
#include <sys/mman.h>
#include <unistd.h>

static atomic_ulong own;
static atomic_ulong *asked = &own;
static unsigned long refused;
static int begun;

static void begin(void) __attribute__((constructor));
static void begin(void) {
    const char *n = getenv("REFUSE");
    refused = n ? strtoul(n, NULL, 10) : 0;
    const char *name = getenv("COUNT");
    int file = name ? open(name, O_RDWR | O_CREAT | O_TRUNC, 0600) : -1;
    if (file >= 0 && ftruncate(file, sizeof own) == 0) {
        void *at = mmap(NULL, sizeof own, PROT_READ | PROT_WRITE, MAP_SHARED, file, 0);
        if (at != MAP_FAILED) asked = at;
    }
    begun = 1;
}

static int is_refused(void) {
    return begun && atomic_fetch_add(asked, 1) + 1 == refused;
}

void *malloc(size_t size) {
    static void *(*next)(size_t);
    if (!next) next = dlsym(RTLD_NEXT, "malloc");
    return is_refused() ? NULL : next(size);
}

void *realloc(void *old, size_t size) {
    static void *(*next)(void *, size_t);
    if (!next) next = dlsym(RTLD_NEXT, "realloc");
    return is_refused() ? NULL : next(old, size);
}

void *aligned_alloc(size_t align, size_t size) {
    static void *(*next)(size_t, size_t);
    if (!next) next = dlsym(RTLD_NEXT, "aligned_alloc");
    return is_refused() ? NULL : next(align, size);
}

int posix_memalign(void **to, size_t align, size_t size) {
    static int (*next)(void **, size_t, size_t);
    if (!next) next = dlsym(RTLD_NEXT, "posix_memalign");
    return is_refused() ? ENOMEM : next(to, align, size);
}
