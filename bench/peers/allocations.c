/* Counts what a program has of malloc, in the file that ALLOCATIONS names. LD_PRELOAD has it loaded
 * before the C library of the program. The counts are in a map of that file, so they are there
 * however the program ends. The program has one thread. */
#define _GNU_SOURCE
#include <errno.h>
#include <fcntl.h>
#include <malloc.h>
#include <stdint.h>
#include <stdlib.h>
#include <string.h>
#include <sys/mman.h>
#include <unistd.h>

/* What glibc's own calls do. */
void *__libc_malloc(size_t size);
void *__libc_calloc(size_t count, size_t size);
void *__libc_realloc(void *old, size_t size);
void *__libc_memalign(size_t alignment, size_t size);
void __libc_free(void *at);

/* Bytes that it has now and had at most, and how often it asked for some. */
static struct counts { uint64_t now, most, calls; } before, *counts = &before;

__attribute__((constructor)) static void start(void) {
    const char *path = getenv("ALLOCATIONS");
    int file = path ? open(path, O_RDWR | O_CREAT | O_CLOEXEC, 0600) : -1;
    if (file < 0 || ftruncate(file, sizeof before) != 0) abort();
    counts = mmap(NULL, sizeof before, PROT_READ | PROT_WRITE, MAP_SHARED, file, 0);
    if (counts == MAP_FAILED) abort();
    *counts = before;
    close(file);
}

static void *taken(void *at) {
    if (at == NULL) return NULL;
    counts->calls++;
    counts->now += malloc_usable_size(at);
    if (counts->now > counts->most) counts->most = counts->now;
    return at;
}

static void given_back(void *at) {
    if (at != NULL) counts->now -= malloc_usable_size(at);
}

void *malloc(size_t size) { return taken(__libc_malloc(size)); }

void *calloc(size_t count, size_t size) { return taken(__libc_calloc(count, size)); }

void *realloc(void *old, size_t size) {
    size_t had = old ? malloc_usable_size(old) : 0;
    void *at = __libc_realloc(old, size);
    if (at != NULL || size == 0) counts->now -= had;
    return taken(at);
}

void *memalign(size_t alignment, size_t size) { return taken(__libc_memalign(alignment, size)); }

void *aligned_alloc(size_t alignment, size_t size) { return memalign(alignment, size); }

int posix_memalign(void **at, size_t alignment, size_t size) {
    void *found = memalign(alignment, size);
    if (found == NULL) return ENOMEM;
    *at = found;
    return 0;
}

void free(void *at) {
    given_back(at);
    __libc_free(at);
}
