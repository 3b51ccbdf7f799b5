/* A library to be loaded before the C library: the allocation whose number STARVE_AT gives, counted from 1 once the
   program begins, finds no memory. Where it is reached, a byte is written to the descriptor 3. */
#include <errno.h>
#include <stdatomic.h>
#include <stddef.h>
#include <stdlib.h>
#include <unistd.h>

extern void *__libc_malloc(size_t), *__libc_calloc(size_t, size_t), *__libc_realloc(void *, size_t), *__libc_memalign(size_t, size_t);

static long wanted;
static atomic_long calls;

__attribute__((constructor)) static void begin(void) {
    const char *word = getenv("STARVE_AT");
    wanted = word ? atol(word) : 0;
}

static int starves(void) {
    if (wanted == 0 || atomic_fetch_add(&calls, 1) + 1 != wanted)
        return 0;
    if (write(3, "!", 1) != 1)
        _exit(99);
    errno = ENOMEM;
    return 1;
}

void *malloc(size_t size) { return starves() ? NULL : __libc_malloc(size); }
void *calloc(size_t count, size_t size) { return starves() ? NULL : __libc_calloc(count, size); }
void *realloc(void *old, size_t size) { return starves() ? NULL : __libc_realloc(old, size); }
void *memalign(size_t alignment, size_t size) { return starves() ? NULL : __libc_memalign(alignment, size); }
void *aligned_alloc(size_t alignment, size_t size) { return memalign(alignment, size); }

int posix_memalign(void **place, size_t alignment, size_t size) {
    void *taken = memalign(alignment, size);
    if (taken != NULL)
        *place = taken;
    return taken == NULL ? ENOMEM : 0;
}
