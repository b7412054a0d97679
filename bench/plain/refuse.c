// Preloaded by `refused_memory`: the call of malloc, calloc, realloc or an aligned form with the number REFUSED fails,
// and where REFUSED_ON is set all later ones too. A byte is written to the open file REFUSED_FILE when the first does.
#include <errno.h>
#include <stddef.h>
#include <stdlib.h>
#include <unistd.h>

extern void *__libc_malloc(size_t size);
extern void *__libc_calloc(size_t count, size_t size);
extern void *__libc_realloc(void *old, size_t size);
extern void *__libc_memalign(size_t alignment, size_t size);

static long calls;

static int is_refused(void) {
    static long refused = -1, on;
    static int file;
    if (refused < 0) {
        const char *number = getenv("REFUSED"), *told = getenv("REFUSED_FILE");
        refused = number ? atol(number) : 0;
        file = told ? atoi(told) : -1;
        on = getenv("REFUSED_ON") != NULL;
    }
    calls++;
    if (refused == 0 || calls < refused || (calls > refused && !on)) return 0;
    if (calls == refused && write(file, "x", 1) != 1) _exit(99);
    errno = ENOMEM;
    return 1;
}

void *malloc(size_t size) { return is_refused() ? NULL : __libc_malloc(size); }

void *calloc(size_t count, size_t size) { return is_refused() ? NULL : __libc_calloc(count, size); }

void *realloc(void *old, size_t size) { return is_refused() ? NULL : __libc_realloc(old, size); }

void *memalign(size_t alignment, size_t size) { return is_refused() ? NULL : __libc_memalign(alignment, size); }

void *aligned_alloc(size_t alignment, size_t size) { return memalign(alignment, size); }

int posix_memalign(void **place, size_t alignment, size_t size) {
    *place = memalign(alignment, size);
    return *place ? 0 : ENOMEM;
}
