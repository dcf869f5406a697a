/* Loaded before the C library, it counts the calls that ask for memory and has one of them fail: that of the number in
 * FAILING_CALL, counted from 1. It writes one byte to the descriptor in FAILING_MARK when it does, so that who started the
 * program knows that there was such a call. */
#include <errno.h>
#include <stddef.h>
#include <stdlib.h>
#include <unistd.h>

extern void *__libc_malloc(size_t);
extern void *__libc_calloc(size_t, size_t);
extern void *__libc_realloc(void *, size_t);
extern void *__libc_memalign(size_t, size_t);

static long calls, failing = -1;

static int fails(void) {
    if (failing < 0) {
        const char *number = getenv("FAILING_CALL");
        failing = number ? atol(number) : 0;
    }
    if (__sync_add_and_fetch(&calls, 1) != failing) return 0;
    const char *mark = getenv("FAILING_MARK");
    if (mark && write(atoi(mark), "!", 1) != 1) abort();
    errno = ENOMEM;
    return 1;
}

void *malloc(size_t size) { return fails() ? NULL : __libc_malloc(size); }
void *calloc(size_t count, size_t size) { return fails() ? NULL : __libc_calloc(count, size); }
void *realloc(void *old, size_t size) { return fails() ? NULL : __libc_realloc(old, size); }
void *aligned_alloc(size_t wide, size_t size) { return fails() ? NULL : __libc_memalign(wide, size); }
void *memalign(size_t wide, size_t size) { return fails() ? NULL : __libc_memalign(wide, size); }

int posix_memalign(void **found, size_t wide, size_t size) {
    if (fails()) return ENOMEM;
    *found = __libc_memalign(wide, size);
    return *found ? 0 : ENOMEM;
}
