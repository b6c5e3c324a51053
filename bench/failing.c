// Makes one allocation of a program fail: that with the number in FAIL_AT, from 1, over all threads. Where it was asked for,
// the file FAIL_MARK is made. bench/failing.py preloads it.
#define _GNU_SOURCE
#include <dlfcn.h>
#include <errno.h>
#include <fcntl.h>
#include <stdatomic.h>
#include <stdlib.h>
#include <unistd.h>

static atomic_long count;
static long fail_at;
static const char *mark;

__attribute__((constructor)) static void begin(void) {
    const char *at = getenv("FAIL_AT");
    mark = getenv("FAIL_MARK");
    fail_at = at ? atol(at) : 0;
    atomic_store(&count, 0);
}

static int fails(void) {
    if (!fail_at || atomic_fetch_add(&count, 1) + 1 != fail_at)
        return 0;
    int made = open(mark, O_CREAT | O_WRONLY, 0600);
    if (made >= 0)
        close(made);
    errno = ENOMEM;
    return 1;
}

extern void *__libc_malloc(size_t);
extern void *__libc_calloc(size_t, size_t);
extern void *__libc_realloc(void *, size_t);
extern void *__libc_memalign(size_t, size_t);

void *malloc(size_t size) {
    return fails() ? NULL : __libc_malloc(size);
}

void *calloc(size_t items, size_t size) {
    return fails() ? NULL : __libc_calloc(items, size);
}

void *realloc(void *old, size_t size) {
    return fails() ? NULL : __libc_realloc(old, size);
}

void *aligned_alloc(size_t alignment, size_t size) {
    return fails() ? NULL : __libc_memalign(alignment, size);
}

int posix_memalign(void **out, size_t alignment, size_t size) {
    if (fails())
        return ENOMEM;
    void *made = __libc_memalign(alignment, size);
    if (!made)
        return ENOMEM;
    *out = made;
    return 0;
}
