// Refuses one allocation of a program before which it is loaded: the Nth call of malloc or realloc, counted from 1, where
// REFUSED_ALLOCATION is N; with REFUSED_ONWARD all behind it too. It writes a byte to the handle REFUSED_TOLD where it refuses.
#include <errno.h>
#include <stdatomic.h>
#include <stddef.h>
#include <stdlib.h>
#include <unistd.h>

extern void *__libc_malloc(size_t size);
extern void *__libc_realloc(void *held, size_t size);

// How many calls are left until one is refused; 0 and less where none is.
static atomic_long left = -1;
static atomic_int refused;
static int told = -1;
static int onward;

__attribute__((constructor)) static void begin(void) {
    const char *number = getenv("REFUSED_ALLOCATION"), *handle = getenv("REFUSED_TOLD");
    told = handle ? atoi(handle) : -1;
    onward = getenv("REFUSED_ONWARD") != NULL;
    if (number)
        atomic_store(&left, atol(number));
}

static int is_refused(void) {
    long before = atomic_load(&left) > 0 ? atomic_fetch_sub(&left, 1) : 0;
    if (before != 1 && !(onward && atomic_load(&refused)))
        return 0;
    if (atomic_exchange(&refused, 1) == 0 && told >= 0 && write(told, "x", 1) != 1)
        abort();
    errno = ENOMEM;
    return 1;
}

void *malloc(size_t size) {
    return is_refused() ? NULL : __libc_malloc(size);
}

void *realloc(void *held, size_t size) {
    return is_refused() ? NULL : __libc_realloc(held, size);
}
