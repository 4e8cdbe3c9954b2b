// Refuses one allocation of a program: of those that follow a request for 2^62 + N bytes, the Nth. After one for 2^62 none is refused.
//
//   gcc -O2 -shared -fPIC -o refuse.so examples/refuse.c
//   LD_PRELOAD=./refuse.so PROGRAM ..
//
// A request for so many bytes is answered with none, as it is without this library. `examples/refusals.sh` runs the programs that ask so.
#define _GNU_SOURCE
#include <dlfcn.h>
#include <stddef.h>

#define NOWHERE ((size_t)1 << 62)

// How many allocations are left up to the one that is refused; 0 where none is.
static size_t left;

static int is_refused(size_t size) {
    if (size >= NOWHERE && size - NOWHERE < NOWHERE / 2) {
        left = size - NOWHERE;
        return 1;
    }
    return left != 0 && --left == 0;
}

void *malloc(size_t size) {
    static void *(*next)(size_t);
    if (!next)
        next = (void *(*)(size_t))dlsym(RTLD_NEXT, "malloc");
    return is_refused(size) ? NULL : next(size);
}

void *realloc(void *block, size_t size) {
    static void *(*next)(void *, size_t);
    if (!next)
        next = (void *(*)(void *, size_t))dlsym(RTLD_NEXT, "realloc");
    return is_refused(size) ? NULL : next(block, size);
}
