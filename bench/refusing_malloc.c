/* A library for LD_PRELOAD that refuses some allocations of a program. refused.py compiles and uses it.
 *
 * The allocations after the start of the program are counted from 1. Those with the numbers from REFUSED_FROM to
 * REFUSED_TO are refused, and for the first of them a byte is written to the descriptor REFUSED_TOLD. */
#include <errno.h>
#include <stddef.h>
#include <stdlib.h>
#include <unistd.h>

extern void *__libc_malloc(size_t size);
extern void *__libc_calloc(size_t count, size_t size);
extern void *__libc_realloc(void *old, size_t size);
extern void *__libc_memalign(size_t align, size_t size);

static unsigned long number, from, to;
static int told;

static unsigned long number_in(const char *name) {
    const char *text = getenv(name);
    return text ? strtoul(text, NULL, 10) : 0;
}

__attribute__((constructor)) static void begin(void) {
    told = (int)number_in("REFUSED_TOLD");
    to = number_in("REFUSED_TO");
    from = number_in("REFUSED_FROM");
    number = 0;
}

/* Whether the next allocation is refused. */
static int is_refused(void) {
    number++;
    if (from == 0 || number < from || number > to)
        return 0;
    if (number == from && write(told, "r", 1) != 1)
        abort();
    errno = ENOMEM;
    return 1;
}

void *malloc(size_t size) { return is_refused() ? NULL : __libc_malloc(size); }

void *calloc(size_t count, size_t size) { return is_refused() ? NULL : __libc_calloc(count, size); }

void *realloc(void *old, size_t size) { return is_refused() ? NULL : __libc_realloc(old, size); }

void *memalign(size_t align, size_t size) { return is_refused() ? NULL : __libc_memalign(align, size); }

void *aligned_alloc(size_t align, size_t size) { return is_refused() ? NULL : __libc_memalign(align, size); }

int posix_memalign(void **place, size_t align, size_t size) {
    void *made = is_refused() ? NULL : __libc_memalign(align, size);
    if (made == NULL)
        return ENOMEM;
    *place = made;
    return 0;
}
