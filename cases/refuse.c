/* For test_memory.py, which has the program load it before the C library: refuses the allocation whose number, from 1, is in
   REFUSED, and all after it where REFUSE_REST is set. With no REFUSED it says at the end how many were asked for. */
#include "at_exit.h"

extern void *__libc_malloc(unsigned long);
extern void *__libc_realloc(void *, unsigned long);

static long asked, refused = -1;

static int refuses(void) {
    if (refused < 0)
        refused = getenv("REFUSED") ? atol(getenv("REFUSED")) : 0;
    long number = __atomic_add_fetch(&asked, 1, __ATOMIC_SEQ_CST);
    return refused > 0 && (number == refused || (number > refused && getenv("REFUSE_REST")));
}

void *malloc(unsigned long bytes) { return refuses() ? 0 : __libc_malloc(bytes); }

void *realloc(void *old, unsigned long bytes) { return refuses() ? 0 : __libc_realloc(old, bytes); }

static void tell(void) {
    if (refused <= 0)
        dprintf(2, "%ld", asked);
}
