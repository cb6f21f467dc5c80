/* What the program's object file needs on Linux arm64 beside glibc. Linked with -Wl,--wrap=main,--wrap=syscall. */
#include <errno.h>
#include <signal.h>
#include <stddef.h>
#include <stdint.h>
#include <stdlib.h>
#include <sys/syscall.h>

#include "memory.h"
#include "not_x86.h"
#include "words.h"

/* the number of the futex on x86-64: a module that was lowered for that processor calls it by this one */
#define FUTEX_OF_X86 202

int __real_main(void);
long __real_syscall(long number, ...);

int __wrap_main(int argc, char **argv)
{
    word_count = argc;
    word_list = argv;
    return __real_main();
}

/* the program makes no other call by its number */
long __wrap_syscall(long number, void *at, long what, long value, void *most)
{
    if (number != FUTEX_OF_X86 && number != SYS_futex)
        abort();
    return __real_syscall(SYS_futex, at, what, value, most);
}

int rattle_errno(void)
{
    return errno;
}

void rattle_set_errno(int to)
{
    errno = to;
}

struct answer rattle_alloc(uint64_t size, uint64_t align)
{
    return answer_of(malloc(size_of(size, align)));
}

struct answer rattle_realloc(void *at, uint64_t old, uint64_t size, uint64_t align)
{
    (void)old;
    return answer_of(realloc(at, size_of(size, align)));
}

void rattle_dealloc(void *at)
{
    free(at);
}

void (*__sysv_signal(int which, void (*how)(int)))(int)
{
    return signal(which, how);
}
