/* What the program's object file needs under WASI (preview 1): one thread, and no files but the three that are open.

   The module was lowered for Linux x86-64: numbers of errors are Linux's, and sizes have 64 bits. Names that WASI's C library
   has with other types are called shim_NAME in the module. */
#include <errno.h>
#include <stdint.h>
#include <stdlib.h>
#include <string.h>
#include <unistd.h>

#include "memory.h"
#include "not_x86.h"
#include "words.h"

/* Linux's numbers */
#define LINUX_ENOENT 2
#define LINUX_EIO 5
#define LINUX_EAGAIN 11
#define LINUX_ERANGE 34
#define SC_NPROCESSORS_ONLN 84
#define SYS_FUTEX 202
#define FUTEX_WAIT_PRIVATE 128
#define FUTEX_WAKE_PRIVATE 129
#define ATTRIBUTES_SIZE 56

/* how much is read or written at once, in bytes */
#define MOST_BYTES (1u << 30)

/* ---- errors: WASI's number, Linux's number, and glibc's text */

static const struct {
    int here;
    int there;
    const char *text;
} ERRORS[] = {
    {EPERM, 1, "Operation not permitted"}, {EINTR, 4, "Interrupted system call"},
    {EIO, LINUX_EIO, "Input/output error"}, {EBADF, 9, "Bad file descriptor"},
    {EAGAIN, LINUX_EAGAIN, "Resource temporarily unavailable"}, {ENOMEM, 12, "Cannot allocate memory"},
    {EISDIR, 21, "Is a directory"}, {EINVAL, 22, "Invalid argument"},
    {EFBIG, 27, "File too large"}, {ENOSPC, 28, "No space left on device"},
    {EPIPE, 32, "Broken pipe"},
};
#define COUNT (sizeof ERRORS / sizeof *ERRORS)

static int last_error;

/* the result of a call, whose error is kept */
static int64_t done(int64_t result)
{
    if (result >= 0)
        return result;
    last_error = LINUX_EIO;
    for (size_t at = 0; at < COUNT; at++)
        if (ERRORS[at].here == errno)
            last_error = ERRORS[at].there;
    return result;
}

int rattle_errno(void)
{
    return last_error;
}

void rattle_set_errno(int to)
{
    last_error = to;
}

int __xpg_strerror_r(int which, char *to, uint64_t room)
{
    const char *text = "Unknown error";
    for (size_t at = 0; at < COUNT; at++)
        if (ERRORS[at].there == which)
            text = ERRORS[at].text;
    if (strlen(text) >= room)
        return LINUX_ERANGE;
    strcpy(to, text);
    return 0;
}

/* ---- memory */

struct answer rattle_alloc(uint64_t size, uint64_t align)
{
    return answer_of(malloc(size_of(size, align)));
}

struct answer rattle_realloc(void *at, uint64_t old, uint64_t size, uint64_t align)
{
    (void)old;
    return answer_of(realloc(at, size_of(size, align)));
}

void rattle_dealloc(void *at)
{
    free(at);
}

void *shim_malloc(uint64_t size)
{
    return malloc(size_of(size, 1));
}

void shim_free(void *at)
{
    free(at);
}

/* ---- files */

static size_t most_of(uint64_t room)
{
    return room > MOST_BYTES ? MOST_BYTES : (size_t)room;
}

int64_t shim_read(int file, void *to, uint64_t room)
{
    return done(read(file, to, most_of(room)));
}

int64_t shim_write(int file, const void *from, uint64_t bytes)
{
    return done(write(file, from, most_of(bytes)));
}

int64_t __write(int file, const void *from, uint64_t bytes)
{
    return shim_write(file, from, bytes);
}

int64_t shim_lseek(int file, int64_t by, int from)
{
    return done(lseek(file, by, from));
}

int shim_close(int file)
{
    return (int)done(close(file));
}

int shim_isatty(int file)
{
    return isatty(file);
}

/* the program opens only files in which Linux tells of its processors */
int shim_open(const char *path, int flags, ...)
{
    (void)path, (void)flags;
    last_error = LINUX_ENOENT;
    return -1;
}

/* ---- one processor and one thread */

int64_t shim_sysconf(int which)
{
    return which == SC_NPROCESSORS_ONLN ? 1 : -1;
}

int shim_sched_getaffinity(int process, uint64_t bytes, void *mask)
{
    (void)process, (void)bytes, (void)mask;
    return -1;
}

int shim_nanosleep(const void *wanted, void *left)
{
    (void)wanted, (void)left;
    return 0;
}

int shim_sched_yield(void)
{
    return 0;
}

/* the futex: who waits for another thread would wait for ever */
int64_t shim_syscall(int64_t number, void *at, int64_t what, int64_t value, void *most, ...)
{
    (void)most;
    if (number == SYS_FUTEX && what == FUTEX_WAKE_PRIVATE)
        return 0;
    if (number != SYS_FUTEX || what != FUTEX_WAIT_PRIVATE || *(uint32_t *)at == (uint32_t)value)
        abort();
    last_error = LINUX_EAGAIN;
    return -1;
}

int shim_pthread_create(void *out, const void *attributes, void *start, void *given)
{
    (void)out, (void)attributes, (void)start, (void)given;
    return LINUX_EAGAIN;
}

int shim_pthread_attr_init(void *attributes)
{
    memset(attributes, 0, ATTRIBUTES_SIZE);
    return 0;
}

int shim_pthread_attr_setguardsize(void *attributes, uint64_t size)
{
    (void)attributes, (void)size;
    return 0;
}

int shim_pthread_attr_setstacksize(void *attributes, uint64_t size)
{
    (void)attributes, (void)size;
    return 0;
}

int shim_pthread_attr_destroy(void *attributes)
{
    (void)attributes;
    return 0;
}

int64_t shim_pthread_self(void)
{
    return 0;
}

int shim_pthread_detach(int64_t thread)
{
    (void)thread;
    abort();
}

int shim_pthread_join(int64_t thread, void *result)
{
    (void)thread, (void)result;
    abort();
}

int64_t __sysv_signal(int which, int64_t how)
{
    (void)which, (void)how;
    return 0;
}

/* ---- the beginning and the end */

void shim_abort(void)
{
    abort();
}

void shim__exit(int status)
{
    _Exit(status);
}

int shim_main(void);

int main(int argc, char **argv)
{
    word_count = argc;
    word_list = argv;
    return shim_main();
}
