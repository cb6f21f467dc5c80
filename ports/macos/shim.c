/* What the program's object file needs on macOS arm64. Nothing of Apple's is included, since its headers aren't at hand: what
   is called is declared here, and libSystem.tbd names it for the linker. Nobody has run this.

   The module was lowered for Linux: numbers of errors, calls and options are Linux's, and structures have glibc's layout. Its
   calls of these names are called shim_NAME. */
#include "memory.h"
#include "not_x86.h"
#include "words.h"

typedef long long int64_t;
typedef unsigned long long uint64_t;
typedef unsigned int uint32_t;
typedef unsigned long size_t;
typedef long ssize_t;

void *malloc(size_t), *realloc(void *, size_t);
void free(void *), abort(void);
ssize_t read(int, void *, size_t), write(int, const void *, size_t);
int64_t lseek(int, int64_t, int);
int close(int), isatty(int), nanosleep(const void *, void *), sched_yield(void);
int strerror_r(int, char *, size_t), *__error(void);
long sysconf(int);
void (*signal(int, void (*)(int)))(int);
int pthread_create(void **, const void *, void *(*)(void *), void *), pthread_detach(void *), pthread_join(void *, void **);
void *pthread_self(void);
int pthread_attr_init(void *), pthread_attr_setstacksize(void *, size_t), pthread_attr_destroy(void *);
int pthread_mutex_lock(void *), pthread_mutex_unlock(void *), pthread_cond_wait(void *, void *), pthread_cond_broadcast(void *);
int pthread_cond_timedwait_relative_np(void *, void *, const void *);

/* the stack of a thread, in bytes: there are 512 KiB where nothing else is asked for */
#define STACK (8ul << 20)

/* how much is read or written at once, in bytes */
#define MOST_BYTES (1ul << 30)

/* macOS's numbers, and Linux's where they differ */
#define ENOENT 2
#define EAGAIN 35
#define LINUX_EAGAIN 11
#define ETIMEDOUT 60
#define LINUX_ETIMEDOUT 110
#define SC_NPROCESSORS_ONLN 58
#define LINUX_SC_NPROCESSORS_ONLN 84
#define SYS_FUTEX 202
#define FUTEX_WAIT_PRIVATE 128
#define FUTEX_WAKE_PRIVATE 129

/* ---- errors: those below 35 are the same, but for EAGAIN */

static int linux_of(int error)
{
    return error == EAGAIN ? LINUX_EAGAIN : error == ETIMEDOUT ? LINUX_ETIMEDOUT : error;
}

static int macos_of(int error)
{
    return error == LINUX_EAGAIN ? EAGAIN : error == LINUX_ETIMEDOUT ? ETIMEDOUT : error;
}

int rattle_errno(void)
{
    return linux_of(*__error());
}

void rattle_set_errno(int to)
{
    *__error() = macos_of(to);
}

int __xpg_strerror_r(int error, char *to, uint64_t room)
{
    return strerror_r(macos_of(error), to, room);
}

/* ---- memory */

struct answer rattle_alloc(uint64_t size, uint64_t align)
{
    return answer_of(malloc(size_of(size, align)));
}

struct answer rattle_realloc(void *at, uint64_t old, uint64_t size, uint64_t align)
{
    (void)old;
    return answer_of(realloc(at, size_of(size, align)));
}

void rattle_dealloc(void *at)
{
    free(at);
}

/* ---- files */

static size_t most_of(uint64_t room)
{
    return room > MOST_BYTES ? MOST_BYTES : room;
}

int64_t shim_read(int file, void *to, uint64_t room)
{
    return read(file, to, most_of(room));
}

int64_t shim_write(int file, const void *from, uint64_t bytes)
{
    return write(file, from, most_of(bytes));
}

int64_t __write(int file, const void *from, uint64_t bytes)
{
    return shim_write(file, from, bytes);
}

int64_t shim_lseek(int file, int64_t by, int from)
{
    return lseek(file, by, from);
}

int shim_close(int file)
{
    return close(file);
}

int shim_isatty(int file)
{
    return isatty(file);
}

/* the program opens only files in which Linux tells of its processors */
int shim_open(const char *path, int flags, ...)
{
    (void)path, (void)flags;
    *__error() = ENOENT;
    return -1;
}

/* ---- processors and time */

int64_t shim_sysconf(int which)
{
    return which == LINUX_SC_NPROCESSORS_ONLN ? sysconf(SC_NPROCESSORS_ONLN) : -1;
}

int shim_sched_getaffinity(int process, uint64_t bytes, void *mask)
{
    (void)process, (void)bytes, (void)mask;
    return -1;
}

int shim_nanosleep(const void *wanted, void *left)
{
    return nanosleep(wanted, left);
}

int shim_sched_yield(void)
{
    return sched_yield();
}

/* ---- threads */

struct linux_timespec {
    int64_t seconds;
    int64_t nanoseconds;
};

/* a wait of more than a month has no end; one without an end has 2^63 seconds */
#define MONTH 4000000

/* The futex: one lock and one condition for all words. Who wakes has changed the word before, and takes the lock here. */
static struct { int64_t signature; char room[56]; } lock = {0x32AAABA7, {0}};
static struct { int64_t signature; char room[40]; } changed = {0x3CB0B1BB, {0}};

int64_t shim_syscall(int64_t number, void *at, int64_t what, int64_t value, const struct linux_timespec *most)
{
    if (number != SYS_FUTEX || (what != FUTEX_WAIT_PRIVATE && what != FUTEX_WAKE_PRIVATE))
        abort();
    pthread_mutex_lock(&lock);
    if (what == FUTEX_WAKE_PRIVATE)
        pthread_cond_broadcast(&changed);
    else if (*(volatile uint32_t *)at == (uint32_t)value) {
        if (most && most->seconds < MONTH)
            pthread_cond_timedwait_relative_np(&changed, &lock, most);
        else
            pthread_cond_wait(&changed, &lock);
    }
    pthread_mutex_unlock(&lock);
    return 0;
}

/* (attributes take 64 bytes, where glibc's take 56) */
int shim_pthread_create(void **out, const void *attributes, void *(*start)(void *), void *given)
{
    int64_t own[16];
    (void)attributes;
    if (pthread_attr_init(own) || pthread_attr_setstacksize(own, STACK))
        return LINUX_EAGAIN;
    int error = pthread_create(out, own, start, given);
    pthread_attr_destroy(own);
    return linux_of(error);
}

int64_t shim_pthread_self(void)
{
    return (int64_t)pthread_self();
}

int shim_pthread_detach(void *thread)
{
    return pthread_detach(thread);
}

int shim_pthread_join(void *thread, void **result)
{
    return pthread_join(thread, result);
}

int shim_pthread_attr_init(void *attributes)
{
    (void)attributes;
    return 0;
}

int shim_pthread_attr_setguardsize(void *attributes, uint64_t size)
{
    (void)attributes, (void)size;
    return 0;
}

int shim_pthread_attr_setstacksize(void *attributes, uint64_t size)
{
    (void)attributes, (void)size;
    return 0;
}

int shim_pthread_attr_destroy(void *attributes)
{
    (void)attributes;
    return 0;
}

int64_t __sysv_signal(int which, int64_t how)
{
    return (int64_t)signal(which, (void (*)(int))how);
}

/* ---- the beginning */

int shim_main(void);

int main(int argc, char **argv)
{
    word_count = argc;
    word_list = argv;
    return shim_main();
}
