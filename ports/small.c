/* A small program for the tests of the shims (test_shims.py): it does what its first word says. It is compiled for Linux x86-64
   without that system's headers, as the program's module is, and then made for each system as the program is. */
typedef long long int64_t;
typedef unsigned long long uint64_t;

int64_t rattle_arg(uint64_t at, unsigned char *to, uint64_t room);
int rattle_errno(void);
int64_t read(int file, void *to, uint64_t room), write(int file, const void *from, uint64_t bytes);
int isatty(int file);
int64_t syscall(int64_t number, void *at, int64_t what, int64_t value, const void *most, ...);
int pthread_create(int64_t *out, const void *attributes, void *(*start)(void *), void *given);
int pthread_join(int64_t thread, void **result);
/* {1, where} or {0, some place} */
struct answer { int64_t is_there, at; } rattle_alloc(uint64_t size, uint64_t align);
struct answer rattle_realloc(void *at, uint64_t old, uint64_t size, uint64_t align);
_Noreturn void abort(void);

#define SYS_FUTEX 202
#define FUTEX_WAIT_PRIVATE 128
#define FUTEX_WAKE_PRIVATE 129
/* no file has this number */
#define NOT_OPEN 77
/* what a word may have of bytes */
#define ROOM 8
/* no system has so many bytes */
#define TOO_MANY (1ull << 62)
/* what one call takes of the stack at least, in bytes, and how many of them fit into the 8 MB of each thread with room to spare */
#define FRAME 1024
#define FITS 7000
#define WITHOUT_END (1 << 30)
/* exit statuses: no other system's way to end has them */
#define YES 40
#define NO 41

static int sunk(int deep)
{
    volatile char room[FRAME];
    room[deep % FRAME] = 1;
    return deep ? sunk(deep - 1) + room[deep % FRAME] : 0;
}

static void *sink(void *given)
{
    sunk(*(int *)given);
    return given;
}

static int in_a_thread(int deep)
{
    int64_t thread;
    void *result = 0;
    if (pthread_create(&thread, 0, sink, &deep) || pthread_join(thread, &result))
        return NO;
    return result == &deep ? YES : NO;
}

static volatile int woken;

static void *wake(void *given)
{
    (void)given;
    woken = 1;
    syscall(SYS_FUTEX, (void *)&woken, FUTEX_WAKE_PRIVATE, 1, 0);
    return 0;
}

/* waits until another thread has changed a word */
static int waited(void)
{
    int64_t thread;
    if (pthread_create(&thread, 0, wake, 0))
        return NO;
    while (!woken)
        syscall(SYS_FUTEX, (void *)&woken, FUTEX_WAIT_PRIVATE, 0, 0);
    return pthread_join(thread, 0) ? NO : YES;
}

/* waits for a millisecond, in which nobody wakes it */
static int waited_in_vain(void)
{
    int word = 0;
    int64_t most[2] = {0, 1000000};
    return syscall(SYS_FUTEX, &word, FUTEX_WAIT_PRIVATE, 0, most) == -1 ? rattle_errno() : NO;
}

static int copied(void)
{
    char room[ROOM];
    int64_t got;
    while ((got = read(0, room, ROOM)) > 0)
        if (write(1, room, (uint64_t)got) != got)
            return NO;
    return got ? rattle_errno() : YES;
}

/* A number becomes a pointer in memory alone, as in the toolchain's modules. */
static volatile char *place(int64_t at)
{
    volatile int64_t kept = at;
    return *(volatile char *volatile *)&kept;
}

static int allocated(void)
{
    struct answer few = rattle_alloc(ROOM, ROOM), none = rattle_alloc(TOO_MANY, ROOM);
    if (!few.is_there || none.is_there)
        return NO;
    *place(few.at) = 'x';
    struct answer more = rattle_realloc((void *)place(few.at), ROOM, FRAME, ROOM);
    return more.is_there && *place(more.at) == 'x' ? YES : NO;
}

static int written_to_no_file(void)
{
    return write(NOT_OPEN, "x", 1) == -1 ? rattle_errno() : NO;
}

int main(void)
{
    unsigned char word[ROOM];
    int64_t length = rattle_arg(1, word, ROOM);
    if (length < 0)
        return YES - (int)length;
    switch (word[0]) {
    case 'a': abort();
    case 't': __builtin_trap();
    case 's': return sunk(WITHOUT_END);
    case 'S': return in_a_thread(WITHOUT_END);
    case 'd': return sunk(FITS) == FITS ? YES : NO;
    case 'D': return in_a_thread(FITS);
    case 'w': return waited();
    case 'v': return waited_in_vain();
    case 'c': return copied();
    case 'm': return allocated();
    case 'x': return written_to_no_file();
    case 'i': return isatty(0) || isatty(1) ? NO : YES;
    case '3': return 3;
    default: return (int)length;
    }
}
