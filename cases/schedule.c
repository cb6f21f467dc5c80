/* For test_schedules.py, which has the program load it before the C library: one thread runs at a time, and the number in
   SEED decides which goes on. Threads change places where one starts, ends, joins, yields, waits for a word of memory or
   wakes those that wait, and after a number of the program's own instructions that is drawn by chance: so a thread can be
   stopped between any two of them, inside a locked section and inside a step of the queue. Where one thread alone can go on,
   there is nothing to choose, and it runs at full speed.

   The program's locks and queues are its own instructions, with no call to stand between; what they call is `syscall` for
   futex, `sched_yield` and the functions of pthreads. The instructions of libraries aren't counted: a thread is never
   stopped inside of one, where it may hold a lock that isn't seen here. A wait with a limit of time ends early only where
   no thread can go on. What the processor itself may do out of order is not played, since one thread runs at a time. */
typedef unsigned long word;

extern char *getenv(const char *);
extern long atol(const char *);
extern int dprintf(int, const char *, ...);
extern int *__errno_location(void);
extern void *dlsym(void *, const char *);

struct segment {
    unsigned type, flags;
    word offset, address, physical, bytes, memory, align;
};

struct object {
    word base;
    const char *name;
    const struct segment *segments;
    unsigned short count;
};

extern int dl_iterate_phdr(int (*)(struct object *, word, void *), void *);

struct action {
    void (*handler)(int, int *, void *);
    word mask[16];
    int flags;
    void (*restorer)(void);
};

extern int sigaction(int, const struct action *, struct action *);

/* the numbers of the system's calls, of their operations, of errors and of signals */
enum { FUTEX = 202, EXIT_GROUP = 231 };
enum { WAIT = 0, WAKE = 1, WAIT_BITS = 9, WAKE_BITS = 10, PRIVATE = 128 };
enum { AGAIN = 11, TIMED_OUT = 110 };
enum { TRAP = 5, CODE = 2, IS_STEP = 2, WITH_CONTEXT = 4 };
/* a loaded part of a program that can be run, the word of flags that has the processor stop after each instruction */
enum { LOADED = 1, RUNS = 1, STEPS = 0x100 };
/* where a context has its registers, and which of them are the place and the flags */
enum { REGISTERS = 5, PLACE = 16, FLAGS = 17 };
/* how the program ends where no thread can go on */
enum { STUCK = 86 };
/* the most threads; the most that a power of two is drawn for how many instructions a thread goes on */
enum { MOST = 256, POWERS = 13 };

enum state { NONE, READY, ASLEEP, JOINING, OVER };

struct thread {
    enum state state;
    /* 1 where it is its turn */
    int turn;
    /* the word of memory that it waits for, whether for a time alone, and whether that time was over */
    word at;
    int timed, late;
    /* the thread that it joins */
    int joined;
    word handle;
    void *(*start)(void *);
    void *argument;
};

static struct thread threads[MOST] = {{READY, 1, 0, 0, 0, 0, 0, 0, 0}};
static int count = 1;
static long left;
static word chance, from, until;
static __thread int self;

static int (*create)(word *, const void *, void *(*)(void *), void *);
static int (*join)(word, void **);

/* ---- the system */

static long call(long number, long a, long b, long c, long d, long e, long f) {
    register long r10 __asm__("r10") = d;
    register long r8 __asm__("r8") = e;
    register long r9 __asm__("r9") = f;
    long result;
    __asm__ volatile("syscall"
                     : "=a"(result)
                     : "a"(number), "D"(a), "S"(b), "d"(c), "r"(r10), "r"(r8), "r"(r9)
                     : "rcx", "r11", "memory");
    return result;
}

/* an instruction over the flags, below what the function may keep under its stack */
#define OVER_FLAGS(instruction) "lea -128(%%rsp), %%rsp; pushfq; " instruction ", (%%rsp); popfq; lea 128(%%rsp), %%rsp"

/* Has the processor stop after each instruction of this thread, from here on. */
static void step(void) { __asm__ volatile(OVER_FLAGS("orq %0") : : "i"(STEPS) : "memory", "cc"); }

/* Has it stop no more. */
static void run(void) { __asm__ volatile(OVER_FLAGS("andq %0") : : "i"(~STEPS) : "memory", "cc"); }

static long failed(int error) {
    *__errno_location() = error;
    return -1;
}

/* ---- the choices */

/* A number below the bound, by xorshift. */
static word drawn(word bound) {
    chance ^= chance << 13;
    chance ^= chance >> 7;
    chance ^= chance << 17;
    return (chance >> 11) % bound;
}

static int ready(void) {
    int found = 0;
    for (int i = 0; i < count; i++)
        found += threads[i].state == READY;
    return found;
}

/* A thread that can go on; where there is none, one whose time is over. */
static int chosen(void) {
    int among = ready();
    if (among) {
        long number = (long)drawn(among);
        for (int i = 0; i < count; i++)
            if (threads[i].state == READY && number-- == 0)
                return i;
    }
    for (int i = 0; i < count; i++)
        if (threads[i].state == ASLEEP && threads[i].timed) {
            threads[i].state = READY;
            threads[i].late = 1;
            return i;
        }
    dprintf(2, "schedule: no thread can go on\n");
    call(EXIT_GROUP, STUCK, 0, 0, 0, 0, 0);
    return 0;
}

/* Lets a thread that is chosen run. */
static void hand_on(void) {
    left = 1 + (long)drawn(1UL << drawn(POWERS + 1));
    int next = chosen();
    __atomic_store_n(&threads[next].turn, 1, __ATOMIC_SEQ_CST);
    if (next != self)
        call(FUTEX, (long)&threads[next].turn, WAKE | PRIVATE, 1, 0, 0, 0);
}

static void await_turn(void) {
    while (!__atomic_load_n(&threads[self].turn, __ATOMIC_SEQ_CST))
        call(FUTEX, (long)&threads[self].turn, WAIT | PRIVATE, 0, 0, 0, 0);
}

/* Another thread may run now. */
static void change(void) {
    __atomic_store_n(&threads[self].turn, 0, __ATOMIC_SEQ_CST);
    hand_on();
    await_turn();
}

/* The same, at a call of the program. */
static void change_and_step(void) {
    if (count > 1)
        change();
    if (ready() > 1)
        step();
}

/* After an instruction. */
static void stepped(int signal, int *info, void *context) {
    (void)signal;
    word *registers = (word *)context + REGISTERS;
    if (info[CODE] != IS_STEP)
        /* the program's own: since the signal is held back here, it ends the program */
        __asm__ volatile("int3");
    if (registers[PLACE] - from < until - from && --left <= 0)
        change();
    if (ready() == 1)
        registers[FLAGS] &= ~(word)STEPS;
}

/* ---- what the program calls */

static void *body(void *argument) {
    self = (int)(long)argument;
    await_turn();
    struct thread *it = &threads[self];
    if (ready() > 1)
        step();
    void *result = it->start(it->argument);
    run();
    it->state = OVER;
    for (int i = 0; i < count; i++)
        if (threads[i].state == JOINING && threads[i].joined == self)
            threads[i].state = READY;
    hand_on();
    return result;
}

int pthread_create(word *handle, const void *attributes, void *(*start)(void *), void *argument) {
    run();
    if (count == MOST)
        return AGAIN;
    int number = count++;
    threads[number] = (struct thread){READY, 0, 0, 0, 0, 0, 0, start, argument};
    int error = create(handle, attributes, body, (void *)(long)number);
    if (error) {
        count--;
        return error;
    }
    threads[number].handle = *handle;
    change_and_step();
    return 0;
}

int pthread_join(word handle, void **result) {
    run();
    for (int i = count - 1; i > 0; i--)
        if (threads[i].handle == handle && threads[i].state != NONE) {
            threads[self].joined = i;
            while (threads[i].state != OVER) {
                threads[self].state = JOINING;
                change_and_step();
            }
            int error = join(handle, result);
            threads[i].state = NONE;
            change_and_step();
            return error;
        }
    return join(handle, result);
}

int sched_yield(void) {
    run();
    change_and_step();
    return 0;
}

static long sleeps(word at, int expected, int timed) {
    if (__atomic_load_n((int *)at, __ATOMIC_SEQ_CST) != expected) {
        change_and_step();
        return failed(AGAIN);
    }
    struct thread *it = &threads[self];
    it->state = ASLEEP;
    it->at = at;
    it->timed = timed;
    it->late = 0;
    change_and_step();
    return it->late ? failed(TIMED_OUT) : 0;
}

/* Wakes so many of those that wait for the word, by chance. */
static long wakes(word at, long most) {
    long woken = 0;
    for (; woken < most; woken++) {
        int asleep = 0;
        for (int i = 0; i < count; i++)
            asleep += threads[i].state == ASLEEP && threads[i].at == at;
        if (!asleep)
            break;
        long number = (long)drawn(asleep);
        for (int i = 0; i < count; i++)
            if (threads[i].state == ASLEEP && threads[i].at == at && number-- == 0)
                threads[i].state = READY;
    }
    change_and_step();
    return woken;
}

long syscall(long number, long a, long b, long c, long d, long e, long f) {
    run();
    if (number == FUTEX)
        switch (b & (PRIVATE - 1)) {
        case WAIT:
        case WAIT_BITS:
            return sleeps(a, (int)c, d != 0);
        case WAKE:
        case WAKE_BITS:
            return wakes(a, c);
        }
    long result = call(number, a, b, c, d, e, f);
    return result < 0 && result > -4096 ? failed((int)-result) : result;
}

/* ---- the beginning */

/* Takes the place of what can be run of the program itself, which comes first. */
static int place(struct object *object, word bytes, void *none) {
    for (int i = 0; i < object->count; i++) {
        const struct segment *it = &object->segments[i];
        if (it->type == LOADED && it->flags & RUNS) {
            from = object->base + it->address;
            until = from + it->memory;
        }
    }
    return 1;
}

__attribute__((constructor)) static void begin(void) {
    void *const next = (void *)-1;
    create = (int (*)(word *, const void *, void *(*)(void *), void *))dlsym(next, "pthread_create");
    join = (int (*)(word, void **))dlsym(next, "pthread_join");
    chance = (word)(getenv("SEED") ? atol(getenv("SEED")) : 0) * 2 + 0x9e3779b97f4a7c15;
    for (int i = 0; i < 8; i++)
        drawn(1);
    dl_iterate_phdr(place, 0);
    struct action trap = {stepped, {0}, WITH_CONTEXT, 0};
    sigaction(TRAP, &trap, 0);
}
