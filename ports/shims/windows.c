/* What the program's object file needs of a C library on Windows x86-64 (8 or later).

   The module was lowered for Linux: numbers of errors, calls and options below are Linux's, and structures have glibc's
   layout. Names that Windows' C library has with other types are called shim_NAME in the module. */
#define WIN32_LEAN_AND_MEAN
#define _WIN32_WINNT 0x0602
#include <windows.h>

#include <errno.h>
#include <fcntl.h>
#include <io.h>
#include <shellapi.h>
#include <stdint.h>
#include <stdio.h>
#include <stdlib.h>
#include <string.h>

#include "memory.h"
#include "words.h"
#include "x86.h"

/* A signal that ends the program on Linux ends it so here: 128 + SIGABRT. msvcrt's abort() would end it with 3, which is an
   answer of the program. */
#define ABORTED 134

/* the stack of a thread, in bytes */
#define STACK (8u << 20)

/* how much is read or written at once, in bytes */
#define MOST_BYTES (1u << 30)

/* Linux's numbers */
#define LINUX_ETIMEDOUT 110
#define SC_NPROCESSORS_ONLN 84
#define SYS_FUTEX 202
#define FUTEX_WAIT_PRIVATE 128
#define FUTEX_WAKE_PRIVATE 129
#define ATTRIBUTES_SIZE 56

__declspec(noreturn) void abort(void)
{
    TerminateProcess(GetCurrentProcess(), ABORTED);
    for (;;)
        ;
}

/* exceptions of this number and beyond are errors; others tell a debugger something */
#define FIRST_ERROR 0xC0000000

/* What goes wrong, as llvm.trap's instruction or a stack that is full: no dialogue, and the same status for each. Windows asks
   this first, and looks for no other handler along a stack that is full. */
static LONG CALLBACK ended(EXCEPTION_POINTERS *what)
{
    if (what->ExceptionRecord->ExceptionCode >= FIRST_ERROR)
        abort();
    return EXCEPTION_CONTINUE_SEARCH;
}

/* ---- memory */

void alloc_to(uint64_t size, uint64_t align, struct answer *out)
{
    *out = answer_of(malloc(size_of(size, align)));
}

void realloc_to(void *at, uint64_t old, uint64_t size, uint64_t align, struct answer *out)
{
    (void)old;
    *out = answer_of(realloc(at, size_of(size, align)));
}

void rattle_dealloc(void *at)
{
    free(at);
}

/* ---- errors, by Linux's numbers: those below 35 are the same in msvcrt, and no other is set but the one of a wait */

int rattle_errno(void)
{
    return errno;
}

void rattle_set_errno(int to)
{
    errno = to;
}

int __xpg_strerror_r(int error, char *to, uint64_t room)
{
    const char *text = strerror(error);
    if (strlen(text) >= room)
        return ERANGE;
    strcpy(to, text);
    return 0;
}

/* ---- files */

/* msvcrt says EINVAL of some that aren't open */
static int is_open(int file)
{
    intptr_t handle = _get_osfhandle(file);
    errno = EBADF;
    return handle != -1 && handle != -2;
}

static unsigned most_of(uint64_t room)
{
    return room > MOST_BYTES ? MOST_BYTES : (unsigned)room;
}

int64_t shim_read(int file, void *to, uint64_t room)
{
    return is_open(file) ? _read(file, to, most_of(room)) : -1;
}

int64_t shim_write(int file, const void *from, uint64_t bytes)
{
    if (!is_open(file))
        return -1;
    int64_t done = _write(file, from, most_of(bytes));
    /* a pipe that nobody reads: msvcrt says EINVAL */
    if (done < 0 && (_doserrno == ERROR_NO_DATA || _doserrno == ERROR_BROKEN_PIPE))
        errno = EPIPE;
    return done;
}

int64_t __write(int file, const void *from, uint64_t bytes)
{
    return shim_write(file, from, bytes);
}

int64_t shim_lseek(int file, int64_t by, int from)
{
    return _lseeki64(file, by, from);
}

int shim_close(int file)
{
    return _close(file);
}

/* the program opens only files in which Linux tells of its processors */
int shim_open(const char *path, int flags, ...)
{
    (void)path, (void)flags;
    errno = ENOENT;
    return -1;
}

/* _isatty says yes of NUL */
int shim_isatty(int file)
{
    DWORD mode;
    return GetConsoleMode((HANDLE)_get_osfhandle(file), &mode) != 0;
}

/* ---- processors and time */

int64_t shim_sysconf(int which)
{
    return which == SC_NPROCESSORS_ONLN ? (int64_t)GetActiveProcessorCount(ALL_PROCESSOR_GROUPS) : -1;
}

int shim_sched_getaffinity(int process, uint64_t bytes, uint64_t *mask)
{
    DWORD_PTR own, all;
    if (process || bytes < sizeof *mask || GetActiveProcessorGroupCount() > 1)
        return -1;
    if (!GetProcessAffinityMask(GetCurrentProcess(), &own, &all) || !own)
        return -1;
    memset(mask, 0, bytes);
    mask[0] = own;
    return 0;
}

struct linux_timespec {
    int64_t seconds;
    int64_t nanoseconds;
};

/* A wait of more than a month may end early: it is begun again. One without an end has 2^63 seconds. */
#define MONTH 4000000

static DWORD milliseconds(const struct linux_timespec *wanted)
{
    if (wanted->seconds >= MONTH)
        return INFINITE;
    return (DWORD)wanted->seconds * 1000 + (DWORD)((wanted->nanoseconds + 999999) / 1000000);
}

int shim_nanosleep(const struct linux_timespec *wanted, struct linux_timespec *left)
{
    (void)left;
    Sleep(milliseconds(wanted));
    return 0;
}

int shim_sched_yield(void)
{
    SwitchToThread();
    return 0;
}

/* ---- threads */

/* the program makes no other call by its number than the futex's, within the process */
int64_t shim_syscall(int64_t number, void *at, int64_t what, int64_t value, const struct linux_timespec *most)
{
    uint32_t seen = (uint32_t)value;
    if (number == SYS_FUTEX && what == FUTEX_WAKE_PRIVATE) {
        (value == 1 ? WakeByAddressSingle : WakeByAddressAll)(at);
        return 0;
    }
    if (number != SYS_FUTEX || what != FUTEX_WAIT_PRIVATE)
        abort();
    if (WaitOnAddress(at, &seen, sizeof seen, most ? milliseconds(most) : INFINITE))
        return 0;
    errno = LINUX_ETIMEDOUT;
    return -1;
}

/* held twice: by the thread itself, and by whoever joins or detaches it */
struct thread {
    HANDLE handle;
    void *(*start)(void *);
    void *given;
    void *result;
    LONG holders;
};

/* where each thread keeps its own */
static DWORD own_thread;

static void leave(struct thread *thread)
{
    if (InterlockedDecrement(&thread->holders) == 0) {
        CloseHandle(thread->handle);
        free(thread);
    }
}

static DWORD WINAPI begin(void *given)
{
    struct thread *thread = given;
    TlsSetValue(own_thread, thread);
    thread->result = thread->start(thread->given);
    leave(thread);
    return 0;
}

int shim_pthread_create(int64_t *out, const void *attributes, void *(*start)(void *), void *given)
{
    (void)attributes;
    struct thread *thread = malloc(sizeof *thread);
    if (!thread)
        return EAGAIN;
    *thread = (struct thread){NULL, start, given, NULL, 2};
    *out = (int64_t)thread;
    thread->handle = CreateThread(NULL, STACK, begin, thread, STACK_SIZE_PARAM_IS_A_RESERVATION | CREATE_SUSPENDED, NULL);
    if (!thread->handle) {
        free(thread);
        return EAGAIN;
    }
    ResumeThread(thread->handle);
    return 0;
}

int64_t shim_pthread_self(void)
{
    return (int64_t)TlsGetValue(own_thread);
}

int shim_pthread_detach(int64_t thread)
{
    leave((struct thread *)thread);
    return 0;
}

int shim_pthread_join(int64_t which, void **result)
{
    struct thread *thread = (struct thread *)which;
    WaitForSingleObject(thread->handle, INFINITE);
    if (result)
        *result = thread->result;
    leave(thread);
    return 0;
}

/* every thread has the same attributes */
int shim_pthread_attr_init(void *attributes)
{
    memset(attributes, 0, ATTRIBUTES_SIZE);
    return 0;
}

int shim_pthread_attr_setguardsize(void *attributes, uint64_t size)
{
    (void)attributes, (void)size;
    return 0;
}

int shim_pthread_attr_setstacksize(void *attributes, uint64_t size)
{
    (void)attributes, (void)size;
    return 0;
}

int shim_pthread_attr_destroy(void *attributes)
{
    (void)attributes;
    return 0;
}

/* Windows has no SIGPIPE: a write fails */
int64_t __sysv_signal(int which, int64_t how)
{
    (void)which, (void)how;
    return 0;
}

/* ---- the beginning */

/* what is said of progress clears lines by ESC [ K */
static void take_escapes(DWORD stream)
{
    DWORD mode;
    HANDLE handle = GetStdHandle(stream);
    if (GetConsoleMode(handle, &mode))
        SetConsoleMode(handle, mode | 4 /* ENABLE_VIRTUAL_TERMINAL_PROCESSING */);
}

static char *utf8_of(const wchar_t *wide)
{
    int bytes = WideCharToMultiByte(CP_UTF8, 0, wide, -1, NULL, 0, NULL, NULL);
    char *word = bytes > 0 ? malloc((size_t)bytes) : NULL;
    if (!word || !WideCharToMultiByte(CP_UTF8, 0, wide, -1, word, bytes, NULL, NULL))
        abort();
    return word;
}

int taskgraph_main(void);

int main(void)
{
    SetErrorMode(SEM_FAILCRITICALERRORS | SEM_NOGPFAULTERRORBOX);
    AddVectoredExceptionHandler(1, ended);
    for (int file = 0; file < 3; file++)
        _setmode(file, _O_BINARY);
    UINT code_page = GetConsoleOutputCP();
    SetConsoleOutputCP(CP_UTF8);
    take_escapes(STD_OUTPUT_HANDLE);
    take_escapes(STD_ERROR_HANDLE);
    own_thread = TlsAlloc();
    wchar_t **wide = CommandLineToArgvW(GetCommandLineW(), &word_count);
    word_list = wide ? calloc((size_t)word_count + 1, sizeof *word_list) : NULL;
    if (!word_list || own_thread == TLS_OUT_OF_INDEXES)
        abort();
    for (int at = 0; at < word_count; at++)
        word_list[at] = utf8_of(wide[at]);
    int status = taskgraph_main();
    SetConsoleOutputCP(code_page);
    return status;
}
