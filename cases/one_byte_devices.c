/* For test_devices.py, which has the program load it before the C library: standard input gives one byte a read, and standard
   output takes one byte a write. The read whose number, from 0, is in READ fails, and so does the write whose number is
   in WRITE, with the error whose number is in ERROR; where that is 0 it moves nothing. At the end it says how many reads
   and writes there were. */
#include "at_exit.h"

extern int *__errno_location(void);

enum { INPUT, OUTPUT, ERRORS };
/* the numbers of the system's calls */
enum { READ, WRITE };

static long reads, writes;

/* The number is the one that the environment names. */
static int is_named(const char *name, long number) { return getenv(name) && atol(getenv(name)) == number; }

/* What a call that goes wrong answers. */
static long wrong(void) {
    long error = atol(getenv("ERROR"));
    *__errno_location() = (int)error;
    return error ? -1 : 0;
}

long read(int from, void *bytes, unsigned long count) {
    if (from != INPUT)
        return syscall(READ, from, bytes, count);
    return is_named("READ", reads++) ? wrong() : syscall(READ, from, bytes, count ? 1 : 0);
}

long write(int to, const void *bytes, unsigned long count) {
    if (to != OUTPUT)
        return syscall(WRITE, to, bytes, count);
    return is_named("WRITE", writes++) ? wrong() : syscall(WRITE, to, bytes, count ? 1 : 0);
}

static void tell(void) { dprintf(ERRORS, "%ld %ld", reads, writes); }
