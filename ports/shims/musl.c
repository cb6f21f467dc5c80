/* What the program's object file needs on Linux x86-64 and musl lacks. Linked with -Wl,--wrap=main.

   The toolchain's libos_c.a keeps the words of the command line in a function of .init_array, to which glibc hands argc and
   argv. musl hands such functions nothing, so here they are kept as main begins. */
#include <errno.h>
#include <signal.h>
#include <stddef.h>
#include <stdint.h>
#include <unistd.h>

#include "words.h"
#include "x86.h"

int __real_main(void);

int __wrap_main(int argc, char **argv)
{
    word_count = argc;
    word_list = argv;
    return __real_main();
}

int rattle_errno(void)
{
    return errno;
}

void rattle_set_errno(int to)
{
    errno = to;
}

/* signal() as System V has it. The program calls it once, to ignore SIGPIPE, where it makes no difference. */
void (*__sysv_signal(int which, void (*how)(int)))(int)
{
    return signal(which, how);
}

/* glibc's other name of write() */
int64_t __write(int file, const void *from, uint64_t bytes)
{
    return write(file, from, bytes);
}
