/* What refuse.c and one_byte_devices.c share: `tell` is called at the end of the program, however it ends. */
extern char *getenv(const char *);
extern long atol(const char *);
extern int dprintf(int, const char *, ...);
extern long syscall(long, ...);

/* the number of the system's call exit_group */
enum { EXIT_GROUP = 231 };

__attribute__((destructor)) static void tell(void);

/* A program that may start threads ends so, and then no destructor runs. */
void _exit(int status) {
    tell();
    for (;;)
        syscall(EXIT_GROUP, status);
}
