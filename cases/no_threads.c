/* Loaded before the C library: no thread can be made. */
#include <errno.h>

int pthread_create(void *handle, const void *attributes, void *(*start)(void *), void *argument) {
    (void)handle, (void)attributes, (void)start, (void)argument;
    return EAGAIN;
}
