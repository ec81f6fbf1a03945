/* How much stack some work takes: a thread's stack is painted first, and what has lost its paint was used. The thread's own start is among it,
 * some hundred bytes. The work is to take less than PAINTED_BYTES. */
#ifndef PAINTED_STACK_H
#define PAINTED_STACK_H

#include <pthread.h>
#include <stdint.h>
#include <string.h>

enum { PAINTED_BYTES = 1 << 20, PAINT = 0xa5 };

/* 0 where no thread could be had. */
static inline size_t stack_of(void *(*work)(void *), void *given)
{
    static _Alignas(4096) uint8_t stack[PAINTED_BYTES];
    pthread_attr_t attributes;
    pthread_t thread;
    size_t unused = 0;
    memset(stack, PAINT, sizeof stack);
    if (pthread_attr_init(&attributes) != 0 || pthread_attr_setstack(&attributes, stack, sizeof stack) != 0 ||
        pthread_create(&thread, &attributes, work, given) != 0 || pthread_join(thread, NULL) != 0)
        return 0;
    pthread_attr_destroy(&attributes);
    while (unused < sizeof stack && stack[unused] == PAINT)
        unused++;
    return sizeof stack - unused;
}

#endif
