/* How much stack a call uses, for the benchmark: the call runs on a thread whose stack was filled with one byte before. */
#define _POSIX_C_SOURCE 200809L
#include <pthread.h>
#include <stdlib.h>
#include <string.h>

#define SIZE ((size_t)4 << 20)
#define FILL 0xa5

typedef struct {
    void (*call)(void *);
    void *argument;
} job;

static void *run(void *p)
{
    job *j = p;
    j->call(j->argument);
    return NULL;
}

/* The bytes of the thread's stack that are not as filled, 0 where the thread could not be run. */
static size_t touched(job j)
{
    unsigned char *stack = NULL;
    pthread_attr_t attributes;
    pthread_t thread;
    size_t free_bytes = SIZE;
    if (posix_memalign((void **)&stack, 65536, SIZE) != 0)
        return 0;
    memset(stack, FILL, SIZE);
    if (pthread_attr_init(&attributes) == 0 && pthread_attr_setstack(&attributes, stack, SIZE) == 0
        && pthread_create(&thread, &attributes, run, &j) == 0 && pthread_join(thread, NULL) == 0) {
        free_bytes = 0;
        while (free_bytes < SIZE && stack[free_bytes] == FILL)
            free_bytes++;
    }
    pthread_attr_destroy(&attributes);
    free(stack);
    return SIZE - free_bytes;
}

static void nothing(void *p) { (void)p; }

/* The stack of one call, less what a thread uses that does nothing. */
size_t stack_of(void (*call)(void *), void *argument)
{
    size_t idle = touched((job){ nothing, NULL });
    size_t used = touched((job){ call, argument });
    return used > idle ? used - idle : 0;
}
