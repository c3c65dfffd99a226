/* The stack that a piece of work needs: it runs on a thread whose stack was filled with one byte
 * before, and every byte that it wrote is seen afterwards. */
#define _GNU_SOURCE
#include <pthread.h>
#include <stddef.h>
#include <stdlib.h>
#include <string.h>
#include <sys/mman.h>
#include <unistd.h>

enum { UNTOUCHED = 0xA5 };

typedef struct {
    void (*run)(void *data);
    void *data;
    unsigned char *top; /* where the work's own frames begin */
} Work;

static void *start(void *argument)
{
    Work *work = argument;
    work->top = __builtin_frame_address(0);
    work->run(work->data);
    return NULL;
}

static void expect(int holds)
{
    if (!holds)
        abort();
}

/* Runs the work on a stack of so many bytes, a multiple of the page, above a page that nobody may
 * touch, and gives the bytes from the work's first frame down to the lowest one that was written. */
size_t stack_used(size_t bytes, void (*run)(void *data), void *data)
{
    size_t page = (size_t)sysconf(_SC_PAGESIZE), touched = 0;
    Work work = {run, data, NULL};
    pthread_attr_t attributes;
    pthread_t thread;
    unsigned char *guard = mmap(NULL, page + bytes, PROT_READ | PROT_WRITE,
                                MAP_PRIVATE | MAP_ANONYMOUS, -1, 0);
    expect(guard != MAP_FAILED && mprotect(guard, page, PROT_NONE) == 0);
    unsigned char *stack = guard + page;
    memset(stack, UNTOUCHED, bytes);
    expect(pthread_attr_init(&attributes) == 0);
    expect(pthread_attr_setstack(&attributes, stack, bytes) == 0);
    expect(pthread_create(&thread, &attributes, start, &work) == 0);
    expect(pthread_join(thread, NULL) == 0 && pthread_attr_destroy(&attributes) == 0);
    while (stack[touched] == UNTOUCHED)
        touched++;
    size_t used = (size_t)(work.top - (stack + touched));
    expect(munmap(guard, page + bytes) == 0);
    return used;
}
