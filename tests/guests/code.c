/* The exit code is the program's, of which the low eight bits are left; exit in a thread ends them all. */
#include <stdio.h>
#include <stdlib.h>
#include <threads.h>

static int work(void *argument)
{
    printf("and no end");
    exit(*(int *)argument);
}

int main(void)
{
    thrd_t thread;
    int code = 256 + 33;
    thrd_create(&thread, work, &code);
    for (;;)
        thrd_yield();
}
