/* abort, in a thread */
#include <stdio.h>
#include <stdlib.h>
#include <threads.h>

static int work(void *argument)
{
    (void)argument;
    puts("the thread");
    abort();
}

int main(void)
{
    thrd_t thread;
    thrd_create(&thread, work, NULL);
    thrd_join(thread, NULL);
    puts("never");
    return 0;
}
