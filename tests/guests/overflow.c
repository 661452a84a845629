/* A thread that needs more stack than it has is stopped by signal 11 in the page below it, and changes nothing of the
   thread whose memory lies there. */
#include <stdio.h>
#include <threads.h>

static volatile int sink;

/* 300 calls take less than 128 KiB, 600 more, and less than 256. */
static int deeper(int depth)
{
    volatile char room[256];
    room[0] = depth;
    int below = depth > 0 ? deeper(depth - 1) : 0;
    return below + room[0];
}

static int work(void *argument)
{
    sink = deeper(*(int *)argument);
    return 0;
}

static mtx_t lock;

static int stay(void *argument)
{
    (void)argument;
    return mtx_lock(&lock);
}

static void run(int depth, const char *text)
{
    thrd_t thread;
    if (thrd_create(&thread, work, &depth) != thrd_success)
        return;
    thrd_join(thread, NULL);
    puts(text);
}

int main(void)
{
    thrd_t below;
    mtx_init(&lock, mtx_plain);
    mtx_lock(&lock);
    thrd_create(&below, stay, NULL);
    run(300, "300 calls fit");
    size_t size = thrd_stack_size;
    thrd_stack_size = 1 << 20;
    run(3000, "3000 calls fit in 1 MiB");
    thrd_stack_size = size;
    run(600, "never");
    return 0;
}
