/* What cgprof's machine alone answers: it is process 1, its random bytes count up, and its clock counts steps as
   nanoseconds. */
#include <stdio.h>
#include <string.h>
#include <time.h>
#include <unistd.h>

/* Two steps a round: an addition and a branch */
__attribute__((naked, noinline)) static void rounds(int count)
{
    __asm__("1: addi a0, a0, -1\nbnez a0, 1b\nret\n");
}

static long now(void)
{
    struct timespec time;
    clock_gettime(CLOCK_MONOTONIC, &time);
    return time.tv_sec * 1000000000 + time.tv_nsec;
}

static long cost_of(int count)
{
    long begun = now();
    rounds(count);
    return now() - begun;
}

int main(void)
{
    unsigned char bytes[5];
    getentropy(bytes, sizeof bytes);
    printf("process %d\n", getpid());
    printf("bytes %d %d %d %d %d\n", bytes[0], bytes[1], bytes[2], bytes[3], bytes[4]);
    cost_of(1);
    printf("1000 rounds more: %ld steps\n", cost_of(1500) - cost_of(500));
    return 0;
}
