/* Thread-locals: each thread begins with those of the source, zero where it says nothing, however many there are. */
#include <stdint.h>
#include <stdio.h>
#include <threads.h>

enum { THREADS = 3, LARGE = 20000, FILLER = 0x5a5a5a5a };

static thread_local int given = 7, other = -1;
static thread_local int zero;
static thread_local int large[LARGE];
static thread_local _Alignas(64) char aligned[64];

/* What stands before and behind them: it may not be taken for thread-locals, nor be written over. */
static int before[4096] = {[0 ... 4095] = FILLER};
static int behind[40000];

struct seen {
    int given, other, zero, nonzero, aligned;
};

static struct seen look(void)
{
    struct seen seen = {given, other, zero, 0, (uintptr_t)aligned % 64 == 0};
    for (int i = 0; i < LARGE; i++)
        seen.nonzero += large[i] != 0;
    for (int i = 0; i < 64; i++)
        seen.nonzero += aligned[i] != 0;
    return seen;
}

static void change(int value)
{
    given = other = zero = value;
    for (int i = 0; i < LARGE; i++)
        large[i] = value;
    for (int i = 0; i < 64; i++)
        aligned[i] = value;
}

static int work(void *place)
{
    *(struct seen *)place = look();
    change(3);
    return given;
}

static void show(const char *name, struct seen seen)
{
    printf("%s: given %d, other %d, zero %d, ", name, seen.given, seen.other, seen.zero);
    printf("%d others not zero, aligned %d\n", seen.nonzero, seen.aligned);
}

int main(void)
{
    thrd_t threads[THREADS];
    struct seen seen[THREADS];
    for (int i = 0; i < 40000; i++)
        behind[i] = FILLER;
    show("main", look());
    change(9);
    for (int i = 0; i < THREADS; i++)
        if (thrd_create(&threads[i], work, &seen[i]) != thrd_success)
            return 1;
    for (int i = 0; i < THREADS; i++) {
        int result;
        thrd_join(threads[i], &result);
        show("thread", seen[i]);
        printf("ended with %d\n", result);
    }
    int broken = 0;
    for (int i = 0; i < 4096; i++)
        broken += before[i] != FILLER;
    for (int i = 0; i < 40000; i++)
        broken += behind[i] != FILLER;
    printf("main: given %d, zero %d, last %d; %d others changed\n", given, zero, large[LARGE - 1], broken);
    return 0;
}
