/* Four threads count the steps by which numbers come down to 1, each its share, and keep the longest way under a lock:
   an even number is halved, an odd one becomes three times itself and 1. */
#include <stdio.h>
#include <threads.h>

enum { THREADS = 4, BOUND = 1000 };

static mtx_t lock;
static int longest, from;

struct share {
    int first, steps;
};

static int steps_from(int number)
{
    int steps = 0;
    for (; number != 1; steps++)
        number = number % 2 == 0 ? number / 2 : 3 * number + 1;
    return steps;
}

static void keep(int number, int steps)
{
    mtx_lock(&lock);
    if (steps > longest || (steps == longest && number < from)) {
        longest = steps;
        from = number;
    }
    mtx_unlock(&lock);
}

static int walk(void *argument)
{
    struct share *share = argument;
    for (int number = share->first; number < BOUND; number += THREADS) {
        int steps = steps_from(number);
        keep(number, steps);
        share->steps += steps;
    }
    return 0;
}

int main(void)
{
    thrd_t threads[THREADS];
    struct share shares[THREADS];
    mtx_init(&lock, mtx_plain);
    for (int i = 0; i < THREADS; i++) {
        shares[i] = (struct share){.first = i + 1};
        if (thrd_create(&threads[i], walk, &shares[i]) != thrd_success)
            return 1;
    }
    for (int i = 0; i < THREADS; i++) {
        thrd_join(threads[i], NULL);
        printf("thread %d: %d steps\n", i, shares[i].steps);
    }
    printf("the longest way begins at %d and has %d steps\n", from, longest);
    return 0;
}
