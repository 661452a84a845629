/* Mutexes, conditions, work that is done once, values of each thread, and the ends of threads */
#include <stdio.h>
#include <stdlib.h>
#include <threads.h>

enum { PRODUCERS = 3, CONSUMERS = 3, EACH = 40, ROOM = 4 };

static mtx_t lock, again;
static cnd_t some, room;
static int queue[ROOM], held, taken, sum;

static int produce(void *argument)
{
    int first = *(int *)argument;
    for (int i = 0; i < EACH; i++) {
        mtx_lock(&lock);
        while (held == ROOM)
            cnd_wait(&room, &lock);
        queue[held++] = first + i;
        cnd_signal(&some);
        mtx_unlock(&lock);
    }
    return EACH;
}

static int consume(void *argument)
{
    int own = 0;
    (void)argument;
    mtx_lock(&lock);
    for (;;) {
        while (held == 0 && taken < PRODUCERS * EACH)
            cnd_wait(&some, &lock);
        if (held == 0)
            break;
        sum += queue[--held];
        own++;
        if (++taken == PRODUCERS * EACH)
            cnd_broadcast(&some);
        cnd_signal(&room);
    }
    mtx_unlock(&lock);
    return own;
}

static void queue_of_four(void)
{
    thrd_t threads[PRODUCERS + CONSUMERS];
    int firsts[PRODUCERS], results = 0;
    for (int i = 0; i < PRODUCERS; i++) {
        firsts[i] = 1000 * i;
        thrd_create(&threads[i], produce, &firsts[i]);
    }
    for (int i = 0; i < CONSUMERS; i++)
        thrd_create(&threads[PRODUCERS + i], consume, NULL);
    for (int i = 0; i < PRODUCERS + CONSUMERS; i++) {
        int result;
        thrd_join(threads[i], &result);
        results += result;
    }
    printf("taken %d, sum %d, results %d\n", taken, sum, results);
}

static once_flag flag = ONCE_FLAG_INIT;
static int made;

static void make(void)
{
    for (int i = 0; i < 50; i++)
        thrd_yield();
    made++;
}

static int need(void *argument)
{
    (void)argument;
    call_once(&flag, make);
    return made;
}

static tss_t key;
static int destroyed;

static void destroy(void *value)
{
    mtx_lock(&lock);
    destroyed += *(int *)value;
    mtx_unlock(&lock);
    free(value);
}

static int keep(void *argument)
{
    int *value = malloc(sizeof *value);
    *value = *(int *)argument;
    int before = tss_get(key) != NULL;
    tss_set(key, value);
    thrd_yield();
    return before * 1000 + (tss_get(key) == value);
}

static int run_all(thrd_start_t work)
{
    thrd_t threads[5];
    int values[5], results = 0;
    for (int i = 0; i < 5; i++) {
        values[i] = 1 << i;
        thrd_create(&threads[i], work, &values[i]);
    }
    for (int i = 0; i < 5; i++) {
        int result;
        thrd_join(threads[i], &result);
        results += result;
    }
    return results;
}

static int trying(void *argument)
{
    int *results = argument;
    results[0] = mtx_trylock(&lock) == thrd_busy;
    results[1] = mtx_trylock(&again) == thrd_busy;
    return 0;
}

static void locks(void)
{
    thrd_t other;
    int results[2];
    mtx_lock(&lock);
    for (int i = 0; i < 3; i++)
        mtx_lock(&again);
    int own = mtx_trylock(&again) == thrd_success;
    mtx_unlock(&again);
    thrd_create(&other, trying, results);
    thrd_join(other, NULL);
    mtx_unlock(&lock);
    for (int i = 0; i < 3; i++)
        mtx_unlock(&again);
    int then = mtx_trylock(&again) == thrd_success;
    printf("busy %d, recursive busy %d, own %d, then free %d\n", results[0], results[1], own, then);
    mtx_unlock(&again);
}

static int detached_ended;

static int detached(void *argument)
{
    thrd_detach(thrd_current());
    mtx_lock(&lock);
    detached_ended += *(int *)argument;
    cnd_signal(&some);
    mtx_unlock(&lock);
    thrd_exit(0);
}

static void detach(void)
{
    int one = 1;
    for (int i = 0; i < 200; i++) {
        thrd_t thread;
        if (thrd_create(&thread, detached, &one) != thrd_success)
            puts("no room");
        mtx_lock(&lock);
        while (detached_ended <= i)
            cnd_wait(&some, &lock);
        mtx_unlock(&lock);
    }
    printf("detached %d\n", detached_ended);
}

static int last(void *argument)
{
    int result;
    thrd_join(*(thrd_t *)argument, &result);
    printf("main ended with %d, another goes on\n", result);
    return 7;
}

static thrd_t of_main;

int main(void)
{
    thrd_t thread;
    mtx_init(&lock, mtx_plain);
    mtx_init(&again, mtx_recursive);
    cnd_init(&some);
    cnd_init(&room);
    queue_of_four();
    int results = run_all(need);
    printf("made %d, seen by all: %d\n", made, results == 5);
    tss_create(&key, destroy);
    results = run_all(keep);
    printf("own values %d, destroyed %d\n", results, destroyed);
    locks();
    detach();
    struct timespec length = {0, 20000};
    printf("slept: %d\n", thrd_sleep(&length, NULL));
    of_main = thrd_current();
    thrd_create(&thread, last, &of_main);
    printf("the same: %d, another: %d\n", thrd_equal(of_main, thrd_current()) != 0, thrd_equal(of_main, thread) != 0);
    thrd_exit(5);
}
