/* The twin of the demonstration program for this machine: four threads call f0 with 5 as often as the first word says.
   Each of f0 to f31 raises its counter, and where its argument isn't 0, it calls two functions with one less. Which
   functions and counters these are is drawn as for the program of that size. It exits with 0 where each thread has
   counted all calls. */
#include <pthread.h>
#include <stdint.h>
#include <stdlib.h>

static const uint64_t factor = 6364136223846793005u;
static uint64_t state, increment;

static uint32_t output(uint64_t word) {
    uint32_t mixed = (uint32_t)(((word >> 18) ^ word) >> 27);
    uint32_t by = (uint32_t)(word >> 59);
    return mixed >> by | mixed << (-by & 31);
}

static void seed(uint64_t number) {
    uint64_t words[4];
    for (int i = 0; i < 4; i++) {
        number = number * factor + 11634580027462260723u;
        words[i] = output(number);
    }
    increment = (words[2] | words[3] << 32) | 1;
    state = ((words[0] | words[1] << 32) + increment) * factor + increment;
}

static int draw(int limit) {
    uint32_t word = output(state);
    state = state * factor + increment;
    return (int)(word % (uint32_t)limit);
}

typedef void function(int);
static function *first[32], *second[32];
static int place[32];
static _Thread_local unsigned counters[512];

#define F(k)                                          \
    static __attribute__((noinline)) void f##k(int n) { \
        counters[place[k]]++;                         \
        if (n > 0) {                                  \
            first[k](n - 1);                          \
            second[k](n - 1);                         \
        }                                             \
    }
#define ALL(_) _(0) _(1) _(2) _(3) _(4) _(5) _(6) _(7) _(8) _(9) _(10) _(11) _(12) _(13) _(14) _(15) \
    _(16) _(17) _(18) _(19) _(20) _(21) _(22) _(23) _(24) _(25) _(26) _(27) _(28) _(29) _(30) _(31)
ALL(F)
#define NAME(k) f##k,
static function *const all[32] = {ALL(NAME)};

static long rounds;

/* nothing, or all that was not counted of the 63 calls of each round */
static void *run(void *unused) {
    uintptr_t left = 63 * (uintptr_t)rounds;
    for (long i = 0; i < rounds; i++)
        f0(5);
    for (int i = 0; i < 512; i++)
        left -= counters[i];
    return (void *)left;
}

int main(int count, char **words) {
    rounds = count > 1 ? atol(words[1]) : 1;
    seed((uint64_t)rounds);
    for (int k = 0; k < 32; k++) {
        first[k] = all[draw(32)];
        second[k] = all[draw(32)];
        place[k] = draw(512);
    }
    pthread_t others[3];
    for (int t = 0; t < 3; t++)
        if (pthread_create(&others[t], NULL, run, NULL))
            return 1;
    void *left = run(NULL);
    for (int t = 0; t < 3 && !left; t++)
        pthread_join(others[t], &left);
    return left != NULL;
}
