/* Two threads sum up a table and sort it; the main one calls itself. */
#include <pthread.h>
#include "halve.h"

static int table[2][64];

__attribute__((noinline)) static int fibonacci(int n) {
    return n < 2 ? n : fibonacci(n - 1) + fibonacci(n - 2);
}

__attribute__((noinline)) static void sort(int *words, int count) {
    for (int i = 1; i < count; i++)
        for (int j = i; j > 0 && words[j - 1] > words[j]; j--) {
            int word = words[j];
            words[j] = words[j - 1];
            words[j - 1] = word;
        }
}

__attribute__((noinline)) static int sum(const int *words, int count) {
    int total = 0;
    for (int i = 0; i < count; i++)
        total += halve(words[i]);
    return total;
}

__attribute__((noinline)) static int odd(int n);

__attribute__((noinline)) static int even(int n) {
    return n == 0 ? 1 : odd(n - 1) + 1;
}

__attribute__((noinline)) static int odd(int n) {
    return n == 0 ? 0 : even(n - 1) + 1;
}

__attribute__((noinline)) int work(int which) {
    int *words = table[which];
    for (int i = 0; i < 64; i++)
        words[i] = i * 37 % 64;
    sort(words, 16 + 16 * which);
    return sum(words, 64) + (which ? even(9) : fibonacci(6));
}

static void *thread(void *which) {
    static int results[2];
    results[which != 0] = work(which != 0);
    return results;
}

int main(void) {
    for (int round = 0; round < 2; round++) {
        pthread_t other;
        pthread_create(&other, 0, thread, (void *)(long)1);
        pthread_join(other, 0);
        thread(0);
    }
    return 0;
}
