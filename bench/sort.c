/* Sorts numbers, as often as its word says, and exits with 0 where each list came out in order. `bench/whole.sh` builds it
   for the guest, where it stands alone, and for the machine itself. */
#include <stdint.h>

enum { COUNT = 1024 };
static uint32_t numbers[COUNT];

static void fill(uint32_t seed) {
    for (int i = 0; i < COUNT; i++)
        numbers[i] = seed = seed * 1664525 + 1013904223;
}

static void swap(int i, int j) {
    uint32_t kept = numbers[i];
    numbers[i] = numbers[j];
    numbers[j] = kept;
}

/* what is below one of the numbers comes before it, and the others behind it */
static __attribute__((noinline)) int divide(int first, int last) {
    int middle = first;
    swap((first + last) / 2, last);
    for (int i = first; i < last; i++)
        if (numbers[i] < numbers[last])
            swap(i, middle++);
    swap(middle, last);
    return middle;
}

static __attribute__((noinline)) void sort(int first, int last) {
    if (first >= last)
        return;
    int middle = divide(first, last);
    sort(first, middle - 1);
    sort(middle + 1, last);
}

static int is_sorted(void) {
    for (int i = 1; i < COUNT; i++)
        if (numbers[i - 1] > numbers[i])
            return 0;
    return 1;
}

static uint32_t number(const char *text) {
    uint32_t value = 0;
    while (*text)
        value = value * 10 + (uint32_t)(*text++ - '0');
    return value;
}

int main(int argc, char **argv) {
    uint32_t rounds = argc > 1 ? number(argv[1]) : 1;
    for (uint32_t round = 1; round <= rounds; round++) {
        fill(round);
        sort(0, COUNT - 1);
        if (!is_sorted())
            return 1;
    }
    return 0;
}

#ifdef __riscv
__asm__(".globl _start\n_start: lw a0, 0(sp)\n addi a1, sp, 4\n call main\n li a7, 93\n ecall\n");
#endif
