/* Two coroutines, each on a stack of its own: control goes over by another stack pointer, and not by a return. */
#include <stdint.h>
#include <stdio.h>

enum { STACK = 16384 };

/* Where a coroutine goes on: ra, sp, s0 to s11 */
struct place {
    uint32_t registers[14];
};

__attribute__((naked, noinline)) static void go_over(struct place *from, const struct place *to)
{
    __asm__("sw ra, 0(a0)\nsw sp, 4(a0)\nsw s0, 8(a0)\nsw s1, 12(a0)\nsw s2, 16(a0)\nsw s3, 20(a0)\n"
            "sw s4, 24(a0)\nsw s5, 28(a0)\nsw s6, 32(a0)\nsw s7, 36(a0)\nsw s8, 40(a0)\nsw s9, 44(a0)\n"
            "sw s10, 48(a0)\nsw s11, 52(a0)\n"
            "lw ra, 0(a1)\nlw sp, 4(a1)\nlw s0, 8(a1)\nlw s1, 12(a1)\nlw s2, 16(a1)\nlw s3, 20(a1)\n"
            "lw s4, 24(a1)\nlw s5, 28(a1)\nlw s6, 32(a1)\nlw s7, 36(a1)\nlw s8, 40(a1)\nlw s9, 44(a1)\n"
            "lw s10, 48(a1)\nlw s11, 52(a1)\n"
            "ret\n");
}

static struct place of_main, squares_place, primes_place;
static _Alignas(16) char squares_stack[STACK], primes_stack[STACK];
static int made;

static void squares(void)
{
    for (int i = 1;; i++) {
        made = i * i;
        go_over(&squares_place, &of_main);
    }
}

static int is_prime(int number)
{
    for (int i = 2; i * i <= number; i++)
        if (number % i == 0)
            return 0;
    return 1;
}

static void primes(void)
{
    for (int i = 2;; i++)
        if (is_prime(i)) {
            made = i;
            go_over(&primes_place, &of_main);
        }
}

static void prepare(struct place *place, void (*work)(void), char *stack)
{
    place->registers[0] = (uintptr_t)work;
    place->registers[1] = (uintptr_t)stack + STACK;
}

static int next_of(struct place *place)
{
    go_over(&of_main, place);
    return made;
}

int main(void)
{
    prepare(&squares_place, squares, squares_stack);
    prepare(&primes_place, primes, primes_stack);
    for (int i = 0; i < 8; i++) {
        int square = next_of(&squares_place);
        printf("%d %d\n", square, next_of(&primes_place));
    }
    return 0;
}
