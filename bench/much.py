#!/usr/bin/env python3
"""much.py [FUNCTIONS]: writes a program in C with much code, 3,000 functions where no number is given: some 200 KB of code
for the guest. Its word says how many calls it makes through a table, three of four of the next function and one of any.
`bench/whole.sh` builds it for the guest, where it stands alone, and for the machine itself."""

import random
import sys

LINES = [
    "    x = (x ^ {a}u) + (y << {shift});",
    "    x += data[(x + {b}u) & 4095] * {a}u;",
    "    if (x & {a}u) y += x >> {shift}; else y ^= {b}u;",
    "    data[(y + {b}u) & 4095] += x;",
]

BEFORE = """\
#include <stdint.h>
static uint32_t data[4096];
"""

BEHIND = """\
static uint32_t work(uint32_t calls) {
    uint32_t state = 1, sum = 0, next = 0;
    for (uint32_t call = 0; call < calls; call++) {
        state = state * 1664525 + 1013904223;
        next = (next + (state >> 30 ? 1 : state >> 8)) % FUNCTIONS;
        sum += table[next](sum, call);
    }
    return sum;
}

static uint32_t number(const char *text) {
    uint32_t value = 0;
    while (*text)
        value = value * 10 + (uint32_t)(*text++ - '0');
    return value;
}

int main(int argc, char **argv) {
    return (int)(work(argc > 1 ? number(argv[1]) : 1) & 1);
}

#ifdef __riscv
__asm__(".globl _start\\n_start: lw a0, 0(sp)\\n addi a1, sp, 4\\n call main\\n li a7, 93\\n ecall\\n");
#endif
"""


def main():
    functions = int(sys.argv[1]) if len(sys.argv) > 1 else 3000
    chosen = random.Random(1)
    print(BEFORE, end="")
    for number in range(functions):
        print(f"static __attribute__((noinline)) uint32_t function_{number}(uint32_t x, uint32_t y) {{")
        for _ in range(chosen.randint(1, 3)):
            line = chosen.choice(LINES)
            print(line.format(a=chosen.randint(1, 4095), b=chosen.randint(1, 4095), shift=chosen.randint(1, 7)))
        print("    return x + y;\n}")
    print(f"enum {{ FUNCTIONS = {functions} }};")
    print("static uint32_t (*const table[])(uint32_t, uint32_t) = {")
    for number in range(functions):
        print(f"    function_{number},")
    print("};")
    print(BEHIND, end="")


main()
