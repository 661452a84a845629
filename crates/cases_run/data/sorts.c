/* Sorts, divides, recurses and counts, without a C library. Its exit code is a sum of what it did. Made by the cross
   compiler of the distribution (gcc 12.2.0): riscv64-unknown-elf-gcc -march=rv32ima -mabi=ilp32 -O1 -ffreestanding
   -nostdlib -static -fno-builtin -Wl,--build-id=none -o sorts sorts.c */
static int numbers[200];
static unsigned char bytes[64];
static unsigned short halves[40];
static unsigned seed = 12345;
static int counter;

__attribute__((noinline)) static unsigned draw(void)
{
    seed = seed * 1103515245u + 12345u;
    return seed >> 16;
}

__attribute__((noinline)) static int fibonacci(int n)
{
    return n < 2 ? n : fibonacci(n - 1) + fibonacci(n - 2);
}

__attribute__((noinline)) static void sort(int *a, int n)
{
    for (int i = 1; i < n; i++) {
        int key = a[i], j = i - 1;
        for (; j >= 0 && a[j] > key; j--)
            a[j + 1] = a[j];
        a[j + 1] = key;
    }
}

__attribute__((noinline)) static unsigned hash(const char *text)
{
    unsigned sum = 5381;
    for (; *text; text++)
        sum = sum * 33 ^ (unsigned char)*text;
    return sum;
}

__attribute__((noinline, used)) static int work(int argc, char **argv)
{
    unsigned sum = 0;
    for (int i = 0; i < argc; i++)
        sum += hash(argv[i]);
    for (int i = 0; i < 200; i++)
        numbers[i] = (int)(draw() % 2000u) - 1000;
    sort(numbers, 200);
    for (int i = 0; i < 200; i++)
        sum = sum * 31 + (unsigned)numbers[i];
    for (int i = 0; i < 64; i++)
        bytes[i] = (unsigned char)(sum >> (i % 24));
    for (int i = 0; i < 40; i++)
        halves[i] = (unsigned short)(bytes[i] * bytes[i + 20] - i);
    for (int i = 0; i < 40; i++)
        sum += (short)halves[i] / 7 + (signed char)bytes[i] % 5;
    for (int i = 0; i < 10; i++) {
        __atomic_fetch_add(&counter, numbers[i * 7], __ATOMIC_RELAXED);
        __atomic_fetch_or(&counter, 1, __ATOMIC_RELAXED);
        int old = counter;
        __atomic_compare_exchange_n(&counter, &old, old ^ i, 0, __ATOMIC_SEQ_CST, __ATOMIC_SEQ_CST);
    }
    sum += (unsigned)counter + (unsigned)fibonacci(9);
    sum += (unsigned)(((unsigned long long)sum * 0x9e3779b9u) >> 32);
    return (int)(sum % 251);
}

__asm__(".globl _start\n_start:\n\t.option push\n\t.option norelax\n\tla gp,__global_pointer$\n\t.option pop\n\tlw a0,0(sp)\n\taddi a1,sp,4\n\tcall work\n\tli a7,93\n\tecall\n");
