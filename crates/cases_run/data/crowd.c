/* Reads its input in small pieces, counts the words, and lets three threads add up the lengths of the words under a
   lock, each its share. The parent waits for the end of each and prints what came out. Without a C library. Made by the
   cross compiler of the distribution (gcc 12.2.0), and left without what isn't read here:
   riscv64-unknown-elf-gcc -march=rv32ima -mabi=ilp32 -O1 -gdwarf-5 -gno-as-loc-support -gno-column-info
   -ffile-prefix-map=$PWD=/src -ffreestanding -nostdlib -static -fno-builtin -Wl,--build-id=none -o crowd crowd.c
   riscv64-unknown-elf-objcopy -R .debug_info -R .debug_abbrev -R .debug_aranges -R .debug_str -R .debug_frame
   -R .debug_loclists -R .debug_rnglists -R .comment -R .riscv.attributes crowd
   Its steps are not QEMU's, whose threads take turns by the host's clock; its output is. */
enum { READ = 63, WRITE = 64, EXIT = 93, EXIT_GROUP = 94, YIELD = 124, MMAP = 222, FUTEX = 422 };
enum { THREADS = 3, STACK = 0x3000, MOST = 64 };

struct share {
    int first;
    int tid;
};

static char text[512];
static int lengths[MOST];
static int words;
static int lock;
static int total;
static int turns;
static struct share shares[THREADS];

static int call(int number, int a, int b, int c, int d, int e, int f)
{
    register int a0 __asm__("a0") = a, a1 __asm__("a1") = b, a2 __asm__("a2") = c, a3 __asm__("a3") = d;
    register int a4 __asm__("a4") = e, a5 __asm__("a5") = f, a7 __asm__("a7") = number;
    __asm__ volatile("ecall" : "+r"(a0) : "r"(a1), "r"(a2), "r"(a3), "r"(a4), "r"(a5), "r"(a7) : "memory");
    return a0;
}

__attribute__((noinline)) static void take(int *word)
{
    int seen = 0;
    if (__atomic_compare_exchange_n(word, &seen, 1, 0, __ATOMIC_SEQ_CST, __ATOMIC_SEQ_CST))
        return;
    while (__atomic_exchange_n(word, 2, __ATOMIC_SEQ_CST) != 0)
        call(FUTEX, (int)word, 128, 2, 0, 0, 0);
}

__attribute__((noinline)) static void give(int *word)
{
    if (__atomic_exchange_n(word, 0, __ATOMIC_SEQ_CST) == 2)
        call(FUTEX, (int)word, 129, 1, 0, 0, 0);
}

__attribute__((noinline)) static int weigh(int length)
{
    return length < 2 ? length : weigh(length / 2) + length % 7;
}

__attribute__((noinline)) static void add(int place)
{
    take(&lock);
    int old = total;
    if (turns++ % 4 == 0)
        call(YIELD, 0, 0, 0, 0, 0, 0);
    total = old + lengths[place] * weigh(lengths[place]);
    give(&lock);
}

__attribute__((noinline, used)) static void child(struct share *mine)
{
    for (int i = mine->first; i < words; i += THREADS)
        add(i);
    call(EXIT, 0, 0, 0, 0, 0, 0);
}

/* clone, whose child begins in the function with its argument on a stack of its own */
int start(struct share *mine, void *stack);
__asm__("start:\n\tmv t0,a0\n\tmv t1,a0\n\tli a0,0x7d0f00\n\taddi a2,t1,4\n\tli a3,0\n\tmv a4,a2\n\tli a7,220\n\tecall\n"
        "\tbeqz a0,1f\n\tret\n1:\tmv a0,t0\n\tj child\n");

__attribute__((noinline)) static int read_all(void)
{
    int size = 0, count;
    while ((count = call(READ, 0, (int)text + size, 7, 0, 0, 0)) > 0)
        size += count;
    return size;
}

__attribute__((noinline)) static void count_words(int size)
{
    int length = 0;
    for (int i = 0; i <= size; i++) {
        int inside = i < size && text[i] != ' ' && text[i] != '\n';
        if (inside)
            length++;
        else if (length > 0 && words < MOST) {
            lengths[words++] = length;
            length = 0;
        }
    }
}

__attribute__((noinline)) static void print(const char *name, unsigned number)
{
    char line[32];
    int size = 0, place = 32;
    line[--place] = '\n';
    do
        line[--place] = (char)('0' + number % 10);
    while ((number /= 10) != 0);
    while (name[size] != 0)
        size++;
    call(WRITE, 1, (int)name, size, 0, 0, 0);
    call(WRITE, 1, (int)(line + place), 32 - place, 0, 0, 0);
}

__attribute__((noinline, used)) static int work(void)
{
    count_words(read_all());
    for (int i = 0; i < THREADS; i++) {
        int stack = call(MMAP, 0, STACK, 3, 0x22, -1, 0);
        shares[i].first = i;
        start(&shares[i], (void *)(stack + STACK));
    }
    for (int i = 0; i < THREADS; i++) {
        int tid;
        while ((tid = __atomic_load_n(&shares[i].tid, __ATOMIC_SEQ_CST)) != 0)
            call(FUTEX, (int)&shares[i].tid, 0, tid, 0, 0, 0);
    }
    print("words ", (unsigned)words);
    print("total ", (unsigned)total);
    call(WRITE, 2, (int)"done\n", 5, 0, 0, 0);
    return call(EXIT_GROUP, total % 200, 0, 0, 0, 0, 0);
}

__asm__(".globl _start\n_start:\n\t.option push\n\t.option norelax\n\tla gp,__global_pointer$\n\t.option pop\n\tj work\n");
