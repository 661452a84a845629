__attribute__((noinline)) static int square(int n) { return n * n; }
int total = 3;
int counts[4];
const char name[] = "hi";
__attribute__((weak)) int twice(int n) { return n + n; }
void _start(void) {
  int r = square(total) + twice(counts[1]) + name[0];
  register int a0 asm("a0") = r & 0;
  register int a7 asm("a7") = 93;
  asm volatile("ecall" :: "r"(a0), "r"(a7));
}
