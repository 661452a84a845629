/* What is called before main and after it, in the order of the ELF rules: the array before the constructors, rising
   priorities, then those without; at the end what was registered, the last first, then the destructors the other way
   round. */
#include <stdio.h>
#include <stdlib.h>

enum { REGISTERED = 100 };

static int begun = 5, called;

static void before_all(void)
{
    puts("before all constructors");
}

__attribute__((section(".preinit_array"), used)) static void (*const entry)(void) = before_all;

__attribute__((constructor)) static void plain(void)
{
    begun *= 2;
    printf("constructor: %d\n", begun);
}

__attribute__((constructor(102))) static void second(void)
{
    begun += 20;
    printf("constructor 102: %d\n", begun);
}

__attribute__((constructor(101))) static void first(void)
{
    begun += 1;
    printf("constructor 101: %d\n", begun);
}

__attribute__((destructor)) static void end_plain(void)
{
    printf("destructor: %d calls at exit\n", called);
}

__attribute__((destructor(102))) static void end_second(void)
{
    puts("destructor 102");
}

__attribute__((destructor(101))) static void end_first(void)
{
    puts("destructor 101");
}

static void count(void)
{
    called++;
}

static void registered_last(void)
{
    printf("the last is called first: %d before it\n", called);
}

int main(int argc, char **argv)
{
    printf("main: %d, %d argument, which ends with %s\n", begun, argc - 1, argv[1]);
    for (int i = 0; i < REGISTERED; i++)
        if (atexit(count) != 0)
            puts("refused");
    atexit(registered_last);
    return 0;
}
