/* setjmp and longjmp: out of a recursion, with 0 that becomes 1, and through frames of a cycle */
#include <setjmp.h>
#include <stdio.h>

static jmp_buf outer, inner;
static int depth;

static void odd(int number);

static void even(int number)
{
    depth++;
    if (number == 0)
        longjmp(outer, 42);
    odd(number - 1);
}

static void odd(int number)
{
    depth++;
    even(number - 1);
}

static int retried(void)
{
    volatile int tries = 0;
    int reason = setjmp(inner);
    tries++;
    if (tries < 4)
        longjmp(inner, tries == 1 ? 0 : tries);
    return reason * 10 + tries;
}

int main(void)
{
    int reason = setjmp(outer);
    if (reason == 0)
        even(500);
    printf("%d after %d calls\n", reason, depth);
    printf("%d\n", retried());
    return 0;
}
