/* Thread-locals of a program with one thread, for processors without atomic instructions too */
#include <errno.h>
#include <stdio.h>
#include <stdlib.h>

static _Thread_local int given = 7;
static _Thread_local int zero[3000];
static int behind[3000];

int main(void)
{
    int others = 0;
    for (int i = 0; i < 3000; i++) {
        others += zero[i] != 0;
        zero[i] = 1;
    }
    for (int i = 0; i < 3000; i++)
        others += behind[i] != 0;
    errno = 0;
    strtol("99999999999", NULL, 10);
    printf("given %d, %d others not zero, too large: %d\n", given, others, errno == ERANGE);
    return 0;
}
