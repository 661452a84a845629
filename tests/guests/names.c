/* A program may have functions of its own under the names of POSIX, and those of C's library still work. */
#include <stdio.h>
#include <stdlib.h>

int read(int number)
{
    return number + 1;
}

int write(int number)
{
    return number * 2;
}

int kill(int number)
{
    return number - 1;
}

static int close(int number)
{
    return number / 2;
}

int open, times = 7, sleep = 8, lock, wait, begin = 9;

int main(void)
{
    char text[20];
    printf("%d %d %d %d %d %d\n", read(1), write(2), kill(3), close(4), open, times + sleep + begin + lock + wait);
    while (fgets(text, sizeof text, stdin))
        fputs(text, stdout);
    char *block = malloc(100000);
    printf("%d\n", block != NULL);
    free(block);
    return 0;
}
