/* When output is written: at the end of each line, or when it is asked for, or at the end of the program */
#include <stdio.h>
#include <unistd.h>

static void direct(const char *text)
{
    write(1, text, 2);
}

int main(void)
{
    printf("1\n");
    direct("2\n");
    printf("4");
    direct("3\n");
    printf("\n");
    printf("5");
    fflush(stdout);
    direct("6\n");
    setvbuf(stdout, NULL, _IONBF, 0);
    printf("7");
    direct("8\n");
    setvbuf(stdout, NULL, _IOFBF, 1000);
    printf("10\n");
    direct("9\n");
    fflush(NULL);
    putchar('1');
    putc('1', stdout);
    fputc('\n', stdout);
    setvbuf(stdout, NULL, _IOLBF, 1000);
    puts("12");
    printf("%d %s", fclose(stdin), "13");
    return 0;
}
