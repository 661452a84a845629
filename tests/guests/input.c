/* Reads its input in four ways one after another, and says how many bytes and lines there were in all. */
#include <stdio.h>
#include <string.h>

static long bytes, lines;

static void count(const char *text, size_t length)
{
    bytes += length;
    for (size_t i = 0; i < length; i++)
        lines += text[i] == '\n';
}

int main(void)
{
    char text[5000];
    int number, byte;
    for (int i = 0; i < 10 && fgets(text, 40, stdin); i++)
        count(text, strlen(text));
    count(text, fread(text, 1, sizeof text, stdin));
    if (scanf("%d", &number) == 1)
        printf("the number %d\n", number);
    if ((byte = getchar()) == ';') {
        ungetc('!', stdin);
        printf("%c, then %c\n", byte, getchar());
    }
    while ((byte = getchar()) != EOF) {
        char one = byte;
        count(&one, 1);
    }
    printf("%ld bytes, %ld lines, at the end %d, error %d\n", bytes, lines, feof(stdin) != 0, ferror(stdin) != 0);
    return 0;
}
