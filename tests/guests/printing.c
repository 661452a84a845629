/* Six threads print at once. What a call prints stays together, in the thread's order, also where it is longer than the
   buffer. */
#include <stdarg.h>
#include <stdio.h>
#include <string.h>
#include <threads.h>

enum { THREADS = 6, LINES = 4, LONG = 2500 };

static void say(const char *format, ...)
{
    va_list values;
    va_start(values, format);
    vfprintf(stdout, format, values);
    va_end(values);
}

static int work(void *argument)
{
    int thread = *(int *)argument;
    char text[LONG + 2];
    for (int line = 1; line <= LINES; line++) {
        printf("%d: printf %s %d of %d, %c%c\n", thread, "line", line, LINES, 'a' + thread, 'z');
        say("%d: vfprintf %05d %x\n", thread, line, 0xbeef);
    }
    snprintf(text, sizeof text, "%d: puts", thread);
    puts(text);
    snprintf(text, sizeof text, "%d: fputs\n", thread);
    fputs(text, stdout);
    snprintf(text, sizeof text, "%d: fwrite\n", thread);
    fwrite(text, 1, strlen(text), stdout);
    memset(text, '0' + thread, LONG);
    text[1] = ':';
    text[2] = ' ';
    text[LONG] = 0;
    printf("%s\n", text);
    fprintf(stderr, "%d: to the errors %d\n", thread, thread * 11);
    return 0;
}

int main(void)
{
    thrd_t threads[THREADS];
    int numbers[THREADS];
    for (int i = 0; i < THREADS; i++) {
        numbers[i] = i + 1;
        if (thrd_create(&threads[i], work, &numbers[i]) != thrd_success)
            return 1;
    }
    for (int i = 0; i < THREADS; i++)
        thrd_join(threads[i], NULL);
    puts("0: all have ended");
    return 0;
}
