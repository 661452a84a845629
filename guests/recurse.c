/* Reads sums such as (1+2)*3, a line each, and prints what they come to: three functions that call each other. */
#include <ctype.h>
#include <stdio.h>

static const char *place;

static int sum(void);

static int factor(void)
{
    if (*place == '(') {
        place++;
        int value = sum();
        if (*place == ')')
            place++;
        return value;
    }
    int value = 0;
    while (isdigit((unsigned char)*place))
        value = value * 10 + (*place++ - '0');
    return value;
}

static int product(void)
{
    int value = factor();
    while (*place == '*') {
        place++;
        value *= factor();
    }
    return value;
}

static int sum(void)
{
    int value = product();
    while (*place == '+' || *place == '-') {
        int sign = *place++ == '+' ? 1 : -1;
        value += sign * product();
    }
    return value;
}

int main(void)
{
    char line[256];
    while (fgets(line, sizeof line, stdin)) {
        place = line;
        printf("%d\n", sum());
    }
    return 0;
}
