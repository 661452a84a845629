/* An assertion that doesn't hold ends the program by signal 6, after what was printed before. */
#include <assert.h>
#include <stdio.h>

static int half(int number)
{
    assert(number % 2 == 0);
    return number / 2;
}

int main(void)
{
    printf("%d\n", half(4));
    printf("%d\n", half(5));
    return 0;
}
