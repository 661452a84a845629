/* A recursion of 100,000 calls */
#include <stdio.h>

static long long sum_to(int number)
{
    return number == 0 ? 0 : number + sum_to(number - 1);
}

int main(void)
{
    printf("%lld\n", sum_to(100000));
    return 0;
}
