#include "numbers.h"

int calls;

__attribute__((noinline)) static int step(int n)
{
    calls++;
    return clamp(square(n), 90);
}

int sum_of_squares(int last)
{
    int sum = 0;
    for (int i = 1; i <= last; i++)
        sum += step(i);
    return sum;
}
