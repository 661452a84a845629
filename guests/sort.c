/* Sorts the same numbers in two ways, and says how often each compared. */
#include <stdio.h>
#include <stdlib.h>
#include <string.h>

enum { COUNT = 400 };

static int compared;

static int by_value(const void *a, const void *b)
{
    compared++;
    return (*(const int *)a > *(const int *)b) - (*(const int *)a < *(const int *)b);
}

static void insertion_sort(int *numbers, int count)
{
    for (int i = 1; i < count; i++) {
        int number = numbers[i], place = i;
        while (place > 0 && by_value(&numbers[place - 1], &number) > 0) {
            numbers[place] = numbers[place - 1];
            place--;
        }
        numbers[place] = number;
    }
}

static void merge(int *numbers, int middle, int count, int *room)
{
    int left = 0, right = middle;
    for (int i = 0; i < count; i++) {
        int from_left = right == count || (left < middle && by_value(&numbers[left], &numbers[right]) <= 0);
        room[i] = from_left ? numbers[left++] : numbers[right++];
    }
    memcpy(numbers, room, count * sizeof *numbers);
}

static void merge_sort(int *numbers, int count, int *room)
{
    if (count < 2)
        return;
    merge_sort(numbers, count / 2, room);
    merge_sort(numbers + count / 2, count - count / 2, room);
    merge(numbers, count / 2, count, room);
}

int main(void)
{
    int *numbers = malloc(COUNT * sizeof *numbers), *others = malloc(COUNT * sizeof *others);
    int *room = malloc(COUNT * sizeof *room);
    unsigned seed = 1;
    if (!numbers || !others || !room)
        return 1;
    for (int i = 0; i < COUNT; i++) {
        seed = seed * 1103515245 + 12345;
        numbers[i] = others[i] = seed >> 16;
    }
    insertion_sort(numbers, COUNT);
    printf("insertion sort: %d comparisons\n", compared);
    compared = 0;
    merge_sort(others, COUNT, room);
    printf("merge sort: %d comparisons\n", compared);
    return memcmp(numbers, others, COUNT * sizeof *numbers) != 0;
}
