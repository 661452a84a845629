/* Six threads take, fill, grow and give back blocks of one heap, and look whether each still holds what they wrote. */
#include <stdio.h>
#include <stdlib.h>
#include <string.h>
#include <threads.h>

enum { THREADS = 6, BLOCKS = 12, ROUNDS = 120 };

static int holds(const unsigned char *block, int length, int value)
{
    for (int i = 0; i < length; i++)
        if (block[i] != value)
            return 0;
    return 1;
}

static int work(void *argument)
{
    unsigned value = *(int *)argument, seed = value;
    unsigned char *blocks[BLOCKS] = {NULL};
    int lengths[BLOCKS] = {0}, broken = 0;
    for (int round = 0; round < ROUNDS; round++) {
        seed = seed * 1103515245 + 12345;
        int place = (seed >> 16) % BLOCKS, length = 1 + (seed >> 20) % 200;
        broken += !holds(blocks[place], lengths[place], value);
        if (blocks[place] && seed >> 31) {
            free(blocks[place]);
            blocks[place] = NULL;
            lengths[place] = 0;
            continue;
        }
        unsigned char *grown = realloc(blocks[place], length);
        if (!grown)
            return -1;
        broken += !holds(grown, length < lengths[place] ? length : lengths[place], value);
        memset(grown, value, length);
        blocks[place] = grown;
        lengths[place] = length;
    }
    for (int place = 0; place < BLOCKS; place++) {
        broken += !holds(blocks[place], lengths[place], value);
        free(blocks[place]);
    }
    return broken;
}

int main(void)
{
    thrd_t threads[THREADS];
    int values[THREADS], broken = 0;
    for (int i = 0; i < THREADS; i++) {
        values[i] = i + 1;
        if (thrd_create(&threads[i], work, &values[i]) != thrd_success)
            return 1;
    }
    for (int i = 0; i < THREADS; i++) {
        int result;
        thrd_join(threads[i], &result);
        broken += result;
    }
    printf("%d threads, %d rounds each, %d blocks broken\n", THREADS, ROUNDS, broken);
    return 0;
}
