// C++ without exceptions and run-time types: globals of two files, virtual calls, static variables of functions, the
// heap.
#include "shape.h"
#include <stdio.h>
#include <stdlib.h>
#include <threads.h>

static Named first("first"), second("second");
static Named *const many = new Named[2]{Named("third"), Named("fourth")};

// After the destructors of the globals
__attribute__((destructor)) static void end()
{
    printf("rounds of the other file: %d\n", rounds());
}

template <typename Value> static Value larger(Value one, Value other)
{
    return one < other ? other : one;
}

struct Buffer {
    alignas(64) char bytes[64];
};

static int made;

struct Slow {
    int value;
    Slow()
    {
        for (int i = 0; i < 30; i++)
            thrd_yield();
        value = 40 + ++made;
    }
};

static int use_slow(void *)
{
    static Slow slow;
    return slow.value;
}

static int ended;

struct OfThread {
    int value = 5;
    ~OfThread()
    {
        ended += value;
    }
};

static thread_local OfThread own;

static int change_own(void *)
{
    own.value += 1;
    return own.value;
}

static int sum_of(thrd_start_t work)
{
    thrd_t threads[4];
    int sum = 0;
    for (thrd_t &one : threads)
        thrd_create(&one, work, nullptr);
    for (thrd_t one : threads) {
        int result;
        thrd_join(one, &result);
        sum += result;
    }
    return sum;
}

int main()
{
    puts("main");
    Shape *shapes[] = {new Square(3), new Oblong(2, 5), new Square(1)};
    for (Shape *shape : shapes) {
        printf("%s: %d\n", shape->name(), shape->area());
        delete shape;
    }
    delete[] many;
    printf("%d %d\n", larger(3, 7), larger('b', 'a') == 'b');
    int *numbers = new int[1000]();
    int sum = 0;
    for (int i = 0; i < 1000; i++)
        sum += numbers[i];
    delete[] numbers;
    Buffer *buffer = new Buffer;
    printf("zeros %d, aligned %d\n", sum, reinterpret_cast<size_t>(buffer) % 64 == 0);
    delete buffer;
    sum = sum_of(use_slow);
    printf("made %d, seen %d\n", made, sum);
    sum = sum_of(change_own);
    printf("own values %d, ended %d\n", sum, ended);
    for (int i = 0; i < 3; i++)
        counted();
    return 0;
}
