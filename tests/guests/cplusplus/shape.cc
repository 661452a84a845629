#include "shape.h"
#include <stdio.h>

Named::Named(const char *name) : name(name)
{
    printf("made %s\n", name);
}

Named::~Named()
{
    printf("gone %s\n", name);
}

// Before main, and after it: which file comes first is open.
static int count;

struct Rounded {
    Rounded()
    {
        count += 1;
    }
    ~Rounded()
    {
        count += 10;
    }
};

static Rounded rounded;

int rounds()
{
    return count;
}

Oblong::Oblong(int width, int height) : width(width), height(height) {}

Oblong::~Oblong()
{
    printf("gone %d\n", area());
}

int Oblong::area() const
{
    return width * height;
}

Square::Square(int side) : Oblong(side, side) {}

const char *Square::name() const
{
    return "square";
}

struct Counter {
    int count = 0;
    ~Counter()
    {
        printf("counted %d\n", count);
    }
};

void counted()
{
    static Counter counter;
    counter.count++;
}
