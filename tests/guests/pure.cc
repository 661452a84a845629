// A pure virtual function that is called before there is one ends the program by abort.
#include <stdio.h>

struct Base {
    Base()
    {
        call();
    }
    void call()
    {
        work();
    }
    virtual void work() = 0;
};

struct Whole : Base {
    void work() override
    {
        puts("never");
    }
};

int main()
{
    puts("main");
    Whole whole;
    whole.work();
    return 0;
}
