// A destructor that a throw runs throws and catches by itself; a handler throws again what it caught, and another one something else.
#include "rt.h"

NOINLINE void fail(int n)
{
    Loud loud('.');
    throw n;
}

struct Careful {
    int n;
    explicit Careful(int k) : n(k) {}
    ~Careful()
    {
        try {
            fail(n);
        } catch (int caught) {
            decimal(caught);
        }
    }
};

NOINLINE void work()
{
    Careful one(1), two(2);
    throw 'w';
}

NOINLINE void again()
{
    try {
        work();
    } catch (char &c) {
        c++;
        throw;
    }
}

NOINLINE void other()
{
    try {
        again();
    } catch (char c) {
        putchar(c);
        throw 'y' - c;
    }
}

int main()
{
    try {
        other();
    } catch (int n) {
        decimal(n);
    }
    return 0;
}
