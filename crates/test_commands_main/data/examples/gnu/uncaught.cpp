// Nobody catches what is thrown: the run ends, and nothing is destroyed before.
#include "rt.h"

NOINLINE void fail()
{
    Loud loud('i');
    putchar('-');
    throw 3;
}

int main()
{
    Loud loud('o');
    try {
        fail();
    } catch (char) {
        putchar('X');
    }
    return 0;
}
