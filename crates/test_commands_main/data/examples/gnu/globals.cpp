// Constructors of globals run before main, in their order, where the image is linked with start.s. One of them throws and catches.
#include "rt.h"

NOINLINE int checked(int n)
{
    if (n > 9) throw n;
    return n;
}

struct Counted {
    int n;
    explicit Counted(int k)
    {
        try {
            n = checked(k);
        } catch (int big) {
            n = big / 10;
        }
        putchar('c');
    }
};

static Counted small(3);
static Counted big(47);

int main()
{
    decimal(small.n);
    decimal(big.n);
    return 0;
}
