// A dynamic exception specification, which C++17 has taken away: its table has a filter below 0 and is refused.
#include "rt.h"

NOINLINE void numbers(int n) throw(int)
{
    if (n > 9) throw n;
    throw 'n';
}

int main()
{
    try {
        numbers(12);
    } catch (int n) {
        decimal(n);
    }
    return 0;
}
