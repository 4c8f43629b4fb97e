// Made by clang: cleanups, a handler that throws again, a catch by a base, and last a throw that reaches a noexcept function. clang writes
// a handler there, which calls std::terminate.
#include "rt.h"

struct Base {
    int n;
};
struct Derived : Base {
    Derived(int k) { n = k; }
};

NOINLINE void fail(int n)
{
    Loud loud('i');
    throw Derived(n);
}

NOINLINE void again(int n)
{
    Loud loud('o');
    try {
        fail(n);
    } catch (Derived &it) {
        it.n++;
        throw;
    }
}

NOINLINE void sure(int n) noexcept
{
    again(n);
}

int main()
{
    try {
        again(4);
    } catch (Base &it) {
        decimal(it.n);
    }
    sure(6);
    return 0;
}
