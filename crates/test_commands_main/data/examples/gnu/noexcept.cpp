// A throw that reaches a noexcept function ends the run. What stands inside that function is destroyed, the function's own objects aren't.
#include "rt.h"

NOINLINE void fail(bool fails)
{
    Loud loud('i');
    if (fails) throw 7;
    putchar('-');
}

NOINLINE void sure(bool fails) noexcept
{
    Loud loud('o');
    fails ? putchar('!') : putchar('?');
    fail(fails);
    putchar('+');
}

int main()
{
    sure(false);
    try {
        sure(true);
    } catch (int) {
        putchar('X');
    }
    return 0;
}
