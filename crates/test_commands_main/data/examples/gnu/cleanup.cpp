// Objects are destroyed, the innermost first, while a throw passes their frames; on the way without a throw each at its block's end.
#include "rt.h"

NOINLINE void deepest(bool fails)
{
    Loud a('a');
    if (fails) throw 7;
    putchar('-');
}

NOINLINE void deeper(bool fails)
{
    Loud b('b');
    {
        Loud c('c');
        deepest(false);
    }
    deepest(fails);
    putchar('+');
}

NOINLINE void deep(bool fails)
{
    Loud d('d');
    deeper(fails);
    Loud e('e');
    putchar('*');
}

int main()
{
    deep(false);
    putchar(' ');
    try {
        deep(true);
    } catch (int n) {
        decimal(n);
    }
    return 0;
}
