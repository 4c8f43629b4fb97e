// Products, quotients and rests of 64 bits, of each two of nine numbers; a division by zero throws the dividend.
#include "rt.h"

typedef unsigned long long Word;

static const Word NUMBERS[9] = {0, 1, 3, 10, 0xFFFF, 0x100000000, 0x123456789ABCDEF, 0x8000000000000000, 0xFFFFFFFFFFFFFFFD};

NOINLINE Word quotient(Word n, Word by)
{
    if (by == 0) throw n;
    return n / by;
}

NOINLINE long long rest(long long n, long long by)
{
    if (by == 0) throw n;
    return n / by ^ n % by;
}

NOINLINE static void hexadecimal(unsigned n)
{
    for (int place = 28; place >= 0; place -= 4) putchar("0123456789ABCDEF"[n >> place & 15]);
}

NOINLINE static void line(Word n)
{
    hexadecimal(n >> 32);
    hexadecimal(n);
    putchar('\n');
}

int main()
{
    Word products = 0, quotients = 0, rests = 0, zeros = 0;
    for (Word n : NUMBERS) {
        for (Word by : NUMBERS) {
            products = products * 31 + n * by;
            try {
                quotients = quotients * 31 + quotient(n, by) + n % by;
                rests = rests * 31 + rest(n, by);
            } catch (Word dividend) {
                zeros += dividend;
            }
        }
    }
    line(products);
    line(quotients);
    line(rests);
    line(zeros);
    return 0;
}
