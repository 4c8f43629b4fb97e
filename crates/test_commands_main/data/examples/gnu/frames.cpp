// A throw passes frames that have nothing to destroy. The numbers of the input are added up; a word that is no number is left out.
#include "rt.h"

NOINLINE int digit(int c)
{
    if (c < '0' || c > '9') throw c;
    return c - '0';
}

// the number that begins with c, up to the blank behind it
NOINLINE int number(int c)
{
    int n = 0;
    do {
        n = 10 * n + digit(c);
        c = getchar();
    } while (c > ' ');
    return n;
}

NOINLINE int twice(int c) { return 2 * number(c); }

int main()
{
    int sum = 0;
    for (int c = getchar(); c >= 0; c = getchar()) {
        try {
            sum += twice(c);
        } catch (int bad) {
            putchar(bad);
            say(" is no digit\n");
            while (getchar() > ' ') {}
        }
    }
    say("twice the sum is ");
    decimal(sum);
    return 0;
}
