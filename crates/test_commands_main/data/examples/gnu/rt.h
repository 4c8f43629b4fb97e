// What the programs here may use: the gates behind putchar, getchar and exit (docs/rules/linking.md), and a few words of their own.
// On a computer with a C library the same sources run as they stand.
#ifndef RT_H
#define RT_H
#define NOINLINE __attribute__((noinline))

extern "C" int putchar(int);
extern "C" int getchar(void);
extern "C" void exit(int);

static inline void say(const char *text) { while (*text) putchar(*text++); }

NOINLINE static void decimal(unsigned n)
{
    if (n >= 10) decimal(n / 10);
    putchar('0' + n % 10);
}

// says its letter where it is destroyed
struct Loud {
    char letter;
    explicit Loud(char c) : letter(c) {}
    ~Loud() { putchar(letter); }
};
#endif
