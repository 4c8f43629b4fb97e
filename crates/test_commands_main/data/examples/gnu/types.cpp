// Catches by a base: one that stands further on in the object, a private one and one that is there twice, which don't match,
// and by value, with a copy constructor.
#include "rt.h"

struct Left {
    int left;
    explicit Left(int n) : left(n) {}
};
struct Right {
    int right;
    explicit Right(int n) : right(n) {}
};
struct Both : Left, Right {
    Both() : Left(1), Right(2) {}
};
struct Hidden : private Right, Left {
    Hidden() : Right(3), Left(4) {}
};
struct One : Right {
    One() : Right(5) {}
};
struct Other : Right {
    Other() : Right(6) {}
};
struct Twice : One, Other {};
struct Copied {
    int copies;
    Copied() : copies(7) {}
    Copied(const Copied &from) : copies(from.copies + 1) {}
};

template <class T> NOINLINE void throw_one() { throw T(); }

NOINLINE void throw_kind(int kind)
{
    if (kind == 0) throw_one<Both>();
    if (kind == 1) throw_one<Hidden>();
    if (kind == 2) throw_one<Twice>();
    if (kind == 3) throw_one<One>();
    throw_one<Copied>();
}

NOINLINE int caught(int kind)
{
    try {
        throw_kind(kind);
    } catch (Right &it) {
        return it.right;
    } catch (Left &it) {
        return 10 + it.left;
    } catch (Copied it) {
        return 20 + it.copies;
    } catch (...) {
    }
    return 0;
}

int main()
{
    for (int kind = 0; kind < 5; kind++) {
        if (kind > 0) putchar(' ');
        decimal(caught(kind));
    }
    return 0;
}
