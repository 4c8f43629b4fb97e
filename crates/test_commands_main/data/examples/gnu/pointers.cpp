// Thrown pointers: caught as one to a base, as one to const, as void *, a null one, and by reference. A handler gets the pointer itself.
// `throw nullptr` is caught by no pointer type here, but it is elsewhere.
#include "rt.h"

struct Left {
    int left;
};
struct Right {
    int right;
};
struct Both : Left, Right {
    int own;
};

static Both both;
static const Both fixed = {};

NOINLINE void throw_pointer(int kind)
{
    if (kind == 0) throw &both;
    if (kind == 1) throw &fixed;
    if (kind == 2) throw static_cast<Both *>(0);
    throw nullptr;
}

NOINLINE char as_right(int kind)
{
    try {
        throw_pointer(kind);
    } catch (Right *it) {
        if (it == 0) return '0';
        return it == static_cast<Right *>(&both) ? '1' : '?';
    } catch (const Right *it) {
        return it == static_cast<const Right *>(&fixed) ? '2' : '?';
    }
    return '?';
}

NOINLINE char as_void(int kind)
{
    try {
        throw_pointer(kind);
    } catch (void *it) {
        return it == &both ? '3' : it == 0 ? 'n' : '?';
    } catch (...) {
        return '4';
    }
    return '?';
}

NOINLINE char as_reference(int kind)
{
    try {
        throw_pointer(kind);
    } catch (Both *const &it) {
        return it == &both ? '5' : '?';
    }
    return '?';
}

int main()
{
    for (int kind = 0; kind < 3; kind++) putchar(as_right(kind));
    putchar(as_void(0));
    putchar(as_void(1));
    putchar(as_reference(0));
    putchar(as_void(3));
    return 0;
}
