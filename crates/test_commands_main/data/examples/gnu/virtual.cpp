// Catches by a virtual base, which stands once in the object and is reached by two ways; the caught object's functions are called.
#include "rt.h"

struct Top {
    int top;
    virtual int all() { return top; }
};
struct Left : virtual Top {
    int left;
};
struct Right : virtual Top {
    int right;
};
struct Diamond : Left, Right {
    int own;
    Diamond()
    {
        top = 1;
        left = 20;
        right = 300;
        own = 4000;
    }
    int all() override { return top + left + right + own; }
};

NOINLINE void fail()
{
    Diamond it;
    throw it;
}

NOINLINE int caught(int by)
{
    if (by == 0) {
        try {
            fail();
        } catch (Top &it) {
            return it.all() + it.top;
        }
    }
    if (by == 1) {
        try {
            fail();
        } catch (Right &it) {
            return it.right + it.top;
        }
    }
    try {
        fail();
    } catch (Left it) {
        return it.left + it.all();
    }
    return 0;
}

int main()
{
    for (int by = 0; by < 3; by++) {
        if (by > 0) putchar(' ');
        decimal(caught(by));
    }
    return 0;
}
