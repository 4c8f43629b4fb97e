/* A plain interpreter of the Armv6-M instructions, to count the loops of flat_loops.sh beside (bench/costs.sh): decode
   and do by one switch, two segments, no guards, no traces, nothing proved. Its words are a file of raw code and how
   many events; it prints how many were done. */
#include <stdint.h>
#include <stdio.h>
#include <stdlib.h>

enum { CODE = 0x8000, CODE_SIZE = 0x10000, STACK = 0x3FFF0000, STACK_SIZE = 0x10000 };
static uint8_t code[CODE_SIZE], stack[STACK_SIZE];
static uint32_t r[16];
static int n, z, c, v, bad;

static uint8_t *at(uint32_t a, uint32_t bytes) {
    if (a & (bytes - 1)) {
        bad = 1;
        return stack;
    }
    if (a - STACK <= STACK_SIZE - bytes) return stack + (a - STACK);
    if (a - CODE <= CODE_SIZE - bytes) return code + (a - CODE);
    bad = 1;
    return stack;
}
static uint32_t load(uint32_t a, uint32_t bytes) {
    uint8_t *p = at(a, bytes);
    return bytes == 4 ? *(uint32_t *)p : bytes == 2 ? *(uint16_t *)p : *p;
}
static void store(uint32_t a, uint32_t bytes, uint32_t x) {
    uint8_t *p = at(a, bytes);
    if (bytes == 4) *(uint32_t *)p = x;
    else if (bytes == 2) *(uint16_t *)p = x;
    else *p = x;
}
static uint32_t nz(uint32_t x) {
    n = x >> 31;
    z = x == 0;
    return x;
}
static uint32_t add(uint32_t x, uint32_t y, uint32_t carry) {
    uint64_t sum = (uint64_t)x + y + carry;
    uint32_t out = (uint32_t)sum;
    c = sum >> 32;
    v = (~(x ^ y) & (x ^ out)) >> 31;
    return nz(out);
}
static uint32_t shift(int op, uint32_t x, uint32_t by) {
    if (by == 0) return nz(x);
    switch (op) {
    case 0: c = by <= 32 ? (by == 32 ? x : x >> (32 - by)) & 1 : 0; return nz(by < 32 ? x << by : 0);
    case 1: c = by <= 32 ? x >> (by - 1) & 1 : 0; return nz(by < 32 ? x >> by : 0);
    case 2:
        if (by > 31) {
            c = x >> 31;
            return nz((uint32_t)((int32_t)x >> 31));
        }
        c = x >> (by - 1) & 1;
        return nz((uint32_t)((int32_t)x >> by));
    default:
        by &= 31;
        if (by) x = x >> by | x << (32 - by);
        c = x >> 31;
        return nz(x);
    }
}
static int holds(int cond) {
    static const uint8_t of[8] = {0, 1, 2, 3, 4, 5, 6, 7};
    int is;
    switch (of[cond >> 1]) {
    case 0: is = z; break;
    case 1: is = c; break;
    case 2: is = n; break;
    case 3: is = v; break;
    case 4: is = c && !z; break;
    case 5: is = n == v; break;
    case 6: is = !z && n == v; break;
    default: is = 1;
    }
    return cond & 1 ? !is : is;
}
static void data(uint32_t i) {
    uint32_t m = r[i >> 3 & 7], *d = &r[i & 7];
    switch (i >> 6 & 15) {
    case 0: *d = nz(*d & m); break;
    case 1: *d = nz(*d ^ m); break;
    case 2:
    case 3:
    case 4: *d = shift((i >> 6 & 15) - 2, *d, m & 255); break;
    case 5: *d = add(*d, m, c); break;
    case 6: *d = add(*d, ~m, c); break;
    case 7: *d = shift(3, *d, m & 255); break;
    case 8: nz(*d & m); break;
    case 9: *d = add(~m, 0, 1); break;
    case 10: add(*d, ~m, 1); break;
    case 11: add(*d, m, 0); break;
    case 12: *d = nz(*d | m); break;
    case 13: *d = nz(*d * m); break;
    case 14: *d = nz(*d & ~m); break;
    default: *d = nz(~m);
    }
}
static int event(void) {
    uint32_t pc = r[15], i = load(pc, 2), next = pc + 2;
    switch (i >> 11) {
    case 0:
    case 1: {
        uint32_t by = i >> 6 & 31;
        r[i & 7] = shift(i >> 11, r[i >> 3 & 7], by || i < 0x800 ? by : 32);
        break;
    }
    case 2: {
        uint32_t by = i >> 6 & 31;
        r[i & 7] = shift(2, r[i >> 3 & 7], by ? by : 32);
        break;
    }
    case 3: {
        uint32_t y = i & 0x400 ? i >> 6 & 7 : r[i >> 6 & 7];
        r[i & 7] = i & 0x200 ? add(r[i >> 3 & 7], ~y, 1) : add(r[i >> 3 & 7], y, 0);
        break;
    }
    case 4: r[i >> 8 & 7] = nz(i & 255); break;
    case 5: add(r[i >> 8 & 7], ~(i & 255), 1); break;
    case 6: r[i >> 8 & 7] = add(r[i >> 8 & 7], i & 255, 0); break;
    case 7: r[i >> 8 & 7] = add(r[i >> 8 & 7], ~(i & 255), 1); break;
    case 8:
        if (!(i & 0x400)) {
            data(i);
            break;
        }
        {
            uint32_t d = (i & 7) | (i >> 4 & 8), m = i >> 3 & 15, x = m == 15 ? pc + 4 : r[m],
                     y = d == 15 ? pc + 4 : r[d];
            switch (i >> 8 & 3) {
            case 0:
                x += y;
                if (d == 15) next = x & ~1u;
                else r[d] = x;
                break;
            case 1: add(y, ~x, 1); break;
            case 2:
                if (d == 15) next = x & ~1u;
                else r[d] = x;
                break;
            default:
                if (!(x & 1)) return 0;
                if (i & 0x80) r[14] = next | 1;
                next = x & ~1u;
            }
            break;
        }
    case 9: r[i >> 8 & 7] = load(((pc + 4) & ~3u) + (i & 255) * 4, 4); break;
    case 10:
    case 11: {
        uint32_t a = r[i >> 3 & 7] + r[i >> 6 & 7], *t = &r[i & 7];
        switch (i >> 9 & 7) {
        case 0: store(a, 4, *t); break;
        case 1: store(a, 2, *t); break;
        case 2: store(a, 1, *t); break;
        case 3: *t = (uint32_t)(int8_t)load(a, 1); break;
        case 4: *t = load(a, 4); break;
        case 5: *t = load(a, 2); break;
        case 6: *t = load(a, 1); break;
        default: *t = (uint32_t)(int16_t)load(a, 2);
        }
        break;
    }
    case 12: store(r[i >> 3 & 7] + (i >> 6 & 31) * 4, 4, r[i & 7]); break;
    case 13: r[i & 7] = load(r[i >> 3 & 7] + (i >> 6 & 31) * 4, 4); break;
    case 14: store(r[i >> 3 & 7] + (i >> 6 & 31), 1, r[i & 7]); break;
    case 15: r[i & 7] = load(r[i >> 3 & 7] + (i >> 6 & 31), 1); break;
    case 16: store(r[i >> 3 & 7] + (i >> 6 & 31) * 2, 2, r[i & 7]); break;
    case 17: r[i & 7] = load(r[i >> 3 & 7] + (i >> 6 & 31) * 2, 2); break;
    case 18: store(r[13] + (i & 255) * 4, 4, r[i >> 8 & 7]); break;
    case 19: r[i >> 8 & 7] = load(r[13] + (i & 255) * 4, 4); break;
    case 20: r[i >> 8 & 7] = ((pc + 4) & ~3u) + (i & 255) * 4; break;
    case 21: r[i >> 8 & 7] = r[13] + (i & 255) * 4; break;
    case 22:
    case 23:
        switch (i >> 8 & 15) {
        case 0: r[13] += i & 0x80 ? -(i & 127) * 4 : (i & 127) * 4; break;
        case 2: {
            uint32_t m = r[i >> 3 & 7];
            r[i & 7] = i & 0x80 ? (i & 0x40 ? (uint8_t)m : (uint16_t)m) : (uint32_t)(i & 0x40 ? (int8_t)m : (int16_t)m);
            break;
        }
        case 4:
        case 5: {
            uint32_t a = r[13] - 4 * __builtin_popcount(i & 0x1FF);
            r[13] = a;
            for (int k = 0; k < 8; k++)
                if (i >> k & 1) {
                    store(a, 4, r[k]);
                    a += 4;
                }
            if (i & 0x100) store(a, 4, r[14]);
            break;
        }
        case 12:
        case 13: {
            uint32_t a = r[13];
            for (int k = 0; k < 8; k++)
                if (i >> k & 1) {
                    r[k] = load(a, 4);
                    a += 4;
                }
            if (i & 0x100) {
                uint32_t to = load(a, 4);
                a += 4;
                if (!(to & 1)) return 0;
                next = to & ~1u;
            }
            r[13] = a;
            break;
        }
        case 10: {
            uint32_t m = r[i >> 3 & 7], s = __builtin_bswap32(m);
            r[i & 7] = (i >> 6 & 3) == 0 ? s : (i >> 6 & 3) == 1 ? s >> 16 | s << 16 : (uint32_t)(int16_t)(s >> 16);
            break;
        }
        case 15: break;
        default: return 0;
        }
        break;
    case 24: {
        uint32_t a = r[i >> 8 & 7];
        for (int k = 0; k < 8; k++)
            if (i >> k & 1) {
                store(a, 4, r[k]);
                a += 4;
            }
        r[i >> 8 & 7] = a;
        break;
    }
    case 25: {
        uint32_t a = r[i >> 8 & 7];
        for (int k = 0; k < 8; k++)
            if (i >> k & 1) {
                r[k] = load(a, 4);
                a += 4;
            }
        if (!(i >> (i >> 8 & 7) & 1)) r[i >> 8 & 7] = a;
        break;
    }
    case 26:
    case 27:
        if ((i >> 8 & 15) > 13) return 0;
        if (holds(i >> 8 & 15)) next = pc + 4 + (uint32_t)((int32_t)(int8_t)i * 2);
        break;
    case 28: next = pc + 4 + (uint32_t)((int32_t)(i << 21) >> 20); break;
    case 30: {
        uint32_t j = load(pc + 2, 2), s = i >> 10 & 1;
        if ((j & 0xD000) != 0xD000) return 0;
        uint32_t i1 = !((j >> 13 & 1) ^ s), i2 = !((j >> 11 & 1) ^ s);
        int32_t off = (int32_t)(s << 24 | i1 << 23 | i2 << 22 | (i & 0x3FF) << 12 | (j & 0x7FF) << 1);
        r[14] = (pc + 4) | 1;
        next = pc + 4 + (uint32_t)(off << 7 >> 7);
        break;
    }
    default: return 0;
    }
    r[15] = next;
    return !bad;
}
int main(int argc, char **argv) {
    FILE *f = argc == 3 ? fopen(argv[1], "rb") : NULL;
    if (!f || fread(code, 1, CODE_SIZE, f) == 0) return 2;
    uint64_t left = strtoull(argv[2], NULL, 10), did = 0;
    r[13] = STACK + STACK_SIZE;
    r[15] = CODE;
    while (did < left && event()) did++;
    printf("%llu events\n", (unsigned long long)did);
    return did != left;
}
