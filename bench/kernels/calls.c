// Many calls of small functions, with one to three parameters, with and without locals; two of them call each other.
#include "guest.h"

static u32 seen[16];

static __attribute__((noinline)) void note(u32 at) { seen[at & 15]++; }

static __attribute__((noinline)) u32 twice(u32 a) { return a + a; }

static __attribute__((noinline)) u64 mixed(u64 a, u64 b, u32 c) {
    u64 x = a * 31 + b, y = x ^ (a >> 7), z = y * c;
    for (u32 i = 0; i < 2; i++) {
        x += z ^ y;
        y = y * x + i;
        z -= x;
    }
    return x ^ y ^ z;
}

static __attribute__((noinline)) u32 even(u32 n);

static __attribute__((noinline)) u32 odd(u32 n) { return n == 0 ? 0 : even(n - 1) + seen[n & 15]; }

static __attribute__((noinline)) u32 even(u32 n) { return n == 0 ? 1 : odd(n - 1) ^ seen[n & 15]; }

u64 kernel(u32 rounds) {
    u64 a = 1;
    for (u32 i = 0; i < rounds; i++) {
        note(i);
        a = mixed(a, i, twice(i));
        a += even(i & 7);
    }
    return a;
}
