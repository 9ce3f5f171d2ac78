// Integers of floats and floats of integers, with rounding: what drawing and sound do.
#include "floats.h"

#define SIZE 4096

static u8 picture[SIZE];

static __attribute__((noinline)) double drawn(u32 n) {
    double sum = 0;
    for (u32 i = 0; i < SIZE; i++) {
        double value = i * 0.37 + n;
        picture[i] = (int)(value * 0.01);
        sum += picture[i] * 0.5 + __builtin_floor(value);
    }
    return sum;
}

u64 kernel(u32 turns) {
    double sum = 0;
    for (u32 n = 0; n < turns; n++) {
        sum += drawn(n);
    }
    return bits_of(sum);
}
