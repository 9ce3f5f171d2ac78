// Floats of 32 bits: a filter over 256 numbers.
#include "floats.h"

#define SIZE 256

static float x[SIZE], y[SIZE];

static __attribute__((noinline)) float filtered(float sum) {
    for (u32 i = 0; i < SIZE; i++) {
        float value = x[i] * 1.5f + y[i];
        if (value > 300.0f) {
            value -= 300.0f;
        }
        x[i] = value * 0.5f;
        sum += value;
    }
    return sum * 0.5f;
}

u64 kernel(u32 turns) {
    for (u32 i = 0; i < SIZE; i++) {
        x[i] = i * 0.25f;
        y[i] = (SIZE - i) * 0.5f;
    }
    float sum = 0;
    for (u32 n = 0; n < turns; n++) {
        sum = filtered(sum);
    }
    return bits_of(sum);
}
