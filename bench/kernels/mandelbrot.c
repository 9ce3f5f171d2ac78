// The Mandelbrot set: how long 64 by 64 points take to leave a circle. Few numbers, no memory.
#include "floats.h"

#define SIZE 64
#define LIMIT 100

static u32 turns_of(double x, double y) {
    double a = 0, b = 0;
    u32 n = 0;
    while (n < LIMIT && a * a + b * b <= 4.0) {
        double c = a * a - b * b + x;
        b = 2.0 * a * b + y;
        a = c;
        n++;
    }
    return n;
}

u64 kernel(u32 turns) {
    u64 sum = 0;
    for (u32 n = 0; n < turns; n++) {
        for (u32 i = 0; i < SIZE; i++) {
            for (u32 j = 0; j < SIZE; j++) {
                sum += turns_of(j * (3.0 / SIZE) - 2.0 + n * 0.001, i * (2.4 / SIZE) - 1.2);
            }
        }
    }
    return sum;
}
