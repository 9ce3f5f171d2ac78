// Products of square matrices of doubles.
#include "floats.h"

#define SIZE 40

static double a[SIZE][SIZE], b[SIZE][SIZE], c[SIZE][SIZE];

static __attribute__((noinline)) void multiply(void) {
    for (u32 i = 0; i < SIZE; i++) {
        for (u32 j = 0; j < SIZE; j++) {
            double sum = 0;
            for (u32 k = 0; k < SIZE; k++) {
                sum += a[i][k] * b[k][j];
            }
            c[i][j] = sum;
        }
    }
}

u64 kernel(u32 turns) {
    for (u32 i = 0; i < SIZE; i++) {
        for (u32 j = 0; j < SIZE; j++) {
            a[i][j] = i * 0.25 + j;
            b[i][j] = i * 0.5 - j * 0.125;
        }
    }
    double sum = 0;
    for (u32 n = 0; n < turns; n++) {
        multiply();
        for (u32 i = 0; i < SIZE; i++) {
            a[i][n % SIZE] = c[n % SIZE][i] * 0.001 + n;
            sum += c[i][i];
        }
    }
    return bits_of(sum);
}
