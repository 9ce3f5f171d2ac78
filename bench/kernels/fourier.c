// The fast Fourier transform of 1,024 complex numbers, in place.
#include "floats.h"

#define SIZE 1024

static double real[SIZE], imaginary[SIZE], cosine[SIZE / 2], sine[SIZE / 2];

static void swap(double *first, double *second) {
    double kept = *first;
    *first = *second;
    *second = kept;
}

static void reorder(void) {
    for (u32 i = 1, j = 0; i < SIZE; i++) {
        u32 bit = SIZE >> 1;
        for (; j & bit; bit >>= 1) {
            j ^= bit;
        }
        j ^= bit;
        if (i < j) {
            swap(&real[i], &real[j]);
            swap(&imaginary[i], &imaginary[j]);
        }
    }
}

static __attribute__((noinline)) void transform(void) {
    reorder();
    for (u32 length = 2; length <= SIZE; length <<= 1) {
        u32 half = length / 2, step = SIZE / length;
        for (u32 i = 0; i < SIZE; i += length) {
            for (u32 k = 0; k < half; k++) {
                u32 at = i + k, other = at + half;
                double c = cosine[k * step], s = sine[k * step];
                double x = real[other] * c - imaginary[other] * s, y = real[other] * s + imaginary[other] * c;
                real[other] = real[at] - x;
                imaginary[other] = imaginary[at] - y;
                real[at] += x;
                imaginary[at] += y;
            }
        }
    }
}

u64 kernel(u32 turns) {
    double c = 1, s = 0;
    for (u32 i = 0; i < SIZE / 2; i++) {
        cosine[i] = c;
        sine[i] = s;
        double next = c * 0.99998117528260111 + s * 0.0061358846491544753;
        s = s * 0.99998117528260111 - c * 0.0061358846491544753;
        c = next;
    }
    for (u32 i = 0; i < SIZE; i++) {
        real[i] = i * 7919 % 1000;
        imaginary[i] = 0;
    }
    for (u32 n = 0; n < turns; n++) {
        transform();
        for (u32 i = 0; i < SIZE; i++) {
            real[i] *= 0.03125;
            imaginary[i] *= 0.03125;
        }
    }
    double sum = 0;
    for (u32 i = 0; i < SIZE; i++) {
        sum += real[i] * real[i] + imaginary[i] * imaginary[i];
    }
    return bits_of(sum);
}
