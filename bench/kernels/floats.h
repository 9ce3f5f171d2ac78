// What kernels with floats stand on beside guest.h: the bits of a result.
#ifndef FLOATS_H
#define FLOATS_H

#include "guest.h"

static inline u64 bits_of(double number) {
    union {
        double number;
        u64 bits;
    } both = {number};
    return both.bits;
}

#endif
