// Five bodies that attract each other, in small steps of time: sums, products, a root and a division for each pair.
#include "floats.h"

#define COUNT 5

struct body {
    double x, y, z, vx, vy, vz, mass;
};

static struct body bodies[COUNT];

static void pull(struct body *first, struct body *second, double time) {
    double x = first->x - second->x, y = first->y - second->y, z = first->z - second->z;
    double square = x * x + y * y + z * z + 0.01;
    double force = time / (square * __builtin_sqrt(square));
    double of_first = first->mass * force, of_second = second->mass * force;
    first->vx -= x * of_second;
    first->vy -= y * of_second;
    first->vz -= z * of_second;
    second->vx += x * of_first;
    second->vy += y * of_first;
    second->vz += z * of_first;
}

static __attribute__((noinline)) void step(double time) {
    for (u32 i = 0; i < COUNT; i++) {
        for (u32 j = i + 1; j < COUNT; j++) {
            pull(&bodies[i], &bodies[j], time);
        }
    }
    for (u32 i = 0; i < COUNT; i++) {
        struct body *it = &bodies[i];
        it->x += time * it->vx;
        it->y += time * it->vy;
        it->z += time * it->vz;
    }
}

u64 kernel(u32 turns) {
    for (u32 i = 0; i < COUNT; i++) {
        bodies[i] = (struct body){i * 3.5, i * -1.25, i * 0.5, i * 0.1, 0.7 - i * 0.2, i * 0.03, i == 0 ? 30.0 : 0.4 / i};
    }
    for (u32 n = 0; n < turns; n++) {
        step(0.01);
    }
    double energy = 0;
    for (u32 i = 0; i < COUNT; i++) {
        struct body *it = &bodies[i];
        energy += 0.5 * it->mass * (it->vx * it->vx + it->vy * it->vy + it->vz * it->vz);
    }
    return bits_of(energy);
}
