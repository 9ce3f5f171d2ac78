// A ray tracer over six balls: vectors in memory, roots, comparisons, calls of functions on floats.
#include "floats.h"

#define BALLS 6
#define WIDTH 64

struct vector {
    double x, y, z;
};

struct ball {
    struct vector middle;
    double radius, light, mirrors;
};

static struct ball balls[BALLS];

static struct vector moved(struct vector from, struct vector by, double times) {
    return (struct vector){from.x + by.x * times, from.y + by.y * times, from.z + by.z * times};
}

static double product(struct vector a, struct vector b) { return a.x * b.x + a.y * b.y + a.z * b.z; }

static struct vector unit(struct vector a) {
    double times = 1.0 / __builtin_sqrt(product(a, a));
    return (struct vector){a.x * times, a.y * times, a.z * times};
}

// The ball that the ray meets first, and how far away.
static __attribute__((noinline)) int met(struct vector from, struct vector to, double *distance) {
    int nearest = -1;
    *distance = 1e30;
    for (int i = 0; i < BALLS; i++) {
        struct vector away = moved(from, balls[i].middle, -1.0);
        double b = product(away, to);
        double inside = b * b - product(away, away) + balls[i].radius * balls[i].radius;
        if (inside > 0) {
            double root = __builtin_sqrt(inside), here = -b - root < 1e-6 ? -b + root : -b - root;
            if (here > 1e-6 && here < *distance) {
                *distance = here;
                nearest = i;
            }
        }
    }
    return nearest;
}

static double seen(struct vector from, struct vector to, u32 depth) {
    double distance, shadow;
    int i = met(from, to, &distance);
    if (i < 0) {
        return 0.5 + 0.5 * to.y;
    }
    struct vector point = moved(from, to, distance), up = unit(moved(point, balls[i].middle, -1.0));
    struct vector lamp = unit((struct vector){1, 2, -1.5}), start = moved(point, up, 1e-4);
    double bright = product(up, lamp);
    if (bright < 0) {
        bright = 0;
    }
    if (met(start, lamp, &shadow) >= 0) {
        bright *= 0.3;
    }
    double light = balls[i].light * (0.2 + 0.8 * bright);
    if (depth < 3 && balls[i].mirrors > 0) {
        struct vector back = unit(moved(to, up, -2 * product(to, up)));
        light += balls[i].mirrors * (seen(start, back, depth + 1) - light);
    }
    return light;
}

u64 kernel(u32 turns) {
    for (u32 i = 0; i < BALLS; i++) {
        balls[i] = (struct ball){{i * 1.1 - 2.7, i % 3 * 0.6 - 0.4, 3 + i % 2}, 0.7, 0.3 + 0.1 * i, 0.3};
    }
    balls[0] = (struct ball){{0, -1001, 3}, 1000, 0.6, 0.1};
    double sum = 0;
    for (u32 y = 0; y < turns; y++) {
        for (u32 x = 0; x < WIDTH; x++) {
            struct vector to = {x / 32.0 - 1.0, 1.0 - 2.0 * y / turns, 1.5};
            sum += seen((struct vector){0, 0, -2}, unit(to), 0);
        }
    }
    return bits_of(sum);
}
