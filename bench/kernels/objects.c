// Objects of four classes: each turn calls two methods of one, through the table of its class, so call_indirect.
#include "guest.h"

struct object;

struct class {
    void (*take)(struct object *self, u32 number);
    u32 (*value)(const struct object *self);
};

struct object {
    const struct class *class;
    u32 first, second;
};

static void add(struct object *self, u32 number) { self->first += number; }

static u32 first_of(const struct object *self) { return self->first; }

static void mix(struct object *self, u32 number) { self->second = (self->second << 5 | self->second >> 27) ^ number; }

static u32 second_of(const struct object *self) { return self->second; }

static void keep_greater(struct object *self, u32 number) {
    self->first = number > self->first ? number : self->first - 1;
}

static void turn(struct object *self, u32 number) {
    u32 before = self->first;
    self->first = self->second + number;
    self->second = before;
}

static u32 difference(const struct object *self) { return self->first - self->second; }

static const struct class classes[4] = {
    {add, first_of}, {mix, second_of}, {keep_greater, first_of}, {turn, difference}};

static struct object objects[64];

u64 kernel(u32 turns) {
    u32 seed = 12345;
    u64 sum = 0;
    for (u32 i = 0; i < 64; i++) {
        objects[i].class = &classes[i * 7 >> 2 & 3];
    }
    for (u32 n = 0; n < turns; n++) {
        struct object *it = &objects[n * 5 & 63];
        seed = seed * 1664525 + 1013904223;
        it->class->take(it, seed >> 8);
        sum += it->class->value(it);
    }
    return sum;
}
