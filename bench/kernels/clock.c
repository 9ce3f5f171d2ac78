// Host calls: asks for the time of day and counts the answers. The time itself differs from run to run and from engine
// to engine, so neither the result nor what runs depends on it.
#include "guest.h"

__attribute__((import_module("wasi_snapshot_preview1"), import_name("clock_time_get")))
u32 clock_time_get(u32 clock, u64 precision, u64 *time);

u64 kernel(u32 turns) {
    static u64 time;
    u64 answered = 0;
    for (u32 n = 0; n < turns; n++) {
        answered += clock_time_get(0, 1, &time) == 0;
    }
    return answered;
}
