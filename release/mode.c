/*
 * The calls of the archive that run a guest, in the processor's floating-point mode that the proved code takes for granted: MXCSR
 * 1F80, in which Linux starts a process. It rounds to nearest, has subnormal numbers, and raises no exception. A host may have
 * another one, as one that is linked with -ffast-math or that calls fesetround. When a call comes back the host has its own mode
 * again, with its flags. Each goes on to the proved function, which `examples/hosts/library` calls `proved_` and its name.
 */
#include <sandbox.h>
#include <sandbox_plugin.h>

enum { STANDARD = 0x1F80 };

static unsigned leave_mode(void) {
    const unsigned mode = __builtin_ia32_stmxcsr();
    __builtin_ia32_ldmxcsr(STANDARD);
    return mode;
}

static uint32_t answered(unsigned mode, uint32_t answer) {
    __builtin_ia32_ldmxcsr(mode);
    return answer;
}

#pragma GCC visibility push(hidden)
uint32_t proved_sandbox_run(const uint8_t *module, size_t module_length, const sandbox_supplies *supplies, uint64_t fuel, uint8_t *out,
                            size_t out_room, size_t *out_length, sandbox_told *ended, sandbox_why *why);
uint32_t proved_sandbox_open(sandbox_session **session, const uint8_t *module, size_t module_length, const sandbox_supplies *supplies,
                             const sandbox_volume *volume, sandbox_why *why);
uint32_t proved_sandbox_open_loaded(sandbox_session **session, sandbox_module **module, const sandbox_supplies *supplies,
                                    const sandbox_volume *volume);
uint32_t proved_sandbox_resume(sandbox_session **session, uint64_t units, sandbox_told *told);
uint32_t proved_sandbox_go(sandbox_session **instance, uint64_t units, sandbox_told *told);
#pragma GCC visibility pop

uint32_t sandbox_run(const uint8_t *module, size_t module_length, const sandbox_supplies *supplies, uint64_t fuel, uint8_t *out,
                     size_t out_room, size_t *out_length, sandbox_told *ended, sandbox_why *why) {
    const unsigned mode = leave_mode();
    return answered(mode, proved_sandbox_run(module, module_length, supplies, fuel, out, out_room, out_length, ended, why));
}

uint32_t sandbox_open(sandbox_session **session, const uint8_t *module, size_t module_length, const sandbox_supplies *supplies,
                      const sandbox_volume *volume, sandbox_why *why) {
    const unsigned mode = leave_mode();
    return answered(mode, proved_sandbox_open(session, module, module_length, supplies, volume, why));
}

uint32_t sandbox_open_loaded(sandbox_session **session, sandbox_module **module, const sandbox_supplies *supplies,
                             const sandbox_volume *volume) {
    const unsigned mode = leave_mode();
    return answered(mode, proved_sandbox_open_loaded(session, module, supplies, volume));
}

uint32_t sandbox_resume(sandbox_session **session, uint64_t units, sandbox_told *told) {
    const unsigned mode = leave_mode();
    return answered(mode, proved_sandbox_resume(session, units, told));
}

uint32_t sandbox_go(sandbox_session **instance, uint64_t units, sandbox_told *told) {
    const unsigned mode = leave_mode();
    return answered(mode, proved_sandbox_go(instance, units, told));
}
