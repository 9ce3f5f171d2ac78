/* What wasi-libc leaves out of <sys/stat.h>: libsandbox-guest.a has it, and docs/GUESTS.md says what each answers. */
#include_next <sys/stat.h>
#ifndef SANDBOX_GUEST_SYS_STAT_H
#define SANDBOX_GUEST_SYS_STAT_H
#ifdef __cplusplus
extern "C" {
#endif
mode_t umask(mode_t mask);
int chmod(const char *path, mode_t mode);
int fchmod(int descriptor, mode_t mode);
int fchmodat(int folder, const char *path, mode_t mode, int flags);
#ifdef __cplusplus
}
#endif
#endif
