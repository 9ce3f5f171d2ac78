/* What wasi-libc leaves out of <unistd.h>: libsandbox-guest.a has it, and docs/GUESTS.md says what each answers. */
#include_next <unistd.h>
#ifndef SANDBOX_GUEST_UNISTD_H
#define SANDBOX_GUEST_UNISTD_H
#include <sys/types.h>
#ifdef __cplusplus
extern "C" {
#endif
int getdtablesize(void);
uid_t getuid(void);
uid_t geteuid(void);
gid_t getgid(void);
gid_t getegid(void);
int execv(const char *path, char *const words[]);
int execvp(const char *file, char *const words[]);
#ifdef __cplusplus
}
#endif
#endif
