/* What wasi-libc leaves out of <stdlib.h>: libsandbox-guest.a has it, and docs/GUESTS.md says what each answers. */
#include_next <stdlib.h>
#ifndef SANDBOX_GUEST_STDLIB_H
#define SANDBOX_GUEST_STDLIB_H
#ifdef __cplusplus
extern "C" {
#endif
int system(const char *command);
char *realpath(const char *__restrict path, char *__restrict room);
#ifdef __cplusplus
}
#endif
#endif
