/* What wasi-libc leaves out of <stdio.h>: libsandbox-guest.a has it, and docs/GUESTS.md says what each answers. */
#include_next <stdio.h>
#ifndef SANDBOX_GUEST_STDIO_H
#define SANDBOX_GUEST_STDIO_H
#ifdef __cplusplus
extern "C" {
#endif
FILE *popen(const char *command, const char *mode);
int pclose(FILE *stream);
#ifdef __cplusplus
}
#endif
#endif
