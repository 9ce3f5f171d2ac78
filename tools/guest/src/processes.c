/* There are no processes: who asks for one is told ENOSYS, as by a system without fork. */
#include <errno.h>
#include <stdio.h>
#include <stdlib.h>
#include <unistd.h>

static int none(void) {
  errno = ENOSYS;
  return -1;
}

FILE *popen(const char *command, const char *mode) {
  (void)command, (void)mode;
  none();
  return NULL;
}

int pclose(FILE *stream) {
  (void)stream;
  return none();
}

int system(const char *command) { return command ? none() : 0; /* 0: there is no shell */ }

int execv(const char *path, char *const words[]) {
  (void)path, (void)words;
  return none();
}

int execvp(const char *file, char *const words[]) {
  (void)file, (void)words;
  return none();
}
