/* Files of a volume have no rights: each can be read and written. So a change of rights succeeds where the file is there, and
 * changes nothing. */
#include <sys/stat.h>

static mode_t kept = 022;

mode_t umask(mode_t mask) {
  mode_t was = kept;
  kept = mask & 0777;
  return was;
}

int chmod(const char *path, mode_t mode) {
  struct stat it;
  (void)mode;
  return stat(path, &it);
}

int fchmod(int descriptor, mode_t mode) {
  struct stat it;
  (void)mode;
  return fstat(descriptor, &it);
}

int fchmodat(int folder, const char *path, mode_t mode, int flags) {
  struct stat it;
  (void)mode, (void)flags;
  return fstatat(folder, path, &it, 0);
}
