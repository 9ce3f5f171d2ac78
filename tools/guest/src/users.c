/* One user, the root, who has no name; limits are those of the sandbox. */
#include <errno.h>
#include <pwd.h>
#include <stddef.h>
#include <sys/resource.h>
#include <unistd.h>

enum { DESCRIPTORS = 256 };

uid_t getuid(void) { return 0; }
uid_t geteuid(void) { return 0; }
gid_t getgid(void) { return 0; }
gid_t getegid(void) { return 0; }

struct passwd *getpwuid(uid_t user) {
  (void)user;
  return NULL;
}

struct passwd *getpwnam(const char *name) {
  (void)name;
  return NULL;
}

int getdtablesize(void) { return DESCRIPTORS; }

int getrlimit(int resource, struct rlimit *limit) {
  limit->rlim_cur = limit->rlim_max = resource == RLIMIT_NOFILE ? DESCRIPTORS : resource == RLIMIT_CORE ? 0 : RLIM_INFINITY;
  return 0;
}

int setrlimit(int resource, const struct rlimit *limit) {
  struct rlimit now;
  getrlimit(resource, &now);
  if (limit->rlim_cur == now.rlim_cur && limit->rlim_max == now.rlim_max)
    return 0;
  errno = EPERM;
  return -1;
}
