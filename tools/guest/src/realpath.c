/* There are no links, so the real path is the one without `.`, `..` and slashes that are too many. It has to lead somewhere. */
#include <errno.h>
#include <limits.h>
#include <stdlib.h>
#include <string.h>
#include <sys/stat.h>
#include <unistd.h>

char *realpath(const char *__restrict path, char *__restrict room) {
  char whole[PATH_MAX], made[PATH_MAX];
  size_t at = 0, length;
  struct stat it;
  if (!path || !*path) {
    errno = path ? ENOENT : EINVAL;
    return NULL;
  }
  if (*path == '/')
    whole[0] = 0;
  else if (!getcwd(whole, sizeof whole))
    return NULL;
  length = strlen(whole);
  if (length + strlen(path) + 2 > sizeof whole) {
    errno = ENAMETOOLONG;
    return NULL;
  }
  whole[length] = '/';
  strcpy(whole + length + 1, path);
  if (stat(path, &it))
    return NULL;
  for (const char *from = whole; *from;) {
    while (*from == '/')
      from++;
    size_t part = strcspn(from, "/");
    if (part == 2 && from[0] == '.' && from[1] == '.') {
      while (at && made[--at] != '/')
        ;
    } else if (part && !(part == 1 && from[0] == '.')) {
      made[at++] = '/';
      memcpy(made + at, from, part);
      at += part;
    }
    from += part;
  }
  if (!at)
    made[at++] = '/';
  made[at] = 0;
  return room ? strcpy(room, made) : strdup(made);
}
