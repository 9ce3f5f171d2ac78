/* Lists what stands below a directory, a path a line, directories with a slash. */
#include <dirent.h>
#include <stdio.h>
#include <string.h>

static int walk(const char *path) {
  DIR *directory = opendir(path);
  if (!directory) {
    perror(path);
    return 1;
  }
  int failed = 0;
  for (struct dirent *entry; (entry = readdir(directory));) {
    char below[1024];
    if (!strcmp(entry->d_name, ".") || !strcmp(entry->d_name, ".."))
      continue;
    snprintf(below, sizeof below, "%s/%s", path, entry->d_name);
    printf("%s%s\n", below, entry->d_type == DT_DIR ? "/" : "");
    if (entry->d_type == DT_DIR)
      failed |= walk(below);
  }
  closedir(directory);
  return failed;
}

int main(int argc, char **argv) {
  int failed = walk(argc > 1 ? argv[1] : ".");
  return failed | (fflush(stdout) != 0);
}
