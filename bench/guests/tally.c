/* tally FOLDER: for each file below it, in the order of the volume, its lines, words and bytes with its path; at last their sums. */
#include <dirent.h>
#include <stdio.h>
#include <string.h>

static unsigned long sums[3];
static char block[1 << 14];

static int count(const char *path) {
  unsigned long here[3] = {0, 0, 0};
  int in_word = 0;
  FILE *file = fopen(path, "rb");
  if (!file)
    return perror(path), 1;
  for (size_t got; (got = fread(block, 1, sizeof block, file));)
    for (size_t at = 0; at < got; at++) {
      int is_space = block[at] == ' ' || (block[at] >= '\t' && block[at] <= '\r');
      here[0] += block[at] == '\n';
      here[1] += !is_space && !in_word;
      here[2]++;
      in_word = !is_space;
    }
  fclose(file);
  printf("%lu %lu %lu %s\n", here[0], here[1], here[2], path);
  for (int it = 0; it < 3; it++)
    sums[it] += here[it];
  return 0;
}

static int tree(const char *folder) {
  DIR *directory = opendir(folder);
  int failed = 0;
  if (!directory)
    return perror(folder), 1;
  for (struct dirent *entry; (entry = readdir(directory));) {
    char path[1024];
    if (!strcmp(entry->d_name, ".") || !strcmp(entry->d_name, ".."))
      continue;
    snprintf(path, sizeof path, "%s/%s", folder, entry->d_name);
    failed |= entry->d_type == DT_DIR ? tree(path) : count(path);
  }
  closedir(directory);
  return failed;
}

int main(int argc, char **argv) {
  int failed = argc == 2 ? tree(argv[1]) : 2;
  printf("%lu %lu %lu\n", sums[0], sums[1], sums[2]);
  return failed;
}
