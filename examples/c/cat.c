/* Writes the files that it is given to standard output, or standard input where there are none. */
#include <fcntl.h>
#include <stdio.h>
#include <string.h>
#include <unistd.h>

static int copy(int from) {
  static char piece[16384];
  for (;;) {
    ssize_t count = read(from, piece, sizeof piece);
    if (count <= 0)
      return count < 0;
    for (ssize_t done = 0; done < count;) {
      ssize_t written = write(1, piece + done, count - done);
      if (written < 0)
        return 1;
      done += written;
    }
  }
}

int main(int argc, char **argv) {
  int failed = 0;
  if (argc < 2)
    failed = copy(0);
  for (int i = 1; i < argc; i++) {
    int file = strcmp(argv[i], "-") ? open(argv[i], O_RDONLY) : 0;
    if (file < 0 || copy(file)) {
      perror(argv[i]);
      failed = 1;
    }
    if (file > 0)
      close(file);
  }
  return failed;
}
