/*
 * Does the calls that standard input names, one a line, and says the errno of each on standard output once it has answered.
 *
 *     c PATH             makes a file that isn't there      u PATH        removes a file
 *     d PATH             makes a directory                  x PATH        removes a directory
 *     w PATH AT N BYTE   writes N bytes                     r PATH PATH   renames
 *     t PATH SIZE        sets a file's size                 s             syncs
 *
 * Built by
 *
 *     clang --target=wasm32-wasi -mcpu=mvp -O2 -Wall -Wextra -Wl,--strip-all steps.c -o steps.wasm
 *
 * with Debian's packages clang, lld, wasi-libc and libclang-rt-14-dev-wasm32.
 */
#include <errno.h>
#include <fcntl.h>
#include <stdio.h>
#include <stdlib.h>
#include <string.h>
#include <sys/stat.h>
#include <unistd.h>

static char text[1 << 20], bytes[16384];
static char *words[5];

static int on_file(int flags, char what) {
  int file = open(words[1], flags, 0666);
  if (file < 0)
    return errno;
  errno = 0;
  if (what == 'w') {
    memset(bytes, atoi(words[4]), atoi(words[3]));
    pwrite(file, bytes, atoi(words[3]), atoi(words[2]));
  } else if (what == 't') {
    ftruncate(file, atoi(words[2]));
  }
  int answer = errno;
  close(file);
  return answer;
}

static int step(void) {
  switch (words[0][0]) {
    case 'c': return on_file(O_WRONLY | O_CREAT | O_EXCL, 'c');
    case 'w': return on_file(O_WRONLY, 'w');
    case 't': return on_file(O_WRONLY, 't');
    case 'd': return mkdir(words[1], 0777) ? errno : 0;
    case 'u': return unlink(words[1]) ? errno : 0;
    case 'x': return rmdir(words[1]) ? errno : 0;
    case 'r': return rename(words[1], words[2]) ? errno : 0;
    default: {
      int directory = open(".", O_RDONLY | O_DIRECTORY);
      int answer = directory < 0 || fsync(directory) ? errno : 0;
      close(directory);
      return answer;
    }
  }
}

static void say(int number) {
  char out[4] = {(char)('0' + number / 10), (char)('0' + number % 10), '\n', 0};
  if (write(1, out, 3) != 3)
    abort();
}

int main(void) {
  ssize_t length = read(0, text, sizeof text - 1);
  if (length < 0)
    return 1;
  char *rest = text;
  for (char *line; (line = strsep(&rest, "\n")) && *line;) {
    for (int k = 0; k < 5; k++)
      words[k] = strsep(&line, " ");
    say(step());
  }
  return 0;
}
