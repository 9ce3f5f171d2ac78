/*
 * Writes pages of 4,096 bytes as a database does: the old page into a journal, a sync, the new page in place, a sync, and
 * then the journal is emptied. At last it reads all pages back.
 *
 *     pages FILE PAGES ROUNDS
 */
#include <fcntl.h>
#include <stdio.h>
#include <stdlib.h>
#include <string.h>
#include <unistd.h>

enum { PAGE = 4096 };

static unsigned char old_page[PAGE], new_page[PAGE];

static int refuse(const char *what) {
  perror(what);
  return 1;
}

static int change(int file, int journal, long page, long round) {
  if (pread(file, old_page, PAGE, (off_t)page * PAGE) != PAGE)
    return refuse("read");
  if (pwrite(journal, old_page, PAGE, 0) != PAGE || fsync(journal))
    return refuse("journal");
  memset(new_page, (int)(page + round), PAGE);
  if (pwrite(file, new_page, PAGE, (off_t)page * PAGE) != PAGE || fdatasync(file))
    return refuse("page");
  return ftruncate(journal, 0) ? refuse("truncate") : 0;
}

int main(int argc, char **argv) {
  if (argc != 4) {
    fprintf(stderr, "pages FILE PAGES ROUNDS\n");
    return 2;
  }
  long pages = atol(argv[2]), rounds = atol(argv[3]);
  int file = open(argv[1], O_RDWR | O_CREAT, 0666);
  int journal = open("journal", O_RDWR | O_CREAT, 0666);
  if (file < 0 || journal < 0 || ftruncate(file, (off_t)pages * PAGE))
    return refuse(argv[1]);
  for (long round = 1; round <= rounds; round++)
    for (long page = 0; page < pages; page++)
      if (change(file, journal, page, round))
        return 1;
  for (long page = 0; page < pages; page++) {
    if (pread(file, old_page, PAGE, (off_t)page * PAGE) != PAGE)
      return refuse("read");
    for (int i = 0; i < PAGE; i++)
      if (old_page[i] != (unsigned char)(page + rounds)) {
        fprintf(stderr, "page %ld is another\n", page);
        return 1;
      }
  }
  close(journal);
  return unlink("journal") ? refuse("journal") : 0;
}
