/*
 * A volume on a descriptor, from C: a guest keeps keys in a file of it, and what it was told to keep is there after a `kill -9`.
 *
 *     make disk && printf 'put k value\nget k\nfill 3\n' | ./disk FILE
 *
 * Each line of standard input is a session of its own: `put KEY VALUE` adds a record, `get KEY` finds its last value, and
 * `fill TO` adds many, each with a sync of its own, and says each. What the guest syncs is in the file before it goes on, and
 * what it says is passed on only then. A line is answered by the guest's status once all that the session did lasts.
 */
#define _GNU_SOURCE
#define SANDBOX_DESCRIPTORS
#define HOST "disk"
#include "common.h"
#include <sys/file.h>

enum { SECTORS = 1000, SLOTS = 16, WORDS = 5 };

/* An empty file becomes an empty volume. */
static void format(int fd) {
  static uint8_t sectors[SECTORS][512];
  check("format", sandbox_format(sectors, SECTORS, SLOTS));
  if (pwrite(fd, sectors, sizeof sectors, 0) != sizeof sectors || fsync(fd))
    fail("the file can't be written", SANDBOX_DEVICE_FAILED);
}

/* One session over the volume on the descriptor: what the guest said, and the status that it exited with. */
static uint32_t run(sandbox_module **module, int fd, const sandbox_bytes *words, size_t count) {
  static const sandbox_preopen root = {{(const uint8_t *)"/", 1}, {(const uint8_t *)"/", 1}};
  static const sandbox_bytes none = {(const uint8_t *)"", 0};
  const sandbox_supplies supplies = {words, count, &none, 0, &root, 1, 0, none, {0}, none};
  sandbox_session *session = NULL;
  sandbox_volume volume;
  sandbox_told told = {0};
  size_t settled = 0, shown = 0;
  check("volume", sandbox_volume_from(fd, &volume));
  check("open", sandbox_open_loaded(&session, module, &supplies, &volume));
  sandbox_volume_free(&volume);
  do {
    check("resume", sandbox_resume(&session, 10000000 - told.used, &told));
    check("settle", sandbox_settle(&session, fd, &settled)); /* a sync of the guest lasts from here on */
    check("output", sandbox_output_to(&session, 1, STDOUT_FILENO, &shown));
  } while (told.kind == SANDBOX_CALLED);
  check("finish", sandbox_finish(&session));
  check("settle", sandbox_settle(&session, fd, &settled)); /* and all that it did from here on */
  check("close", sandbox_close_loaded(&session, module));
  return told.kind == SANDBOX_EXITED ? told.code : 255;
}

int main(int argc, char **argv) {
  const char *guest = argc > 2 ? argv[2] : "../../c/keys.wasm";
  int fd = argc > 1 ? sandbox_apart(open(argv[1], O_RDWR | O_CREAT | O_CLOEXEC, 0666)) : -1;
  int guest_fd = sandbox_apart(open(guest, O_RDONLY | O_CLOEXEC));
  if (fd < 0 || guest_fd < 0 || flock(fd, LOCK_EX | LOCK_NB))
    fail("usage: disk FILE [keys.wasm], of a file that nobody else has locked", 0);
  if (lseek(fd, 0, SEEK_END) == 0)
    format(fd);
  sandbox_bytes keys;
  sandbox_module *module = NULL;
  sandbox_why why = {0};
  check(guest, sandbox_input_from(guest_fd, &keys));
  check(guest, sandbox_load(&module, keys.at, keys.length, &why));
  char line[256];
  while (fgets(line, sizeof line, stdin)) {
    sandbox_bytes words[WORDS] = {bytes_of("keys"), bytes_of("store")};
    size_t count = 2;
    for (char *word = strtok(line, " \n"); word && count < WORDS; word = strtok(NULL, " \n"))
      words[count++] = bytes_of(word);
    uint32_t status = run(&module, fd, words, count);
    printf("%u\n", status);
    fflush(stdout);
  }
  check("unload", sandbox_unload(&module));
  free((void *)keys.at);
  return 0;
}
