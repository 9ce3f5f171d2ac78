/*
 * Guests from C. A module is loaded once and run 1,000 times, each time with other input and fuel; then a volume is kept
 * through a stop of the host: its bytes are all that goes from one session to the next.
 *
 *     make && ./host
 */
#define HOST "host"
#include "common.h"

enum { RUNS = 1000, SECTORS = 1000, SLOTS = 16 };

/* What a guest is given: its words, its input, and the volume's root as the directory `/`. */
static sandbox_supplies supplies_of(const sandbox_bytes *args, size_t count, sandbox_bytes input) {
  static const sandbox_preopen root = {{(const uint8_t *)"/", 1}, {(const uint8_t *)"/", 1}};
  static const sandbox_bytes none = {(const uint8_t *)"", 0};
  return (sandbox_supplies){args, count, &none, 0, &root, 1, 0, none, {0}, input}; /* with the limits of the library */
}

/* Lets the guest go on for this many units in all, and tells how it stopped. */
static sandbox_told run(sandbox_session **session, uint64_t fuel) {
  sandbox_told told = {0};
  do
    check("resume", sandbox_resume(session, fuel - told.used, &told));
  while (told.kind == SANDBOX_CALLED);
  return told;
}

/* A thousand sessions of one loaded module. */
static void many(sandbox_bytes bytes) {
  sandbox_module *module = NULL;
  sandbox_session *session = NULL;
  sandbox_why why = {0};
  const sandbox_volume fresh = {.kind = SANDBOX_VOLUME_FRESH, .sectors = (const uint8_t(*)[512])bytes.at};
  const sandbox_bytes words[] = {bytes_of("wc")};
  char input[RUNS + 1];
  memset(input, 'x', RUNS);
  unsigned out_of_fuel = 0;
  uint64_t units = 0;
  check("load", sandbox_load(&module, bytes.at, bytes.length, &why));
  for (int n = 0; n < RUNS; n++) {
    sandbox_supplies supplies = supplies_of(words, 1, (sandbox_bytes){(const uint8_t *)input, n});
    check("open", sandbox_open_loaded(&session, &module, &supplies, &fresh));
    sandbox_told told = run(&session, 10000 + 40 * n);
    char said[64] = {0}, wanted[64];
    sandbox_output(&session, 1, 0, (uint8_t *)said, sizeof said - 1);
    snprintf(wanted, sizeof wanted, "%d %d %d\n", 0, n > 0, n);
    if (told.kind == SANDBOX_SPENT)
      out_of_fuel++;
    else if (told.kind != SANDBOX_EXITED || told.code != 0 || strcmp(said, wanted))
      fail("the guest counted wrong", n);
    units += told.used;
    check("finish", sandbox_finish(&session));
    check("close", sandbox_close_loaded(&session, &module));
  }
  check("unload", sandbox_unload(&module));
  printf("%d runs of one module: %u out of fuel, %llu units\n", RUNS, out_of_fuel, (unsigned long long)units);
}

/* A guest that keeps keys in a file: one session adds a record, another finds it in the sectors that the first left. */
static void keep(sandbox_bytes bytes) {
  static uint8_t sectors[SECTORS][512];
  const sandbox_volume volume = {.kind = SANDBOX_VOLUME_MEMORY, .sectors = (const uint8_t(*)[512])sectors, .sectors_count = SECTORS};
  const char *calls[][5] = {{"keys", "store", "put", "k", "value"}, {"keys", "store", "get", "k", NULL}};
  check("format", sandbox_format(sectors, SECTORS, SLOTS));
  for (int call = 0; call < 2; call++) {
    sandbox_bytes words[5];
    size_t count = 0;
    while (count < 5 && calls[call][count]) {
      words[count] = bytes_of(calls[call][count]);
      count++;
    }
    sandbox_session *session = NULL;
    sandbox_why why = {0};
    sandbox_supplies supplies = supplies_of(words, count, bytes_of(""));
    check("open", sandbox_open(&session, bytes.at, bytes.length, &supplies, &volume, &why));
    sandbox_told told = run(&session, 10000000);
    if (told.kind != SANDBOX_EXITED || told.code != 0)
      fail("keys", told.code);
    check("finish", sandbox_finish(&session));
    uint8_t said[64];
    size_t length = sandbox_output(&session, 1, 0, said, sizeof said);
    if (sandbox_volume_out(&session, sectors, SECTORS) != SECTORS)
      fail("volume_out", 0);
    printf("keys %s: %llu units, says %.*s\n", calls[call][2], (unsigned long long)told.used, length ? (int)length - 1 : 7, length ? (char *)said : "nothing");
    check("close", sandbox_close(&session)); /* only the sectors stay */
  }
}

int main(int argc, char **argv) {
  const char *guests = argc > 1 ? argv[1] : "../../c";
  char path[4096];
  if (sandbox_version() != SANDBOX_VERSION_NUMBER)
    fail("the archive and the header differ", sandbox_version());
  snprintf(path, sizeof path, "%s/wc.wasm", guests);
  sandbox_bytes wc = file(path);
  snprintf(path, sizeof path, "%s/keys.wasm", guests);
  sandbox_bytes keys = file(path);
  many(wc);
  keep(keys);
  free((void *)wc.at);
  free((void *)keys.at);
  return 0;
}
