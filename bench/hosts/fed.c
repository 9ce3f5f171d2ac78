/* Draws an input, cuts it anyhow, and compares an instance that is fed the pieces with one that has all of it at the opening: each errno,
 * number, unit, byte of memory and byte of output. What it is told when it waits is compared with what the header says.
 *
 *     fed MODULE SEQUENCES [SEED]
 *
 * MODULE is the guest of bench/embed (FEEDING): `read` and `write` hand their four numbers on to fd_read and fd_write. The status is 1
 * where an answer is another one; it is printed with its seed. bench/embed calls it. */
#include <inttypes.h>
#include <sandbox_plugin.h>
#include <stdio.h>
#include <stdlib.h>
#include <string.h>

enum { CALLS = 24, PAGE = 65536, MOST = 300, AT = 1024, ROOM = 4096, TOLD_AT = 512, LARGE = 100000000 };

static uint64_t state, seed;
static const sandbox_bytes NONE = {(const uint8_t *)"", 0};
static sandbox_bytes module;

static uint32_t draw(uint32_t below) {
  state ^= state << 13;
  state ^= state >> 7;
  state ^= state << 17;
  return (uint32_t)((state >> 33) % below);
}

static void want(int is_wanted, const char *what) {
  if (is_wanted)
    return;
  printf("%s: not as wanted, with seed %" PRIu64 "\n", what, seed);
  exit(1);
}

/* Two instances that are called alike: `whole` has all of its input, and `fed` gets it piece by piece. */
struct pair {
  sandbox_plugin *plain, *feedable;
  sandbox_session *whole, *fed;
  uint64_t whole_used, fed_used;
  uint8_t input[MOST];
  size_t length, given, taken; /* of the input: in all, handed over, and read by the guest */
  int ended;
};

static void open(struct pair *it) {
  const sandbox_volume fresh = {.kind = SANDBOX_VOLUME_FRESH, .sectors = (const uint8_t(*)[512])module.at};
  sandbox_supplies given = {&NONE, 0, &NONE, 0, (const sandbox_preopen *)"", 0, 0, NONE, {.pages = 1}, {it->input, it->length}};
  sandbox_why why;
  sandbox_told told;
  want(!sandbox_plugin_load(&it->plain, module.at, module.length, &given.limits, 0, &why), "load");
  want(!sandbox_plugin_load_fed(&it->feedable, module.at, module.length, &given.limits, 0, &why), "load_fed");
  want(!sandbox_instance_open(&it->whole, &it->plain, &given, &fresh), "open");
  given.input.length = it->given = draw((uint32_t)it->length + 1);
  want(!sandbox_instance_open(&it->fed, &it->feedable, &given, &fresh), "open fed");
  want(!sandbox_go(&it->whole, 9, &told) && told.kind == SANDBOX_RETURNED, "the opening");
  want(!sandbox_go(&it->fed, 9, &told) && told.kind == SANDBOX_RETURNED, "the opening of the fed");
}

/* Hands over some bytes, or none, or says that no more come. */
static void feed(struct pair *it) {
  if (it->ended) {
    want(sandbox_feed(&it->fed, it->input, 1) == SANDBOX_ENDED, "fed behind the end");
    want(sandbox_feed_end(&it->fed) == SANDBOX_OK, "ended twice");
  } else if (it->given == it->length && draw(2)) {
    want(sandbox_feed_end(&it->fed) == SANDBOX_OK, "ended");
    it->ended = 1;
  } else {
    const size_t count = draw((uint32_t)(it->length - it->given) + 1);
    want(sandbox_feed(&it->fed, it->input + it->given, count) == SANDBOX_OK, "fed");
    it->given += count;
  }
}

static void write_number(sandbox_session **instance, uint32_t at, uint32_t number) {
  const uint8_t bytes[4] = {(uint8_t)number, (uint8_t)(number >> 8), (uint8_t)(number >> 16), (uint8_t)(number >> 24)};
  want(!sandbox_memory_write(instance, at, bytes, 4), "a number is written");
}

static uint32_t number_at(sandbox_session **instance, uint32_t at) {
  uint8_t bytes[4];
  want(!sandbox_memory_read(instance, at, bytes, 4), "a number is read");
  return bytes[0] | (uint32_t)bytes[1] << 8 | (uint32_t)bytes[2] << 16 | (uint32_t)bytes[3] << 24;
}

/* What no call but go, feed, a read of memory and abandon does while it waits. */
static void is_at_work(struct pair *it) {
  const uint64_t room[16] = {0};
  want(sandbox_answer(&it->fed, room, 0) == SANDBOX_NOT_ASKED, "an answer while it waits");
  want(sandbox_memory_write(&it->fed, AT, module.at, 1) == SANDBOX_AT_WORK, "a write while it waits");
  want(sandbox_invoke(&it->fed, (const uint8_t *)"read", 4, room, 4) == SANDBOX_AT_WORK, "a call while it waits");
}

/* Goes on with the fed one until it returns. `wanted` is how many bytes its read asks for, if it is one of the input that nothing refuses. */
static void go_fed(struct pair *it, uint64_t wanted, int reads) {
  sandbox_told told = {0};
  do {
    const size_t there = it->given - it->taken;
    const int lacks = reads && !it->ended && there < wanted;
    const uint64_t before = it->fed_used;
    want(sandbox_go(&it->fed, draw(4) ? 100 : draw(4), &told) == SANDBOX_OK, "go");
    it->fed_used = told.used;
    if (told.kind == SANDBOX_STARVED) {
      want(lacks && told.code == wanted && told.call == 0, "it waits for what it asks for");
      is_at_work(it);
      want(sandbox_go(&it->fed, 1, &told) == SANDBOX_OK && told.kind == SANDBOX_STARVED && told.used == it->fed_used, "told again");
      feed(it);
    } else if (told.kind == SANDBOX_CALLED) {
      want(!lacks, "it reads only what is there");
      reads = 0;
    } else
      want(told.kind == SANDBOX_RETURNED || (told.kind == SANDBOX_SPENT && told.used <= before + 100), "a kind");
    if (!draw(3))
      feed(it);
  } while (told.kind != SANDBOX_RETURNED);
}

static void go_whole(struct pair *it) {
  sandbox_told told;
  do {
    want(sandbox_go(&it->whole, 1 + draw(9), &told) == SANDBOX_OK, "go of the whole");
    want(told.kind != SANDBOX_STARVED, "the whole never waits");
    it->whole_used = told.used;
  } while (told.kind != SANDBOX_RETURNED);
}

static void compare(struct pair *it) {
  static uint8_t one[PAGE], other[PAGE];
  uint64_t results[2] = {9, 8};
  want(sandbox_values(&it->whole, results, 1) == 1 && sandbox_values(&it->fed, results + 1, 1) == 1 && results[0] == results[1], "errno");
  want(it->whole_used == it->fed_used, "units");
  want(!sandbox_memory_read(&it->whole, 0, one, PAGE) && !sandbox_memory_read(&it->fed, 0, other, PAGE) && !memcmp(one, other, PAGE), "memory");
  const size_t length = sandbox_output(&it->whole, 1, 0, one, PAGE);
  want(sandbox_output(&it->fed, 1, 0, other, PAGE) == length && !memcmp(one, other, length < PAGE ? length : PAGE), "output");
}

/* A read of the input, or of something else, into one to three places; or a write of what was read. */
static void call(struct pair *it) {
  sandbox_session **both[2] = {&it->whole, &it->fed};
  const int writes = !draw(5), places = 1 + (int)draw(3);
  const uint64_t descriptor = writes ? 1 : draw(8) ? 0 : draw(6);
  const uint64_t list = draw(20) ? 16 : PAGE - 4 * draw(6), told_at = draw(20) ? TOLD_AT : PAGE - 2;
  uint64_t wanted = 0;
  int fits = list + 8 * (uint64_t)places <= PAGE && told_at + 4 <= PAGE;
  for (int n = 0; n < places; n++) {
    const uint32_t length = draw(30) ? draw(ROOM / 64) : draw(2) ? 0 : PAGE, at = AT + ROOM * (uint32_t)n;
    fits = fits && (uint64_t)at + length <= PAGE;
    wanted += length;
    for (int k = 0; k < 2 && list + 8 * (uint64_t)n + 8 <= PAGE; k++) {
      write_number(both[k], (uint32_t)list + 8 * (uint32_t)n, at);
      write_number(both[k], (uint32_t)list + 8 * (uint32_t)n + 4, length);
    }
  }
  const uint64_t arguments[4] = {descriptor, list, (uint64_t)places, told_at};
  const char *name = writes ? "write" : "read";
  for (int k = 0; k < 2; k++)
    want(!sandbox_invoke(both[k], (const uint8_t *)name, strlen(name), arguments, 4), "invoke");
  go_whole(it);
  go_fed(it, wanted, !writes && descriptor == 0 && fits);
  compare(it);
  uint64_t errno_told = 1;
  sandbox_values(&it->fed, &errno_told, 1);
  if (!writes && descriptor == 0 && errno_told == 0)
    it->taken += number_at(&it->fed, (uint32_t)told_at);
}

static void sequence(void) {
  struct pair it = {0};
  it.length = draw(MOST);
  for (size_t n = 0; n < it.length; n++)
    it.input[n] = (uint8_t)draw(256);
  open(&it);
  want(sandbox_feed(&it.whole, it.input, 1) == SANDBOX_ENDED && sandbox_feed_end(&it.whole) == SANDBOX_OK, "one that has all");
  for (int n = 0; n < CALLS; n++)
    call(&it);
  want(!sandbox_instance_finish(&it.whole) && !sandbox_instance_finish(&it.fed), "finish");
  want(sandbox_feed(&it.fed, it.input, 1) == SANDBOX_MISUSE && sandbox_feed_end(&it.fed) == SANDBOX_MISUSE, "fed when finished");
  want(!sandbox_close(&it.whole) && !sandbox_close(&it.fed), "close");
  want(sandbox_feed(&it.fed, it.input, 1) == SANDBOX_MISUSE && sandbox_feed_end(&it.fed) == SANDBOX_MISUSE, "fed when closed");
  want(!sandbox_plugin_unload(&it.plain) && !sandbox_plugin_unload(&it.feedable), "unload");
}

/* A call that waits is let go, and its input is the next one's; and a hundred million bytes in one piece. */
static void large(void) {
  struct pair it = {0};
  uint8_t *piece = calloc(LARGE, 1);
  sandbox_told told;
  open(&it);
  want(piece != NULL, "memory");
  const uint64_t arguments[4] = {0, 16, 1, TOLD_AT};
  write_number(&it.fed, 16, AT);
  write_number(&it.fed, 20, 2);
  want(!sandbox_invoke(&it.fed, (const uint8_t *)"read", 4, arguments, 4), "invoke");
  want(!sandbox_feed(&it.fed, (const uint8_t *)"a", 1) && !sandbox_feed(&it.fed, (const uint8_t *)"", 0), "a byte, and none");
  want(!sandbox_go(&it.fed, 100, &told) && told.kind == SANDBOX_STARVED && told.code == 2, "it waits for two bytes");
  want(!sandbox_abandon(&it.fed), "it is let go");
  want(!sandbox_invoke(&it.fed, (const uint8_t *)"read", 4, arguments, 4), "invoke again");
  want(!sandbox_go(&it.fed, 100, &told) && told.kind == SANDBOX_STARVED, "it waits again");
  want(!sandbox_feed(&it.fed, piece, LARGE), "a large piece");
  do
    want(!sandbox_go(&it.fed, 100, &told), "go");
  while (told.kind == SANDBOX_CALLED);
  want(told.kind == SANDBOX_RETURNED && number_at(&it.fed, TOLD_AT) == 2 && (number_at(&it.fed, AT) & 0xffff) == 'a', "the byte from before is first");
  want(!sandbox_close(&it.whole) && !sandbox_close(&it.fed) && !sandbox_plugin_unload(&it.plain) && !sandbox_plugin_unload(&it.feedable), "close");
  free(piece);
}

int main(int count, char **words) {
  static uint8_t room[PAGE];
  FILE *from = count > 2 ? fopen(words[1], "rb") : NULL;
  if (!from)
    return 2;
  module = (sandbox_bytes){room, fread(room, 1, sizeof room, from)};
  fclose(from);
  const uint64_t first = count > 3 ? strtoull(words[3], NULL, 10) : 1, sequences = strtoull(words[2], NULL, 10);
  state = first + 1;
  large();
  for (uint64_t n = 0; n < sequences; n++) {
    seed = first + n;
    state = seed * 0x9e3779b97f4a7c15u + 1;
    for (int k = 0; k < 8; k++)
      draw(2);
    sequence();
  }
  printf("%" PRIu64 " sequences of %d calls\n", sequences, CALLS);
  return 0;
}
