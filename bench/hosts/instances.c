/* Draws calls of instances, right ones and wrong ones, and compares each answer, kind, number of units, value and byte with a model
 * that is written from include/sandbox_plugin.h and the guest's text alone.
 *
 *     instances MODULE SEQUENCES [SEED]
 *
 * MODULE is the guest of bench/embed (ASKING): a counter that `_initialize` sets to 40; `add` of two numbers; `ask` of one, which calls
 * the host's `twice` and adds the number at 8; `fail`, which traps; `count`, which counts on and gives the counter. Each sequence is an
 * instance and 40 calls of it. The status is 1 where an answer is another one; it is printed with its seed. bench/embed calls it. */
#include <inttypes.h>
#include <sandbox_plugin.h>
#include <stdio.h>
#include <stdlib.h>
#include <string.h>

enum { CALLS = 40, PAGE = 65536, VALUES = 16 };
enum stage { OPENING, READY, RUNNING, ASKED, STOPPED, OVER, FINISHED };
enum function { INITIALIZE, ADD, ASK, FAIL, COUNT };

/* How many units a function takes in all, the place of the call that asks, which is the units before it, and with which unit `count`
 * has counted on, so that it stays so where the call is let go after it. */
static const uint64_t length_of[5] = {2, 3, 5, 1, 5};
enum { ASKS_AT = 1, COUNTS_WITH = 4 };

struct model {
  enum stage stage;
  enum function function;
  uint64_t done, used, arguments[2], answered;
  uint32_t counter, result;
  int has_result;
  uint8_t memory[PAGE];
};

/* Where the instruction that takes each unit stands in the module's bytes, by `wasm-objdump -d`. */
static const uint32_t stands_at[5][5] = {
    {0x72, 0x74}, {0x79, 0x7b, 0x7d}, {0x81, 0x83, 0x85, 0x87, 0x8a}, {0x8e}, {0x92, 0x94, 0x96, 0x97, 0x99}};

static uint64_t state;

static uint32_t draw(uint32_t below) {
  state ^= state << 13;
  state ^= state >> 7;
  state ^= state << 17;
  return (uint32_t)((state >> 33) % below);
}

static uint32_t number_at_8(const struct model *m) {
  return m->memory[8] | (uint32_t)m->memory[9] << 8 | (uint32_t)m->memory[10] << 16 | (uint32_t)m->memory[11] << 24;
}

/* What runs has all its units. */
static void returns(struct model *m) {
  m->has_result = 1;
  switch (m->function) {
  case INITIALIZE:
    m->counter = 40;
    m->has_result = 0;
    break;
  case ADD:
    m->result = (uint32_t)(m->arguments[0] + m->arguments[1]);
    break;
  case ASK:
    m->result = (uint32_t)m->answered + number_at_8(m);
    break;
  default:
    m->result = m->counter;
  }
  m->stage = READY;
}

/* What runs takes so many units more. */
static void takes(struct model *m, uint64_t units) {
  if (m->function == COUNT && m->done < COUNTS_WITH && m->done + units >= COUNTS_WITH)
    m->counter++;
  m->done += units;
  m->used += units;
}

/* The answer of sandbox_go, and the kind that it tells. */
static uint32_t goes(struct model *m, uint64_t units, uint32_t *kind) {
  if (m->stage == OVER)
    return SANDBOX_OVER;
  if (m->stage == ASKED)
    return SANDBOX_ASKED_FIRST;
  if (m->stage == READY || m->stage == STOPPED)
    return SANDBOX_IDLE;
  const int asks = m->function == ASK && m->done <= ASKS_AT;
  const uint64_t next = asks ? ASKS_AT : length_of[m->function], needed = next - m->done;
  if (needed > units || (asks && needed == units)) { /* the unit of the call has to be left */
    takes(m, units);
    *kind = SANDBOX_SPENT;
    return SANDBOX_OK;
  }
  takes(m, needed);
  if (asks) {
    m->stage = ASKED;
    *kind = SANDBOX_ASKED;
  } else if (m->function == FAIL) {
    m->stage = STOPPED;
    *kind = SANDBOX_TRAPPED;
  } else {
    returns(m);
    *kind = SANDBOX_RETURNED;
  }
  return SANDBOX_OK;
}

static uint32_t invokes(struct model *m, int which, const uint64_t *arguments, size_t count) {
  static const size_t params[5] = {0, 2, 1, 0, 0};
  if (m->stage == OVER)
    return SANDBOX_OVER;
  if (m->stage == ASKED)
    return SANDBOX_ASKED_FIRST;
  if (m->stage == OPENING || m->stage == RUNNING)
    return SANDBOX_AT_WORK;
  if (which > COUNT)
    return SANDBOX_NO_FUNCTION;
  if (count != params[which])
    return SANDBOX_MISTYPED;
  for (size_t n = 0; n < count; n++)
    if (arguments[n] >> 32)
      return SANDBOX_MISTYPED;
  memcpy(m->arguments, arguments, count * sizeof *arguments);
  m->function = (enum function)which;
  m->done = 0;
  m->stage = RUNNING;
  return SANDBOX_OK;
}

static uint32_t answers(struct model *m, const uint64_t *results, size_t count) {
  if (m->stage == OVER)
    return SANDBOX_OVER;
  if (m->stage != ASKED)
    return SANDBOX_NOT_ASKED;
  if (count != 1 || results[0] >> 32)
    return SANDBOX_MISTYPED;
  m->answered = results[0];
  m->done++;
  m->used++;
  m->stage = RUNNING;
  return SANDBOX_OK;
}

static uint32_t writes(struct model *m, uint32_t address, const uint8_t *bytes, size_t count) {
  static const uint32_t refused[] = {SANDBOX_AT_WORK, 0, SANDBOX_AT_WORK, 0, SANDBOX_STOPPED, SANDBOX_OVER};
  if (refused[m->stage])
    return refused[m->stage];
  if (address > PAGE || count > PAGE - address)
    return SANDBOX_PAST_END;
  memcpy(m->memory + address, bytes, count);
  return SANDBOX_OK;
}

static uint32_t abandons(struct model *m) {
  if (m->stage == OVER)
    return SANDBOX_OVER;
  m->stage = m->stage == OPENING ? OVER : READY;
  m->has_result = 0;
  return SANDBOX_OK;
}

/* The answer of sandbox_frame_at for the innermost function, and what it tells: the function that is at work, at the instruction that
 * takes the next unit, asks or has trapped. */
static uint32_t stands(const struct model *m, sandbox_frame *frame) {
  if (m->stage == READY || m->stage == OVER)
    return SANDBOX_NO_FRAME;
  frame->function = (uint32_t)m->function + 1;
  frame->offset = stands_at[m->function][m->stage == STOPPED ? m->done - 1 : m->done];
  return SANDBOX_OK;
}

/* An address that is often near an end. */
static uint32_t address(void) { return draw(4) ? draw(PAGE + 9) : draw(2) ? PAGE - draw(6) : UINT32_MAX - draw(3); }

#define WANT(is, should)                                                                                               \
  do {                                                                                                                 \
    const uint64_t got = (is), wanted_here = (should);                                                                 \
    if (got != wanted_here) {                                                                                          \
      printf("line %d, call %d at stage %d: %" PRIu64 " and not %" PRIu64 "\n", __LINE__, n, (int)before, got, wanted_here); \
      return 1;                                                                                                        \
    }                                                                                                                  \
  } while (0)

static int one_call(sandbox_session **instance, struct model *m, int n) {
  static const char *const names[7] = {"_initialize", "add", "ask", "fail", "count", "twice", ""};
  const enum stage before = m->stage;
  const uint64_t numbers[3] = {draw(9) ? draw(1000) : UINT64_C(1) << 32, draw(9) ? draw(1000) : UINT64_MAX, 0};
  uint64_t values[VALUES] = {0};
  uint8_t bytes[12], room[12];
  const uint32_t at = address(), length = draw(13);
  sandbox_told told = {9, 9, 9, 9};
  switch (draw(9)) {
  case 0:
  case 1:
  case 2: {
    const uint64_t units = draw(7);
    uint32_t kind = 9;
    const uint32_t wanted = goes(m, units, &kind);
    WANT(sandbox_go(instance, units, &told), wanted);
    WANT(told.kind, kind);
    if (wanted == SANDBOX_OK)
      WANT(told.used, m->used);
    if (wanted == SANDBOX_OK && kind == SANDBOX_ASKED) {
      WANT(told.call, 0);
      WANT(sandbox_values(instance, values, VALUES), 1);
      WANT(values[0], m->arguments[0]);
    }
    if (wanted == SANDBOX_OK && kind == SANDBOX_RETURNED) {
      WANT(sandbox_values(instance, values, VALUES), (uint64_t)m->has_result);
      WANT(values[0], m->has_result ? m->result : 0);
    }
    return 0;
  }
  case 3:
  case 4: {
    const int which = (int)draw(7);
    const size_t count = draw(8) ? (which == ADD ? 2 : which == ASK ? 1 : 0) : draw(4);
    WANT(sandbox_invoke(instance, (const uint8_t *)names[which], strlen(names[which]), numbers, count), invokes(m, which, numbers, count));
    return 0;
  }
  case 5: {
    const size_t count = draw(5) ? 1 : draw(3);
    WANT(sandbox_answer(instance, numbers, count), answers(m, numbers, count));
    return 0;
  }
  case 6:
    for (size_t k = 0; k < sizeof bytes; k++)
      bytes[k] = (uint8_t)draw(256);
    WANT(sandbox_memory_write(instance, at, bytes, length), writes(m, at, bytes, length));
    return 0;
  case 7:
    memset(room, 7, sizeof room);
    memset(bytes, 7, sizeof bytes);
    if (at <= PAGE && length <= PAGE - at)
      memcpy(bytes, m->memory + at, length);
    WANT(sandbox_memory_read(instance, at, room, length), at <= PAGE && length <= PAGE - at ? SANDBOX_OK : SANDBOX_PAST_END);
    WANT(memcmp(room, bytes, sizeof room), 0);
    WANT(sandbox_memory_size(instance), PAGE);
    return 0;
  default:
    if (draw(4) == 0)
      WANT(sandbox_abandon(instance), abandons(m));
    WANT(sandbox_resume(instance, 1, &told), SANDBOX_MISUSE);
    WANT(sandbox_finish(instance), SANDBOX_MISUSE);
    return 0;
  }
}

/* Nothing is asked of what has taken no unit, which may not be entered yet. */
static int one_frame(sandbox_session **instance, const struct model *m, int n) {
  const enum stage before = m->stage;
  sandbox_frame told = {9, 9}, wanted = {9, 9};
  if ((m->stage == OPENING || m->stage == RUNNING) && m->done == 0)
    return 0;
  const uint32_t answer = stands(m, &wanted);
  WANT(sandbox_frame_at(instance, 0, &told), answer);
  WANT(told.function, wanted.function);
  WANT(told.offset, wanted.offset);
  WANT(sandbox_frame_at(instance, 1, &told), SANDBOX_NO_FRAME);
  return 0;
}

static int one_instance(sandbox_plugin **plugin, const sandbox_supplies *supplies, struct model *m) {
  static const sandbox_volume fresh = {SANDBOX_VOLUME_FRESH, (const uint8_t(*)[512]) "", 0};
  static uint8_t sector[1][512];
  sandbox_session *instance = NULL;
  int wrong = sandbox_instance_open(&instance, plugin, supplies, &fresh) != SANDBOX_OK;
  memset(m, 0, sizeof *m);
  for (int n = 0; n < CALLS && !wrong; n++)
    wrong = one_call(&instance, m, n) || one_frame(&instance, m, n);
  if (!wrong && draw(3) == 0)
    wrong = sandbox_instance_finish(&instance) != SANDBOX_OK || sandbox_instance_finish(&instance) != SANDBOX_MISUSE ||
            sandbox_frame_at(&instance, 0, &(sandbox_frame){0}) != SANDBOX_MISUSE || sandbox_abandon(&instance) != SANDBOX_MISUSE ||
            sandbox_volume_out(&instance, sector, 0) != 202;
  if (instance)
    wrong = sandbox_close(&instance) != SANDBOX_OK || wrong;
  return wrong || sandbox_go(&instance, 1, &(sandbox_told){0}) != SANDBOX_MISUSE;
}

int main(int argc, char **argv) {
  static uint8_t bytes[4096];
  static struct model m;
  static const sandbox_bytes name = {(const uint8_t *)"guest", 5}, none = {(const uint8_t *)"", 0};
  static const sandbox_preopen root = {{(const uint8_t *)"/", 1}, {(const uint8_t *)"/", 1}};
  const sandbox_supplies supplies = {&name, 1, &none, 0, &root, 0, 0, none, {1, 0, 0, {0}}, none};
  FILE *file = argc > 2 ? fopen(argv[1], "rb") : NULL;
  if (!file)
    return 2;
  const size_t length = fread(bytes, 1, sizeof bytes, file);
  const uint64_t sequences = strtoull(argv[2], NULL, 10), seed = argc > 3 ? strtoull(argv[3], NULL, 10) : 1;
  sandbox_plugin *plugin = NULL, *other = NULL;
  sandbox_why why;
  fclose(file);
  if (sandbox_plugin_load(&plugin, bytes, length, &supplies.limits, 0, &why) != SANDBOX_OK ||
      sandbox_plugin_share(&other, &plugin) != SANDBOX_OK || sandbox_plugin_unload(&plugin) != SANDBOX_OK)
    return 1;
  for (uint64_t n = 0; n < sequences; n++) {
    state = (seed + n) * UINT64_C(0x9E3779B97F4A7C15) | 1;
    if (one_instance(&other, &supplies, &m)) {
      printf("sequence of seed %" PRIu64 "\n", seed + n);
      return 1;
    }
  }
  printf("%" PRIu64 " sequences of %d calls\n", sequences, CALLS);
  return sandbox_plugin_unload(&other) != SANDBOX_OK;
}
