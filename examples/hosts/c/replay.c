/*
 * Repeats a recorded session or instance, and says whether all is as it was recorded (docs/REPLAY.md):
 *
 *     make && ./replay --record FILE MODULE [WORD]... <INPUT     runs a guest and records it
 *     ./replay --call FILE MODULE NAME [NUMBER]...               calls what a plugin exports and records it; a function of the host
 *                                                                that it calls gives the sum of its arguments
 *     ./replay FILE                                              repeats either
 *     ./replay --until UNITS FILE                                stops at this many units, and prints the functions at work, or the
 *                                                                plugin's function that was called
 *
 * The status is 0 where all is the same, 1 where something is another, and 2 where the file is none.
 */
#define HOST "replay"
#include "common.h"
#include "recording_plugin.h"

enum { MOST = 4096, NUMBERS = 24, EVERY = 1000000 };

/* The record that comes next: its line without the line feed. 0 at the end of the file, or where it ends inside. */
static int next_line(FILE *from, char *line) {
  size_t length = 0;
  int byte;
  while ((byte = getc(from)) != EOF && byte != '\n')
    if (length < MOST - 1)
      line[length++] = (char)byte;
  line[length] = 0;
  return byte == '\n';
}

/* The numbers of a record with this word, and how many they are; -1 of another. */
static int numbers_of(const char *line, const char *word, uint64_t *numbers) {
  size_t length = strlen(word);
  if (strncmp(line, word, length) || (line[length] && line[length] != ' '))
    return -1;
  int count = 0;
  char *at = (char *)line + length;
  while (*at == ' ' && count < NUMBERS)
    numbers[count++] = strtoull(at + 1, &at, 10);
  return *at ? -1 : count;
}

static void damaged(const char *what) {
  fprintf(stderr, HOST ": this is no whole recording: %s\n", what);
  exit(2);
}

/* As many bytes, and the line feed behind them. They stay until the end. */
static sandbox_bytes bytes_from(FILE *from, uint64_t length) {
  uint8_t *at = length < SIZE_MAX ? malloc((size_t)length + 1) : NULL;
  if (!at || fread(at, 1, (size_t)length, from) != length || getc(from) != '\n')
    damaged("bytes are missing");
  return (sandbox_bytes){at, (size_t)length};
}

typedef struct {
  sandbox_bytes *at;
  size_t count;
} texts;

static void add(texts *to, sandbox_bytes text) {
  to->at = realloc(to->at, (to->count + 2) * sizeof *to->at);
  if (!to->at)
    fail("memory", SANDBOX_OUT_OF_MEMORY);
  to->at[to->count++] = text;
}

typedef struct { /* what a session or an instance is opened with */
  sandbox_bytes module;
  uint32_t floats;
  texts args, env, names, paths;
  sandbox_supplies given;
  sandbox_volume volume;
} opening;

/* Reads up to the record `opened`, whose answer it tells. */
static uint32_t opening_from(FILE *from, opening *it) {
  char line[MOST];
  uint64_t n[NUMBERS];
  add(&it->args, bytes_of("")), add(&it->env, bytes_of("")); /* so that neither is NULL */
  it->args.count = it->env.count = 0;
  it->given.random = it->given.input = it->module = bytes_of("");
  it->volume.sectors = (const uint8_t(*)[512])"";
  while (next_line(from, line)) {
    if (numbers_of(line, "module", n) == 1)
      it->module = bytes_from(from, n[0]);
    else if (numbers_of(line, "floats", n) == 1)
      it->floats = (uint32_t)n[0];
    else if (numbers_of(line, "arg", n) == 1)
      add(&it->args, bytes_from(from, n[0]));
    else if (numbers_of(line, "env", n) == 1)
      add(&it->env, bytes_from(from, n[0]));
    else if (numbers_of(line, "name", n) == 1)
      add(&it->names, bytes_from(from, n[0]));
    else if (numbers_of(line, "path", n) == 1)
      add(&it->paths, bytes_from(from, n[0]));
    else if (numbers_of(line, "moment", n) == 1)
      it->given.moment = n[0];
    else if (numbers_of(line, "random", n) == 1)
      it->given.random = bytes_from(from, n[0]);
    else if (numbers_of(line, "limits", n) == 3)
      it->given.limits = (sandbox_limits){.pages = (uint32_t)n[0], .values = (uint32_t)n[1], .output = n[2]};
    else if (numbers_of(line, "input", n) == 1)
      it->given.input = bytes_from(from, n[0]);
    else if (numbers_of(line, "volume", n) == 2)
      it->volume = (sandbox_volume){(uint32_t)n[0], (const uint8_t(*)[512])bytes_from(from, n[1]).at, (size_t)(n[1] / 512)};
    else if (numbers_of(line, "opened", n) == 1)
      return (uint32_t)n[0];
    else if (numbers_of(line, "version", n) != 1)
      damaged(line);
  }
  damaged("it ends before its session was opened");
  return 0;
}

/* Gives the session its texts as arrays. */
static void complete(opening *it) {
  if (it->names.count != it->paths.count)
    damaged("a directory has no path");
  sandbox_preopen *opened = calloc(it->names.count + 1, sizeof *opened);
  if (!opened)
    fail("memory", SANDBOX_OUT_OF_MEMORY);
  for (size_t n = 0; n < it->names.count; n++)
    opened[n] = (sandbox_preopen){it->names.at[n], it->paths.at[n]};
  it->given.args = it->args.at, it->given.args_count = it->args.count;
  it->given.env = it->env.at, it->given.env_count = it->env.count;
  it->given.preopens = opened, it->given.preopens_count = it->names.count;
}

static void print_frames(sandbox_session **session, sandbox_bytes module) {
  sandbox_frame frame;
  for (size_t n = 0; sandbox_frame_at(session, n, &frame) == SANDBOX_OK; n++) {
    char name[256];
    size_t length = sandbox_function_name(module.at, module.length, frame.function, (uint8_t *)name, sizeof name);
    printf("  %zu: function %" PRIu32 " at %" PRIu32 ": %.*s\n", n, frame.function, frame.offset, (int)(length < sizeof name ? length : sizeof name), name);
  }
}

static int differs(const char *recorded, const char *now) {
  printf("recorded: %s\nnow:      %s\n", recorded, now);
  return 1;
}

/* Repeats the actions; `until` is where it stops. */
static int repeat(FILE *from, sandbox_session **session, sandbox_bytes module, uint64_t until) {
  char line[MOST], now[MOST];
  uint64_t n[NUMBERS], resumes = 0;
  sandbox_told told = {0};
  while (next_line(from, line)) {
    if (numbers_of(line, "resume", n) == 5) {
      int last = n[4] > until;
      uint64_t units = last && until - told.used < n[0] ? until - told.used : n[0];
      check("resume", sandbox_resume(session, units, &told));
      resumes++;
      snprintf(now, sizeof now, "resume %" PRIu64 " %" PRIu32 " %" PRIu32 " %" PRIu32 " %" PRIu64, units, told.kind, told.code, told.call, told.used);
      if (last) {
        printf("at %" PRIu64 " units, resume %" PRIu64 ":\n", told.used, resumes);
        print_frames(session, module);
        return 0;
      }
      if (strcmp(line, now))
        return differs(line, now);
      continue;
    }
    if (numbers_of(line, "finish", n) != 1)
      damaged(line);
    if (told.kind == SANDBOX_TRAPPED || told.kind == SANDBOX_NO_MEMORY)
      print_frames(session, module);
    FILE *again = tmpfile();
    if (!again)
      fail("a temporary file", 0);
    recording_finish(again, session);
    rewind(again);
    do {
      if (!next_line(again, now))
        damaged(line);
      if (strcmp(line, now))
        return differs(line, now);
    } while (next_line(from, line));
    fclose(again);
    printf("as recorded: %" PRIu64 " resumes, %" PRIu64 " units, and its end\n", resumes, told.used);
    return 0;
  }
  printf("as recorded: %" PRIu64 " resumes, %" PRIu64 " units; the recording ends before the session did\n", resumes, told.used);
  print_frames(session, module);
  return 0;
}

/* Does once more to an instance what a record says, and writes what comes of it as a record. */
static void act(FILE *to, FILE *from, const char *line, sandbox_session **instance, sandbox_told *told, sandbox_bytes *called) {
  uint64_t n[NUMBERS];
  int count;
  if ((count = numbers_of(line, "invoke", n)) >= 3 && n[1] == (uint64_t)count - 3) {
    *called = bytes_from(from, n[count - 1]);
    recording_invoke(to, instance, *called, n + 2, n[1]);
  } else if ((count = numbers_of(line, "go", n)) >= 6)
    recording_go(to, instance, n[0], told);
  else if ((count = numbers_of(line, "answer", n)) >= 2 && n[1] == (uint64_t)count - 2)
    told->used += recording_answer(to, instance, n + 2, n[1]) == SANDBOX_OK; /* the unit of the guest's call */
  else if (numbers_of(line, "write", n) == 3)
    recording_write(to, instance, (uint32_t)n[1], bytes_from(from, n[2]));
  else if (numbers_of(line, "feed", n) == 2)
    recording_feed(to, instance, bytes_from(from, n[1]));
  else if (numbers_of(line, "feed_end", n) == 1)
    recording_feed_end(to, instance);
  else if (numbers_of(line, "abandon", n) == 1)
    recording_abandon(to, instance);
  else if (numbers_of(line, "finish", n) == 1)
    recording_instance_finish(to, instance);
  else
    damaged(line);
}

static int is_last(const char *line, uint64_t until) {
  uint64_t n[NUMBERS];
  return numbers_of(line, "go", n) >= 6 && n[4] > until;
}

/* Repeats the actions of an instance; `until` is where it stops. */
static int repeat_instance(FILE *from, sandbox_session **instance, sandbox_bytes module, uint64_t until) {
  char line[MOST], now[MOST];
  sandbox_bytes called = bytes_of("its opening");
  sandbox_told told = {0};
  uint64_t actions = 0;
  while (next_line(from, line)) {
    if (is_last(line, until)) {
      check("go", sandbox_go(instance, until - told.used, &told));
      printf("at %" PRIu64 " units, behind %" PRIu64 " actions, in %.*s\n", told.used, actions, (int)called.length, called.at);
      print_frames(instance, module);
      return 0;
    }
    int ends = !strncmp(line, "finish ", 7);
    FILE *again = tmpfile();
    if (!again)
      fail("a temporary file", 0);
    act(again, from, line, instance, &told, &called);
    rewind(again);
    do {
      if (!next_line(again, now))
        damaged(line);
      if (strcmp(line, now))
        return differs(line, now);
    } while (ends && next_line(from, line));
    fclose(again);
    actions++;
  }
  printf("as recorded: %" PRIu64 " actions, %" PRIu64 " units\n", actions, told.used);
  return 0;
}

static int replay(const char *path, uint64_t until) {
  FILE *from = fopen(path, "rb");
  char line[MOST];
  opening it = {0};
  sandbox_session *session = NULL;
  sandbox_plugin *plugin = NULL;
  sandbox_why why = {0};
  int is_session = from && next_line(from, line) && !strcmp(line, RECORDING_HEAD);
  int goes_on = from && !strcmp(line, RECORDING_FED_HEAD);
  if (!from || (!is_session && !goes_on && strcmp(line, RECORDING_PLUGIN_HEAD)))
    damaged(path);
  uint32_t recorded = opening_from(from, &it), answer;
  complete(&it);
  if (is_session)
    answer = sandbox_open(&session, it.module.at, it.module.length, &it.given, &it.volume, &why);
  else if (!(answer = (goes_on ? sandbox_plugin_load_fed : sandbox_plugin_load)(&plugin, it.module.at, it.module.length, &it.given.limits, it.floats, &why)))
    answer = sandbox_instance_open(&session, &plugin, &it.given, &it.volume);
  if (answer != recorded) {
    printf("recorded: opened %" PRIu32 "\nnow:      opened %" PRIu32 "\n", recorded, answer);
    return 1;
  }
  if (answer)
    return 0;
  return is_session ? repeat(from, &session, it.module, until) : repeat_instance(from, &session, it.module, until);
}

static sandbox_bytes all_of(FILE *from) {
  uint8_t *at = NULL;
  size_t length = 0, more;
  do {
    at = realloc(at, length + 65536);
    if (!at)
      fail("memory", SANDBOX_OUT_OF_MEMORY);
    more = fread(at + length, 1, 65536, from);
    length += more;
  } while (more);
  return (sandbox_bytes){at, length};
}

static int record(int count, char **words) {
  FILE *to = fopen(words[0], "wb"), *opened = fopen(words[1], "rb");
  if (!to || !opened) {
    perror(HOST);
    return 2;
  }
  sandbox_bytes module = all_of(opened), none = bytes_of(""), *args = calloc(count, sizeof *args);
  const sandbox_preopen root = {bytes_of("/"), bytes_of("/")};
  for (int n = 1; n < count && args; n++)
    args[n - 1] = bytes_of(words[n]);
  const sandbox_supplies given = {args, count - 1, &none, 0, &root, 1, 0, none, {0}, all_of(stdin)};
  const sandbox_volume fresh = {.kind = SANDBOX_VOLUME_FRESH, .sectors = (const uint8_t(*)[512])module.at};
  sandbox_session *session = NULL;
  sandbox_why why = {0};
  sandbox_told told = {.kind = SANDBOX_GOES_ON};
  check("open", recording_open(to, &session, module.at, module.length, &given, &fresh, &why));
  while (told.kind & SANDBOX_GOES_ON)
    check("resume", recording_resume(to, &session, EVERY, &told));
  check("finish", recording_finish(to, &session));
  sandbox_bytes out = {malloc(sandbox_output(&session, 1, 0, (uint8_t *)"", 0) + 1), sandbox_output(&session, 1, 0, (uint8_t *)"", 0)};
  if (out.at)
    fwrite(out.at, 1, sandbox_output(&session, 1, 0, (uint8_t *)out.at, out.length), stdout);
  check("close", sandbox_close(&session));
  return fclose(to) ? 2 : 0;
}

/* Goes on until what runs has returned or ended. A function of the host gives the sum of its arguments, or nothing where it has no result. */
static void run_recorded(FILE *to, sandbox_session **instance) {
  uint64_t arguments[RECORDING_VALUES], sum;
  sandbox_told told;
  do {
    check("go", recording_go(to, instance, EVERY, &told));
    if (told.kind != SANDBOX_ASKED)
      continue;
    sum = 0;
    for (size_t n = 0, count = sandbox_values(instance, arguments, RECORDING_VALUES); n < count; n++)
      sum += arguments[n];
    sum = (uint32_t)sum;
    if (recording_answer(to, instance, &sum, 1) == SANDBOX_MISTYPED)
      check("answer", recording_answer(to, instance, &sum, 0));
  } while (told.kind == SANDBOX_ASKED || told.kind == SANDBOX_CALLED || told.kind == SANDBOX_SPENT);
}

static int record_call(int count, char **words) {
  FILE *to = fopen(words[0], "wb"), *opened = fopen(words[1], "rb");
  if (!to || !opened) {
    perror(HOST);
    return 2;
  }
  sandbox_bytes module = all_of(opened), none = bytes_of("");
  const sandbox_preopen root = {bytes_of("/"), bytes_of("/")};
  const sandbox_supplies given = {&none, 0, &none, 0, &root, 1, 0, none, {0}, none};
  const sandbox_volume fresh = {.kind = SANDBOX_VOLUME_FRESH, .sectors = (const uint8_t(*)[512])module.at};
  sandbox_session *instance = NULL;
  sandbox_plugin *plugin = NULL;
  sandbox_why why = {0};
  uint64_t arguments[RECORDING_VALUES], result;
  for (int n = 3; n < count; n++)
    arguments[n - 3] = strtoull(words[n], NULL, 0);
  check("open", recording_instance_open(to, &instance, &plugin, module, 1, &given, &fresh, &why));
  run_recorded(to, &instance);
  check("invoke", recording_invoke(to, &instance, bytes_of(words[2]), arguments, (size_t)count - 3));
  run_recorded(to, &instance);
  if (sandbox_values(&instance, &result, 1) == 1)
    printf("%" PRIu64 "\n", result);
  check("finish", recording_instance_finish(to, &instance));
  check("close", sandbox_close(&instance));
  check("unload", sandbox_plugin_unload(&plugin));
  return fclose(to) ? 2 : 0;
}

int main(int argc, char **argv) {
  if (argc > 3 && !strcmp(argv[1], "--record"))
    return record(argc - 2, argv + 2);
  if (argc > 4 && argc <= 5 + RECORDING_VALUES && !strcmp(argv[1], "--call"))
    return record_call(argc - 2, argv + 2);
  if (argc == 4 && !strcmp(argv[1], "--until"))
    return replay(argv[3], strtoull(argv[2], NULL, 10));
  if (argc == 2)
    return replay(argv[1], UINT64_MAX);
  fprintf(stderr, "replay [--until UNITS] FILE | replay --record FILE MODULE [WORD]... | replay --call FILE MODULE NAME [NUMBER]...\n");
  return 2;
}
