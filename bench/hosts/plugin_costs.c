/*
 * What calls of an instance cost, beside a call of WASI that a session comes back with, as ratios in one run: bench/plugin-costs.
 *
 *     plugin_costs [ROUNDS]
 *     plugin_costs --module FILE        writes the module, for others
 *
 * Each figure is the least of seven rounds, in processor time of the thread.
 */
#define _GNU_SOURCE
#include <inttypes.h>
#include <pthread.h>
#include <sandbox_plugin.h>
#include <stdio.h>
#include <stdlib.h>
#include <string.h>
#include <time.h>
#include <unistd.h>

enum { TIMES = 7, INSTANCES = 1000, THREADS = 4 };
#define MOST UINT64_MAX

/* Imports env.f, [] -> [], and sched_yield; a page of memory; exports `empty`, [] -> [], and `ask`, [i32] -> [], which calls env.f so many
 * times. `_start` calls sched_yield without end. */
static const uint8_t PLUGIN[] = "\0asm\1\0\0\0\1\x0c\3`\0\0`\0\1\x7f`\1\x7f\0\2\x09\1\3env\1f\0\0\3\3\2\0\2\5\3\1\0\1\7\x0f\2\5empty\0\1\3ask\0\2"
                                "\x0a\x15\2\2\0\x0b\x10\0\3@\x10\0 \0A\1k\"\0\x0d\0\x0b\x0b";
static const uint8_t COMMAND[] = "\0asm\1\0\0\0\1\x08\2`\0\0`\0\1\x7f\2\x26\1\x16wasi_snapshot_preview1\x0bsched_yield\0\1\3\2\1\0\5\3\1\0\1"
                                 "\7\x0a\1\6_start\0\1\x0a\x0c\1\x0a\0\3@\x10\0\x1a\x0c\0\x0b\x0b";

static void check(const char *what, uint32_t answer) {
  if (answer != SANDBOX_OK) {
    fprintf(stderr, "plugin_costs: %s: %" PRIu32 "\n", what, answer);
    exit(1);
  }
}

static double now(void) {
  struct timespec at;
  clock_gettime(CLOCK_THREAD_CPUTIME_ID, &at);
  return 1e9 * (double)at.tv_sec + (double)at.tv_nsec;
}

static const sandbox_bytes NONE = {(const uint8_t *)"", 0};
static const sandbox_volume FRESH = {.kind = SANDBOX_VOLUME_FRESH, .sectors = (const uint8_t(*)[512])""};

static sandbox_supplies given(void) {
  return (sandbox_supplies){.args = &NONE, .env = &NONE, .preopens = (const sandbox_preopen *)"", .random = NONE, .input = NONE, .limits = {.pages = 1}};
}

static void load(sandbox_plugin **plugin) {
  const sandbox_limits limits = {.pages = 1};
  sandbox_why why;
  check("load", sandbox_plugin_load(plugin, PLUGIN, sizeof PLUGIN - 1, &limits, 0, &why));
}

static void open_one(sandbox_session **instance, sandbox_plugin **plugin) {
  const sandbox_supplies supplies = given();
  sandbox_told told;
  check("open", sandbox_instance_open(instance, plugin, &supplies, &FRESH));
  check("go", sandbox_go(instance, MOST, &told));
}

/* So many calls of the empty export. */
static void calls(sandbox_session **instance, size_t count) {
  sandbox_told told = {0};
  for (size_t n = 0; n < count; n++) {
    check("invoke", sandbox_invoke(instance, (const uint8_t *)"empty", 5, (const uint64_t *)PLUGIN, 0));
    check("go", sandbox_go(instance, 1000, &told));
  }
  if (told.kind != SANDBOX_RETURNED)
    check("a call returns", SANDBOX_MISUSE);
}

/* So many asks, each answered. */
static void asks(sandbox_session **instance, size_t count) {
  const uint64_t argument = count;
  sandbox_told told;
  check("invoke", sandbox_invoke(instance, (const uint8_t *)"ask", 3, &argument, 1));
  for (size_t n = 0; n < count; n++) {
    check("go", sandbox_go(instance, 1000, &told));
    check("answer", sandbox_answer(instance, &argument, 0));
  }
  check("go", sandbox_go(instance, 1000, &told));
  if (told.kind != SANDBOX_RETURNED)
    check("asks return", SANDBOX_MISUSE);
}

/* So many calls of WASI, after each of which the session comes back. */
static void resumes(sandbox_session **session, size_t count) {
  sandbox_told told = {0};
  for (size_t n = 0; n < count; n++)
    check("resume", sandbox_resume(session, 1000, &told));
  if (told.kind != SANDBOX_CALLED)
    check("a session calls", SANDBOX_MISUSE);
}

static double least(void (*what)(sandbox_session **, size_t), sandbox_session **on, size_t count) {
  double best = 1e300;
  for (int n = 0; n < TIMES; n++) {
    const double begun = now();
    what(on, count);
    const double took = (now() - begun) / (double)count;
    best = took < best ? took : best;
  }
  return best;
}

static double opens(sandbox_plugin **plugin, size_t count) {
  double best = 1e300;
  for (int n = 0; n < TIMES; n++) {
    const double begun = now();
    for (size_t k = 0; k < count; k++) {
      sandbox_session *instance = NULL;
      open_one(&instance, plugin);
      check("close", sandbox_close(&instance));
    }
    const double took = (now() - begun) / (double)count;
    best = took < best ? took : best;
  }
  return best;
}

static size_t resident(void) {
  size_t pages = 0, whole;
  FILE *file = fopen("/proc/self/statm", "r");
  if (!file || fscanf(file, "%zu %zu", &whole, &pages) != 2)
    check("statm", SANDBOX_MISUSE);
  fclose(file);
  return pages * (size_t)sysconf(_SC_PAGESIZE);
}

static double held(sandbox_plugin **plugin) {
  static sandbox_session *all[INSTANCES];
  const size_t before = resident();
  for (int n = 0; n < INSTANCES; n++) {
    open_one(&all[n], plugin);
    calls(&all[n], 1);
  }
  const size_t after = resident();
  for (int n = 0; n < INSTANCES; n++)
    check("close", sandbox_close(&all[n]));
  return (double)(after - before) / INSTANCES;
}

struct task {
  sandbox_plugin *plugin;
  size_t count;
  double took;
};

static void *in_thread(void *given_to) {
  struct task *task = given_to;
  sandbox_session *instance = NULL;
  open_one(&instance, &task->plugin);
  task->took = least(calls, &instance, task->count);
  check("close", sandbox_close(&instance));
  return NULL;
}

/* The most that a call takes in one of so many threads. */
static double threads(sandbox_plugin **plugin, int many, size_t count) {
  struct task tasks[THREADS] = {0};
  pthread_t running[THREADS];
  double most = 0;
  for (int n = 0; n < many; n++) {
    tasks[n].count = count;
    check("share", sandbox_plugin_share(&tasks[n].plugin, plugin));
    check("a thread", (uint32_t)pthread_create(&running[n], NULL, in_thread, &tasks[n]));
  }
  for (int n = 0; n < many; n++) {
    pthread_join(running[n], NULL);
    most = tasks[n].took > most ? tasks[n].took : most;
    check("unload", sandbox_plugin_unload(&tasks[n].plugin));
  }
  return most;
}

static int write_module(const char *path) {
  FILE *file = fopen(path, "wb");
  return !file || fwrite(PLUGIN, 1, sizeof PLUGIN - 1, file) != sizeof PLUGIN - 1 || fclose(file);
}

int main(int argc, char **argv) {
  if (argc == 3 && !strcmp(argv[1], "--module"))
    return write_module(argv[2]);
  const size_t rounds = argc > 1 ? strtoull(argv[1], NULL, 10) : 200000;
  sandbox_plugin *plugin = NULL;
  sandbox_session *instance = NULL, *session = NULL;
  const sandbox_supplies supplies = given();
  sandbox_why why;
  load(&plugin);
  open_one(&instance, &plugin);
  check("open", sandbox_open(&session, COMMAND, sizeof COMMAND - 1, &supplies, &FRESH, &why));
  const double called = least(resumes, &session, rounds), call = least(calls, &instance, rounds), ask = least(asks, &instance, rounds);
  printf("a call of WASI and its resume: %.1f ns\n", called);
  printf("a call of an empty export: %.1f ns, %.2f times that\n", call, call / called);
  printf("an ask and its answer: %.1f ns, %.2f times\n", ask, ask / called);
  printf("opening and closing an instance with a page of memory: %.1f us\n", opens(&plugin, rounds / 1000 + 1) / 1000);
  printf("each of %d instances at once: %.1f KB resident, with its page\n", INSTANCES, held(&plugin) / 1024);
  const double one = threads(&plugin, 1, rounds), four = threads(&plugin, THREADS, rounds);
  printf("a call in one thread: %.1f ns, in the slowest of %d: %.1f ns, %.3f times\n", one, THREADS, four, four / one);
  check("close", sandbox_close(&session));
  check("close", sandbox_close(&instance));
  check("unload", sandbox_plugin_unload(&plugin));
  return 0;
}
