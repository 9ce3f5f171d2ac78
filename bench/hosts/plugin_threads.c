/* Instances in threads: four threads have owners of one module, which they let go before their instances are done; and one instance is
 * handed from thread to thread while its guest waits for an answer, which each of two threads tries to give.
 *
 *     plugin_threads MODULE ROUNDS
 *
 * MODULE is the guest of bench/embed (ASKING). bench/embed builds it with the compiler's checks of threads, too: these see the host's own
 * accesses, and each place that the library gives back or takes from the system's store. The status is 1 where an answer is another. */
#include <pthread.h>
#include <sandbox_plugin.h>
#include <stdio.h>
#include <stdlib.h>

enum { THREADS = 4, UNITS = 1000 };

static unsigned wrong;
static size_t rounds;
static pthread_mutex_t lock = PTHREAD_MUTEX_INITIALIZER;
static pthread_cond_t changed = PTHREAD_COND_INITIALIZER;

static void want(const char *what, int holds) {
  if (holds)
    return;
  fprintf(stderr, "wrong: %s\n", what);
  __atomic_add_fetch(&wrong, 1, __ATOMIC_SEQ_CST);
}

static const sandbox_bytes none = {(const uint8_t *)"", 0};
static uint8_t sectors[1][512];
static const sandbox_volume fresh = {.kind = SANDBOX_VOLUME_FRESH, .sectors = (const uint8_t(*)[512])sectors};
static const sandbox_supplies supplies = {&none, 0, &none, 0, (const sandbox_preopen *)"", 0, 0, none, {.pages = 16}, none};

static sandbox_session *opened(sandbox_plugin **plugin) {
  sandbox_session *instance = NULL;
  sandbox_told told = {0};
  want("open", sandbox_instance_open(&instance, plugin, &supplies, &fresh) == SANDBOX_OK);
  want("the opening", sandbox_go(&instance, UNITS, &told) == SANDBOX_OK && told.kind == SANDBOX_RETURNED);
  return instance;
}

/* `ask` is called with this number, up to where it asks the host. */
static void asks(sandbox_session **instance, uint64_t number) {
  sandbox_told told = {0};
  uint64_t asked = 0;
  want("invoke", sandbox_invoke(instance, (const uint8_t *)"ask", 3, &number, 1) == SANDBOX_OK);
  want("it asks", sandbox_go(instance, UNITS, &told) == SANDBOX_OK && told.kind == SANDBOX_ASKED);
  want("its argument", sandbox_values(instance, &asked, 1) == 1 && asked == number);
}

/* It goes on, once it was answered, and gives twice the number. */
static void returns(sandbox_session **instance, uint64_t number) {
  sandbox_told told = {0};
  uint64_t result = 0;
  want("it returns", sandbox_go(instance, UNITS, &told) == SANDBOX_OK && told.kind == SANDBOX_RETURNED);
  want("its result", sandbox_values(instance, &result, 1) == 1 && result == 2 * number);
}

/* An owner of the module in a thread of its own: it lets the module go while its instance still runs. */
static void *owner(void *given) {
  sandbox_plugin *plugin = given;
  sandbox_session *instance = opened(&plugin), *other = opened(&plugin);
  want("unload", sandbox_plugin_unload(&plugin) == SANDBOX_OK && !plugin);
  want("no module", sandbox_plugin_unload(&plugin) == SANDBOX_MISUSE);
  for (uint64_t n = 0; n < rounds; n++) {
    sandbox_session **one = n % 3 ? &instance : &other;
    asks(one, n);
    const uint64_t twice = 2 * n;
    want("answer", sandbox_answer(one, &twice, 1) == SANDBOX_OK);
    returns(one, n);
  }
  want("close", sandbox_close(&other) == SANDBOX_OK);
  return instance; /* whoever joins the thread closes it */
}

/* One instance, whose turn it is to call, and who has answered. */
static struct {
  sandbox_session *instance;
  uint64_t round;
  unsigned answered, tried;
} shared;

/* Each of two threads tries to answer each call: one is right, the other one is told that nobody is asked. The one that tries last goes
 * on, and begins the next call. */
static void *answerer(void *unused) {
  (void)unused;
  for (uint64_t n = 0; n < rounds; n++) {
    pthread_mutex_lock(&lock);
    while (shared.round != n)
      pthread_cond_wait(&changed, &lock);
    const uint64_t twice = 2 * n;
    const uint32_t answer = sandbox_answer(&shared.instance, &twice, 1);
    want("one answers", answer == (shared.answered ? SANDBOX_NOT_ASKED : SANDBOX_OK));
    shared.answered = 1;
    if (++shared.tried == 2) {
      returns(&shared.instance, n);
      shared.tried = shared.answered = 0;
      shared.round = n + 1;
      if (n + 1 < rounds)
        asks(&shared.instance, n + 1);
      pthread_cond_broadcast(&changed);
    }
    pthread_mutex_unlock(&lock);
  }
  return NULL;
}

int main(int count, char **words) {
  FILE *it = count == 3 ? fopen(words[1], "rb") : NULL;
  static uint8_t module[4096];
  const size_t length = it ? fread(module, 1, sizeof module, it) : 0;
  rounds = count == 3 ? strtoull(words[2], NULL, 10) : 0;
  if (!length || !rounds)
    return 2;
  sandbox_plugin *plugin = NULL, *own[THREADS] = {0};
  sandbox_why why;
  want("load", sandbox_plugin_load(&plugin, module, length, &supplies.limits, 0, &why) == SANDBOX_OK);
  pthread_t threads[THREADS], answering[2];
  for (int n = 0; n < THREADS; n++)
    want("share", sandbox_plugin_share(&own[n], &plugin) == SANDBOX_OK);
  shared.instance = opened(&plugin);
  asks(&shared.instance, 0);
  want("unload", sandbox_plugin_unload(&plugin) == SANDBOX_OK);
  for (int n = 0; n < THREADS; n++)
    want("a thread", !pthread_create(&threads[n], NULL, owner, own[n]));
  for (int n = 0; n < 2; n++)
    want("a thread", !pthread_create(&answering[n], NULL, answerer, NULL));
  for (int n = 0; n < THREADS; n++) {
    void *left = NULL;
    want("join", !pthread_join(threads[n], &left));
    sandbox_session *instance = left;
    want("another thread's instance", sandbox_close(&instance) == SANDBOX_OK);
  }
  for (int n = 0; n < 2; n++)
    want("join", !pthread_join(answering[n], NULL));
  want("close", sandbox_close(&shared.instance) == SANDBOX_OK);
  printf("%d owners in threads and an instance that two threads answer, %zu calls each: %u wrong\n", THREADS, rounds, wrong);
  return wrong > 0;
}
