/* One thread. A lock that it holds already would never come free, and says EDEADLK; a recursive one is taken again. */
#include <errno.h>
#include <pthread.h>
#include <semaphore.h>
#include <stddef.h>
#include <threads.h>

enum { KEYS = 128, KIND = 0, HELD = 1 }; /* where a mutex keeps what it is, and how often it is held */

static struct {
  const void *value;
  int is_used;
} keys[KEYS];

int pthread_create(pthread_t *made, const pthread_attr_t *how, void *(*start)(void *), void *word) {
  (void)made, (void)how, (void)start, (void)word;
  return EAGAIN;
}

pthread_t pthread_self(void) { return (pthread_t)1; }
int pthread_equal(pthread_t one, pthread_t other) { return one == other; }

int pthread_once(pthread_once_t *once, void (*first)(void)) {
  if (!*once) {
    *once = 1;
    first();
  }
  return 0;
}

/* The values stay as long as the program runs, so no function is called at a thread's end. */
int pthread_key_create(pthread_key_t *key, void (*end)(void *)) {
  (void)end;
  for (unsigned i = 0; i < KEYS; i++)
    if (!keys[i].is_used) {
      keys[i].is_used = 1;
      keys[i].value = NULL;
      *key = i;
      return 0;
    }
  return EAGAIN;
}

int pthread_key_delete(pthread_key_t key) {
  if (key >= KEYS || !keys[key].is_used)
    return EINVAL;
  keys[key].is_used = 0;
  return 0;
}

void *pthread_getspecific(pthread_key_t key) { return key < KEYS ? (void *)keys[key].value : NULL; }

int pthread_setspecific(pthread_key_t key, const void *value) {
  if (key >= KEYS || !keys[key].is_used)
    return EINVAL;
  keys[key].value = value;
  return 0;
}

int pthread_mutexattr_init(pthread_mutexattr_t *how) {
  how->__attr = PTHREAD_MUTEX_NORMAL;
  return 0;
}

int pthread_mutexattr_settype(pthread_mutexattr_t *how, int type) {
  how->__attr = (unsigned)type;
  return 0;
}

int pthread_mutexattr_destroy(pthread_mutexattr_t *how) {
  (void)how;
  return 0;
}

static int lock(int *mutex, int refused) {
  if (mutex[HELD] && mutex[KIND] != PTHREAD_MUTEX_RECURSIVE)
    return refused;
  mutex[HELD]++;
  return 0;
}

static int unlock(int *mutex) {
  if (!mutex[HELD])
    return EPERM;
  mutex[HELD]--;
  return 0;
}

int pthread_mutex_init(pthread_mutex_t *mutex, const pthread_mutexattr_t *how) {
  int *it = (int *)mutex;
  it[KIND] = how ? (int)how->__attr : PTHREAD_MUTEX_NORMAL;
  it[HELD] = 0;
  return 0;
}

int pthread_mutex_destroy(pthread_mutex_t *mutex) { return ((int *)mutex)[HELD] ? EBUSY : 0; }
int pthread_mutex_lock(pthread_mutex_t *mutex) { return lock((int *)mutex, EDEADLK); }
int pthread_mutex_trylock(pthread_mutex_t *mutex) { return lock((int *)mutex, EBUSY); }
int pthread_mutex_unlock(pthread_mutex_t *mutex) { return unlock((int *)mutex); }

void call_once(once_flag *once, void (*first)(void)) { pthread_once((pthread_once_t *)once, first); }

int mtx_init(mtx_t *mutex, int type) {
  ((int *)mutex)[KIND] = type & mtx_recursive ? PTHREAD_MUTEX_RECURSIVE : PTHREAD_MUTEX_NORMAL;
  ((int *)mutex)[HELD] = 0;
  return thrd_success;
}

void mtx_destroy(mtx_t *mutex) { (void)mutex; }
int mtx_lock(mtx_t *mutex) { return lock((int *)mutex, EDEADLK) ? thrd_error : thrd_success; }
int mtx_trylock(mtx_t *mutex) { return lock((int *)mutex, EBUSY) ? thrd_busy : thrd_success; }
int mtx_unlock(mtx_t *mutex) { return unlock((int *)mutex) ? thrd_error : thrd_success; }

int sem_init(sem_t *semaphore, int is_shared, unsigned count) {
  (void)is_shared;
  semaphore->__val[0] = (int)count;
  return 0;
}

int sem_destroy(sem_t *semaphore) {
  (void)semaphore;
  return 0;
}

int sem_getvalue(sem_t *__restrict semaphore, int *__restrict count) {
  *count = semaphore->__val[0];
  return 0;
}

int sem_post(sem_t *semaphore) {
  semaphore->__val[0]++;
  return 0;
}

static int taken(sem_t *semaphore, int refused) {
  if (semaphore->__val[0] > 0) {
    semaphore->__val[0]--;
    return 0;
  }
  errno = refused;
  return -1;
}

int sem_trywait(sem_t *semaphore) { return taken(semaphore, EAGAIN); }
int sem_wait(sem_t *semaphore) { return taken(semaphore, EDEADLK); }
