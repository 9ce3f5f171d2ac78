/* What wasi-libc leaves out of <pthread.h>: libsandbox-guest.a has it, and docs/GUESTS.md says what each answers. */
#ifndef SANDBOX_GUEST_PTHREAD_H
#define SANDBOX_GUEST_PTHREAD_H
#include <sys/types.h>
#include <time.h>
#ifdef __cplusplus
extern "C" {
#endif
#define PTHREAD_MUTEX_INITIALIZER {{{0}}}
#define PTHREAD_ONCE_INIT 0
#define PTHREAD_MUTEX_NORMAL 0
#define PTHREAD_MUTEX_RECURSIVE 1
int pthread_create(pthread_t *made, const pthread_attr_t *how, void *(*start)(void *), void *word);
pthread_t pthread_self(void);
int pthread_equal(pthread_t one, pthread_t other);
int pthread_once(pthread_once_t *once, void (*first)(void));
int pthread_key_create(pthread_key_t *key, void (*end)(void *));
int pthread_key_delete(pthread_key_t key);
void *pthread_getspecific(pthread_key_t key);
int pthread_setspecific(pthread_key_t key, const void *value);
int pthread_mutex_init(pthread_mutex_t *mutex, const pthread_mutexattr_t *how);
int pthread_mutex_destroy(pthread_mutex_t *mutex);
int pthread_mutex_lock(pthread_mutex_t *mutex);
int pthread_mutex_trylock(pthread_mutex_t *mutex);
int pthread_mutex_unlock(pthread_mutex_t *mutex);
int pthread_mutexattr_init(pthread_mutexattr_t *how);
int pthread_mutexattr_settype(pthread_mutexattr_t *how, int type);
int pthread_mutexattr_destroy(pthread_mutexattr_t *how);
#ifdef __cplusplus
}
#endif
#endif
