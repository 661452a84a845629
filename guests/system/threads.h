/* The part of C11's <threads.h> that the machine serves. Not here: mtx_timed, mtx_timedlock, cnd_timedwait. */
#ifndef GUEST_THREADS_H
#define GUEST_THREADS_H

#ifndef __riscv_atomic
#error "threads need the A extension: build with -march=rv32ima or -march=rv32ia"
#endif

#include "lock.h"
#include <stddef.h>
#include <time.h>

#ifdef __cplusplus
extern "C" {
#else
#define thread_local _Thread_local
#endif

enum { thrd_success, thrd_nomem, thrd_timedout, thrd_busy, thrd_error };

typedef struct guest_thread *thrd_t;
typedef int (*thrd_start_t)(void *);

/* The bytes of stack of the threads that begin from now on: 131,072 at first. The page below a stack can't be used. */
extern size_t thrd_stack_size;

int thrd_create(thrd_t *thread, thrd_start_t work, void *argument);
int thrd_join(thrd_t thread, int *result);
int thrd_detach(thrd_t thread);
__attribute__((noreturn)) void thrd_exit(int result);
thrd_t thrd_current(void);
int thrd_equal(thrd_t one, thrd_t other);
void thrd_yield(void);
int thrd_sleep(const struct timespec *length, struct timespec *rest);

enum { mtx_plain = 0, mtx_recursive = 1 };

typedef struct {
    struct __lock lock;
    int type;
} mtx_t;

int mtx_init(mtx_t *mutex, int type);
int mtx_lock(mtx_t *mutex);
int mtx_trylock(mtx_t *mutex);
int mtx_unlock(mtx_t *mutex);
void mtx_destroy(mtx_t *mutex);

typedef struct {
    int turn;
} cnd_t;

int cnd_init(cnd_t *condition);
int cnd_wait(cnd_t *condition, mtx_t *mutex);
int cnd_signal(cnd_t *condition);
int cnd_broadcast(cnd_t *condition);
void cnd_destroy(cnd_t *condition);

typedef struct {
    int state;
} once_flag;

#define ONCE_FLAG_INIT {0}

void call_once(once_flag *flag, void (*work)(void));

/* At most 64 at a time */
typedef int tss_t;
typedef void (*tss_dtor_t)(void *);

enum { TSS_DTOR_ITERATIONS = 4 };

int tss_create(tss_t *key, tss_dtor_t destroy);
void *tss_get(tss_t key);
int tss_set(tss_t key, void *value);
void tss_delete(tss_t key);

#ifdef __cplusplus
}
#endif

#endif
