/* What threads agree by: mutexes, conditions, and work that is done once, of C11's <threads.h>. */
#ifdef __riscv_atomic
#include "system.h"
#include "threads.h"
#include <limits.h>

int mtx_init(mtx_t *mutex, int type)
{
    *mutex = (mtx_t){.type = type};
    return type == mtx_plain || type == mtx_recursive ? thrd_success : thrd_error;
}

int mtx_lock(mtx_t *mutex)
{
    if (mutex->type == mtx_recursive)
        guest_lock_take(&mutex->lock);
    else
        guest_word_take(&mutex->lock.word);
    return thrd_success;
}

int mtx_trylock(mtx_t *mutex)
{
    int taken = mutex->type == mtx_recursive ? guest_lock_try(&mutex->lock) : guest_word_try(&mutex->lock.word);
    return taken ? thrd_success : thrd_busy;
}

int mtx_unlock(mtx_t *mutex)
{
    if (mutex->type == mtx_recursive)
        guest_lock_give(&mutex->lock);
    else
        guest_word_give(&mutex->lock.word);
    return thrd_success;
}

void mtx_destroy(mtx_t *mutex)
{
    (void)mutex;
}

int cnd_init(cnd_t *condition)
{
    condition->turn = 0;
    return thrd_success;
}

/* Who is between giving the mutex and sleeping sees that the turn has changed, and doesn't sleep. */
int cnd_wait(cnd_t *condition, mtx_t *mutex)
{
    int turn = guest_value(&condition->turn);
    mtx_unlock(mutex);
    guest_wait(&condition->turn, turn);
    return mtx_lock(mutex);
}

static int wake(cnd_t *condition, int count)
{
    __atomic_add_fetch(&condition->turn, 1, __ATOMIC_RELEASE);
    guest_wake(&condition->turn, count);
    return thrd_success;
}

int cnd_signal(cnd_t *condition)
{
    return wake(condition, 1);
}

int cnd_broadcast(cnd_t *condition)
{
    return wake(condition, INT_MAX);
}

void cnd_destroy(cnd_t *condition)
{
    (void)condition;
}

void call_once(once_flag *flag, void (*work)(void))
{
    if (!guest_once_begin(&flag->state))
        return;
    work();
    guest_once_end(&flag->state);
}
#endif
