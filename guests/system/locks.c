/* Locks over the futex call: who waits sleeps. The C library's own locks are among them. */
#include "system.h"
#include <limits.h>
#include <stdlib.h>
#include <sys/lock.h>

void guest_wait(int *word, int value)
{
    guest_call(CALL_FUTEX, (int)word, 0, value, 0, 0, 0);
}

void guest_wake(int *word, int count)
{
    guest_call(CALL_FUTEX, (int)word, 1, count, 0, 0, 0);
}

/* Without the A extension a program has one thread, so plain accesses serve. */
#ifdef __riscv_atomic
int guest_value(int *word)
{
    return __atomic_load_n(word, __ATOMIC_ACQUIRE);
}

int guest_exchange(int *word, int value)
{
    return __atomic_exchange_n(word, value, __ATOMIC_ACQ_REL);
}

int guest_replace(int *word, int old, int value)
{
    return __atomic_compare_exchange_n(word, &old, value, 0, __ATOMIC_ACQ_REL, __ATOMIC_ACQUIRE);
}
#else
int guest_value(int *word)
{
    return *word;
}

int guest_exchange(int *word, int value)
{
    int old = *word;
    *word = value;
    return old;
}

int guest_replace(int *word, int old, int value)
{
    int same = *word == old;
    if (same)
        *word = value;
    return same;
}
#endif

/* 0: free, 1: taken, 2: taken and somebody may be waiting */
int guest_word_try(int *word)
{
    return guest_replace(word, 0, 1);
}

void guest_word_take(int *word)
{
    if (guest_replace(word, 0, 1))
        return;
    while (guest_exchange(word, 2) != 0)
        guest_wait(word, 2);
}

void guest_word_give(int *word)
{
    if (guest_exchange(word, 0) == 2)
        guest_wake(word, 1);
}

void guest_lock_take(struct __lock *lock)
{
    if (lock->owner != guest_this_thread) {
        guest_word_take(&lock->word);
        lock->owner = guest_this_thread;
    }
    lock->depth++;
}

int guest_lock_try(struct __lock *lock)
{
    if (lock->owner != guest_this_thread) {
        if (!guest_word_try(&lock->word))
            return 0;
        lock->owner = guest_this_thread;
    }
    lock->depth++;
    return 1;
}

void guest_lock_give(struct __lock *lock)
{
    if (--lock->depth > 0)
        return;
    lock->owner = NULL;
    guest_word_give(&lock->word);
}

enum { NOT_BEGUN, BEGUN, AWAITED, DONE };

int guest_once_begin(int *state)
{
    while (guest_value(state) != DONE) {
        if (guest_replace(state, NOT_BEGUN, BEGUN))
            return 1;
        if (guest_replace(state, BEGUN, AWAITED) || guest_replace(state, AWAITED, AWAITED))
            guest_wait(state, AWAITED);
    }
    return 0;
}

void guest_once_end(int *state)
{
    if (guest_exchange(state, DONE) == AWAITED)
        guest_wake(state, INT_MAX);
}

/* The C library calls these around what threads share: the heap, and a stream that isn't one of the three. Each may be
   taken again by its owner. */
struct __lock __lock___libc_recursive_mutex;

void __retarget_lock_init(_LOCK_T *lock)
{
    *lock = calloc(1, sizeof **lock);
    if (!*lock)
        *lock = &__lock___libc_recursive_mutex;
}

void __retarget_lock_close(_LOCK_T lock)
{
    if (lock != &__lock___libc_recursive_mutex)
        free(lock);
}

void __retarget_lock_init_recursive(_LOCK_T *lock)
{
    __retarget_lock_init(lock);
}

void __retarget_lock_close_recursive(_LOCK_T lock)
{
    __retarget_lock_close(lock);
}

void __retarget_lock_acquire(_LOCK_T lock)
{
    guest_lock_take(lock);
}

void __retarget_lock_acquire_recursive(_LOCK_T lock)
{
    guest_lock_take(lock);
}

int __retarget_lock_try_acquire(_LOCK_T lock)
{
    return guest_lock_try(lock);
}

int __retarget_lock_try_acquire_recursive(_LOCK_T lock)
{
    return guest_lock_try(lock);
}

void __retarget_lock_release(_LOCK_T lock)
{
    guest_lock_give(lock);
}

void __retarget_lock_release_recursive(_LOCK_T lock)
{
    guest_lock_give(lock);
}
