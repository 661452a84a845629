/* What the files of this folder share: the machine's calls, locks over them, and what a thread begins and ends with. */
#ifndef SYSTEM_H
#define SYSTEM_H

#include "lock.h"
#include <stddef.h>

#ifdef __cplusplus
extern "C" {
#endif

/* Linux's numbers for 32-bit RISC-V */
enum {
    CALL_IOCTL = 29,
    CALL_CLOSE = 57,
    CALL_LLSEEK = 62,
    CALL_READ = 63,
    CALL_WRITE = 64,
    CALL_EXIT = 93,
    CALL_EXIT_GROUP = 94,
    CALL_SET_TID_ADDRESS = 96,
    CALL_SCHED_YIELD = 124,
    CALL_KILL = 129,
    CALL_TGKILL = 131,
    CALL_GETPID = 172,
    CALL_GETTID = 178,
    CALL_BRK = 214,
    CALL_MUNMAP = 215,
    CALL_CLONE = 220,
    CALL_MMAP = 222,
    CALL_MPROTECT = 226,
    CALL_GETRANDOM = 278,
    CALL_CLOCK_GETTIME = 403,
    CALL_FUTEX = 422
};

/* The answer of a call, an error e as -e. */
int guest_call(int number, int a, int b, int c, int d, int e, int f);

/* Waits while the word has this value, until somebody wakes who waits there. It may return without either. */
void guest_wait(int *word, int value);

/* Wakes so many of those who wait there. */
void guest_wake(int *word, int count);

/* A word that threads share. The second answers what it was, the third whether it was `old` and so became `value`. */
int guest_value(int *word);
int guest_exchange(int *word, int value);
int guest_replace(int *word, int old, int value);

/* A lock is a word, 0 at first. */
void guest_word_take(int *word);
int guest_word_try(int *word);
void guest_word_give(int *word);

void guest_lock_take(struct __lock *lock);
int guest_lock_try(struct __lock *lock);
void guest_lock_give(struct __lock *lock);

#ifndef __cplusplus
/* A thread is known by where its variables are. */
__extension__ register void *guest_this_thread __asm__("tp");
#endif

/* Work that is done once: whether the caller has to do it. If not, it has been done. */
int guest_once_begin(int *state);
void guest_once_end(int *state);

/* Sets up a thread's variables at this place, where all is zero, and answers what its tp has to be. */
void *guest_locals_at(char *place);

/* Sleeps for this time. 0, or -1 for one that there isn't. */
struct timespec;
int guest_sleep(const struct timespec *length);

/* Call the destructors of the C++ variables of the thread that ends, and of what it keeps under keys. */
void guest_end_variables(void);
void guest_end_keys(void);

#ifdef __cplusplus
}
#endif

#endif
