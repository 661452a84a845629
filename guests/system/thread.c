/* Threads of C11's <threads.h>, over clone and futex. Without the A extension there are none. */
#ifdef __riscv_atomic
#include "system.h"
#include "threads.h"
#include <errno.h>
#include <stdint.h>
#include <stdlib.h>

extern char __tls_size[], __tls_align[];

enum { PAGE = 4096 };
enum { JOINABLE, DETACHED, ENDED };

struct guest_thread {
    int number; /* 0 once it has ended: the machine sets it, and wakes who waits there */
    int state;
    thrd_start_t work;
    void *argument;
    int result;
    char *memory; /* a page that can't be used, the stack, this record, the thread's variables */
    size_t length;
};

size_t thrd_stack_size = 131072;

static struct guest_thread first = {.number = 1};
static __thread struct guest_thread *present = &first;
static int running = 1;

/* clone(flags, stack, parent, tls, child): the caller gets the new thread's number. The new thread stands on its own
   stack below the record, and goes to thread_begin. Memory, files and signals are shared, and the number at the record
   becomes 0 when it ends. */
static int clone_to(struct guest_thread *thread, void *locals)
{
    register int a0 __asm__("a0") = 0x3d0f00, a7 __asm__("a7") = CALL_CLONE;
    register struct guest_thread *stack __asm__("a1") = thread;
    register int *parent __asm__("a2") = &thread->number, *child __asm__("a4") = &thread->number;
    register void *tls __asm__("a3") = locals;
    __asm__ volatile("ecall\nbnez a0, 1f\nmv a0, sp\ntail thread_begin\n1:\n"
                     : "+r"(a0)
                     : "r"(stack), "r"(parent), "r"(tls), "r"(child), "r"(a7)
                     : "memory");
    return a0;
}

/* Gives back the memory that holds the caller's own stack, and ends the thread. */
__attribute__((noreturn)) static void unmap_and_end(char *memory, size_t length)
{
    register char *a0 __asm__("a0") = memory;
    register size_t a1 __asm__("a1") = length;
    register int a7 __asm__("a7") = CALL_MUNMAP, end __asm__("a2") = CALL_EXIT;
    __asm__ volatile("ecall\nmv a7, a2\nli a0, 0\necall\n" : "+r"(a0), "+r"(a7) : "r"(a1), "r"(end) : "memory");
    __builtin_unreachable();
}

static char *down_to(char *place, size_t boundary)
{
    return (char *)((uintptr_t)place & -boundary);
}

static char *map(size_t length)
{
    int place = guest_call(CALL_MMAP, 0, length, 3, 0x22, -1, 0);
    if (place < 0 && place > -PAGE)
        return NULL;
    guest_call(CALL_MPROTECT, place, PAGE, 0, 0, 0, 0);
    return (char *)place;
}

static void unmap(struct guest_thread *thread)
{
    if (thread->memory)
        guest_call(CALL_MUNMAP, (int)thread->memory, thread->length, 0, 0, 0, 0);
}

int thrd_create(thrd_t *thread, thrd_start_t work, void *argument)
{
    enum { MOST = 0x40000000 };
    size_t variables = (size_t)__tls_size, boundary = (size_t)__tls_align;
    if (thrd_stack_size > MOST)
        return thrd_nomem;
    size_t length = PAGE + thrd_stack_size + sizeof(struct guest_thread) + 16 + variables + boundary + PAGE - 1;
    length -= length % PAGE;
    char *memory = map(length);
    if (!memory)
        return thrd_nomem;
    char *locals = down_to(memory + length - variables, boundary);
    struct guest_thread *made = (struct guest_thread *)down_to(locals - sizeof *made, 16);
    *made = (struct guest_thread){.work = work, .argument = argument, .memory = memory, .length = length};
    *thread = made;
    __atomic_add_fetch(&running, 1, __ATOMIC_RELAXED);
    int number = clone_to(made, guest_locals_at(locals));
    if (number > 0)
        return thrd_success;
    __atomic_sub_fetch(&running, 1, __ATOMIC_RELAXED);
    unmap(made);
    return number == -EAGAIN ? thrd_nomem : thrd_error;
}

__attribute__((used, noreturn)) static void thread_begin(struct guest_thread *thread)
{
    present = thread;
    thrd_exit(thread->work(thread->argument));
}

void thrd_exit(int result)
{
    struct guest_thread *thread = present;
    thread->result = result;
    guest_end_variables();
    guest_end_keys();
    if (__atomic_sub_fetch(&running, 1, __ATOMIC_ACQ_REL) == 0)
        exit(EXIT_SUCCESS);
    if (guest_exchange(&thread->state, ENDED) == DETACHED && thread->memory) {
        guest_call(CALL_SET_TID_ADDRESS, 0, 0, 0, 0, 0, 0);
        unmap_and_end(thread->memory, thread->length);
    }
    if (thread == &first)
        guest_call(CALL_SET_TID_ADDRESS, (int)&first.number, 0, 0, 0, 0, 0);
    for (;;)
        guest_call(CALL_EXIT, 0, 0, 0, 0, 0, 0);
}

int thrd_join(thrd_t thread, int *result)
{
    for (int number; (number = guest_value(&thread->number)) != 0;)
        guest_wait(&thread->number, number);
    if (result)
        *result = thread->result;
    unmap(thread);
    return thrd_success;
}

int thrd_detach(thrd_t thread)
{
    return guest_exchange(&thread->state, DETACHED) == ENDED ? thrd_join(thread, NULL) : thrd_success;
}

thrd_t thrd_current(void)
{
    return present;
}

int thrd_equal(thrd_t one, thrd_t other)
{
    return one == other;
}

void thrd_yield(void)
{
    guest_call(CALL_SCHED_YIELD, 0, 0, 0, 0, 0, 0);
}

int thrd_sleep(const struct timespec *length, struct timespec *rest)
{
    (void)rest;
    return guest_sleep(length);
}
#endif
