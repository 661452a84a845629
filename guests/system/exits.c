/* What is called at the end of the program (atexit, on_exit, the destructors of C++ globals), as much as there is
   memory for, and at the end of a thread (the destructors of its C++ variables). */
#include "system.h"
#include <stdlib.h>

/* As the C library numbers them: who registered the call says what it takes. */
enum { BY_ON_EXIT = 1, BY_ATEXIT, BY_CXA_ATEXIT };

struct exit_call {
    int kind;
    void (*call)(void);
    void *argument;
};

static struct block {
    struct block *before;
    int count;
    struct exit_call calls[32];
} first, *last = &first;
static struct __lock lock;

static int add(struct exit_call call)
{
    if (last->count == 32) {
        struct block *next = malloc(sizeof *next);
        if (!next)
            return -1;
        next->before = last;
        next->count = 0;
        last = next;
    }
    last->calls[last->count++] = call;
    return 0;
}

/* atexit and __cxa_atexit of the C library come here. */
int _on_exit(int kind, void (*call)(void), void *argument)
{
    guest_lock_take(&lock);
    int refused = add((struct exit_call){kind, call, argument});
    guest_lock_give(&lock);
    return refused;
}

int on_exit(void (*call)(int, void *), void *argument)
{
    return _on_exit(BY_ON_EXIT, (void (*)(void))call, argument);
}

static int take_last(struct exit_call *call)
{
    guest_lock_take(&lock);
    if (last->count == 0 && last->before)
        last = last->before;
    int some = last->count > 0;
    if (some)
        *call = last->calls[--last->count];
    guest_lock_give(&lock);
    return some;
}

/* exit calls this first. A call may register others, which then come next. */
void __call_exitprocs(int code, void *unused)
{
    (void)unused;
    guest_end_variables();
    for (struct exit_call last_call; take_last(&last_call);)
        if (last_call.kind == BY_ON_EXIT)
            ((void (*)(int, void *))last_call.call)(code, last_call.argument);
        else if (last_call.kind == BY_CXA_ATEXIT)
            ((void (*)(void *))last_call.call)(last_call.argument);
        else
            last_call.call();
}

struct destructor {
    struct destructor *before;
    void (*destroy)(void *);
    void *object;
};
static __thread struct destructor *last_destructor;

int __cxa_thread_atexit(void (*destroy)(void *), void *object, void *unused)
{
    (void)unused;
    struct destructor *made = malloc(sizeof *made);
    if (!made)
        abort();
    *made = (struct destructor){last_destructor, destroy, object};
    last_destructor = made;
    return 0;
}

void guest_end_variables(void)
{
    for (struct destructor *one; (one = last_destructor) != NULL; free(one)) {
        last_destructor = one->before;
        one->destroy(one->object);
    }
}
