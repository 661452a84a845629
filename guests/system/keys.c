/* The values that each thread keeps under a key: tss_t of C11's <threads.h>. */
#ifdef __riscv_atomic
#include "system.h"
#include "threads.h"
#include <stddef.h>

enum { KEYS = 64 };

static struct __lock keys_lock;
static struct key {
    int used;
    tss_dtor_t destroy;
} keys[KEYS];
static __thread void *values[KEYS];

int tss_create(tss_t *key, tss_dtor_t destroy)
{
    int free_one = 0;
    guest_lock_take(&keys_lock);
    while (free_one < KEYS && keys[free_one].used)
        free_one++;
    if (free_one < KEYS)
        keys[free_one] = (struct key){1, destroy};
    guest_lock_give(&keys_lock);
    *key = free_one;
    return free_one < KEYS ? thrd_success : thrd_error;
}

void *tss_get(tss_t key)
{
    return values[key];
}

int tss_set(tss_t key, void *value)
{
    values[key] = value;
    return thrd_success;
}

void tss_delete(tss_t key)
{
    keys[key].used = 0;
}

/* The values of the thread that ends go to their destructors; these may set others. */
void guest_end_keys(void)
{
    for (int round = 0; round < TSS_DTOR_ITERATIONS; round++)
        for (int key = 0; key < KEYS; key++) {
            void *value = values[key];
            values[key] = NULL;
            if (value && keys[key].used && keys[key].destroy)
                keys[key].destroy(value);
        }
}
#endif
