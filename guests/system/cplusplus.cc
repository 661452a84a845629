// What C++ code without exceptions and run-time types asks its library for.
#include "system.h"
#include <stdlib.h>

namespace std {
enum class align_val_t : size_t {};
}

// There are no exceptions: memory that isn't there ends the program by abort.
static void *memory(void *place)
{
    if (!place)
        abort();
    return place;
}

void *operator new(size_t size)
{
    return memory(malloc(size ? size : 1));
}

void *operator new(size_t size, std::align_val_t boundary)
{
    return memory(aligned_alloc(size_t(boundary), size ? size : 1));
}

void *operator new[](size_t size)
{
    return operator new(size);
}

void *operator new[](size_t size, std::align_val_t boundary)
{
    return operator new(size, boundary);
}

void operator delete(void *place) noexcept
{
    free(place);
}

void operator delete(void *place, size_t) noexcept
{
    free(place);
}

void operator delete(void *place, std::align_val_t) noexcept
{
    free(place);
}

void operator delete(void *place, size_t, std::align_val_t) noexcept
{
    free(place);
}

void operator delete[](void *place) noexcept
{
    free(place);
}

void operator delete[](void *place, size_t) noexcept
{
    free(place);
}

void operator delete[](void *place, std::align_val_t) noexcept
{
    free(place);
}

void operator delete[](void *place, size_t, std::align_val_t) noexcept
{
    free(place);
}

// A static variable of a function is made by the first thread that comes to it. The compiler looks at the guard's first
// byte.
struct guard {
    char made;
    int state;
};

extern "C" {

int __cxa_guard_acquire(guard *one)
{
    return guest_once_begin(&one->state);
}

void __cxa_guard_release(guard *one)
{
    one->made = 1;
    guest_once_end(&one->state);
}

[[noreturn]] void __cxa_pure_virtual()
{
    abort();
}

[[noreturn]] void __cxa_deleted_virtual()
{
    abort();
}
}
