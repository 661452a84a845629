/* Begins a program: gives the first thread its variables, and calls the constructors, main and exit. */
#include "system.h"
#include <stdlib.h>
#include <string.h>

/* Of the linker script: the first values of the thread-locals that aren't zero, their length, which is an address, and
   the first thread's */
extern char __tdata_start[], __tdata_size[], __first_locals[];

void __libc_init_array(void);
int main(int argc, char **argv, char **environment);

/* The place is zero, as the others have to be. */
void *guest_locals_at(char *place)
{
    return memcpy(place, __tdata_start, (size_t)__tdata_size);
}

__attribute__((naked, section(".text.start"))) void _start(void)
{
    __asm__(".option push\n.option norelax\nla gp, __global_pointer$\n.option pop\nmv a0, sp\ntail begin\n");
}

/* The stack holds the number of arguments, their addresses, 0, those of the environment, and 0. */
__attribute__((used)) static void begin(int *stack)
{
    char **arguments = (char **)(stack + 1);
    __asm__ volatile("mv tp, %0" : : "r"(guest_locals_at(__first_locals)));
    __libc_init_array();
    exit(main(stack[0], arguments, arguments + stack[0] + 1));
}
