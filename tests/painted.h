/* How deep a call goes into the stack: it runs on one of its own, of STACK bytes, that was painted before. Who includes this says how many they are. */
#ifndef PAINTED_H
#define PAINTED_H

#include <stddef.h>
#include <stdint.h>
#include <string.h>

enum { PAINT = 0xA5 };

static uint8_t stack[STACK];

/* Calls on the painted stack, and comes back to this one. */
#ifdef __unix__
#include <ucontext.h>
static void call_there(void (*call)(void))
{
    static ucontext_t here, there;
    getcontext(&there);
    there.uc_stack.ss_sp = stack;
    there.uc_stack.ss_size = sizeof stack;
    there.uc_link = &here;
    makecontext(&there, call, 0);
    swapcontext(&here, &there);
}
#else
static void call_there(void (*call)(void))
{
    uintptr_t top = (uintptr_t)(stack + sizeof stack) & ~(uintptr_t)7;
    __asm__ volatile("mov r4, sp\n\tmov sp, %0\n\tblx %1\n\tmov sp, r4"
                     :
                     : "r"(top), "r"(call)
                     : "r0", "r1", "r2", "r3", "r4", "r12", "lr", "cc", "memory");
}
#endif

/* Bytes of the stack that the call wrote, and what the switch of stacks itself takes. */
static unsigned long depth_of(void (*call)(void))
{
    size_t untouched = 0;
    memset(stack, PAINT, sizeof stack);
    call_there(call);
    while (untouched < sizeof stack && stack[untouched] == PAINT) {
        untouched++;
    }
    return sizeof stack - untouched;
}

/* How much deeper that is than the switch of stacks; a call may write less than that does. */
static unsigned long beyond(unsigned long base, unsigned long deep)
{
    return deep > base ? deep - base : 0;
}

#endif
