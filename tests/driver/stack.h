/* A call on a stack of its own, and how many bytes of it the call took. The library is x86-64 code, so the switch is written for that. */
#ifndef STACK_H
#define STACK_H

#include <stddef.h>
#include <stdint.h>

enum { STACK_ROOM = 1 << 16, STACK_PAINT = 0xC5 };

_Alignas(16) static uint8_t stack_room[STACK_ROOM];

static void stack_switched(void (*call)(void), uint8_t *top)
{
    __asm__ volatile("movq %%rsp, %%rbx\n\t"
                     "movq %1, %%rsp\n\t"
                     "call *%0\n\t"
                     "movq %%rbx, %%rsp"
                     :
                     : "r"(call), "r"(top)
                     : "rax", "rbx", "rcx", "rdx", "rsi", "rdi", "r8", "r9", "r10", "r11", "xmm0", "xmm1", "xmm2", "xmm3", "xmm4", "xmm5", "xmm6",
                       "xmm7", "xmm8", "xmm9", "xmm10", "xmm11", "xmm12", "xmm13", "xmm14", "xmm15", "memory", "cc");
}

/* The stack is painted all over; it grows downwards, so what lies above the lowest byte that lost its paint was taken. */
static size_t stack_taken(void (*call)(void))
{
    size_t kept = 0;
    for (size_t i = 0; i < STACK_ROOM; i++)
        stack_room[i] = STACK_PAINT;
    stack_switched(call, stack_room + STACK_ROOM);
    while (kept < STACK_ROOM && stack_room[kept] == STACK_PAINT)
        kept++;
    return STACK_ROOM - kept;
}

#endif
