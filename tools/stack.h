/*
 * How deep a call goes into the stack (x86-64): paint the stack below, call, and see how far up the paint still stands. The
 * depth is counted from where the caller's stack pointer is at the call, so the arguments on the stack and the return address
 * are in it, and so is what the called function keeps below its own stack pointer, in the red zone. A depth of nearly
 * STACK_PAINTED would say that too little is painted.
 *
 * What is here is inlined, since a function of its own would use the stack that is looked at. It needs a caller that makes calls
 * (only a function that makes none keeps something below its stack pointer) and no signals.
 */
#ifndef STACK_H
#define STACK_H

#include <stddef.h>
#include <stdint.h>

#define STACK_PAINTED 2048
#define STACK_PAINT UINT64_C(0xA5A5A5A5A5A5A5A5)
#define STACK_POINTER(to) __asm__ volatile("mov %%rsp, %0" : "=r"(to) : : "memory")

static volatile uint64_t *stack_low;  /* the lowest painted word */
static volatile uint64_t *stack_base; /* where the caller's stack pointer was at the last STACK_CALL */

__attribute__((always_inline)) static inline void stack_paint(void)
{
    volatile uint64_t *top;
    STACK_POINTER(top);
    stack_low = top - STACK_PAINTED / sizeof *top;
    for (volatile uint64_t *at = stack_low; at < top; at++)
        *at = STACK_PAINT;
}

/* A statement with one call in it. */
#define STACK_CALL(...)                      \
    do {                                     \
        STACK_POINTER(stack_base);           \
        __VA_ARGS__;                         \
        __asm__ volatile("" : : : "memory"); \
    } while (0)

/* The bytes that the last STACK_CALL used, to be asked before any other call is made. */
__attribute__((always_inline)) static inline size_t stack_depth(void)
{
    volatile uint64_t *at = stack_low;
    while (at < stack_base && *at == STACK_PAINT)
        at++;
    return (size_t)(stack_base - at) * sizeof *at;
}

#endif
