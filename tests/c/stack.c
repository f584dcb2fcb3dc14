/*
 * The stack that each function of the archive takes. A call runs on a stack of its own that was filled with a pattern; what it touched is
 * counted from the deepest byte that changed. It is done with two patterns, so that a byte which happens to equal one is not missed, and
 * what an empty call touches is taken off. Each function is measured on several images, the full one among them, and the most is printed.
 * Ends with 1 if a function takes more than HADULMIR_STACK_SIZE. With -DBARE it runs without an operating system, on ARM and RISC-V.
 */
#define _XOPEN_SOURCE 700
#include <inttypes.h>
#include <stdio.h>
#include <stdlib.h>
#include <string.h>
#ifndef BARE
#include <ucontext.h>
#endif

#include "hadulmir.h"

#define STACK 262144
#define IMAGE HADULMIR_IMAGE_SIZE

static uint8_t stack[STACK] __attribute__((aligned(64)));
static uint8_t image[IMAGE], rows[HADULMIR_ROWS_SIZE], records[HADULMIR_RECORDS_SIZE], id[HADULMIR_ID_SIZE];
static uint8_t line[HADULMIR_LONG_LINE_SIZE], turned[HADULMIR_LONG_LINE_SIZE];
static volatile int32_t returned;

static void empty(void)
{
    returned = 0;
}

static void fresh(void)
{
    returned = hadulmir_fresh(image, IMAGE);
}

static void add_program(void)
{
    returned = hadulmir_add_program(image, IMAGE, 7, 1, 1);
}

static void deliver(void)
{
    returned = hadulmir_deliver(image, IMAGE, 0, 7, 0, 1, 1, 20000, 600, 0, 0, 0, 0);
}

static void cancel(void)
{
    returned = hadulmir_cancel(image, IMAGE, 0, 1000);
}

static void opt_out(void)
{
    returned = hadulmir_opt_out(image, IMAGE, 0, 1000);
}

static void opt_in(void)
{
    returned = hadulmir_opt_in(image, IMAGE, 0, 1001);
}

static void set_clock(void)
{
    returned = hadulmir_set_clock(image, IMAGE, 100000, rows, sizeof rows);
}

static void ask(void)
{
    returned = hadulmir_ask(image, IMAGE, 0, id, sizeof id);
}

static void list(void)
{
    returned = hadulmir_list(image, IMAGE, records, sizeof records);
}

/* Of an event, and then of a question: with an id and without one. */
static void lengthen(void)
{
    line[1] = '1';
    returned = hadulmir_lengthen(line, HADULMIR_SHORT_LINE_SIZE, turned, sizeof turned);
    line[1] = '5';
    returned = hadulmir_lengthen(line, 4, turned, sizeof turned);
}

static void shorten(void)
{
    line[1] = '1';
    returned = hadulmir_shorten(line, HADULMIR_LONG_LINE_SIZE, turned, sizeof turned);
    line[1] = '5';
    returned = hadulmir_shorten(line, 4, turned, sizeof turned);
}

#ifdef BARE
/* Calls on the painted stack: the stack pointer is kept in a register that a call preserves, and put back after it. */
static void call_there(void (*call)(void))
{
#if defined(__arm__)
    __asm__ volatile("mov r4, sp\n\tmov sp, %0\n\tblx %1\n\tmov sp, r4"
                     :
                     : "r"(stack + STACK), "r"(call)
                     : "r0", "r1", "r2", "r3", "r4", "r12", "lr", "cc", "memory");
#elif defined(__riscv)
    __asm__ volatile("mv s2, sp\n\tmv sp, %0\n\tjalr %1\n\tmv sp, s2"
                     :
                     : "r"(stack + STACK), "r"(call)
                     : "ra", "t0", "t1", "t2", "t3", "t4", "t5", "t6", "a0", "a1", "a2", "a3", "a4", "a5", "a6", "a7", "s2", "memory");
#else
#error "no way to switch the stack of this machine"
#endif
}
#else
static ucontext_t here, there;

/* Calls on the painted stack, by the C library. */
static void call_there(void (*call)(void))
{
    if (getcontext(&there) != 0)
        abort();
    there.uc_stack.ss_sp = stack;
    there.uc_stack.ss_size = STACK;
    there.uc_link = &here;
    makecontext(&there, call, 0);
    if (swapcontext(&here, &there) != 0)
        abort();
}
#endif

/* Bytes of the stack that a call changed, by one pattern. */
static size_t touched_by(void (*call)(void), uint8_t pattern)
{
    size_t i = 0;

    memset(stack, pattern, STACK);
    call_there(call);
    while (i < STACK && stack[i] == pattern)
        i++;
    return STACK - i;
}

/*
 * Images from empty to full: `events` events one behind the other, on one control or on many, some of them begun, randomised either way. The
 * user is in for the first, out of the second, and so on.
 */
static void make_image(uint32_t events, uint32_t controls, uint64_t clock)
{
    uint32_t i;

    hadulmir_fresh(image, IMAGE);
    hadulmir_add_program(image, IMAGE, 0, 1, 1);
    for (i = 0; i < events; i++) {
        hadulmir_deliver(image, IMAGE, 0, 1000 + i, 0, controls, i, 5000 + 10 * i, 900, hadulmir_signed(i % 2 == 0 ? -60 : 60), 0, 0, 0);
        if (i % 2 != 0)
            hadulmir_opt_out(image, IMAGE, 0, 1000 + i);
    }
    hadulmir_set_clock(image, IMAGE, clock, rows, sizeof rows);
}

static size_t most(void (*call)(void))
{
    static const uint32_t events[] = {0, 1, 47, 48};
    static const uint64_t clocks[] = {0, 5100};
    size_t result = 0, e, c, m, p;

    for (e = 0; e < 4; e++)
        for (c = 0; c < 2; c++)
            for (m = 0; m < 2; m++)
                for (p = 0; p < 3; p++) { /* the first turn is a rehearsal: names are bound, pages are there */
                    size_t touched;

                    make_image(events[e], m == 0 ? 1 : 0xFFFFFFFFu, clocks[c]);
                    touched = touched_by(call, p == 1 ? 0x5A : 0xA5);
                    if (p > 0 && touched > result)
                        result = touched;
                }
    return result;
}

int main(void)
{
    static const struct {
        const char *name;
        void (*call)(void);
    } functions[] = {{"hadulmir_fresh", fresh}, {"hadulmir_add_program", add_program}, {"hadulmir_deliver", deliver},
                     {"hadulmir_cancel", cancel}, {"hadulmir_opt_out", opt_out}, {"hadulmir_opt_in", opt_in},
                     {"hadulmir_set_clock", set_clock}, {"hadulmir_ask", ask}, {"hadulmir_list", list},
                     {"hadulmir_lengthen", lengthen}, {"hadulmir_shorten", shorten}};
    size_t base = most(empty), worst = 0, i;

    memset(line, '0', sizeof line);
    for (i = 0; i < sizeof functions / sizeof functions[0]; i++) {
        size_t bytes = most(functions[i].call) - base;

        printf("%-22s %6lu bytes of stack\n", functions[i].name, (unsigned long)bytes);
        if (bytes > worst)
            worst = bytes;
    }
    printf("the most %lu, the header says at most %d\n", (unsigned long)worst, HADULMIR_STACK_SIZE);
    return worst > HADULMIR_STACK_SIZE;
}
