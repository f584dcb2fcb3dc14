/*
 * What a Cortex-M does before main, and what the C library asks of it. Under qemu, output and the end of the program go by semihosting
 * (newlib's librdimon). rv32imac needs nothing from here: picolibc has its own start.
 */
#include <stdint.h>
#include <stdlib.h>

/* Places that link.ld sets. */
extern uint32_t stack_top, data_start, data_end, data_from, bss_start, bss_end;

void initialise_monitor_handles(void);
int main(void);

/* newlib calls these around main; there is nothing to do. */
void _init(void)
{
}

void _fini(void)
{
}

#ifdef TRAP_UNALIGNED
/* Any word at an address that is no multiple of its size is a fault. newlib copies by such words, so the copies are by bytes here. */
void *memmove(void *to, const void *from, size_t size)
{
    volatile uint8_t *t = to;
    const uint8_t *f = from;
    size_t i;

    for (i = 0; i < size; i++) {
        size_t k = to < from ? i : size - 1 - i;

        t[k] = f[k];
    }
    return to;
}

void *memcpy(void *restrict to, const void *restrict from, size_t size)
{
    return memmove(to, from, size);
}
#endif

static void start(void)
{
    uint32_t *to, *from = &data_from;

#ifdef __ARM_FP
    /* The host is compiled for the floating-point unit: on. A soft-float host leaves it off, so that the part would fault if it used it. */
    *(volatile uint32_t *)0xE000ED88 |= 0xFu << 20;
    __asm__ volatile("dsb\n\tisb");
#endif
#ifdef TRAP_UNALIGNED
    *(volatile uint32_t *)0xE000ED14 |= 1u << 3;
#endif
    for (to = &data_start; to < &data_end;)
        *to++ = *from++;
    for (to = &bss_start; to < &bss_end;)
        *to++ = 0;
    initialise_monitor_handles();
    exit(main());
}

/* Any fault ends qemu with status 1: semihosting's SYS_EXIT with 'internal error'. */
static void fault(void)
{
    register uint32_t operation __asm__("r0") = 0x18, reason __asm__("r1") = 0x20024;

    for (;;)
        __asm__ volatile("bkpt 0xAB" : : "r"(operation), "r"(reason));
}

/* The first words of the code: the stack, the start, and the faults: non-maskable, hard, memory, bus, usage, secure. */
__attribute__((section(".vectors"), used)) static const void *const vectors[8] = {&stack_top, start, fault, fault, fault, fault, fault, fault};
