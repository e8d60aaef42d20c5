/* Start-up of a bare Cortex-M under semihosting: memory as link.ld lays it out, then main; a fault ends it with 1. WORD is main's word, if any. */
#include <stdint.h>
#include <stdlib.h>
#include <string.h>

#ifndef WORD
#define WORD NULL
#endif

extern char stack_top[], data_load[], data_start[], data_end[], bss_start[], bss_end[];
int main(int count, char **words);
void initialise_monitor_handles(void);
void reset(void);
void _init(void);
void _fini(void);

void reset(void)
{
    static char *words[] = {"bare", WORD, NULL};
#ifdef __ARM_FP
    *(volatile uint32_t *)0xE000ED88u |= 0xFu << 20; /* CPACR: the floating-point unit is on */
#endif
    memcpy(data_start, data_load, (size_t)(data_end - data_start));
    memset(bss_start, 0, (size_t)(bss_end - bss_start));
    initialise_monitor_handles();
    exit(main(words[1] != NULL ? 2 : 1, words));
}

/* SYS_EXIT with a run-time error: the emulator ends with 1. */
static void fault(void)
{
    __asm__ volatile("mov r0, #0x18\n\tldr r1, =0x20023\n\tbkpt 0xAB");
    for (;;) {
    }
}

/* newlib calls these around main. */
void _init(void)
{
}

void _fini(void)
{
}

typedef union {
    char *stack;
    void (*handler)(void);
} Vector;

__attribute__((section(".vectors"), used)) static const Vector vectors[16] = {
    {.stack = stack_top}, {.handler = reset}, {.handler = fault}, {.handler = fault}, {.handler = fault}, {.handler = fault}, {.handler = fault},
};
