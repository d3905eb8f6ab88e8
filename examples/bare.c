/*
 * What the archive asks of a caller besides its buffers: nothing but these two functions. Built without a C library, so it links
 * only while that is so; it leaves with 0 where the answers are those of README, and else with 1. For x86-64 and Linux.
 */
#include "../include/tynderaxo.h"

/* volatile, so that the compiler makes no call of the function itself of its loop */
void *memcpy(void *to, const void *from, size_t len) {
    volatile uint8_t *d = to;
    const uint8_t *s = from;
    while (len-- > 0) *d++ = *s++;
    return to;
}

void *memset(void *at, int value, size_t len) {
    volatile uint8_t *d = at;
    while (len-- > 0) *d++ = (uint8_t)value;
    return at;
}

__asm__(".globl _start\n_start:\n xor %ebp, %ebp\n and $-16, %rsp\n call begin\n");

_Noreturn static void leave(int status) {
    for (;;) __asm__ volatile("syscall" : : "a"(60), "D"(status) : "rcx", "r11", "memory");
}

_Noreturn void begin(void);

void begin(void) {
    tynderaxo_day closed = tynderaxo_open_day(20260403);
    tynderaxo_day next = tynderaxo_next_open_day(20260403);
    tynderaxo_day count = tynderaxo_open_days(20260401, 20260408);
    tynderaxo_answer no_date = tynderaxo_judge(0, NULL, 0, NULL, 0, NULL, 0, NULL, 0, NULL, 0);
    tynderaxo_route no_bic = tynderaxo_lookup(20260615, (const uint8_t[4]){0}, 4, NULL, 0);
    tynderaxo_read_answer no_text = tynderaxo_read(NULL, 0, NULL, 0);
    leave(closed.number != 0 || closed.value != 0 || next.number != 0 || next.value != 20260407 || count.number != 0 ||
          count.value != 3 || no_date.number != 1 || no_bic.number != 18 || no_text.number != 21);
}
