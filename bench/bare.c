/*
 * bench/calls.c on a bare Cortex-M4: a start, the few functions that the library needs, and rows of instructions, by the
 * timer of an emulator that lets each take the same time, and of stack, by paint. They are written by semihosting.
 */
#include "calls.h"

enum {
    TICK = 40,               /* instructions to a tick: one takes a nanosecond, and the timer's clock has 25 MHz */
    PAINTED = 90 * 1024 / 4, /* words of stack that are painted */
    PAINT = 0x5a5a5a5a
};

static volatile uint32_t *const systick = (volatile uint32_t *)0xe000e010; /* control, reload, current */

static void host(unsigned operation, const void *argument) {
    register unsigned r0 __asm__("r0") = operation;
    register const void *r1 __asm__("r1") = argument;
    __asm__ volatile("bkpt 0xab" : "+r"(r0) : "r"(r1) : "memory");
}

static void write_number(uint32_t value) {
    char digits[12], *at = digits + 11;
    *at = 0;
    *--at = ' ';
    do
        *--at = (char)('0' + value % 10);
    while ((value /= 10) > 0);
    host(4, at);
}

/* Paints what the call may use of the stack, below this frame. */
__attribute__((noinline)) static uint32_t *paint(void) {
    uint32_t *const top = (uint32_t *)__builtin_frame_address(0) - 16;
    for (int word = 1; word <= PAINTED; word++)
        ((volatile uint32_t *)top)[-word] = PAINT;
    return top;
}

void show(const char *what, nibl_entry *entry, const nibl_lent *lent, nibl_call call) {
    uint32_t *const top = paint();
    const volatile uint32_t *deepest = top - PAINTED;
    systick[2] = 0;
    const uint32_t before = systick[2];
    const nibl_answer answer = measured(entry, lent, call);
    const uint32_t after = systick[2];
    while (*deepest == PAINT)
        deepest++;
    write_number(((before - after) & 0xffffff) * TICK);
    write_number((uint32_t)(top - deepest) * 4);
    write_number(answer.stop);
    host(4, what);
    host(4, "\n");
}

static void start(void) {
    systick[1] = 0xffffff;
    systick[0] = 5;
    all_rows();
    host(0x18, (const void *)0x20026);
}

/* The stack is the end of the second memory. */
__attribute__((section(".vectors"), used)) static const void *const vectors[] = {(const void *)0x20400000, (const void *)start};

void *memcpy(void *to, const void *from, size_t size) {
    uint8_t *t = to;
    const uint8_t *f = from;
    if ((((uintptr_t)t | (uintptr_t)f) & 3) == 0)
        for (; size >= 4; size -= 4, t += 4, f += 4)
            *(uint32_t *)t = *(const uint32_t *)f;
    while (size-- > 0)
        *t++ = *f++;
    return to;
}

void *memset(void *to, int value, size_t size) {
    uint8_t *t = to;
    const uint32_t word = (uint32_t)(uint8_t)value * 0x01010101;
    if (((uintptr_t)t & 3) == 0)
        for (; size >= 4; size -= 4, t += 4)
            *(uint32_t *)t = word;
    while (size-- > 0)
        *t++ = (uint8_t)value;
    return to;
}

size_t strlen(const char *text) {
    size_t size = 0;
    while (text[size] != 0)
        size++;
    return size;
}

char *strcpy(char *to, const char *from) {
    memcpy(to, from, strlen(from) + 1);
    return to;
}

char *strcat(char *to, const char *from) {
    strcpy(to + strlen(to), from);
    return to;
}

/* The names that compilers for bare Arm have for copies and fills. */
#define COPY(name)                                                                                                     \
    void name(void *to, const void *from, size_t size);                                                                \
    void name(void *to, const void *from, size_t size) { memcpy(to, from, size); }
#define FILL(name)                                                                                                     \
    void name(void *to, size_t size, int value);                                                                       \
    void name(void *to, size_t size, int value) { memset(to, value, size); }
#define CLEAR(name)                                                                                                    \
    void name(void *to, size_t size);                                                                                  \
    void name(void *to, size_t size) { memset(to, 0, size); }
COPY(__aeabi_memcpy)
COPY(__aeabi_memcpy4)
COPY(__aeabi_memcpy8)
FILL(__aeabi_memset)
FILL(__aeabi_memset4)
FILL(__aeabi_memset8)
CLEAR(__aeabi_memclr)
CLEAR(__aeabi_memclr4)
CLEAR(__aeabi_memclr8)
