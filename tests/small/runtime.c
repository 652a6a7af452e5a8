/* What a compiler calls by itself, for a program that has no C library: as short as can be, and nothing here is fast. A real one has these in libgcc or compiler-rt. */
#include <stddef.h>
#include <stdint.h>

void *memcpy(void *to, const void *from, size_t count);
void *memmove(void *to, const void *from, size_t count);
void *memset(void *to, int byte, size_t count);

void *memcpy(void *to, const void *from, size_t count)
{
    for (size_t i = 0; i < count; i++) {
        ((volatile uint8_t *)to)[i] = ((const uint8_t *)from)[i];
    }
    return to;
}

void *memmove(void *to, const void *from, size_t count)
{
    if ((uintptr_t)to <= (uintptr_t)from) {
        return memcpy(to, from, count);
    }
    for (size_t i = count; i > 0; i--) {
        ((volatile uint8_t *)to)[i - 1] = ((const uint8_t *)from)[i - 1];
    }
    return to;
}

void *memset(void *to, int byte, size_t count)
{
    for (size_t i = 0; i < count; i++) {
        ((volatile uint8_t *)to)[i] = (uint8_t)byte;
    }
    return to;
}

/* a division by shifts: the quotient comes in where the number goes out; what is left goes to `rest` */
static uint64_t divided(uint64_t number, uint64_t by, uint64_t *rest)
{
    uint64_t left = 0;
    for (int i = 0; i < 64; i++) {
        left = left << 1 | (uint32_t)(number >> 32) >> 31;
        number <<= 1;
        if (left >= by) {
            left -= by;
            number |= 1;
        }
    }
    *rest = left;
    return number;
}

#if defined(__arm__)
void __aeabi_memcpy(void *to, const void *from, size_t count);
void __aeabi_memmove(void *to, const void *from, size_t count);
void __aeabi_memclr(void *to, size_t count);
void __aeabi_memset(void *to, size_t count, int byte);
uint64_t __aeabi_lmul(uint64_t a, uint64_t b);
uint64_t quotient_and_rest(uint64_t number, uint64_t by, uint64_t *rest);

void __aeabi_memcpy(void *to, const void *from, size_t count) { memcpy(to, from, count); }
void __aeabi_memmove(void *to, const void *from, size_t count) { memmove(to, from, count); }
void __aeabi_memclr(void *to, size_t count) { memset(to, 0, count); }
void __aeabi_memset(void *to, size_t count, int byte) { memset(to, byte, count); }
void __aeabi_memcpy4(void *to, const void *from, size_t count) __attribute__((alias("__aeabi_memcpy")));
void __aeabi_memcpy8(void *to, const void *from, size_t count) __attribute__((alias("__aeabi_memcpy")));
void __aeabi_memmove4(void *to, const void *from, size_t count) __attribute__((alias("__aeabi_memmove")));
void __aeabi_memmove8(void *to, const void *from, size_t count) __attribute__((alias("__aeabi_memmove")));
void __aeabi_memclr4(void *to, size_t count) __attribute__((alias("__aeabi_memclr")));
void __aeabi_memclr8(void *to, size_t count) __attribute__((alias("__aeabi_memclr")));
void __aeabi_memset4(void *to, size_t count, int byte) __attribute__((alias("__aeabi_memset")));
void __aeabi_memset8(void *to, size_t count, int byte) __attribute__((alias("__aeabi_memset")));

uint64_t __aeabi_lmul(uint64_t a, uint64_t b)
{
    uint64_t sum = 0;
    for (; a != 0; a >>= 1, b <<= 1) {
        if ((a & 1) != 0) {
            sum += b;
        }
    }
    return sum;
}

/* the quotient comes in r0 and r1, the rest in r2 and r3 */
__attribute__((used)) uint64_t quotient_and_rest(uint64_t number, uint64_t by, uint64_t *rest) { return divided(number, by, rest); }
__asm__(".syntax unified\n.globl __aeabi_uldivmod\n.type __aeabi_uldivmod,%function\n"
#if defined(__thumb__)
        ".thumb_func\n"
#endif
        "__aeabi_uldivmod:\n"
        "    push {r4, lr}\n"
        "    sub sp, #16\n"
        "    add r4, sp, #8\n"
        "    str r4, [sp]\n"
        "    bl quotient_and_rest\n"
        "    ldr r2, [sp, #8]\n"
        "    ldr r3, [sp, #12]\n"
        "    add sp, #16\n"
        "    pop {r4, pc}\n");

/* a division of 32 bits, which the least of them have no instruction for */
uint32_t __aeabi_uidiv(uint32_t number, uint32_t by);
uint32_t __aeabi_uidiv(uint32_t number, uint32_t by)
{
    uint64_t rest;
    return (uint32_t)divided(number, by, &rest);
}
uint64_t __aeabi_uidivmod(uint32_t number, uint32_t by);
uint64_t __aeabi_uidivmod(uint32_t number, uint32_t by)
{
    uint64_t rest, quotient = divided(number, by, &rest);
    return rest << 32 | quotient;
}
#else
uint64_t __udivdi3(uint64_t number, uint64_t by);
uint64_t __umoddi3(uint64_t number, uint64_t by);
uint64_t __udivdi3(uint64_t number, uint64_t by)
{
    uint64_t rest;
    return divided(number, by, &rest);
}
uint64_t __umoddi3(uint64_t number, uint64_t by)
{
    uint64_t rest;
    divided(number, by, &rest);
    return rest;
}
#endif
