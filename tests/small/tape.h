/* A tape of calls: tests/lib/calls.py makes the two files that use this from the header. A record is the number of its function, its length, and words of 64 bits; bytes
 * are filled up to a word. First what was handed over, then what came back. */
#ifndef TAPE_H
#define TAPE_H

#include <stdbool.h>
#include <stddef.h>
#include <stdint.h>

/* ---- keeping (keep.c) */

bool tape_begin(unsigned kind, uint64_t bytes);
void tape_put(uint64_t word);
void tape_bytes(const void *from, uint64_t count);
void tape_end(void);

/* ---- making the calls again (replay.c) */

struct tape_call {
    const char *name;
    void (*make)(void);
};
extern const struct tape_call tape_calls[];
extern const unsigned tape_kinds;

uint64_t tape_take(void);
void *tape_buffer(uint64_t bytes, uint64_t element);
void tape_fill(void *told, uint64_t bytes);
void tape_same(uint64_t word);
void tape_same_bytes(const void *now, uint64_t count);

/* Around a call: the stack below it is marked, and how far the marks are gone is how much the call took. */
void tape_mark(uintptr_t from);
void tape_measure(uintptr_t from);
#if defined(__ARM_ARCH_PROFILE) && __ARM_ARCH_PROFILE == 'M'
#define tape_before() uintptr_t below; __asm__ volatile("mov %0, sp" : "=r"(below)); tape_mark(below)
#define tape_after() tape_measure(below)
#else
#define tape_before()
#define tape_after()
#endif

/* ---- what a board has (semihosting.c, linux.c), and lines (say.c) */

void board_write(const char *bytes, size_t count);
size_t board_read(void *bytes, size_t count); /* of the tape; fewer at its end */
void board_end(int status);

void say(const char *text);
void say_number(uint64_t number);

#endif
