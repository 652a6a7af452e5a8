/* Makes the calls of a tape again and compares what they give. Bytes are lent at every place within a word, numbers at every place that their type may stand at; what
 * stands beside a buffer has to stay. A record that the memory is too small for is passed over, and counted. Needs no C library. */
#include "tape.h"

#ifndef ROOM
#define ROOM 2000000
#endif
#define BESIDE 16
#define MARK 0xA5
#define MARKED 2048

static uint64_t room[2][ROOM / 8]; /* a record, and the buffers that are lent */
static uint64_t at, words, lent, place, turn;
static bool wrong;
static uint32_t deepest[256], counts[256];
static struct { uint8_t *bytes; uint64_t count; } beside[16];
static unsigned buffers;

uint64_t tape_take(void)
{
    return at < words ? room[0][at++] : (wrong = true, 0);
}

static void same_beside(const uint8_t *from, uint8_t mark)
{
    for (unsigned i = 0; i < BESIDE; i++) {
        wrong |= from[i] != mark;
    }
}

void *tape_buffer(uint64_t bytes, uint64_t element)
{
    uint8_t *start, *from = (uint8_t *)(room[0] + at);
    uint64_t shift;
    place = (place + 1) % 8;
    shift = place * element % 8;
    lent += shift + BESIDE;
    start = (uint8_t *)room[1] + lent;
    tape_fill(start - BESIDE, BESIDE);
    for (uint64_t i = 0; i < bytes; i++) {
        start[i] = from[i];
    }
    tape_fill(start + bytes, BESIDE);
    beside[buffers].bytes = start;
    beside[buffers++].count = bytes;
    lent += (bytes + BESIDE + 7) / 8 * 8 + 8 - shift;
    at += (bytes + 7) / 8;
    return start;
}

void tape_fill(void *told, uint64_t bytes)
{
    for (uint64_t i = 0; i < bytes; i++) {
        ((uint8_t *)told)[i] = MARK;
    }
}

void tape_same(uint64_t word)
{
    wrong |= tape_take() != word;
}

void tape_same_bytes(const void *now, uint64_t count)
{
    const uint8_t *then = (const uint8_t *)(room[0] + at);
    for (uint64_t i = 0; i < count; i++) {
        wrong |= ((const uint8_t *)now)[i] != then[i];
    }
    at += (count + 7) / 8;
}

/* The bytes below `from` that this very call does not stand in. */
#define LOWEST 64
__attribute__((noinline)) void tape_mark(uintptr_t from)
{
    for (uintptr_t i = from - MARKED; i < from - LOWEST; i++) {
        *(volatile uint8_t *)i = MARK;
    }
}

__attribute__((noinline)) void tape_measure(uintptr_t from)
{
    uintptr_t i = from - MARKED;
    while (i < from && *(volatile uint8_t *)i == MARK) {
        i++;
    }
    turn = from - i;
}

static void make(uint32_t kind)
{
    at = lent = buffers = 0;
    turn = 0;
    tape_calls[kind].make();
    wrong |= at != words;
    for (unsigned i = 0; i < buffers; i++) {
        same_beside(beside[i].bytes - BESIDE, MARK);
        same_beside(beside[i].bytes + beside[i].count, MARK);
    }
    counts[kind]++;
    if (turn > deepest[kind]) {
        deepest[kind] = (uint32_t)turn;
    }
}

static bool read_all(void *bytes, uint32_t count)
{
    return board_read(bytes, count) == count;
}

static bool pass_over(uint32_t count)
{
    for (; count > ROOM; count -= ROOM) {
        if (!read_all(room[0], ROOM)) {
            return false;
        }
    }
    return read_all(room[0], count);
}

int main(void)
{
    uint32_t head[2], made = 0, passed_over = 0, bad = 0;
    while (board_read(head, sizeof head) == sizeof head && head[0] < tape_kinds) {
        /* buffers are no longer than their record, with what stands beside them */
        if (head[1] > sizeof room[0] || head[1] + 16 * (2 * BESIDE + 24) > sizeof room[1]) {
            passed_over++;
            if (!pass_over(head[1])) {
                break;
            }
            continue;
        }
        if (!read_all(room[0], head[1])) {
            bad++;
            break;
        }
        words = head[1] / 8;
        wrong = false;
        make(head[0]);
        made++;
        if (wrong && bad++ < 10) {
            say("WRONG: call ");
            say_number(made);
            say(", ");
            say(tape_calls[head[0]].name);
            say("\n");
        }
    }
    for (unsigned kind = 0; kind < tape_kinds; kind++) {
        say("function ");
        say(tape_calls[kind].name);
        say(" ");
        say_number(counts[kind]);
        say(" ");
        say_number(deepest[kind]);
        say("\n");
    }
    say("calls ");
    say_number(made);
    say(" wrong ");
    say_number(bad);
    say(" passed over ");
    say_number(passed_over);
    say("\n");
    board_end(bad != 0 || made == 0);
    return 0;
}
