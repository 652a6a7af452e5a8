/* Keeps calls on a tape, the file that TAPE names, as many of each function as TAPE_CALLS says and none longer than TAPE_LONGEST. */
#include <stdio.h>
#include <stdlib.h>
#include <string.h>

#include "tape.h"

static FILE *tape;
static uint8_t *record;
static uint64_t used, room, kept[256];
static uint32_t head[2];

static uint64_t number_of(const char *name)
{
    const char *text = getenv(name);
    return text ? strtoull(text, NULL, 10) : 0;
}

static void add(const void *from, uint64_t count)
{
    while (used + count > room && (record = realloc(record, room = room * 2 + 4096)) != NULL) {
    }
    if (record == NULL) {
        abort();
    }
    if (count != 0) {
        memcpy(record + used, from, count);
    }
    used += count;
}

bool tape_begin(unsigned kind, uint64_t bytes)
{
    if (tape == NULL && (tape = fopen(getenv("TAPE"), "ab")) == NULL) {
        abort();
    }
    if (kept[kind] >= number_of("TAPE_CALLS") || bytes > number_of("TAPE_LONGEST")) {
        return false;
    }
    kept[kind]++;
    head[0] = kind;
    used = 0;
    return true;
}

void tape_put(uint64_t word)
{
    add(&word, sizeof word);
}

void tape_bytes(const void *from, uint64_t count)
{
    add(from, count);
    add("\0\0\0\0\0\0\0", -count % 8);
}

void tape_end(void)
{
    head[1] = (uint32_t)used;
    if (fwrite(head, sizeof head, 1, tape) != 1 || fwrite(record, 1, used, tape) != used) {
        abort();
    }
}
