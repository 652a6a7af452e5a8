/* Lines, a part at a time. */
#include "tape.h"

void say(const char *text)
{
    size_t count = 0;
    while (text[count] != 0) {
        count++;
    }
    board_write(text, count);
}

void say_number(uint64_t number)
{
    char digits[20];
    size_t from = sizeof digits;
    uint32_t rest = (uint32_t)number; /* counts here are small */
    do {
        digits[--from] = (char)('0' + rest % 10);
        rest /= 10;
    } while (rest != 0);
    board_write(digits + from, sizeof digits - from);
}
