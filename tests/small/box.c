/* A host on the same board as examples/firmware.c: it sends that box the paper's starred commands, and sweeps it, and prints what comes. */
#include "gcf.h"
#include "tape.h"

bool box_start(void);
bool box_command(const uint8_t *command, uint32_t count, uint32_t *bytes);
void box_sense(uint8_t *sense);
extern uint8_t box_response[];

static const struct { uint8_t rt; uint16_t sfn, allocation; } starred[] = {
    {0, 0, 44}, {0, 0, 0}, {0, 0, 4}, {0, 0x0105, 255}, {0, 0x0106, 255}, {2, 2, 255}, {3, 0, 255},
};

static void say_hex(const uint8_t *bytes, uint64_t count)
{
    for (uint64_t i = 0; i < count; i++) {
        char two[] = {' ', "0123456789ABCDEF"[bytes[i] >> 4], "0123456789ABCDEF"[bytes[i] & 15]};
        board_write(two, sizeof two);
    }
    say("\n");
}

/* The command's ten bytes by hand: gcf_build_command makes none with RT 3. */
static bool asked(uint8_t rt, uint16_t sfn, uint16_t allocation, uint32_t *bytes)
{
    uint8_t command[GCF_COMMAND_BYTES] = {0x46, rt, (uint8_t)(sfn >> 8), (uint8_t)sfn, 0, 0, 0, (uint8_t)(allocation >> 8), (uint8_t)allocation, 0};
    return box_command(command, sizeof command, bytes);
}

static void swept(uint16_t allocation)
{
    static uint8_t collected[64];
    struct gcf_sweep sweep;
    uint32_t bytes;
    uint8_t number = gcf_sweep_begin(&sweep, 0, allocation);

    say("sweep ");
    say_number(allocation);
    say(":");
    while (number == GCF_ACCEPTED && !sweep.ended && asked(sweep.rt, sweep.next.number, sweep.allocation, &bytes)) {
        say(" from ");
        say_number(sweep.next.number);
        number = gcf_sweep_on(&sweep, box_response, bytes, collected, sizeof collected);
    }
    say(", number ");
    say_number(number);
    say("\ncollected:");
    say_hex(collected, sweep.collected);
}

/* The two starred lines that need more than the box: RT 1 of the sheet with 001Fh not current, and what profile 0012h lacks. */
static void more_than_the_box(const uint8_t *whole, uint32_t bytes)
{
    static const uint8_t command[GCF_COMMAND_BYTES] = {0x46, 1, 0, 0, 0, 0, 0, 0, 255, 0};
    static uint8_t sheet[64], response[64];
    struct gcf_made made, sent;
    struct gcf_judgement judgement;

    gcf_import(whole, bytes, sheet, sizeof sheet, &made);
    sheet[4 + 2 * 8 + 2] = 0;
    if (gcf_respond(GCF_ROWS, sheet, made.bytes, command, sizeof command, response, sizeof response, &sent) == GCF_ACCEPTED) {
        say("without 001Fh:");
        say_hex(response, sent.bytes);
    }
    if (gcf_check_profile(gcf_profile_of(0x0012), whole, bytes, &judgement) == GCF_ACCEPTED) {
        say("profile 0012h: wrong ");
        say_number(judgement.wrong);
        say(", feature ");
        say_number(judgement.feature);
        say("\n");
    }
}

int main(void)
{
    uint8_t sense[GCF_SENSE_BYTES];
    uint32_t bytes;

    if (!box_start()) {
        board_end(1);
    }
    for (unsigned i = 0; i < sizeof starred / sizeof *starred; i++) {
        if (asked(starred[i].rt, starred[i].sfn, starred[i].allocation, &bytes)) {
            say("sent:");
            say_hex(box_response, bytes);
        } else {
            say("refused, sense:");
            box_sense(sense);
            say_hex(sense, sizeof sense);
        }
    }
    asked(0, 0, 44, &bytes);
    more_than_the_box(box_response, bytes);
    swept(20);
    swept(43);
    swept(19);
    board_end(0);
    return 0;
}
