/*
 * The box and the driver in one program: a mistyped sheet is refused and sheet E is accepted, a command is answered from it, the answer is read and
 * judged, and then the whole drive is swept with an allocation length of 20 bytes, as a driver with little memory would. ./install --check builds and runs
 * it, and so does tests/c-example.
 */
#include <inttypes.h>
#include <stdio.h>
#include <string.h>

#include "gcf.h"

/* The drive sheet of a recorder: counts, four contents entries, two profiles, two bodies. */
static const uint8_t sheet[] = {
    0x00, 0x04, 0x00, 0x02,
    0x00, 0x01, 0x03, 0x04, 0x00, 0x00, 0x00, 0x2C,
    0x00, 0x03, 0x03, 0x04, 0x00, 0x00, 0x00, 0x30,
    0x00, 0x1F, 0x01, 0x00, 0x00, 0x00, 0x00, 0x34,
    0x01, 0x05, 0x03, 0x00, 0x00, 0x00, 0x00, 0x34,
    0x00, 0x12, 0x01, 0x00,
    0x00, 0x10, 0x00, 0x00,
    0x00, 0x00, 0x00, 0x02,
    0x29, 0x00, 0x00, 0x00,
};

static void print(const char *what, const uint8_t *bytes, size_t count)
{
    printf("%s:", what);
    for (size_t i = 0; i < count; i++) {
        printf(" %02X", bytes[i]);
    }
    printf("\n");
}

static int refused(const char *what, uint8_t number)
{
    char words[GCF_WORDS_MOST + 1];

    printf("%s: refused %u: %s\n", what, number, gcf_words_in(number, words));
    return 1;
}

/* A transport would carry the packet to the box and its answer back; here the box is a call away. Gives the number and the bytes sent. */
static uint8_t ask(uint8_t rt, gcf_feature sfn, uint16_t allocation, uint8_t *response, size_t room, size_t *sent)
{
    uint8_t command[GCF_PACKET_BYTES];
    struct gcf_made made;
    uint8_t number = gcf_build_command(sizeof command, rt, sfn, allocation, command, sizeof command, &made);

    if (number == GCF_ACCEPTED) {
        number = gcf_respond_accepted(GCF_ROWS, sheet, sizeof sheet, command, sizeof command, response, room, &made);
    }
    *sent = (size_t)made.bytes;
    return number;
}

/* What a driver asks of a response to RT 0 from 0: a feature's descriptor, and whether the drive has what a profile requires. */
static void judge(const uint8_t *response, size_t count)
{
    static const uint16_t profiles[] = {0xFFFF, 0x0012};
    uint8_t descriptor[GCF_DESCRIPTOR_MOST];
    uint64_t held = gcf_held(gcf_feature_of(0x0003), response, count, response, 0, descriptor, sizeof descriptor);

    if (gcf_descriptor_whole(descriptor, held)) {
        print("descriptor", descriptor, (size_t)held);
    }
    for (size_t i = 0; i < 2; i++) {
        printf("profile %04X: %s\n", profiles[i], gcf_conforms(gcf_profile_of(profiles[i]), response, count) ? "conforms" : "does not conform");
    }
}

/* Each whole descriptor of a response that was read. */
static void walk(const uint8_t *response, const struct gcf_reading *reading)
{
    struct gcf_descriptor found;

    for (uint64_t place = GCF_HEADER_BYTES; gcf_next(place, response, reading->end, &found); place = found.next) {
        printf("feature %04" PRIX64 ", version %" PRIu64 "%s%s, %" PRIu64 " bytes at %" PRIu64 "\n", found.feature, found.version,
               found.persistent ? ", persistent" : "", found.current ? ", current" : "", found.body_bytes, found.body);
    }
}

static int answer_and_read(void)
{
    uint8_t response[64];
    struct gcf_reading reading;
    size_t sent;
    uint8_t number = ask(0, gcf_feature_of(0), 44, response, sizeof response, &sent);

    if (number != GCF_ACCEPTED) {
        return refused("command", number);
    }
    print("response", response, sent);
    number = gcf_read(0, gcf_feature_of(0), response, sent, &reading);
    if (number != GCF_ACCEPTED) {
        return refused("reading", number);
    }
    printf("profile %04" PRIX64 ", Data Length %" PRIu64 ", %" PRIu64 " whole descriptors, the last ends at %" PRIu64 ", %s\n",
           reading.profile, reading.data_length, reading.count, reading.end, reading.complete ? "complete" : "cut");
    walk(response, &reading);
    judge(response, sent);
    return 0;
}

static int sweep_all(void)
{
    uint8_t response[20];
    uint8_t collected[64];
    struct gcf_sweep sweep;
    size_t sent;
    uint8_t number = gcf_sweep_begin(&sweep, 0, sizeof response);

    while (number == GCF_ACCEPTED && !sweep.ended) {
        printf("from %04X\n", sweep.next.number);
        number = ask(sweep.rt, sweep.next, sweep.allocation, response, sizeof response, &sent);
        if (number == GCF_ACCEPTED) {
            number = gcf_sweep_on(&sweep, response, sent, collected, sizeof collected);
        }
    }
    if (number != GCF_ACCEPTED) {
        return refused("sweep", number);
    }
    print("collected", collected, (size_t)sweep.collected);
    return 0;
}

/* Checks a sheet and tells the person who typed it which line is wrong. */
static int check(const char *what, const uint8_t *typed, size_t count)
{
    struct gcf_check checked;
    uint8_t number = gcf_check_sheet(GCF_ROWS, typed, count, &checked);

    if (number == GCF_ACCEPTED) {
        return 0;
    }
    if (checked.place != 0) {
        printf("%s: %s %" PRIu64 "\n", what, number == GCF_PROFILE_BAD ? "profile" : "entry", checked.place);
    }
    return refused(what, number);
}

/* The sheet with the flags of its second entry Persistent and not Current. */
static void mistype(void)
{
    uint8_t typed[sizeof sheet];

    memcpy(typed, sheet, sizeof sheet);
    typed[4 + 8 + 2] = 0x02;
    check("mistyped sheet", typed, sizeof typed);
}

int main(void)
{
    mistype();
    return check("sheet", sheet, sizeof sheet) || answer_and_read() || sweep_all();
}
