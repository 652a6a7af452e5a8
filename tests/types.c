/*
 * Every place of the header that wants a feature or a profile number, and where each field of a struct stands. tests/c-example compiles it as it stands, and sees
 * to it that a compiler refuses it as soon as one of the places gets the other kind, or a plain number, one of the two lists of a medium the other list, or one of
 * plain numbers, further results another struct or an array, or a field is said to stand elsewhere.
 */
#include "../include/gcf.h"

#ifndef BUILD
#define BUILD gcf_feature_of(0x0000)
#endif
#ifndef READ
#define READ gcf_feature_of(0x0000)
#endif
#ifndef HELD
#define HELD gcf_feature_of(0x0003)
#endif
#ifndef TAKE
#define TAKE gcf_feature_of(0x0020)
#endif
#ifndef FIRST
#define FIRST gcf_profile_of(0x0012)
#endif
#ifndef FEATURES
#define FEATURES features
#endif
#ifndef PROFILES
#define PROFILES profiles
#endif
#ifndef PROFILE
#define PROFILE gcf_profile_of(0x0012)
#endif
#ifndef TOLD
#define TOLD &made
#endif
#ifndef PLACE_OF_NEXT
#define PLACE_OF_NEXT 7
#endif

/*
 * The functions of the archive fill a struct as an array of numbers: each field of 64 bits at its place, and nothing else in the struct. (A size of -1 is
 * refused by every compiler.)
 */
#define AT(type, field, place) typedef char type##_##field[offsetof(struct type, field) == 8 * (place) && sizeof(((struct type *)0)->field) == 8 ? 1 : -1]
#define COUNT(type, count) typedef char size_of_##type[sizeof(struct type) == 8 * (count) ? 1 : -1]

/* So many fields that follow one another from a place on. */
#define AT_1(type, place, field) AT(type, field, place)
#define AT_2(type, place, field, ...) AT(type, field, place); AT_1(type, place + 1, __VA_ARGS__)
#define AT_3(type, place, field, ...) AT(type, field, place); AT_2(type, place + 1, __VA_ARGS__)
#define AT_5(type, place, field, second, ...) AT_2(type, place, field, second); AT_3(type, place + 2, __VA_ARGS__)
#define AT_7(type, place, field, second, ...) AT_2(type, place, field, second); AT_5(type, place + 2, __VA_ARGS__)
AT_1(gcf_check, 0, place);
COUNT(gcf_check, 1);
AT_2(gcf_made, 0, bytes, place);
COUNT(gcf_made, 2);
AT_5(gcf_reading, 0, profile, data_length, count, end, complete);
COUNT(gcf_reading, 5);
AT_7(gcf_descriptor, 0, feature, flags, version, persistent, current, body, body_bytes);
AT(gcf_descriptor, next, PLACE_OF_NEXT);
COUNT(gcf_descriptor, 8);
AT_2(gcf_stop, 0, place, feature);
COUNT(gcf_stop, 2);
AT_3(gcf_swept, 0, commands, collected, place);
COUNT(gcf_swept, 3);
AT_5(gcf_verdict, 0, said, differs, mistake, refusal, place);
COUNT(gcf_verdict, 5);
AT_1(gcf_finding, 0, feature);
COUNT(gcf_finding, 1);
AT_2(gcf_judgement, 0, wrong, feature);
COUNT(gcf_judgement, 2);
AT_2(gcf_mended, 0, bytes, changes);
COUNT(gcf_mended, 2);
AT_1(gcf_meaning, 0, kind);
COUNT(gcf_meaning, 1);

/* A sweep's record has fields of their own types: where they stand, and how long it is, is the same on every target that has a libgcf.a. */
#define STANDS(field, place) typedef char sweep_##field[offsetof(struct gcf_sweep, field) == (place) ? 1 : -1]
STANDS(rt, 0);
STANDS(allocation, 2);
STANDS(next, 4);
STANDS(commands, 8);
STANDS(collected, 16);
STANDS(ended, 24);
STANDS(profile, 26);
typedef char sweep_count[sizeof(struct gcf_sweep) == 32 ? 1 : -1];

static uint8_t bytes[64];
static uint8_t buffer[64];
static struct gcf_made made;
static struct gcf_reading reading;
static struct gcf_judgement judgement;
static struct gcf_sweep sweep;
static gcf_feature features[2];
static gcf_profile profiles[2];
static uint16_t plain[2];
static uint64_t numbers[2];

int main(void)
{
    /* whichever of these a place does not get, it is no warning */
    (void)features;
    (void)profiles;
    (void)plain;
    (void)numbers;
    gcf_build_command(GCF_PACKET_BYTES, 0, BUILD, 44, buffer, sizeof buffer, TOLD);
    gcf_read(0, READ, bytes, sizeof bytes, &reading);
    gcf_held(HELD, bytes, sizeof bytes, bytes, sizeof bytes, buffer, sizeof buffer);
    sweep.next = TAKE;
    sweep.profile = FIRST;
    gcf_sweep_take(sweep, bytes, sizeof bytes, buffer, sizeof buffer);
    gcf_load(GCF_COLUMNS, bytes, sizeof bytes, FEATURES, 2, PROFILES, 2, buffer, sizeof buffer, &made);
    gcf_check_profile(PROFILE, bytes, sizeof bytes, &judgement);
    return gcf_conforms(PROFILE, bytes, sizeof bytes);
}
