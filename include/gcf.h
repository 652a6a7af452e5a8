/*
 * GET CONFIGURATION: the box that answers from a drive sheet or from an image, and the driver that reads, sweeps and checks the answers.
 * Link libgcf.a, which ./install makes (pkg-config --cflags --libs gcf). docs/MANUAL.md has every number and a worked example.
 *
 * Every function takes any bytes and any numbers: nothing that is handed in makes it misbehave or run on. It keeps nothing, allocates nothing,
 * calls nothing but memcpy, memmove and memset, and may be called from several threads at once.
 *
 * Of the caller is asked only what C cannot say:
 *   - a pointer and the count behind it name that many elements; the pointer is not null and is aligned for its type, also where the count is 0;
 *   - a pointer to a struct names one;
 *   - what is written (a pointer without const) overlaps nothing else that is handed in.
 *
 * A uint8_t result is the paper's number: 0 is accepted, anything else a refusal (GCF_...), and gcf_words has its sentence. Further results go to a struct, every
 * field of it, also where something is refused: then each is 0, but for a place. Lengths, counts and further results have 64 bits on every target.
 *
 * A place, where a struct has one, says which line of a drive sheet is refused: for 3 which profile of the list, for 4, 5, 44, 6 and 7 which entry of the
 * contents, counted from 1. With every other number, and with 0, it is 0. Of an image it is the place that the imported sheet would have.
 */
#ifndef GCF_H
#define GCF_H

#include <stdbool.h>
#include <stddef.h>
#include <stdint.h>

/* The version, and its only place: all else that tells it takes it from here. docs/CHANGES.md says what each one brought. */
#define GCF_VERSION "0.15.5"

#ifdef __cplusplus
extern "C" {
#endif

/*
 * Feature numbers and profile numbers: two types, so that a compiler refuses one in the other's place. gcf_feature_of(0x0003) and
 * gcf_profile_of(0x0012) make them, .number is what they hold.
 */
typedef struct gcf_feature {
    uint16_t number;
} gcf_feature;

typedef struct gcf_profile {
    uint16_t number;
} gcf_profile;

static inline gcf_feature gcf_feature_of(uint16_t number)
{
    gcf_feature feature;
    feature.number = number;
    return feature;
}

static inline gcf_profile gcf_profile_of(uint16_t number)
{
    gcf_profile profile;
    profile.number = number;
    return profile;
}

/* The numbers that are given, in the paper's order. */
enum gcf_number {
    GCF_ACCEPTED = 0,
    /* drive sheet */
    GCF_SHEET_SHORT = 1,
    GCF_PROFILES_MANY = 2,
    GCF_PROFILE_BAD = 3,
    GCF_ORDER_BAD = 4,
    GCF_FLAGS_BAD = 5,
    GCF_LENGTH_BAD = 6,
    GCF_OFFSET_BAD = 7,
    GCF_SHEET_LONG = 8,
    /* command */
    GCF_COMMAND_LENGTH = 9,
    GCF_OPCODE_OTHER = 10,
    GCF_RT_RESERVED = 11,
    GCF_BUFFER_SHORT = 12,
    /* reading */
    GCF_READING_RT_BAD = 13,
    GCF_RECEIVED_BAD = 14,
    GCF_STATED_BAD = 15,
    GCF_RECEIVED_MORE = 16,
    GCF_ADDITIONAL_BAD = 17,
    GCF_FEATURE_BAD = 18,
    GCF_NOT_CURRENT = 19,
    GCF_ENDS_BEYOND = 20,
    /* sweep */
    GCF_SWEEP_RT_BAD = 21,
    GCF_ALLOCATION_SHORT = 22,
    GCF_NONE_WHOLE = 23,
    GCF_COLLECTED_FULL = 24,
    GCF_STARTS_FULL = 25,
    GCF_SWEEP_ENDED = 26,
    GCF_CUT_AT_LAST = 27,
    GCF_CUT_SHORT = 28,
    /* checks */
    GCF_RESPONSE_CUT = 29,
    GCF_CORE_MISSING = 30,
    GCF_BODY_LENGTH_BAD = 31,
    GCF_FLAGS_NOT_BOTH = 32,
    GCF_FLAGS_RESERVED = 33,
    GCF_PERSISTENT_ALONE = 34,
    GCF_PERSISTENT_BARRED = 35,
    GCF_BITS_RESERVED = 36,
    GCF_CUE_LENGTH = 37,
    GCF_PROFILE_ZERO = 39,
    GCF_NO_TABLE = 40,
    /* import */
    GCF_NOT_OWN = 41,
    GCF_SHEET_BUFFER_SHORT = 42,
    /* flags in a drive sheet, beside 5; 43, a Version, is withdrawn */
    GCF_PERSISTENT_UNCURRENT = 44,
    /* sweep, beside 21 to 28 */
    GCF_PROFILE_CHANGED = 45,
    /* sense data */
    GCF_SENSE_LENGTH = 46,
    GCF_SENSE_CODE = 47,
    GCF_SENSE_OTHER = 48,
    /* mending a response */
    GCF_COPY_SHORT = 49,
    GCF_CHANGES_SHORT = 50,
    /* loading a medium */
    GCF_LIST_ORDER = 51,
    GCF_SHEET_LACKS = 52,
    GCF_LOADED_SHORT = 53,
    /* sense data, beside 46 to 48 */
    GCF_NOT_GIVEN = 54,
    GCF_SENSE_BUFFER_SHORT = 55
};

/* What the archive subset is asked for as, a number that no drive may list. */
#define GCF_ARCHIVE gcf_profile_of(0x0000)

/* What is wrong with a feature that breaks a profile, the first of these. */
enum gcf_wrong {
    GCF_WRONG_NOTHING = 0,     /* no feature breaks it */
    GCF_WRONG_ABSENT = 1,      /* no descriptor has its number */
    GCF_WRONG_TOO_SHORT = 2,   /* its body is shorter than the profile asks */
    GCF_WRONG_BIT_CLEAR = 3,   /* a bit that the profile asks for is not set */
    GCF_WRONG_NOT_CURRENT = 4, /* it is not current, and the profile asks for that */
    GCF_WRONG_TOO_LONG = 5     /* its descriptor is longer than the profile lets any be */
};

/* What is said of another box's response. None is 0, which stands where nothing is judged. */
enum gcf_said {
    GCF_SAID_EXACT = 1,   /* the bytes that are due; of a command that is to be refused, none */
    GCF_SAID_PADDED = 2,  /* the bytes due, and nothing but zeros behind them */
    GCF_SAID_SHORT = 3,   /* the first of the bytes due, and no more */
    GCF_SAID_WRONG = 4,   /* a byte that is not the one due */
    GCF_SAID_ANSWERED = 5 /* some bytes, though the command is to be refused */
};

/* What another box gets wrong, the first of these that explains its response. */
enum gcf_mistake {
    GCF_MISTAKE_UNEXPLAINED = 0,      /* none of these explains it */
    GCF_MISTAKE_ONLY_ABOVE = 1,       /* it sends only the features above SFN */
    GCF_MISTAKE_LENGTH_CUT = 2,       /* its Data Length is cut with the allocation length */
    GCF_MISTAKE_LENGTH_OF_ALL = 3,    /* its Data Length counts all features, whatever was asked for */
    GCF_MISTAKE_HIGHEST_CURRENT = 4,  /* its Current Profile is the highest of the current ones */
    GCF_MISTAKE_HIGHEST_LISTED = 5,   /* its Current Profile is the highest of all */
    GCF_MISTAKE_NOT_ONLY_CURRENT = 6, /* it gives RT 1 what RT 0 gets */
    GCF_MISTAKE_NOT_ONLY_ONE = 7      /* it gives RT 2 what RT 0 gets */
};

/* What sense data says of a command. None is 0, which stands where sense data is refused. */
enum gcf_kind {
    GCF_KIND_NOTHING = 1,   /* the command was accepted */
    GCF_KIND_OPERATION = 2, /* it is no GET CONFIGURATION of 10 or 12 bytes */
    GCF_KIND_FIELD = 3,     /* RT 3 */
    GCF_KIND_TROUBLE = 4    /* the box's own trouble: its sheet or its image, or its response buffer */
};

/* The layout of a drive sheet: its contents stand entry by entry, in rows, or in columns: all feature numbers, then all flags, all body lengths, all offsets. All else
 * stands alike, and both layouts of one sheet get the same numbers, the same places and the same bytes sent. A function that takes no layout takes rows. */
#define GCF_ROWS false
#define GCF_COLUMNS true

/* Sizes that are always enough. */
#define GCF_COMMAND_BYTES 10
#define GCF_PACKET_BYTES 12      /* the same command with its two pads, as ATAPI sends it */
#define GCF_HEADER_BYTES 8
#define GCF_DESCRIPTOR_MOST 256  /* one descriptor */
#define GCF_RESPONSE_MOST 65534  /* one response */
#define GCF_LISTING_MOST 245736  /* the listing of any bytes */
#define GCF_SHEET_MOST 17039356  /* the longest drive sheet */
#define GCF_IMPORT_MOST 131044   /* the longest sheet of a captured response */
#define GCF_SENSE_BYTES 18       /* sense data in fixed format */
#define GCF_WORDS_MOST 129       /* the sentence of a number */

/* ---- further results */

/* A check of a sheet or of an image. */
struct gcf_check {
    uint64_t place;
};

/* Bytes that were made: a response, a command, a sheet, sense data. Refused: 0 bytes. */
struct gcf_made {
    uint64_t bytes;
    uint64_t place;
};

/* ---- the words */

/*
 * The sentence of a number, as ./gcf says it, without a zero byte behind it; none for a number that is not given. Gives the count of characters written; a shorter
 * buffer gets the first ones, and GCF_WORDS_MOST are always enough.
 */
uint64_t gcf_words(uint8_t number, char *text, uint64_t text_bytes);

/* The same with a zero byte behind it, in a buffer of GCF_WORDS_MOST + 1. Gives the buffer. */
static inline const char *gcf_words_in(uint8_t number, char *text)
{
    text[gcf_words(number, text, GCF_WORDS_MOST)] = 0;
    return text;
}

/* ---- the box */

/* The check of a drive sheet: 1, 2, 3 for each profile, then for each entry 4, 5 (reserved flag bits), 44 (Persistent without Current), 6, 7, then 8. */
uint8_t gcf_check_sheet(bool columns, const uint8_t *sheet, uint64_t sheet_bytes, struct gcf_check *check);

/*
 * Answers a command from any sheet: the sheet's numbers, then 9 to 12. Accepted: the bytes sent stand at the front of the response buffer, and only
 * they changed. Refused: nothing changed.
 */
uint8_t gcf_respond(bool columns, const uint8_t *sheet, uint64_t sheet_bytes,
                    const uint8_t *command, uint64_t command_bytes,
                    uint8_t *response, uint64_t response_bytes,
                    struct gcf_made *sent);

/*
 * The same for a sheet that gcf_check_sheet has accepted and that has not changed since: 9 to 12, and no time spent on the sheet's check. With RT 0
 * and RT 2 its cost follows the bytes sent, not the size of the sheet; with RT 1 it looks at each entry from the first wanted one on, to add up
 * Data Length. (With any other sheet it still keeps to its buffers; what it sends then means nothing.)
 */
uint8_t gcf_respond_accepted(bool columns, const uint8_t *sheet, uint64_t sheet_bytes,
                             const uint8_t *command, uint64_t command_bytes,
                             uint8_t *response, uint64_t response_bytes,
                             struct gcf_made *sent);

/*
 * Lays a sheet out anew, in columns or in rows, in as many bytes: the numbers of gcf_check_sheet, then 42. Accepted: it stands at the front of the buffer, and
 * only its bytes changed. Refused: nothing changed. What is laid out in the other layout and back is as it was.
 */
uint8_t gcf_convert(bool columns, const uint8_t *sheet, uint64_t sheet_bytes,
                    bool to_columns, uint8_t *converted, uint64_t converted_bytes,
                    struct gcf_made *made);

/* ---- a medium goes in: the sheet as it leaves it */

/*
 * Of a sheet, the sheet, in the layout that it has, with a medium that makes these features and these profiles current: a Persistent feature stays current, each
 * other one is current exactly if it is listed, each profile is current exactly if it is listed, and nothing else changes. What was in before makes no difference.
 * The numbers of gcf_check_sheet, then 51 (a list that does not ascend, or repeats a number), 52 (a feature or profile that the sheet lacks; feature 0 counts as
 * lacking), 53 (a buffer shorter than the sheet). Accepted: the sheet, as long as it was and accepted again, stands at the front of the buffer, and only its
 * bytes changed. Refused: nothing changed. Sweep between two loadings, not across one (docs/MANUAL.md).
 */
uint8_t gcf_load(bool columns, const uint8_t *sheet, uint64_t sheet_bytes,
                 const gcf_feature *features, uint64_t features_count,
                 const gcf_profile *profiles, uint64_t profiles_count,
                 uint8_t *loaded, uint64_t loaded_bytes,
                 struct gcf_made *made);

/* ---- the box without a sheet: it holds an image, a complete response to RT 0 from 0 that gcf_import accepts */

/*
 * The check of an image: 14 to 18, 20, 29, 41, the sheet's 3, then for each descriptor behind feature 0 the sheet's 5, 44. These are import's numbers
 * but 42, in import's order, and the place is as gcf_import tells it.
 */
uint8_t gcf_check_image(const uint8_t *image, uint64_t image_bytes, struct gcf_check *check);

/*
 * Answers a command from any image: the numbers of gcf_check_image, then 9 to 12. Accepted: what gcf_respond sends from the sheet that gcf_import makes of
 * the image stands at the front of the response buffer, and only it changed. Refused: nothing changed.
 */
uint8_t gcf_respond_image(const uint8_t *image, uint64_t image_bytes,
                          const uint8_t *command, uint64_t command_bytes,
                          uint8_t *response, uint64_t response_bytes,
                          struct gcf_made *sent);

/*
 * The same for an image that gcf_check_image has accepted and that has not changed since: 9 to 12, and no time spent on the image's check. It walks from
 * the first descriptor to the first wanted one, and with RT 1 on to the last. (With any other image it still keeps to its buffers; what it sends then
 * means nothing.)
 */
uint8_t gcf_respond_image_accepted(const uint8_t *image, uint64_t image_bytes,
                                   const uint8_t *command, uint64_t command_bytes,
                                   uint8_t *response, uint64_t response_bytes,
                                   struct gcf_made *sent);

/* ---- the driver */

/*
 * Makes the command that asks for Requested Type rt from feature sfn on with this allocation length, every other bit 0. It has length bytes, GCF_COMMAND_BYTES
 * or GCF_PACKET_BYTES: 9 for another length, then 11 for RT over 2, then 12 for a shorter buffer. Accepted: it stands at the front of the buffer, and only its
 * bytes changed; a box takes it for exactly those three. Refused: nothing changed.
 */
uint8_t gcf_build_command(uint64_t length, uint8_t rt, gcf_feature sfn, uint16_t allocation,
                          uint8_t *command, uint64_t command_bytes,
                          struct gcf_made *made);

/* What a response holds; gcf_profile_of(reading.profile) is the profile's type. */
struct gcf_reading {
    uint64_t profile;     /* the Current Profile, 0 if there is none */
    uint64_t data_length; /* as the header states it */
    uint64_t count;       /* whole descriptors */
    uint64_t end;         /* the place behind the last of them */
    uint64_t complete;    /* 1, or 0 if the response is cut */
};

/* Reads a response to Requested Type rt from feature sfn on: 13 to 20. */
uint8_t gcf_read(uint8_t rt, gcf_feature sfn, const uint8_t *response, uint64_t response_bytes, struct gcf_reading *reading);

/* A descriptor in a response: its fields, and where its body and the next descriptor stand. */
struct gcf_descriptor {
    uint64_t feature;
    uint64_t flags;      /* all eight bits, of which the next three are parts */
    uint64_t version;
    uint64_t persistent; /* 1 or 0 */
    uint64_t current;    /* 1 or 0 */
    uint64_t body;       /* the place of its first byte in the response */
    uint64_t body_bytes;
    uint64_t next;
};

/*
 * The descriptor at a place of a response, if it stands there whole. Else false, and every field 0. From GCF_HEADER_BYTES on, and from each `next`, it gives the whole
 * descriptors of a response that gcf_read accepts, each once, in their order, and then false. It reads bytes and judges none of them: hand over the `end` that
 * gcf_read gave as the count, and a response that is refused, whose end is 0, has none.
 */
bool gcf_next(uint64_t place, const uint8_t *response, uint64_t response_bytes, struct gcf_descriptor *descriptor);

/* Where a reading stops. */
struct gcf_stop {
    uint64_t place;
    uint64_t feature; /* the feature that stands there, 0 where its four header bytes were not received */
};

/*
 * Where the reading of a response to Requested Type rt from feature sfn on stops, which may have at most `most` bytes (65,534, or C in a sweep): the place of the first
 * descriptor that is at fault, with 17 to 20, or that was not received whole, or the end. 0 where the header is refused, 13 to 16.
 */
void gcf_stops(uint64_t most, uint8_t rt, gcf_feature sfn, const uint8_t *response, uint64_t response_bytes, struct gcf_stop *stop);

/*
 * Where a feature's descriptor stands in a response to RT 0 from 0: behind the header and the whole descriptors of lower features, and so where it would stand if the
 * response does not have it. 8 for one that is refused.
 */
uint64_t gcf_place(gcf_feature feature, const uint8_t *response, uint64_t response_bytes);

/*
 * Copies a feature's descriptor out of the fresh response if it is whole there, else out of the kept one, both responses to RT 0 from 0. Gives the
 * count of bytes written: 0 where neither holds it (or the buffer has none). GCF_DESCRIPTOR_MOST bytes are always enough; a shorter buffer gets the
 * first bytes, and gcf_descriptor_whole tells such a cut copy from a whole one.
 */
uint64_t gcf_held(gcf_feature feature,
                  const uint8_t *fresh, uint64_t fresh_bytes,
                  const uint8_t *kept, uint64_t kept_bytes,
                  uint8_t *descriptor, uint64_t descriptor_bytes);

/* Whether the `count` bytes that gcf_held wrote are all of the descriptor: its four header bytes, and the body of which the fourth says the length. */
static inline bool gcf_descriptor_whole(const uint8_t *descriptor, uint64_t count)
{
    return count >= 4 && count == 4 + (uint64_t)descriptor[3];
}

/*
 * The listing of a response to RT 0 from 0 as text, without a zero byte behind it. Gives the count of characters written. It stops at the buffer's end:
 * the text is whole where the count is below text_bytes, and always where text_bytes is GCF_LISTING_MOST or more. Else, with a count of text_bytes,
 * it may be cut.
 */
uint64_t gcf_list(const uint8_t *response, uint64_t response_bytes, char *text, uint64_t text_bytes);

/* The most bytes that a response has with this allocation length: the smaller of it and 65,534. */
uint64_t gcf_most(uint16_t allocation);

/* A sweep's record. It is handed in and comes back as one thing; any record may be handed in. */
struct gcf_sweep {
    uint8_t rt;
    uint16_t allocation;
    gcf_feature next;    /* the Starting Feature Number to ask for */
    uint32_t commands;   /* responses accepted so far */
    uint64_t collected;  /* bytes collected so far */
    bool ended;
    gcf_profile profile; /* the Current Profile of the first accepted response, 0 before it */
};

/* A number, and the place of a line of a drive sheet; in a sweep the place is 0. */
struct gcf_refusal {
    uint8_t number;
    uint16_t place;
};

/* What a start, or a response, gives: the number, and the record from then on. */
struct gcf_step {
    struct gcf_refusal refusal;
    struct gcf_sweep sweep;
};

/* Starts a sweep: 21, 22. Refused: a record that has ended, all else 0. */
struct gcf_step gcf_sweep_start(uint8_t rt, uint16_t allocation);

/*
 * Takes the response to the sweep's next command, with any record: 21, 22, 26, the reading's, 28, 45, 23, 27, 24. Accepted: the whole descriptors stand
 * behind those collected, and nothing else of the collecting buffer changed. Refused: nothing changed but, on 23 and 45, the mark that it has ended.
 * 45: with commands so far, a Current Profile other than the first response had. A change that keeps the profile is not seen (docs/MANUAL.md).
 */
struct gcf_step gcf_sweep_take(struct gcf_sweep sweep,
                               const uint8_t *response, uint64_t response_bytes,
                               uint8_t *collecting, uint64_t collecting_bytes);

/* The same two on a record that stays where it is. */
static inline uint8_t gcf_sweep_begin(struct gcf_sweep *sweep, uint8_t rt, uint16_t allocation)
{
    struct gcf_step step = gcf_sweep_start(rt, allocation);
    *sweep = step.sweep;
    return step.refusal.number;
}

static inline uint8_t gcf_sweep_on(struct gcf_sweep *sweep,
                                   const uint8_t *response, uint64_t response_bytes,
                                   uint8_t *collecting, uint64_t collecting_bytes)
{
    struct gcf_step step = gcf_sweep_take(*sweep, response, response_bytes, collecting, collecting_bytes);
    *sweep = step.sweep;
    return step.refusal.number;
}

/* ---- the bench and the checks */

/* What a bench sweep did. */
struct gcf_swept {
    uint64_t commands;  /* starts written */
    uint64_t collected; /* bytes */
    uint64_t place;
};

/*
 * Sweeps a sheet from end to end: the sheet's numbers, 21, 22, 12, then each round's. Accepted: the descriptors collected, the starts asked for, and
 * the last response with zeros behind it. Refused: all three buffers are zero throughout.
 */
uint8_t gcf_bench(bool columns, const uint8_t *sheet, uint64_t sheet_bytes, uint8_t rt, uint16_t allocation,
                  uint8_t *response, uint64_t response_bytes,
                  uint8_t *collected, uint64_t collected_bytes,
                  uint16_t *starts, uint64_t starts_count,
                  struct gcf_swept *swept);

/* What is said of another box's response. */
struct gcf_verdict {
    uint64_t said;    /* one of enum gcf_said, 0 where nothing is judged */
    uint64_t differs; /* PADDED, SHORT, WRONG: the place of the first byte that is too many, missing or not the one due; else 0 */
    uint64_t mistake; /* WRONG: what explains it, one of enum gcf_mistake; else 0 */
    uint64_t refusal; /* ANSWERED: the number that the command is to be refused with; else 0 */
    uint64_t place;
};

/*
 * Judges what another box sent for a command, as recorded, by what a box with this sheet sends: the sheet's numbers, then 12 for a due buffer of fewer bytes than any
 * box may send for the command's allocation length, gcf_most of it. Of a command that is to be refused, 9 to 11, exactly no bytes are exact. 0 says only that it could
 * be judged. Judged by bytes, the due buffer has what was due, and zeros behind it; with a refusal, and of a command that is to be refused, it stays as it was.
 */
uint8_t gcf_judge(bool columns, const uint8_t *sheet, uint64_t sheet_bytes,
                  const uint8_t *command, uint64_t command_bytes,
                  const uint8_t *response, uint64_t response_bytes,
                  uint8_t *due, uint64_t due_bytes,
                  struct gcf_verdict *verdict);

/* What a check of descriptors finds. */
struct gcf_finding {
    uint64_t feature; /* the one at fault, 0 but for 30 to 39 */
};

/*
 * Checks the descriptors of a response to RT 0 from 0: the reading's numbers, 29, then 30 to 39. A feature with a Version above 0 may be longer than its
 * table says, and its body is not looked at.
 */
uint8_t gcf_check_descriptors(const uint8_t *response, uint64_t response_bytes, struct gcf_finding *finding);

/* What is said of a profile. */
struct gcf_judgement {
    uint64_t wrong;   /* what is wrong with the lowest feature that breaks the profile, one of enum gcf_wrong, 0 if none does */
    uint64_t feature; /* that feature */
};

/*
 * Whether a response to RT 0 from 0 has what a profile requires: the reading's numbers, 29, 40. 0 says only that it could be judged; whether it has
 * all is what `wrong` says, and gcf_conforms asks for both. The archive subset is asked for as profile GCF_ARCHIVE.
 */
uint8_t gcf_check_profile(gcf_profile profile, const uint8_t *response, uint64_t response_bytes, struct gcf_judgement *judgement);

/* Whether the response could be judged, and has all that the profile requires. */
static inline bool gcf_conforms(gcf_profile profile, const uint8_t *response, uint64_t response_bytes)
{
    struct gcf_judgement judgement;
    return gcf_check_profile(profile, response, response_bytes, &judgement) == GCF_ACCEPTED && judgement.wrong == GCF_WRONG_NOTHING;
}

/* ---- mending a captured response */

/* What a mending made. */
struct gcf_mended {
    uint64_t bytes;   /* of the copy */
    uint64_t changes; /* in the list */
};

/*
 * Mends a complete response to RT 0 from 0 in a copy: reserved flags and reserved body bits and pads are cleared, 0000h to 0003h get both flags, Persistent is
 * cleared where 34 or 35 forbids it, and the cue sheet length where SAO is 0. The header, the Versions, a body with a Version above 0 and a body of wrong length
 * stay. The reading's numbers, 29, then 49 for a copy buffer shorter than the response, 50 for a list shorter than the changes. Accepted: the mended response, as
 * long as it was, stands at the front of the copy buffer, and the changes at the front of the list, in rising order, one for each byte that differs:
 * place * 65536 + old byte * 256 + new byte, where a place counts from 0 (gcf_change_place, gcf_change_old, gcf_change_new). Nothing else changed. Refused: nothing
 * changed. What gcf_check_descriptors finds in the mended response is 0, 30, 31 or 39. A list as long as the response is never too short.
 */
uint8_t gcf_mend(const uint8_t *response, uint64_t response_bytes,
                 uint8_t *copy, uint64_t copy_bytes,
                 uint32_t *changes, uint64_t changes_count,
                 struct gcf_mended *mended);

/* What a change says. */
static inline uint64_t gcf_change_place(uint32_t change) { return change >> 16; }
static inline uint8_t gcf_change_old(uint32_t change) { return (uint8_t)(change >> 8); }
static inline uint8_t gcf_change_new(uint32_t change) { return (uint8_t)change; }

/* ---- import */

/*
 * Turns a captured response to RT 0 from 0 into a drive sheet in rows from which the box gives those bytes back: 14 to 18, 20, 29, 41, the sheet's 3, then for
 * each descriptor behind feature 0 the sheet's 5, 44, then 42. Accepted: the sheet stands at the front of the buffer, and only its bytes changed.
 * Refused: nothing changed, and the place is the one that it would have in the sheet: for 3 in feature 0's list, else among the descriptors behind feature 0.
 */
uint8_t gcf_import(const uint8_t *response, uint64_t response_bytes, uint8_t *sheet, uint64_t sheet_bytes, struct gcf_made *made);

/* ---- sense data */

/*
 * Makes the 18 bytes of fixed-format sense data for the number that gcf_respond, gcf_respond_image or their two for what was accepted before gave, 0 too: 54 for
 * a number that no command gives, then 55 for a buffer under GCF_SENSE_BYTES. Accepted: they stand at the front of the buffer, and only they changed.
 * Refused: nothing changed.
 */
uint8_t gcf_make_sense(uint8_t number, uint8_t *sense, uint64_t sense_bytes, struct gcf_made *made);

/* What sense data says. */
struct gcf_meaning {
    uint64_t kind; /* one of enum gcf_kind, 0 where it is refused */
};

/*
 * What received sense data means: 46 for a length other than 18, 47 for a response code other than 70h, 48 for any other bytes than gcf_make_sense
 * writes.
 */
uint8_t gcf_read_sense(const uint8_t *sense, uint64_t sense_bytes, struct gcf_meaning *meaning);

#ifdef __cplusplus
}
#endif

#endif
