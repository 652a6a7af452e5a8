/*
 * A box on a microcontroller: its drive sheet in ROM, one buffer, two functions of the library for the commands and one for sense data. There is no heap, no C library
 * and nothing that is kept but the last number. The bus is the board's: it calls box_start once, and then box_command for each command that came in.
 */
#include "gcf.h"

/* const, so that the linker leaves it in ROM. ./gcf import makes one of a captured response. */
static const uint8_t sheet[] = {
    0x00, 0x04, 0x00, 0x02,                         /* 4 features, 2 profiles */
    0x00, 0x01, 0x03, 0x04, 0x00, 0x00, 0x00, 0x2C, /* 0001h Core */
    0x00, 0x03, 0x03, 0x04, 0x00, 0x00, 0x00, 0x30, /* 0003h Removable Medium */
    0x00, 0x1F, 0x01, 0x00, 0x00, 0x00, 0x00, 0x34, /* 001Fh DVD Read */
    0x01, 0x05, 0x03, 0x00, 0x00, 0x00, 0x00, 0x34, /* 0105h Time-out */
    0x00, 0x12, 0x01, 0x00,                         /* profile 0012h, current */
    0x00, 0x10, 0x00, 0x00,                         /* profile 0010h */
    0x00, 0x00, 0x00, 0x02, 0x29, 0x00, 0x00, 0x00, /* the bodies of 0001h and 0003h */
};

/* No answer is longer than the one to RT 0 from 0: 8, then 4 and its body for each feature, with 4 for each profile as the body of feature 0. */
uint8_t box_response[8 + (4 + 2 * 4) + (4 + 4) + (4 + 4) + 4 + 4];

static uint8_t last; /* the number of the last command, for REQUEST SENSE */

/* Checks the sheet, once: true if the box may answer. */
bool box_start(void)
{
    struct gcf_check check;

    return gcf_check_sheet(GCF_ROWS, sheet, sizeof sheet, &check) == GCF_ACCEPTED;
}

/* Answers GET CONFIGURATION, of 10 or 12 bytes. True: that many bytes of box_response are to be sent, with status GOOD. False: CHECK CONDITION. */
bool box_command(const uint8_t *command, uint32_t count, uint32_t *bytes)
{
    struct gcf_made sent;

    last = gcf_respond_accepted(GCF_ROWS, sheet, sizeof sheet, command, count, box_response, sizeof box_response, &sent);
    *bytes = (uint32_t)sent.bytes;
    return last == GCF_ACCEPTED;
}

/* Answers REQUEST SENSE: the 18 bytes for what the last command came to. */
void box_sense(uint8_t sense[GCF_SENSE_BYTES])
{
    struct gcf_made made;

    gcf_make_sense(last, sense, GCF_SENSE_BYTES, &made);
    last = GCF_ACCEPTED;
}
