/* A stand-in for a drive: preloaded into a program, it answers the SCSI commands that the program sends to the path in GCF_STANDIN (by SG_IO or CDROM_SEND_PACKET), and no
 * drive is there. GET CONFIGURATION is answered
 *   from a box, by the command in GCF_STANDIN_BOX with the bytes of the command in hexadecimal behind it, whose output is the response;
 *   or from the file in GCF_STANDIN_RESPONSE, a response of the corpus, whatever is asked, as many bytes of it as the allocation length lets through;
 *   or from the file in GCF_STANDIN_EXCHANGES, a line of command and response in hexadecimal each.
 * GCF_STANDIN_LOG is a file to which each command is added, with how many bytes it got. */
#define _GNU_SOURCE
#include <dlfcn.h>
#include <errno.h>
#include <fcntl.h>
#include <linux/cdrom.h>
#include <scsi/sg.h>
#include <stdarg.h>
#include <stdio.h>
#include <stdlib.h>
#include <string.h>
#include <sys/ioctl.h>
#include <sys/stat.h>
#include <sys/sysmacros.h>
#include <unistd.h>

enum { LONGEST = 65535, SENSE = 18 };

static int drive = -1;

static int is_drive(const char *path)
{
    const char *name = getenv("GCF_STANDIN");
    return name && path && strcmp(path, name) == 0;
}

static int open_drive(void)
{
    static int (*real)(const char *, int, ...);
    if (!real)
        real = (int (*)(const char *, int, ...))dlsym(RTLD_NEXT, "open");
    drive = real("/dev/null", O_RDWR | O_CLOEXEC);
    return drive;
}

/* ---- opening and looking: the path is a block device, a CD drive by its number */

#define OPENER(name)                                                       \
    int name(const char *path, int flags, ...)                             \
    {                                                                      \
        static int (*real)(const char *, int, ...);                        \
        mode_t mode = 0;                                                   \
        va_list rest;                                                      \
        va_start(rest, flags);                                             \
        if (flags & (O_CREAT | O_TMPFILE))                                 \
            mode = va_arg(rest, mode_t);                                   \
        va_end(rest);                                                      \
        if (is_drive(path))                                                \
            return open_drive();                                           \
        if (!real)                                                         \
            real = (int (*)(const char *, int, ...))dlsym(RTLD_NEXT, #name); \
        return real(path, flags, mode);                                    \
    }

OPENER(open)
OPENER(open64)

int __open_2(const char *path, int flags) { return open(path, flags); }
int __open64_2(const char *path, int flags) { return open64(path, flags); }

static int look(struct stat *s)
{
    memset(s, 0, sizeof *s);
    s->st_mode = S_IFBLK | 0660;
    s->st_rdev = makedev(11, 0);
    return 0;
}

int stat(const char *path, struct stat *s)
{
    static int (*real)(const char *, struct stat *);
    if (is_drive(path))
        return look(s);
    if (!real)
        real = (int (*)(const char *, struct stat *))dlsym(RTLD_NEXT, "stat");
    return real(path, s);
}

int fstat(int fd, struct stat *s)
{
    static int (*real)(int, struct stat *);
    if (fd >= 0 && fd == drive)
        return look(s);
    if (!real)
        real = (int (*)(int, struct stat *))dlsym(RTLD_NEXT, "fstat");
    return real(fd, s);
}

int close(int fd)
{
    static int (*real)(int);
    if (!real)
        real = (int (*)(int))dlsym(RTLD_NEXT, "close");
    if (fd >= 0 && fd == drive)
        drive = -1;
    return real(fd);
}

/* ---- what the drive answers */

static size_t read_all(FILE *f, unsigned char *out, size_t room)
{
    return f ? fread(out, 1, room, f) : 0;
}

static int digit(int c)
{
    return c >= '0' && c <= '9' ? c - '0' : c >= 'a' && c <= 'f' ? c - 'a' + 10 : c >= 'A' && c <= 'F' ? c - 'A' + 10 : -1;
}

static size_t spelt(const char *text, unsigned char *out, size_t room)
{
    size_t n = 0;
    while (n < room && digit(text[0]) >= 0 && digit(text[1]) >= 0) {
        out[n++] = digit(text[0]) * 16 + digit(text[1]);
        text += 2;
    }
    return n;
}

/* The response to GET CONFIGURATION; -1: it is refused. */
static long configuration(const unsigned char *cdb, size_t length, unsigned char *out)
{
    const char *box = getenv("GCF_STANDIN_BOX"), *file = getenv("GCF_STANDIN_RESPONSE"), *list = getenv("GCF_STANDIN_EXCHANGES");
    size_t most = cdb[7] * 256u + cdb[8], n, i;
    if (box) {
        char line[4096];
        int used = snprintf(line, sizeof line, "unset LD_PRELOAD; %s ", box);
        for (i = 0; i < length && used + 3 < (int)sizeof line; i++)
            used += snprintf(line + used, sizeof line - used, "%02x", cdb[i]);
        FILE *f = popen(line, "r");
        n = read_all(f, out, LONGEST);
        return f && pclose(f) == 0 ? (long)n : -1;
    }
    if (file) {
        FILE *f = fopen(file, "r");
        n = read_all(f, out, LONGEST);
        if (f)
            fclose(f);
        return n < most ? n : most;
    }
    if (list) {
        static char line[4 * LONGEST];
        unsigned char command[64];
        long found = -1;
        FILE *f = fopen(list, "r");
        while (f && found < 0 && fgets(line, sizeof line, f)) {
            char *response = strchr(line, ' ');
            if (response && spelt(line, command, sizeof command) >= 9 && memcmp(command, cdb, 9) == 0)
                found = spelt(response + 1, out, LONGEST);
        }
        if (f)
            fclose(f);
        return found;
    }
    return -1;
}

static void tell(const unsigned char *cdb, size_t length, long n)
{
    const char *name = getenv("GCF_STANDIN_LOG");
    FILE *f = name ? fopen(name, "a") : NULL;
    if (!f)
        return;
    for (size_t i = 0; i < length; i++)
        fprintf(f, "%02x", cdb[i]);
    fprintf(f, " %ld\n", n);
    fclose(f);
}

/* The bytes that a command gets, or -1 and sense data. */
static long answer(const unsigned char *cdb, size_t length, unsigned char *out, unsigned char *sense)
{
    static const unsigned char inquiry[36] = {5, 0x80, 0, 0x02, 31, 0, 0, 0, 'G', 'C', 'F', ' ', ' ', ' ', ' ', ' ', 'S', 't', 'a', 'n', 'd', '-', 'i', 'n', ' ', ' ', ' ',
                                              ' ', ' ', ' ', ' ', ' ', '1', '.', '0', '0'};
    long n = -1;
    memset(sense, 0, SENSE);
    sense[0] = 0x70;
    sense[2] = 5;
    sense[7] = 10;
    sense[12] = 0x20;
    if (cdb[0] == 0x46 && length >= 10) {
        n = configuration(cdb, length, out);
        sense[12] = 0x24;
    } else if (cdb[0] == 0x12) {
        memcpy(out, inquiry, sizeof inquiry);
        n = cdb[1] & 1 ? -1 : (long)sizeof inquiry < cdb[3] * 256 + cdb[4] ? (long)sizeof inquiry : cdb[3] * 256 + cdb[4];
        sense[12] = 0x24;
    } else if (cdb[0] == 0x00) {
        n = 0;
    } else if (cdb[0] == 0x51 || cdb[0] == 0x43 || cdb[0] == 0x52) {
        /* what is on the disc: there is none */
        sense[2] = 2;
        sense[12] = 0x3A;
    }
    tell(cdb, length, n);
    return n;
}

/* ---- how a program asks */

static int by_sg(sg_io_hdr_t *h)
{
    static unsigned char data[LONGEST];
    unsigned char sense[SENSE];
    long n;
    if (h->interface_id != 'S' || !h->cmdp) {
        errno = EINVAL;
        return -1;
    }
    n = answer(h->cmdp, h->cmd_len, data, sense);
    h->status = h->masked_status = h->host_status = h->driver_status = h->sb_len_wr = 0;
    h->info = 0;
    h->duration = 1;
    h->resid = h->dxfer_len;
    if (n < 0) {
        h->status = 2;
        h->masked_status = 1;
        h->driver_status = 8;
        h->info = 1;
        h->sb_len_wr = h->mx_sb_len < SENSE ? h->mx_sb_len : SENSE;
        if (h->sbp)
            memcpy(h->sbp, sense, h->sb_len_wr);
        return 0;
    }
    if ((unsigned long)n > h->dxfer_len)
        n = h->dxfer_len;
    if (h->dxferp)
        memcpy(h->dxferp, data, n);
    h->resid = h->dxfer_len - n;
    return 0;
}

static int by_packet(struct cdrom_generic_command *c)
{
    static unsigned char data[LONGEST];
    unsigned char sense[SENSE];
    long n = answer(c->cmd, sizeof c->cmd, data, sense);
    c->stat = 0;
    if (n < 0) {
        if (c->sense)
            memcpy(c->sense, sense, sizeof *c->sense < SENSE ? sizeof *c->sense : SENSE);
        c->stat = 2;
        errno = EIO;
        return -1;
    }
    if ((unsigned long)n > c->buflen)
        n = c->buflen;
    if (c->buffer)
        memcpy(c->buffer, data, n);
    c->buflen -= n;
    return 0;
}

int ioctl(int fd, unsigned long request, ...)
{
    static int (*real)(int, unsigned long, ...);
    va_list rest;
    va_start(rest, request);
    void *what = va_arg(rest, void *);
    va_end(rest);
    if (!real)
        real = (int (*)(int, unsigned long, ...))dlsym(RTLD_NEXT, "ioctl");
    if (fd < 0 || fd != drive)
        return real(fd, request, what);
    switch (request) {
    case SG_IO:
        return by_sg(what);
    case SG_GET_VERSION_NUM:
        *(int *)what = 30536;
        return 0;
    case CDROM_SEND_PACKET:
        return by_packet(what);
    case CDROM_GET_CAPABILITY:
        return CDC_CLOSE_TRAY | CDC_OPEN_TRAY | CDC_MEDIA_CHANGED | CDC_DVD | CDC_GENERIC_PACKET;
    case CDROM_DRIVE_STATUS:
        return CDS_NO_DISC;
    default:
        errno = ENOTTY;
        return -1;
    }
}
