/* A command's way through the board: INQUIRY to the one entry, all else to the other, an
   order that is taken to the drive and then to completion; and the logs of it. */
#include "bridge.h"

#include <stdio.h>
#include <stdlib.h>
#include <string.h>

static const uint8_t texts[] = "PIONGSEU" "SATA BRIDGE     " "0001";

static void die(const char *why)
{
    fprintf(stderr, "piongseut bridge: %s\n", why);
    exit(120);
}

void bay_fill(bay *b, const char *description)
{
    char complaint[300];
    const char *folder = getenv("PIONGSEUT_DATA");
    if (!folder)
        die("PIONGSEUT_DATA is not set");
    b->record = piongseut_record_empty();
    b->kept[0] = 0;
    if (drive_describe(&b->drive, description, folder, complaint, sizeof complaint) < 0)
        die(complaint);
}

/* ---- from one client to the next ---- */

/* What a bay keeps. */
typedef struct {
    piongseut_record record;
    uint8_t hangs, hung;
} kept;

void bay_keep(bay *b, const char *name)
{
    kept k;
    const char *folder = getenv("PIONGSEUT_KEPT");
    if (!folder)
        return;
    if (snprintf(b->kept, sizeof b->kept, "%s/%s", folder, name) >= (int)sizeof b->kept)
        die("the name that PIONGSEUT_KEPT has is too long");
    FILE *in = fopen(b->kept, "rb");
    if (!in)
        return;
    if (fread(&k, sizeof k, 1, in) != 1)
        die("a bay's file in the folder of PIONGSEUT_KEPT is cut short");
    fclose(in);
    b->record = k.record;
    b->drive.hangs = k.hangs;
    b->drive.hung = k.hung;
}

static void keep(const bay *b)
{
    const kept k = {b->record, b->drive.hangs, (uint8_t)b->drive.hung};
    if (!b->kept[0])
        return;
    FILE *out = fopen(b->kept, "wb");
    if (!out || fwrite(&k, sizeof k, 1, out) != 1 || fclose(out))
        die("cannot write to the folder that PIONGSEUT_KEPT names");
}

/* ---- the logs ---- */

/* The file to append to that a variable names, or NULL where it is not set. */
static FILE *log_of(const char *variable)
{
    const char *name = getenv(variable);
    FILE *out = name ? fopen(name, "a") : NULL;
    if (name && !out)
        die("cannot write a file that PIONGSEUT_LOG or PIONGSEUT_ORDERS names");
    return out;
}

static void put_hex(FILE *out, const uint8_t *bytes, size_t size)
{
    for (size_t i = 0; i < size; i++)
        fprintf(out, "%02x", bytes[i]);
}

static void log_command(const exchange *x, const char *who)
{
    FILE *out = log_of("PIONGSEUT_LOG");
    if (!out)
        return;
    fprintf(out, "%s ", who);
    put_hex(out, x->command, x->command_size);
    fprintf(out, " number=%u status=%02x moved=%zu ", x->number, x->status, x->moved);
    if (x->auxiliary)
        fprintf(out, "auxiliary=%08x ", (unsigned)x->auxiliary);
    if (x->lost)
        fprintf(out, "lost=%u ", x->lost_protocol);
    fprintf(out, "sense=");
    put_hex(out, x->sense, sense_size(x));
    fputc('\n', out);
    fclose(out);
}

/* An order that was taken, as the program build reads one. */
static void log_order(const piongseut_order *o)
{
    static const char *const ways[] = {"none", "from", "to"};
    FILE *out = log_of("PIONGSEUT_ORDERS");
    if (!out)
        return;
    if (o->direction >= sizeof ways / sizeof *ways)
        die("the board took an order of no direction");
    fprintf(out, "length=%u auxiliary=0x%x features=0x%x count=0x%x ", (unsigned)o->length,
            (unsigned)o->auxiliary, o->features, o->count);
    fprintf(out, "lba_low=0x%x lba_mid=0x%x lba_high=0x%x quiet_seconds=%u sectors_per_block=%u ",
            o->lba_low, o->lba_mid, o->lba_high, o->quiet_seconds, o->sectors_per_block);
    fprintf(out, "device=0x%x command=0x%x protocol=%u ck_cond=%u extend=%u direction=%s\n", o->device,
            o->command, o->protocol, o->ck_cond, o->extend, ways[o->direction]);
    fclose(out);
}

/* ---- through the board ---- */

static void inquire(bay *b, exchange *x)
{
    uint8_t room[PIONGSEUT_PAGE89_SIZE], reply[PIONGSEUT_PAGE89_SIZE];
    const drive *d = &b->drive;
    size_t replied = drive_inquiry(d, x->command, x->command_size, reply, sizeof reply);
    piongseut_inquiry_answer a = piongseut_inquiry(
        x->command, x->command_size, d->identify, d->identify_size, d->signature,
        sizeof d->signature, texts, sizeof texts - 1, reply, replied, d->ports, d->address,
        sizeof d->address, d->form, room, sizeof room, x->sense, sizeof x->sense);
    x->number = a.number;
    x->status = a.status;
    x->moved = a.count < x->declared ? a.count : x->declared;
    if (x->moved > sizeof room)
        die("the board shows more bytes than it was lent");
    if (x->moved)
        memcpy(x->data, a.shown == PIONGSEUT_SHOWN_ROOM ? room : reply, x->moved);
}

static void pass_through(bay *b, exchange *x)
{
    drive *d = &b->drive;
    piongseut_submit_answer s = piongseut_submit(
        &b->record, x->command, x->command_size, d->registers, sizeof d->registers, d->identify,
        d->identify_size, (uint32_t)x->declared, d->edition, d->form, x->sense, sizeof x->sense);
    x->number = s.number;
    x->status = s.status;
    x->auxiliary = s.order.auxiliary;
    if (s.number != PIONGSEUT_ACCEPTED || s.status != PIONGSEUT_NONE)
        return;
    log_order(&s.order);
    if (s.order.length > x->declared)
        die("the board took an order longer than the host's buffer");
    /* a host that lends its buffer for the other direction gets no data and no status */
    int fits = s.order.direction == PIONGSEUT_DIRECTION_NONE || s.order.direction == x->direction;
    size_t moved = fits ? drive_execute(d, &s.order, x->data) : 0;
    x->hung = moved == DRIVE_HUNG;
    if (x->hung) /* the order stays pending, and the host gets no status */
        return;
    x->moved = moved;
    piongseut_complete_answer c = piongseut_complete(
        &b->record, d->registers, sizeof d->registers, d->form, x->sense, sizeof x->sense);
    x->number = c.number;
    x->status = fits ? c.status : PIONGSEUT_NONE;
    x->lost = c.lost;
    x->lost_protocol = c.lost_protocol;
}

/* On a packet drive A1h is the drive's own command BLANK, and so are all others but
   INQUIRY, 85h and in the later edition 7Fh: they are the drive's to answer, and this one
   knows none of them. */
static int drive_answers(const bay *b, exchange *x)
{
    static const uint8_t unknown[PIONGSEUT_REFUSAL_SENSE_SIZE] = {0x72, 0x05, 0x20};
    int later = b->drive.edition == PIONGSEUT_EDITION_LATER;
    if (!b->drive.packet || x->command[0] == INQUIRY || x->command[0] == PASS_THROUGH_16 ||
        (later && x->command[0] == PASS_THROUGH_32))
        return 0;
    x->status = PIONGSEUT_CHECK_CONDITION;
    memcpy(x->sense, unknown, sizeof unknown);
    return 1;
}

void bay_carry(bay *b, exchange *x, const char *who)
{
    if (drive_answers(b, x))
        return;
    if (x->command[0] == INQUIRY)
        inquire(b, x);
    else
        pass_through(b, x);
    keep(b);
    log_command(x, who);
}
