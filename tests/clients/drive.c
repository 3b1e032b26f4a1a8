/* The simulated drive: IDENTIFY DEVICE, SMART, CHECK POWER MODE, READ LOG EXT, SET
   FEATURES and READ SECTOR(S), enough for disk utilities to do their work. Every other command is aborted. */
#include "drive.h"

#include <stdio.h>
#include <stdlib.h>
#include <string.h>

enum { STATUS_GOOD = 0x50, STATUS_ERROR = 0x51, ERROR_ABORT = 0x04 };

/* The most data that a command has. */
enum { PAGE = 8 * 4096 };

/* Real drives leave old values in the upper bytes after a 28-bit command. */
enum { LEFT_OVER = 0xA5 };

typedef struct {
    uint8_t id, flags, value, threshold;
    uint32_t raw;
} attribute;

static const attribute attributes[] = {
    {1, 0x0F, 100, 46, 0},     {5, 0x33, 100, 24, 0},   {9, 0x32, 98, 0, 4711},
    {12, 0x32, 100, 0, 321},   {194, 0x22, 100, 0, 31},
};
enum { ATTRIBUTES = sizeof attributes / sizeof attributes[0] };

/* ---- what the drive is ---- */

static void close_block(uint8_t *block)
{
    uint8_t sum = 0;
    for (size_t i = 0; i < 511; i++)
        sum += block[i];
    block[511] = (uint8_t)-sum;
}

/* Texts in an IDENTIFY block have the two bytes of each word exchanged. */
static void put_text(uint8_t *block, size_t word, size_t size, const char *text)
{
    size_t length = strlen(text);
    for (size_t i = 0; i < size; i++)
        block[2 * word + (i ^ 1)] = i < length ? (uint8_t)text[i] : ' ';
}

/* Written from docs/RULES.md 5 once more and not shared with tools/identify.py: readings of a block that share nothing judge each other. */
static void put_name(uint8_t *block, unsigned long long name)
{
    block[2 * 87] = 0x00;
    block[2 * 87 + 1] = 0x41;
    for (size_t i = 0; i < 4; i++) {
        block[2 * (108 + i)] = (uint8_t)(name >> (48 - 16 * i));
        block[2 * (108 + i) + 1] = (uint8_t)(name >> (56 - 16 * i));
    }
}

/* Words 106, 117 and 118, from RULES 5 likewise: the size is told in words of two bytes. */
static void put_sector(drive *d, unsigned long size)
{
    d->sector = size;
    d->identify[2 * 106 + 1] = 0x50;
    for (size_t i = 0; i < 4; i++)
        d->identify[2 * 117 + i] = (uint8_t)(size / 2 >> (8 * i));
}

static int read_block(drive *d, const char *folder, const char *file)
{
    char path[4096];
    if (strchr(file, '/') || snprintf(path, sizeof path, "%s/%s", folder, file) >= (int)sizeof path)
        return -1;
    FILE *in = fopen(path, "rb");
    if (!in)
        return -1;
    d->identify_size = fread(d->identify, 1, sizeof d->identify, in);
    fclose(in);
    return d->identify_size == sizeof d->identify ? 0 : -1;
}

/* A packet drive's block is made here: a CD drive with removable medium. */
static void become_packet(drive *d)
{
    memset(d->identify, 0, sizeof d->identify);
    d->identify[0] = 0xC0;
    d->identify[1] = 0x85;
    d->identify[510] = 0xA5;
    put_text(d->identify, 23, 8, "1.00");
    d->identify_size = sizeof d->identify;
    d->packet = 1;
}

/* A loose cable changes two letters of the serial number on their way, behind the drive's checksum. */
static void shake(uint8_t *block)
{
    block[32] ^= 0x01;
    block[37] ^= 0x02;
}

/* The bay's path to the drive, for page 83h: the number of the port, and its SAS address. */
static int path(drive *d, const char *key, const char *value)
{
    if (!strcmp(key, "port")) {
        d->ports.chosen |= PIONGSEUT_PORT_RELATIVE;
        d->ports.relative = (uint16_t)strtoul(value, NULL, 10);
        return 0;
    }
    if (strcmp(key, "address") || strlen(value) != 2 * sizeof d->address)
        return -1;
    unsigned long long address = strtoull(value, NULL, 16);
    d->ports.chosen |= PIONGSEUT_PORT_SAS;
    for (size_t i = 0; i < sizeof d->address; i++)
        d->address[i] = (uint8_t)(address >> (56 - 8 * i));
    return 0;
}

/* One line of a description. */
static int property(drive *d, const char *folder, const char *key, const char *value)
{
    if (!strcmp(key, "identify"))
        return read_block(d, folder, value);
    if (!strcmp(key, "serial"))
        put_text(d->identify, 10, 20, value);
    else if (!strcmp(key, "model"))
        put_text(d->identify, 27, 40, value);
    else if (!strcmp(key, "name"))
        put_name(d->identify, strtoull(value, NULL, 16));
    else if (!strcmp(key, "power") && !strcmp(value, "standby"))
        d->power = 0x00;
    else if (!strcmp(key, "health") && !strcmp(value, "failing"))
        d->failing = 1;
    else if (!strcmp(key, "cable") && !strcmp(value, "loose"))
        d->loose = 1;
    else if (!strcmp(key, "hangs"))
        d->hangs = (uint8_t)strtoul(value, NULL, 16);
    else if (!strcmp(key, "sector"))
        put_sector(d, strtoul(value, NULL, 10));
    else if (!strcmp(key, "edition") && !strcmp(value, "first"))
        d->edition = PIONGSEUT_EDITION_FIRST;
    else if (!strcmp(key, "edition") && !strcmp(value, "later"))
        d->edition = PIONGSEUT_EDITION_LATER;
    else if (!strcmp(key, "kind") && !strcmp(value, "packet"))
        become_packet(d);
    else if (!strcmp(key, "sense") && !strcmp(value, "fixed"))
        d->form = PIONGSEUT_SENSE_FIXED;
    else if (!strcmp(key, "sense") && !strcmp(value, "descriptor"))
        d->form = PIONGSEUT_SENSE_DESCRIPTOR;
    else if (!strcmp(key, "sense") && !strcmp(value, "unstated"))
        d->form = PIONGSEUT_SENSE_UNSTATED;
    else
        return path(d, key, value);
    return 0;
}

/* The register FIS that a drive sends after power on. */
static void sign(drive *d)
{
    static const uint8_t disk[PIONGSEUT_SIGNATURE_SIZE] = {0x34, 0, 0x50, 1, 1, [12] = 1};
    memcpy(d->signature, disk, sizeof disk);
    if (d->packet) {
        d->signature[2] = 0;
        d->signature[5] = 0x14;
        d->signature[6] = 0xEB;
    }
}

static void reset(drive *d)
{
    memset(d->registers, 0, sizeof d->registers);
    d->registers[PIONGSEUT_REGISTER_ERROR] = d->signature[3];
    d->registers[PIONGSEUT_REGISTER_COUNT_LOW] = d->signature[12];
    d->registers[PIONGSEUT_REGISTER_LBA_LOW_LOW] = d->signature[4];
    d->registers[PIONGSEUT_REGISTER_LBA_MID_LOW] = d->signature[5];
    d->registers[PIONGSEUT_REGISTER_LBA_HIGH_LOW] = d->signature[6];
    d->registers[PIONGSEUT_REGISTER_DEVICE] = d->signature[7];
    d->registers[PIONGSEUT_REGISTER_STATUS] = d->signature[2];
}

int drive_describe(drive *d, const char *text, const char *folder, char *complaint, size_t size)
{
    char line[256], key[16], value[128];
    memset(d, 0, sizeof *d);
    d->power = 0xFF;
    d->sector = 512;
    d->edition = PIONGSEUT_EDITION_FIRST;
    d->form = PIONGSEUT_SENSE_DESCRIPTOR; /* what a host bridge for Linux asks for: RULES 10 */
    for (int number = 0; *text; number++) {
        size_t length = strcspn(text, "\n");
        snprintf(line, sizeof line, "%.*s", (int)length, text);
        text += length + (text[length] == '\n');
        int found = sscanf(line, "%15s %127[^\n]", key, value);
        if (number == 0 || found <= 0 || key[0] == '#')
            continue;
        if (found != 2 || property(d, folder, key, value) < 0) {
            snprintf(complaint, size, "no such property or file: %s", line);
            return -1;
        }
    }
    if (d->identify_size && d->identify[510] == 0xA5)
        close_block(d->identify);
    if (d->loose)
        shake(d->identify);
    sign(d);
    reset(d);
    return 0;
}

/* ---- what the drive says ---- */

static size_t smart_data(const drive *d, uint8_t *page)
{
    page[0] = 0x10;
    for (size_t i = 0; i < ATTRIBUTES; i++) {
        const attribute *a = &attributes[i];
        uint8_t *entry = page + 2 + 12 * i;
        int worn = d->failing && a->id == 5;
        uint32_t raw = worn ? 2048 : a->raw;
        entry[0] = a->id;
        entry[1] = a->flags;
        entry[3] = entry[4] = worn ? 10 : a->value;
        for (size_t k = 0; k < 4; k++)
            entry[5 + k] = (uint8_t)(raw >> (8 * k));
    }
    page[367] = 0x5B; /* off-line and self tests can be asked for */
    page[368] = 0x03;
    page[372] = 2;
    close_block(page);
    return 512;
}

static size_t smart_thresholds(uint8_t *page)
{
    page[0] = 0x10;
    for (size_t i = 0; i < ATTRIBUTES; i++) {
        page[2 + 12 * i] = attributes[i].id;
        page[3 + 12 * i] = attributes[i].threshold;
    }
    close_block(page);
    return 512;
}

/* Sectors of which all bytes are the low byte of their LBA. */
static int sectors(const drive *d, const piongseut_order *order, uint8_t *page)
{
    size_t size = (order->count & 0xFF) * d->sector;
    if (size == 0 || size > PAGE)
        return -1;
    for (size_t i = 0; i < size; i++)
        page[i] = (uint8_t)(order->lba_low + i / d->sector);
    return (int)size;
}

/* The log directory, and an empty log of NCQ command errors; 0 for any other. */
static size_t log_page(unsigned address, unsigned page_number, uint8_t *page)
{
    if (page_number != 0 || (address != 0x00 && address != 0x10))
        return 0;
    if (address == 0x00) {
        page[0] = 1;
        page[2 * 0x10] = 1;
    }
    return 512;
}

/* ---- what the drive does ---- */

/* The commands fill page if they return data, and give its size; -1 aborts. */
static int smart(drive *d, const piongseut_order *order, uint8_t *page)
{
    uint8_t *mid = &d->registers[PIONGSEUT_REGISTER_LBA_MID_LOW];
    uint8_t *high = &d->registers[PIONGSEUT_REGISTER_LBA_HIGH_LOW];
    unsigned subcommand = order->features & 0xFF;
    if ((order->lba_mid & 0xFF) != 0x4F || (order->lba_high & 0xFF) != 0xC2)
        return -1;
    if (subcommand == 0xD8 || subcommand == 0xD9) {
        d->smart_off = subcommand == 0xD9;
        return 0;
    }
    if (d->smart_off)
        return -1;
    switch (subcommand) {
    case 0xD0:
        return (int)smart_data(d, page);
    case 0xD1:
        return (int)smart_thresholds(page);
    case 0xD2: /* autosave */
    case 0xDB: /* automatic off-line tests */
        return 0;
    case 0xDA:
        if (d->failing) {
            *mid = 0xF4;
            *high = 0x2C;
        }
        return 0;
    default:
        return -1;
    }
}

static int set_features(const piongseut_order *order)
{
    static const uint8_t known[] = {0x02, 0x82, 0x03, 0x05, 0x85, 0x42, 0xC2, 0xAA, 0x55};
    return memchr(known, order->features & 0xFF, sizeof known) ? 0 : -1;
}

static int perform(drive *d, const piongseut_order *order, uint8_t *page)
{
    switch (order->command) {
    case 0xEC:
    case 0xA1:
        if (!d->identify_size || d->packet != (order->command == 0xA1))
            return -1;
        memcpy(page, d->identify, d->identify_size);
        return (int)d->identify_size;
    case 0xB0:
        return smart(d, order, page);
    case 0x20:
        return sectors(d, order, page);
    case 0xE5:
        d->registers[PIONGSEUT_REGISTER_COUNT_LOW] = d->power;
        return 0;
    case 0x2F:
        if (!order->extend || order->count != 1)
            return -1;
        return (int)log_page(order->lba_low & 0xFF, order->lba_mid, page);
    case 0xEF:
        return set_features(order);
    default:
        return -1;
    }
}

/* The registers as the host left them, to be changed by the command. */
static void load(drive *d, const piongseut_order *o)
{
    const uint16_t values[] = {o->count, o->lba_low, o->lba_mid, o->lba_high};
    uint8_t *high = &d->registers[PIONGSEUT_REGISTER_COUNT_HIGH];
    uint8_t *low = &d->registers[PIONGSEUT_REGISTER_COUNT_LOW];
    for (size_t i = 0; i < 4; i++) {
        high[2 * i] = o->extend ? (uint8_t)(values[i] >> 8) : LEFT_OVER;
        low[2 * i] = (uint8_t)values[i];
    }
    d->registers[PIONGSEUT_REGISTER_ERROR] = 0;
    d->registers[PIONGSEUT_REGISTER_DEVICE] = o->device;
    d->registers[PIONGSEUT_REGISTER_STATUS] = STATUS_GOOD;
}

size_t drive_execute(drive *d, const piongseut_order *order, uint8_t *data)
{
    uint8_t page[PAGE] = {0};
    if (order->protocol == PIONGSEUT_PROTOCOL_ATA_HARDWARE_RESET ||
        order->protocol == PIONGSEUT_PROTOCOL_SRST) {
        if (d->hung)
            d->hung = d->hangs = 0;
        reset(d);
        return 0;
    }
    d->hung = d->hung || (d->hangs && order->command == d->hangs);
    if (d->hung)
        return DRIVE_HUNG;
    load(d, order);
    int given = perform(d, order, page);
    /* An order whose length or direction does not fit the command moves nothing. */
    int expected = order->direction == PIONGSEUT_DIRECTION_FROM_DRIVE ? (int)order->length : 0;
    if (given < 0 || given != expected || order->direction == PIONGSEUT_DIRECTION_TO_DRIVE) {
        d->registers[PIONGSEUT_REGISTER_ERROR] = ERROR_ABORT;
        d->registers[PIONGSEUT_REGISTER_STATUS] = STATUS_ERROR;
        return 0;
    }
    if (given)
        memcpy(data, page, (size_t)given);
    return (size_t)given;
}

/* ---- a packet drive's own INQUIRY ---- */

size_t drive_inquiry(const drive *d, const uint8_t *command, size_t command_size,
                     uint8_t *reply, size_t size)
{
    static const char standard[] = "\x05\x80\x05\x02\x1F\0\0\0TRIAL   "
                                   "PACKET DRIVE    1.00";
    static const uint8_t pages[] = {0x05, 0x00, 0x00, 0x02, 0x00, 0x80};
    static const char serial[] = "\x05\x80\x00\x08PKT00001";
    const void *source = standard;
    size_t count = 36;
    if (!d->packet || command_size < 6)
        return 0;
    if (command[1] & 1) {
        if (command[2] != 0x00 && command[2] != 0x80)
            return 0;
        source = command[2] ? (const void *)serial : (const void *)pages;
        count = command[2] ? 12 : sizeof pages;
    }
    if (count > size)
        count = size;
    memcpy(reply, source, count);
    return count;
}
