/* A disk's commands over a plain file, in blocks of 512 bytes: capacity, reading, writing,
   mode pages and what else a kernel asks of every disk. What is not here is refused as an
   unknown command. */
#define _GNU_SOURCE
#include "blocks.h"

#include <string.h>
#include <sys/stat.h>
#include <unistd.h>

enum { BLOCK = 512 };
enum { ILLEGAL = 0x05, MEDIUM = 0x03 };
enum { WRITE_ERROR = 0x0C, READ_ERROR = 0x11 };
enum { NO_SUCH_COMMAND = 0x20, NO_SUCH_BLOCK = 0x21, NO_SUCH_FIELD = 0x24 };

static uint64_t number_at(const uint8_t *bytes, size_t size)
{
    uint64_t number = 0;
    for (size_t i = 0; i < size; i++)
        number = number << 8 | bytes[i];
    return number;
}

static void put_number(uint8_t *bytes, size_t size, uint64_t number)
{
    for (size_t i = size; i-- > 0; number >>= 8)
        bytes[i] = (uint8_t)number;
}

static void refuse(exchange *x, uint8_t key, uint8_t code)
{
    x->status = PIONGSEUT_CHECK_CONDITION;
    x->moved = 0;
    memset(x->sense, 0, sizeof x->sense);
    x->sense[0] = 0x72;
    x->sense[1] = key;
    x->sense[2] = code;
}

/* As many bytes of a page as the command and the host's buffer have room for. */
static void show(exchange *x, const uint8_t *page, size_t size, uint64_t allocation)
{
    x->moved = size < allocation ? size : (size_t)allocation;
    if (x->moved > x->declared)
        x->moved = x->declared;
    if (x->moved)
        memcpy(x->data, page, x->moved);
}

static uint64_t blocks_of(int file)
{
    struct stat s;
    return fstat(file, &s) < 0 ? 0 : (uint64_t)s.st_size / BLOCK;
}

static void move(int file, exchange *x, uint64_t first, uint64_t count)
{
    int to_drive = x->direction == PIONGSEUT_DIRECTION_TO_DRIVE;
    size_t size = (size_t)count * BLOCK;
    uint64_t all = blocks_of(file);
    if (first > all || count > all - first) {
        refuse(x, ILLEGAL, NO_SUCH_BLOCK);
        return;
    }
    if (size > x->declared) {
        refuse(x, ILLEGAL, NO_SUCH_FIELD);
        return;
    }
    off_t at = (off_t)(first * BLOCK);
    ssize_t done = to_drive ? pwrite(file, x->data, size, at) : pread(file, x->data, size, at);
    if (done != (ssize_t)size)
        refuse(x, MEDIUM, to_drive ? WRITE_ERROR : READ_ERROR);
    else
        x->moved = size;
}

static void read_capacity(int file, exchange *x)
{
    uint8_t page[32] = {0};
    uint64_t last = blocks_of(file) - 1;
    if (x->command[0] == 0x25) {
        put_number(page, 4, last < 0xFFFFFFFF ? last : 0xFFFFFFFF);
        put_number(page + 4, 4, BLOCK);
        show(x, page, 8, 8);
    } else if ((x->command[1] & 0x1F) == 0x10) {
        put_number(page, 8, last);
        put_number(page + 8, 4, BLOCK);
        show(x, page, sizeof page, number_at(x->command + 10, 4));
    } else {
        refuse(x, ILLEGAL, NO_SUCH_FIELD);
    }
}

/* One mode page, that of the cache: it is on, so that the kernel sends SYNCHRONIZE CACHE. */
static void mode_sense(exchange *x)
{
    static const uint8_t cache[20] = {0x08, 0x12, 0x04};
    uint8_t page[8 + sizeof cache] = {0};
    int ten = x->command[0] == 0x5A, code = x->command[2] & 0x3F;
    size_t head = ten ? 8 : 4, rest = code == 0x08 || code == 0x3F ? sizeof cache : 0;
    if (!rest) {
        refuse(x, ILLEGAL, NO_SUCH_FIELD);
        return;
    }
    put_number(page, ten ? 2 : 1, head + rest - (ten ? 2 : 1));
    memcpy(page + head, cache, rest);
    show(x, page, head + rest, ten ? number_at(x->command + 7, 2) : x->command[4]);
}

static void report_luns(exchange *x)
{
    static const uint8_t one[16] = {[3] = 8};
    show(x, one, sizeof one, number_at(x->command + 6, 4));
}

static void request_sense(exchange *x)
{
    static const uint8_t nothing[8] = {0x72};
    show(x, nothing, sizeof nothing, x->command[4]);
}

/* READ and WRITE of 6, 10 and 16 bytes; in the first no length is 256 blocks. */
static int moves(int file, exchange *x)
{
    const uint8_t *c = x->command;
    if (c[0] == 0x08 || c[0] == 0x0A)
        move(file, x, number_at(c + 1, 3) & 0x1FFFFF, c[4] ? c[4] : 256);
    else if (c[0] == 0x28 || c[0] == 0x2A)
        move(file, x, number_at(c + 2, 4), number_at(c + 7, 2));
    else if (c[0] == 0x88 || c[0] == 0x8A)
        move(file, x, number_at(c + 2, 8), number_at(c + 10, 4));
    else
        return 0;
    return 1;
}

static void carry_out(int file, exchange *x)
{
    switch (x->command[0]) {
    case 0x00: /* TEST UNIT READY */
    case 0x1B: /* START STOP UNIT */
        return;
    case 0x03:
        request_sense(x);
        return;
    case 0x1A:
    case 0x5A:
        mode_sense(x);
        return;
    case 0x25:
    case 0x9E:
        read_capacity(file, x);
        return;
    case 0x35: /* SYNCHRONIZE CACHE (10), (16) */
    case 0x91:
        if (fdatasync(file) < 0)
            refuse(x, MEDIUM, WRITE_ERROR);
        return;
    case 0xA0:
        report_luns(x);
        return;
    default:
        refuse(x, ILLEGAL, NO_SUCH_COMMAND);
    }
}

size_t command_size(uint8_t first)
{
    static const size_t sizes[8] = {6, 10, 10, 16, 16, 12, 16, 16};
    return first == PASS_THROUGH_32 ? 32 : sizes[first >> 5];
}

void blocks_carry(int file, exchange *x)
{
    x->status = PIONGSEUT_GOOD;
    if (x->command_size < command_size(x->command[0]))
        refuse(x, ILLEGAL, NO_SUCH_FIELD);
    else if (!moves(file, x))
        carry_out(file, x);
}
