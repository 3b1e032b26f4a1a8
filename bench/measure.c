/*
 * Makes each measured call to the board and to the same work in plain Rust (bench/plain.rs, where there is a compiler for it),
 * and beside them a bare copy of as many bytes as the call delivers, with their sum where the call sums them too. bench/run
 * counts and prints what comes of it.
 *   measure count FILE   makes each call once, for a tool that counts instructions; a line a call: its name, target and stack
 *   measure time FILE    a line a call: nanoseconds of the board, of plain Rust and of the copy
 * FILE holds an IDENTIFY block. Where board and plain Rust differ, a line says so and the exit status is 1.
 */
#include "piongseut.h"
#include "stack.h"

#include <stdio.h>
#include <stdlib.h>
#include <string.h>
#include <time.h>

enum { BATCHES = 20, BATCH = 10000, LONG_BATCH = 10 };

typedef struct {
    __typeof__(piongseut_record_empty) *empty;
    __typeof__(piongseut_inquiry) *inquiry;
    __typeof__(piongseut_submit) *submit;
    __typeof__(piongseut_complete) *complete;
    __typeof__(piongseut_write_page83) *write;
    __typeof__(piongseut_read_page83) *read;
    __typeof__(piongseut_roll) *roll;
    __typeof__(piongseut_intake_take) *take;
    __typeof__(piongseut_intake_gather) *gather;
    __typeof__(piongseut_census_feed) *feed;
    __typeof__(piongseut_build) *build;
    __typeof__(piongseut_check) *check;
} maker;

#define MAKER(by)                                                                                                  \
    {by##_record_empty, by##_inquiry, by##_submit, by##_complete, by##_write_page83, by##_read_page83, by##_roll,  \
     by##_intake_take, by##_intake_gather, by##_census_feed, by##_build, by##_check}
static const maker board = MAKER(piongseut);
#ifdef PLAIN
__typeof__(piongseut_record_empty) plain_record_empty;
__typeof__(piongseut_inquiry) plain_inquiry;
__typeof__(piongseut_submit) plain_submit;
__typeof__(piongseut_complete) plain_complete;
__typeof__(piongseut_write_page83) plain_write_page83;
__typeof__(piongseut_read_page83) plain_read_page83;
__typeof__(piongseut_roll) plain_roll;
__typeof__(piongseut_intake_take) plain_intake_take;
__typeof__(piongseut_intake_gather) plain_intake_gather;
__typeof__(piongseut_census_feed) plain_census_feed;
__typeof__(piongseut_build) plain_build;
__typeof__(piongseut_check) plain_check;
static const maker plain_maker = MAKER(plain), *const plain = &plain_maker;
#else
static const maker *const plain = NULL;
#endif

/* All that a call leaves, in one piece of memory, so that two calls are equal if memcmp says so. */
typedef struct {
    uint64_t said[4];
    piongseut_order order;
    piongseut_record record;
    piongseut_census census;
    uint8_t name[PIONGSEUT_NAME_SIZE];
    piongseut_ports ports;
    uint8_t address[PIONGSEUT_ADDRESS_SIZE];
    piongseut_build_answer built;
    uint16_t rows[PIONGSEUT_ROLL_BLOCKS];
    _Alignas(64) uint8_t room[PIONGSEUT_ROLL_BLOCKS * PIONGSEUT_BLOCK_SIZE];
    _Alignas(64) uint8_t sense[32];
} left;

#define SAID(to, ...) memcpy((to)->said, (uint64_t[4]){__VA_ARGS__}, sizeof (to)->said)

typedef struct measured measured;
typedef void make(const measured *, const maker *, left *);

struct measured {
    const char *name;
    unsigned target;     /* instructions, 0 where none is set */
    size_t bytes;        /* what the call delivers: reply, sense bytes, order, record, name and ports, rows, run, blocks, census, command;
                            of a check, which delivers nothing, what it reads */
    make *make;
    unsigned how;
    uint8_t command[32];
};

/*
 * How a call is made: for a drive without a name, for a packet drive, with an order pending, with one that asks for registers,
 * with an intake that has a part of its block, with blocks that carry a checksum, for sense data in the fixed form and not among
 * descriptors, with a reset over the order, with both ports in page 83h, by the later edition, for a drive with logical sectors of 4096
 * bytes, with a capture whose page 83h has a port that there is not. What is built is an order with EXTEND, one without, or with quiet
 * seconds that no command gives.
 */
enum {
    TEXTS = 1, PACKET = 2, HELD = 4, CK_COND = 8, PART = 16, SUMMED = 32, FIXED = 64, OVER = 128, PORTS = 256, LATER = 512,
    SECTORS = 1024, EXTEND = 2048, NO_ORDER = 4096, DIFFERS = 8192
};

/* Five fields, each behind a tag and two length bytes. */
enum { CAPTURE_SIZE = 5 * 3 + PIONGSEUT_PAGE00_SIZE + PIONGSEUT_STANDARD_SIZE + PIONGSEUT_PAGE80_SIZE + PIONGSEUT_PAGE83_WWN_SIZE + 20 +
                      PIONGSEUT_PAGE89_SIZE };

static _Alignas(64) uint8_t block[PIONGSEUT_BLOCK_SIZE], blocks[PIONGSEUT_ROLL_BLOCKS * PIONGSEUT_BLOCK_SIZE];
static _Alignas(64) uint8_t page[PIONGSEUT_PAGE83_MOST_SIZE];
static uint16_t haves[PIONGSEUT_ROLL_BLOCKS];
static uint8_t signature[PIONGSEUT_SIGNATURE_SIZE], texts[PIONGSEUT_TEXTS_SIZE], registers[PIONGSEUT_REGISTERS_SIZE];
static uint8_t reply[7] = {5, 0, 0, 3, 0, 0x80, 0x83};
static uint8_t address[PIONGSEUT_ADDRESS_SIZE] = {0x50, 0x01, 0x43, 0x80, 0x12, 0x34, 0x56, 0x71};
static size_t page_size; /* of the page that was written last; it is the one to be read */
static _Alignas(64) uint8_t capture[CAPTURE_SIZE];

/* What was shown of the drive with a name, of page 83h with both ports: the fields of captures in their order. */
static struct {
    uint8_t tag;
    size_t size;
    uint8_t bytes[PIONGSEUT_PAGE89_SIZE];
} shown[5] = {{0x00, 0, {0}}, {0x01, 0, {0}}, {0x80, 0, {0}}, {0x83, 0, {0}}, {0x89, 0, {0}}};

/* ---- The calls ---- */

static uint8_t form_of(const measured *one)
{
    return one->how & FIXED ? PIONGSEUT_SENSE_FIXED : PIONGSEUT_SENSE_DESCRIPTOR;
}

static piongseut_ports ports_of(const measured *one)
{
    const piongseut_ports both = {PIONGSEUT_PORT_RELATIVE | PIONGSEUT_PORT_SAS, 2}, none = {PIONGSEUT_PORT_NONE, 0};
    return one->how & PORTS ? both : none;
}

static void make_empty(const measured *one, const maker *by, left *to)
{
    (void)one;
    STACK_CALL(to->record = by->empty());
}

static void make_inquiry(const measured *one, const maker *by, left *to)
{
    piongseut_inquiry_answer answer;
    STACK_CALL(answer = by->inquiry(one->command, 6, block, sizeof block, signature, sizeof signature, texts, sizeof texts, reply,
                                    sizeof reply, ports_of(one), address, sizeof address, form_of(one), to->room, sizeof to->room,
                                    to->sense, sizeof to->sense));
    SAID(to, answer.number, answer.status, answer.shown, answer.count);
}

/* The first edition is lent no block. */
static void make_submit(const measured *one, const maker *by, left *to)
{
    const uint8_t edition = one->how & LATER ? PIONGSEUT_EDITION_LATER : PIONGSEUT_EDITION_FIRST;
    const size_t size = one->command[0] == 0x7F ? 32 : 16, block_size = one->how & LATER ? sizeof block : 0;
    const uint32_t declared = one->how & SECTORS ? 4096 : 512;
    piongseut_submit_answer answer;
    STACK_CALL(answer = by->submit(&to->record, one->command, size, registers, sizeof registers, block, block_size, declared, edition,
                                   form_of(one), to->sense, sizeof to->sense));
    SAID(to, answer.number, answer.status);
    to->order = answer.order;
}

static void make_complete(const measured *one, const maker *by, left *to)
{
    piongseut_complete_answer answer;
    STACK_CALL(answer = by->complete(&to->record, registers, sizeof registers, form_of(one), to->sense, sizeof to->sense));
    SAID(to, answer.number, answer.status, answer.lost, answer.lost_protocol);
}

static void make_write(const measured *one, const maker *by, left *to)
{
    piongseut_write_page83_answer answer;
    STACK_CALL(answer = by->write(block, sizeof block, ports_of(one), address, sizeof address, to->room, sizeof to->room));
    SAID(to, answer.number, answer.count);
}

static void make_read(const measured *one, const maker *by, left *to)
{
    piongseut_read_page83_answer answer;
    (void)one;
    STACK_CALL(answer = by->read(page, page_size));
    SAID(to, answer.number, answer.form);
    memcpy(to->name, answer.name, sizeof to->name);
    to->ports = answer.ports;
    memcpy(to->address, answer.address, sizeof to->address);
}

static void make_roll(const measured *one, const maker *by, left *to)
{
    piongseut_roll_answer answer;
    (void)one;
    STACK_CALL(answer = by->roll(blocks, sizeof blocks, to->rows, PIONGSEUT_ROLL_BLOCKS));
    SAID(to, answer.number, answer.blocks, answer.drives);
}

/* The run is of as many bytes as the call delivers. The store is at the room's start. */
static void make_take(const measured *one, const maker *by, left *to)
{
    const piongseut_intake intake = {one->how & PART ? 256 : 0, 0};
    piongseut_intake_take_answer answer;
    STACK_CALL(answer = by->take(intake, to->room, PIONGSEUT_BLOCK_SIZE, block, one->bytes));
    SAID(to, (uint64_t)answer.next.have << 16 | answer.next.sum, answer.used, answer.number, answer.complete);
}

static void make_gather(const measured *one, const maker *by, left *to)
{
    piongseut_intake_gather_answer answer;
    (void)one;
    STACK_CALL(answer = by->gather(haves, PIONGSEUT_ROLL_BLOCKS, blocks, sizeof blocks, to->room, sizeof to->room));
    SAID(to, answer.number, answer.count);
}

/* To a census that has the block a thousand times already. */
static void make_feed(const measured *one, const maker *by, left *to)
{
    const piongseut_census census = {1000, 1000, 0, {0, 0, 0, 0, 0, 1000}, {0, 0, 0, 0, 0, 0, 0, 1000}};
    piongseut_census_answer answer;
    (void)one;
    STACK_CALL(answer = by->feed(census, block, sizeof block));
    SAID(to, answer.number);
    to->census = answer.next;
}

/* A read of two sectors, whose length the count tells in blocks. */
static void make_build(const measured *one, const maker *by, left *to)
{
    const piongseut_order order = {.length = 1024, .count = 2, .lba_low = 0x12, .lba_mid = 0x34, .lba_high = 0x56,
                                   .quiet_seconds = one->how & NO_ORDER ? 3 : 0, .sectors_per_block = 1, .device = 0x40,
                                   .command = one->how & EXTEND ? 0x25 : 0xC8, .protocol = PIONGSEUT_PROTOCOL_DMA,
                                   .extend = one->how & EXTEND ? 1 : 0, .direction = PIONGSEUT_DIRECTION_FROM_DRIVE};
    STACK_CALL(to->built = by->build(order));
}

static void make_check(const measured *one, const maker *by, left *to)
{
    piongseut_check_answer answer;
    STACK_CALL(answer = by->check(capture, one->bytes));
    SAID(to, answer.number, answer.accepted, answer.tag, answer.place);
}

__attribute__((noinline)) void bare_copy(uint8_t *to, const uint8_t *from, size_t count)
{
    memcpy(to, from, count);
}

/* At O3, which sums 16 bytes at a time: at O2 gcc takes them one by one, and that is far from the least. */
__attribute__((noinline, optimize("O3"))) uint8_t bare_copy_and_sum(uint8_t *to, const uint8_t *from, size_t count)
{
    uint8_t sum = 0;
    memcpy(to, from, count);
    for (size_t i = 0; i < count; i++)
        sum = (uint8_t)(sum + from[i]);
    return sum;
}

__attribute__((noinline, noclone, optimize("O3"))) uint8_t bare_sum(const uint8_t *from, size_t count)
{
    uint8_t sum = 0;
    for (size_t i = 0; i < count; i++)
        sum = (uint8_t)(sum + from[i]);
    return sum;
}

/*
 * The least that delivers the same number of bytes, whoever makes them; a run into an intake is summed too. Beside a call that asks a
 * checksum stands the sum alone.
 */
static void make_copy(const measured *one, const maker *by, left *to)
{
    (void)by;
    if (one->how & SUMMED) STACK_CALL(to->said[0] = bare_sum(block, sizeof block));
    else if (one->make == make_take) STACK_CALL(to->said[0] = bare_copy_and_sum(to->room, blocks, one->bytes));
    else STACK_CALL(bare_copy(to->room, blocks, one->bytes));
}

enum { ORDER = sizeof(piongseut_order), RECORD = sizeof(piongseut_record), BUILT = sizeof(piongseut_build_answer) };

static const measured calls[] = {
    {"inquiry, standard data", 140, 36, make_inquiry, 0, {0x12, 0, 0x00, 2, 0x3C}},
    {"inquiry, page 00h", 95, 8, make_inquiry, 0, {0x12, 1, 0x00, 2, 0x3C}},
    {"inquiry, page 80h", 84, 24, make_inquiry, 0, {0x12, 1, 0x80, 2, 0x3C}},
    {"inquiry, page 83h, name", 120, 16, make_inquiry, 0, {0x12, 1, 0x83, 2, 0x3C}},
    {"inquiry, page 83h, texts", 0, 76, make_inquiry, TEXTS, {0x12, 1, 0x83, 2, 0x3C}},
    {"inquiry, page 83h, A5h", 0, 16, make_inquiry, SUMMED, {0x12, 1, 0x83, 2, 0x3C}},
    {"inquiry, 83h name ports", 0, 36, make_inquiry, PORTS, {0x12, 1, 0x83, 2, 0x3C}},
    {"inquiry, 83h texts ports", 0, 96, make_inquiry, TEXTS | PORTS, {0x12, 1, 0x83, 2, 0x3C}},
    {"inquiry, page 89h", 250, 572, make_inquiry, 0, {0x12, 1, 0x89, 2, 0x3C}},
    {"inquiry, refusal, sense", 100, 8, make_inquiry, 0, {0x12, 1, 0xB0, 2, 0x3C}},
    {"inquiry, refusal, fixed", 0, 18, make_inquiry, FIXED, {0x12, 1, 0xB0, 2, 0x3C}},
    {"packet drive, page 00h", 0, 8, make_inquiry, PACKET, {0x12, 1, 0x00, 2, 0x3C}},
    {"packet drive, page 89h", 0, 572, make_inquiry, PACKET, {0x12, 1, 0x89, 2, 0x3C}},
    {"packet drive, own reply", 0, 0, make_inquiry, PACKET, {0x12, 1, 0x83, 2, 0x3C}},
    {"empty", 0, RECORD, make_empty, 0, {0}},
    {"submit, IDENTIFY DEVICE", 130, ORDER + RECORD, make_submit, 0, {0x85, 0x08, 0x2E, 0, 0, 0, 1, 0, 0, 0, 0, 0, 0, 0, 0xEC, 0}},
    {"submit, later edition", 0, ORDER + RECORD, make_submit, LATER, {0x85, 0x08, 0x2E, 0, 0, 0, 1, 0, 0, 0, 0, 0, 0, 0, 0xEC, 0}},
    {"submit, 32-byte form", 0, ORDER + RECORD, make_submit, LATER,
     {0x7F, 0, 0, 0, 0, 0, 0, 0x18, 0x1F, 0xF0, 0x08, 0x2E, [23] = 1, [25] = 0xEC, [28] = 0x12, 0x34, 0x56, 0x78}},
    {"submit, a sector, T_TYPE", 0, ORDER + RECORD, make_submit, LATER | SECTORS,
     {0x85, 0x08, 0x3E, 0, 0, 0, 1, 0, 0, 0, 0, 0, 0, 0, 0x20, 0}},
    {"submit, a sector, A5h", 0, ORDER + RECORD, make_submit, LATER | SECTORS | SUMMED,
     {0x85, 0x08, 0x3E, 0, 0, 0, 1, 0, 0, 0, 0, 0, 0, 0, 0x20, 0}},
    {"submit, refusal 20", 0, 8, make_submit, LATER, {0x7F, 0, 0, 0, 0, 0, 0, 0x18, 0x1F, 0xF1}},
    {"submit, protocol 15", 0, 22, make_submit, HELD, {0x85, 0x1E}},
    {"submit, reset", 0, ORDER + RECORD, make_submit, 0, {0x85, 0x02}},
    {"submit, reset over order", 0, ORDER + RECORD, make_submit, HELD, {0x85, 0x02}},
    {"submit, BUSY", 0, 0, make_submit, HELD | OVER, {0x85, 0x02}},
    {"submit, refusal, sense", 0, 8, make_submit, 0, {0x85, 0x04}},
    {"submit, refusal, fixed", 0, 18, make_submit, FIXED, {0x85, 0x04}},
    {"complete, CK_COND", 110, RECORD + 22, make_complete, HELD | CK_COND, {0}},
    {"complete, CK_COND, fixed", 0, RECORD + 18, make_complete, HELD | CK_COND | FIXED, {0}},
    {"complete, GOOD", 0, RECORD, make_complete, HELD, {0}},
    {"complete, order lost", 0, RECORD, make_complete, HELD | CK_COND | OVER, {0}},
    {"write page 83h, name", 0, 16, make_write, 0, {0}},
    {"read page 83h, name", 0, 72, make_read, 0, {0}},
    {"write page 83h, texts", 0, 76, make_write, TEXTS, {0}},
    {"read page 83h, texts", 0, 72, make_read, 0, {0}},
    {"write 83h, name, ports", 0, 36, make_write, PORTS, {0}},
    {"read 83h, name, ports", 0, 72, make_read, 0, {0}},
    {"write 83h, texts, ports", 0, 96, make_write, TEXTS | PORTS, {0}},
    {"read 83h, texts, ports", 0, 72, make_read, 0, {0}},
    {"roll, 64 drives, names", 0, 128, make_roll, 0, {0}},
    {"roll, 64 drives, texts", 0, 128, make_roll, TEXTS, {0}},
    {"intake, block in one run", 0, 512, make_take, 0, {0}},
    {"intake, run of 8 bytes", 0, 8, make_take, PART, {0}},
    {"gather, 64 intakes", 0, sizeof blocks, make_gather, 0, {0}},
    {"census, one block", 0, sizeof(piongseut_census), make_feed, 0, {0}},
    {"census, one block, A5h", 0, sizeof(piongseut_census), make_feed, SUMMED, {0}},
    {"build, EXTEND", 0, BUILT, make_build, EXTEND, {0}},
    {"build, short form", 0, BUILT, make_build, 0, {0}},
    {"build, refusal 23", 0, BUILT, make_build, NO_ORDER, {0}},
    {"check, accepted", 0, CAPTURE_SIZE, make_check, 0, {0}},
    {"check, 83h differs", 0, CAPTURE_SIZE, make_check, DIFFERS, {0}},
};

/* ---- Before and after a call ---- */

static piongseut_record record_for(const measured *one)
{
    piongseut_record record = {0};
    record.state = one->how & HELD ? PIONGSEUT_STATE_ORDER : PIONGSEUT_STATE_NOTHING;
    record.order.protocol = one->how & HELD ? PIONGSEUT_PROTOCOL_PIO_DATA_IN : 0;
    record.order.ck_cond = one->how & CK_COND ? 1 : 0;
    if (one->how & OVER) {
        record.state = PIONGSEUT_STATE_RESET_OVER_ORDER;
        record.older = record.order;
        record.order = (piongseut_order){.protocol = PIONGSEUT_PROTOCOL_SRST, .sectors_per_block = 1};
    }
    return record;
}

/* The last word: A5h and the byte with which all 512 sum to 0, or zeros. */
static void end_block(uint8_t *one, int summed)
{
    one[510] = summed ? 0xA5 : 0;
    one[511] = 0;
    for (unsigned i = 0; summed && i < PIONGSEUT_BLOCK_SIZE - 1; i++)
        one[511] = (uint8_t)(one[511] - one[i]);
}

/* Words 106, 117 and 118: sectors of 2048 words, or none told of. */
static void put_sectors(int told)
{
    block[213] = told ? 0x50 : 0;
    memcpy(block + 234, told ? "\x00\x08\0\0" : "\0\0\0\0", 4);
}

/* Keeps the reply to an INQUIRY for the captures. */
static void keep(const measured *one, const left *by)
{
    const uint8_t tag = one->command[1] & 1 ? one->command[2] : 0x01;
    for (unsigned i = 0; one->make == make_inquiry && (one->how & ~(unsigned)PORTS) == 0 && i < 5; i++)
        if (shown[i].tag == tag) {
            shown[i].size = (size_t)by->said[3];
            memcpy(shown[i].bytes, by->room, shown[i].size);
        }
}

static void prepare_capture(int differs)
{
    uint8_t *to = capture;
    for (unsigned i = 0; i < 5; i++) {
        to[0] = shown[i].tag;
        to[1] = (uint8_t)(shown[i].size >> 8);
        to[2] = (uint8_t)shown[i].size;
        memcpy(to + 3, shown[i].bytes, shown[i].size);
        if (shown[i].tag == 0x83) to[3 + 23] = differs ? 3 : 2;
        to += 3 + shown[i].size;
    }
}

/* 64 different drives are the most that a roll compares: each has its number in the serial number, and in the name if any. */
static void prepare(const measured *one, left *to)
{
    static const uint8_t name[8] = {0x00, 0x50, 0x00, 0xC5, 0x34, 0x12, 0x78, 0x56}, none[8];
    block[174] = 0x00; /* word 87 says that there is a name */
    block[175] = 0x41;
    memcpy(block + 216, one->how & TEXTS ? none : name, 8);
    put_sectors(one->how & SECTORS);
    end_block(block, one->how & SUMMED);
    memcpy(signature + 5, one->how & PACKET ? "\x14\xEB" : "\0", 2);
    for (unsigned i = 0; i < PIONGSEUT_ROLL_BLOCKS; i++) {
        uint8_t *its = blocks + PIONGSEUT_BLOCK_SIZE * i;
        memcpy(its, block, sizeof block);
        its[21] = (uint8_t)(i + 1);
        its[222] = one->how & TEXTS ? 0 : (uint8_t)(i + 1);
        end_block(its, one->how & SUMMED);
        haves[i] = PIONGSEUT_BLOCK_SIZE;
    }
    if (one->make == make_check) prepare_capture(one->how & DIFFERS);
    memset(to, 0, sizeof *to);
    to->record = record_for(one);
}

static void check(const measured *one, const left *by_board, const left *by_plain)
{
    if (memcmp(by_board, by_plain, sizeof *by_board) == 0) return;
    fprintf(stderr, "measure: %s: what the board leaves is not what bench/plain.rs leaves\n", one->name);
    exit(1);
}

/* ---- Counting and timing ---- */

static left by_board, by_plain;

/* Makes every call once, and none besides: the counting tool takes them as they come, and the copy for the last of a group. */
static void count(const measured *one)
{
    prepare(one, &by_board);
    stack_paint();
    one->make(one, &board, &by_board);
    printf("%s|%u|%zu\n", one->name, one->target, stack_depth());
    prepare(one, &by_plain);
    if (plain != NULL) {
        one->make(one, plain, &by_plain);
        check(one, &by_board, &by_plain);
    }
    make_copy(one, NULL, &by_plain);
}

static double now(void)
{
    struct timespec time;
    clock_gettime(CLOCK_MONOTONIC, &time);
    return 1e9 * (double)time.tv_sec + (double)time.tv_nsec;
}

/* Nanoseconds a call. The record is put back before each, or only the first order would be taken. */
static double batch(const measured *one, make *make, const maker *by, left *to)
{
    const piongseut_record record = record_for(one);
    const int size = one->make == make_roll || one->make == make_gather ? LONG_BATCH : BATCH;
    double start = now();
    for (int i = 0; i < size; i++) {
        to->record = record;
        make(one, by, to);
    }
    return (now() - start) / size;
}

static double lesser(double a, double b)
{
    return a < b ? a : b;
}

/* The best of several batches, taken in turns: what disturbs the machine for a while is not in all batches of one. */
static void take_time(const measured *one)
{
    double by_the_board = 1e99, in_rust = 1e99, copied = 1e99;
    prepare(one, &by_board);
    prepare(one, &by_plain);
    for (int i = 0; i < BATCHES; i++) {
        by_the_board = lesser(by_the_board, batch(one, one->make, &board, &by_board));
        if (plain != NULL) {
            in_rust = lesser(in_rust, batch(one, one->make, plain, &by_plain));
            if (i == 0) check(one, &by_board, &by_plain);
        }
        copied = lesser(copied, batch(one, make_copy, NULL, &by_plain));
    }
    if (plain != NULL) printf("%.1f|%.1f|%.1f\n", by_the_board, in_rust, copied);
    else printf("%.1f|-|%.1f\n", by_the_board, copied);
}

int main(int words, char **word)
{
    FILE *file = words == 3 ? fopen(word[2], "rb") : NULL;
    if (file == NULL || fread(block, 1, sizeof block, file) != sizeof block) {
        fprintf(stderr, "measure: wants count or time, and the file of an IDENTIFY block\n");
        return 1;
    }
    fclose(file);
    memset(texts, ' ', sizeof texts);
    registers[PIONGSEUT_REGISTER_STATUS] = 0x50;
    for (size_t i = 0; i < sizeof calls / sizeof *calls; i++) {
        (strcmp(word[1], "count") == 0 ? count : take_time)(&calls[i]);
        keep(&calls[i], &by_board);
        if (calls[i].make != make_write) continue;
        memcpy(page, by_board.room, sizeof page);
        page_size = calls[i].bytes;
    }
    return 0;
}
