/*
 * The calls of piongseut_named.h beside the plain ones, over drawn pieces: each gives the same answer and leaves the same bytes. Some
 * pieces are left out, which the plain call is lent empty; some have a size and no pointer, and some records are not named, which is
 * refused with 1. A null pointer that reaches the library ends the program: it is compiled with -fsanitize=nonnull-attribute.
 * The same file is C99 and C++98.
 */
#define PIONGSEUT_WITHOUT_NAMED
#include "piongseut.h"
#undef PIONGSEUT_WITHOUT_NAMED

#ifdef __cplusplus
extern "C" {
#endif
#define NO_NULL_TO(function) extern __typeof__(function) function __attribute__((nonnull))
NO_NULL_TO(piongseut_inquiry);
NO_NULL_TO(piongseut_submit);
NO_NULL_TO(piongseut_complete);
NO_NULL_TO(piongseut_write_page83);
NO_NULL_TO(piongseut_intake_gather);
#ifdef __cplusplus
}
#endif
#include "piongseut_named.h"

#include <stdio.h>
#include <string.h>

enum { ROUNDS = 30000, FILL = 0xA5, MOST = 2 * PIONGSEUT_BLOCK_SIZE + 2, NUMBERS = 24 };

/* How a piece is named: as it is, not at all, or by a size alone. */
enum { LENT, LEFT_OUT, NOWHERE, WAYS };

/* A drawn piece, as it is named. */
typedef struct {
    const uint8_t *at;
    size_t size;
    int way;
    uint8_t bytes[MOST];
} piece;

/* Room to write, once for each of the two calls. */
typedef struct {
    uint8_t *at;
    size_t size;
    int way;
    uint8_t named[MOST], plain[MOST];
} writable;

/* What the plain call is lent where a piece has no pointer. */
static uint8_t empty;
static unsigned long seed = 31;
static unsigned numbers[NUMBERS], ways[8][WAYS], way_count;
static int passed, failed, nowhere;

/* xorshift64: the same run on every machine. */
static unsigned roll(unsigned below)
{
    seed ^= seed << 13;
    seed ^= seed >> 7;
    seed ^= seed << 17;
    return (unsigned)((seed >> 32) % below);
}

/* A way, which is counted for this call's next piece, and a size: mostly the wanted one. */
static int draw_way(size_t *size)
{
    const unsigned drawn = roll(40);
    const int way = drawn < 3 ? LEFT_OUT : drawn < 4 ? NOWHERE : LENT;
    if (drawn == 4) *size = roll((unsigned)*size + 2);
    if (drawn == 5) *size = 0;
    if (way == LEFT_OUT) *size = 0;
    if (way == NOWHERE) *size += *size == 0;
    nowhere |= way == NOWHERE;
    ways[way_count++][way]++;
    return way;
}

static void draw(piece *one, size_t size)
{
    for (size_t at = 0; at < MOST; at++) one->bytes[at] = (uint8_t)roll(256);
    one->way = draw_way(&size);
    one->at = one->way == LENT ? one->bytes : NULL;
    one->size = size;
}

static void draw_room(writable *one, size_t size)
{
    memset(one->named, FILL, MOST);
    memset(one->plain, FILL, MOST);
    one->way = draw_way(&size);
    one->at = one->way == LENT ? one->named : NULL;
    one->size = size;
}

static const uint8_t *plainly(const piece *one)
{
    return one->at ? one->at : &empty;
}

static uint8_t *plain_room(writable *one)
{
    return one->at ? one->plain : &empty;
}

static int untouched(const writable *one)
{
    for (size_t at = 0; at < MOST; at++)
        if (one->named[at] != FILL) return 0;
    return 1;
}

static int same_room(const writable *one)
{
    return memcmp(one->named, one->plain, MOST) == 0;
}

/* Half of all blocks have names, and hardly any is damaged. */
static void draw_block(piece *block)
{
    draw(block, roll(8) ? PIONGSEUT_BLOCK_SIZE : 0);
    block->bytes[510] = (uint8_t)(roll(20) ? 0 : 0xA5);
    block->bytes[175] = (uint8_t)(roll(2) ? 0x41 : 0);
    block->bytes[213] = (uint8_t)(roll(2) ? 0x50 : 0);
}

static piongseut_ports draw_ports(void)
{
    piongseut_ports ports;
    ports.chosen = (uint16_t)roll(5);
    ports.relative = (uint16_t)roll(4);
    return ports;
}

/* Begins a round. */
static void begin(void)
{
    nowhere = 0;
    way_count = 0;
}

static void draw_command(piece *command)
{
    static const uint8_t pages[5] = {0x00, 0x80, 0x83, 0x89, 0xB0};
    draw(command, 6);
    command->bytes[0] = (uint8_t)(roll(30) ? 0x12 : 0x13);
    command->bytes[1] = (uint8_t)(roll(4) ? 1 : 0);
    command->bytes[2] = command->bytes[1] ? pages[roll(5)] : 0;
    command->bytes[3] = (uint8_t)roll(4);
    command->bytes[5] = 0;
}

/* A signature, and the drive's own reply: of a packet drive a page 00h, or none. */
static void draw_packet(piece *signature, piece *reply)
{
    draw(signature, PIONGSEUT_SIGNATURE_SIZE);
    draw(reply, 7);
    if (roll(3)) return;
    signature->bytes[5] = 0x14;
    signature->bytes[6] = 0xEB;
    if (roll(4)) memcpy(reply->bytes, "\x05\x00\x00\x03\x00\x80\x90", 7);
}

static int inquiry(void)
{
    static piece command, block, signature, texts, reply, address;
    static writable room, sense;
    begin();
    draw_command(&command);
    draw_block(&block);
    draw_packet(&signature, &reply);
    draw(&texts, PIONGSEUT_TEXTS_SIZE);
    draw(&address, PIONGSEUT_ADDRESS_SIZE);
    draw_room(&room, roll(4) ? PIONGSEUT_PAGE89_SIZE : roll(100));
    draw_room(&sense, PIONGSEUT_SENSE_SIZE);

    piongseut_inquiry_call call;
    call.command = command.at, call.command_size = command.size;
    call.block = block.at, call.block_size = block.size;
    call.signature = signature.at, call.signature_size = signature.size;
    call.texts = texts.at, call.texts_size = texts.size;
    call.reply = reply.at, call.reply_size = reply.size;
    call.ports = draw_ports();
    call.address = address.at, call.address_size = address.size;
    call.form = (uint8_t)roll(4);
    call.room = room.at, call.room_size = room.size;
    call.sense = sense.at, call.sense_size = sense.size;
    const piongseut_inquiry_answer got = piongseut_inquiry_named(call);
    numbers[got.number]++;
    if (nowhere)
        return got.number == PIONGSEUT_REFUSED_SIZE && got.status == PIONGSEUT_NONE && got.shown == PIONGSEUT_SHOWN_ROOM &&
               got.count == 0 && untouched(&room) && untouched(&sense);
    const piongseut_inquiry_answer wanted =
        piongseut_inquiry(plainly(&command), command.size, plainly(&block), block.size, plainly(&signature), signature.size,
                          plainly(&texts), texts.size, plainly(&reply), reply.size, call.ports, plainly(&address), address.size,
                          call.form, plain_room(&room), room.size, plain_room(&sense), sense.size);
    return got.number == wanted.number && got.status == wanted.status && got.shown == wanted.shown && got.count == wanted.count &&
           same_room(&room) && same_room(&sense);
}

/* A record: empty, one order, a reset over an order, or any bytes. Back: whether it is named; where not, it is nowhere. */
static int draw_record(piongseut_record *record)
{
    size_t size = sizeof *record;
    const int way = draw_way(&size);
    for (size_t at = 0; at < sizeof *record; at++) ((uint8_t *)record)[at] = (uint8_t)roll(256);
    if (roll(4)) record->state = roll(4) / 2;
    nowhere |= way != LENT;
    return way == LENT;
}

/* ATA PASS-THROUGH in one of its forms, of data or none, with counts that fit what is declared or do not. */
static void draw_order(piece *command)
{
    static const uint8_t opcodes[3] = {0xA1, 0x85, 0x7F}, protocols[6] = {1, 3, 4, 5, 15, 7};
    const unsigned form = roll(3), flags = form == 2 ? 10 : 1, protocol = protocols[roll(6)];
    draw(command, form == 0 ? 12 : form == 1 ? 16 : 32);
    command->bytes[0] = opcodes[form];
    command->bytes[flags] = (uint8_t)(protocol << 1);
    command->bytes[flags + 1] = (uint8_t)(protocol == 4 ? 0x0E : protocol == 5 ? 0x16 : protocol == 3 ? 0 : roll(256));
    if (form == 2) memcpy(command->bytes + 7, "\x18\x1F\xF0", 3);
    if (roll(20)) command->bytes[form == 0 ? 11 : form == 1 ? 15 : 1] = 0;
}

static int submit(void)
{
    static piece command, registers, block;
    static writable sense;
    piongseut_record record, before;
    begin();
    const int named = draw_record(&record);
    before = record;
    draw_order(&command);
    draw(&registers, PIONGSEUT_REGISTERS_SIZE);
    draw_block(&block);
    draw_room(&sense, PIONGSEUT_SENSE_SIZE);

    piongseut_submit_call call;
    call.record = named ? &record : NULL;
    call.command = command.at, call.command_size = command.size;
    call.registers = registers.at, call.registers_size = registers.size;
    call.block = block.at, call.block_size = block.size;
    call.declared = roll(2) ? 0xFFFFFFFF : roll(1 << 20);
    call.edition = (uint8_t)(roll(2) ? PIONGSEUT_EDITION_LATER : roll(4));
    call.form = (uint8_t)roll(4);
    call.sense = sense.at, call.sense_size = sense.size;
    const piongseut_submit_answer got = piongseut_submit_named(call);
    numbers[got.number]++;
    if (nowhere)
        return got.number == PIONGSEUT_REFUSED_SIZE && got.status == PIONGSEUT_NONE && untouched(&sense) &&
               memcmp(&record, &before, sizeof record) == 0;
    const piongseut_submit_answer wanted =
        piongseut_submit(&before, plainly(&command), command.size, plainly(&registers), registers.size, plainly(&block), block.size,
                         call.declared, call.edition, call.form, plain_room(&sense), sense.size);
    return got.number == wanted.number && got.status == wanted.status &&
           memcmp(&got.order, &wanted.order, sizeof got.order) == 0 && memcmp(&record, &before, sizeof record) == 0 &&
           same_room(&sense);
}

static int complete(void)
{
    static piece registers;
    static writable sense;
    piongseut_record record, before;
    begin();
    const int named = draw_record(&record);
    before = record;
    draw(&registers, PIONGSEUT_REGISTERS_SIZE);
    draw_room(&sense, PIONGSEUT_SENSE_SIZE);

    piongseut_complete_call call;
    call.record = named ? &record : NULL;
    call.registers = registers.at, call.registers_size = registers.size;
    call.form = (uint8_t)roll(4);
    call.sense = sense.at, call.sense_size = sense.size;
    const piongseut_complete_answer got = piongseut_complete_named(call);
    numbers[got.number]++;
    if (nowhere)
        return got.number == PIONGSEUT_REFUSED_SIZE && got.status == PIONGSEUT_NONE && untouched(&sense) &&
               memcmp(&record, &before, sizeof record) == 0;
    const piongseut_complete_answer wanted =
        piongseut_complete(&before, plainly(&registers), registers.size, call.form, plain_room(&sense), sense.size);
    return memcmp(&got, &wanted, sizeof got) == 0 && memcmp(&record, &before, sizeof record) == 0 && same_room(&sense);
}

static int write_page83(void)
{
    static piece block, address;
    static writable room;
    begin();
    draw_block(&block);
    draw(&address, PIONGSEUT_ADDRESS_SIZE);
    draw_room(&room, roll(4) ? PIONGSEUT_PAGE83_MOST_SIZE : roll(100));

    piongseut_write_page83_call call;
    call.block = block.at, call.block_size = block.size;
    call.ports = draw_ports();
    call.address = address.at, call.address_size = address.size;
    call.room = room.at, call.room_size = room.size;
    const piongseut_write_page83_answer got = piongseut_write_page83_named(call);
    numbers[got.number]++;
    if (nowhere) return got.number == PIONGSEUT_REFUSED_SIZE && got.count == 0 && untouched(&room);
    const piongseut_write_page83_answer wanted =
        piongseut_write_page83(plainly(&block), block.size, call.ports, plainly(&address), address.size, plain_room(&room), room.size);
    return got.number == wanted.number && got.count == wanted.count && same_room(&room);
}

static int intake_gather(void)
{
    static piece stores;
    static writable room;
    uint16_t haves[3];
    const uint16_t no_haves = 0;
    begin();
    const unsigned intakes = roll(3);
    for (unsigned at = 0; at < 3; at++) haves[at] = (uint16_t)(roll(2) ? PIONGSEUT_BLOCK_SIZE : roll(PIONGSEUT_BLOCK_SIZE + 2));
    size_t count = intakes;
    const int way = draw_way(&count);
    draw(&stores, (size_t)intakes * PIONGSEUT_BLOCK_SIZE);
    stores.bytes[510] = stores.bytes[PIONGSEUT_BLOCK_SIZE + 510] = (uint8_t)(roll(20) ? 0 : 0xA5);
    draw_room(&room, roll(4) ? 2 * PIONGSEUT_BLOCK_SIZE : roll(MOST));

    piongseut_intake_gather_call call;
    call.haves = way == LENT ? haves : NULL, call.intake_count = count;
    call.stores = stores.at, call.stores_size = stores.size;
    call.room = room.at, call.room_size = room.size;
    const piongseut_intake_gather_answer got = piongseut_intake_gather_named(call);
    numbers[got.number]++;
    if (nowhere) return got.number == PIONGSEUT_REFUSED_SIZE && got.count == 0 && untouched(&room);
    const piongseut_intake_gather_answer wanted =
        piongseut_intake_gather(way == LENT ? haves : &no_haves, count, plainly(&stores), stores.size, plain_room(&room), room.size);
    return got.number == wanted.number && got.count == wanted.count && same_room(&room);
}

/* Many rounds of a call: none differs; and each of these numbers, up to 0, and each way of each piece comes up often. */
static void all(const char *name, int (*round)(void), const uint8_t *often)
{
    unsigned differ = 0, rare = 0;
    memset(numbers, 0, sizeof numbers);
    memset(ways, 0, sizeof ways);
    for (unsigned at = 0; at < ROUNDS; at++) differ += !round();
    for (; *often; often++) rare += numbers[*often] < 100;
    for (unsigned at = 0; at < way_count; at++)
        for (int way = LENT; way < WAYS; way++) rare += ways[at][way] < 100;
    rare += numbers[PIONGSEUT_ACCEPTED] < ROUNDS / 8;
    printf("%s %s, %d rounds: %u differ from the plain call, %u are accepted, and %u kinds of them are rare\n",
           differ || rare ? "not ok" : "ok", name, ROUNDS, differ, numbers[PIONGSEUT_ACCEPTED], rare);
    if (differ || rare)
        failed++;
    else
        passed++;
}

int main(void)
{
    static const uint8_t of_inquiry[] = {PIONGSEUT_REFUSED_SIZE,     PIONGSEUT_REFUSED_SHORT, PIONGSEUT_REFUSED_OPCODE,
                                         PIONGSEUT_REFUSED_PAGE,     PIONGSEUT_REFUSED_ROOM,  PIONGSEUT_REFUSED_NO_BLOCK,
                                         PIONGSEUT_REFUSED_UNUSABLE, PIONGSEUT_REFUSED_PORT,  PIONGSEUT_REFUSED_DAMAGED, 0};
    static const uint8_t of_submit[] = {PIONGSEUT_REFUSED_SIZE,     PIONGSEUT_REFUSED_SHORT,   PIONGSEUT_REFUSED_OPCODE,
                                        PIONGSEUT_REFUSED_FIELD,    PIONGSEUT_REFUSED_PENDING, PIONGSEUT_REFUSED_ABOVE_DECLARED,
                                        PIONGSEUT_REFUSED_PROTOCOL, PIONGSEUT_REFUSED_DAMAGED, PIONGSEUT_REFUSED_NO_BLOCK, 0};
    static const uint8_t of_complete[] = {PIONGSEUT_REFUSED_SIZE, PIONGSEUT_REFUSED_NOTHING_PENDING, 0};
    static const uint8_t of_write_page83[] = {PIONGSEUT_REFUSED_SIZE, PIONGSEUT_REFUSED_ROOM, PIONGSEUT_REFUSED_DAMAGED,
                                              PIONGSEUT_REFUSED_PORT, 0};
    static const uint8_t of_gather[] = {PIONGSEUT_REFUSED_SIZE, PIONGSEUT_REFUSED_ROOM, PIONGSEUT_REFUSED_DAMAGED, 0};
    all("piongseut_inquiry_named", inquiry, of_inquiry);
    all("piongseut_submit_named", submit, of_submit);
    all("piongseut_complete_named", complete, of_complete);
    all("piongseut_write_page83_named", write_page83, of_write_page83);
    all("piongseut_intake_gather_named", intake_gather, of_gather);
    printf("named: %d passed, %d failed\n", passed, failed);
    return failed != 0;
}
