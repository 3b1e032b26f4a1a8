/*
 * Calls the board as it is told on standard input, and says all that came back: a call a line, an answer a line. A call is the entry
 * and what is lent, with spaces between; an answer is names and values by turns. Bytes are hexadecimal digits, - where there are none;
 * lists of numbers have commas. Each piece of memory is as large as was said, and no larger.
 */
#include "piongseut.h"

#include <stdio.h>
#include <stdlib.h>
#include <string.h>

static char line[1 << 20];

typedef struct {
    uint8_t *bytes;
    size_t size;
} piece;

typedef struct {
    uint16_t *numbers;
    size_t count;
} numbers;

static const char *next_word(void)
{
    const char *word = strtok(NULL, " \n");
    if (word == NULL) {
        fprintf(stderr, "ask: a call lacks something\n");
        exit(1);
    }
    return word;
}

static void *memory(size_t size)
{
    void *got = malloc(size == 0 ? 1 : size);
    if (got == NULL)
        exit(1);
    return got;
}

static piece next_piece(void)
{
    const char *word = next_word();
    piece lent = {NULL, strcmp(word, "-") == 0 ? 0 : strlen(word) / 2};
    lent.bytes = (uint8_t *)memory(lent.size);
    for (size_t at = 0; at < lent.size; at++) {
        const char digits[3] = {word[2 * at], word[2 * at + 1], 0};
        lent.bytes[at] = (uint8_t)strtoul(digits, NULL, 16);
    }
    return lent;
}

static unsigned long next_number(void)
{
    return strtoul(next_word(), NULL, 10);
}

static numbers next_numbers(void)
{
    const char *word = next_word();
    numbers lent = {(uint16_t *)memory(strlen(word) * sizeof(uint16_t)), 0};
    if (strcmp(word, "-") == 0)
        return lent;
    for (char *end; *word != 0; word = *end == ',' ? end + 1 : end)
        lent.numbers[lent.count++] = (uint16_t)strtoul(word, &end, 10);
    return lent;
}

static void say(const char *name, unsigned long value)
{
    printf("%s %lu ", name, value);
}

static void say_bytes(const char *name, const uint8_t *bytes, size_t size)
{
    printf("%s %s", name, size == 0 ? "-" : "");
    for (size_t at = 0; at < size; at++)
        printf("%02X", bytes[at]);
    printf(" ");
}

static void say_piece(const char *name, piece said)
{
    say_bytes(name, said.bytes, said.size);
    free(said.bytes);
}

static void say_order(const char *whose, piongseut_order order)
{
    printf("%s length:%lu;auxiliary:%lu;features:%u;count:%u;lba_low:%u;lba_mid:%u;lba_high:%u;", whose, (unsigned long)order.length,
           (unsigned long)order.auxiliary, order.features, order.count, order.lba_low, order.lba_mid, order.lba_high);
    printf("quiet_seconds:%u;sectors_per_block:%u;", order.quiet_seconds, order.sectors_per_block);
    printf("device:%u;command:%u;protocol:%u;ck_cond:%u;extend:%u;direction:%u ", order.device, order.command, order.protocol,
           order.ck_cond, order.extend, order.direction);
}

/* The record goes to and fro as the bytes that it is made of. */
static piongseut_record next_record(void)
{
    piongseut_record record;
    piece lent = next_piece();
    if (lent.size != sizeof record)
        exit(1);
    memcpy(&record, lent.bytes, sizeof record);
    free(lent.bytes);
    return record;
}

static void say_record(piongseut_record record)
{
    say("state", record.state);
    say_order("held", record.order);
    say_order("older", record.older);
    say_bytes("record", (const uint8_t *)&record, sizeof record);
}

/* The record and the intake that hold nothing. */
static void empty(void)
{
    piongseut_intake intake = piongseut_intake_empty();
    say_record(piongseut_record_empty());
    say("have", intake.have);
    say("sum", intake.sum);
}

static piongseut_ports next_ports(void)
{
    piongseut_ports ports;
    ports.chosen = (uint16_t)next_number();
    ports.relative = (uint16_t)next_number();
    return ports;
}

static void inquiry(void)
{
    piece command = next_piece(), block = next_piece(), signature = next_piece(), texts = next_piece(), reply = next_piece();
    piongseut_ports ports = next_ports();
    piece address = next_piece();
    unsigned long form = next_number();
    piece room = next_piece(), sense = next_piece();
    piongseut_inquiry_answer answer =
        piongseut_inquiry(command.bytes, command.size, block.bytes, block.size, signature.bytes, signature.size, texts.bytes,
                          texts.size, reply.bytes, reply.size, ports, address.bytes, address.size, (uint8_t)form, room.bytes,
                          room.size, sense.bytes, sense.size);
    say("number", answer.number);
    say("status", answer.status);
    say("shown", answer.shown);
    say("count", answer.count);
    say_piece("reply", reply);
    say_piece("room", room);
    say_piece("sense", sense);
    free(command.bytes);
    free(block.bytes);
    free(signature.bytes);
    free(texts.bytes);
    free(address.bytes);
}

static void submit(void)
{
    piongseut_record record = next_record();
    piece command = next_piece(), registers = next_piece(), block = next_piece();
    unsigned long declared = next_number(), edition = next_number(), form = next_number();
    piece sense = next_piece();
    piongseut_submit_answer answer =
        piongseut_submit(&record, command.bytes, command.size, registers.bytes, registers.size, block.bytes, block.size,
                         (uint32_t)declared, (uint8_t)edition, (uint8_t)form, sense.bytes, sense.size);
    say("number", answer.number);
    say("status", answer.status);
    say_order("order", answer.order);
    say_record(record);
    say_piece("sense", sense);
    free(command.bytes);
    free(registers.bytes);
    free(block.bytes);
}

static void complete(void)
{
    piongseut_record record = next_record();
    piece registers = next_piece();
    unsigned long form = next_number();
    piece sense = next_piece();
    piongseut_complete_answer answer =
        piongseut_complete(&record, registers.bytes, registers.size, (uint8_t)form, sense.bytes, sense.size);
    say("number", answer.number);
    say("status", answer.status);
    say("lost", answer.lost);
    say("lost_protocol", answer.lost_protocol);
    say_record(record);
    say_piece("sense", sense);
    free(registers.bytes);
}

static void write83(void)
{
    piece block = next_piece();
    piongseut_ports ports = next_ports();
    piece address = next_piece(), room = next_piece();
    piongseut_write_page83_answer answer =
        piongseut_write_page83(block.bytes, block.size, ports, address.bytes, address.size, room.bytes, room.size);
    say("number", answer.number);
    say("count", answer.count);
    say_piece("room", room);
    free(block.bytes);
    free(address.bytes);
}

static void read83(void)
{
    piece page = next_piece();
    piongseut_read_page83_answer answer = piongseut_read_page83(page.bytes, page.size);
    say("number", answer.number);
    say("form", answer.form);
    say_bytes("name", answer.name, sizeof answer.name);
    say("ports", answer.ports.chosen);
    say("port", answer.ports.relative);
    say_bytes("address", answer.address, sizeof answer.address);
    free(page.bytes);
}

static void say_numbers(const char *name, numbers given)
{
    printf("%s %s", name, given.count == 0 ? "-" : "");
    for (size_t at = 0; at < given.count; at++)
        printf("%s%u", at == 0 ? "" : ",", given.numbers[at]);
    free(given.numbers);
}

static void roll(void)
{
    piece blocks = next_piece();
    numbers rows = next_numbers();
    piongseut_roll_answer answer = piongseut_roll(blocks.bytes, blocks.size, rows.numbers, rows.count);
    say("number", answer.number);
    say("blocks", answer.blocks);
    say("drives", answer.drives);
    say_numbers("rows", rows);
    free(blocks.bytes);
}

static piongseut_intake next_intake(void)
{
    piongseut_intake intake;
    intake.have = (uint16_t)next_number();
    intake.sum = (uint16_t)next_number();
    return intake;
}

static void take(void)
{
    piongseut_intake intake = next_intake();
    piece store = next_piece(), run = next_piece();
    piongseut_intake_take_answer answer = piongseut_intake_take(intake, store.bytes, store.size, run.bytes, run.size);
    say("number", answer.number);
    say("used", answer.used);
    say("complete", answer.complete);
    say("have", answer.next.have);
    say("sum", answer.next.sum);
    say_piece("store", store);
    free(run.bytes);
}

static void block(void)
{
    piongseut_intake intake = next_intake();
    piongseut_intake_block_answer answer = piongseut_intake_block(intake, next_number());
    say("number", answer.number);
    say("count", answer.count);
}

static void gather(void)
{
    numbers haves = next_numbers();
    piece stores = next_piece(), room = next_piece();
    piongseut_intake_gather_answer answer =
        piongseut_intake_gather(haves.numbers, haves.count, stores.bytes, stores.size, room.bytes, room.size);
    say("number", answer.number);
    say("count", answer.count);
    say_piece("room", room);
    free(haves.numbers);
    free(stores.bytes);
}

/* The counts of a census in the order of its fields, as one list. */
static void feed(void)
{
    piongseut_census census = piongseut_census_empty();
    numbers counts = next_numbers();
    piece block = next_piece();
    if (counts.count * sizeof *counts.numbers != sizeof census)
        exit(1);
    memcpy(&census, counts.numbers, sizeof census);
    piongseut_census_answer answer = piongseut_census_feed(census, block.bytes, block.size);
    memcpy(counts.numbers, &answer.next, sizeof answer.next);
    say("number", answer.number);
    say_numbers("census", counts);
    free(block.bytes);
}

/* The fields of an order, in their order. */
static piongseut_order next_order(void)
{
    piongseut_order order;
    uint16_t *const wide[] = {&order.features, &order.count, &order.lba_low, &order.lba_mid, &order.lba_high, &order.quiet_seconds,
                              &order.sectors_per_block};
    uint8_t *const narrow[] = {&order.device, &order.command, &order.protocol, &order.ck_cond, &order.extend, &order.direction};
    order.length = (uint32_t)next_number();
    order.auxiliary = (uint32_t)next_number();
    for (size_t at = 0; at < sizeof wide / sizeof *wide; at++)
        *wide[at] = (uint16_t)next_number();
    for (size_t at = 0; at < sizeof narrow / sizeof *narrow; at++)
        *narrow[at] = (uint8_t)next_number();
    return order;
}

static void build(void)
{
    piongseut_build_answer answer = piongseut_build(next_order());
    say("number", answer.number);
    say("size", answer.size);
    say_bytes("command", answer.command, sizeof answer.command);
}

static void check(void)
{
    piece capture = next_piece();
    piongseut_check_answer answer = piongseut_check(capture.bytes, capture.size);
    say("number", answer.number);
    say("accepted", answer.accepted);
    say("tag", answer.tag);
    say("place", answer.place);
    free(capture.bytes);
}

static const struct {
    const char *name;
    void (*call)(void);
} entries[] = {{"empty", empty},   {"inquiry", inquiry}, {"submit", submit}, {"complete", complete}, {"write83", write83},
               {"read83", read83}, {"roll", roll},       {"take", take},     {"block", block},       {"gather", gather},
               {"feed", feed},     {"build", build},     {"check", check}};

int main(void)
{
    while (fgets(line, sizeof line, stdin) != NULL) {
        const char *entry = strtok(line, " \n");
        for (size_t at = 0; entry != NULL && at < sizeof entries / sizeof *entries; at++)
            if (strcmp(entries[at].name, entry) == 0)
                entries[at].call();
        printf("\n");
        fflush(stdout);
    }
    return 0;
}
