/*
 * Uses every function of piongseut.h as a C program would, and checks the answers against the values of docs/RULES.md.
 * The same file is compiled as C++, to see that both can read the header.
 */
#include "piongseut.h"

#include <stdio.h>
#include <string.h>

/* What rooms are filled with, the refusals of a census, of a damaged block and of a port, and where sense data has the registers. */
enum { FILL = 0xA5, WRONG_CENSUS = 17, DAMAGED = 18, WRONG_PORT = 19, REGISTERS_AT = PIONGSEUT_SENSE_SIZE - PIONGSEUT_REGISTERS_SIZE };

static int passed;
static int failed;

static void check(int held, const char *what)
{
    printf("%s %s\n", held ? "ok" : "not ok", what);
    if (held)
        passed++;
    else
        failed++;
}

/* Whether all of these bytes still are what the room was filled with. */
static int untouched(const uint8_t *bytes, size_t size)
{
    for (size_t at = 0; at < size; at++)
        if (bytes[at] != FILL)
            return 0;
    return 1;
}

static uint8_t room[PIONGSEUT_PAGE89_SIZE + 28];
static uint8_t sense[PIONGSEUT_SENSE_SIZE + 2];
static uint8_t block[PIONGSEUT_BLOCK_SIZE];
static uint8_t signature[PIONGSEUT_SIGNATURE_SIZE];
static uint8_t texts[PIONGSEUT_TEXTS_SIZE];

/* Fills the rooms, and makes block and signature those of C1. */
static void prepare(void)
{
    static const uint8_t name[PIONGSEUT_WWN_SIZE] = {0x00, 0x50, 0x00, 0xC5, 0x34, 0x12, 0x78, 0x56};
    memset(room, FILL, sizeof room);
    memset(sense, FILL, sizeof sense);
    memset(block, 0, sizeof block);
    memset(signature, 0, sizeof signature);
    memset(texts, 'T', sizeof texts);
    memcpy(block + 216, name, sizeof name);
    block[175] = 0x41; /* word 87 says that there is a name */
}

static const uint8_t c1_page[PIONGSEUT_PAGE83_WWN_SIZE] = {0x00, 0x83, 0x00, 0x0C, 0x01, 0x03, 0x00, 0x08,
                                                           0x50, 0x00, 0xC5, 0x00, 0x12, 0x34, 0x56, 0x78};

/* The version's parts, its number and its text say the same. */
static void version(void)
{
    char said[32];
    snprintf(said, sizeof said, "%d.%d.%d", PIONGSEUT_VERSION_MAJOR, PIONGSEUT_VERSION_MINOR, PIONGSEUT_VERSION_PATCH);
    check(strcmp(said, PIONGSEUT_VERSION_STRING) == 0 && PIONGSEUT_VERSION == 0x050000, "version 5.0.0");
}

static const piongseut_ports no_ports = {PIONGSEUT_PORT_NONE, 0};

static piongseut_inquiry_answer ask(const uint8_t *command, size_t size, const uint8_t *reply, size_t reply_size)
{
    return piongseut_inquiry(command, size, block, sizeof block, signature, sizeof signature, texts, sizeof texts, reply,
                             reply_size, no_ports, texts, 0, PIONGSEUT_SENSE_DESCRIPTOR, room, sizeof room, sense, sizeof sense);
}

/* A refused INQUIRY with the sense of the table's row. */
static int inquiry_refused(const uint8_t *command, size_t size, uint8_t number, uint8_t asc)
{
    const uint8_t wanted[PIONGSEUT_REFUSAL_SENSE_SIZE] = {0x72, 0x05, asc, 0x00, 0, 0, 0, 0};
    prepare();
    piongseut_inquiry_answer answer = ask(command, size, texts, 0);
    return answer.number == number && answer.status == PIONGSEUT_CHECK_CONDITION && answer.shown == PIONGSEUT_SHOWN_ROOM &&
           answer.count == 0 && memcmp(sense, wanted, sizeof wanted) == 0 &&
           untouched(sense + sizeof wanted, sizeof sense - sizeof wanted) && untouched(room, sizeof room);
}

/* C1 with an allocation length: so many bytes of the page, and nothing behind them. */
static int page83_cut_to(uint8_t allocation, size_t count)
{
    const uint8_t command[6] = {0x12, 0x01, 0x83, 0x00, allocation, 0x00};
    prepare();
    piongseut_inquiry_answer answer = ask(command, sizeof command, texts, 0);
    return answer.number == PIONGSEUT_ACCEPTED && answer.status == PIONGSEUT_GOOD && answer.shown == PIONGSEUT_SHOWN_ROOM &&
           answer.count == count && memcmp(room, c1_page, count) == 0 && untouched(room + count, sizeof room - count) &&
           untouched(sense, sizeof sense);
}

static void inquiries(void)
{
    static const uint8_t c4[6] = {0x12, 0x00, 0x80, 0x00, 0xFF, 0x00};
    static const uint8_t c5[6] = {0x12, 0x01, 0xB0, 0x00, 0xFF, 0x00};
    static const uint8_t other[6] = {0x13, 0x00, 0x00, 0x00, 0xFF, 0x00};
    check(page83_cut_to(0xFF, PIONGSEUT_PAGE83_WWN_SIZE), "C1: page 83h");
    check(page83_cut_to(5, 5), "C2: page 83h cut to 5 bytes");
    check(page83_cut_to(0, 0), "C3: allocation length 0");
    check(inquiry_refused(c4, sizeof c4, PIONGSEUT_REFUSED_FIELD, 0x24), "C4: a page code without EVPD, 4");
    check(inquiry_refused(c5, sizeof c5, PIONGSEUT_REFUSED_PAGE, 0x24), "C5: page B0h, 5");
    check(inquiry_refused(c5, 0, PIONGSEUT_REFUSED_SHORT, 0x24), "C13: no command bytes, 2");
    check(inquiry_refused(other, sizeof other, PIONGSEUT_REFUSED_OPCODE, 0x20), "another opcode, 3");
}

/* A page with allocation length enough has its whole size. */
static void page_size(uint8_t evpd, uint8_t page, size_t size, const char *what)
{
    const uint8_t command[6] = {0x12, evpd, page, 0xFF, 0xFF, 0x00};
    prepare();
    piongseut_inquiry_answer answer = ask(command, sizeof command, texts, 0);
    check(answer.number == PIONGSEUT_ACCEPTED && answer.count == size && untouched(room + size, sizeof room - size), what);
}

static void page_sizes(void)
{
    page_size(0, 0x00, PIONGSEUT_STANDARD_SIZE, "the size of standard data");
    page_size(1, 0x00, PIONGSEUT_PAGE00_SIZE, "the size of page 00h");
    page_size(1, 0x80, PIONGSEUT_PAGE80_SIZE, "the size of page 80h");
}

/* Page 89h fills 572 bytes; one byte less is refused with 8. */
static void page89(void)
{
    static const uint8_t command[6] = {0x12, 0x01, 0x89, 0xFF, 0xFF, 0x00};
    prepare();
    piongseut_inquiry_answer answer =
        piongseut_inquiry(command, sizeof command, block, sizeof block, signature, sizeof signature, texts, sizeof texts,
                          texts, 0, no_ports, texts, 0, PIONGSEUT_SENSE_UNSTATED, room, PIONGSEUT_PAGE89_SIZE - 1, sense,
                          sizeof sense);
    check(answer.number == PIONGSEUT_REFUSED_ROOM && answer.status == PIONGSEUT_NONE && untouched(room, sizeof room),
          "page 89h, room 571: 8");
    answer = ask(command, sizeof command, texts, 0);
    check(answer.number == PIONGSEUT_ACCEPTED && answer.count == PIONGSEUT_PAGE89_SIZE && room[1] == 0x89 && room[56] == 0xEC &&
              memcmp(room + 8, texts, sizeof texts) == 0 && memcmp(room + 60, block, sizeof block) == 0 &&
              untouched(room + PIONGSEUT_PAGE89_SIZE, sizeof room - PIONGSEUT_PAGE89_SIZE),
          "page 89h, room enough: 572 bytes");
}

static void packet_drives(void)
{
    static const uint8_t standard[6] = {0x12, 0x00, 0x00, 0x00, 0x05, 0x00};
    static const uint8_t page00[6] = {0x12, 0x01, 0x00, 0x00, 0xFF, 0x00};
    static const uint8_t reply[7] = {0x05, 0x00, 0x00, 0x03, 0x00, 0x80, 0x90};
    static const uint8_t wanted[8] = {0x05, 0x00, 0x00, 0x04, 0x00, 0x80, 0x89, 0x90};
    prepare();
    signature[5] = 0x14;
    signature[6] = 0xEB;
    piongseut_inquiry_answer answer = ask(standard, sizeof standard, reply, sizeof reply);
    check(answer.number == PIONGSEUT_ACCEPTED && answer.shown == PIONGSEUT_SHOWN_REPLY && answer.count == 5 &&
              untouched(room, sizeof room),
          "packet drive: its own reply is shown");
    answer = ask(page00, sizeof page00, reply, sizeof reply);
    check(answer.number == PIONGSEUT_ACCEPTED && answer.shown == PIONGSEUT_SHOWN_ROOM && answer.count == sizeof wanted &&
              memcmp(room, wanted, sizeof wanted) == 0,
          "packet drive: 89h is put into page 00h");
    answer = ask(page00, sizeof page00, reply, 6);
    check(answer.number == PIONGSEUT_REFUSED_UNUSABLE && sense[1] == 0x0B, "packet drive: an unusable page 00h, 7");
}

static const uint8_t registers[PIONGSEUT_REGISTERS_SIZE] = {0x00, 0x00, 0xFF, 0x00, 0x00, 0x00, 0x00, 0x00, 0x00, 0x00, 0x50};

/* C6 with one byte changed is refused with this number. */
static void c6_refused(unsigned at, uint8_t value, uint32_t declared, uint8_t number, const char *what)
{
    uint8_t command[12] = {0xA1, 0x08, 0x0E, 0x00, 0x01, 0x00, 0x00, 0x00, 0x00, 0xEC, 0x00, 0x00};
    const piongseut_record empty = piongseut_record_empty();
    piongseut_record record = empty;
    prepare();
    command[at] = value;
    piongseut_submit_answer answer =
        piongseut_submit(&record, command, sizeof command, registers, sizeof registers, block, 0, declared, PIONGSEUT_EDITION_FIRST,
                         PIONGSEUT_SENSE_UNSTATED, sense, sizeof sense);
    check(answer.number == number && answer.status == PIONGSEUT_CHECK_CONDITION &&
              memcmp(&answer.order, &empty.order, sizeof empty.order) == 0 && memcmp(&record, &empty, sizeof empty) == 0,
          what);
}

static void refused_orders(void)
{
    c6_refused(0, 0xA1, 511, PIONGSEUT_REFUSED_ABOVE_DECLARED, "C7: declared 511, 14");
    c6_refused(2, 0x06, 512, PIONGSEUT_REFUSED_T_DIR, "C8: T_DIR to the drive, 12");
    c6_refused(2, 0x0C, 512, PIONGSEUT_REFUSED_T_LENGTH, "C9: T_LENGTH 0, 11");
    c6_refused(4, 0x00, 512, PIONGSEUT_REFUSED_LENGTH_ZERO, "C10: count 0, 13");
    c6_refused(1, 0x04, 512, PIONGSEUT_REFUSED_PROTOCOL, "C11: PROTOCOL 2, 9");
}

/* A command that is submitted to the record by the first edition, which is lent no block, with 512 bytes declared. */
static piongseut_submit_answer submit(piongseut_record *record, const uint8_t *command, size_t size)
{
    return piongseut_submit(record, command, size, registers, sizeof registers, block, 0, 512, PIONGSEUT_EDITION_FIRST,
                            PIONGSEUT_SENSE_DESCRIPTOR, sense, sizeof sense);
}

static piongseut_complete_answer complete(piongseut_record *record)
{
    return piongseut_complete(record, registers, sizeof registers, PIONGSEUT_SENSE_DESCRIPTOR, sense, sizeof sense);
}

static int ended_with(piongseut_complete_answer answer, uint8_t number, uint8_t status)
{
    return answer.number == number && answer.status == status;
}

static int nothing_lost(piongseut_complete_answer answer)
{
    return answer.lost == 0 && answer.lost_protocol == 0;
}

static int same_order(const piongseut_order *one, const piongseut_order *other)
{
    return memcmp(one, other, sizeof *one) == 0;
}

/* C6 is taken; then the record is busy, protocol 15 leaves it, and completion empties it. */
static void one_order(void)
{
    static const uint8_t command[12] = {0xA1, 0x08, 0x0E, 0x00, 0x01, 0x00, 0x00, 0x00, 0x00, 0xEC, 0x00, 0x00};
    static const uint8_t report[12] = {0xA1, PIONGSEUT_PROTOCOL_RETURN_RESPONSE_INFORMATION << 1};
    const piongseut_record empty = piongseut_record_empty();
    piongseut_record record = empty;
    prepare();
    check(empty.state == PIONGSEUT_STATE_NOTHING, "an empty record holds nothing");
    piongseut_submit_answer answer = submit(&record, command, sizeof command);
    check(answer.number == PIONGSEUT_ACCEPTED && answer.status == PIONGSEUT_NONE &&
              answer.order.direction == PIONGSEUT_DIRECTION_FROM_DRIVE && answer.order.length == 512 &&
              answer.order.command == 0xEC && answer.order.protocol == PIONGSEUT_PROTOCOL_PIO_DATA_IN && answer.order.count == 1,
          "C6: from the drive, 512 bytes");
    check(record.state == PIONGSEUT_STATE_ORDER && same_order(&record.order, &answer.order) && same_order(&record.older, &empty.older),
          "the record holds the order, and no older one");
    piongseut_record before = record;
    answer = submit(&record, command, sizeof command);
    check(answer.number == PIONGSEUT_REFUSED_PENDING && answer.status == PIONGSEUT_BUSY && untouched(sense, sizeof sense),
          "a second order: BUSY, 10");
    answer = submit(&record, report, sizeof report);
    check(answer.number == PIONGSEUT_ACCEPTED && answer.status == PIONGSEUT_CHECK_CONDITION && sense[3] == 0x1D &&
              memcmp(sense + REGISTERS_AT, registers, sizeof registers) == 0 && memcmp(&record, &before, sizeof record) == 0,
          "PROTOCOL 15 reports and leaves the record");
    prepare();
    piongseut_complete_answer ended = complete(&record);
    check(ended_with(ended, PIONGSEUT_ACCEPTED, PIONGSEUT_GOOD) && nothing_lost(ended) && untouched(sense, sizeof sense) &&
              memcmp(&record, &empty, sizeof record) == 0,
          "completion: GOOD, nothing is lost, and the record is empty");
    ended = complete(&record);
    check(ended_with(ended, PIONGSEUT_REFUSED_NOTHING_PENDING, PIONGSEUT_NONE) && nothing_lost(ended),
          "completion with nothing pending, 15");
}

/* While a reset is pending, a second one and an order are BUSY, and PROTOCOL 15 reports; all leave the record. */
static void busy_with_reset(piongseut_record *record, const uint8_t *reset, const uint8_t *order)
{
    static const uint8_t report[12] = {0xA1, PIONGSEUT_PROTOCOL_RETURN_RESPONSE_INFORMATION << 1};
    const piongseut_record before = *record;
    prepare();
    check(submit(record, reset, 12).number == PIONGSEUT_REFUSED_PENDING && untouched(sense, sizeof sense), "a second reset: BUSY, 10");
    check(submit(record, order, 12).number == PIONGSEUT_REFUSED_PENDING && untouched(sense, sizeof sense), "an order over a reset, 10");
    check(submit(record, report, 12).status == PIONGSEUT_CHECK_CONDITION && sense[3] == 0x1D, "PROTOCOL 15 while a reset is pending");
    check(memcmp(record, &before, sizeof before) == 0, "none of these changes the record");
    prepare();
}

/* An IDENTIFY DEVICE that asks for registers hangs; a reset is taken over it and ends; the next IDENTIFY DEVICE is taken. */
static void hung_order(void)
{
    static const uint8_t identify[12] = {0xA1, PIONGSEUT_PROTOCOL_PIO_DATA_IN << 1, 0x2E, 0, 1, 0, 0, 0, 0, 0xEC, 0, 0};
    static const uint8_t reset[12] = {0xA1, PIONGSEUT_PROTOCOL_SRST << 1, 0x80};
    const piongseut_record empty = piongseut_record_empty();
    piongseut_record record = empty;
    prepare();
    const piongseut_submit_answer hung = submit(&record, identify, sizeof identify);
    const piongseut_submit_answer answer = submit(&record, reset, sizeof reset);
    check(answer.number == PIONGSEUT_ACCEPTED && answer.status == PIONGSEUT_NONE && untouched(sense, sizeof sense) &&
              answer.order.protocol == PIONGSEUT_PROTOCOL_SRST && answer.order.quiet_seconds == 6 && answer.order.command == 0,
          "a reset is taken over a hung IDENTIFY DEVICE");
    check(record.state == PIONGSEUT_STATE_RESET_OVER_ORDER && same_order(&record.order, &answer.order) &&
              same_order(&record.older, &hung.order),
          "the record holds both");
    busy_with_reset(&record, reset, identify);
    const piongseut_complete_answer ended = complete(&record);
    check(ended_with(ended, PIONGSEUT_ACCEPTED, PIONGSEUT_GOOD) && untouched(sense, sizeof sense),
          "the reset ends GOOD, without the registers that IDENTIFY DEVICE asked for");
    check(ended.lost == 1 && ended.lost_protocol == PIONGSEUT_PROTOCOL_PIO_DATA_IN, "IDENTIFY DEVICE is lost: protocol 4");
    check(memcmp(&record, &empty, sizeof record) == 0, "the record is empty: both are gone");
    check(complete(&record).number == PIONGSEUT_REFUSED_NOTHING_PENDING, "the lost order is not completed, 15");
    check(submit(&record, identify, sizeof identify).number == PIONGSEUT_ACCEPTED && record.state == PIONGSEUT_STATE_ORDER,
          "the next IDENTIFY DEVICE is taken");
}

/* A reset by itself is an order like others: it is pending, and ends without a loss. */
static void single_reset(void)
{
    static const uint8_t identify[12] = {0xA1, PIONGSEUT_PROTOCOL_PIO_DATA_IN << 1, 0x2E, 0, 1, 0, 0, 0, 0, 0xEC, 0, 0};
    static const uint8_t reset[12] = {0xA1, PIONGSEUT_PROTOCOL_ATA_HARDWARE_RESET << 1, 0x40};
    piongseut_record record = piongseut_record_empty();
    const piongseut_order none = record.older;
    prepare();
    const piongseut_submit_answer answer = submit(&record, reset, sizeof reset);
    check(answer.number == PIONGSEUT_ACCEPTED && record.state == PIONGSEUT_STATE_ORDER && same_order(&record.order, &answer.order) &&
              same_order(&record.older, &none),
          "a reset with nothing pending is the record's order, with none under it");
    busy_with_reset(&record, reset, identify);
    const piongseut_complete_answer ended = complete(&record);
    check(ended_with(ended, PIONGSEUT_ACCEPTED, PIONGSEUT_GOOD) && nothing_lost(ended), "it ends GOOD, and nothing is lost");
}

/* A record with a state number that the board leaves in none is one order, which a reset gets past. */
static void other_state(void)
{
    static const uint8_t reset[12] = {0xA1, PIONGSEUT_PROTOCOL_SRST << 1};
    piongseut_record record;
    memset(&record, 0xFF, sizeof record);
    memset(&record.older, 0xEE, sizeof record.older);
    const piongseut_record before = record;
    prepare();
    check(submit(&record, reset, sizeof reset).number == PIONGSEUT_ACCEPTED && record.state == PIONGSEUT_STATE_RESET_OVER_ORDER &&
              same_order(&record.older, &before.order),
          "a record of ones holds an order; a reset is taken over it, and its bytes go under the reset");
    const piongseut_complete_answer ended = complete(&record);
    check(ended_with(ended, PIONGSEUT_ACCEPTED, PIONGSEUT_GOOD) && ended.lost == 1 && ended.lost_protocol == 0xFF,
          "the lost order's protocol is told as the record has it");
}

/* A reset over an order ends with the CK_COND and EXTEND that the record has of it; those of the order under it are not looked at. */
static void own_flags(void)
{
    piongseut_record record = piongseut_record_empty();
    record.state = PIONGSEUT_STATE_RESET_OVER_ORDER;
    record.order.ck_cond = 1;
    prepare();
    check(complete(&record).status == PIONGSEUT_CHECK_CONDITION && sense[3] == 0x1D, "a reset that asks for registers is told them");
    record.state = PIONGSEUT_STATE_RESET_OVER_ORDER;
    record.older.ck_cond = record.older.extend = 1;
    prepare();
    check(complete(&record).status == PIONGSEUT_GOOD && untouched(sense, sizeof sense), "what the lost order asked for is not told");
}

static void c12(void)
{
    static const uint8_t command[16] = {0x85, PIONGSEUT_PROTOCOL_NON_DATA << 1, 0x20, 0, 0, 0, 0, 0, 0, 0, 0, 0, 0, 0, 0xE5, 0x00};
    static const uint8_t wanted[PIONGSEUT_SENSE_SIZE] = {0x72, 0x01, 0x00, 0x1D, 0x00, 0x00, 0x00, 0x0E, 0x09, 0x0C, 0x00,
                                                         0x00, 0x00, 0xFF, 0x00, 0x00, 0x00, 0x00, 0x00, 0x00, 0x00, 0x50};
    piongseut_record record = piongseut_record_empty();
    prepare();
    piongseut_submit_answer answer = submit(&record, command, sizeof command);
    check(answer.number == PIONGSEUT_ACCEPTED && answer.order.ck_cond == 1 &&
              answer.order.direction == PIONGSEUT_DIRECTION_NONE && answer.order.command == 0xE5,
          "C12: the order is taken");
    piongseut_complete_answer ended = complete(&record);
    check(ended.number == PIONGSEUT_ACCEPTED && ended.status == PIONGSEUT_CHECK_CONDITION &&
              memcmp(sense, wanted, sizeof wanted) == 0 && untouched(sense + sizeof wanted, sizeof sense - sizeof wanted),
          "C12, descriptors asked for: completes with 22 sense bytes");
}

/* Whether the sense room begins with the fixed sense data that is wanted, and is untouched behind it. */
static int fixed_sense(const uint8_t *wanted)
{
    return memcmp(sense, wanted, PIONGSEUT_FIXED_SENSE_SIZE) == 0 &&
           untouched(sense + PIONGSEUT_FIXED_SENSE_SIZE, sizeof sense - PIONGSEUT_FIXED_SENSE_SIZE);
}

/* C5 and C11 with a number that comes to the fixed form. */
static void refused_in_fixed(uint8_t form, const char *inquiry, const char *submission)
{
    static const uint8_t c5[6] = {0x12, 0x01, 0xB0, 0x00, 0xFF, 0x00};
    static const uint8_t c11[12] = {0xA1, 0x04, 0x0E, 0x00, 0x01, 0x00, 0x00, 0x00, 0x00, 0xEC, 0x00, 0x00};
    static const uint8_t wanted[PIONGSEUT_FIXED_SENSE_SIZE] = {0x70, 0, 0x05, 0, 0, 0, 0, 0x0A, 0, 0, 0, 0, 0x24, 0x00, 0, 0, 0, 0};
    piongseut_record record = piongseut_record_empty();
    prepare();
    piongseut_inquiry_answer answer =
        piongseut_inquiry(c5, sizeof c5, block, sizeof block, signature, sizeof signature, texts, sizeof texts, texts, 0,
                          no_ports, texts, 0, form, room, sizeof room, sense, sizeof sense);
    check(answer.number == PIONGSEUT_REFUSED_PAGE && answer.status == PIONGSEUT_CHECK_CONDITION && fixed_sense(wanted), inquiry);
    prepare();
    piongseut_submit_answer taken =
        piongseut_submit(&record, c11, sizeof c11, registers, sizeof registers, block, 0, 512, PIONGSEUT_EDITION_FIRST, form, sense,
                         sizeof sense);
    check(taken.number == PIONGSEUT_REFUSED_PROTOCOL && taken.status == PIONGSEUT_CHECK_CONDITION && fixed_sense(wanted), submission);
    prepare();
    taken = piongseut_submit(&record, c11, sizeof c11, registers, sizeof registers, block, 0, 512, PIONGSEUT_EDITION_FIRST, form, sense,
                             PIONGSEUT_SENSE_SIZE - 1);
    check(taken.number == PIONGSEUT_REFUSED_SIZE && taken.status == PIONGSEUT_NONE && untouched(sense, sizeof sense),
          "the fixed form in sense room of 21 bytes, 1");
}

/* Fixed is stated, or it is what comes where no form is. */
static void fixed_refusals(void)
{
    refused_in_fixed(PIONGSEUT_SENSE_FIXED, "C5 in the fixed form: 5, 18 sense bytes", "C11 in the fixed form: 9, 18 sense bytes");
    refused_in_fixed(PIONGSEUT_SENSE_UNSTATED, "C5, no form stated: fixed", "C11, no form stated: fixed");
    refused_in_fixed(3, "C5, a number that is no form: fixed", "C11, a number that is no form: fixed");
}

/* The same registers in the fixed form: an order with EXTEND, and PROTOCOL 15, which has none. */
static void fixed_places(uint8_t form, const uint8_t *said)
{
    static const uint8_t command[16] = {0x85, PIONGSEUT_PROTOCOL_NON_DATA << 1 | 1, 0x20};
    static const uint8_t report[12] = {0xA1, PIONGSEUT_PROTOCOL_RETURN_RESPONSE_INFORMATION << 1};
    static const uint8_t with_extend[PIONGSEUT_FIXED_SENSE_SIZE] = {0x70, 0, 0x01, 1, 0x40, 10, 3, 0x0A, 0xE0,
                                                                    5,    7, 9,    0, 0x1D, 0,  0, 0,    0};
    static const uint8_t without[PIONGSEUT_FIXED_SENSE_SIZE] = {0x70, 0, 0x01, 1, 0x40, 10, 3, 0x0A, 0x00,
                                                                5,    7, 9,    0, 0x1D, 0,  0, 0,    0};
    const piongseut_record empty = piongseut_record_empty();
    piongseut_record record = empty;
    prepare();
    piongseut_submit_answer answer = submit(&record, command, sizeof command);
    piongseut_complete_answer ended =
        piongseut_complete(&record, said, PIONGSEUT_REGISTERS_SIZE, form, sense, sizeof sense);
    check(answer.number == PIONGSEUT_ACCEPTED && ended.number == PIONGSEUT_ACCEPTED && ended.status == PIONGSEUT_CHECK_CONDITION &&
              memcmp(&record, &empty, sizeof record) == 0 && fixed_sense(with_extend),
          "the registers in the fixed form, with EXTEND");
    prepare();
    answer = piongseut_submit(&record, report, sizeof report, said, PIONGSEUT_REGISTERS_SIZE, block, 0, 0, PIONGSEUT_EDITION_FIRST, form,
                              sense, sizeof sense);
    check(answer.number == PIONGSEUT_ACCEPTED && answer.status == PIONGSEUT_CHECK_CONDITION && fixed_sense(without),
          "PROTOCOL 15 in the fixed form, without EXTEND");
}

/* Where the registers' bytes come to stand in the sense data: all different, and EXTEND so that none is left out. */
static void register_places(void)
{
    static const uint8_t command[16] = {0x85, PIONGSEUT_PROTOCOL_NON_DATA << 1 | 1, 0x20};
    uint8_t said[PIONGSEUT_REGISTERS_SIZE];
    piongseut_record record = piongseut_record_empty();
    static const uint8_t wanted[PIONGSEUT_REGISTERS_SIZE] = {1, 2, 3, 4, 5, 6, 7, 8, 9, 10, 0x40};
    prepare();
    said[PIONGSEUT_REGISTER_ERROR] = 1;
    said[PIONGSEUT_REGISTER_COUNT_HIGH] = 2;
    said[PIONGSEUT_REGISTER_COUNT_LOW] = 3;
    said[PIONGSEUT_REGISTER_LBA_LOW_HIGH] = 4;
    said[PIONGSEUT_REGISTER_LBA_LOW_LOW] = 5;
    said[PIONGSEUT_REGISTER_LBA_MID_HIGH] = 6;
    said[PIONGSEUT_REGISTER_LBA_MID_LOW] = 7;
    said[PIONGSEUT_REGISTER_LBA_HIGH_HIGH] = 8;
    said[PIONGSEUT_REGISTER_LBA_HIGH_LOW] = 9;
    said[PIONGSEUT_REGISTER_DEVICE] = 10;
    said[PIONGSEUT_REGISTER_STATUS] = 0x40;
    piongseut_submit_answer answer = submit(&record, command, sizeof command);
    piongseut_complete_answer ended =
        piongseut_complete(&record, said, sizeof said, PIONGSEUT_SENSE_DESCRIPTOR, sense, sizeof sense);
    check(answer.number == PIONGSEUT_ACCEPTED && ended.number == PIONGSEUT_ACCEPTED &&
              memcmp(sense + REGISTERS_AT, wanted, sizeof wanted) == 0,
          "the registers stand in the rule book's order");
    fixed_places(PIONGSEUT_SENSE_FIXED, said);
    fixed_places(PIONGSEUT_SENSE_UNSTATED, said);
}

static void longest_order(void)
{
    static const uint8_t command[16] = {0x85, PIONGSEUT_PROTOCOL_PIO_DATA_IN << 1 | 1, 0x0E, 0, 0, 0xFF, 0xFF, 0, 0, 0, 0, 0, 0, 0,
                                        0x25, 0x00};
    piongseut_record record = piongseut_record_empty();
    prepare();
    piongseut_submit_answer answer =
        piongseut_submit(&record, command, sizeof command, registers, sizeof registers, block, 0, UINT32_MAX, PIONGSEUT_EDITION_FIRST,
                         PIONGSEUT_SENSE_UNSTATED, sense, sizeof sense);
    check(answer.number == PIONGSEUT_ACCEPTED && answer.order.length == 33553920 && answer.order.extend == 1,
          "EXTEND, count FFFFh: 33,553,920 bytes");
    record = piongseut_record_empty();
    answer = piongseut_submit(&record, command, sizeof command, registers, PIONGSEUT_REGISTERS_SIZE - 1, block, 0, UINT32_MAX,
                              PIONGSEUT_EDITION_FIRST, PIONGSEUT_SENSE_UNSTATED, sense, sizeof sense);
    check(answer.number == PIONGSEUT_REFUSED_SIZE && answer.status == PIONGSEUT_NONE && record.state == PIONGSEUT_STATE_NOTHING,
          "ten registers, 1");
}

/* A read of 65,535 sectors by the 32-byte command, with T_TYPE, and all that it can carry. */
static const uint8_t long_read[32] = {0x7F, 0, 0, 0, 0, 0, 0, 0x18, 0x1F, 0xF0, PIONGSEUT_PROTOCOL_DMA << 1 | 1, 0x1E,
                                      0,    0, 6, 4, 2, 5, 3, 1,    8,    7,    0xFF,                            0xFF,
                                      0x40, 0x25, 0, 0, 0x12, 0x34, 0x56, 0x78};

/* The block with logical sectors of twice so many bytes. */
static void put_sectors(uint32_t words)
{
    block[213] = 0x50; /* word 106 says that words 117 and 118 tell it */
    for (unsigned at = 0; at < 4; at++)
        block[234 + at] = (uint8_t)(words >> (8 * at));
}

/* What comes of a command in this edition, with nothing pending, as much declared as can be, and the block that is there. */
static piongseut_submit_answer submit_in(uint8_t edition, const uint8_t *command, size_t size, size_t block_size)
{
    piongseut_record record = piongseut_record_empty();
    memset(sense, FILL, sizeof sense);
    return piongseut_submit(&record, command, size, registers, sizeof registers, block, block_size, UINT32_MAX, edition,
                            PIONGSEUT_SENSE_DESCRIPTOR, sense, sizeof sense);
}

static void long_command(void)
{
    uint8_t command[32];
    prepare();
    put_sectors(2048);
    piongseut_submit_answer answer = submit_in(PIONGSEUT_EDITION_LATER, long_read, sizeof long_read, sizeof block);
    check(answer.number == PIONGSEUT_ACCEPTED && answer.order.auxiliary == 0x12345678 && answer.order.features == 0x0807 &&
              answer.order.lba_low == 0x0201 && answer.order.lba_mid == 0x0403 && answer.order.lba_high == 0x0605 &&
              answer.order.device == 0x40 && answer.order.command == 0x25 && answer.order.extend == 1,
          "the 32-byte command, field by field");
    check(answer.order.length == 268431360, "65,535 sectors of 4096 bytes are taken");
    answer = submit_in(PIONGSEUT_EDITION_LATER, long_read, sizeof long_read - 1, sizeof block);
    check(answer.number == PIONGSEUT_REFUSED_SHORT, "31 bytes of it, 2");
    memcpy(command, long_read, sizeof command);
    command[9] = 0xF1;
    answer = submit_in(PIONGSEUT_EDITION_LATER, command, sizeof command, sizeof block);
    check(answer.number == PIONGSEUT_REFUSED_SERVICE_ACTION && answer.status == PIONGSEUT_CHECK_CONDITION && sense[1] == 0x05 &&
              sense[2] == 0x24 && untouched(sense + 8, sizeof sense - 8),
          "another service action, 20");
    command[1] = 0x04;
    answer = submit_in(PIONGSEUT_EDITION_LATER, command, sizeof command, sizeof block);
    check(answer.number == PIONGSEUT_REFUSED_FIELD, "NACA in byte 1, before that, 4");
    answer = submit_in(PIONGSEUT_EDITION_FIRST, long_read, sizeof long_read, sizeof block);
    check(answer.number == PIONGSEUT_REFUSED_OPCODE && sense[2] == 0x20, "the 32-byte command in the first edition, 3");
}

/* Sectors of this size are refused with 14: their product is compared as it is. */
static void product_refused(uint32_t words, uint8_t count, const char *what)
{
    uint8_t command[32];
    memcpy(command, long_read, sizeof command);
    if (count != 0) {
        command[22] = 0;
        command[23] = count;
    }
    prepare();
    put_sectors(words);
    const piongseut_submit_answer answer = submit_in(PIONGSEUT_EDITION_LATER, command, sizeof command, sizeof block);
    check(answer.number == PIONGSEUT_REFUSED_ABOVE_DECLARED && answer.order.length == 0, what);
}

static void sectors(void)
{
    static const uint8_t read[16] = {0x85, PIONGSEUT_PROTOCOL_DMA << 1, 0x1E, 0, 0, 0, 2, 0, 0, 0, 0, 0, 0, 0x40, 0xC8, 0};
    product_refused(UINT32_MAX, 0, "65,535 sectors of 8,589,934,590 bytes, 14");
    product_refused(UINT32_MAX, 1, "one sector of 8,589,934,590 bytes, 14");
    product_refused(0x80000000, 1, "one sector of 2 to the power 32 bytes, 14");
    product_refused(0x40000000, 2, "two sectors of 2 to the power 31 bytes, 14");
    prepare();
    put_sectors(2048);
    check(submit_in(PIONGSEUT_EDITION_LATER, read, sizeof read, sizeof block).order.length == 8192, "T_TYPE: two sectors of 4096 bytes");
    check(submit_in(PIONGSEUT_EDITION_FIRST, read, sizeof read, sizeof block).order.length == 1024, "in the first edition, two of 512");
    check(submit_in(0, read, sizeof read, 0).order.length == 1024, "no edition stated: the first, without a block");
    check(submit_in(3, read, sizeof read, 7).order.length == 1024, "a number that is no edition: the first, with no block of 7 bytes");
    piongseut_submit_answer answer = submit_in(PIONGSEUT_EDITION_LATER, read, sizeof read, 0);
    check(answer.number == PIONGSEUT_REFUSED_NO_BLOCK && sense[1] == 0x02 && sense[2] == 0x04, "sectors of a drive without a block, 6");
    answer = submit_in(PIONGSEUT_EDITION_LATER, read, sizeof read, sizeof block - 1);
    check(answer.number == PIONGSEUT_REFUSED_SIZE && answer.status == PIONGSEUT_NONE, "a block of 511 bytes in the later edition, 1");
    block[510] = 0xA5;
    answer = submit_in(PIONGSEUT_EDITION_LATER, read, sizeof read, sizeof block);
    check(answer.number == PIONGSEUT_REFUSED_DAMAGED && answer.status == PIONGSEUT_NONE && untouched(sense, sizeof sense),
          "a damaged block in the later edition, 18");
    check(submit_in(PIONGSEUT_EDITION_FIRST, read, sizeof read, sizeof block).number == PIONGSEUT_ACCEPTED, "in the first it is not seen");
    put_sectors(0);
    block[510] = 0;
    answer = submit_in(PIONGSEUT_EDITION_LATER, read, sizeof read, sizeof block);
    check(answer.number == PIONGSEUT_REFUSED_LENGTH_ZERO, "sectors of 0 bytes, 13");
}

/* A command of PROTOCOL, with blocks by the count where it has data, is taken as an order of the same protocol and direction. */
static void protocol_taken(uint8_t protocol, uint8_t flags, uint8_t direction, const char *what)
{
    const uint8_t command[12] = {0xA1, (uint8_t)(protocol << 1), flags, 0x00, 0x01};
    piongseut_record record = piongseut_record_empty();
    prepare();
    piongseut_submit_answer answer = submit(&record, command, sizeof command);
    check(answer.number == PIONGSEUT_ACCEPTED && answer.order.protocol == protocol && answer.order.direction == direction &&
              answer.order.length == (direction == PIONGSEUT_DIRECTION_NONE ? 0u : 512u),
          what);
}

static void protocols(void)
{
    const uint8_t none = PIONGSEUT_DIRECTION_NONE, from = PIONGSEUT_DIRECTION_FROM_DRIVE, to = PIONGSEUT_DIRECTION_TO_DRIVE;
    protocol_taken(PIONGSEUT_PROTOCOL_ATA_HARDWARE_RESET, 0x0E, none, "ATA hardware reset: no data, T_LENGTH ignored");
    protocol_taken(PIONGSEUT_PROTOCOL_SRST, 0x0E, none, "SRST: no data, T_LENGTH ignored");
    protocol_taken(PIONGSEUT_PROTOCOL_NON_DATA, 0x00, none, "Non-data");
    protocol_taken(PIONGSEUT_PROTOCOL_PIO_DATA_IN, 0x0E, from, "PIO Data-In");
    protocol_taken(PIONGSEUT_PROTOCOL_PIO_DATA_OUT, 0x06, to, "PIO Data-Out");
    protocol_taken(PIONGSEUT_PROTOCOL_DMA, 0x0E, from, "DMA from the drive");
    protocol_taken(PIONGSEUT_PROTOCOL_DMA, 0x06, to, "DMA to the drive");
    protocol_taken(PIONGSEUT_PROTOCOL_EXECUTE_DEVICE_DIAGNOSTIC, 0x00, none, "Execute Device Diagnostic");
    protocol_taken(PIONGSEUT_PROTOCOL_DEVICE_RESET, 0x00, none, "Device Reset");
    protocol_taken(PIONGSEUT_PROTOCOL_UDMA_DATA_IN, 0x0E, from, "UDMA Data In");
    protocol_taken(PIONGSEUT_PROTOCOL_UDMA_DATA_OUT, 0x06, to, "UDMA Data Out");
}

/* The page of the block as it is, without ports. */
static piongseut_write_page83_answer write_name(size_t room_size)
{
    return piongseut_write_page83(block, sizeof block, no_ports, texts, 0, room, room_size);
}

static void pages83(void)
{
    prepare();
    piongseut_write_page83_answer written = write_name(PIONGSEUT_PAGE83_WWN_SIZE);
    check(written.number == PIONGSEUT_ACCEPTED && written.count == PIONGSEUT_PAGE83_WWN_SIZE &&
              memcmp(room, c1_page, sizeof c1_page) == 0 && untouched(room + sizeof c1_page, 60),
          "the writer makes C1's page");
    piongseut_read_page83_answer read = piongseut_read_page83(room, PIONGSEUT_PAGE83_WWN_SIZE);
    check(read.number == PIONGSEUT_ACCEPTED && read.form == PIONGSEUT_FORM_WWN &&
              memcmp(read.name, c1_page + 8, PIONGSEUT_WWN_SIZE) == 0 && read.name[PIONGSEUT_WWN_SIZE] == 0,
          "the reader gives back the name");
    read = piongseut_read_page83(room, PIONGSEUT_PAGE83_WWN_SIZE + 1);
    check(read.number == PIONGSEUT_REFUSED_NOT_A_PAGE && read.form == PIONGSEUT_FORM_REFUSED && read.name[0] == 0,
          "a page with a byte behind it, 16");
    block[175] = 0x40;
    written = write_name(sizeof room);
    check(written.count == PIONGSEUT_PAGE83_TEXT_SIZE && room[4] == 0x02, "name words, and word 87 says that there is no name");
    memset(block, 0, sizeof block);
    block[55] = 'M';
    block[21] = 'S';
    written = write_name(sizeof room);
    read = piongseut_read_page83(room, written.count);
    check(written.count == PIONGSEUT_PAGE83_TEXT_SIZE && read.form == PIONGSEUT_FORM_TEXT && read.name[0] == 'M' &&
              read.name[1] == ' ' && read.name[PIONGSEUT_MODEL_SIZE] == 'S' &&
              sizeof read.name == PIONGSEUT_MODEL_SIZE + PIONGSEUT_SERIAL_SIZE,
          "model and serial number, zeros as spaces");
    written = write_name(PIONGSEUT_PAGE83_TEXT_SIZE - 1);
    check(written.number == PIONGSEUT_REFUSED_ROOM && written.count == 0, "room 75 for 76 bytes, 8");
}

/* A page with both ports behind the name of C1; the parts of it that the other choices leave out are cut from it. */
static const uint8_t page_of_both[PIONGSEUT_PAGE83_WWN_SIZE + 20] = {
    0x00, 0x83, 0x00, 0x20, 0x01, 0x03, 0x00, 0x08, 0x50, 0x00, 0xC5, 0x00, 0x12, 0x34, 0x56, 0x78, 0x61, 0x94,
    0x00, 0x04, 0x00, 0x00, 0x00, 0x02, 0x61, 0x93, 0x00, 0x08, 0x50, 0x01, 0x02, 0x03, 0x04, 0x05, 0x06, 0x07};
static const uint8_t *const address = page_of_both + 28;
enum { RELATIVE_AT = PIONGSEUT_PAGE83_WWN_SIZE, SAS_AT = RELATIVE_AT + 8 };

static piongseut_inquiry_answer ask_ports(uint8_t page, piongseut_ports ports, size_t address_size)
{
    const uint8_t command[6] = {0x12, 0x01, page, 0x00, 0xFF, 0x00};
    prepare();
    return piongseut_inquiry(command, sizeof command, block, sizeof block, signature, sizeof signature, texts, sizeof texts, texts, 0,
                             ports, address, address_size, PIONGSEUT_SENSE_DESCRIPTOR, room, sizeof room, sense, sizeof sense);
}

/* The page with a choice of ports, whose numbers are 2 and the address: what INQUIRY shows, the writer writes and the reader reads. */
static void page_with(uint16_t chosen, const char *what)
{
    const piongseut_ports ports = {chosen, 2};
    const int relative = (chosen & PIONGSEUT_PORT_RELATIVE) != 0, sas = (chosen & PIONGSEUT_PORT_SAS) != 0;
    uint8_t wanted[sizeof page_of_both];
    size_t size = RELATIVE_AT;
    memcpy(wanted, page_of_both, size);
    if (relative)
        memcpy(wanted + size, page_of_both + RELATIVE_AT, 8);
    size += relative ? 8 : 0;
    if (sas)
        memcpy(wanted + size, page_of_both + SAS_AT, 12);
    size += sas ? 12 : 0;
    wanted[3] = (uint8_t)(size - 4);
    piongseut_inquiry_answer answer = ask_ports(0x83, ports, PIONGSEUT_ADDRESS_SIZE);
    int shown = answer.number == PIONGSEUT_ACCEPTED && answer.status == PIONGSEUT_GOOD && answer.count == size &&
                memcmp(room, wanted, size) == 0 && untouched(room + size, sizeof room - size);
    prepare();
    piongseut_write_page83_answer written =
        piongseut_write_page83(block, sizeof block, ports, address, PIONGSEUT_ADDRESS_SIZE, room, size);
    int made = written.number == PIONGSEUT_ACCEPTED && written.count == size && memcmp(room, wanted, size) == 0;
    piongseut_read_page83_answer read = piongseut_read_page83(room, size);
    int found = read.number == PIONGSEUT_ACCEPTED && read.form == PIONGSEUT_FORM_WWN && read.ports.chosen == (chosen & 3) &&
                read.ports.relative == (relative ? 2 : 0) && (memcmp(read.address, address, sizeof read.address) == 0) == sas;
    check(shown && made && found, what);
}

static void ports83(void)
{
    const piongseut_ports both = {PIONGSEUT_PORT_RELATIVE | PIONGSEUT_PORT_SAS, 1};
    page_with(PIONGSEUT_PORT_NONE, "page 83h without ports: shown, written, read");
    page_with(PIONGSEUT_PORT_RELATIVE, "page 83h with the relative target port");
    page_with(PIONGSEUT_PORT_SAS, "page 83h with the SAS target port");
    page_with(PIONGSEUT_PORT_RELATIVE | PIONGSEUT_PORT_SAS, "page 83h with both ports");
    page_with(0xFFFC, "bits that choose no port");
    prepare();
    memset(block, 0, sizeof block);
    piongseut_write_page83_answer written =
        piongseut_write_page83(block, sizeof block, both, address, PIONGSEUT_ADDRESS_SIZE, room, sizeof room);
    piongseut_read_page83_answer read = piongseut_read_page83(room, written.count);
    check(written.count == PIONGSEUT_PAGE83_MOST_SIZE && room[3] == PIONGSEUT_PAGE83_MOST_SIZE - 4 && room[83] == 1 &&
              read.form == PIONGSEUT_FORM_TEXT && read.ports.chosen == both.chosen && read.ports.relative == 1,
          "the longest page 83h: texts and both ports");
}

/* A port that there is not, and an address that is too short. */
static void ports_refused(void)
{
    const piongseut_ports third = {PIONGSEUT_PORT_RELATIVE, 3}, sas = {PIONGSEUT_PORT_SAS, 3};
    piongseut_inquiry_answer answer = ask_ports(0x83, third, 0);
    check(answer.number == WRONG_PORT && WRONG_PORT == PIONGSEUT_REFUSED_PORT && answer.status == PIONGSEUT_CHECK_CONDITION &&
              sense[0] == 0x72 && sense[1] == 0x05 && sense[2] == 0x24 && untouched(room, sizeof room),
          "page 83h with a port of 3, 19");
    answer = ask_ports(0x80, third, 0);
    check(answer.number == PIONGSEUT_ACCEPTED && answer.count == PIONGSEUT_PAGE80_SIZE, "page 80h with a port of 3");
    answer = ask_ports(0x80, sas, PIONGSEUT_ADDRESS_SIZE - 1);
    check(answer.number == PIONGSEUT_REFUSED_SIZE && answer.status == PIONGSEUT_NONE && untouched(sense, sizeof sense),
          "page 80h with an address of 7 bytes, 1");
    piongseut_write_page83_answer written = piongseut_write_page83(block, sizeof block, third, address, 0, room, 0);
    check(written.number == WRONG_PORT && written.count == 0, "the writer with a port of 3, 19 before 8");
    written = piongseut_write_page83(block, sizeof block, sas, address, PIONGSEUT_ADDRESS_SIZE - 1, room, sizeof room);
    check(written.number == PIONGSEUT_REFUSED_SIZE && untouched(room, sizeof room), "the writer with an address of 7 bytes, 1");
}

/* C1's block with A5h in byte 510: taken with the checksum that goes with it, 18 with another. */
static void damaged_block(void)
{
    static const uint8_t command[6] = {0x12, 0x01, 0x83, 0x00, 0xFF, 0x00};
    const uint16_t have = PIONGSEUT_BLOCK_SIZE;
    uint16_t row = 0xAAAA;
    prepare();
    block[510] = 0xA5;
    block[511] = 0xF1; /* C1's bytes sum to 6Ah */
    piongseut_inquiry_answer answer = ask(command, sizeof command, texts, 0);
    check(answer.number == PIONGSEUT_ACCEPTED && answer.count == PIONGSEUT_PAGE83_WWN_SIZE, "a right checksum: page 83h");
    prepare();
    block[510] = 0xA5;
    answer = ask(command, 0, texts, 0);
    check(answer.number == DAMAGED && answer.status == PIONGSEUT_NONE && answer.count == 0 && untouched(room, sizeof room) &&
              untouched(sense, sizeof sense),
          "INQUIRY with a damaged block and no command byte, 18");
    piongseut_write_page83_answer written = write_name(0);
    check(written.number == DAMAGED && written.count == 0, "page 83h of a damaged block, 18");
    piongseut_roll_answer rolled = piongseut_roll(block, sizeof block, &row, 1);
    check(rolled.number == DAMAGED && rolled.blocks == 0 && rolled.drives == 0 && row == 0xAAAA, "the roll of a damaged block, 18");
    piongseut_intake_gather_answer its = piongseut_intake_gather(&have, 1, block, sizeof block, room, sizeof room);
    check(its.number == DAMAGED && its.count == 0 && untouched(room, sizeof room), "gathering a damaged block, 18");
}

/* The three blocks of the rule book's sample; then no blocks, all that a roll has, and one more. */
static void rolls(void)
{
    static uint8_t blocks[(PIONGSEUT_ROLL_BLOCKS + 1) * PIONGSEUT_BLOCK_SIZE];
    uint16_t rows[PIONGSEUT_ROLL_BLOCKS + 1];
    memset(rows, 0xAA, sizeof rows);
    prepare();
    memcpy(blocks, block, sizeof block);
    memcpy(blocks + sizeof block, block, sizeof block);
    blocks[sizeof block + 20] = 0x41;
    piongseut_roll_answer answer = piongseut_roll(blocks, 3 * sizeof block, rows, 4);
    check(answer.number == PIONGSEUT_ACCEPTED && answer.blocks == 3 && answer.drives == 2,
          "the sample's roll: 3 blocks, 2 drives");
    check(rows[0] == 1 && rows[1] == 1 && rows[2] == 2 && rows[3] == 0xAAAA, "the sample's rows: 1, 1, 2");
    answer = piongseut_roll(blocks, 0, rows, 0);
    check(answer.number == PIONGSEUT_ACCEPTED && answer.blocks == 0 && answer.drives == 0, "a roll of no blocks");
    answer = piongseut_roll(blocks, 3 * sizeof block, rows, 2);
    check(answer.number == PIONGSEUT_REFUSED_SIZE && answer.blocks == 0 && answer.drives == 0, "fewer rows than blocks, 1");
    answer = piongseut_roll(blocks, sizeof blocks - sizeof block, rows, PIONGSEUT_ROLL_BLOCKS);
    check(answer.number == PIONGSEUT_ACCEPTED && answer.blocks == PIONGSEUT_ROLL_BLOCKS && answer.drives == 2, "64 blocks");
    answer = piongseut_roll(blocks, sizeof blocks, rows, PIONGSEUT_ROLL_BLOCKS + 1);
    check(answer.number == PIONGSEUT_REFUSED_SIZE, "65 blocks, 1");
}

/* Whether a refused run came back with the intake as it was, and nothing was written. */
static int run_refused(piongseut_intake intake, uint8_t *store, size_t size)
{
    static const uint8_t run[3] = {1, 2, 3};
    piongseut_intake_take_answer answer = piongseut_intake_take(intake, store, size, run, sizeof run);
    return answer.number == PIONGSEUT_REFUSED_SIZE && answer.used == 0 && answer.complete == 0 &&
           answer.next.have == intake.have && answer.next.sum == intake.sum && untouched(store, size);
}

static void refused_runs(void)
{
    const piongseut_intake too_many = {PIONGSEUT_BLOCK_SIZE + 1, 0xABCD};
    const piongseut_intake most = {0xFFFF, 1};
    static uint8_t store[PIONGSEUT_BLOCK_SIZE + 1];
    memset(store, FILL, sizeof store);
    check(run_refused(too_many, store, PIONGSEUT_BLOCK_SIZE) && run_refused(most, store, PIONGSEUT_BLOCK_SIZE),
          "an intake that claims more than 512 bytes, 1");
    check(run_refused(piongseut_intake_empty(), store, PIONGSEUT_BLOCK_SIZE - 1) &&
              run_refused(piongseut_intake_empty(), store, PIONGSEUT_BLOCK_SIZE + 1) &&
              run_refused(piongseut_intake_empty(), store, 0),
          "a store that is not of 512 bytes, 1");
}

/* Whether a run came to this: bytes used, bytes that the intake has then, complete exactly if they are a block, and C1's sum. */
static int took(piongseut_intake_take_answer answer, unsigned used, unsigned have)
{
    return answer.number == PIONGSEUT_ACCEPTED && answer.used == used && answer.next.have == have &&
           answer.complete == (have == PIONGSEUT_BLOCK_SIZE) && answer.next.sum == 0x6A;
}

/* C1's block and four bytes behind it, in three runs of which one has no bytes. Back: the intake, which is complete then. */
static piongseut_intake one_stream(uint8_t *store)
{
    static uint8_t wire[PIONGSEUT_BLOCK_SIZE + 4];
    const size_t rest = PIONGSEUT_BLOCK_SIZE - 300;
    const piongseut_intake empty = piongseut_intake_empty();
    memset(wire, 0x77, sizeof wire);
    memcpy(wire, block, sizeof block);
    check(empty.have == 0 && empty.sum == 0, "an empty intake has nothing");
    piongseut_intake_take_answer answer = piongseut_intake_take(empty, store, sizeof block, wire, 300);
    check(took(answer, 300, 300), "a run of 300 bytes: all used, not complete");
    check(memcmp(store, wire, 300) == 0 && untouched(store + 300, rest), "the store has its bytes, and no others");
    answer = piongseut_intake_take(answer.next, store, sizeof block, wire, 0);
    check(took(answer, 0, 300), "a run of no bytes: nothing changes");
    answer = piongseut_intake_take(answer.next, store, sizeof block, wire + 300, rest + 4);
    check(took(answer, (unsigned)rest, PIONGSEUT_BLOCK_SIZE), "a run of 216 bytes: 212 used, complete");
    check(memcmp(store, block, sizeof block) == 0, "the store is the stream's first 512 bytes");
    piongseut_intake_take_answer more = piongseut_intake_take(answer.next, store, sizeof block, wire + sizeof block, 4);
    check(took(more, 0, PIONGSEUT_BLOCK_SIZE) && memcmp(store, block, sizeof block) == 0,
          "a run for a complete intake: nothing used");
    return answer.next;
}

/* INQUIRY with what the intake gives as its block. */
static piongseut_inquiry_answer ask_intake(piongseut_intake intake, const uint8_t *store, uint8_t page)
{
    const uint8_t command[6] = {0x12, 0x01, page, 0xFF, 0xFF, 0x00};
    const size_t whole = intake.have == PIONGSEUT_BLOCK_SIZE ? PIONGSEUT_BLOCK_SIZE : 0;
    piongseut_intake_block_answer its = piongseut_intake_block(intake, PIONGSEUT_BLOCK_SIZE);
    check(its.number == PIONGSEUT_ACCEPTED && its.count == whole, "the block of an intake: 512 bytes or none");
    return piongseut_inquiry(command, sizeof command, store, its.count, signature, sizeof signature, texts, sizeof texts, texts, 0,
                             no_ports, texts, 0, PIONGSEUT_SENSE_DESCRIPTOR, room, sizeof room, sense, sizeof sense);
}

/* Pages from the complete intake, from one that lacks a byte, and no block of a wrong one. */
static void intake_pages(piongseut_intake intake, const uint8_t *store)
{
    static const uint8_t zeros[PIONGSEUT_BLOCK_SIZE] = {0};
    piongseut_inquiry_answer answer = ask_intake(intake, store, 0x89);
    check(answer.number == PIONGSEUT_ACCEPTED && answer.status == PIONGSEUT_GOOD && answer.shown == PIONGSEUT_SHOWN_ROOM &&
              answer.count == PIONGSEUT_PAGE89_SIZE && room[56] == 0xEC && memcmp(room + 60, block, sizeof block) == 0 &&
              untouched(room + PIONGSEUT_PAGE89_SIZE, sizeof room - PIONGSEUT_PAGE89_SIZE),
          "page 89h from the intake: its block");
    intake.have = PIONGSEUT_BLOCK_SIZE - 1;
    answer = ask_intake(intake, store, 0x89);
    check(answer.number == PIONGSEUT_ACCEPTED && answer.count == PIONGSEUT_PAGE89_SIZE &&
              memcmp(room + 60, zeros, sizeof zeros) == 0,
          "page 89h until complete: zeros");
    answer = ask_intake(intake, store, 0x83);
    check(answer.number == PIONGSEUT_REFUSED_NO_BLOCK && answer.status == PIONGSEUT_CHECK_CONDITION && sense[1] == 0x02,
          "page 83h until complete, 6");
    intake.have = PIONGSEUT_BLOCK_SIZE + 1;
    piongseut_intake_block_answer its = piongseut_intake_block(intake, PIONGSEUT_BLOCK_SIZE);
    check(its.number == PIONGSEUT_REFUSED_SIZE && its.count == 0, "the block of an intake that claims 513 bytes, 1");
    its = piongseut_intake_block(piongseut_intake_empty(), PIONGSEUT_BLOCK_SIZE - 1);
    check(its.number == PIONGSEUT_REFUSED_SIZE && its.count == 0, "the block of a store of 511 bytes, 1");
}

static uint8_t stores[2 * PIONGSEUT_BLOCK_SIZE];
static uint8_t gathered[2 * PIONGSEUT_BLOCK_SIZE];

/* Whether gathering from two intakes is refused with this number, and nothing is written. */
static int gather_refused(uint16_t first_has, size_t stores_size, size_t room_size, uint8_t number)
{
    const uint16_t haves[2] = {first_has, PIONGSEUT_BLOCK_SIZE};
    piongseut_intake_gather_answer answer = piongseut_intake_gather(haves, 2, stores, stores_size, gathered, room_size);
    return answer.number == number && answer.count == 0 && untouched(gathered, sizeof gathered);
}

/* Two intakes, of which the first is not complete: the roll is that of the second's block. */
static void intake_rolls(const uint8_t *store)
{
    const uint16_t short_of = PIONGSEUT_BLOCK_SIZE - 1;
    const uint16_t haves[2] = {short_of, PIONGSEUT_BLOCK_SIZE};
    uint16_t rows[2] = {0xAAAA, 0xAAAA};
    memset(stores, 'S', PIONGSEUT_BLOCK_SIZE);
    memcpy(stores + PIONGSEUT_BLOCK_SIZE, store, PIONGSEUT_BLOCK_SIZE);
    memset(gathered, FILL, sizeof gathered);
    check(gather_refused(short_of, sizeof stores, PIONGSEUT_BLOCK_SIZE - 1, PIONGSEUT_REFUSED_ROOM), "room 511 for one block, 8");
    check(gather_refused(short_of, sizeof stores - 1, sizeof gathered, PIONGSEUT_REFUSED_SIZE),
          "stores of 1,023 bytes for two intakes, 1");
    check(gather_refused(PIONGSEUT_BLOCK_SIZE + 1, sizeof stores, sizeof gathered, PIONGSEUT_REFUSED_SIZE),
          "gathering from an intake that claims 513 bytes, 1");
    piongseut_intake_gather_answer its = piongseut_intake_gather(haves, 2, stores, sizeof stores, gathered, sizeof gathered);
    check(its.number == PIONGSEUT_ACCEPTED && its.count == PIONGSEUT_BLOCK_SIZE, "two intakes, one complete: 512 bytes");
    check(memcmp(gathered, store, PIONGSEUT_BLOCK_SIZE) == 0 && untouched(gathered + PIONGSEUT_BLOCK_SIZE, PIONGSEUT_BLOCK_SIZE),
          "the complete intake's block is at the room's start");
    piongseut_roll_answer answer = piongseut_roll(gathered, its.count, rows, 2);
    check(answer.number == PIONGSEUT_ACCEPTED && answer.blocks == 1 && answer.drives == 1 && rows[0] == 1 && rows[1] == 0xAAAA,
          "the roll of what was gathered: one block, one drive");
}

static void intakes(void)
{
    static uint8_t store[PIONGSEUT_BLOCK_SIZE];
    prepare();
    memset(store, FILL, sizeof store);
    refused_runs();
    piongseut_intake intake = one_stream(store);
    intake_pages(intake, store);
    intake_rolls(store);
}

/* Whether a census is refused with this number, and comes back as it was. */
static int census_refused(piongseut_census census, size_t size, uint8_t number)
{
    piongseut_census_answer answer = piongseut_census_feed(census, block, size);
    return answer.number == number && memcmp(&answer.next, &census, sizeof census) == 0;
}

/* C1's block with Ultra DMA mode 5 and version 8, then with neither; a census that is full, and one that no blocks make. */
static void censuses(void)
{
    static const piongseut_census none = {0, 0, 0, {0}, {0}};
    piongseut_census full = {0xFFFF, 0xFFFF, 0, {0, 0, 0, 0, 0, 0, 0, 0xFFFF}, {0xFFFF}};
    piongseut_census census = piongseut_census_empty();
    check(memcmp(&census, &none, sizeof none) == 0, "an empty census counts nothing");
    prepare();
    block[106] = 0x04;
    block[160] = 0xF8;
    block[161] = 0x01;
    block[176] = 0x3F;
    census = piongseut_census_feed(census, block, sizeof block).next;
    check(census.blocks == 1 && census.named == 1 && census.unnamed == 0 && census.udma[5] == 1 && census.version[7] == 1,
          "a block with a name, mode 5 and version 8");
    memset(block, 0, sizeof block);
    census = piongseut_census_feed(census, block, sizeof block).next;
    check(census.blocks == 2 && census.named == 1 && census.unnamed == 1 && census.udma[7] == 1 && census.version[14] == 1,
          "a block with none of them");
    check(census_refused(full, sizeof block, WRONG_CENSUS), "a census of 65,535 blocks, 17");
    check(census_refused(full, 0, PIONGSEUT_REFUSED_SIZE), "no block, 1");
    full.blocks--;
    check(census_refused(full, sizeof block, WRONG_CENSUS), "groupings of a block too many, 17");
    block[510] = 0xA5;
    check(census_refused(census, sizeof block, DAMAGED), "a damaged block, 18");
}

/* What is built of an order has these bytes and zeros behind them, and submitted with nothing pending it makes the order. */
static void built_as(piongseut_order order, const uint8_t *wanted, uint8_t size, const char *what)
{
    static const uint8_t zeros[PIONGSEUT_COMMAND_SIZE] = {0};
    const piongseut_build_answer answer = piongseut_build(order);
    piongseut_record record = piongseut_record_empty();
    memset(sense, FILL, sizeof sense);
    const piongseut_submit_answer again =
        piongseut_submit(&record, answer.command, answer.size, registers, sizeof registers, block, 0, order.length,
                         PIONGSEUT_EDITION_FIRST, PIONGSEUT_SENSE_UNSTATED, sense, sizeof sense);
    check(answer.number == PIONGSEUT_ACCEPTED && answer.size == size && memcmp(answer.command, wanted, size) == 0 &&
              memcmp(answer.command + size, zeros, (size_t)(PIONGSEUT_COMMAND_SIZE - size)) == 0 &&
              again.number == PIONGSEUT_ACCEPTED && again.status == PIONGSEUT_NONE && same_order(&again.order, &order) &&
              same_order(&record.order, &order) && untouched(sense, sizeof sense),
          what);
}

static void not_built(piongseut_order order, const char *what)
{
    static const piongseut_build_answer wanted = {PIONGSEUT_REFUSED_ORDER, 0, {0}};
    const piongseut_build_answer answer = piongseut_build(order);
    check(memcmp(&answer, &wanted, sizeof wanted) == 0, what);
}

/* Orders by their fields, as the header has them: a write of 5 blocks of which every field says something, C6, and a reset. */
static const piongseut_order long_write = {5 * 512, 0, 0x0102, 5, 0x0506, 0x0708, 0x090A, 6, 8, 0x40, 0xCA,
                                           PIONGSEUT_PROTOCOL_PIO_DATA_OUT, 1, 1, PIONGSEUT_DIRECTION_TO_DRIVE};
static const piongseut_order identify = {512, 0, 0, 1, 0, 0, 0, 0, 1, 0, 0xEC,
                                         PIONGSEUT_PROTOCOL_PIO_DATA_IN, 0, 0, PIONGSEUT_DIRECTION_FROM_DRIVE};
static const piongseut_order srst = {0, 0, 0, 0, 0, 0, 0, 14, 1, 0, 0, PIONGSEUT_PROTOCOL_SRST, 0, 0, PIONGSEUT_DIRECTION_NONE};

static void built_commands(void)
{
    static const uint8_t c6[] = {0xA1, 0x08, 0x0E, 0, 1, 0, 0, 0, 0, 0xEC, 0, 0};
    static const uint8_t check_power[] = {0xA1, 0x06, 0x20, 0, 0, 0, 0, 0, 0, 0xE5, 0, 0};
    static const uint8_t reset[] = {0xA1, 0x02, 0xC0, 0, 0, 0, 0, 0, 0, 0, 0, 0};
    static const uint8_t bytes[] = {0x85, 0x6B, 0xA6, 1, 2, 0, 5, 5, 6, 7, 8, 9, 10, 0x40, 0xCA, 0};
    const piongseut_order power = {0, 0, 0, 0, 0, 0, 0, 0, 1, 0, 0xE5, PIONGSEUT_PROTOCOL_NON_DATA, 1, 0, PIONGSEUT_DIRECTION_NONE};
    check(sizeof c6 == PIONGSEUT_COMMAND_SHORT_SIZE && sizeof bytes == PIONGSEUT_COMMAND_LONG_SIZE, "the sizes of built commands");
    built_as(identify, c6, sizeof c6, "the order of C6 is built into C6");
    built_as(power, check_power, sizeof check_power, "an order without data, CK_COND");
    built_as(srst, reset, sizeof reset, "a reset in the short form");
    built_as(long_write, bytes, sizeof bytes, "EXTEND: the long form, every field");
}

/* Data of so many bytes: BYTE_BLOCK and T_LENGTH are these. */
static void built_with(uint32_t length, uint16_t features, uint16_t count, uint8_t bits, const char *what)
{
    uint8_t bytes[] = {0x85, 0x6B, (uint8_t)(0xA0 | bits), 0, 0, 0, 0, 5, 6, 7, 8, 9, 10, 0x40, 0xCA, 0};
    piongseut_order order = long_write;
    order.length = length;
    order.features = features;
    order.count = count;
    bytes[3] = (uint8_t)(features >> 8);
    bytes[4] = (uint8_t)features;
    bytes[5] = (uint8_t)(count >> 8);
    bytes[6] = (uint8_t)count;
    built_as(order, bytes, sizeof bytes, what);
}

static void built_lengths(void)
{
    built_with(33553920, 7, 0xFFFF, 0x06, "the count in blocks, the most");
    built_with(512, 512, 1, 0x06, "the count in blocks before the features in bytes");
    built_with(512, 1, 512, 0x02, "the count in bytes before the features in blocks");
    built_with(512, 1, 2, 0x05, "the features in blocks");
    built_with(7, 7, 2, 0x01, "the features in bytes");
    built_with(100, 7, 2, 0x03, "a length that neither has: as declared");
    built_with(UINT32_MAX, 0, 0, 0x03, "the longest length");
}

/* An order with one field changed that no command can give it. */
#define NOT_BUILT(of, field, value, what)   \
    do {                                    \
        piongseut_order changed = (of);     \
        changed.field = (value);            \
        not_built(changed, what);           \
    } while (0)

static void refused_fields(void)
{
    NOT_BUILT(identify, auxiliary, 1, "an auxiliary number, 23");
    NOT_BUILT(identify, quiet_seconds, 3, "3 quiet seconds, 23");
    NOT_BUILT(identify, sectors_per_block, 0, "no sectors per block, 23");
    NOT_BUILT(identify, sectors_per_block, 3, "3 sectors per block, 23");
    NOT_BUILT(identify, sectors_per_block, 256, "256 sectors per block, 23");
    NOT_BUILT(identify, ck_cond, 2, "CK_COND 2, 23");
    NOT_BUILT(long_write, extend, 2, "EXTEND 2, 23");
    NOT_BUILT(long_write, extend, 0, "registers above FFh without EXTEND, 23");
    NOT_BUILT(identify, protocol, 2, "protocol 2, 23");
    NOT_BUILT(identify, protocol, 7, "protocol 7, 23");
    NOT_BUILT(identify, protocol, 12, "protocol 12, 23");
    NOT_BUILT(identify, protocol, PIONGSEUT_PROTOCOL_RETURN_RESPONSE_INFORMATION, "protocol 15, 23");
    NOT_BUILT(identify, protocol, 16 + PIONGSEUT_PROTOCOL_PIO_DATA_IN, "protocol 20, 23");
    NOT_BUILT(identify, length, 0, "data of length 0, 23");
    NOT_BUILT(identify, direction, PIONGSEUT_DIRECTION_TO_DRIVE, "the wrong way, 23");
    NOT_BUILT(identify, direction, PIONGSEUT_DIRECTION_NONE, "data no way, 23");
    NOT_BUILT(identify, protocol, PIONGSEUT_PROTOCOL_NON_DATA, "a protocol without data, and data, 23");
    NOT_BUILT(long_write, direction, 3, "direction 3, 23");
}

static void refused_resets(void)
{
    static const piongseut_order zeros = {0, 0, 0, 0, 0, 0, 0, 0, 0, 0, 0, 0, 0, 0, 0};
    not_built(zeros, "zeros, which have no sectors, 23");
    NOT_BUILT(srst, quiet_seconds, 30, "a reset with 30 quiet seconds, 23");
    NOT_BUILT(srst, sectors_per_block, 2, "a reset with 2 sectors, 23");
    NOT_BUILT(srst, length, 1, "a reset with a length, 23");
    NOT_BUILT(srst, features, 1, "a reset with features, 23");
    NOT_BUILT(srst, count, 1, "a reset with a count, 23");
    NOT_BUILT(srst, lba_low, 1, "a reset with LBA low, 23");
    NOT_BUILT(srst, lba_mid, 1, "a reset with LBA mid, 23");
    NOT_BUILT(srst, lba_high, 1, "a reset with LBA high, 23");
    NOT_BUILT(srst, device, 0x40, "a reset with a device, 23");
    NOT_BUILT(srst, command, 0xEC, "a reset with a command, 23");
    NOT_BUILT(srst, ck_cond, 1, "a reset with CK_COND, 23");
    NOT_BUILT(srst, extend, 1, "a reset with EXTEND, 23");
    NOT_BUILT(srst, direction, PIONGSEUT_DIRECTION_FROM_DRIVE, "a reset with a direction, 23");
}

static uint8_t captured[PIONGSEUT_PAGE89_SIZE + 128];
static size_t captured_size;

/* Puts a field with what the room holds behind those that are there. */
static void capture(uint8_t tag, size_t size)
{
    uint8_t *to = captured + captured_size;
    to[0] = tag;
    to[1] = (uint8_t)(size >> 8);
    to[2] = (uint8_t)size;
    memcpy(to + 3, room, size);
    captured_size += 3 + size;
}

/* The board's own replies of C1's drive with both ports, all five. */
static void capture_all(void)
{
    static const uint8_t tags[5] = {0x00, 0x01, 0x80, 0x83, 0x89};
    const piongseut_ports ports = {PIONGSEUT_PORT_RELATIVE | PIONGSEUT_PORT_SAS, 2};
    captured_size = 0;
    prepare();
    for (unsigned at = 0; at < sizeof tags; at++) {
        const uint8_t evpd = tags[at] != 0x01, page = evpd ? tags[at] : 0x00;
        const uint8_t command[6] = {0x12, evpd, page, 0x02, 0x3C, 0x00};
        piongseut_inquiry_answer answer =
            piongseut_inquiry(command, sizeof command, block, sizeof block, signature, sizeof signature, texts, sizeof texts, texts,
                              0, ports, address, PIONGSEUT_ADDRESS_SIZE, PIONGSEUT_SENSE_DESCRIPTOR, room, sizeof room, sense,
                              sizeof sense);
        capture(tags[at], answer.count);
    }
}

/* Whether the check of what is captured comes to this. */
static int checked(uint8_t number, uint8_t accepted, uint8_t tag, size_t place)
{
    piongseut_check_answer answer = piongseut_check(captured, captured_size);
    return answer.number == number && answer.accepted == accepted && answer.tag == tag && answer.place == place;
}

/* Where the fields of the capture begin that are changed here. */
enum { PAGE83_AT = 11 + 39 + 27 + 3, PAGE89_AT = PAGE83_AT + 36 + 3, BROKEN = 21, PACKET_DRIVE = 22 };

static void captures(void)
{
    capture_all();
    check(checked(PIONGSEUT_ACCEPTED, 1, 0, 0), "the board's own replies in a capture");
    captured[PAGE83_AT + 23] = 1;
    check(checked(PIONGSEUT_ACCEPTED, 1, 0, 0), "the other port");
    captured[PAGE83_AT + 23] = 3;
    check(checked(PIONGSEUT_ACCEPTED, 0, 0x83, 23), "a port of 3: 83h differs at 23");
    captured[PAGE89_AT + 3] = 0;
    captured[3 + 3] = 5;
    check(checked(PIONGSEUT_ACCEPTED, 0, 0x00, 3), "three fields that differ: the first is named");
    captured[PAGE89_AT + 60 + 510] = 0xA5;
    check(checked(DAMAGED, 0, 0, 0), "a damaged block, 18");
    captured[PAGE89_AT + 36 + 5] = 0x14;
    captured[PAGE89_AT + 36 + 6] = 0xEB;
    check(checked(PACKET_DRIVE, 0, 0, 0) && PACKET_DRIVE == PIONGSEUT_REFUSED_PACKET, "a packet drive, 22 before 18");
    captured[captured_size++] = 0x89;
    check(checked(BROKEN, 0, 0, PAGE89_AT + PIONGSEUT_PAGE89_SIZE) && BROKEN == PIONGSEUT_REFUSED_CAPTURE,
          "a byte behind the last field, 21 before 22");
    captured_size -= 2;
    check(checked(BROKEN, 0, 0, PAGE89_AT - 3), "89h that is cut, 21 at its tag");
    captured_size = PAGE89_AT - 3;
    check(checked(BROKEN, 0, 0, captured_size), "no 89h, 21 at the end");
    captured_size = 0;
    check(checked(BROKEN, 0, 0, 0), "nothing captured, 21");
}

int main(void)
{
    version();
    inquiries();
    page_sizes();
    page89();
    packet_drives();
    refused_orders();
    one_order();
    hung_order();
    single_reset();
    other_state();
    own_flags();
    c12();
    register_places();
    fixed_refusals();
    longest_order();
    long_command();
    sectors();
    protocols();
    pages83();
    ports83();
    ports_refused();
    damaged_block();
    rolls();
    intakes();
    censuses();
    built_commands();
    built_lengths();
    refused_fields();
    refused_resets();
    captures();
    printf("uses_all: %d passed, %d failed\n", passed, failed);
    return failed != 0;
}
