/*
 * One record, lent to a long seeded run of submissions and completions in both editions, with refusals, PROTOCOL 15, drive errors, resets
 * over orders, host resets and records of other bytes between. A small model, written from docs/RULES.md, says after every step what must
 * have come back and what every lent byte must be; and a ledger, which knows nothing but what came back, says that every order that was
 * taken is ended or told lost once, or is still pending. Each order is built into a command, which must make it again.
 */
#include "piongseut.h"

#include <stdio.h>
#include <stdlib.h>
#include <string.h>

enum { FILL = 0xA5, SENSE = PIONGSEUT_SENSE_SIZE + 2, REGISTERS_AT = PIONGSEUT_SENSE_SIZE - PIONGSEUT_REGISTERS_SIZE };

/* The model's record, byte by byte. */
static piongseut_record model;

/* What can be pending, and what a call can be that finds it so. */
enum { NOTHING, ORDER, RESET, BOTH, PENDING };
enum { REPORTS, RESETS, ORDERS, COMPLETES, MEETS };

static uint64_t seed = 20;
static unsigned seen[PIONGSEUT_REFUSED_SERVICE_ACTION + 1], met[PENDING][MEETS], completions[PENDING][3];
static unsigned host_resets, told[2], lost_protocols[256];

/* xorshift64: the same run on every machine. */
static unsigned roll(unsigned below)
{
    seed ^= seed << 13;
    seed ^= seed >> 7;
    seed ^= seed << 17;
    return (unsigned)((seed >> 32) % below);
}

/* A form of sense data: each of the three, and numbers that are none of them. */
static uint8_t draw_form(void)
{
    return (uint8_t)(roll(4) ? roll(3) : roll(256));
}

static void put_sense(uint8_t *sense, uint8_t form, uint8_t key, uint8_t asc, uint8_t ascq)
{
    const int fixed = form != PIONGSEUT_SENSE_DESCRIPTOR;
    memset(sense, 0, fixed ? PIONGSEUT_FIXED_SENSE_SIZE : PIONGSEUT_REFUSAL_SENSE_SIZE);
    told[fixed]++;
    sense[0] = fixed ? 0x70 : 0x72;
    sense[7] = fixed ? 0x0A : 0x00;
    sense[fixed ? 2 : 1] = key;
    sense[fixed ? 12 : 2] = asc;
    sense[fixed ? 13 : 3] = ascq;
}

/* The fixed form's registers: of count and LBA the lower bytes, and in byte 8 what EXTEND and the upper ones say. */
static void put_fixed_registers(uint8_t *sense, uint8_t extend, const uint8_t *registers)
{
    const int count = registers[PIONGSEUT_REGISTER_COUNT_HIGH] != 0;
    const int lba = registers[PIONGSEUT_REGISTER_LBA_LOW_HIGH] != 0 || registers[PIONGSEUT_REGISTER_LBA_MID_HIGH] != 0 ||
                    registers[PIONGSEUT_REGISTER_LBA_HIGH_HIGH] != 0;
    sense[3] = registers[PIONGSEUT_REGISTER_ERROR];
    sense[4] = registers[PIONGSEUT_REGISTER_STATUS];
    sense[5] = registers[PIONGSEUT_REGISTER_DEVICE];
    sense[6] = registers[PIONGSEUT_REGISTER_COUNT_LOW];
    sense[8] = (uint8_t)(extend ? 0x80 | count << 6 | lba << 5 : 0);
    sense[9] = registers[PIONGSEUT_REGISTER_LBA_LOW_LOW];
    sense[10] = registers[PIONGSEUT_REGISTER_LBA_MID_LOW];
    sense[11] = registers[PIONGSEUT_REGISTER_LBA_HIGH_LOW];
}

/* The descriptor form: the 8 bytes, then the drive's registers. With EXTEND zero the four upper bytes are 00. */
static void put_registers(uint8_t *sense, uint8_t form, uint8_t key, uint8_t ascq, uint8_t extend, const uint8_t *registers)
{
    put_sense(sense, form, key, 0, ascq);
    if (form != PIONGSEUT_SENSE_DESCRIPTOR) {
        put_fixed_registers(sense, extend, registers);
        return;
    }
    sense[7] = 0x0E;
    sense[8] = 0x09;
    sense[9] = 0x0C;
    sense[10] = extend;
    uint8_t *shown = sense + REGISTERS_AT;
    memcpy(shown, registers, PIONGSEUT_REGISTERS_SIZE);
    if (extend) return;
    shown[PIONGSEUT_REGISTER_COUNT_HIGH] = 0;
    shown[PIONGSEUT_REGISTER_LBA_LOW_HIGH] = 0;
    shown[PIONGSEUT_REGISTER_LBA_MID_HIGH] = 0;
    shown[PIONGSEUT_REGISTER_LBA_HIGH_HIGH] = 0;
}

/* ---- The forms of a command, and PROTOCOL ---- */

/* Where a form has its two flag bytes, its control byte, and its registers: of a register the upper and the lower byte. */
typedef struct {
    uint8_t opcode, size, flags, control, features[2], count[2], lba_low[2], lba_mid[2], lba_high[2], device, command;
} form_of_command;

static const form_of_command forms[] = {
    {0x85, 16, 1, 15, {3, 4}, {5, 6}, {7, 8}, {9, 10}, {11, 12}, 13, 14},
    {0x7F, 32, 10, 1, {20, 21}, {22, 23}, {16, 19}, {15, 18}, {14, 17}, 24, 25},
};

static const form_of_command *form_by(const uint8_t *command)
{
    return &forms[command[0] == forms[1].opcode];
}

static uint8_t protocol_of(const uint8_t *command)
{
    return command[form_by(command)->flags] >> 1 & 15;
}

static int resets_drive(unsigned protocol)
{
    return protocol == PIONGSEUT_PROTOCOL_ATA_HARDWARE_RESET || protocol == PIONGSEUT_PROTOCOL_SRST;
}

static int moves_no_data(unsigned protocol)
{
    return protocol == PIONGSEUT_PROTOCOL_NON_DATA || protocol == PIONGSEUT_PROTOCOL_EXECUTE_DEVICE_DIAGNOSTIC ||
           protocol == PIONGSEUT_PROTOCOL_DEVICE_RESET;
}

static int only_from_drive(unsigned protocol)
{
    return protocol == PIONGSEUT_PROTOCOL_PIO_DATA_IN || protocol == PIONGSEUT_PROTOCOL_UDMA_DATA_IN;
}

static int only_to_drive(unsigned protocol)
{
    return protocol == PIONGSEUT_PROTOCOL_PIO_DATA_OUT || protocol == PIONGSEUT_PROTOCOL_UDMA_DATA_OUT;
}

static int served(unsigned protocol)
{
    return resets_drive(protocol) || moves_no_data(protocol) || only_from_drive(protocol) || only_to_drive(protocol) ||
           protocol == PIONGSEUT_PROTOCOL_DMA || protocol == PIONGSEUT_PROTOCOL_RETURN_RESPONSE_INFORMATION;
}

/* ---- The ledger ---- */

/* How many orders were taken, ended, told lost, and dropped by a host that empties the record: by what came back alone. */
static unsigned taken_orders, ended_orders, lost_orders, dropped_orders;

/* The protocols of those that were taken and of which nothing is told yet, the oldest first. */
static uint8_t open_orders[2];
static unsigned open_count;

static int enter(uint8_t protocol)
{
    taken_orders++;
    if (open_count == 2) return 0;
    open_orders[open_count++] = protocol;
    return 1;
}

/* Of what is open the newest ends, and the one before it, if any, is told lost; then none is open. */
static int strike(const piongseut_complete_answer *answer)
{
    const unsigned open = open_count;
    lost_orders += answer->lost;
    if (answer->number != PIONGSEUT_ACCEPTED) return answer->lost == 0 && answer->lost_protocol == 0;
    ended_orders++;
    open_count = 0;
    if (open == 2) return answer->lost == 1 && answer->lost_protocol == open_orders[0];
    return open == 1 && answer->lost == 0 && answer->lost_protocol == 0;
}

static unsigned orders_in(const piongseut_record *record)
{
    if (record->state == PIONGSEUT_STATE_NOTHING) return 0;
    return record->state == PIONGSEUT_STATE_RESET_OVER_ORDER ? 2 : 1;
}

static void drop(const piongseut_record *record)
{
    dropped_orders += orders_in(record);
    open_count = 0;
}

static int balanced(const piongseut_record *record)
{
    return taken_orders == ended_orders + lost_orders + dropped_orders + orders_in(record);
}

/* ---- The model ---- */

static int pending(void)
{
    if (model.state == PIONGSEUT_STATE_NOTHING) return NOTHING;
    if (model.state == PIONGSEUT_STATE_RESET_OVER_ORDER) return BOTH;
    return resets_drive(model.order.protocol) ? RESET : ORDER;
}

/* A submission: the command, and what the host says and lends with it. */
typedef struct {
    uint8_t command[32], block[PIONGSEUT_BLOCK_SIZE], edition;
    size_t block_size;
    uint32_t declared;
} submitted;

static int is_later(const submitted *sent)
{
    return sent->edition == PIONGSEUT_EDITION_LATER;
}

static uint16_t wide(const uint8_t *command, const uint8_t *places, int extend)
{
    return (uint16_t)((extend ? command[places[0]] << 8 : 0) | command[places[1]]);
}

static uint32_t number_at(const uint8_t *bytes)
{
    return (uint32_t)bytes[0] << 24 | (uint32_t)bytes[1] << 16 | (uint32_t)bytes[2] << 8 | bytes[3];
}

/* Whether logical sectors are counted: T_TYPE and BYTE_BLOCK are one, and T_LENGTH is 1 or 2. */
static int counts_sectors(const submitted *sent)
{
    const uint8_t flags = sent->command[form_by(sent->command)->flags + 1];
    return is_later(sent) && (flags & 0x14) == 0x14 && (flags & 3) % 3 != 0;
}

/* What a count counts, in bytes: RULES 8.2. */
static uint64_t unit_of(const submitted *sent)
{
    const uint8_t *block = sent->block, said = block[2 * 106 + 1];
    const uint8_t words[4] = {block[2 * 118 + 1], block[2 * 118], block[2 * 117 + 1], block[2 * 117]};
    if (!(sent->command[form_by(sent->command)->flags + 1] & 4)) return 1;
    return counts_sectors(sent) && said >> 6 == 1 && (said & 0x10) ? 2 * (uint64_t)number_at(words) : 512;
}

/* The length in bytes, of which an order has the lower 32 bits: RULES 8.2. */
static uint64_t length_of(const submitted *sent)
{
    const uint8_t *command = sent->command;
    const form_of_command *form = form_by(command);
    const unsigned extend = command[form->flags] & 1, field = command[form->flags + 1] & 3;
    if (field == 0) return 0;
    if (field == 3) return sent->declared;
    return unit_of(sent) * wide(command, field == 1 ? form->features : form->count, (int)extend);
}

/* The order of a command, as RULES 8 reads its bytes. */
static piongseut_order order_of(const submitted *sent)
{
    const uint8_t *command = sent->command;
    const form_of_command *form = form_by(command);
    const uint8_t first = command[form->flags], second = command[form->flags + 1], extend = first & 1;
    piongseut_order order;
    memset(&order, 0, sizeof order);
    order.protocol = protocol_of(command);
    order.quiet_seconds = (uint16_t)((2 << (second >> 6)) - 2);
    order.sectors_per_block = 1;
    if (resets_drive(order.protocol)) return order;
    order.length = (uint32_t)length_of(sent);
    order.auxiliary = form->size == 32 ? number_at(command + 28) : 0;
    order.extend = extend;
    order.sectors_per_block = (uint16_t)(1 << (first >> 5));
    order.ck_cond = second >> 5 & 1;
    order.features = wide(command, form->features, extend);
    order.count = wide(command, form->count, extend);
    order.lba_low = wide(command, form->lba_low, extend);
    order.lba_mid = wide(command, form->lba_mid, extend);
    order.lba_high = wide(command, form->lba_high, extend);
    order.device = command[form->device];
    order.command = command[form->command];
    if (second & 3) order.direction = second & 8 ? PIONGSEUT_DIRECTION_FROM_DRIVE : PIONGSEUT_DIRECTION_TO_DRIVE;
    return order;
}

static int damaged(const submitted *sent)
{
    uint8_t sum = 0;
    for (size_t at = 0; at < sent->block_size; at++) sum = (uint8_t)(sum + sent->block[at]);
    return sent->block_size == PIONGSEUT_BLOCK_SIZE && sent->block[510] == 0xA5 && sum != 0;
}

/* Of an order with data, the refusal's number by its direction and length. */
static uint8_t refused_length(const submitted *sent)
{
    const unsigned protocol = protocol_of(sent->command), from_drive = sent->command[form_by(sent->command)->flags + 1] >> 3 & 1;
    if (from_drive ? only_to_drive(protocol) : only_from_drive(protocol)) return PIONGSEUT_REFUSED_T_DIR;
    if (counts_sectors(sent) && sent->block_size == 0) return PIONGSEUT_REFUSED_NO_BLOCK;
    if (length_of(sent) == 0) return PIONGSEUT_REFUSED_LENGTH_ZERO;
    return length_of(sent) > sent->declared ? PIONGSEUT_REFUSED_ABOVE_DECLARED : PIONGSEUT_ACCEPTED;
}

/* The refusal's number. */
static uint8_t refusal(const submitted *sent)
{
    const uint8_t *command = sent->command;
    const form_of_command *form = form_by(command);
    const unsigned protocol = protocol_of(command), field = command[form->flags + 1] & 3;
    if (is_later(sent) && damaged(sent)) return PIONGSEUT_REFUSED_DAMAGED;
    if (form->size == 32 && !is_later(sent)) return PIONGSEUT_REFUSED_OPCODE;
    if (command[form->control] & 4) return PIONGSEUT_REFUSED_FIELD;
    if (form->size == 32 && memcmp(command + 7, "\x18\x1F\xF0", 3) != 0) return PIONGSEUT_REFUSED_SERVICE_ACTION;
    if (!served(protocol)) return PIONGSEUT_REFUSED_PROTOCOL;
    if (protocol == PIONGSEUT_PROTOCOL_RETURN_RESPONSE_INFORMATION) return PIONGSEUT_ACCEPTED;
    if (pending() != NOTHING && !(pending() == ORDER && resets_drive(protocol))) return PIONGSEUT_REFUSED_PENDING;
    if (resets_drive(protocol)) return PIONGSEUT_ACCEPTED;
    if (moves_no_data(protocol) != (field == 0)) return PIONGSEUT_REFUSED_T_LENGTH;
    return moves_no_data(protocol) ? PIONGSEUT_ACCEPTED : refused_length(sent);
}

/* The status of a refusal, and the sense data that it leaves: RULES 3. */
static uint8_t refuse(uint8_t number, uint8_t form, uint8_t *wanted)
{
    if (number == PIONGSEUT_REFUSED_PENDING) return PIONGSEUT_BUSY;
    if (number == PIONGSEUT_REFUSED_DAMAGED) return PIONGSEUT_NONE;
    if (number == PIONGSEUT_REFUSED_OPCODE) put_sense(wanted, form, 0x05, 0x20, 0x00);
    else if (number == PIONGSEUT_REFUSED_NO_BLOCK) put_sense(wanted, form, 0x02, 0x04, 0x00);
    else put_sense(wanted, form, 0x05, 0x24, 0x00);
    return PIONGSEUT_CHECK_CONDITION;
}

/* Puts an accepted order into the model: by itself, or a reset over the order that is there. */
static void hold(const piongseut_order *order)
{
    if (pending() == NOTHING) {
        memset(&model, 0, sizeof model);
        model.state = PIONGSEUT_STATE_ORDER;
        model.order = *order;
        return;
    }
    model.state = PIONGSEUT_STATE_RESET_OVER_ORDER;
    model.older = model.order;
    model.order = *order;
}

static int same_record(const piongseut_record *record)
{
    return memcmp(record, &model, sizeof model) == 0;
}

static void meet(unsigned protocol)
{
    const int report = protocol == PIONGSEUT_PROTOCOL_RETURN_RESPONSE_INFORMATION;
    met[pending()][report ? REPORTS : resets_drive(protocol) ? RESETS : ORDERS]++;
}

/* ---- The run ---- */

/* A command with each field drawn, most often one that can be taken. */
static void draw_command(uint8_t *command)
{
    static const uint8_t protocols[] = {
        PIONGSEUT_PROTOCOL_NON_DATA,           PIONGSEUT_PROTOCOL_PIO_DATA_IN,
        PIONGSEUT_PROTOCOL_PIO_DATA_OUT,       PIONGSEUT_PROTOCOL_DMA,
        PIONGSEUT_PROTOCOL_ATA_HARDWARE_RESET, PIONGSEUT_PROTOCOL_SRST,
        PIONGSEUT_PROTOCOL_DEVICE_RESET,       PIONGSEUT_PROTOCOL_EXECUTE_DEVICE_DIAGNOSTIC,
        PIONGSEUT_PROTOCOL_UDMA_DATA_IN,       PIONGSEUT_PROTOCOL_UDMA_DATA_OUT,
    };
    const form_of_command *form = &forms[roll(3) == 0];
    uint8_t *flags = command + form->flags;
    for (int at = 0; at < 32; at++) command[at] = (uint8_t)(roll(3) ? roll(256) : 0);
    command[0] = form->opcode;
    if (form->size == 32) memcpy(command + 7, "\x18\x1F\xF0", 3);
    if (form->size == 32 && roll(20) == 0) command[7 + roll(3)] ^= 1;
    command[form->control] = roll(20) ? 0 : 4;
    const unsigned protocol = roll(4) ? protocols[roll(sizeof protocols)] : roll(16);
    flags[0] = (uint8_t)((flags[0] & 0xE1) | protocol << 1);
    if (roll(8) == 0) return;
    flags[1] &= 0xF4;
    if (!moves_no_data(protocol)) flags[1] |= (uint8_t)(1 + roll(3));
    if (only_from_drive(protocol)) flags[1] |= 8;
    if (only_to_drive(protocol)) flags[1] &= 0xF7;
}

/* A block, most often of a drive that tells the size of its sectors; in the first edition bytes of any number, which are no block. */
static void draw_block(submitted *sent)
{
    static const uint32_t words[] = {0, 256, 260, 2048, 0x10000, 0x80000000, 0xFFFFFFFF};
    const uint32_t size = words[roll(sizeof words / sizeof *words)];
    memset(sent->block, 0, sizeof sent->block);
    sent->block[2 * 106 + 1] = (uint8_t)(roll(4) ? 0x50 : roll(256));
    for (int at = 0; at < 4; at++) sent->block[2 * 117 + at] = (uint8_t)(size >> (8 * at));
    if (roll(20) == 0) sent->block[510] = 0xA5;
    sent->block_size = roll(6) ? sizeof sent->block : is_later(sent) ? 0 : roll(sizeof sent->block);
}

static void draw(submitted *sent)
{
    draw_command(sent->command);
    sent->edition = (uint8_t)(roll(2) ? PIONGSEUT_EDITION_LATER : roll(2) ? PIONGSEUT_EDITION_FIRST : roll(256));
    sent->declared = roll(4) ? 0x02000000 : roll(1024);
    draw_block(sent);
}

/* Orders that carry an auxiliary number, and those whose length is of logical sectors that have not 512 bytes. */
static unsigned auxiliaries, sectors;

/* Orders that were built, and those that have an auxiliary number, which no command of 12 or 16 bytes makes. */
static unsigned built_orders, unbuilt_orders;

/* Whether an order that was taken is built into a command that makes it by itself, or is refused for its auxiliary number alone. */
static int built_again(const piongseut_order *order)
{
    static const uint8_t registers[PIONGSEUT_REGISTERS_SIZE] = {0};
    uint8_t sense[SENSE];
    piongseut_record record = piongseut_record_empty();
    const piongseut_build_answer built = piongseut_build(*order);
    if (order->auxiliary) {
        unbuilt_orders++;
        return built.number == PIONGSEUT_REFUSED_ORDER && built.size == 0;
    }
    built_orders++;
    const piongseut_submit_answer got =
        piongseut_submit(&record, built.command, built.size, registers, sizeof registers, sense, 0, order->length,
                         PIONGSEUT_EDITION_FIRST, PIONGSEUT_SENSE_UNSTATED, sense, SENSE);
    return built.number == PIONGSEUT_ACCEPTED && built.command[0] == (order->extend ? 0x85 : 0xA1) &&
           got.number == PIONGSEUT_ACCEPTED && memcmp(&got.order, order, sizeof *order) == 0;
}

static int submission(piongseut_record *record, const uint8_t *registers)
{
    uint8_t sense[SENSE], wanted[SENSE], status = PIONGSEUT_NONE;
    submitted sent;
    const uint8_t form = draw_form();
    draw(&sent);
    memset(sense, FILL, SENSE);
    memset(wanted, FILL, SENSE);
    const uint8_t number = refusal(&sent), protocol = protocol_of(sent.command);
    const piongseut_submit_answer got =
        piongseut_submit(record, sent.command, form_by(sent.command)->size, registers, PIONGSEUT_REGISTERS_SIZE, sent.block,
                         sent.block_size, sent.declared, sent.edition, form, sense, SENSE);
    piongseut_order order;
    memset(&order, 0, sizeof order);
    seen[number]++;
    if (number == PIONGSEUT_ACCEPTED || number == PIONGSEUT_REFUSED_PENDING) meet(protocol);
    if (number != PIONGSEUT_ACCEPTED) {
        status = refuse(number, form, wanted);
    } else if (protocol == PIONGSEUT_PROTOCOL_RETURN_RESPONSE_INFORMATION) {
        status = PIONGSEUT_CHECK_CONDITION;
        put_registers(wanted, form, 0x01, 0x1D, 0, registers);
    } else {
        order = order_of(&sent);
        hold(&order);
        auxiliaries += order.auxiliary != 0;
        sectors += order.length != 0 && counts_sectors(&sent) && unit_of(&sent) != 512;
    }
    if (got.number == PIONGSEUT_ACCEPTED && got.status == PIONGSEUT_NONE && !(enter(got.order.protocol) && built_again(&got.order)))
        return 0;
    return got.number == number && got.status == status && memcmp(&got.order, &order, sizeof order) == 0 &&
           memcmp(sense, wanted, SENSE) == 0 && same_record(record);
}

static int completion(piongseut_record *record, const uint8_t *registers)
{
    uint8_t sense[SENSE], wanted[SENSE], status = PIONGSEUT_GOOD;
    const uint8_t form = draw_form();
    const int found = pending(), over = found == BOTH;
    /* Those of a reset, not of the order under it. */
    const uint8_t extend = model.order.extend != 0, ck_cond = model.order.ck_cond != 0;
    const uint8_t number = found ? PIONGSEUT_ACCEPTED : PIONGSEUT_REFUSED_NOTHING_PENDING;
    const uint8_t protocol = over ? model.older.protocol : 0;
    memset(sense, FILL, SENSE);
    memset(wanted, FILL, SENSE);
    const piongseut_complete_answer got = piongseut_complete(record, registers, PIONGSEUT_REGISTERS_SIZE, form, sense, SENSE);
    met[found][COMPLETES]++;
    if (!found) {
        status = PIONGSEUT_NONE;
        seen[number]++;
    } else if (registers[PIONGSEUT_REGISTER_STATUS] & 0x21) {
        status = PIONGSEUT_CHECK_CONDITION;
        put_registers(wanted, form, 0x0B, 0x00, extend, registers);
        completions[found][0]++;
    } else if (ck_cond) {
        status = PIONGSEUT_CHECK_CONDITION;
        put_registers(wanted, form, 0x01, 0x1D, extend, registers);
        completions[found][1]++;
    } else {
        completions[found][2]++;
    }
    if (over) lost_protocols[protocol]++;
    if (found) memset(&model, 0, sizeof model);
    return strike(&got) && got.number == number && got.status == status && got.lost == over && got.lost_protocol == protocol &&
           memcmp(sense, wanted, SENSE) == 0 && same_record(record);
}

/* A number that is one order: 1, any other of a byte or of all four, and such whose lower bytes are 0, 1 or 2. */
static uint32_t draw_state(void)
{
    switch (roll(4)) {
    case 0: return 3 + roll(253);
    case 1: return 3 + roll(UINT32_MAX - 2);
    case 2: return (1 + roll(0xFFFF)) << 16 | roll(3);
    default: return PIONGSEUT_STATE_ORDER;
    }
}

static void draw_flags(piongseut_order *order)
{
    if (order->ck_cond) order->ck_cond = (uint8_t)(1 + roll(255));
    if (order->extend) order->extend = (uint8_t)(1 + roll(255));
}

/*
 * The host writes other bytes into the record: another number that is one order, what is not looked at while one is pending or none,
 * CK_COND and EXTEND that are not 1 where they are set, and a reset that has them.
 */
static void rewrite(piongseut_record *record)
{
    const int found = pending();
    if (found == ORDER || found == RESET) model.state = draw_state();
    if (found != BOTH) memset(&model.older, (int)roll(256), sizeof model.older);
    if (found == NOTHING) memset(&model.order, (int)roll(256), sizeof model.order);
    if (found == BOTH || found == RESET) {
        model.order.ck_cond = (uint8_t)roll(2);
        model.order.extend = (uint8_t)roll(2);
    }
    draw_flags(&model.order);
    draw_flags(&model.older);
    *record = model;
}

static void reset_by_host(piongseut_record *record)
{
    drop(record);
    *record = piongseut_record_empty();
    memset(&model, 0, sizeof model);
    host_resets++;
}

/* Nothing that a run is there to show may be missing from it. */
static int shown_all(void)
{
    if (!seen[PIONGSEUT_REFUSED_OPCODE] || !seen[PIONGSEUT_REFUSED_FIELD] || !seen[PIONGSEUT_REFUSED_NO_BLOCK]) return 0;
    if (!seen[PIONGSEUT_REFUSED_DAMAGED] || !seen[PIONGSEUT_REFUSED_SERVICE_ACTION] || !auxiliaries || !sectors) return 0;
    if (!built_orders || !unbuilt_orders) return 0;
    for (int number = PIONGSEUT_REFUSED_PROTOCOL; number <= PIONGSEUT_REFUSED_NOTHING_PENDING; number++)
        if (seen[number] == 0) return 0;
    for (int found = NOTHING; found < PENDING; found++)
        for (int call = 0; call < MEETS; call++)
            if (met[found][call] == 0) return 0;
    for (unsigned protocol = 0; protocol < 256; protocol++) {
        const int can_be = protocol < 15 && served(protocol) && !resets_drive(protocol);
        if ((lost_protocols[protocol] != 0) != can_be) return 0;
    }
    for (int found = ORDER; found < PENDING; found++)
        for (int end = 0; end < 3; end++)
            if (completions[found][end] == 0) return 0;
    return host_resets && told[0] && told[1];
}

static int step(piongseut_record *record)
{
    uint8_t registers[PIONGSEUT_REGISTERS_SIZE];
    for (int at = 0; at < PIONGSEUT_REGISTERS_SIZE; at++) registers[at] = (uint8_t)(roll(3) ? roll(256) : 0);
    if (roll(3)) registers[PIONGSEUT_REGISTER_STATUS] &= 0xDE;
    if (roll(50) == 0) reset_by_host(record);
    if (roll(10) == 0) rewrite(record);
    return roll(5) < 3 ? submission(record, registers) : completion(record, registers);
}

int main(int count, char **words)
{
    const long steps = count > 1 ? atol(words[1]) : 200000;
    piongseut_record record = piongseut_record_empty();
    for (long at = 0; at < steps; at++)
        if (!step(&record) || !balanced(&record)) {
            printf("not ok step %ld of the run differs from the model or the ledger\n", at);
            return 1;
        }
    if (!shown_all()) {
        printf("not ok the run leaves out something that it is there to show\n");
        return 1;
    }
    printf("ok %ld steps through one lent record: %u orders (%u ended, %u lost, %u dropped by the host, %u pending), %u busy, "
           "%u errors, %u host resets, %u fixed and %u descriptor sense, %u auxiliary numbers, %u lengths of sectors, "
           "%u orders built again\n",
           steps, taken_orders, ended_orders, lost_orders, dropped_orders, orders_in(&record), seen[PIONGSEUT_REFUSED_PENDING],
           completions[ORDER][0] + completions[RESET][0] + completions[BOTH][0], host_resets, told[1], told[0], auxiliaries, sectors,
           built_orders);
    return 0;
}
