/*
 * The board's side of the comparison test: a server around libpiongseut.a. It reads batches of calls from standard input, makes
 * each call on exactly the lent bytes, which stand between guard bytes, and writes back all that there is to see afterwards.
 * All numbers are little-endian.
 *
 * A batch:   u32 bytes that follow, then calls.
 * A call:    u32 bytes that follow; u8 function (bit 7: with the record that the last call left, not the one sent);
 *            u32 declared; u8 form; u8 edition; the record, 60 bytes; the intake, 4 bytes; the ports, 4 bytes; u8 number of pieces;
 *            a piece: u32 size, its bytes.
 * An answer: u32 bytes that follow; u8 function; u8 guard (0: untouched); the fields of what came back, in the header's order;
 *            the record, 60 bytes; the bytes of every piece, the const ones too.
 * INTAKE_INQUIRY and INTAKE_ROLL are two functions each, one after the other, as a C program uses them: the second is lent what
 * the first one counted. Where the first refuses, the second is not called, and its answer is one that has nothing. The census
 * that is fed is a piece, its 26 numbers in the header's order, and goes to the function by value. BUILD builds the record's order,
 * and then submits the command to an empty record, with the order's length declared: two functions, likewise.
 */
#include "piongseut.h"

#include <stdio.h>
#include <stdlib.h>
#include <string.h>
#include <unistd.h>

enum { RECORD_EMPTY, INQUIRY, SUBMIT, COMPLETE, WRITE, READ, ROLL, INTAKE_EMPTY, INTAKE_TAKE, INTAKE_INQUIRY, INTAKE_ROLL,
       CENSUS_EMPTY, CENSUS_FEED, BUILD, CHECK, FUNCTIONS };

#define GUARD 64
#define PIECES 8
#define RECORD_GUARD 255
#define BATCH_MOST (4u << 20)

static const unsigned pieces_of[FUNCTIONS] = {0, 8, 4, 2, 3, 1, 2, 0, 2, 8, 4, 0, 2, 0, 1};

static uint8_t batch[BATCH_MOST];
static uint8_t answers[4 * BATCH_MOST];
static uint8_t arena[BATCH_MOST + (PIECES + 2) * (GUARD + 16)];
static uint8_t guard[GUARD];

static struct {
    uint8_t before[GUARD];
    piongseut_record record;
    uint8_t after[GUARD];
} kept;

static struct {
    uint8_t *at;
    size_t size;
} piece[PIECES];

static piongseut_intake intake;
static piongseut_ports ports;
static uint8_t form, edition;
static const uint8_t *in;
static const uint8_t *in_end;
static uint8_t *out;
static unsigned calls;

static void die(const char *why)
{
    fprintf(stderr, "board: %s\n", why);
    exit(3);
}

/* ---- Reading a call ---- */

static uint64_t take(unsigned bytes)
{
    uint64_t number = 0;
    if ((size_t)(in_end - in) < bytes)
        die("a call that is cut short");
    for (unsigned at = 0; at < bytes; at++)
        number |= (uint64_t)*in++ << (8 * at);
    return number;
}

static void take_order(piongseut_order *order)
{
    order->length = (uint32_t)take(4);
    order->auxiliary = (uint32_t)take(4);
    order->features = (uint16_t)take(2);
    order->count = (uint16_t)take(2);
    order->lba_low = (uint16_t)take(2);
    order->lba_mid = (uint16_t)take(2);
    order->lba_high = (uint16_t)take(2);
    order->quiet_seconds = (uint16_t)take(2);
    order->sectors_per_block = (uint16_t)take(2);
    order->device = (uint8_t)take(1);
    order->command = (uint8_t)take(1);
    order->protocol = (uint8_t)take(1);
    order->ck_cond = (uint8_t)take(1);
    order->extend = (uint8_t)take(1);
    order->direction = (uint8_t)take(1);
}

static void take_record(int keep)
{
    piongseut_record sent;
    sent.state = (uint32_t)take(4);
    take_order(&sent.order);
    take_order(&sent.older);
    if (!keep)
        kept.record = sent;
    memcpy(kept.before, guard, GUARD);
    memcpy(kept.after, guard, GUARD);
}

static void take_intake(void)
{
    intake.have = (uint16_t)take(2);
    intake.sum = (uint16_t)take(2);
}

static void take_ports(void)
{
    ports.chosen = (uint16_t)take(2);
    ports.relative = (uint16_t)take(2);
}

/* Whether a piece is 16-bit numbers: rows, what intakes have, or a census. */
static int of_sixteen_bits(unsigned function, unsigned at)
{
    return (function == ROLL && at == 1) || (function == INTAKE_ROLL && (at == 0 || at == 3)) || (function == CENSUS_FEED && at == 0);
}

/* Lays the pieces out with a guard before the first and behind each. The start moves, so that a piece meets every alignment. */
static void take_pieces(unsigned function)
{
    uint8_t *to = arena + calls++ % 16;
    unsigned count = (unsigned)take(1);
    if (count != pieces_of[function])
        die("a wrong number of pieces");
    for (unsigned at = 0; at < count; at++) {
        size_t size = (size_t)take(4);
        if ((size_t)(in_end - in) < size)
            die("a piece that is cut short");
        if (of_sixteen_bits(function, at) && ((uintptr_t)to & 1))
            *to++ = guard[GUARD - 1]; /* their alignment */
        memcpy(to, guard, GUARD);
        to += GUARD;
        memcpy(to, in, size);
        piece[at].at = to;
        piece[at].size = size;
        to += size;
        in += size;
        memcpy(to, guard, GUARD);
        to += GUARD;
    }
}

/* 0, or which piece's guard was changed. */
static unsigned changed_guard(unsigned function)
{
    if (memcmp(kept.before, guard, GUARD) || memcmp(kept.after, guard, GUARD))
        return RECORD_GUARD;
    for (unsigned at = 0; at < pieces_of[function]; at++)
        if (memcmp(piece[at].at - GUARD, guard, GUARD) || memcmp(piece[at].at + piece[at].size, guard, GUARD))
            return at + 1;
    return 0;
}

/* ---- Writing an answer ---- */

static void put(uint64_t number, unsigned bytes)
{
    for (unsigned at = 0; at < bytes; at++)
        *out++ = (uint8_t)(number >> (8 * at));
}

static void put_order(const piongseut_order *order)
{
    put(order->length, 4);
    put(order->auxiliary, 4);
    put(order->features, 2);
    put(order->count, 2);
    put(order->lba_low, 2);
    put(order->lba_mid, 2);
    put(order->lba_high, 2);
    put(order->quiet_seconds, 2);
    put(order->sectors_per_block, 2);
    put(order->device, 1);
    put(order->command, 1);
    put(order->protocol, 1);
    put(order->ck_cond, 1);
    put(order->extend, 1);
    put(order->direction, 1);
}

static void put_record(const piongseut_record *record)
{
    put(record->state, 4);
    put_order(&record->order);
    put_order(&record->older);
}

static void put_intake(piongseut_intake of)
{
    put(of.have, 2);
    put(of.sum, 2);
}

static void put_ports(piongseut_ports of)
{
    put(of.chosen, 2);
    put(of.relative, 2);
}

static void put_count(uint8_t number, size_t count)
{
    put(number, 1);
    put(count, 8);
}

static void put_inquiry(piongseut_inquiry_answer answer)
{
    put(answer.number, 1);
    put(answer.status, 1);
    put(answer.shown, 1);
    put(answer.count, 8);
}

static void put_roll(piongseut_roll_answer answer)
{
    put(answer.number, 1);
    put(answer.blocks, 2);
    put(answer.drives, 2);
}

/* ---- The calls ---- */

/*
 * CALL makes one call of a function. Compiled with MEASURE_STACK, it makes it over painted stack and keeps the deepest use, which
 * is told for each function when the input ends: bytes, and the number of calls. Of two functions one after the other, each
 * is kept by itself.
 */
#ifdef MEASURE_STACK
#include "stack.h"

static struct {
    size_t deepest;
    unsigned long calls;
} used[FUNCTIONS];

static void note(unsigned function, size_t depth)
{
    used[function].calls++;
    if (used[function].deepest < depth)
        used[function].deepest = depth;
}

static void tell_stack(void)
{
    static const char *const names[FUNCTIONS] = {
        "record_empty", "inquiry",      "submit",      "complete",     "write_page83", "read_page83",
        "roll",         "intake_empty", "intake_take", "intake_block", "intake_gather", "census_empty",
        "census_feed",  "build",        "check",
    };
    for (unsigned at = 0; at < FUNCTIONS; at++)
        fprintf(stderr, "piongseut_%s %zu %lu\n", names[at], used[at].deepest, used[at].calls);
}

#define CALL(function, ...)            \
    do {                               \
        stack_paint();                 \
        STACK_CALL(__VA_ARGS__);       \
        note(function, stack_depth()); \
    } while (0)
#else
static void tell_stack(void)
{
}

#define CALL(function, ...) __VA_ARGS__
#endif

#define LENT(n) piece[n].at, piece[n].size
#define LENT_SIXTEEN(n) (uint16_t *)(void *)piece[n].at, piece[n].size / 2

static void call_inquiry(void)
{
    piongseut_inquiry_answer answer;
    CALL(INQUIRY, answer = piongseut_inquiry(LENT(0), LENT(1), LENT(2), LENT(3), LENT(4), ports, LENT(5), form, LENT(6), LENT(7)));
    put_inquiry(answer);
}

static void put_submit(const piongseut_submit_answer *answer)
{
    put(answer->number, 1);
    put(answer->status, 1);
    put_order(&answer->order);
}

static void call_submit(uint32_t declared)
{
    piongseut_submit_answer answer;
    CALL(SUBMIT, answer = piongseut_submit(&kept.record, LENT(0), LENT(1), LENT(2), declared, edition, form, LENT(3)));
    put_submit(&answer);
}

static void call_complete(void)
{
    piongseut_complete_answer answer;
    CALL(COMPLETE, answer = piongseut_complete(&kept.record, LENT(0), form, LENT(1)));
    put(answer.number, 1);
    put(answer.status, 1);
    put(answer.lost, 1);
    put(answer.lost_protocol, 1);
}

static void call_write(void)
{
    piongseut_write_page83_answer answer;
    CALL(WRITE, answer = piongseut_write_page83(LENT(0), ports, LENT(1), LENT(2)));
    put_count(answer.number, answer.count);
}

static void call_read(void)
{
    piongseut_read_page83_answer answer;
    CALL(READ, answer = piongseut_read_page83(LENT(0)));
    put(answer.number, 1);
    put(answer.form, 1);
    for (unsigned at = 0; at < sizeof answer.name; at++)
        put(answer.name[at], 1);
    put_ports(answer.ports);
    for (unsigned at = 0; at < sizeof answer.address; at++)
        put(answer.address[at], 1);
}

static void call_roll(void)
{
    piongseut_roll_answer answer;
    CALL(ROLL, answer = piongseut_roll(LENT(0), LENT_SIXTEEN(1)));
    put_roll(answer);
}

static void call_intake_empty(void)
{
    piongseut_intake empty;
    CALL(INTAKE_EMPTY, empty = piongseut_intake_empty());
    put_intake(empty);
}

static void call_intake_take(void)
{
    piongseut_intake_take_answer answer;
    CALL(INTAKE_TAKE, answer = piongseut_intake_take(intake, LENT(0), LENT(1)));
    put_intake(answer.next);
    put(answer.used, 2);
    put(answer.number, 1);
    put(answer.complete, 1);
}

static void call_intake_inquiry(void)
{
    piongseut_intake_block_answer block;
    piongseut_inquiry_answer answer = {PIONGSEUT_REFUSED_SIZE, PIONGSEUT_NONE, PIONGSEUT_SHOWN_ROOM, 0};
    CALL(INTAKE_INQUIRY, block = piongseut_intake_block(intake, piece[0].size));
    if (block.number == PIONGSEUT_ACCEPTED)
        CALL(INQUIRY, answer = piongseut_inquiry(LENT(1), piece[0].at, block.count, LENT(2), LENT(3), LENT(4), ports, LENT(5),
                                                 form, LENT(6), LENT(7)));
    put_count(block.number, block.count);
    put_inquiry(answer);
}

static void call_intake_roll(void)
{
    piongseut_intake_gather_answer gathered;
    piongseut_roll_answer answer = {0, 0, 0};
    CALL(INTAKE_ROLL, gathered = piongseut_intake_gather(LENT_SIXTEEN(0), LENT(1), LENT(2)));
    answer.number = gathered.number;
    if (gathered.number == PIONGSEUT_ACCEPTED)
        CALL(ROLL, answer = piongseut_roll(piece[2].at, gathered.count, LENT_SIXTEEN(3)));
    put_count(gathered.number, gathered.count);
    put_roll(answer);
}

/* The form that a census has in C stands here alone. */
enum { MODES = 8, VERSIONS = 15, CENSUS_NUMBERS = 3 + MODES + VERSIONS };

static piongseut_census lent_census(void)
{
    piongseut_census census;
    const uint16_t *number = (const uint16_t *)(const void *)piece[0].at;
    if (piece[0].size != 2 * CENSUS_NUMBERS)
        die("a census of another size");
    census.blocks = *number++;
    census.named = *number++;
    census.unnamed = *number++;
    for (unsigned at = 0; at < MODES; at++)
        census.udma[at] = *number++;
    for (unsigned at = 0; at < VERSIONS; at++)
        census.version[at] = *number++;
    return census;
}

static void put_census(const piongseut_census *census)
{
    put(census->blocks, 2);
    put(census->named, 2);
    put(census->unnamed, 2);
    for (unsigned at = 0; at < MODES; at++)
        put(census->udma[at], 2);
    for (unsigned at = 0; at < VERSIONS; at++)
        put(census->version[at], 2);
}

static void call_census_empty(void)
{
    piongseut_census empty;
    CALL(CENSUS_EMPTY, empty = piongseut_census_empty());
    put_census(&empty);
}

static void call_census_feed(void)
{
    const piongseut_census census = lent_census();
    piongseut_census_answer answer;
    CALL(CENSUS_FEED, answer = piongseut_census_feed(census, LENT(1)));
    put_census(&answer.next);
    put(answer.number, 1);
}

/* What is lent to submit here does not matter where it takes the order: it is no piece. */
static void call_build(void)
{
    static uint8_t registers[PIONGSEUT_REGISTERS_SIZE], sense[PIONGSEUT_SENSE_SIZE];
    const piongseut_order order = kept.record.order;
    piongseut_build_answer built;
    piongseut_submit_answer answer;
    memset(&answer, 0, sizeof answer);
    CALL(BUILD, built = piongseut_build(order));
    if (built.number == PIONGSEUT_ACCEPTED) {
        memset(&kept.record, 0, sizeof kept.record);
        CALL(SUBMIT, answer = piongseut_submit(&kept.record, built.command, built.size, registers, sizeof registers, sense, 0,
                                               order.length, edition, form, sense, sizeof sense));
    }
    put(built.number, 1);
    put(built.size, 1);
    for (unsigned at = 0; at < sizeof built.command; at++)
        put(built.command[at], 1);
    put_submit(&answer);
}

static void call_check(void)
{
    piongseut_check_answer answer;
    CALL(CHECK, answer = piongseut_check(LENT(0)));
    put(answer.number, 1);
    put(answer.accepted, 1);
    put(answer.tag, 1);
    put(answer.place, 8);
}

static void call(unsigned function, uint32_t declared)
{
    piongseut_record empty;
    switch (function) {
    case RECORD_EMPTY:
        CALL(RECORD_EMPTY, empty = piongseut_record_empty());
        put_record(&empty);
        break;
    case INQUIRY: call_inquiry(); break;
    case SUBMIT: call_submit(declared); break;
    case COMPLETE: call_complete(); break;
    case WRITE: call_write(); break;
    case READ: call_read(); break;
    case ROLL: call_roll(); break;
    case INTAKE_EMPTY: call_intake_empty(); break;
    case INTAKE_TAKE: call_intake_take(); break;
    case INTAKE_INQUIRY: call_intake_inquiry(); break;
    case INTAKE_ROLL: call_intake_roll(); break;
    case CENSUS_EMPTY: call_census_empty(); break;
    case CENSUS_FEED: call_census_feed(); break;
    case BUILD: call_build(); break;
    default: call_check(); break;
    }
}

/*
 * What a faulty board could do besides answering wrongly; compiled in on purpose, to see that the comparison finds it: a byte
 * written behind or before a piece, a const byte changed, a byte written behind the record, an end in the middle of a call.
 */
#ifdef BOARD_FAULT
static void spoil(unsigned function)
{
    if (BOARD_FAULT == 1 && function == ROLL)
        piece[1].at[piece[1].size] ^= 1;
    if (BOARD_FAULT == 2 && function == INQUIRY)
        piece[6].at[-1] ^= 1;
    if (BOARD_FAULT == 3 && function == WRITE && piece[0].size > 0)
        piece[0].at[piece[0].size - 1] ^= 1;
    if (BOARD_FAULT == 4 && function == COMPLETE)
        kept.after[0] ^= 1;
    if (BOARD_FAULT == 5 && function == READ && piece[0].size == PIONGSEUT_PAGE83_WWN_SIZE + 1)
        _exit(4);
}
#else
static void spoil(unsigned function)
{
    (void)function;
}
#endif

/* Serves the call at `in`, which ends the sooner of its own size and the batch's end. */
static void serve(void)
{
    uint32_t size = (uint32_t)take(4);
    const uint8_t *end = in + size;
    unsigned first = (unsigned)take(1);
    unsigned function = first & 0x7F;
    if (function >= FUNCTIONS)
        die("no such function");
    uint32_t declared = (uint32_t)take(4);
    form = (uint8_t)take(1);
    edition = (uint8_t)take(1);
    take_record(first & 0x80);
    take_intake();
    take_ports();
    take_pieces(function);
    if (in != end)
        die("a call of a wrong size");
    uint8_t *start = out;
    out += 4;
    put(function, 1);
    uint8_t *guard_place = out++;
    call(function, declared);
    spoil(function);
    *guard_place = (uint8_t)changed_guard(function);
    put_record(&kept.record);
    for (unsigned at = 0; at < pieces_of[function]; at++) {
        memcpy(out, piece[at].at, piece[at].size);
        out += piece[at].size;
    }
    uint8_t *answer_end = out;
    out = start;
    put((uint64_t)(answer_end - start) - 4, 4);
    out = answer_end;
}

/* ---- Standard input and output ---- */

/* Whether all the bytes came; an input that ends before the first is no error. */
static int read_all(uint8_t *to, size_t size)
{
    size_t have = 0;
    while (have < size) {
        ssize_t more = read(0, to + have, size - have);
        if (more < 0)
            die("cannot read");
        if (more == 0 && have == 0)
            return 0;
        if (more == 0)
            die("the input ends inside a batch");
        have += (size_t)more;
    }
    return 1;
}

static void write_all(const uint8_t *from, size_t size)
{
    while (size > 0) {
        ssize_t done = write(1, from, size);
        if (done <= 0)
            die("cannot write");
        from += done;
        size -= (size_t)done;
    }
}

int main(void)
{
    uint8_t head[4];
    for (unsigned at = 0; at < GUARD; at++)
        guard[at] = (uint8_t)(0xC3 ^ (at * 37));
    while (read_all(head, 4)) {
        in = head;
        in_end = head + 4;
        size_t size = (size_t)take(4);
        if (size > BATCH_MOST)
            die("a batch that is too large");
        if (size > 0 && !read_all(batch, size))
            die("the input ends before a batch");
        in = batch;
        in_end = batch + size;
        out = answers;
        while (in != in_end)
            serve();
        write_all(answers, (size_t)(out - answers));
    }
    tell_stack();
    return 0;
}
