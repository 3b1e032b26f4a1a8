/*
 * A recorder's shelf with three bays on the library of the board, from end to end: it takes in what each drive tells of itself, answers
 * a host's INQUIRY from that, passes ATA commands through, gets past one that hangs, and calls the roll. Link and drive are simulated
 * at the top; what firmware does stands below them.
 *
 *     cc -o bay bay.c $(pkg-config --cflags --libs piongseut) && ./bay
 *
 * What to know of the library:
 *  - It keeps nothing. What a bay remembers is an intake with its store, and a record; they are yours, and each call is lent them.
 *  - It moves nothing. It says what the drive is to do, an order, and is told how that ended: the registers that the drive left.
 *  - Every call answers with a number: 0, or why it refused (PIONGSEUT_REFUSED_..., a list in piongseut.h). A refusal changes nothing
 *    that was lent but the sense room, so there is nothing to undo.
 *  - Where an answer has a status it is the host's, as it is; with CHECK CONDITION the sense data stand in the sense room.
 *  - The long calls take a struct, piongseut_..._call, so that pieces are named. What is not named is empty or 0.
 */
#include <piongseut.h>

#include <stdio.h>
#include <string.h>

enum { BAYS = 3 };

/* What a bay remembers. The stores stand one after the other, as the roll wants them; they need no clearing. */
typedef struct {
    piongseut_intake intake; /* how much of the drive's IDENTIFY data is in its store */
    piongseut_record record; /* what the drive is ordered and has not ended yet */
} bay;

static bay bays[BAYS];
static uint8_t stores[BAYS][PIONGSEUT_BLOCK_SIZE];

/* ---- Simulated: two drives, and the links to them ---- */

/* IDENTIFY data of real drives as they come off the wire, from data/identify. The first has a world wide name, the second none. */
static const char fujitsu[] =
    "5a04ff3f37c81000000000003f000000000000002020202020202020344b34333854323137354c5303000040040030303438303044305546494a53542055484d"
    "32593231423020482020202020202020202020202020202020202020202010800000002f0040000200020700ff3f10003f0010fcfb001001b04bf90d00000700"
    "030078007800780078000000000000000000000000001f00020700004c004000f80142006b34097f6361693409be63613f203c0000008040feff0000fefe0000"
    "0000000000000000b04bf90d0000000000000000004000000050e00067410cf900000000000000000000000000001d401d400000000000000000000000000000"
    "0900000000000000000000000000000000000000000000000000000000000000d505000000000000044004400000000000000000000000000000000000000000"
    "00000000000000000000000000000000000000000000000000000000000000000000000000000000000000000000000000000000000000000000000000000000"
    "000000000000000000000000000000000000000000000000000000003d000000000000000000000000000000000000000000000000000000000000000f102100"
    "00000000000000000000000000000000000000000100000b0000000000000000000000000000000000000000000000000000000000000000000000000000a587";

static const char seagate[] =
    "5a0cff3f37c81000000000003f000000000000002020202020202020202020204d354341513241540000004004002e334c432048202054533139303632384131"
    "20532020202020202020202020202020202020202020202020202020202010800000002f0040000200020700ff3f10003f0010fcfb001001ffffff0f00000700"
    "030078007800f00078000000000000000000000000001f000205000048004000fe0000006b34097d2360693409bc23603f202c002c008080feff000000fe0000"
    "0000000000000000b09ea11200000000000000000040000000000000000000000000000000000000000000010000074005400000000000000000000000000000"
    "2900b09ea112b09ea11220200200b6ca02000000063c063cffffc607000100000f100018020080000440044080600000000000000000000000000000000a0b00"
    "00000000000000000000000000000000000000000000000000000000000000000000000000000000000000000000000000000000000000000000000000000000"
    "00000000000000000000000000000000000000000000000000000000010000000000000000000000000000000000000000000000000000000000000000000000"
    "0000000000000000000000000000000000000000000000000000000000000000000000000000000000000000000000000000000000000000000000000000a55d";

/* The last bay reaches the first bay's drive by its other port. */
static const char *const drives[BAYS] = {fujitsu, seagate, fujitsu};

/* The next run of bytes off a bay's link: of odd lengths, as they come, and with the link's own four bytes behind the drive's. */
static size_t receive(int at, uint8_t *run)
{
    static const size_t lengths[] = {1, 3, 127, 7, 255, 33};
    static size_t sent[BAYS], runs[BAYS];
    const size_t length = lengths[runs[at]++ % 6];
    for (size_t to = 0; to < length; to++, sent[at]++) {
        unsigned byte = 0xEE;
        if (sent[at] >= PIONGSEUT_BLOCK_SIZE + 4) return to;
        if (sent[at] < PIONGSEUT_BLOCK_SIZE) sscanf(drives[at] + 2 * sent[at], "%2x", &byte);
        run[to] = (uint8_t)byte;
    }
    return length;
}

/* A drive carries out an order. Back: whether it came to an end. It hangs over its first CHECK POWER MODE, until it is reset. */
static int carry_out(int at, const piongseut_order *order, uint8_t *data, uint8_t *registers)
{
    static int was_reset[BAYS];
    memset(registers, 0, PIONGSEUT_REGISTERS_SIZE);
    registers[PIONGSEUT_REGISTER_STATUS] = 0x50;
    if (order->protocol == PIONGSEUT_PROTOCOL_SRST) return was_reset[at] = 1;
    if (order->command == 0xEC) memcpy(data, stores[at], order->length);
    if (order->command == 0xE5) registers[PIONGSEUT_REGISTER_COUNT_LOW] = 0xFF;
    return order->command != 0xE5 || was_reset[at];
}

/* ---- The host, to whom all this goes ---- */

/*
 * What a host is told: the status and the data, of which the first bytes are shown here; or with CHECK CONDITION the sense data, whose
 * byte 7 says how many bytes follow, as this shelf asks for the descriptor form.
 */
static void tell(int at, const char *what, uint8_t number, uint8_t status, const uint8_t *sense, const uint8_t *data, size_t count)
{
    const int sensed = status == PIONGSEUT_CHECK_CONDITION;
    const uint8_t *const bytes = sensed ? sense : data;
    const char *const said = sensed                     ? "CHECK CONDITION"
                             : status == PIONGSEUT_GOOD ? "GOOD"
                             : status == PIONGSEUT_BUSY ? "BUSY"
                                                        : "no status";
    printf("bay %d: %s: %s", at, what, said);
    if (number != PIONGSEUT_ACCEPTED) printf(", refused %u", number);
    if (sensed) count = (size_t)(PIONGSEUT_REFUSAL_SENSE_SIZE + sense[7]);
    if (count != 0) printf(", %u bytes", (unsigned)count);
    for (size_t of = 0; of < count && of < 96; of++) printf(of % 32 ? "%02x" : "\n    %02x", bytes[of]);
    printf(count > 96 ? " ..\n" : "\n");
}

/* ---- Taking in IDENTIFY data ---- */

/*
 * Runs may have any length, so each goes to the intake as it is, also from an interrupt handler. `used` says how many bytes it took:
 * all, until it is complete; the rest of the run is yours. Whether the data are damaged is asked by whatever reads them: refusal 18.
 */
static void take_in(int at)
{
    uint8_t run[256];
    unsigned runs = 0;
    size_t size, left = 0;
    bays[at].intake = piongseut_intake_empty();
    bays[at].record = piongseut_record_empty();
    while ((size = receive(at, run)) != 0) {
        const piongseut_intake_take_answer taken =
            piongseut_intake_take(bays[at].intake, stores[at], sizeof stores[at], run, size);
        bays[at].intake = taken.next;
        runs++;
        left += size - taken.used;
    }
    printf("bay %d: took in %u bytes of %u runs, and left %u to the link\n", at, bays[at].intake.have, runs, (unsigned)left);
}

/* ---- INQUIRY ---- */

/*
 * The intake says which bytes of its store are the drive's block: 512, or 0 as long as it is not complete, and then the answer is
 * CHECK CONDITION, not ready. Signature and texts are asked for page 89h, but their sizes always. For a packet drive `reply` would be
 * its own reply. `ports` would say by which of the drive's ports the host reaches it.
 */
static void inquire(int at, const char *what, uint8_t evpd, uint8_t page)
{
    static const uint8_t signature[PIONGSEUT_SIGNATURE_SIZE] = {0x34, 0x00, 0x50, 0x01, 0x01, 0, 0, 0, 0, 0, 0, 0, 0x01};
    static const char texts[] = "PIONG   " "SAT BRIDGE      " "4   ";
    const uint8_t command[6] = {0x12, evpd, page, 0x02, 0x3C, 0x00};
    uint8_t room[PIONGSEUT_PAGE89_SIZE], sense[PIONGSEUT_SENSE_SIZE];
    const piongseut_intake_block_answer block = piongseut_intake_block(bays[at].intake, sizeof stores[at]);
    const piongseut_inquiry_call call = {
        .command = command, .command_size = sizeof command,
        .block = stores[at], .block_size = block.count,
        .signature = signature, .signature_size = sizeof signature,
        .texts = (const uint8_t *)texts, .texts_size = PIONGSEUT_TEXTS_SIZE,
        .form = PIONGSEUT_SENSE_DESCRIPTOR,
        .room = room, .room_size = sizeof room,
        .sense = sense, .sense_size = sizeof sense,
    };
    const piongseut_inquiry_answer answer = piongseut_inquiry_named(call);
    tell(at, what, answer.number, answer.status, sense, room, answer.count);
}

/* ---- ATA commands, passed through ---- */

/*
 * Ends what the record holds, with the registers that the drive left; with CHECK CONDITION the sense data tell them. Where a
 * reset was taken over an order that hung, it is the reset that ends; the order is lost: it has no status, and whoever sent it is told.
 */
static void complete(int at, const char *what, const uint8_t *registers, const uint8_t *data, size_t size)
{
    uint8_t sense[PIONGSEUT_SENSE_SIZE];
    const piongseut_complete_call call = {
        .record = &bays[at].record,
        .registers = registers, .registers_size = PIONGSEUT_REGISTERS_SIZE,
        .form = PIONGSEUT_SENSE_DESCRIPTOR,
        .sense = sense, .sense_size = sizeof sense,
    };
    const piongseut_complete_answer answer = piongseut_complete_named(call);
    tell(at, what, answer.number, answer.status, sense, data, size);
    if (answer.lost) printf("bay %d: lost to the reset: an order of protocol %u\n", at, answer.lost_protocol);
}

/*
 * A command of the host. The answer's order is what the drive is to do, which way its data go and how many bytes; an order that is
 * taken has no status yet. `declared` is how many bytes the host makes room for: no order has more. The first edition of SAT asks no
 * block. Registers are those of the drive as it is; a host may ask for them (PROTOCOL 15).
 */
static void pass_through(int at, const char *what, const uint8_t *command, uint32_t declared)
{
    uint8_t data[PIONGSEUT_BLOCK_SIZE], sense[PIONGSEUT_SENSE_SIZE], registers[PIONGSEUT_REGISTERS_SIZE] = {0};
    const piongseut_submit_call call = {
        .record = &bays[at].record,
        .command = command, .command_size = 16,
        .registers = registers, .registers_size = sizeof registers,
        .declared = declared,
        .edition = PIONGSEUT_EDITION_FIRST,
        .form = PIONGSEUT_SENSE_DESCRIPTOR,
        .sense = sense, .sense_size = sizeof sense,
    };
    const piongseut_submit_answer answer = piongseut_submit_named(call);
    if (answer.number != PIONGSEUT_ACCEPTED || answer.status != PIONGSEUT_NONE)
        tell(at, what, answer.number, answer.status, sense, NULL, 0);
    else if (carry_out(at, &answer.order, data, registers))
        complete(at, what, registers, data, answer.order.length);
    else
        printf("bay %d: %s: the drive does not end it\n", at, what);
}

/*
 * Commands are ATA PASS-THROUGH (16): byte 1 has the protocol, byte 2 says how long the data are and which way they go, byte 6 is the
 * count, byte 14 the ATA command. CHECK POWER MODE asks for the registers (CK_COND, 20h in byte 2): the count tells the mode. While it
 * hangs all else is BUSY, but a reset, which is taken over it.
 */
static void orders(int at)
{
    static const uint8_t identify[16] = {0x85, PIONGSEUT_PROTOCOL_PIO_DATA_IN << 1, 0x0E, 0, 0, 0, 1, 0, 0, 0, 0, 0, 0, 0, 0xEC, 0};
    static const uint8_t check_power[16] = {0x85, PIONGSEUT_PROTOCOL_NON_DATA << 1, 0x20, 0, 0, 0, 0, 0, 0, 0, 0, 0, 0, 0, 0xE5, 0};
    static const uint8_t soft_reset[16] = {0x85, PIONGSEUT_PROTOCOL_SRST << 1};
    pass_through(at, "IDENTIFY DEVICE", identify, PIONGSEUT_BLOCK_SIZE);
    pass_through(at, "IDENTIFY DEVICE, room for a byte less", identify, PIONGSEUT_BLOCK_SIZE - 1);
    pass_through(at, "CHECK POWER MODE", check_power, 0);
    pass_through(at, "IDENTIFY DEVICE meanwhile", identify, PIONGSEUT_BLOCK_SIZE);
    pass_through(at, "software reset", soft_reset, 0);
    pass_through(at, "CHECK POWER MODE again", check_power, 0);
}

/* ---- The roll ---- */

/* The blocks of those intakes that are complete, one after the other, and a row for each: the same row is the same drive. */
static void call_roll(void)
{
    uint8_t blocks[sizeof stores];
    uint16_t haves[BAYS], rows[BAYS];
    for (int at = 0; at < BAYS; at++) haves[at] = bays[at].intake.have;
    const piongseut_intake_gather_call call = {
        .haves = haves, .intake_count = BAYS,
        .stores = stores[0], .stores_size = sizeof stores,
        .room = blocks, .room_size = sizeof blocks,
    };
    const piongseut_intake_gather_answer gathered = piongseut_intake_gather_named(call);
    const piongseut_roll_answer roll = piongseut_roll(blocks, gathered.count, rows, BAYS);
    printf("roll: %u blocks, %u drives; rows", roll.blocks, roll.drives);
    for (unsigned at = 0; at < roll.blocks; at++) printf(" %u", rows[at]);
    printf("\n");
}

int main(void)
{
    for (int at = 0; at < BAYS; at++) take_in(at);
    for (int at = 0; at < 2; at++) {
        inquire(at, "INQUIRY, standard data", 0, 0x00);
        inquire(at, "INQUIRY, page 80h", 1, 0x80);
        inquire(at, "INQUIRY, page 83h", 1, 0x83);
    }
    orders(0);
    call_roll();
    return 0;
}
