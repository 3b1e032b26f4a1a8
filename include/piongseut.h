/*
 * Piongseut: the bridge board between SATA drives and SCSI hosts, as a C library: libpiongseut.a, for x86-64 and System V.
 *
 * Every function of this file is proved to do what is said here, for every value and every size; on values there is no precondition.
 * Long calls are made with their parts named by piongseut_named.h, which this file includes at its end; examples/bay.c shows it. A pointer
 * and the number behind it are one lent piece of memory: the function reads it, and where it is not const it may write it, and it
 * keeps no pointer when it returns. Of pointers it needs this:
 *  - None is null. For an empty piece pass any other pointer, with size 0: each pointer is taken for a reference, which is never
 *    null, so that the compiler may build on it, and nothing is proved of a null one, of whatever size.
 *  - All of the piece is there, to be read, and to be written where it is not const.
 *  - Pieces that are lent to one call do not overlap.
 *  - A record, and numbers of 16 bits (rows, and what intakes have), are aligned as their types ask, to 4 and 2 bytes. Bytes may
 *    stand anywhere.
 *
 * The functions hold no state of their own, allocate nothing, lock nothing and always return, so an interrupt handler may call them
 * if it sees to this:
 *  - The code uses the SSE registers (about one instruction in four names an xmm register; none names an x87, MMX or AVX register).
 *    A handler has to save the SSE state before a call and put it back after it, or run where kernel or firmware does.
 *  - The archive has one symbol open. Needed of the host: memset.
 *    A handler has to be linked with one that leaves alone what the handler does not save: many use AVX registers. The figure below
 *    is with one that takes no stack but its return address.
 *  - The code keeps values in the red zone, the 128 bytes below the stack pointer: where interrupts share the stack of what they
 *    interrupt, a handler that may interrupt a call has to skip them.
 *  - The stack pointer is a multiple of 16 at a call, as always in C: a handler that is not entered as a C function aligns it.
 *  - Stack, with the return address and the arguments that go by the stack: piongseut_inquiry 256 bytes, piongseut_submit 248,
 *    piongseut_build 216, piongseut_census_feed 208, piongseut_read_page83 128, piongseut_check 104, piongseut_intake_gather 96,
 *    piongseut_write_page83 88, every other function 80 or less (the most over all paths of the compiled code, and seen:
 *    docs/PERFORMANCE.md).
 *
 * Bytes stand in SCSI's order: two-byte lengths high byte first, IDENTIFY words as the drive sends them.
 */
#ifndef PIONGSEUT_H
#define PIONGSEUT_H

#include <stddef.h>
#include <stdint.h>

#ifdef __cplusplus
extern "C" {
#endif

/* The version of this interface, as text and as a number with a byte for each part. */
#define PIONGSEUT_VERSION_MAJOR 5
#define PIONGSEUT_VERSION_MINOR 0
#define PIONGSEUT_VERSION_PATCH 0
#define PIONGSEUT_VERSION_STRING "5.0.0"
#define PIONGSEUT_VERSION (PIONGSEUT_VERSION_MAJOR * 0x10000 + PIONGSEUT_VERSION_MINOR * 0x100 + PIONGSEUT_VERSION_PATCH)

/* The archive lays its structs out in these sizes, which a compiler for something else than x86-64 may not share. */
#if defined(__cplusplus) && __cplusplus >= 201103L
#define PIONGSEUT_HAS_SIZE(type, size) static_assert(sizeof(type) == (size), #type " is not laid out as in the archive");
#elif !defined(__cplusplus) && defined(__STDC_VERSION__) && __STDC_VERSION__ >= 201112L
#define PIONGSEUT_HAS_SIZE(type, size) _Static_assert(sizeof(type) == (size), #type " is not laid out as in the archive");
#else
#define PIONGSEUT_HAS_SIZE(type, size)
#endif

/* Status, as SCSI numbers it; NONE where a call gives no status. */
#define PIONGSEUT_GOOD 0x00
#define PIONGSEUT_CHECK_CONDITION 0x02
#define PIONGSEUT_BUSY 0x08
#define PIONGSEUT_NONE 0xFF

/*
 * Refusal numbers, each with its status, key, ASC and ASCQ if it has them, and when it is given; the functions are the entries. A refusal
 * changes nothing that was lent, but where there is a key the sense room, if the function is lent one: sense data then stand at its front,
 * in the form that was asked for. Behind "Refusals:" each function names those that it gives, in the order in which it asks for them; the
 * first that applies answers. A block is damaged if it has 512 bytes, the low byte of its word 255 (byte 510) is A5h, and its bytes do not
 * sum to 0 modulo 256; nothing of such a block is used. No function asks the sum that an intake carries: each sums the block itself.
 */
#define PIONGSEUT_ACCEPTED 0                 /*                nothing is refused; the entry gives the status */
#define PIONGSEUT_REFUSED_SIZE 1             /* none           a lent piece or an intake's claim has a size that the entry does not take */
#define PIONGSEUT_REFUSED_SHORT 2            /* 02h, 05 24 00  the command has no byte, or fewer than its opcode asks for */
#define PIONGSEUT_REFUSED_OPCODE 3           /* 02h, 05 20 00  byte 0 of the command is no opcode of this entry */
#define PIONGSEUT_REFUSED_FIELD 4            /* 02h, 05 24 00  NACA; of INQUIRY also CMDDT, or a page code other than 00h without EVPD */
#define PIONGSEUT_REFUSED_PAGE 5             /* 02h, 05 24 00  EVPD asks for another page than 00h, 80h, 83h or 89h */
#define PIONGSEUT_REFUSED_NO_BLOCK 6         /* 02h, 02 04 00  there is no block, and standard data, 80h, 83h or logical sectors need one */
#define PIONGSEUT_REFUSED_UNUSABLE 7         /* 02h, 0B 00 00  a packet drive's own page 00h is to be extended and is unusable */
#define PIONGSEUT_REFUSED_ROOM 8             /* none           more bytes are to be written than the room has */
#define PIONGSEUT_REFUSED_PROTOCOL 9         /* 02h, 05 24 00  PROTOCOL is one of 2, 7, 12, 13, 14 */
#define PIONGSEUT_REFUSED_PENDING 10         /* 08h            PROTOCOL 0 or 1 while a reset is pending; another but 15 while anything is */
#define PIONGSEUT_REFUSED_T_LENGTH 11        /* 02h, 05 24 00  T_LENGTH is not one for the protocol */
#define PIONGSEUT_REFUSED_T_DIR 12           /* 02h, 05 24 00  T_DIR is not one for the protocol */
#define PIONGSEUT_REFUSED_LENGTH_ZERO 13     /* 02h, 05 24 00  the protocol moves data, and the length is 0 */
#define PIONGSEUT_REFUSED_ABOVE_DECLARED 14  /* 02h, 05 24 00  the length is more than the host declared */
#define PIONGSEUT_REFUSED_NOTHING_PENDING 15 /* none           complete is called and the record holds nothing */
#define PIONGSEUT_REFUSED_NOT_A_PAGE 16      /* none           the page to be read is none that the writer of page 83h makes */
#define PIONGSEUT_REFUSED_CENSUS 17          /* none           the census has 65,535 blocks, or a grouping does not sum to its blocks */
#define PIONGSEUT_REFUSED_DAMAGED 18         /* none           a block is damaged, lent or in a capture; of submit, in the later edition */
#define PIONGSEUT_REFUSED_PORT 19            /* 02h, 05 24 00  page 83h is to be written, and the chosen relative port is not 1 or 2 */
#define PIONGSEUT_REFUSED_SERVICE_ACTION 20  /* 02h, 05 24 00  opcode 7Fh, and bytes 7 to 9 are not 18h 1Fh F0h */
#define PIONGSEUT_REFUSED_CAPTURE 21         /* none           the layout of a capture is broken, or its page 89h has not 572 bytes */
#define PIONGSEUT_REFUSED_PACKET 22          /* none           a capture tells of a packet drive */
#define PIONGSEUT_REFUSED_ORDER 23           /* none           no command of 12 or 16 bytes makes the order to be built */

/* Sizes of what is lent, in bytes; of sense room the least. */
#define PIONGSEUT_BLOCK_SIZE 512 /* an IDENTIFY block, and the store of an intake */
#define PIONGSEUT_SIGNATURE_SIZE 20
#define PIONGSEUT_ADDRESS_SIZE 8 /* the SAS address of a target port */
#define PIONGSEUT_TEXTS_SIZE 28
#define PIONGSEUT_REGISTERS_SIZE 11
#define PIONGSEUT_SENSE_SIZE 22

/*
 * The form of sense data that a caller asks for. UNSTATED, and every number that is none of these, gets the fixed form. A bridge whose
 * host reads the registers of ended commands with hdparm, sg_sat_* and their like asks for DESCRIPTOR: they find no registers in the
 * fixed form (docs/CLIENTS.md).
 *  - Descriptor: 72h, key, ASC, ASCQ, 00 00 00 and how many bytes follow; after a refusal none, so that it is 8 bytes; completion and
 *    PROTOCOL 15 tell the registers in a descriptor of 14 behind them, so that it is 22.
 *  - Fixed, always 18: byte 0 is 70h, 2 the key, 7 is 0Ah, 12 and 13 are ASC and ASCQ. Where registers are told, bytes 3 to 6 are error,
 *    status, device, count; 8 has bit 7 EXTEND, bit 6 the count's upper byte is not zero, bit 5 an upper byte of the LBA is not zero; 9 to
 *    11 are LBA low, mid, high; of count and LBA these are the lower bytes. With EXTEND zero bits 6 and 5 are zero. All else is zero.
 * The sense room behind these bytes is untouched; of either form it has at least PIONGSEUT_SENSE_SIZE bytes.
 */
#define PIONGSEUT_SENSE_UNSTATED 0
#define PIONGSEUT_SENSE_FIXED 1
#define PIONGSEUT_SENSE_DESCRIPTOR 2

/* Bytes of sense data: in the descriptor form after a refusal, and PIONGSEUT_SENSE_SIZE with registers; in the fixed form. */
#define PIONGSEUT_REFUSAL_SENSE_SIZE 8
#define PIONGSEUT_FIXED_SENSE_SIZE 18

/* Sizes of pages, in bytes. Output room for page 89h is enough for every INQUIRY. */
#define PIONGSEUT_STANDARD_SIZE 36
#define PIONGSEUT_PAGE00_SIZE 8 /* of a drive that is no packet drive */
#define PIONGSEUT_PAGE80_SIZE 24
#define PIONGSEUT_PAGE83_WWN_SIZE 16  /* without ports */
#define PIONGSEUT_PAGE83_TEXT_SIZE 76 /* without ports */
#define PIONGSEUT_PAGE83_MOST_SIZE 96 /* texts and both ports */
#define PIONGSEUT_PAGE89_SIZE 572

/* Places of the drive's registers in the bytes that are lent. */
#define PIONGSEUT_REGISTER_ERROR 0
#define PIONGSEUT_REGISTER_COUNT_HIGH 1
#define PIONGSEUT_REGISTER_COUNT_LOW 2
#define PIONGSEUT_REGISTER_LBA_LOW_HIGH 3
#define PIONGSEUT_REGISTER_LBA_LOW_LOW 4
#define PIONGSEUT_REGISTER_LBA_MID_HIGH 5
#define PIONGSEUT_REGISTER_LBA_MID_LOW 6
#define PIONGSEUT_REGISTER_LBA_HIGH_HIGH 7
#define PIONGSEUT_REGISTER_LBA_HIGH_LOW 8
#define PIONGSEUT_REGISTER_DEVICE 9
#define PIONGSEUT_REGISTER_STATUS 10

/*
 * The target ports that page 83h tells behind the drive's name, by which a host that reaches the drive on two paths tells them apart.
 * `chosen` is a sum of PIONGSEUT_PORT_..., and its other bits are not looked at: RELATIVE adds a descriptor of 8 bytes with the port's
 * number, 1 or 2; SAS one of 12 bytes with its address, PIONGSEUT_ADDRESS_SIZE bytes, which are lent beside the struct. What is not
 * chosen is not looked at: any number, any size.
 */
#define PIONGSEUT_PORT_NONE 0
#define PIONGSEUT_PORT_RELATIVE 1
#define PIONGSEUT_PORT_SAS 2

typedef struct {
    uint16_t chosen;   /* PIONGSEUT_PORT_... */
    uint16_t relative; /* the number of the relative target port */
} piongseut_ports;
PIONGSEUT_HAS_SIZE(piongseut_ports, 4)

/* ---- INQUIRY ---- */

/* Whose first bytes are shown: those of the drive's own reply, or of the room. */
#define PIONGSEUT_SHOWN_REPLY 0
#define PIONGSEUT_SHOWN_ROOM 1

typedef struct {
    uint8_t number; /* refusal number, 0 if none */
    uint8_t status;
    uint8_t shown; /* PIONGSEUT_SHOWN_... */
    size_t count;  /* how many bytes are shown */
} piongseut_inquiry_answer;
PIONGSEUT_HAS_SIZE(piongseut_inquiry_answer, 16)

/*
 * Answers an INQUIRY command (12h).
 *
 * Lent to read: the command bytes (any number; bytes past the sixth are ignored); the IDENTIFY block, 512 bytes, or 0 where the
 * drive gave none; the drive's signature, 20 bytes (bytes 5 and 6 are 14h EBh for a packet drive); the translator's texts,
 * 28 bytes: vendor (8), product (16), revision (4), for page 89h; for a packet drive its own reply to this command, of any
 * size; and the SAS address of the target port, 8 bytes, where `ports` chooses it. `ports` says which ports page 83h tells, `form` is
 * that of the sense data (PIONGSEUT_SENSE_...). Lent to write: the output room, and sense room of at least 22 bytes.
 * Back: what is shown, and how many bytes of it. No more than the allocation length are shown, and room past them is untouched.
 * Refusals: 1 (a block that is neither 512 nor 0 bytes, a signature not of 20, texts not of 28, a chosen address not of 8, sense room
 * below 22, whatever is asked), 18 (a damaged block, whatever is asked), 2 (no command byte), 3, 2 (fewer than 6), 4, 5, 6, 19 (page 83h
 * is asked, and the chosen relative port is not 1 or 2), 7, 8. 4 to 6 and 19 are not given for packet drives.
 */
piongseut_inquiry_answer piongseut_inquiry(const uint8_t *command, size_t command_size,
                                           const uint8_t *block, size_t block_size,
                                           const uint8_t *signature, size_t signature_size,
                                           const uint8_t *texts, size_t texts_size,
                                           const uint8_t *reply, size_t reply_size,
                                           piongseut_ports ports,
                                           const uint8_t *address, size_t address_size,
                                           uint8_t form,
                                           uint8_t *room, size_t room_size,
                                           uint8_t *sense, size_t sense_size);

/* ---- ATA PASS-THROUGH (12), (16) and (32) ---- */

/*
 * The edition of SAT by which a command is read. Every number but LATER names the first, also 0, which states none. In the later one
 * the 32-byte command (7Fh) is served, and T_TYPE is looked at: a block count (BYTE_BLOCK one, T_LENGTH 1 or 2) with T_TYPE one counts
 * the logical sectors of the drive, whose size its IDENTIFY block tells: twice the number in words 117 and 118 (117 is its lower half)
 * where word 106 has 01b in bits 15:14 and 1 in bit 12, else 512 bytes.
 */
#define PIONGSEUT_EDITION_FIRST 1
#define PIONGSEUT_EDITION_LATER 2

/* What a drive does with an order, by SAT's names: the values of PROTOCOL that are served. */
#define PIONGSEUT_PROTOCOL_ATA_HARDWARE_RESET 0
#define PIONGSEUT_PROTOCOL_SRST 1
#define PIONGSEUT_PROTOCOL_NON_DATA 3
#define PIONGSEUT_PROTOCOL_PIO_DATA_IN 4
#define PIONGSEUT_PROTOCOL_PIO_DATA_OUT 5
#define PIONGSEUT_PROTOCOL_DMA 6
#define PIONGSEUT_PROTOCOL_EXECUTE_DEVICE_DIAGNOSTIC 8
#define PIONGSEUT_PROTOCOL_DEVICE_RESET 9
#define PIONGSEUT_PROTOCOL_UDMA_DATA_IN 10
#define PIONGSEUT_PROTOCOL_UDMA_DATA_OUT 11
#define PIONGSEUT_PROTOCOL_RETURN_RESPONSE_INFORMATION 15 /* makes no order */

/* Which way an order's data go. */
#define PIONGSEUT_DIRECTION_NONE 0
#define PIONGSEUT_DIRECTION_FROM_DRIVE 1
#define PIONGSEUT_DIRECTION_TO_DRIVE 2

/* An order for the drive. There is no padding in it: two orders are equal if memcmp says so. */
typedef struct {
    uint32_t length;             /* of the data, in bytes */
    uint32_t auxiliary;          /* bytes 28 to 31 of the 32-byte command, high byte first; 0 of any other */
    uint16_t features;           /* registers: upper byte << 8 | lower byte */
    uint16_t count;
    uint16_t lba_low;
    uint16_t lba_mid;
    uint16_t lba_high;
    uint16_t quiet_seconds;      /* 2^(OFF_LINE+1) - 2 */
    uint16_t sectors_per_block;  /* 2^MULTIPLE_COUNT */
    uint8_t device;
    uint8_t command;
    uint8_t protocol;            /* PIONGSEUT_PROTOCOL_... */
    uint8_t ck_cond;             /* 0 or 1 */
    uint8_t extend;              /* 0 or 1 */
    uint8_t direction;           /* PIONGSEUT_DIRECTION_... */
} piongseut_order;
PIONGSEUT_HAS_SIZE(piongseut_order, 28)

/*
 * States of a record: it holds nothing; an order, which may be a reset; or an order with a reset over it, which was taken while the
 * order was pending.
 */
#define PIONGSEUT_STATE_NOTHING 0
#define PIONGSEUT_STATE_ORDER 1
#define PIONGSEUT_STATE_RESET_OVER_ORDER 2

/*
 * The pending record: one order at most, and one reset over it. The caller keeps it and lends it to each call; begin with
 * piongseut_record_empty(). There is no padding in it, and every byte pattern is a valid record: one with any other state than these
 * three holds an order. `older` is looked at in PIONGSEUT_STATE_RESET_OVER_ORDER alone.
 */
typedef struct {
    uint32_t state;        /* PIONGSEUT_STATE_... */
    piongseut_order order; /* what completion ends: the order, or the reset over it */
    piongseut_order older; /* the order under the reset; all zero where an order was taken with nothing pending */
} piongseut_record;
PIONGSEUT_HAS_SIZE(piongseut_record, 60)

typedef struct {
    uint8_t number; /* refusal number, 0 if none */
    uint8_t status; /* NONE for an order that was taken: its status comes with its completion */
    piongseut_order order; /* the order to carry out; all zero where none was taken */
} piongseut_submit_answer;
PIONGSEUT_HAS_SIZE(piongseut_submit_answer, 32)

typedef struct {
    uint8_t number; /* refusal number, 0 if none */
    uint8_t status;
    uint8_t lost;          /* 1: a reset ended, and the order that it was over is lost */
    uint8_t lost_protocol; /* the lost order's; 0 where none is lost. A lost order has no status */
} piongseut_complete_answer;
PIONGSEUT_HAS_SIZE(piongseut_complete_answer, 4)

/* A record that holds nothing. */
piongseut_record piongseut_record_empty(void);

/*
 * Submits an ATA PASS-THROUGH command (A1h with 12 bytes, 85h with 16, and in the later edition 7Fh with 32).
 *
 * Lent to read: the command bytes; the drive's registers as they are now, 11 bytes (PIONGSEUT_REGISTER_... names their places),
 * which PROTOCOL 15 reports; in the later edition the drive's IDENTIFY block, 512 bytes, or 0 where it gave none. In the first edition
 * the block is not looked at, of whatever size it is. `declared` is the host's own length of the data, in bytes, `edition` the one by
 * which the command is read (PIONGSEUT_EDITION_...), and `form` that of the sense data (PIONGSEUT_SENSE_...); the record holds neither.
 * Lent to write: the record, and sense room of at least 22 bytes.
 * Back: the order to carry out, which the record now holds; or for PROTOCOL 15 number 0, CHECK CONDITION with sense data that tell the
 * registers, no order, and the record as it was.
 * While an order is pending a reset (PROTOCOL 0 or 1) is taken over it, unless that is a reset itself or has one over it; nothing else is.
 * Refusals: 1 (registers not of 11 bytes, sense room below 22; in the later edition also a block that is neither 512 nor 0 bytes), 18 (in
 * the later edition), 2 (no command byte), 3, 2 (fewer than the opcode asks for), 4, 20 (in the later edition), 9, 10, 11, 12, 6 (in the
 * later edition, where logical sectors are to be counted), 13, 14. 14 compares the length as it is, of however many bits. A refusal leaves
 * the record as it was.
 *
 * On packet (MMC) drives the opcode A1h is BLANK. This function is lent no signature and takes A1h for ATA PASS-THROUGH (12):
 * whoever calls it has to send a packet drive's A1h to the drive instead.
 */
piongseut_submit_answer piongseut_submit(piongseut_record *record,
                                         const uint8_t *command, size_t command_size,
                                         const uint8_t *registers, size_t registers_size,
                                         const uint8_t *block, size_t block_size,
                                         uint32_t declared,
                                         uint8_t edition,
                                         uint8_t form,
                                         uint8_t *sense, size_t sense_size);

/*
 * Ends the order that the record holds, with the registers that the drive left (11 bytes, as above), and empties the record. Where a
 * reset is over an order it is the reset that ends, and the order is lost: it has no status, and its protocol is told. `form` is that
 * of the sense data, whatever it was when the command was submitted.
 *
 * Back: CHECK CONDITION with sense data that tell the registers if the drive's status has bit 0 or 5 (key 0Bh) or the order asked for it
 * (key 01h); else GOOD with the sense room untouched.
 * Refusals: 1 (sizes as above), 15. A refusal leaves the record as it was.
 */
piongseut_complete_answer piongseut_complete(piongseut_record *record,
                                             const uint8_t *registers, size_t registers_size,
                                             uint8_t form,
                                             uint8_t *sense, size_t sense_size);

/* ---- Page 83h, which names a drive ---- */

/* Forms of a name: none, where refused; a world wide name; model and serial number. And the sizes of what these are made of. */
#define PIONGSEUT_FORM_REFUSED 0
#define PIONGSEUT_FORM_WWN 1
#define PIONGSEUT_FORM_TEXT 2
#define PIONGSEUT_WWN_SIZE 8
#define PIONGSEUT_MODEL_SIZE 40
#define PIONGSEUT_SERIAL_SIZE 20
#define PIONGSEUT_NAME_SIZE 60

typedef struct {
    uint8_t number;
    size_t count; /* bytes written: 16 for a world wide name, 76 for model and serial number, and 8, 12 or 20 more with ports */
} piongseut_write_page83_answer;
PIONGSEUT_HAS_SIZE(piongseut_write_page83_answer, 16)

/*
 * Writes the page 83h of an IDENTIFY block, with the ports that are chosen behind the drive's name.
 * Refusals: 1 (a block not of 512 bytes, also one of 0; a chosen address not of 8), 18, 19 (a chosen relative port that is not 1 or 2), 8.
 */
piongseut_write_page83_answer piongseut_write_page83(const uint8_t *block, size_t block_size,
                                                     piongseut_ports ports,
                                                     const uint8_t *address, size_t address_size,
                                                     uint8_t *room, size_t room_size);

typedef struct {
    uint8_t number;
    uint8_t form;                      /* PIONGSEUT_FORM_... */
    uint8_t name[PIONGSEUT_NAME_SIZE]; /* the name's bytes, a serial number behind its model, and zeros behind them */
    piongseut_ports ports;             /* the ports that stood behind it; relative 0 where none did */
    uint8_t address[PIONGSEUT_ADDRESS_SIZE]; /* of the SAS target port; zeros where none stood there */
} piongseut_read_page83_answer;
PIONGSEUT_HAS_SIZE(piongseut_read_page83_answer, 74)

/*
 * Reads one complete page 83h, and nothing after it: the name, and the ports that went in.
 * Refusals: 16. All else is then zero.
 */
piongseut_read_page83_answer piongseut_read_page83(const uint8_t *page, size_t page_size);

/* ---- Another maker's bridge ---- */

typedef struct {
    uint8_t number;   /* 0, or a refusal: 21, 22 or 18 */
    uint8_t accepted; /* 1: each field is what our writers give; 0: it is not, or the capture is refused */
    uint8_t tag;      /* of the first field at fault; 0 where none is, or where the capture is refused */
    size_t place;     /* of its first differing byte, counted from its first byte; of refusal 21, of the broken field's tag in the
                         capture, or the capture's size where page 89h is missing; else 0 */
} piongseut_check_answer;
PIONGSEUT_HAS_SIZE(piongseut_check_answer, 16)

/*
 * Checks a capture of any size: fields of a tag, two length bytes, high byte first, and as many bytes, one behind the other. Tag 01h is
 * standard data; 00h, 80h, 83h and 89h are the pages. Tags rise; 89h is there, the last. Each field is held beside what the board gives
 * for the block, the texts and the signature of its page 89h; page 83h beside that of every choice of ports, where the furthest place
 * counts. Where one is the start of the other, the shorter size is the place.
 * Refusals: 21, 22, 18 (the block of page 89h). There is no 1, since no size of a capture is wrong.
 */
piongseut_check_answer piongseut_check(const uint8_t *capture, size_t capture_size);

/* ---- The roll ---- */

/* The most blocks of a roll. */
#define PIONGSEUT_ROLL_BLOCKS 64

typedef struct {
    uint8_t number;
    uint16_t blocks;
    uint16_t drives;
} piongseut_roll_answer;
PIONGSEUT_HAS_SIZE(piongseut_roll_answer, 6)

/*
 * The roll of up to 64 IDENTIFY blocks of 512 bytes that stand one after the other in `blocks`. Lent to write: room for a row
 * number a block, `rows_size` entries. Rows run from 1 by first appearance; two blocks have the same row exactly if they are the
 * same drive; entries past the block count are untouched.
 * Refusals: 1 (blocks_size no multiple of 512 or above 32,768; fewer rows than blocks), 18 (one of the blocks is damaged: the roll
 * is refused whole, and no row is written).
 */
piongseut_roll_answer piongseut_roll(const uint8_t *blocks, size_t blocks_size, uint16_t *rows, size_t rows_size);

/* ---- The intake: IDENTIFY data off the wire ---- */

/*
 * An intake collects the 512 bytes of a block that arrives in runs of any length. It is these two numbers and a store of 512 bytes,
 * both kept by the caller: what it has stands in the store's first `have` bytes. Begin with piongseut_intake_empty(), and again to
 * empty it; the store's bytes past `have` mean nothing, so the store needs no clearing.
 */
typedef struct {
    uint16_t have; /* bytes that it has; more than 512 is refused */
    uint16_t sum;  /* their sum modulo 256, counted on from the sum that was handed in; no function asks it */
} piongseut_intake;
PIONGSEUT_HAS_SIZE(piongseut_intake, 4)

typedef struct {
    piongseut_intake next; /* the intake afterwards: the one handed in, where refused */
    uint16_t used;         /* how many bytes of the run it took, from the run's start */
    uint8_t number;        /* refusal number, 0 if none */
    uint8_t complete;      /* 1: it has all 512 bytes */
} piongseut_intake_take_answer;
PIONGSEUT_HAS_SIZE(piongseut_intake_take_answer, 8)

/* An intake that has nothing. */
piongseut_intake piongseut_intake_empty(void);

/*
 * Takes a run, of any length, also of none. Lent to read: the run. Lent to write: the store, 512 bytes; only those that the run's
 * bytes go to are written. A complete intake uses nothing more.
 * Refusals: 1 (a store not of 512 bytes; an intake that claims more than 512). It changes nothing.
 */
piongseut_intake_take_answer piongseut_intake_take(piongseut_intake intake,
                                                   uint8_t *store, size_t store_size,
                                                   const uint8_t *run, size_t run_size);

typedef struct {
    uint8_t number; /* refusal number, 0 if none */
    size_t count;   /* bytes of the store, from its front */
} piongseut_intake_block_answer;
PIONGSEUT_HAS_SIZE(piongseut_intake_block_answer, 16)

/*
 * How many bytes of its store are an intake's block: all 512 where it is complete, and else 0. Lend the store's first `count` bytes
 * as the block to piongseut_inquiry or piongseut_write_page83.
 * Refusals: 1 (a store not of 512 bytes; an intake that claims more than 512).
 */
piongseut_intake_block_answer piongseut_intake_block(piongseut_intake intake, size_t store_size);

typedef struct {
    uint8_t number; /* refusal number, 0 if none */
    size_t count;   /* bytes of the room, from its front */
} piongseut_intake_gather_answer;
PIONGSEUT_HAS_SIZE(piongseut_intake_gather_answer, 16)

/*
 * Gathers the blocks of a run of intakes, for piongseut_roll: the stores of those that are complete, in their order. Lent to read:
 * how many bytes each intake has, and their stores one after the other, 512 bytes each. Lent to write: room, where the blocks come
 * to stand one after the other; the rest of it is untouched.
 * Back: how many bytes of blocks stand in the room. Lend the first `count` bytes to piongseut_roll.
 * Refusals: 1 (stores of another size than 512 bytes an intake; an intake that claims more than 512), 18 (the block of a complete
 * intake is damaged; the stores of others are not asked), 8 (room below the blocks).
 */
piongseut_intake_gather_answer piongseut_intake_gather(const uint16_t *haves, size_t intake_count,
                                                       const uint8_t *stores, size_t stores_size,
                                                       uint8_t *room, size_t room_size);

/* ---- The census: how many drives of each kind ---- */

/* The most blocks of a census, and the places of its counts: modes 0 to 6 and versions 1 to 14 in a row, with none behind them. */
#define PIONGSEUT_CENSUS_BLOCKS 65535
#define PIONGSEUT_CENSUS_MODES 8
#define PIONGSEUT_CENSUS_NO_MODE 7
#define PIONGSEUT_CENSUS_VERSIONS 15
#define PIONGSEUT_CENSUS_NO_VERSION 14

/* A census of the blocks that were fed to it, which each grouping sums to. There is no padding in it. */
typedef struct {
    uint16_t blocks;
    uint16_t named;                              /* they carry a world wide name */
    uint16_t unnamed;                            /* they carry none */
    uint16_t udma[PIONGSEUT_CENSUS_MODES];       /* by highest Ultra DMA mode: udma[m] is mode m */
    uint16_t version[PIONGSEUT_CENSUS_VERSIONS]; /* by highest major version: version[v - 1] is version v */
} piongseut_census;
PIONGSEUT_HAS_SIZE(piongseut_census, 52)

typedef struct {
    piongseut_census next; /* the census afterwards: the one handed in, where refused */
    uint8_t number;        /* refusal number, 0 if none */
} piongseut_census_answer;
PIONGSEUT_HAS_SIZE(piongseut_census_answer, 54)

/* A census of no blocks. */
piongseut_census piongseut_census_empty(void);

/*
 * Counts a block in a census. Lent to read: the IDENTIFY block, 512 bytes. The mode is the highest one bit of word 88 bits 6:0, which
 * count only if word 53 bit 2 is one; the version is the highest one bit of word 80 bits 14:1, none if the word is FFFFh.
 * Refusals: 1 (a block not of 512 bytes, also one of 0), 17 (65,535 blocks are in the census already, or a grouping of it does not
 * sum to its blocks), 18 (a damaged block).
 */
piongseut_census_answer piongseut_census_feed(piongseut_census census, const uint8_t *block, size_t block_size);

/* ---- The builder: the command that makes an order ---- */

/* The most bytes of a built command, and those of its two forms. */
#define PIONGSEUT_COMMAND_SIZE 16
#define PIONGSEUT_COMMAND_SHORT_SIZE 12
#define PIONGSEUT_COMMAND_LONG_SIZE 16

/* The command that was built. There is no padding in it. */
typedef struct {
    uint8_t number;                          /* refusal number, 0 if none */
    uint8_t size;                            /* 12 or 16: so many bytes of the command are to be sent; 0 where refused */
    uint8_t command[PIONGSEUT_COMMAND_SIZE]; /* zero behind them; all zero where refused */
} piongseut_build_answer;
PIONGSEUT_HAS_SIZE(piongseut_build_answer, 18)

/*
 * Builds the command that makes an order: ATA PASS-THROUGH (12) where its extend is 0, else ATA PASS-THROUGH (16), with the control byte
 * and all that is ignored zero. T_LENGTH is 0 without data; else it and BYTE_BLOCK name the first that has the order's length, of the
 * count in blocks of 512 bytes, the count in bytes, the features in blocks, the features in bytes, and the declared length. Submitted in
 * the first edition, with nothing pending and with the order's length declared, the command is accepted and gives the order back.
 * Refusals: 23. It is given exactly where no command of either form gives the order, whatever is declared: protocol none of 0, 1, 3 to 6,
 * 8 to 11; auxiliary not 0; quiet_seconds none of 0, 2, 6, 14; sectors_per_block no power of two up to 128; ck_cond or extend above 1; a
 * register above FFh without extend; with data a length of 0, or a direction that the protocol does not have; without data a length or a
 * direction other than 0; and a reset (protocol 0 or 1) with another sectors_per_block than 1, or any other field not 0.
 */
piongseut_build_answer piongseut_build(piongseut_order order);

#undef PIONGSEUT_HAS_SIZE

#ifdef __cplusplus
}
#endif

/* The long calls once more, with their parts named: C over the functions above, inline, which C has since C99; and not proved. */
#if defined(__cplusplus) || (defined(__STDC_VERSION__) && __STDC_VERSION__ >= 199901L)
#ifndef PIONGSEUT_WITHOUT_NAMED
#include "piongseut_named.h"
#endif
#endif

#endif
