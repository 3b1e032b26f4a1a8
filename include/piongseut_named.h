/*
 * The long calls of piongseut.h with their parts named, so that no two pieces are exchanged; piongseut.h includes this file.
 * piongseut_NAME_named takes a struct with a field for each argument of piongseut_NAME, hands them on, and gives its answer:
 *
 *     const piongseut_complete_call ended = {
 *         .record = &bay->record,
 *         .registers = registers, .registers_size = sizeof registers,
 *         .form = PIONGSEUT_SENSE_DESCRIPTOR,
 *         .sense = sense, .sense_size = sizeof sense,
 *     };
 *     const piongseut_complete_answer answer = piongseut_complete_named(ended);
 *
 * That is C99, and C++20, which wants the fields in their order (and g++ -Wextra warns there of those that are left out, unless it is
 * told -Wno-missing-field-initializers). In older C++ begin with `piongseut_complete_call ended = {};` and assign the fields.
 *
 * What is not named is zero: a number 0, and of a piece no pointer and no bytes. So of pointers less is needed than in piongseut.h:
 *  - A null pointer with size 0 is an empty piece: the function gets another pointer for it.
 *  - A null pointer with any other size, and a record that is not named, are refused with 1, before all else, and nothing is
 *    written: such a piece has not the size that it is said to have.
 *
 * These functions are the caller's own C, compiled with it: they are not in the archive, and they are tested and not proved. All
 * that they do is said here; what comes of the call is piongseut.h's. They take some stack of the caller besides that of the call.
 */
#ifndef PIONGSEUT_NAMED_H
#define PIONGSEUT_NAMED_H

#include "piongseut.h"

/* Whether a piece has a size and is nowhere. It is asked of those that may be empty: of the others size 0 is refused with 1 as it is. */
#define PIONGSEUT_NOWHERE(piece) (!call.piece && call.piece##_size != 0)

/* A piece and its size; an empty one points at `nothing`, which each function has for that. */
#define PIONGSEUT_PIECE(piece) call.piece ? call.piece : &nothing, call.piece ? call.piece##_size : 0

typedef struct {
    const uint8_t *command;
    size_t command_size;
    const uint8_t *block;
    size_t block_size;
    const uint8_t *signature;
    size_t signature_size;
    const uint8_t *texts;
    size_t texts_size;
    const uint8_t *reply;
    size_t reply_size;
    piongseut_ports ports;
    const uint8_t *address;
    size_t address_size;
    uint8_t form; /* PIONGSEUT_SENSE_... */
    uint8_t *room;
    size_t room_size;
    uint8_t *sense;
    size_t sense_size;
} piongseut_inquiry_call;

static inline piongseut_inquiry_answer piongseut_inquiry_named(piongseut_inquiry_call call)
{
    uint8_t nothing = 0;
    if (PIONGSEUT_NOWHERE(command) || PIONGSEUT_NOWHERE(block) || PIONGSEUT_NOWHERE(reply) || PIONGSEUT_NOWHERE(address) ||
        PIONGSEUT_NOWHERE(room))
        call.sense_size = 0;
    return piongseut_inquiry(PIONGSEUT_PIECE(command),
                             PIONGSEUT_PIECE(block),
                             PIONGSEUT_PIECE(signature),
                             PIONGSEUT_PIECE(texts),
                             PIONGSEUT_PIECE(reply),
                             call.ports,
                             PIONGSEUT_PIECE(address),
                             call.form,
                             PIONGSEUT_PIECE(room),
                             PIONGSEUT_PIECE(sense));
}

typedef struct {
    piongseut_record *record;
    const uint8_t *command;
    size_t command_size;
    const uint8_t *registers;
    size_t registers_size;
    const uint8_t *block;
    size_t block_size;
    uint32_t declared;
    uint8_t edition; /* PIONGSEUT_EDITION_... */
    uint8_t form;    /* PIONGSEUT_SENSE_... */
    uint8_t *sense;
    size_t sense_size;
} piongseut_submit_call;

static inline piongseut_submit_answer piongseut_submit_named(piongseut_submit_call call)
{
    uint8_t nothing = 0;
    piongseut_record none;
    if (PIONGSEUT_NOWHERE(command) || PIONGSEUT_NOWHERE(block))
        call.sense_size = 0;
    if (!call.record) {
        none = piongseut_record_empty();
        call.record = &none;
        call.sense_size = 0;
    }
    return piongseut_submit(call.record,
                            PIONGSEUT_PIECE(command),
                            PIONGSEUT_PIECE(registers),
                            PIONGSEUT_PIECE(block),
                            call.declared,
                            call.edition,
                            call.form,
                            PIONGSEUT_PIECE(sense));
}

typedef struct {
    piongseut_record *record;
    const uint8_t *registers;
    size_t registers_size;
    uint8_t form; /* PIONGSEUT_SENSE_... */
    uint8_t *sense;
    size_t sense_size;
} piongseut_complete_call;

static inline piongseut_complete_answer piongseut_complete_named(piongseut_complete_call call)
{
    uint8_t nothing = 0;
    piongseut_record none;
    if (!call.record) {
        none = piongseut_record_empty();
        call.record = &none;
        call.sense_size = 0;
    }
    return piongseut_complete(call.record,
                              PIONGSEUT_PIECE(registers),
                              call.form,
                              PIONGSEUT_PIECE(sense));
}

typedef struct {
    const uint8_t *block;
    size_t block_size;
    piongseut_ports ports;
    const uint8_t *address;
    size_t address_size;
    uint8_t *room;
    size_t room_size;
} piongseut_write_page83_call;

static inline piongseut_write_page83_answer piongseut_write_page83_named(piongseut_write_page83_call call)
{
    uint8_t nothing = 0;
    if (PIONGSEUT_NOWHERE(address) || PIONGSEUT_NOWHERE(room))
        call.block_size = 0;
    return piongseut_write_page83(PIONGSEUT_PIECE(block),
                                  call.ports,
                                  PIONGSEUT_PIECE(address),
                                  PIONGSEUT_PIECE(room));
}

typedef struct {
    const uint16_t *haves; /* intake_count numbers: how many bytes each intake has */
    size_t intake_count;
    const uint8_t *stores;
    size_t stores_size;
    uint8_t *room;
    size_t room_size;
} piongseut_intake_gather_call;

static inline piongseut_intake_gather_answer piongseut_intake_gather_named(piongseut_intake_gather_call call)
{
    uint8_t nothing = 0;
    const uint16_t no_haves = 0;
    if ((!call.haves && call.intake_count != 0) || PIONGSEUT_NOWHERE(stores) || PIONGSEUT_NOWHERE(room)) {
        call.intake_count = 0;
        call.stores = &nothing;
        call.stores_size = 1; /* and no intake has a store of one byte */
    }
    return piongseut_intake_gather(call.haves ? call.haves : &no_haves, call.haves ? call.intake_count : 0,
                                   PIONGSEUT_PIECE(stores),
                                   PIONGSEUT_PIECE(room));
}

#undef PIONGSEUT_PIECE
#undef PIONGSEUT_NOWHERE

#endif
