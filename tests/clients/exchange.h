/* One command on its way from a host through the board, and what came of it. */
#ifndef EXCHANGE_H
#define EXCHANGE_H

#include "piongseut.h"

enum { INQUIRY = 0x12, PASS_THROUGH_12 = 0xA1, PASS_THROUGH_16 = 0x85, PASS_THROUGH_32 = 0x7F };
enum { SENSE = 32, MOST = 1 << 20 /* bytes of data */ };

typedef struct {
    const uint8_t *command;
    size_t command_size;
    uint8_t *data;
    size_t declared;
    int direction; /* the host's, in the order's numbers */
    uint8_t number, status, sense[SENSE];
    uint32_t auxiliary; /* of the order that was taken */
    uint8_t lost, lost_protocol; /* an order that a reset ended without a status */
    int hung; /* the drive gave no end */
    size_t moved;
} exchange;

/* In either form byte 7 says how many bytes are behind it. */
static inline size_t sense_size(const exchange *x)
{
    size_t size = x->status == PIONGSEUT_CHECK_CONDITION ? 8u + x->sense[7] : 0;
    return size < SENSE ? size : SENSE;
}

#endif
