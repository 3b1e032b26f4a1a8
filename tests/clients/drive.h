/* A simulated SATA drive behind the board: it executes the orders that the board takes
   and gives back registers and data. The client tests use it in the place of a disk. */
#ifndef DRIVE_H
#define DRIVE_H

#include <stddef.h>
#include <stdint.h>

#include "piongseut.h"

typedef struct {
    uint8_t identify[PIONGSEUT_BLOCK_SIZE];
    size_t identify_size; /* that of a block, or 0 when the drive gives none */
    uint8_t signature[PIONGSEUT_SIGNATURE_SIZE];
    uint8_t registers[PIONGSEUT_REGISTERS_SIZE];
    uint8_t power;        /* what CHECK POWER MODE says: FFh active, 00h standby */
    int packet;           /* a packet drive, with an INQUIRY reply of its own */
    int failing;          /* SMART RETURN STATUS tells of a threshold passed */
    int smart_off;
    int loose;            /* on a loose cable: its IDENTIFY block arrives changed */
    size_t sector;        /* bytes of a logical sector, each of which has its LBA in all of them */
    uint8_t edition;      /* by which the board reads the commands of this bay's host */
    uint8_t form;         /* of the sense data that the host of this bay asks for */
    uint8_t hangs;        /* the command at which it hangs, or 0 for none */
    int hung;             /* it hangs now, and only a reset frees it; then it hangs no more */
    piongseut_ports ports; /* of the path from this bay to the drive, those that page 83h tells */
    uint8_t address[PIONGSEUT_ADDRESS_SIZE];
} drive;

/* What moved where the drive hangs: the order has no end. */
#define DRIVE_HUNG SIZE_MAX

/* Makes the drive that a description tells of: after a first line that is skipped, one
   property a line. The folder holds the IDENTIFY blocks that a description names.
   0, or -1 with a line in complaint. */
int drive_describe(drive *d, const char *text, const char *folder, char *complaint, size_t size);

/* Carries out an order. Data goes to or comes from data (order->length bytes). Returns the
   bytes that moved, or DRIVE_HUNG; d->registers holds what the drive then shows. */
size_t drive_execute(drive *d, const piongseut_order *order, uint8_t *data);

/* A packet drive's own reply to an INQUIRY command; the bytes written to reply. */
size_t drive_inquiry(const drive *d, const uint8_t *command, size_t command_size,
                     uint8_t *reply, size_t size);

#endif
