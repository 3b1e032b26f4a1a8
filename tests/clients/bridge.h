/* A bay with the board and a simulated drive in it: one command goes through at a time. */
#ifndef BRIDGE_H
#define BRIDGE_H

#include "drive.h"
#include "exchange.h"

/* The drive, the board's record of pending orders, and the file that keeps both, if any. */
typedef struct {
    drive drive;
    piongseut_record record;
    char kept[256];
} bay;

/* Puts in the drive that a description tells of; the program ends where there is none such.
   The variable PIONGSEUT_DATA names the folder of the IDENTIFY blocks. */
void bay_fill(bay *b, const char *description);

/* Keeps the record, and whether the drive hangs, in a file of this name in the folder that the
   variable PIONGSEUT_KEPT names, and begins with what is there; without the variable, nothing. */
void bay_keep(bay *b, const char *name);

/* Carries a command through. Where it reached the board, the file that the variable
   PIONGSEUT_LOG names gets a line, which starts with who asked; and where it made an order,
   so does the one that PIONGSEUT_ORDERS names, a line of the program build. */
void bay_carry(bay *b, exchange *x, const char *who);

#endif
