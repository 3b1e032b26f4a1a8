/* A host before a shelf of bays, whichever way the machine's commands come to it: who gets a
   command, and the log of it. One command goes through at a time. */
#ifndef HOST_H
#define HOST_H

#include "../clients/exchange.h"

/* Opens the disks of the shelf, plain files SHELF/00.disk and so on, and starts the board, a
   program with these words. LOG gets one line for each command, with who answered it. */
void host_start(const char *shelf, const char *log, char **board);

/* How many bays there are, and the open file of one. */
uint32_t host_bays(void);
int host_disk(uint32_t bay);

/* INQUIRY and pass-through go to the board, all else to the block layer over the bay's file. */
void host_carry(uint32_t bay, exchange *x);

#endif
