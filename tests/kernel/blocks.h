/* The block layer of a disk, over a plain file: what a recorder answers by itself and never
   asks the board for. */
#ifndef BLOCKS_H
#define BLOCKS_H

#include "../clients/exchange.h"

/* The size of a command by the group that its first byte names; that of the longest where a
   group has none. */
size_t command_size(uint8_t first);

/* Carries out any command but INQUIRY and pass-through, on the open file. */
void blocks_carry(int file, exchange *x);

#endif
