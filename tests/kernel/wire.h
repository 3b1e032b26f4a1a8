/* What goes over the socket between the host (host.c) and the board's process (board.c):
   a command, with its data where they go to the drive, and the answer to it, with its data
   where they come from the drive. The two may be programs for two processors, so every number
   has its size; both processors put the low byte first. */
#ifndef WIRE_H
#define WIRE_H

#include <stdint.h>
#include <unistd.h>

#include "../clients/exchange.h"

enum { COMMAND = 32 };

typedef struct {
    uint32_t bay, direction, declared, command_size;
    uint8_t command[COMMAND];
} wire_command;

typedef struct {
    uint32_t moved;
    uint8_t number, status, sense[SENSE], unused[2];
} wire_answer;

/* 0, or -1 where the other side has gone. */
static inline int wire_send(int socket, const void *bytes, size_t size)
{
    const char *at = bytes;
    while (size > 0) {
        ssize_t done = write(socket, at, size);
        if (done <= 0)
            return -1;
        at += done;
        size -= (size_t)done;
    }
    return 0;
}

static inline int wire_receive(int socket, void *bytes, size_t size)
{
    char *at = bytes;
    while (size > 0) {
        ssize_t done = read(socket, at, size);
        if (done <= 0)
            return -1;
        at += done;
        size -= (size_t)done;
    }
    return 0;
}

#endif
