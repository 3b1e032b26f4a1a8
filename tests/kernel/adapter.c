/* The machine's SCSI host adapter, in the place of one that QEMU would be:
     adapter SOCKET SHELF LOG BOARD [WORD..]
   serves QEMU's vhost-user-scsi on the socket. A target is a bay of the shelf; its commands go
   where host.h says. */
#define _GNU_SOURCE
#include <signal.h>
#include <stdio.h>
#include <stdlib.h>
#include <string.h>

#include "blocks.h"
#include "host.h"
#include "vhost.h"
#include "wire.h"

enum { FIRST_REQUESTS = 2 /* before it are the rings of control and of events */ };
enum { NO_TARGET = 3, FAILURE = 9 }; /* responses besides 0 */

typedef struct {
    uint8_t lun[8], tag[8], unused[3], command[COMMAND];
} __attribute__((packed)) scsi_request;

typedef struct {
    uint32_t sense_size, left;
    uint16_t qualifier;
    uint8_t status, response, sense[96];
} __attribute__((packed)) scsi_response;

static uint8_t data[MOST];

static void die(const char *why)
{
    fprintf(stderr, "adapter: %s\n", why);
    exit(1);
}

/* What the machine sends or wants of data stands behind the heads of request and response. */
static exchange read_exchange(const request *q, const scsi_request *asked)
{
    size_t sent = pieces_size(q->written, q->written_used) - sizeof *asked;
    size_t wanted = pieces_size(q->room, q->room_used) - sizeof(scsi_response);
    exchange x = {.command = asked->command, .command_size = command_size(asked->command[0]),
                  .data = data, .declared = sent ? sent : wanted, .status = PIONGSEUT_NONE};
    if (sent > MOST || wanted > MOST)
        die("more data than the machine was told to send at once");
    if (x.declared)
        x.direction = sent ? PIONGSEUT_DIRECTION_TO_DRIVE : PIONGSEUT_DIRECTION_FROM_DRIVE;
    pieces_read(q->written, q->written_used, sizeof *asked, data, sent);
    return x;
}

static void write_answer(const request *q, const exchange *x)
{
    scsi_response given = {.left = (uint32_t)(x->declared - x->moved), .status = x->status};
    if (x->status == PIONGSEUT_NONE) {
        given.status = 0;
        given.response = FAILURE;
    }
    given.sense_size = (uint32_t)sense_size(x);
    memcpy(given.sense, x->sense, given.sense_size);
    pieces_write(q->room, q->room_used, 0, &given, sizeof given);
    if (x->direction == PIONGSEUT_DIRECTION_FROM_DRIVE)
        pieces_write(q->room, q->room_used, sizeof given, x->data, x->moved);
}

/* A target that has a bay, and its first unit, in the first of virtio's two forms. */
static int is_there(const uint8_t *lun)
{
    return lun[0] == 1 && lun[1] < host_bays() && (lun[2] & 0x3F) == 0 && lun[3] == 0;
}

static void answer(unsigned ring, request *q)
{
    scsi_request asked;
    const scsi_response nobody = {.response = NO_TARGET};
    if (ring < FIRST_REQUESTS) /* an abort or a reset: where a command hangs, and none may */
        die("the machine asks for an abort or a reset");
    if (pieces_read(q->written, q->written_used, 0, &asked, sizeof asked) != sizeof asked ||
        pieces_size(q->room, q->room_used) < sizeof nobody)
        die("a request that is not of virtio-scsi");
    if (!is_there(asked.lun)) {
        pieces_write(q->room, q->room_used, 0, &nobody, sizeof nobody);
        return;
    }
    exchange x = read_exchange(q, &asked);
    host_carry(asked.lun[1], &x);
    write_answer(q, &x);
}

int main(int count, char **words)
{
    if (count < 5)
        die("usage: adapter SOCKET SHELF LOG BOARD [WORD..]");
    host_start(words[2], words[3], words + 4);
    signal(SIGPIPE, SIG_IGN); /* that the board has gone is told, and not died of */
    vhost_serve(words[1], answer);
    return 0;
}
