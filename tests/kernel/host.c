/* Who gets a command: the board, a process behind a socket (wire.h), or the block layer. */
#define _GNU_SOURCE
#include "host.h"

#include <fcntl.h>
#include <stdio.h>
#include <string.h>
#include <sys/socket.h>

#include "blocks.h"
#include "wire.h"

enum { DISKS = 64 };

static int disks[DISKS];
static uint32_t disks_used;
static int board;
static FILE *host_log;

/* Ends at once: what else runs in the process, QEMU for one, is not waited for. */
static void die(const char *why)
{
    fprintf(stderr, "host: %s\n", why);
    _exit(1);
}

static void open_disks(const char *shelf)
{
    for (; disks_used < DISKS; disks_used++) {
        char path[4096];
        snprintf(path, sizeof path, "%s/%02u.disk", shelf, disks_used);
        disks[disks_used] = open(path, O_RDWR | O_CLOEXEC);
        if (disks[disks_used] < 0)
            break;
    }
    if (!disks_used)
        die("the shelf has no disks");
}

/* The board's standard input and output are the other end of the socket. */
static void start_board(char **words)
{
    int ends[2];
    if (socketpair(AF_UNIX, SOCK_STREAM | SOCK_CLOEXEC, 0, ends) < 0)
        die("no socket can be made");
    board = ends[0];
    pid_t child = fork();
    if (child < 0)
        die("the board cannot be started");
    if (child == 0) {
        if (dup2(ends[1], 0) == 0 && dup2(ends[1], 1) == 1)
            execvp(words[0], words);
        die("the board cannot be started");
    }
    close(ends[1]);
}

void host_start(const char *shelf, const char *log, char **board_words)
{
    host_log = fopen(log, "we");
    if (!host_log)
        die("the log cannot be written");
    open_disks(shelf);
    start_board(board_words);
}

uint32_t host_bays(void)
{
    return disks_used;
}

int host_disk(uint32_t bay)
{
    return disks[bay];
}

/* ---- a command ---- */

static void ask_board(uint32_t number, exchange *x)
{
    wire_command c = {.bay = number, .direction = (uint32_t)x->direction,
                      .declared = (uint32_t)x->declared, .command_size = (uint32_t)x->command_size};
    wire_answer a;
    if (x->command_size > sizeof c.command)
        die("too long a command");
    memcpy(c.command, x->command, x->command_size);
    size_t sent = x->direction == PIONGSEUT_DIRECTION_TO_DRIVE ? x->declared : 0;
    if (wire_send(board, &c, sizeof c) < 0 || wire_send(board, x->data, sent) < 0 ||
        wire_receive(board, &a, sizeof a) < 0 || a.moved > x->declared)
        die("the board has gone");
    if (x->direction == PIONGSEUT_DIRECTION_FROM_DRIVE && wire_receive(board, x->data, a.moved) < 0)
        die("the board has gone");
    x->moved = a.moved;
    x->number = a.number;
    x->status = a.status;
    memcpy(x->sense, a.sense, sizeof x->sense);
}

static void log_command(uint32_t number, const char *who, const exchange *x)
{
    fprintf(host_log, "%02u %s ", number, who);
    for (size_t i = 0; i < x->command_size; i++)
        fprintf(host_log, "%02x", x->command[i]);
    fprintf(host_log, " status=%02x moved=%zu\n", x->status, x->moved);
    fflush(host_log);
}

void host_carry(uint32_t number, exchange *x)
{
    uint8_t first = x->command[0];
    int for_board = first == INQUIRY || first == PASS_THROUGH_12 || first == PASS_THROUGH_16 || first == PASS_THROUGH_32;
    if (for_board)
        ask_board(number, x);
    else
        blocks_carry(disks[number], x);
    log_command(number, for_board ? "board" : "blocks", x);
}
