/* The board as a process of its own, with a simulated drive in every bay of a shelf:
     board SHELF
   takes commands on standard input and answers on standard output, until the other side goes.
   SHELF is a folder with a description of each drive, 00, 01 and so on. PIONGSEUT_DATA and
   PIONGSEUT_LOG are those of tests/clients; a line of the log starts with the bay's number. */
#include <stdio.h>
#include <stdlib.h>
#include <string.h>

#include "../clients/bridge.h"
#include "wire.h"

enum { BAYS = 64 };

static bay bays[BAYS];
static uint32_t bays_used;
static uint8_t data[MOST];

static void die(const char *why)
{
    fprintf(stderr, "board: %s\n", why);
    exit(1);
}

static void fill_bays(const char *shelf)
{
    for (; bays_used < BAYS; bays_used++) {
        char path[4096], text[1024];
        snprintf(path, sizeof path, "%s/%02u", shelf, bays_used);
        FILE *in = fopen(path, "rb");
        if (!in)
            break;
        text[fread(text, 1, sizeof text - 1, in)] = 0;
        fclose(in);
        bay_fill(&bays[bays_used], text);
    }
    if (!bays_used)
        die("the shelf has no drives");
}

static int serve(const wire_command *c)
{
    char who[16];
    exchange x = {.command = c->command, .command_size = c->command_size, .data = data,
                  .declared = c->declared, .direction = (int)c->direction,
                  .status = PIONGSEUT_NONE};
    if (c->bay >= bays_used || c->command_size > COMMAND || c->declared > MOST)
        die("a command for no bay, or too long a one");
    if (x.direction == PIONGSEUT_DIRECTION_TO_DRIVE && wire_receive(0, data, x.declared) < 0)
        return -1;
    snprintf(who, sizeof who, "%02u", c->bay);
    bay_carry(&bays[c->bay], &x, who);
    wire_answer a = {.moved = (uint32_t)x.moved, .number = x.number, .status = x.status};
    memcpy(a.sense, x.sense, sizeof a.sense);
    if (wire_send(1, &a, sizeof a) < 0)
        return -1;
    return x.direction == PIONGSEUT_DIRECTION_FROM_DRIVE ? wire_send(1, data, x.moved) : 0;
}

int main(int count, char **words)
{
    wire_command c;
    if (count != 2)
        die("usage: board SHELF");
    fill_bays(words[1]);
    while (wire_receive(0, &c, sizeof c) == 0 && serve(&c) == 0)
        ;
    return 0;
}
