/*
 * Real blocks on the board's C library, as they are and with each of their bits changed alone (docs/RULES.md 5): damage FILE..
 * A block with A5h in byte 510 is taken as it is, and refused with 18 where any of its other 4,088 bits is changed; the eight of
 * byte 510 take the A5h away, and with it what the block could be judged by.
 */
#include "piongseut.h"

#include <stdio.h>
#include <string.h>

enum { MARK_AT = 510, MARK = 0xA5, DAMAGED = 18, FILL = 0x6C, BITS = 8 * PIONGSEUT_BLOCK_SIZE };

static int passed;
static int failed;

static void check(int held, const char *what, const char *file)
{
    printf("%s %s: %s\n", held ? "ok" : "not ok", file, what);
    if (held)
        passed++;
    else
        failed++;
}

/* Page 89h of the block: a refusal leaves room and sense room as they were, has no status and shows nothing. */
static int asked(const uint8_t *block)
{
    static const uint8_t command[6] = {0x12, 0x01, 0x89, 0xFF, 0xFF, 0x00};
    static const uint8_t signature[PIONGSEUT_SIGNATURE_SIZE] = {0}, texts[PIONGSEUT_TEXTS_SIZE] = {0};
    static const piongseut_ports ports = {PIONGSEUT_PORT_NONE, 0};
    uint8_t room[PIONGSEUT_PAGE89_SIZE], filled[PIONGSEUT_PAGE89_SIZE], sense[PIONGSEUT_SENSE_SIZE];
    memset(room, FILL, sizeof room);
    memset(filled, FILL, sizeof filled);
    memset(sense, FILL, sizeof sense);
    piongseut_inquiry_answer answer =
        piongseut_inquiry(command, sizeof command, block, PIONGSEUT_BLOCK_SIZE, signature, sizeof signature, texts, sizeof texts,
                          texts, 0, ports, texts, 0, PIONGSEUT_SENSE_UNSTATED, room, sizeof room, sense, sizeof sense);
    int refused = answer.number == DAMAGED && answer.status == PIONGSEUT_NONE && answer.shown == PIONGSEUT_SHOWN_ROOM &&
                  answer.count == 0 && memcmp(room, filled, sizeof room) == 0 && memcmp(sense, filled, sizeof sense) == 0;
    int served = answer.number == PIONGSEUT_ACCEPTED && answer.count == sizeof room &&
                 memcmp(room + sizeof room - PIONGSEUT_BLOCK_SIZE, block, PIONGSEUT_BLOCK_SIZE) == 0;
    return refused ? DAMAGED : served ? PIONGSEUT_ACCEPTED : -1;
}

/* Its page 83h with both ports, and the roll of it alone: the number that they give, or -1 where it is not that of page 89h. */
static int number_of(const uint8_t *block)
{
    static const piongseut_ports ports = {PIONGSEUT_PORT_RELATIVE | PIONGSEUT_PORT_SAS, 1};
    static const uint8_t address[PIONGSEUT_ADDRESS_SIZE] = {0x50};
    uint8_t room[PIONGSEUT_PAGE83_MOST_SIZE];
    uint16_t row = 0;
    int number = asked(block);
    piongseut_write_page83_answer written =
        piongseut_write_page83(block, PIONGSEUT_BLOCK_SIZE, ports, address, sizeof address, room, sizeof room);
    piongseut_roll_answer rolled = piongseut_roll(block, PIONGSEUT_BLOCK_SIZE, &row, 1);
    return written.number == number && rolled.number == number && row == (number == PIONGSEUT_ACCEPTED) ? number : -1;
}

/* How many bits are there of which the block is refused, or taken, with that one changed. */
static void each_bit(uint8_t *block, const char *file)
{
    int refused = 0, taken = 0;
    for (int bit = 0; bit < BITS; bit++) {
        block[bit / 8] ^= (uint8_t)(1 << bit % 8);
        int number = number_of(block);
        refused += number == DAMAGED && bit / 8 != MARK_AT;
        taken += number == PIONGSEUT_ACCEPTED && bit / 8 == MARK_AT;
        block[bit / 8] ^= (uint8_t)(1 << bit % 8);
    }
    check(refused == 4088, "4,088 bits, each changed alone: 18", file);
    check(taken == 8, "the eight bits of byte 510, each changed alone: taken", file);
}

int main(int words, char **word)
{
    for (int at = 1; at < words; at++) {
        uint8_t block[PIONGSEUT_BLOCK_SIZE];
        FILE *file = fopen(word[at], "rb");
        if (file == NULL || fread(block, 1, sizeof block, file) != sizeof block) {
            fprintf(stderr, "damage: no block in %s\n", word[at]);
            return 1;
        }
        fclose(file);
        check(block[MARK_AT] == MARK, "carries A5h", word[at]);
        check(number_of(block) == PIONGSEUT_ACCEPTED, "taken", word[at]);
        each_bit(block, word[at]);
    }
    printf("damage: %d passed, %d failed\n", passed, failed);
    return failed != 0;
}
