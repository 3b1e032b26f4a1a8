/*
 * A board that writes page 83h into a scratch page first and copies it to the room from there. Its answers are the board's own, so
 * only the stack shows it. tests/stack/run puts it into a copy of the archive, where the board's own function has another name.
 */
#include "piongseut.h"

piongseut_write_page83_answer board_write_page83(const uint8_t *block, size_t block_size, piongseut_ports ports,
                                                 const uint8_t *address, size_t address_size, uint8_t *room, size_t room_size);

piongseut_write_page83_answer piongseut_write_page83(const uint8_t *block, size_t block_size, piongseut_ports ports,
                                                     const uint8_t *address, size_t address_size, uint8_t *room, size_t room_size)
{
    uint8_t scratch[512];
    size_t size = room_size < sizeof scratch ? room_size : sizeof scratch;
    piongseut_write_page83_answer answer = board_write_page83(block, block_size, ports, address, address_size, scratch, size);
    for (size_t at = 0; at < answer.count; at++)
        room[at] = scratch[at];
    return answer;
}
