/* inputs.c: the customer's figures, and what is made of them. */
#include "inputs.h"

#include <string.h>

#include "plain.h"

/* The low byte comes first. */
#define WORD(number) (number) & 0xFF, (number) >> 8

/* Standard, InPix, InLin, InPpl, OutPix, OutLin, YSKIP, XOFS, YOFSO, offset. */
#define FIGURE_1 \
    0, WORD(640), WORD(480), WORD(800), WORD(640), WORD(216), WORD(0), WORD(80), WORD(66), 0
#define FIGURE_2 \
    0, WORD(640), WORD(480), WORD(800), WORD(640), WORD(220), WORD(0), WORD(80), WORD(66), 0
#define FIGURE_4 \
    1, WORD(800), WORD(600), WORD(1024), WORD(640), WORD(255), WORD(4095), WORD(200), WORD(89), 0

const uint8_t figure_1[THYMEFLASK_REQUEST_BYTES] = {FIGURE_1};
const uint8_t figure_2[THYMEFLASK_REQUEST_BYTES] = {FIGURE_2};
const uint8_t figure_4[THYMEFLASK_REQUEST_BYTES] = {FIGURE_4};

const uint8_t one_register[3] = {0x88, 0x81, 0x2B};
const uint8_t many_registers[2 + 32] = {
    0x88, 0x70,
    0x46, 0x46, 0x61, 0x3C, 0x04, 0x90, 0x05, 0x16, 0x04, 0x16, 0x1F, 0xF7, 0x00, 0xFF, 0x80, 0x7F,
    0xA5, 0x2B, 0x3F, 0x21, 0x11, 0x22, 0x33, 0x44, 0x55, 0x66, 0x77, 0x88, 0x99, 0xAA, 0xBB, 0xCC,
};
const uint8_t cursor_byte[4] = {0x88, 0xFE, 0x40, 0xE4};
const uint8_t colour_cell[6] = {0x88, 0xFF, 0x40, 0x10, 0x20, 0x30};

static const uint8_t mixed_round[ROUND_BYTES] = {
    0x01, FIGURE_1,
    0x02, 0x16, 0x0B, 0x02, 0x5B, 0x76, 0x02, 0x97, 0x0A, 0x02, 0xFD, 0x80,
    0x03, 0x00, 0xFF, 0xFF, 0xFF, 0x03, 0x81, 0x10, 0x20, 0x30,
    0x04, 0x2A, 0xE4,
    0x05, 0x70, 0x05, 0x81, 0x05, 0x97, 0x05, 0xFD,
};

static void flip_named(uint8_t *file)
{
    for (unsigned place = 0; place < THYMEFLASK_FILE_BYTES; place++) {
        const unsigned named = plain_masks[place];
        if (place < 0x67 || place > 0x6A)
            file[place] ^= (uint8_t)(named & -named);
    }
}

void make_inputs(struct inputs *inputs)
{
    memset(inputs, 0, sizeof *inputs);
    plain_write_picture(inputs->file_1, sizeof inputs->file_1, figure_1, sizeof figure_1);
    plain_write_picture(inputs->file_2, sizeof inputs->file_2, figure_2, sizeof figure_2);
    plain_write_picture(inputs->file_4, sizeof inputs->file_4, figure_4, sizeof figure_4);
    memcpy(inputs->same_1, inputs->file_1, sizeof inputs->file_1);
    memcpy(inputs->flipped, inputs->file_1, sizeof inputs->file_1);
    flip_named(inputs->flipped);
    for (size_t round = 0; round < ROUNDS; round++)
        memcpy(inputs->session + ROUND_BYTES * round, mixed_round, ROUND_BYTES);
}
