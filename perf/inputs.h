/* inputs.h: what the routines are called with. */
#ifndef INPUTS_H
#define INPUTS_H

#include "thymeflask.h"

enum {
    /* A round of the mixed session: 1 picture, 4 registers, 2 colours, 1 cursor byte, 4 shows. */
    ROUND_RECORDS = 12,
    ROUND_BYTES = 19 + 4 * 3 + 2 * 5 + 3 + 4 * 2,
    ROUNDS = THYMEFLASK_SESSION_BYTES / ROUND_BYTES,
    /* What the longest list of writes needs. */
    LIST_BYTES = 254
};

/* Figures 1, 2 and 4 of the customer's paper. */
extern const uint8_t figure_1[THYMEFLASK_REQUEST_BYTES];
extern const uint8_t figure_2[THYMEFLASK_REQUEST_BYTES];
extern const uint8_t figure_4[THYMEFLASK_REQUEST_BYTES];

/* Bus writes of registers, of a cursor byte and of a colour cell. */
extern const uint8_t one_register[3];
extern const uint8_t many_registers[2 + 32];
extern const uint8_t cursor_byte[4];
extern const uint8_t colour_cell[6];

struct inputs {
    /* Each figure's picture in a file of zeros; figure 1's twice. */
    uint8_t file_1[THYMEFLASK_FILE_BYTES];
    uint8_t same_1[THYMEFLASK_FILE_BYTES];
    uint8_t file_2[THYMEFLASK_FILE_BYTES];
    uint8_t file_4[THYMEFLASK_FILE_BYTES];
    /* Figure 1's file with a named bit changed in every place that can be written. */
    uint8_t flipped[THYMEFLASK_FILE_BYTES];
    /* As many whole rounds as a session may have. */
    uint8_t session[ROUNDS * ROUND_BYTES];
};

void make_inputs(struct inputs *inputs);

#endif
