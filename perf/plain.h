/*
 * plain.h: routines of thymeflask.h in plain C, to be counted beside them. Arguments, results, refusals and
 * what is left of lent memory are those of the function of the same name there.
 */
#ifndef PLAIN_H
#define PLAIN_H

#include "thymeflask.h"

/* The named bits of each place of a register file. */
extern const uint8_t plain_masks[THYMEFLASK_FILE_BYTES];

uint32_t plain_write(uint8_t *state, size_t state_length,
                     const uint8_t *transaction, size_t transaction_length);
uint32_t plain_check(const uint8_t *request, size_t request_length,
                     uint8_t *fields, size_t fields_length);
uint32_t plain_write_picture(uint8_t *file, size_t file_length,
                             const uint8_t *request, size_t request_length);
uint32_t plain_read_picture(const uint8_t *file, size_t file_length,
                            uint8_t *request, size_t request_length);
uint64_t plain_plan(const uint8_t *from, size_t from_length,
                    const uint8_t *to, size_t to_length,
                    uint8_t *out, size_t out_length);
size_t plain_session(const uint8_t *session, size_t session_length,
                     uint8_t *out, size_t out_length);

#endif
