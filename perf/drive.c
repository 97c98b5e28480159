/*
 * drive.c: drive SIDE ROUTINE LENGTH calls a routine of one side LENGTH times on the same input; `session`
 * is called once, on LENGTH rounds. All else is the same for every LENGTH, so that two of them differ in
 * the calls alone.
 */
#include <stdio.h>
#include <stdlib.h>
#include <string.h>

#include "inputs.h"
#include "sides.h"

/* Lent memory lies at fixed addresses, so that no count depends on where the stack begins. */
static struct inputs in;
static uint8_t state[THYMEFLASK_STATE_BYTES];
static uint8_t list[LIST_BYTES];
static uint8_t fields[THYMEFLASK_FIELDS_BYTES];
static uint8_t request[THYMEFLASK_REQUEST_BYTES];
static uint8_t print[THYMEFLASK_PRINT_BYTES];

static uint64_t plans(const struct side *side, const uint8_t *from, const uint8_t *to, size_t calls)
{
    uint64_t sum = 0;
    for (; calls > 0; calls--)
        sum += side->plan(from, THYMEFLASK_FILE_BYTES, to, THYMEFLASK_FILE_BYTES, list, sizeof list);
    return sum;
}

static uint64_t plan_equal(const struct side *side, size_t calls)
{
    return plans(side, in.file_1, in.same_1, calls);
}

static uint64_t plan_1_to_2(const struct side *side, size_t calls)
{
    return plans(side, in.file_1, in.file_2, calls);
}

static uint64_t plan_1_to_4(const struct side *side, size_t calls)
{
    return plans(side, in.file_1, in.file_4, calls);
}

static uint64_t plan_all(const struct side *side, size_t calls)
{
    return plans(side, in.file_1, in.flipped, calls);
}

static uint64_t check(const struct side *side, size_t calls)
{
    uint64_t sum = 0;
    for (; calls > 0; calls--)
        sum += side->check(figure_1, sizeof figure_1, fields, sizeof fields);
    return sum;
}

static uint64_t write_picture(const struct side *side, size_t calls)
{
    uint64_t sum = 0;
    for (; calls > 0; calls--)
        sum += side->write_picture(in.file_4, sizeof in.file_4, figure_1, sizeof figure_1);
    return sum;
}

static uint64_t read_picture(const struct side *side, size_t calls)
{
    uint64_t sum = 0;
    for (; calls > 0; calls--)
        sum += side->read_picture(in.file_1, sizeof in.file_1, request, sizeof request);
    return sum;
}

static uint64_t writes(const struct side *side, const uint8_t *transaction, size_t length, size_t calls)
{
    uint64_t sum = 0;
    for (; calls > 0; calls--)
        sum += side->write(state, sizeof state, transaction, length);
    return sum;
}

static uint64_t write_one(const struct side *side, size_t calls)
{
    return writes(side, one_register, sizeof one_register, calls);
}

static uint64_t write_many(const struct side *side, size_t calls)
{
    return writes(side, many_registers, sizeof many_registers, calls);
}

static uint64_t write_cursor(const struct side *side, size_t calls)
{
    return writes(side, cursor_byte, sizeof cursor_byte, calls);
}

static uint64_t write_colour(const struct side *side, size_t calls)
{
    return writes(side, colour_cell, sizeof colour_cell, calls);
}

static uint64_t session(const struct side *side, size_t rounds)
{
    if (rounds > ROUNDS)
        return 1;
    /* The sum must be 0, as the replies of the other routines are. */
    const size_t printed = side->session(in.session, ROUND_BYTES * rounds, print, sizeof print);
    return printed == 0;
}

static const struct routine {
    const char *name;
    uint64_t (*repeat)(const struct side *, size_t);
} routines[] = {
    {"plan-equal", plan_equal},
    {"plan-1-to-2", plan_1_to_2},
    {"plan-1-to-4", plan_1_to_4},
    {"plan-all", plan_all},
    {"check", check},
    {"write-picture", write_picture},
    {"read-picture", read_picture},
    {"write-1", write_one},
    {"write-32", write_many},
    {"write-cursor", write_cursor},
    {"write-colour", write_colour},
    {"session", session},
};

static const struct side *find_side(const char *name)
{
    for (size_t i = 0; i < SIDES; i++)
        if (strcmp(sides[i].name, name) == 0)
            return &sides[i];
    return NULL;
}

static const struct routine *find_routine(const char *name)
{
    for (size_t i = 0; i < sizeof routines / sizeof routines[0]; i++)
        if (strcmp(routines[i].name, name) == 0)
            return &routines[i];
    return NULL;
}

int main(int argc, char **argv)
{
    const struct side *side = argc == 4 ? find_side(argv[1]) : NULL;
    const struct routine *routine = argc == 4 ? find_routine(argv[2]) : NULL;
    if (side == NULL || routine == NULL) {
        fputs("usage: drive thymeflask|plain ROUTINE LENGTH\n", stderr);
        return 2;
    }
    make_inputs(&in);
    /* The low byte of the sum is that of the replies, which are all 0. */
    return (routine->repeat(side, strtoul(argv[3], NULL, 10)) & 0xFF) != 0;
}
