/*
 * Holds the header's numbers to the library: each length, place, reply and macro that
 * include/thymeflask.h defines is used on the library, and must mean what it says there.
 * Prints nothing and ends with 0, or names the first line that does not hold.
 */
#include <stdio.h>
#include <string.h>

#include "thymeflask.h"

#define HOLDS(condition)                                                  \
    do {                                                                  \
        if (!(condition)) {                                               \
            fprintf(stderr, "header.c:%d: " #condition "\n", __LINE__);   \
            return 1;                                                     \
        }                                                                 \
    } while (0)

/* Figure 1 of the customer's paper. */
static const uint8_t picture[] = {0, 0x80, 0x02, 0xE0, 0x01, 0x20, 0x03, 0x80, 0x02,
                                  0xD8, 0, 0, 0, 80, 0, 66, 0, 0};

/* One byte more than the longest run, so that each length can be tried a byte short and a byte long. */
static uint8_t lent[THYMEFLASK_PRINT_BYTES + 1];
static uint8_t other[THYMEFLASK_SESSION_BYTES + 1];

static uint32_t write3(uint8_t *state, uint8_t address, uint8_t subaddress, uint8_t byte)
{
    uint8_t transaction[3];

    transaction[0] = address;
    transaction[1] = subaddress;
    transaction[2] = byte;
    return thymeflask_write(state, THYMEFLASK_STATE_BYTES, transaction, sizeof transaction);
}

static uint32_t read_at(uint8_t *state, uint8_t place)
{
    uint8_t transaction[3];

    transaction[0] = 0x88;
    transaction[1] = place;
    transaction[2] = 0x89;
    return thymeflask_read(state, THYMEFLASK_STATE_BYTES, transaction, sizeof transaction);
}

static int lengths(void)
{
    uint8_t fields[THYMEFLASK_FIELDS_BYTES + 1];
    int d;

    for (d = -1; d <= 1; d++) {
        uint32_t reply = d == 0 ? THYMEFLASK_DONE : THYMEFLASK_WRONG_LENGTH;
        size_t n = (size_t)(THYMEFLASK_FILE_BYTES + d);

        HOLDS(thymeflask_fresh(lent, (size_t)(THYMEFLASK_STATE_BYTES + d), 3) == reply);
        HOLDS(thymeflask_check(picture, sizeof picture, fields,
                               (size_t)(THYMEFLASK_FIELDS_BYTES + d)) == reply);
        memset(lent, 0, sizeof lent);
        HOLDS(thymeflask_write_picture(lent, n, picture, sizeof picture) == reply);
        memset(lent, 0, sizeof lent);
        HOLDS(thymeflask_write_picture(lent, THYMEFLASK_FILE_BYTES, picture, sizeof picture)
              == THYMEFLASK_DONE);
        HOLDS(thymeflask_read_picture(lent, THYMEFLASK_FILE_BYTES, other,
                                      (size_t)(THYMEFLASK_REQUEST_BYTES + d)) == reply);
        HOLDS(thymeflask_cursor_row(lent, (size_t)(THYMEFLASK_MAP_BYTES + d), 31) == (d == 0 ? 248 : n));
    }
    HOLDS(sizeof picture == THYMEFLASK_REQUEST_BYTES);
    return 0;
}

static int sessions(void)
{
    memset(other, 0x05, sizeof other);
    HOLDS(thymeflask_session(other, THYMEFLASK_SESSION_BYTES, lent, THYMEFLASK_PRINT_BYTES - 1) == 0);
    HOLDS(thymeflask_session(other, THYMEFLASK_SESSION_BYTES, lent, THYMEFLASK_PRINT_BYTES)
          == THYMEFLASK_PRINT_BYTES);
    HOLDS(thymeflask_session(other, THYMEFLASK_SESSION_BYTES + 1, lent, THYMEFLASK_PRINT_BYTES) == 5);
    return 0;
}

/* Where the parts of a state lie, and the two numbers in the result of a read. */
static int places(void)
{
    static const uint8_t colour[] = {0x88, 0xFF, 0, 1, 2, 3};
    static const uint8_t cursor[] = {0x88, 0xFE, 0, 4};

    HOLDS(thymeflask_fresh(lent, THYMEFLASK_STATE_BYTES, 2) == THYMEFLASK_DONE);
    HOLDS(lent[THYMEFLASK_STATE_CHIP] == 2);
    HOLDS(thymeflask_set_status(lent, THYMEFLASK_STATE_BYTES, 5) == THYMEFLASK_DONE);
    HOLDS(lent[THYMEFLASK_STATE_STATUS] == 5);
    HOLDS(thymeflask_set_fifo(lent, THYMEFLASK_STATE_BYTES, 0xFF) == THYMEFLASK_DONE);
    HOLDS(lent[THYMEFLASK_STATE_FIFO] == 0xFF);
    HOLDS(write3(lent, 0x88, 0, 7) == THYMEFLASK_DONE && lent[THYMEFLASK_STATE_FILE] == 0);
    HOLDS(write3(lent, 0x88, 0x70, 7) == THYMEFLASK_DONE && lent[THYMEFLASK_STATE_FILE + 0x70] == 7);
    HOLDS(thymeflask_write(lent, THYMEFLASK_STATE_BYTES, colour, sizeof colour) == THYMEFLASK_DONE);
    HOLDS(memcmp(lent + THYMEFLASK_STATE_COLOURS, colour + 3, 3) == 0);
    HOLDS(thymeflask_write(lent, THYMEFLASK_STATE_BYTES, cursor, sizeof cursor) == THYMEFLASK_DONE);
    HOLDS(lent[THYMEFLASK_STATE_CURSOR] == 4);
    HOLDS(THYMEFLASK_READ_REPLY(read_at(lent, 0x80)) == THYMEFLASK_DONE);
    HOLDS(THYMEFLASK_READ_BYTE(read_at(lent, 0x80)) == 0xFF);
    HOLDS(THYMEFLASK_READ_REPLY(thymeflask_read(lent, THYMEFLASK_STATE_BYTES, cursor, sizeof cursor))
          == THYMEFLASK_WRONG_LENGTH);
    HOLDS(THYMEFLASK_READ_REPLY(read_at(lent, 0x81)) == THYMEFLASK_NOT_READABLE);
    return 0;
}

/* The replies to a picture; the request's InPpl is at 5, OutLin at 9, XOFS at 13. */
static uint32_t check_with(size_t at, uint16_t number)
{
    uint8_t request[THYMEFLASK_REQUEST_BYTES], fields[THYMEFLASK_FIELDS_BYTES];

    memcpy(request, picture, sizeof request);
    request[at] = (uint8_t)(number & 0xFF);
    request[at + 1] = (uint8_t)(number >> 8);
    return thymeflask_check(request, sizeof request, fields, sizeof fields);
}

static int replies(void)
{
    HOLDS(thymeflask_fresh(lent, THYMEFLASK_STATE_BYTES, 3) == THYMEFLASK_DONE);
    HOLDS(write3(lent, 0x89, 0, 0) == THYMEFLASK_WRONG_ADDRESS);
    HOLDS(write3(lent, 0x88, 0xFF, 0) == THYMEFLASK_DONE);
    HOLDS(thymeflask_write(lent, THYMEFLASK_STATE_BYTES, (const uint8_t *)"\x88\xFD\0\0", 4)
          == THYMEFLASK_PASSES_END);
    HOLDS(thymeflask_fresh(lent, THYMEFLASK_STATE_BYTES, 4) == THYMEFLASK_WRONG_REQUEST);
    HOLDS(check_with(1, 641) == THYMEFLASK_WRONG_REQUEST);
    HOLDS(check_with(9, 241) == THYMEFLASK_OUTPUT_LIMIT);
    HOLDS(check_with(5, 2049) == THYMEFLASK_TOO_LARGE);
    HOLDS(check_with(5, 1284) == THYMEFLASK_TOO_FAST);
    HOLDS(THYMEFLASK_WRONG_WEIGHT == 8); /* never given */
    memset(lent, 0, THYMEFLASK_FILE_BYTES);
    HOLDS(thymeflask_read_picture(lent, THYMEFLASK_FILE_BYTES, other, THYMEFLASK_REQUEST_BYTES)
          == THYMEFLASK_NO_PICTURE);
    return 0;
}

static int plans(void)
{
    uint8_t list[THYMEFLASK_LIST_BYTES];
    uint64_t plan;

    memset(lent, 0, THYMEFLASK_FILE_BYTES);
    memset(other, 0, THYMEFLASK_FILE_BYTES);
    other[0x70] = 1;
    other[0x74] = 1;
    other[0x75] = 8;
    HOLDS(THYMEFLASK_LIST_BYTES == 254); /* which is proved to be enough */
    plan = thymeflask_plan(lent, THYMEFLASK_FILE_BYTES, other, THYMEFLASK_FILE_BYTES, list, sizeof list);
    HOLDS(THYMEFLASK_PLAN_REPLY(plan) == THYMEFLASK_DONE);
    HOLDS(THYMEFLASK_PLAN_BYTES(plan) == 7 && THYMEFLASK_PLAN_BURSTS(plan) == 2);
    plan = thymeflask_plan(lent, THYMEFLASK_FILE_BYTES, other, THYMEFLASK_FILE_BYTES, list, 6);
    HOLDS(THYMEFLASK_PLAN_REPLY(plan) == THYMEFLASK_TOO_LONG);
    other[0x67] = 1;
    plan = thymeflask_plan(lent, THYMEFLASK_FILE_BYTES, other, THYMEFLASK_FILE_BYTES, list, sizeof list);
    HOLDS(THYMEFLASK_PLAN_REPLY(plan) == THYMEFLASK_NOT_WRITABLE);
    return 0;
}

int main(void)
{
    return lengths() || sessions() || places() || replies() || plans();
}
