/*
 * The next picture: works out the bus writes from the picture on the board to the wanted one, prints
 * them, one burst to a line, sends them to a state of the chip, and compares its registers with those
 * that are wanted.
 */
#include <stdio.h>
#include <string.h>

#include "thymeflask.h"

#define SAA7103 3
#define BUS_WRITE 0x88

/* A wanted picture, in the order of the bytes of a request. */
typedef struct {
    uint8_t standard;
    uint16_t in_pix, in_lin, in_ppl, out_pix, out_lin, yskip, xofs, yofso;
    int8_t offset;
} Picture;

/* Figures 1 and 4 of the customer's paper: 640 x 480 at 60 Hz, and 800 x 600 at 50 Hz. */
static const Picture last_picture = {0, 640, 480, 800, 640, 216, 0, 80, 66, 0};
static const Picture next_picture = {1, 800, 600, 1024, 640, 255, 4095, 200, 89, 0};

static void put_number(uint8_t *at, uint16_t number)
{
    at[0] = (uint8_t)(number & 0xFF);
    at[1] = (uint8_t)(number >> 8);
}

static uint32_t write_picture(uint8_t *file, const Picture *picture)
{
    uint8_t request[THYMEFLASK_REQUEST_BYTES];

    request[0] = picture->standard;
    put_number(request + 1, picture->in_pix);
    put_number(request + 3, picture->in_lin);
    put_number(request + 5, picture->in_ppl);
    put_number(request + 7, picture->out_pix);
    put_number(request + 9, picture->out_lin);
    put_number(request + 11, picture->yskip);
    put_number(request + 13, picture->xofs);
    put_number(request + 15, picture->yofso);
    request[17] = (uint8_t)picture->offset;
    return thymeflask_write_picture(file, THYMEFLASK_FILE_BYTES, request, sizeof request);
}

/* A burst in the list is subaddress, count and data. */
static size_t burst_bytes(const uint8_t *burst)
{
    return 2 + (size_t)burst[1];
}

static void print_burst(const uint8_t *burst)
{
    size_t i;

    printf("%02x %2u:", (unsigned)burst[0], (unsigned)burst[1]);
    for (i = 2; i < burst_bytes(burst); i++)
        printf(" %02x", (unsigned)burst[i]);
    printf("\n");
}

/* On the bus a burst is the chip's address, subaddress and data: the count is not sent. */
static uint32_t send_burst(uint8_t *state, const uint8_t *burst)
{
    uint8_t transaction[THYMEFLASK_LIST_BYTES]; /* as long as the burst in the list */

    transaction[0] = BUS_WRITE;
    transaction[1] = burst[0];
    memcpy(transaction + 2, burst + 2, burst[1]);
    return thymeflask_write(state, THYMEFLASK_STATE_BYTES, transaction, burst_bytes(burst));
}

static int refused(const char *what, uint32_t reply)
{
    if (reply != THYMEFLASK_DONE)
        fprintf(stderr, "%s is refused: reply %u\n", what, (unsigned)reply);
    return reply != THYMEFLASK_DONE;
}

int main(void)
{
    uint8_t state[THYMEFLASK_STATE_BYTES];
    uint8_t wanted[THYMEFLASK_FILE_BYTES];
    uint8_t list[THYMEFLASK_LIST_BYTES];
    uint8_t *file = state + THYMEFLASK_STATE_FILE;
    uint64_t plan;
    size_t bytes, at;

    if (refused("the chip", thymeflask_fresh(state, sizeof state, SAA7103)))
        return 1;
    if (refused("the last picture", write_picture(file, &last_picture)))
        return 1;
    memcpy(wanted, file, sizeof wanted); /* what is no part of the picture stays */
    if (refused("the next picture", write_picture(wanted, &next_picture)))
        return 1;

    plan = thymeflask_plan(file, THYMEFLASK_FILE_BYTES, wanted, sizeof wanted, list, sizeof list);
    if (refused("the list of writes", THYMEFLASK_PLAN_REPLY(plan)))
        return 1;
    bytes = THYMEFLASK_PLAN_BYTES(plan);
    for (at = 0; at < bytes; at += burst_bytes(list + at))
        print_burst(list + at);
    printf("%u bytes in %u bursts\n", (unsigned)bytes, (unsigned)THYMEFLASK_PLAN_BURSTS(plan));

    for (at = 0; at < bytes; at += burst_bytes(list + at))
        if (refused("a burst", send_burst(state, list + at)))
            return 1;
    if (memcmp(file, wanted, sizeof wanted) != 0) {
        fprintf(stderr, "the registers are not the wanted ones\n");
        return 1;
    }
    printf("sent: the registers are the wanted ones\n");
    return 0;
}
