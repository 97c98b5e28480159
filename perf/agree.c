/*
 * agree.c: both sides give the same results and leave the same in lent memory, on the inputs that are
 * counted and on random ones; and for the figures they give the numbers of the customer's paper.
 */
#include <stdio.h>
#include <stdlib.h>
#include <string.h>

#include "inputs.h"
#include "plain.h"
#include "sides.h"

static struct inputs in;
static unsigned cases;

static void put_word(uint8_t *bytes, uint32_t word)
{
    bytes[0] = (uint8_t)word;
    bytes[1] = (uint8_t)(word >> 8);
}

static void expect(int holds, const char *what)
{
    cases++;
    if (!holds) {
        fprintf(stderr, "%s: the sides differ, or a figure is wrong, in case %u\n", what, cases);
        exit(1);
    }
}

/* ---- both sides on one input: each has lent memory of its own, with the same bytes in it ---- */

enum { FILL = 0xA5, SPARE = 8 };

static uint64_t compare_plans(const uint8_t *from, size_t from_length,
                              const uint8_t *to, size_t to_length, size_t out_length)
{
    uint8_t out[SIDES][LIST_BYTES + SPARE];
    uint64_t result[SIDES];
    memset(out, FILL, sizeof out);
    for (size_t i = 0; i < SIDES; i++)
        result[i] = sides[i].plan(from, from_length, to, to_length, out[i], out_length);
    expect(result[0] == result[1] && memcmp(out[0], out[1], sizeof out[0]) == 0, "plan");
    return result[0];
}

static uint32_t compare_checks(const uint8_t *request, size_t request_length, size_t fields_length)
{
    uint8_t fields[SIDES][THYMEFLASK_FIELDS_BYTES + SPARE];
    uint32_t reply[SIDES];
    memset(fields, FILL, sizeof fields);
    for (size_t i = 0; i < SIDES; i++)
        reply[i] = sides[i].check(request, request_length, fields[i], fields_length);
    expect(reply[0] == reply[1] && memcmp(fields[0], fields[1], sizeof fields[0]) == 0, "check");
    return reply[0];
}

static void compare_picture_writes(const uint8_t *file, size_t file_length,
                                   const uint8_t *request, size_t request_length)
{
    uint8_t after[SIDES][THYMEFLASK_FILE_BYTES];
    uint32_t reply[SIDES];
    for (size_t i = 0; i < SIDES; i++) {
        memcpy(after[i], file, sizeof after[i]);
        reply[i] = sides[i].write_picture(after[i], file_length, request, request_length);
    }
    expect(reply[0] == reply[1] && memcmp(after[0], after[1], sizeof after[0]) == 0, "picture write");
}

static void compare_picture_reads(const uint8_t *file, size_t file_length, size_t request_length)
{
    uint8_t request[SIDES][THYMEFLASK_REQUEST_BYTES + SPARE];
    uint32_t reply[SIDES];
    memset(request, FILL, sizeof request);
    for (size_t i = 0; i < SIDES; i++)
        reply[i] = sides[i].read_picture(file, file_length, request[i], request_length);
    expect(reply[0] == reply[1] && memcmp(request[0], request[1], sizeof request[0]) == 0, "picture read");
}

static void compare_writes(const uint8_t *state, size_t state_length,
                           const uint8_t *transaction, size_t transaction_length)
{
    uint8_t after[SIDES][THYMEFLASK_STATE_BYTES];
    uint32_t reply[SIDES];
    for (size_t i = 0; i < SIDES; i++) {
        memcpy(after[i], state, sizeof after[i]);
        reply[i] = sides[i].write(after[i], state_length, transaction, transaction_length);
    }
    expect(reply[0] == reply[1] && memcmp(after[0], after[1], sizeof after[0]) == 0, "bus write");
}

static void compare_sessions(const uint8_t *session, size_t session_length, size_t out_length)
{
    static uint8_t out[SIDES][THYMEFLASK_PRINT_BYTES];
    size_t printed[SIDES];
    memset(out, FILL, sizeof out);
    for (size_t i = 0; i < SIDES; i++)
        printed[i] = sides[i].session(session, session_length, out[i], out_length);
    expect(printed[0] == printed[1] && memcmp(out[0], out[1], sizeof out[0]) == 0, "session");
}

/* ---- the figures, and the inputs that are counted ---- */

static uint32_t field_of(const struct side *side, const uint8_t *request, size_t field)
{
    uint8_t fields[THYMEFLASK_FIELDS_BYTES] = {0};
    side->check(request, THYMEFLASK_REQUEST_BYTES, fields, sizeof fields);
    const uint8_t *number = fields + 4 * field;
    return number[0] | (uint32_t)number[1] << 8 | (uint32_t)number[2] << 16 | (uint32_t)number[3] << 24;
}

/* A number that the paper gives: the field's place in the order of thymeflask.h, and the number. */
static const struct known {
    const uint8_t *request;
    size_t field;
    uint32_t number;
} known[] = {
    {figure_1, 1, 326}, {figure_1, 2, 1606}, {figure_1, 3, 31}, {figure_1, 4, 247},
    {figure_1, 5, 2178859}, {figure_1, 12, 0}, {figure_1, 13, 1836}, {figure_1, 14, 2965},
    {figure_1, 15, 917}, {figure_2, 5, 2141613}, {figure_2, 13, 1870}, {figure_4, 5, 2930917},
    {figure_4, 9, 90}, {figure_4, 12, 3277}, {figure_4, 13, 3470}, {figure_4, 14, 3783},
    {figure_4, 15, 3157},
};

static void test_figures(void)
{
    for (size_t i = 0; i < sizeof known / sizeof known[0]; i++)
        for (size_t j = 0; j < SIDES; j++)
            expect(field_of(&sides[j], known[i].request, known[i].field) == known[i].number, "figure");
}

/* Figure 1 with other numbers: the reply must be this one. */
static void test_changed(uint32_t inlin, uint32_t inppl, uint32_t outlin, uint32_t yskip, uint32_t reply)
{
    uint8_t request[THYMEFLASK_REQUEST_BYTES];
    memcpy(request, figure_1, sizeof request);
    put_word(request + 3, inlin);
    put_word(request + 5, inppl);
    put_word(request + 9, outlin);
    put_word(request + 11, yskip);
    expect(compare_checks(request, sizeof request, THYMEFLASK_FIELDS_BYTES) == reply, "changed figure");
}

/* Edges that random numbers would hardly meet. */
static void test_edges(void)
{
    /* The clock limit: passed by 1, and met exactly. */
    test_changed(480, 1283, 216, 0, THYMEFLASK_DONE);
    test_changed(480, 1284, 216, 0, THYMEFLASK_TOO_FAST);
    test_changed(478, 1430, 240, 0, THYMEFLASK_DONE);
    test_changed(478, 1431, 240, 0, THYMEFLASK_TOO_FAST);
    /* YIWGTE is 0, with nothing left over: YOFSE is still YOFSO. */
    test_changed(510, 800, 195, 2520, THYMEFLASK_DONE);
}

static uint64_t file_plan(const uint8_t *from, const uint8_t *to)
{
    return compare_plans(from, THYMEFLASK_FILE_BYTES, to, THYMEFLASK_FILE_BYTES, LIST_BYTES);
}

static void test_counted(void)
{
    const uint64_t to_4 = file_plan(in.file_1, in.file_4);
    expect(THYMEFLASK_PLAN_BYTES(to_4) == 37 && THYMEFLASK_PLAN_BURSTS(to_4) == 5, "figure 1 to 4");
    expect(file_plan(in.file_1, in.same_1) == 0, "equal files");
    file_plan(in.file_1, in.file_2);
    file_plan(in.file_1, in.flipped);
    compare_checks(figure_1, sizeof figure_1, THYMEFLASK_FIELDS_BYTES);
    compare_picture_writes(in.file_4, sizeof in.file_4, figure_1, sizeof figure_1);
    compare_picture_reads(in.file_1, sizeof in.file_1, THYMEFLASK_REQUEST_BYTES);
    const uint8_t state[THYMEFLASK_STATE_BYTES] = {0};
    compare_writes(state, sizeof state, one_register, sizeof one_register);
    compare_writes(state, sizeof state, many_registers, sizeof many_registers);
    compare_writes(state, sizeof state, cursor_byte, sizeof cursor_byte);
    compare_writes(state, sizeof state, colour_cell, sizeof colour_cell);
    for (size_t rounds = 0; rounds <= ROUNDS; rounds += 63)
        compare_sessions(in.session, ROUND_BYTES * rounds, THYMEFLASK_PRINT_BYTES);
}

/* ---- random inputs ---- */

/* Xorshift with a fixed seed: every run has the same cases. */
static uint32_t below(uint32_t limit)
{
    static uint64_t x = 88172645463325252u;
    x ^= x << 13;
    x ^= x >> 7;
    x ^= x << 17;
    return (uint32_t)((x >> 32) * limit >> 32);
}

static int one_in(uint32_t count)
{
    return below(count) == 0;
}

static void random_bytes(uint8_t *bytes, size_t length)
{
    for (size_t i = 0; i < length; i++)
        bytes[i] = (uint8_t)below(256);
}

/* A length that is right but for one time in thirty. */
static size_t random_length(size_t right)
{
    return one_in(30) ? below((uint32_t)right) : right;
}

/* One of the five numbers around a limit, one time in eight. */
static uint32_t at_edge(uint32_t limit, uint32_t otherwise)
{
    return one_in(8) ? limit - 2 + below(5) : otherwise;
}

/* A request within or near the limits; one in eight has a byte that may be anything. */
static void random_request(uint8_t *request)
{
    const uint32_t inpix = at_edge(one_in(2) ? 2 : 800, 2 + 2 * below(400));
    const uint32_t inlin = at_edge(600, 1 + below(600));
    const uint32_t outpix = inpix / 2 + below(inpix / 2 + 1);
    const uint32_t outlin = (inlin + 5) / 4 + below(one_in(2) ? 288 : inlin / 4 + 1);
    const uint32_t xofs = at_edge(1023, below(300));
    request[0] = (uint8_t)below(2);
    put_word(request + 1, inpix);
    put_word(request + 3, inlin);
    put_word(request + 5, at_edge(2048, at_edge(xofs + inpix, xofs + inpix + below(200))));
    put_word(request + 7, at_edge(706, at_edge(inpix / 2, outpix)));
    put_word(request + 9, at_edge(one_in(2) ? 240 : 287, at_edge((inlin + 2) / 4, outlin)));
    put_word(request + 11, at_edge(4095, one_in(4) ? 0 : below(4096)));
    put_word(request + 13, xofs);
    put_word(request + 15, at_edge(1023, below(1024)));
    request[17] = (uint8_t)at_edge(one_in(2) ? 8u : -8u, below(17) - 8);
    if (one_in(8))
        request[below(THYMEFLASK_REQUEST_BYTES)] = (uint8_t)below(256);
}

/* Changes named bits at one place in `sparse`; one file in eight has another bit changed too. */
static void change_places(uint8_t *file, uint32_t sparse)
{
    for (size_t place = 0; place < THYMEFLASK_FILE_BYTES; place++) {
        const int caption = place >= 0x67 && place <= 0x6A;
        if (one_in(sparse) && !caption)
            file[place] ^= (uint8_t)(below(256) & plain_masks[place]);
    }
    if (one_in(8))
        file[one_in(2) ? 0x67 + below(4) : below(THYMEFLASK_FILE_BYTES)] ^= (uint8_t)(1 << below(8));
}

static void random_plan(void)
{
    uint8_t from[THYMEFLASK_FILE_BYTES], to[THYMEFLASK_FILE_BYTES];
    random_bytes(from, sizeof from);
    memcpy(to, from, sizeof to);
    change_places(to, 1 + below(one_in(2) ? 6 : 60));
    compare_plans(from, random_length(sizeof from), to, random_length(sizeof to),
                  one_in(2) ? LIST_BYTES : below(LIST_BYTES + 1));
}

static void random_picture(void)
{
    uint8_t request[THYMEFLASK_REQUEST_BYTES], file[THYMEFLASK_FILE_BYTES];
    random_request(request);
    random_bytes(file, sizeof file);
    compare_checks(request, random_length(sizeof request), random_length(THYMEFLASK_FIELDS_BYTES));
    compare_picture_writes(file, random_length(sizeof file), request, random_length(sizeof request));
    compare_picture_reads(file, sizeof file, sizeof request);
    plain_write_picture(file, sizeof file, request, sizeof request);
    compare_picture_reads(file, random_length(sizeof file), random_length(sizeof request));
    file[0x60 + below(0x48)] ^= (uint8_t)(1 << below(8));
    compare_picture_reads(file, sizeof file, sizeof request);
}

static void random_write(void)
{
    uint8_t state[THYMEFLASK_STATE_BYTES], transaction[800];
    random_bytes(state, sizeof state);
    random_bytes(transaction, sizeof transaction);
    if (!one_in(20))
        transaction[0] = 0x88;
    if (one_in(2))
        transaction[1] = (uint8_t)(0xFC + below(4));
    compare_writes(state, random_length(sizeof state), transaction, below(one_in(4) ? 800 : 60));
}

/* A record, sometimes of no known kind; its length. */
static size_t random_record(uint8_t *record)
{
    static const size_t lengths[] = {1, 19, 3, 5, 3, 2};
    random_bytes(record, 19);
    record[0] = (uint8_t)(1 + below(5));
    if (record[0] == 1)
        random_request(record + 1);
    const size_t length = lengths[record[0]];
    if (one_in(500))
        record[0] = (uint8_t)below(256);
    return length;
}

static void random_session(void)
{
    static uint8_t session[THYMEFLASK_SESSION_BYTES + 32];
    const size_t most = at_edge(THYMEFLASK_SESSION_BYTES, below(3000));
    size_t length = 0;
    while (length < most)
        length += random_record(session + length);
    if (one_in(2))
        length = most;
    compare_sessions(session, length, random_length(THYMEFLASK_PRINT_BYTES));
}

int main(void)
{
    make_inputs(&in);
    test_figures();
    test_edges();
    test_counted();
    for (unsigned i = 0; i < 5000; i++) {
        random_plan();
        random_picture();
        random_write();
    }
    for (unsigned i = 0; i < 500; i++)
        random_session();
    printf("both sides agree in %u cases\n", cases);
    return 0;
}
