/* plain.c: straight C for the routines of thymeflask.h that perf/run counts. */
#include "plain.h"

#include <string.h>

enum {
    ADDRESS = 0x88,
    REGISTERS_END = 0xFE,
    CURSOR = 0xFE,
    COLOURS = 0xFF,
    CELLS = 256,
    CAPTIONS = 0x67,
    CAPTION_BYTES = 4,
    BRIDGE = 2
};

const uint8_t plain_masks[THYMEFLASK_FILE_BYTES] = {
    0x00, 0x00, 0x00, 0x00, 0x00, 0x00, 0x00, 0x00, 0x00, 0x00, 0x00, 0x00, 0x00, 0x00, 0x00, 0x00, /* 00h */
    0x00, 0x00, 0x00, 0x00, 0x00, 0x00, 0x0F, 0x1F, 0x1F, 0x1F, 0xFF, 0x87, 0x00, 0x00, 0x00, 0x00, /* 10h */
    0x00, 0x00, 0x00, 0x00, 0x00, 0x00, 0xFF, 0xBF, 0x3F, 0xBF, 0xFF, 0xFF, 0x8F, 0xFC, 0x00, 0x00, /* 20h */
    0x00, 0x00, 0x00, 0x00, 0x00, 0x00, 0x00, 0x00, 0x1F, 0x1F, 0x9F, 0x00, 0x00, 0x00, 0x00, 0x00, /* 30h */
    0x00, 0x00, 0x00, 0x00, 0x00, 0x00, 0x00, 0x00, 0x00, 0x00, 0x00, 0x00, 0x00, 0x00, 0x00, 0x00, /* 40h */
    0x00, 0x00, 0x00, 0x00, 0x83, 0xFF, 0xFF, 0xFF, 0xFF, 0xFF, 0xFF, 0xFF, 0xFF, 0xBF, 0xBF, 0xFF, /* 50h */
    0x00, 0xD7, 0x7F, 0xFF, 0xFF, 0xFF, 0xFF, 0xFF, 0xFF, 0xFF, 0xFF, 0x00, 0xFF, 0xFF, 0x7F, 0xFF, /* 60h */
    0xFF, 0xFF, 0x77, 0xFF, 0x0F, 0xF8, 0xFF, 0xFF, 0xFF, 0xFF, 0xFF, 0xFF, 0xDF, 0x00, 0xFF, 0xFF, /* 70h */
    0x00, 0xFF, 0xFF, 0xFF, 0x00, 0x00, 0x00, 0x00, 0x00, 0x00, 0x00, 0x00, 0x00, 0x00, 0x00, 0x00, /* 80h */
    0xFF, 0xFF, 0xFF, 0xFF, 0xFF, 0xFF, 0xFF, 0xFF, 0xFF, 0xF7, 0xFF, 0xFF, 0xFF, 0xFF, 0xFF, 0xFF, /* 90h */
    0xFF, 0x8F, 0xFF, 0xFF, 0xFF, 0x00, 0x00, 0x00, 0x00, 0x00, 0x00, 0x00, 0x00, 0x00, 0x00, 0x00, /* A0h */
    0x00, 0x00, 0x00, 0x00, 0x00, 0x00, 0x00, 0x00, 0x00, 0x00, 0x00, 0x00, 0x00, 0x00, 0x00, 0x00, /* B0h */
    0x00, 0x00, 0x00, 0x00, 0x00, 0x00, 0x00, 0x00, 0x00, 0x00, 0x00, 0x00, 0x00, 0x00, 0x00, 0x00, /* C0h */
    0x00, 0x00, 0x00, 0x00, 0x00, 0x00, 0x00, 0x00, 0x00, 0x00, 0x00, 0x00, 0x00, 0x00, 0x00, 0x00, /* D0h */
    0x00, 0x00, 0x00, 0x00, 0x00, 0x00, 0x00, 0x00, 0x00, 0x00, 0x00, 0x00, 0x00, 0x00, 0x00, 0x00, /* E0h */
    0xFF, 0xFF, 0xFF, 0xFF, 0xFF, 0xFF, 0xFF, 0xFF, 0xFF, 0xFF, 0xFF, 0xFF, 0xFB, 0xFF, 0x00, 0x00, /* F0h */
};

/* ---- bus writes ---- */

static uint8_t merge(uint8_t mask, uint8_t old, uint8_t new)
{
    return (uint8_t)((old & ~mask) | (new & mask));
}

static uint32_t write_registers(uint8_t *file, size_t start, const uint8_t *data, size_t count)
{
    if (start + count > REGISTERS_END)
        return THYMEFLASK_PASSES_END;
    for (size_t i = 0; i < count; i++)
        file[start + i] = merge(plain_masks[start + i], file[start + i], data[i]);
    return THYMEFLASK_DONE;
}

/* The first data byte is the start cell. */
static uint32_t write_cells(uint8_t *map, size_t width, const uint8_t *data, size_t count)
{
    if (count == 0)
        return THYMEFLASK_DONE;
    const size_t bytes = count - 1;
    if (bytes % width != 0 || data[0] + bytes / width > CELLS)
        return THYMEFLASK_PASSES_END;
    memcpy(map + width * data[0], data + 1, bytes);
    return THYMEFLASK_DONE;
}

uint32_t plain_write(uint8_t *state, size_t state_length,
                     const uint8_t *transaction, size_t transaction_length)
{
    if (state_length != THYMEFLASK_STATE_BYTES || transaction_length < 2)
        return THYMEFLASK_WRONG_LENGTH;
    if (transaction[0] != ADDRESS)
        return THYMEFLASK_WRONG_ADDRESS;
    const uint8_t *data = transaction + 2;
    const size_t count = transaction_length - 2;
    switch (transaction[1]) {
    case CURSOR:
        return write_cells(state + THYMEFLASK_STATE_CURSOR, 1, data, count);
    case COLOURS:
        return write_cells(state + THYMEFLASK_STATE_COLOURS, 3, data, count);
    default:
        return write_registers(state + THYMEFLASK_STATE_FILE, transaction[1], data, count);
    }
}

/* ---- pictures ---- */

struct request {
    uint32_t standard, inpix, inlin, inppl, outpix, outlin, yskip, xofs, yofso;
    int32_t offset;
};

/* The fields' numbers stand in an array, in the order of thymeflask.h. */
enum {
    FISE, ADWHS, ADWHE, FAL, LAL, PCL, XOFS, XPIX, YOFSO, YOFSE, YPIX, HLEN,
    XINC, YINC, YIWGTO, YIWGTE, YSKIP, FIELDS
};

/* What differs between 60 Hz and 50 Hz. */
static const struct standard {
    uint32_t fise, middle_clock, first_line, most_pixels, most_lines, frame_lines, field_clocks;
} standards[2] = {
    {1, 966, 19, 710, 240, 525, 450450},
    {0, 986, 23, 702, 287, 625, 540000},
};

static uint32_t get_word(const uint8_t *bytes)
{
    return bytes[0] | (uint32_t)bytes[1] << 8;
}

static void put_word(uint8_t *bytes, uint32_t word)
{
    bytes[0] = (uint8_t)word;
    bytes[1] = (uint8_t)(word >> 8);
}

static struct request get_request(const uint8_t *body)
{
    struct request q;
    q.standard = body[0];
    q.inpix = get_word(body + 1);
    q.inlin = get_word(body + 3);
    q.inppl = get_word(body + 5);
    q.outpix = get_word(body + 7);
    q.outlin = get_word(body + 9);
    q.yskip = get_word(body + 11);
    q.xofs = get_word(body + 13);
    q.yofso = get_word(body + 15);
    q.offset = body[17] < 128 ? body[17] : body[17] - 256;
    return q;
}

static void put_request(uint8_t *body, const struct request *q)
{
    body[0] = (uint8_t)q->standard;
    put_word(body + 1, q->inpix);
    put_word(body + 3, q->inlin);
    put_word(body + 5, q->inppl);
    put_word(body + 7, q->outpix);
    put_word(body + 9, q->outlin);
    put_word(body + 11, q->yskip);
    put_word(body + 13, q->xofs);
    put_word(body + 15, q->yofso);
    body[17] = (uint8_t)q->offset;
}

static int source_broken(const struct request *q)
{
    return q->standard > 1 || q->inpix % 2 != 0 || q->inpix < 2 || q->inpix > 800
        || q->inlin < 1 || q->inlin > 600 || q->xofs + q->inpix > q->inppl;
}

static int output_broken(const struct request *q, const struct standard *s)
{
    return q->outpix < 1 || q->outpix > s->most_pixels
        || q->outpix > q->inpix || 2 * q->outpix < q->inpix
        || q->outlin < 1 || q->outlin > s->most_lines || 4 * q->outlin < q->inlin + 2
        || q->offset < -8 || q->offset > 8;
}

/* What the vertical scaler needs. */
struct vertical {
    uint64_t yinc, yiwgto, yiwgte;
    uint32_t yofse;
    int below_zero; /* whether YIWGTE would be */
};

/* A half that goes down may be taken of the quotient that went down before, so one division is enough. */
static struct vertical scale_lines(const struct request *q)
{
    const uint64_t num = (uint64_t)q->outlin * (4095 + q->yskip) * 4096;
    const uint64_t den = (uint64_t)(q->inlin + 2) * 4095;
    const uint64_t whole = num / den;
    const uint64_t rest = num % den;
    const int late = whole < q->yskip;
    const uint64_t top = late ? 3 * num / den : whole;
    struct vertical v;
    v.yinc = whole + (2 * rest >= den);
    v.yiwgto = 2048 + whole / 2;
    v.yiwgte = (top - q->yskip) / 2;
    v.yofse = q->yofso + (uint32_t)late;
    v.below_zero = top < q->yskip;
    return v;
}

static int too_large(const struct request *q, const struct vertical *v)
{
    return q->xofs > 1023 || q->yofso > 1023 || v->yofse > 1023 || q->inppl > 2048
        || q->yskip > 4095 || v->yinc > 4095;
}

static int wrong_weight(const struct vertical *v)
{
    return v->below_zero || v->yiwgto > 4095 || v->yiwgte > 4095;
}

static void put_vertical(const struct vertical *vertical, uint32_t *v)
{
    v[YOFSE] = vertical->yofse;
    v[YINC] = (uint32_t)vertical->yinc;
    v[YIWGTO] = (uint32_t)vertical->yiwgto;
    v[YIWGTE] = (uint32_t)vertical->yiwgte;
}

static void put_window(const struct request *q, const struct standard *s, uint32_t *v)
{
    v[FISE] = s->fise;
    v[ADWHS] = s->middle_clock - q->outpix;
    v[ADWHE] = v[ADWHS] + 2 * q->outpix;
    v[FAL] = s->first_line + (s->most_lines - q->outlin) / 2 + (uint32_t)q->offset;
    v[LAL] = v[FAL] + q->outlin;
    v[XOFS] = q->xofs;
    v[XPIX] = q->inpix / 2;
    v[YOFSO] = q->yofso;
    v[YPIX] = q->inlin;
    v[HLEN] = q->inppl - 1;
    v[XINC] = (4096 * q->outpix + q->inpix - 1) / q->inpix % 4096;
    v[YSKIP] = q->yskip;
}

/* The reply to a request, and beside 0 the fields' numbers. */
static uint32_t check(const struct request *q, uint32_t *v)
{
    if (source_broken(q))
        return THYMEFLASK_WRONG_REQUEST;
    const struct standard *s = &standards[q->standard];
    if (output_broken(q, s))
        return THYMEFLASK_OUTPUT_LIMIT;
    const struct vertical vertical = scale_lines(q);
    if (too_large(q, &vertical))
        return THYMEFLASK_TOO_LARGE;
    const uint32_t lines = (q->inlin + 2) * s->frame_lines / (2 * q->outlin);
    const uint64_t clocks = (uint64_t)q->inppl * lines;
    if (3 * clocks > 5 * s->field_clocks)
        return THYMEFLASK_TOO_FAST;
    if (wrong_weight(&vertical))
        return THYMEFLASK_WRONG_WEIGHT;
    v[PCL] = (uint32_t)((clocks << 21) / s->field_clocks);
    put_vertical(&vertical, v);
    put_window(q, s, v);
    return THYMEFLASK_DONE;
}

uint32_t plain_check(const uint8_t *request, size_t request_length,
                     uint8_t *fields, size_t fields_length)
{
    uint32_t v[FIELDS];
    if (request_length != THYMEFLASK_REQUEST_BYTES || fields_length != THYMEFLASK_FIELDS_BYTES)
        return THYMEFLASK_WRONG_LENGTH;
    const struct request q = get_request(request);
    const uint32_t reply = check(&q, v);
    if (reply != THYMEFLASK_DONE)
        return reply;
    /* The library is for x86-64, whose numbers have their low byte first. */
    memcpy(fields, v, sizeof v);
    return THYMEFLASK_DONE;
}

static void put_fields(uint8_t *file, const uint32_t *v)
{
    file[0x61] = merge(0x01, file[0x61], (uint8_t)v[FISE]);
    file[0x70] = (uint8_t)v[ADWHS];
    file[0x71] = (uint8_t)v[ADWHE];
    file[0x72] = merge(0x77, file[0x72], (uint8_t)(v[ADWHS] >> 8 | v[ADWHE] >> 8 << 4));
    file[0x7A] = (uint8_t)v[FAL];
    file[0x7B] = (uint8_t)v[LAL];
    file[0x7C] = merge(0x50, file[0x7C], (uint8_t)(v[FAL] >> 8 << 4 | v[LAL] >> 8 << 6));
    put_word(file + 0x81, v[PCL]);
    file[0x83] = (uint8_t)(v[PCL] >> 16);
    file[0x90] = (uint8_t)v[XOFS];
    file[0x91] = (uint8_t)v[XPIX];
    file[0x92] = (uint8_t)v[YOFSO];
    file[0x93] = (uint8_t)v[YOFSE];
    file[0x94] = (uint8_t)(v[XOFS] >> 8 | v[XPIX] >> 8 << 2 | v[YOFSO] >> 8 << 4 | v[YOFSE] >> 8 << 6);
    file[0x95] = (uint8_t)v[YPIX];
    file[0x96] = merge(0x03, file[0x96], (uint8_t)(v[YPIX] >> 8));
    file[0x98] = (uint8_t)v[HLEN];
    file[0x99] = merge(0x07, file[0x99], (uint8_t)(v[HLEN] >> 8));
    file[0x9A] = (uint8_t)v[XINC];
    file[0x9B] = (uint8_t)v[YINC];
    file[0x9C] = (uint8_t)(v[XINC] >> 8 | v[YINC] >> 8 << 4);
    file[0x9D] = (uint8_t)v[YIWGTO];
    file[0x9E] = (uint8_t)v[YIWGTE];
    file[0x9F] = (uint8_t)(v[YIWGTO] >> 8 | v[YIWGTE] >> 8 << 4);
    file[0xA0] = (uint8_t)v[YSKIP];
    file[0xA1] = merge(0x0F, file[0xA1], (uint8_t)(v[YSKIP] >> 8));
}

static uint32_t write_picture(uint8_t *file, const uint8_t *request)
{
    uint32_t v[FIELDS];
    const struct request q = get_request(request);
    const uint32_t reply = check(&q, v);
    if (reply == THYMEFLASK_DONE)
        put_fields(file, v);
    return reply;
}

uint32_t plain_write_picture(uint8_t *file, size_t file_length,
                             const uint8_t *request, size_t request_length)
{
    if (file_length != THYMEFLASK_FILE_BYTES || request_length != THYMEFLASK_REQUEST_BYTES)
        return THYMEFLASK_WRONG_LENGTH;
    return write_picture(file, request);
}

/* A low byte, with the bits of a mask above it. */
static uint32_t joined(uint8_t low, uint8_t high, int position, uint32_t mask)
{
    return low | ((uint32_t)high >> position & mask) << 8;
}

static void get_fields(const uint8_t *file, uint32_t *v)
{
    v[FISE] = file[0x61] & 1;
    v[ADWHS] = joined(file[0x70], file[0x72], 0, 7);
    v[ADWHE] = joined(file[0x71], file[0x72], 4, 7);
    v[FAL] = joined(file[0x7A], file[0x7C], 4, 1);
    v[LAL] = joined(file[0x7B], file[0x7C], 6, 1);
    v[PCL] = get_word(file + 0x81) | (uint32_t)file[0x83] << 16;
    v[XOFS] = joined(file[0x90], file[0x94], 0, 3);
    v[XPIX] = joined(file[0x91], file[0x94], 2, 3);
    v[YOFSO] = joined(file[0x92], file[0x94], 4, 3);
    v[YOFSE] = joined(file[0x93], file[0x94], 6, 3);
    v[YPIX] = joined(file[0x95], file[0x96], 0, 3);
    v[HLEN] = joined(file[0x98], file[0x99], 0, 7);
    v[XINC] = joined(file[0x9A], file[0x9C], 0, 15);
    v[YINC] = joined(file[0x9B], file[0x9C], 4, 15);
    v[YIWGTO] = joined(file[0x9D], file[0x9F], 0, 15);
    v[YIWGTE] = joined(file[0x9E], file[0x9F], 4, 15);
    v[YSKIP] = joined(file[0xA0], file[0xA1], 0, 15);
}

/* The one request that can have these numbers; 0 where there is none. */
static int solve(const uint32_t *v, struct request *q)
{
    q->standard = 1 - v[FISE];
    const struct standard *s = &standards[q->standard];
    if (v[ADWHS] > s->middle_clock || v[FAL] > v[LAL] || v[LAL] - v[FAL] > s->most_lines)
        return 0;
    q->outpix = s->middle_clock - v[ADWHS];
    q->outlin = v[LAL] - v[FAL];
    q->offset = (int32_t)v[FAL] - (int32_t)(s->first_line + (s->most_lines - q->outlin) / 2);
    q->inpix = 2 * v[XPIX];
    q->inlin = v[YPIX];
    q->inppl = v[HLEN] + 1;
    q->yskip = v[YSKIP];
    q->xofs = v[XOFS];
    q->yofso = v[YOFSO];
    return 1;
}

uint32_t plain_read_picture(const uint8_t *file, size_t file_length,
                            uint8_t *request, size_t request_length)
{
    uint32_t found[FIELDS], wanted[FIELDS];
    struct request q;
    if (file_length != THYMEFLASK_FILE_BYTES || request_length != THYMEFLASK_REQUEST_BYTES)
        return THYMEFLASK_WRONG_LENGTH;
    get_fields(file, found);
    if (!solve(found, &q) || check(&q, wanted) != THYMEFLASK_DONE)
        return THYMEFLASK_NO_PICTURE;
    if (memcmp(found, wanted, sizeof found) != 0)
        return THYMEFLASK_NO_PICTURE;
    put_request(request, &q);
    return THYMEFLASK_DONE;
}

/* ---- the list of writes ---- */

struct run {
    size_t start, last;
};

/*
 * The runs of changed places, from `run` on: their end, or NULL where such a place can't be written. A gap
 * of two places is bridged, since it costs as much as a heading. It holds no caption byte: none of these
 * changes, and they are four in a row.
 */
static const struct run *find_runs(const uint8_t *from, const uint8_t *to, struct run *run)
{
    const struct run *first = run;
    size_t last = 0;
    if (memcmp(from + CAPTIONS, to + CAPTIONS, CAPTION_BYTES) != 0)
        return NULL;
    for (size_t place = 0; place < THYMEFLASK_FILE_BYTES; place++) {
        if (from[place] == to[place])
            continue;
        if (((from[place] ^ to[place]) & ~plain_masks[place]) != 0)
            return NULL;
        if (run == first || place - last > BRIDGE + 1)
            (run++)->start = place;
        last = run[-1].last = place;
    }
    return run;
}

static size_t list_bytes(const struct run *run, const struct run *end)
{
    size_t bytes = 0;
    for (; run < end; run++)
        bytes += 3 + run->last - run->start;
    return bytes;
}

static void write_list(const struct run *run, const struct run *end, const uint8_t *to, uint8_t *out)
{
    for (; run < end; run++) {
        const size_t count = run->last - run->start + 1;
        out[0] = (uint8_t)run->start;
        out[1] = (uint8_t)count;
        memcpy(out + 2, to + run->start, count);
        out += 2 + count;
    }
}

uint64_t plain_plan(const uint8_t *from, size_t from_length,
                    const uint8_t *to, size_t to_length,
                    uint8_t *out, size_t out_length)
{
    /* Between two runs lies a place at least. */
    struct run runs[THYMEFLASK_FILE_BYTES / 2];
    if (from_length != THYMEFLASK_FILE_BYTES || to_length != THYMEFLASK_FILE_BYTES)
        return THYMEFLASK_WRONG_LENGTH;
    const struct run *end = find_runs(from, to, runs);
    if (end == NULL)
        return THYMEFLASK_NOT_WRITABLE;
    const size_t bytes = list_bytes(runs, end);
    if (bytes > out_length)
        return THYMEFLASK_TOO_LONG;
    write_list(runs, end, to, out);
    return (uint64_t)(end - runs) << 32 | (uint64_t)bytes << 8;
}

/* ---- sessions ---- */

enum { PICTURE = 1, REGISTER, COLOUR, CURSOR_BYTE, SHOW, KINDS };

static const uint8_t body_lengths[KINDS] = {0, THYMEFLASK_REQUEST_BYTES, 2, 4, 2, 1};

static uint32_t do_record(uint8_t *state, uint8_t kind, const uint8_t *body)
{
    uint8_t *file = state + THYMEFLASK_STATE_FILE;
    switch (kind) {
    case PICTURE:
        return write_picture(file, body);
    case REGISTER:
        if (body[0] < REGISTERS_END)
            file[body[0]] = merge(plain_masks[body[0]], file[body[0]], body[1]);
        break;
    case COLOUR:
        memcpy(state + THYMEFLASK_STATE_COLOURS + 3 * body[0], body + 1, 3);
        break;
    case CURSOR_BYTE:
        state[THYMEFLASK_STATE_CURSOR + body[0]] = body[1];
        break;
    }
    return THYMEFLASK_DONE;
}

static uint8_t *put_hex(uint8_t *out, uint8_t byte)
{
    static const char digits[] = "0123456789abcdef";
    out[0] = (uint8_t)digits[byte >> 4];
    out[1] = (uint8_t)digits[byte & 15];
    return out + 2;
}

/* A session's replies have one digit. */
static uint8_t *put_start(uint8_t *out, uint8_t kind, uint32_t reply)
{
    out = put_hex(out, kind);
    out[0] = ' ';
    out[1] = (uint8_t)('0' + reply);
    return out + 2;
}

static uint8_t *put_broken(uint8_t *out, uint8_t kind)
{
    out = put_start(out, kind, THYMEFLASK_WRONG_LENGTH);
    *out++ = '\n';
    return out;
}

/* The records from the first to the last; the end of what is printed. */
static uint8_t *walk(uint8_t *state, const uint8_t *at, const uint8_t *end, uint8_t *out)
{
    while (at < end) {
        const uint8_t kind = *at++;
        const size_t length = kind < KINDS ? body_lengths[kind] : 0;
        if (length == 0 || (size_t)(end - at) < length)
            return put_broken(out, kind);
        out = put_start(out, kind, do_record(state, kind, at));
        if (kind == SHOW) {
            *out++ = ' ';
            out = put_hex(out, state[THYMEFLASK_STATE_FILE + at[0]]);
        }
        *out++ = '\n';
        at += length;
    }
    return out;
}

size_t plain_session(const uint8_t *session, size_t session_length,
                     uint8_t *out, size_t out_length)
{
    uint8_t state[THYMEFLASK_STATE_BYTES] = {0};
    if (out_length < THYMEFLASK_PRINT_BYTES)
        return 0;
    if (session_length > THYMEFLASK_SESSION_BYTES)
        return (size_t)(put_broken(out, 0) - out);
    state[THYMEFLASK_STATE_CHIP] = 3;
    return (size_t)(walk(state, session, session + session_length, out) - out);
}
