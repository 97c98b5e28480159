/*
 * thymeflask.h: the driver core for the SAA7102 and SAA7103 video encoders, from C99 and C++.
 *
 * Link with libthymeflask.a. The library keeps no memory of its own and allocates nothing: all that it
 * works on is lent by the caller for the length of a call, so calls on different memory may run at the
 * same time. Of the C library it needs memset, and no more.
 *
 * Every function takes any bytes. What the caller owes is what C itself asks:
 *   - a pointer and its length name memory that the caller may read, and may write where the
 *     pointer is not const;
 *   - NULL with the length 0 is an empty run;
 *   - the runs that are lent to one call do not overlap.
 *
 * A refusal leaves every lent byte as it was. There is one exception: a fresh state that is asked
 * with a wrong chip byte is all zero. Where several refusals apply, the lowest number is given.
 */
#ifndef THYMEFLASK_H
#define THYMEFLASK_H

#include <stddef.h>
#include <stdint.h>

#ifdef __cplusplus
extern "C" {
#endif

/* The lengths of what is lent. */
#define THYMEFLASK_FILE_BYTES 256      /* a register file */
#define THYMEFLASK_MAP_BYTES 256       /* a cursor map: 32 rows of 8 bytes, 4 dots to a byte */
#define THYMEFLASK_REQUEST_BYTES 18    /* a wanted picture */
#define THYMEFLASK_FIELDS_BYTES 68     /* the numbers of a picture's 17 fields */
#define THYMEFLASK_STATE_BYTES 1283    /* a state of the chip */
#define THYMEFLASK_LIST_BYTES 254      /* a list of writes, at most */
#define THYMEFLASK_SESSION_BYTES 16384 /* a session, at most */
#define THYMEFLASK_PRINT_BYTES 65536   /* what a session prints, at most */

/*
 * A state: any 1,283 bytes are one. Its parts begin at these places.
 */
#define THYMEFLASK_STATE_FILE 0       /* 256 bytes: the register file */
#define THYMEFLASK_STATE_COLOURS 256  /* 768 bytes: 256 cells of red, green and blue */
#define THYMEFLASK_STATE_CURSOR 1024  /* 256 bytes: the cursor map */
#define THYMEFLASK_STATE_STATUS 1280  /* the byte read at 00h */
#define THYMEFLASK_STATE_CHIP 1281    /* the byte read at 1Ch */
#define THYMEFLASK_STATE_FIFO 1282    /* the byte read at 80h */

/*
 * A request, the 18 bytes of a wanted picture, is the body of a session's record 01. The numbers
 * of 16 bits have their low byte first.
 *
 *   0      standard: 0 is 60 Hz, 1 is 50 Hz
 *   1, 2   InPix      the source's pixels in a line
 *   3, 4   InLin      and its lines
 *   5, 6   InPpl      pixel clocks in a line of the source
 *   7, 8   OutPix     pixels in a line on the monitor
 *   9, 10  OutLin     and lines in a field
 *   11, 12 YSKIP      how much of the vertical filter is used
 *   13, 14 XOFS       where the source's picture begins, in pixel clocks
 *   15, 16 YOFSO      and in lines
 *   17     offset     -128 to 127 in two's complement: how far the picture is moved down
 *
 * Fields, the 68 bytes of what the chip's fields are to hold, are 17 numbers of 32 bits, low byte
 * first, in this order: FISE, ADWHS, ADWHE, FAL, LAL, PCL, XOFS, XPIX, YOFSO, YOFSE, YPIX, HLEN,
 * XINC, YINC, YIWGTO, YIWGTE, YSKIP.
 */

/* The replies. */
enum {
    THYMEFLASK_DONE = 0,
    THYMEFLASK_WRONG_LENGTH = 1,   /* a transaction or a lent run has a wrong length */
    THYMEFLASK_WRONG_ADDRESS = 2,  /* not the address of a write, or of a read */
    THYMEFLASK_PASSES_END = 3,     /* a run passes its end, or colour bytes are not whole threes */
    THYMEFLASK_WRONG_REQUEST = 4,  /* a wrong chip byte, standard or source picture */
    THYMEFLASK_OUTPUT_LIMIT = 5,   /* an output limit is broken */
    THYMEFLASK_TOO_LARGE = 6,      /* a number does not fit its field */
    THYMEFLASK_TOO_FAST = 7,       /* the pixel clock is over 45 MHz */
    THYMEFLASK_WRONG_WEIGHT = 8,   /* a weight does not fit its field: proved never to be given */
    THYMEFLASK_NO_PICTURE = 9,     /* the file is no accepted picture's */
    THYMEFLASK_NOT_WRITABLE = 10,  /* the files differ in a bit that cannot be written */
    THYMEFLASK_TOO_LONG = 11,      /* the list of writes is longer than the lent buffer */
    THYMEFLASK_NOT_READABLE = 12   /* a read of another place than 00h, 1Ch and 80h */
};

/* ---- the state, and bus writes and reads on it ---- */

/*
 * A fresh state: all zero but for the chip byte, 2 for the SAA7102 and 3 for the SAA7103.
 * Replies: 0; 1, state_length is not 1,283; 4, another chip byte, and the state is all zero.
 */
uint32_t thymeflask_fresh(uint8_t *state, size_t state_length, uint8_t chip);

/*
 * Sets the status byte, or the fifo byte; nothing else of the state changes.
 * Replies: 0; 1, state_length is not 1,283.
 */
uint32_t thymeflask_set_status(uint8_t *state, size_t state_length, uint8_t status);
uint32_t thymeflask_set_fifo(uint8_t *state, size_t state_length, uint8_t fifo);

/*
 * A bus write, done on the lent state where it lies. The transaction is 88h, a subaddress, then data:
 * registers from subaddress 00h to FDh, of which the bits that the chip's map names take the new
 * value; at FEh a start cell and then bytes of the cursor map; at FFh a start cell and then red,
 * green and blue of the colour table's cells.
 * Replies: 0; 1, state_length is not 1,283, or the transaction has under 2 bytes; 2, it does not
 * begin with 88h; 3, the run passes its end, or the colour bytes are not whole threes.
 */
uint32_t thymeflask_write(uint8_t *state, size_t state_length,
                          const uint8_t *transaction, size_t transaction_length);

/*
 * A bus read. The transaction is 88h, a place, 89h. The result has the reply in bits 0 to 7 and the
 * byte that was read in bits 8 to 15, which are 0 beside a refusal. Today the state stays as it was;
 * it is lent for writing since on the chip a read can clear bits.
 * Replies: 0; 1, state_length is not 1,283, or the transaction has not 3 bytes; 2, it does not begin
 * with 88h or end with 89h; 12, the place is none of 00h, 1Ch and 80h.
 */
uint32_t thymeflask_read(uint8_t *state, size_t state_length,
                         const uint8_t *transaction, size_t transaction_length);

/* The reply and the byte in the result of thymeflask_read. */
#define THYMEFLASK_READ_REPLY(result) ((uint8_t)((result) & 0xFFu))
#define THYMEFLASK_READ_BYTE(result) ((uint8_t)(((result) >> 8) & 0xFFu))

/* ---- pictures ---- */

/*
 * Checks a request, and gives the numbers of its fields: all 68 bytes are written beside reply 0,
 * and none beside another.
 * Replies: 0; 1, request_length is not 18 or fields_length not 68; 4, 5, 6 or 7, the request is refused.
 */
uint32_t thymeflask_check(const uint8_t *request, size_t request_length,
                          uint8_t *fields, size_t fields_length);

/*
 * Writes a request's numbers into their fields in a register file; every other bit stays.
 * Replies: 0; 1, file_length is not 256 or request_length not 18; 4, 5, 6 or 7, the request is refused.
 */
uint32_t thymeflask_write_picture(uint8_t *file, size_t file_length,
                                  const uint8_t *request, size_t request_length);

/*
 * Reads a register file back as the one request that writes its fields: all 18 bytes of the request
 * are written beside reply 0, and none beside another.
 * Replies: 0; 1, file_length is not 256 or request_length not 18; 9, the file is no accepted picture's.
 */
uint32_t thymeflask_read_picture(const uint8_t *file, size_t file_length,
                                 uint8_t *request, size_t request_length);

/* ---- the list of writes ---- */

/*
 * The shortest list of writes from one register file to another: no list of bursts that gets there has
 * fewer bytes on the bus, and none with as many bytes has fewer bursts. It lies at the front of `out`,
 * each burst as subaddress, count and data, in ascending order; what stands behind it stays. On the bus
 * a burst is the transaction 88h, subaddress, data. Caption bytes (67h to 6Ah) are never written.
 * The result has the reply in bits 0 to 7, the list's bytes (2 and the data of each burst) in bits 8
 * to 31, and its bursts in bits 32 to 63; both are 0 beside a refusal.
 * Replies: 0; 1, from_length or to_length is not 256; 10, the files differ in a bit that the map does
 * not name, or in a caption byte; 11, the list is longer than out_length, which with 254 bytes or more is
 * never given.
 */
uint64_t thymeflask_plan(const uint8_t *from, size_t from_length,
                         const uint8_t *to, size_t to_length,
                         uint8_t *out, size_t out_length);

/* The reply, the bytes and the bursts in the result of thymeflask_plan. */
#define THYMEFLASK_PLAN_REPLY(result) ((uint8_t)((result) & 0xFFu))
#define THYMEFLASK_PLAN_BYTES(result) ((uint32_t)(((result) >> 8) & 0xFFFFFFu))
#define THYMEFLASK_PLAN_BURSTS(result) ((uint32_t)((result) >> 32))

/* ---- sessions ---- */

/*
 * Does a session of records on a fresh SAA7103, and prints a line for each into the front of `out`;
 * what stands behind stays. A session of over 16,384 bytes prints only the line 00 1.
 * The result is the number of bytes printed. With an out_length under 65,536 it is 0, and nothing is
 * written.
 */
size_t thymeflask_session(const uint8_t *session, size_t session_length,
                          uint8_t *out, size_t out_length);

/* ---- the cursor map ---- */

/*
 * Where the eight bytes of a row begin in a cursor map: 8 x row. For a row above 31, or a map_length
 * other than 256, the result is map_length: there is no such row.
 */
size_t thymeflask_cursor_row(const uint8_t *map, size_t map_length, uint32_t row);

#ifdef __cplusplus
}
#endif

#endif
