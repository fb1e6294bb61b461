/*
 * The margin of one account, as one call: the five sheets of a run in, the statement of the account or a
 * refusal out. Link with libmargin_c.a, which stands on nothing but memmove and memset of the C library.
 *
 * What is asked of the caller, of both functions:
 * - input points to input_len bytes, statement to statement_len bytes, none of them used by anyone else
 *   until the call returns. A pointer may be NULL only where its length is 0. refusal is never NULL.
 * - The input, the statement and the refusal do not overlap.
 * - No length is above PTRDIFF_MAX.
 * - The calling thread has at least MARGIN_STACK_BYTES of stack, and has used little of it.
 * Nothing is asked of what the bytes are: every input of every length has an answer. What the statement and
 * the refusal hold before the call is not read.
 *
 * The functions keep nothing between calls, allocate nothing, and may run in several threads at once.
 */
#ifndef MARGIN_H
#define MARGIN_H

#include <stddef.h>
#include <stdint.h>

#ifdef __cplusplus
extern "C" {
#endif

/* The most bytes that the five sheets may have together; a longer input is refused MARGIN_REFUSED_LENGTH. */
#define MARGIN_MOST_INPUT 65536

/*
 * A buffer of so many bytes holds every statement: no statement has more. So with such a buffer a run is refused
 * MARGIN_REFUSED_LENGTH only where its input has more than MARGIN_MOST_INPUT bytes (proved).
 */
#define MARGIN_MOST_STATEMENT 65536

/* The stack of a thread in which a call may be made. Every call takes 82 KiB of it, or less (measured). */
#define MARGIN_STACK_BYTES 98304

/* Why a run is refused. */
enum {
    MARGIN_REFUSED_MARK = 1,           /* a sheet's first line lacks the awaited mark, or a version read here */
    MARGIN_REFUSED_COLUMNS = 2,        /* a needed column is missing or twice, or there are over 32 columns */
    MARGIN_REFUSED_CELL_COUNT = 3,     /* a row has another count of cells than its sheet has columns */
    MARGIN_REFUSED_VALUE = 4,          /* a value is outside its form or range; of several the leftmost */
    MARGIN_REFUSED_TRAILER = 5,        /* a trailer is missing or wrong, bytes follow the fifth sheet, or not just one day */
    MARGIN_REFUSED_KEY_PRESENT = 6,    /* a key stands twice */
    MARGIN_REFUSED_DATE = 7,           /* DATE or NEXT is outside its days */
    MARGIN_REFUSED_TITLES = 8,         /* the titles of an ISIN and block together pass 2,000,000 */
    MARGIN_REFUSED_FULL = 9,           /* more rows than there are places */
    MARGIN_REFUSED_NO_PRICE = 10,      /* a line's ISIN has no price */
    MARGIN_REFUSED_NO_PERCENTAGE = 11, /* a line's tranche has no margin percentage */
    MARGIN_REFUSED_NO_RATE = 12,       /* the curve has no rate for a line's term */
    MARGIN_REFUSED_LENGTH = 14         /* the input is too long, or the statement is longer than its buffer */
};

/* What refuses it. */
enum {
    MARGIN_LAYER_RUN = 0,   /* the run: 14 */
    MARGIN_LAYER_SHEET = 1, /* the form of a sheet: 1 to 5 */
    MARGIN_LAYER_BOOK = 2,  /* the book, of a row: 6 to 9 */
    MARGIN_LAYER_MARGIN = 3 /* the margin, of a line: 10 to 12 */
};

/* A refusal; a part that does not apply is 0, and all parts are 0 of a run that is accepted. */
typedef struct margin_refusal {
    uint8_t number;     /* MARGIN_REFUSED_.. */
    uint8_t layer;      /* MARGIN_LAYER_.. */
    size_t line;        /* layers 1 and 2: the line, from 1 over the whole input; a missing one is the one after the last */
    size_t cell;        /* of MARGIN_REFUSED_VALUE: the cell, from 1 */
    uint32_t reference; /* layer 3, and layer 2 of a row of positions: the REF of the line */
} margin_refusal;

/*
 * Reads the five sheets, works out the margin and writes the statement at the front of the buffer.
 * Answers the count of bytes written, and then the bytes behind them are as before; or minus the number of a
 * refusal, and then the whole buffer is as before. No statement has 0 bytes.
 */
int64_t margin_run(const uint8_t *input, size_t input_len, uint8_t *statement, size_t statement_len);

/* The same, and writes to *refusal which refusal it is and where. */
int64_t margin_run_told(const uint8_t *input, size_t input_len, uint8_t *statement, size_t statement_len,
                        margin_refusal *refusal);

#ifdef __cplusplus
}
#endif

#endif
