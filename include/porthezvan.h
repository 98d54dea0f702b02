/*
 * The Porthezvan engine for a C host: Interpress masters checked, run and reprinted, token lists written and read back.
 * Link with target/staticlib/libhost.a. docs/HOST.md says more; crates/host proves what is said here.
 *
 * Every slice is a pointer and a count of bytes; NULL with 0 is an empty one. The slices lent to one call do not overlap, but two
 * that are only read may. No slice need be aligned. A call keeps nothing: calls with tables of their own may run at the same time.
 *
 * A word is 32 bits, two's complement, four bytes with the low byte first, so a little-endian host may lend its int32_t arrays.
 */
#ifndef PORTHEZVAN_H
#define PORTHEZVAN_H

#include <stddef.h>
#include <stdint.h>

#ifdef __cplusplus
extern "C" {
#endif

/* The least bytes of each table; of a longer one only these are used, and the rest stays as found. */
#define PZ_SCRATCH 48000
#define PZ_ROWS 8208
#define PZ_SECTIONS 24052

#define PZ_MASTER_MAX 16777215 /* bytes of a master */
#define PZ_STEPS_MAX 1000000   /* the allowance is from 1 to this */
#define PZ_PAGES_MAX 512       /* pages of a master, the preamble not counted */

#define PZ_ROW 16   /* bytes of a row: outcome, errors, steps, cells */
#define PZ_VALUE 20 /* bytes of a value in the sections */
#define PZ_TOKEN 16 /* bytes of a token in a list */

/* A refusal by its number; its place is a byte of the input, or 0. */
enum pz_refusal {
    PZ_DONE = 0,
    PZ_BAD_HEADER = 1,           /* header wrong or short; 0 */
    PZ_CUT_OFF = 2,              /* the input ends inside a token, or where one is due; its first byte */
    PZ_TYPE_NOT_READ = 3,        /* a sequence type that is not read; the token */
    PZ_BAD_DATA = 4,             /* sequence data break a rule; the first of the joined sequences */
    PZ_NOTHING_CONTINUED = 5,    /* continued, with no sequence directly before; the token */
    PZ_NOT_ALLOWED = 6,          /* a token not allowed here; the token */
    PZ_AFTER_END = 7,            /* bytes after END; the first of them */
    PZ_TOO_DEEP = 8,             /* a 17th open body; its { */
    PZ_TOO_MANY_PAGES = 9,       /* a 513th page; its { */
    PZ_TOO_LONG = 10,            /* a master of more than PZ_MASTER_MAX bytes; 0 */
    PZ_TABLE_TOO_SHORT = 11,     /* a lent table is too short; 0 */
    PZ_PREAMBLE_UNFINISHED = 12, /* the preamble ran out of steps; 0 */
    PZ_NO_SUCH_PAGE = 13,        /* a page below 0 or above the count; 0 */
    PZ_BAD_ALLOWANCE = 14,       /* an allowance below 1 or above PZ_STEPS_MAX; 0 */
    PZ_NOT_WRITABLE = 15,        /* a token that cannot be written; its index in the list, not a byte */
    PZ_NO_ROOM = 16              /* the written form is longer than the buffer or than PZ_MASTER_MAX bytes; 0 */
};

/* The first word of a row. */
enum pz_outcome {
    PZ_FINISHED = 1,  /* F: ended normally */
    PZ_RECOVERED = 2, /* R: ended by recovery at the engine's own mark */
    PZ_BROKEN_OFF = 3 /* B: a step was due and none was left */
};

/* no is 0 where the call is done, and value what it answers; else no is a refusal, and value its place. */
typedef struct pz_answer {
    uint32_t no;
    uint64_t value;
} pz_answer;

/*
 * Checks a master and answers its page count.
 * Refusals in order: 10; 1; the first wrong token, left to right, by 2, 3, 5, 4, 6, 8, 9; 7.
 */
pz_answer pz_load(const uint8_t *master, size_t master_size);

/*
 * Runs the preamble and every page, each under the allowance, and answers the page count.
 * Refusals in order: 10, 11, 14; then as pz_load; 12.
 * Done: the first PZ_SCRATCH bytes of scratch are zero; row n stands at PZ_ROW * n of rows, the preamble's at 0; all else is as found.
 * Refused: both tables are as found, but after 12 the first PZ_SCRATCH bytes of scratch are zero.
 */
pz_answer pz_run(const uint8_t *master, size_t master_size, int64_t allowance, uint8_t *scratch, size_t scratch_size,
                 uint8_t *rows, size_t rows_size);

/*
 * Runs the preamble and one page, or the preamble alone where page is 0, and answers page.
 * Refusals in order: 10, 11, 14; then as pz_load; 13, 12.
 * Done: the first PZ_SCRATCH bytes of scratch are zero; the page's row stands at PZ_ROW * page of rows; the first PZ_SECTIONS bytes
 * of sections are the page's sections, and zero after the last value; all else is as found.
 * Refused: all three tables are as found, but after 12 the first PZ_SCRATCH bytes of scratch are zero.
 */
pz_answer pz_reprint(const uint8_t *master, size_t master_size, int64_t allowance, int64_t page, uint8_t *scratch,
                     size_t scratch_size, uint8_t *rows, size_t rows_size, uint8_t *sections, size_t sections_size);

/*
 * Writes a token list, its texts in a text table, and answers the written length.
 * Refusals in order: 15, 16.
 * Done: the first bytes of out are the written form; the rest is as found. Refused: out is as found.
 */
pz_answer pz_write(const uint8_t *list, size_t list_size, const uint8_t *text, size_t text_size, uint8_t *out, size_t out_size);

/*
 * Reads a token list back, comments dropped, and answers the token count.
 * Refusals in order: 10; 1; the first token that cannot be read, by 2, 3, 5, 4; 11.
 * Done: the first bytes of list are the tokens, PZ_TOKEN bytes each, the first bytes of text their texts, end to end; the rest of each
 * is as found. Refused: both tables are as found.
 */
pz_answer pz_read_back(const uint8_t *bytes, size_t bytes_size, uint8_t *list, size_t list_size, uint8_t *text, size_t text_size);

#ifdef __cplusplus
}
#endif

#endif
