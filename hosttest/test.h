/* What the tests share: counted checks, masters put together from hex, lent tables with what they should hold afterwards. */
#ifndef TEST_H
#define TEST_H

#include "porthezvan.h"

/* ---- checks: each is counted, and one that fails is printed */

void check(const char *what, const char *part, int holds);
void check_answer(const char *what, pz_answer got, uint32_t no, uint64_t value);

/* ---- bytes that grow: always as long as their allocation, so that valgrind sees a byte read past their end */

typedef struct bytes {
    uint8_t *at;
    size_t size;
} bytes;

void add_bytes(bytes *b, const void *more, size_t size);
void add_fill(bytes *b, uint8_t byte, size_t size);
void add(bytes *b, const char *hex);                     /* "A0 66" */
void add_number(bytes *b, int n);                        /* a short number */
void add_string(bytes *b, uint8_t element, size_t size); /* a string of equal elements */
void release(bytes *b);

bytes ascii(const char *text);
bytes master(const char *hex); /* the header, then these bytes */

/* ---- lent tables: filled with a pattern, at an odd address, up to the end of their allocation; an empty one is NULL */

typedef struct table {
    uint8_t *block; /* a byte that no call may touch, then the table */
    uint8_t *now;
    uint8_t *want;
    size_t size;
} table;

table lend(size_t size);
void want_zero(table *t, size_t size);
void want_bytes(table *t, size_t at, const void *bytes, size_t size);
void want_words(table *t, size_t at, const int32_t *words, size_t count);
void check_table(const char *what, const char *part, const table *t);
void give_back(table *t);

/* ---- words, as of the sections */

typedef struct words {
    int32_t at[PZ_SECTIONS / 4];
    size_t count;
} words;

void push(words *w, int32_t word);
void push_value(words *w, int32_t kind, int32_t a, int32_t b, int32_t c, int32_t d);
void push_zeros(words *w, size_t count); /* so many of Number 0 */

/* ---- the tests */

void test_refusals(void);
void test_pages(void);
void test_books(void);
void test_lists(void);

/* ends the program's output, and answers its status */
int report(void);

#endif
