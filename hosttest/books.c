/* A parts book of 60 pages whose page 40 is corrected: the reprinted page over the kept rows is the whole run of the corrected book. */
#include "test.h"

#include <string.h>

#define PAGES 60
#define CORRECTED 40
#define ALLOWANCE 1000

/* 5 0 FSET, (ab) 1 FSET, {0 FGET 1 ADD} MAKESIMPLECO 2 FSET: 9 steps, 52 cells */
static const char preamble[] = "0F A5 0F A0 95 C1 02 61 62 0F A1 95 A0 72 A0 6A 0F A0 94 0F A1 A0 C9 A0 6B 0F A2 95";

/* ---- the book */

/* page n of the first edition, and its row */
static void add_page(bytes *m, int n, int32_t row[4])
{
    int32_t string[4] = {PZ_FINISHED, 0, 2, n}, called[4] = {PZ_FINISHED, 0, 8, 0};
    int32_t failed[4] = {PZ_RECOVERED, 1, 3, 0}, stored[4] = {PZ_FINISHED, 0, 6, 0};

    switch (n % 4) {
    case 1: /* n, and a string of n bytes */
        add_number(m, n);
        add_string(m, 'x', (size_t)n);
        memcpy(row, string, sizeof string);
        break;
    case 2: /* n 2 FGET DO: the preamble's operator */
        add_number(m, n);
        add(m, "0F A2 94 A0 E7");
        memcpy(row, called, sizeof called);
        break;
    case 3: /* 1 0 DIV n */
        add(m, "0F A1 0F A0 A0 CC");
        add_number(m, n);
        memcpy(row, failed, sizeof failed);
        break;
    default: /* n 0 FSET 9 1 FSET: in the page's own copy of the frame */
        add_number(m, n);
        add(m, "0F A0 95 0F A9 0F A1 95");
        memcpy(row, stored, sizeof stored);
    }
}

/* 9 0 MARK 1 0 DIV 5 UNMARK0 6 (mended) */
static void add_corrected_page(bytes *m, int32_t row[4])
{
    int32_t corrected[4] = {PZ_FINISHED, 1, 10, 6};
    add(m, "0F A9 0F A0 A0 BA 0F A1 0F A0 A0 CC 0F A5 A0 C0 0F A6 C1 06 6D 65 6E 64 65 64");
    memcpy(row, corrected, sizeof corrected);
}

/* the book, and the words of its rows */
static bytes book(int corrected, int32_t rows[4 * (PAGES + 1)])
{
    int32_t first[4] = {PZ_FINISHED, 0, 9, 52};
    bytes m = master("A0 66 A0 6A");
    add(&m, preamble);
    add(&m, "A0 6B");
    memcpy(rows, first, sizeof first);
    for (int n = 1; n <= PAGES; n++) {
        add(&m, "A0 6A");
        if (corrected && n == CORRECTED)
            add_corrected_page(&m, rows + 4 * n);
        else
            add_page(&m, n, rows + 4 * n);
        add(&m, "A0 6B");
    }
    add(&m, "A0 67");
    return m;
}

/* ---- sections */

/* the preamble's final frame: 5, its string, its operator */
static void push_frame(words *w)
{
    push(w, 50);
    push_value(w, 1, 5, 1, 0, 0);
    push_value(w, 3, 0, 0, 2, 0);
    push_value(w, 4, 0, 16, 7, 2);
    push_zeros(w, 47);
}

/* its cells: the string, and the frame as it was when the operator was made */
static words preamble_sections(void)
{
    words w = {.count = 0};
    push(&w, 0);
    push_frame(&w);
    push(&w, 52);
    push_value(&w, 1, 'a', 1, 0, 0);
    push_value(&w, 1, 'b', 1, 0, 0);
    push_value(&w, 1, 5, 1, 0, 0);
    push_value(&w, 3, 0, 0, 2, 0);
    push_zeros(&w, 48);
    return w;
}

static words corrected_sections(void)
{
    words w = {.count = 0};
    push(&w, 3);
    push_value(&w, 1, 9, 1, 0, 0);
    push_value(&w, 1, 6, 1, 0, 0);
    push_value(&w, 3, 52, 0, 6, 0); /* its cells come after the preamble's */
    push_frame(&w);
    push(&w, 6);
    for (const char *c = "mended"; *c; c++)
        push_value(&w, 1, *c, 1, 0, 0);
    return w;
}

static words page_sections(int n)
{
    words w = {.count = 0};
    switch (n % 4) {
    case 1:
        push(&w, 2);
        push_value(&w, 1, n, 1, 0, 0);
        push_value(&w, 3, 52, 0, n, 0);
        push_frame(&w);
        push(&w, n);
        for (int i = 0; i < n; i++)
            push_value(&w, 1, 'x', 1, 0, 0);
        break;
    case 2:
        push(&w, 2);
        push_value(&w, 1, n, 1, 0, 0);
        push_value(&w, 1, 6, 1, 0, 0);
        push_frame(&w);
        push(&w, 0);
        break;
    case 3:
        push(&w, 0);
        push_frame(&w);
        push(&w, 0);
        break;
    default:
        push(&w, 0);
        push(&w, 50);
        push_value(&w, 1, n, 1, 0, 0);
        push_value(&w, 1, 9, 1, 0, 0);
        push_value(&w, 4, 0, 16, 7, 2);
        push_zeros(&w, 47);
        push(&w, 0);
    }
    return w;
}

/* ---- calls */

static void run_book(const char *what, bytes m, const int32_t *row_words, table *rows)
{
    table scratch = lend(PZ_SCRATCH);
    want_zero(&scratch, PZ_SCRATCH);
    want_words(rows, 0, row_words, 4 * (PAGES + 1));
    check_answer(what, pz_run(m.at, m.size, ALLOWANCE, scratch.now, scratch.size, rows->now, rows->size), PZ_DONE, PAGES);
    check_table(what, "scratch", &scratch);
    check_table(what, "rows", rows);
    give_back(&scratch);
}

/* one page over rows that were kept; what the rows should be stands in them */
static void reprint_page(const char *what, bytes m, int page, table *rows, words result)
{
    table scratch = lend(PZ_SCRATCH), sections = lend(PZ_SECTIONS);
    want_zero(&scratch, PZ_SCRATCH);
    want_zero(&sections, PZ_SECTIONS);
    want_words(&sections, 0, result.at, result.count);
    check_answer(what,
                 pz_reprint(m.at, m.size, ALLOWANCE, page, scratch.now, scratch.size, rows->now, rows->size, sections.now, sections.size),
                 PZ_DONE, (uint64_t)page);
    check_table(what, "scratch", &scratch);
    check_table(what, "rows", rows);
    check_table(what, "sections", &sections);
    give_back(&scratch);
    give_back(&sections);
}

static const uint8_t *row_of(const table *rows, int page)
{
    return rows->now + PZ_ROW * (size_t)page;
}

/* the customer's page 40 */
static void corrected_page(bytes first, const int32_t *first_rows, bytes second, const int32_t *second_rows)
{
    table kept = lend(PZ_ROWS), before = lend(PZ_ROWS), whole = lend(PZ_ROWS);

    run_book("the first edition", first, first_rows, &kept);
    run_book("the first edition again", first, first_rows, &before);
    run_book("the corrected edition", second, second_rows, &whole);

    want_words(&kept, PZ_ROW * CORRECTED, second_rows + 4 * CORRECTED, 4);
    reprint_page("page 40 reprinted", second, CORRECTED, &kept, corrected_sections());
    check("page 40 reprinted", "the rows are those of the corrected edition", !memcmp(kept.now, whole.now, PZ_ROWS));
    check("page 40 reprinted", "row 40 is another", memcmp(row_of(&kept, 40), row_of(&before, 40), PZ_ROW));
    check("page 40 reprinted", "row 41 is the same", !memcmp(row_of(&kept, 41), row_of(&before, 41), PZ_ROW));
    check("page 40 reprinted", "rows 0 to 39 are the same", !memcmp(kept.now, before.now, PZ_ROW * 40));
    check("page 40 reprinted", "all after row 40 is the same", !memcmp(row_of(&kept, 41), row_of(&before, 41), PZ_ROWS - PZ_ROW * 41));

    want_words(&kept, PZ_ROW * CORRECTED, first_rows + 4 * CORRECTED, 4);
    reprint_page("page 40 of the first edition again", first, CORRECTED, &kept, page_sections(CORRECTED));
    check("page 40 of the first edition again", "the rows are as before", !memcmp(kept.now, before.now, PZ_ROWS));
    give_back(&kept);
    give_back(&before);
    give_back(&whole);
}

/* every page by itself, the last first, over rows that no run has touched */
static void page_by_page(bytes m, const int32_t *row_words)
{
    table rows = lend(PZ_ROWS);
    for (int n = PAGES; n >= 0; n--) {
        want_words(&rows, PZ_ROW * (size_t)n, row_words + 4 * n, 4);
        reprint_page("page by page", m, n, &rows, n ? page_sections(n) : preamble_sections());
    }
    give_back(&rows);
}

void test_books(void)
{
    int32_t first_rows[4 * (PAGES + 1)], second_rows[4 * (PAGES + 1)];
    bytes first = book(0, first_rows), second = book(1, second_rows);

    corrected_page(first, first_rows, second, second_rows);
    page_by_page(first, first_rows);
    release(&first);
    release(&second);
}
