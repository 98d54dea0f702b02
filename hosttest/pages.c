/* run and reprint done: rows and sections against words put together by hand from document 01. */
#include "test.h"

/* ---- calls */

/* rows: four words for the preamble and for each page; each table is `spare` bytes longer than it need be */
static void runs(const char *what, bytes m, int64_t allowance, const int32_t *row_words, size_t pages, size_t spare)
{
    table scratch = lend(PZ_SCRATCH + spare), rows = lend(PZ_ROWS + spare);
    want_zero(&scratch, PZ_SCRATCH);
    want_words(&rows, 0, row_words, 4 * (pages + 1));
    check_answer(what, pz_run(m.at, m.size, allowance, scratch.now, scratch.size, rows.now, rows.size), PZ_DONE, pages);
    check_table(what, "run: scratch", &scratch);
    check_table(what, "run: rows", &rows);
    give_back(&scratch);
    give_back(&rows);
}

static void reprints(const char *what, bytes m, int64_t allowance, int64_t page, const int32_t row[4], const words *result, size_t spare)
{
    table scratch = lend(PZ_SCRATCH + spare), rows = lend(PZ_ROWS + spare), sections = lend(PZ_SECTIONS + spare);
    want_zero(&scratch, PZ_SCRATCH);
    want_words(&rows, PZ_ROW * (size_t)page, row, 4);
    want_zero(&sections, PZ_SECTIONS);
    want_words(&sections, 0, result->at, result->count);
    check_answer(what,
                 pz_reprint(m.at, m.size, allowance, page, scratch.now, scratch.size, rows.now, rows.size, sections.now, sections.size),
                 PZ_DONE, (uint64_t)page);
    check_table(what, "reprint: scratch", &scratch);
    check_table(what, "reprint: rows", &rows);
    check_table(what, "reprint: sections", &sections);
    give_back(&scratch);
    give_back(&rows);
    give_back(&sections);
}

/* ---- one page after an empty preamble */

static bytes book_of(const char *page)
{
    bytes m = master("A0 66 A0 6A A0 6B A0 6A");
    add(&m, page);
    add(&m, "A0 6B A0 67");
    return m;
}

/* numbers on the stack, a frame of zeros, no cells */
static words numbers(size_t count, const int32_t *n)
{
    words w = {.count = 0};
    push(&w, (int32_t)count);
    for (size_t i = 0; i < count; i++)
        push_value(&w, 1, n[i], 1, 0, 0);
    push(&w, 50);
    push_zeros(&w, 50);
    push(&w, 0);
    return w;
}

/* the page alone, run and reprinted in tables that are just long enough and in longer ones; the master is released */
static void page_is(const char *what, bytes m, int64_t allowance, const int32_t row[4], const words *result)
{
    words preamble = numbers(0, NULL);
    int32_t rows[8] = {PZ_FINISHED, 0, 0, 0, row[0], row[1], row[2], row[3]};
    for (size_t spare = 0; spare < 12; spare += 11) {
        runs(what, m, allowance, rows, 1, spare);
        reprints(what, m, allowance, 0, rows, &preamble, spare);
        reprints(what, m, allowance, 1, row, result, spare);
    }
    release(&m);
}

static void simple_pages(void)
{
    words seven = numbers(1, (int32_t[]){7});
    words nine_six = numbers(2, (int32_t[]){9, 6});
    words zero = numbers(1, (int32_t[]){0});
    words one_two = numbers(2, (int32_t[]){1, 2});
    words none = numbers(0, NULL);

    page_is("the listing's page", book_of("0F A7"), 100000, (int32_t[]){PZ_FINISHED, 0, 1, 0}, &seven);
    page_is("an empty page, one step", book_of(""), 1, (int32_t[]){PZ_FINISHED, 0, 0, 0}, &none);
    page_is("the most steps", book_of("0F A7"), PZ_STEPS_MAX, (int32_t[]){PZ_FINISHED, 0, 1, 0}, &seven);
    page_is("9 0 MARK 1 0 DIV 5 UNMARK0 6", book_of("0F A9 0F A0 A0 BA 0F A1 0F A0 A0 CC 0F A5 A0 C0 0F A6"), 100,
            (int32_t[]){PZ_FINISHED, 1, 9, 0}, &nine_six);
    page_is("1 0 DIV 5", book_of("0F A1 0F A0 A0 CC 0F A5"), 100, (int32_t[]){PZ_RECOVERED, 1, 3, 0}, &none);
    page_is("9 1 {0 MARK 4} IF POP POP 3", book_of("0F A9 0F A1 A0 EF A0 6A 0F A0 A0 BA 0F A4 A0 6B A0 B4 A0 B4 0F A3"), 100,
            (int32_t[]){PZ_RECOVERED, 1, 8, 0}, &none);
    page_is("1 {5 0 FSET} IF 0 FGET", book_of("0F A1 A0 EF A0 6A 0F A5 0F A0 95 A0 6B 0F A0 94"), 100, (int32_t[]){PZ_FINISHED, 0, 7, 0},
            &zero);
    page_is("2147483647 1 ADD", book_of("C2 04 7F FF FF FF 0F A1 A0 C9"), 100, (int32_t[]){PZ_RECOVERED, 1, 3, 0}, &none);
    page_is("three literals, two steps", book_of("0F A1 0F A2 0F A3"), 2, (int32_t[]){PZ_BROKEN_OFF, 0, 2, 0}, &one_two);
}

/* -1/2 Ab (ab) {} MAKESIMPLECO 0 MARK, then 3 at 49 of the frame */
static void every_kind(void)
{
    bytes m = book_of("C4 02 FF 02 C5 02 41 62 C1 02 61 62 A0 72 A0 6A A0 6B 0F A0 A0 BA 0F A3 0F D1 95");
    words w = {.count = 0};

    push(&w, 5);
    push_value(&w, 1, -1, 2, 0, 0); /* number */
    push_value(&w, 2, 1, 4, 2, 0);  /* identifier: the page, its token's first byte, length */
    push_value(&w, 3, 0, 0, 2, 0);  /* vector: first cell, lower bound, count */
    push_value(&w, 4, 1, 16, 0, 2); /* operator: the page, just after its {, length, first cell of its frame */
    push_value(&w, 5, 0, 0, 0, 0);  /* mark */
    push(&w, 50);
    push_zeros(&w, 49);
    push_value(&w, 1, 3, 1, 0, 0);
    push(&w, 52);
    push_value(&w, 1, 'a', 1, 0, 0);
    push_value(&w, 1, 'b', 1, 0, 0);
    push_zeros(&w, 50);
    page_is("every kind of value", m, 100, (int32_t[]){PZ_FINISHED, 0, 9, 52}, &w);
}

/* a full stack and full cells: the last value ends where the sections end */
static void largest_sections(void)
{
    bytes m = master("A0 66 A0 6A A0 6B A0 6A");
    words w = {.count = 0};

    add_string(&m, 'x', 1024);
    for (int i = 1; i < 128; i++)
        add_number(&m, -i);
    add(&m, "A0 6B A0 67");

    push(&w, 128);
    push_value(&w, 3, 0, 0, 1024, 0);
    for (int32_t i = 1; i < 128; i++)
        push_value(&w, 1, -i, 1, 0, 0);
    push(&w, 50);
    push_zeros(&w, 50);
    push(&w, 1024);
    for (int i = 0; i < 1024; i++)
        push_value(&w, 1, 'x', 1, 0, 0);
    check("the largest sections", "words", w.count == PZ_SECTIONS / 4);
    page_is("the largest sections", m, 128, (int32_t[]){PZ_FINISHED, 0, 128, 1024}, &w);
}

/* the last row ends where the rows end */
static void most_pages(void)
{
    bytes m = master("A0 66 A0 6A A0 6B");
    int32_t rows[4 * (PZ_PAGES_MAX + 1)] = {PZ_FINISHED, 0, 0, 0};
    words last = numbers(1, (int32_t[]){PZ_PAGES_MAX});

    for (int n = 1; n <= PZ_PAGES_MAX; n++) {
        add(&m, "A0 6A");
        add_number(&m, n);
        add(&m, "A0 6B");
        rows[4 * n] = PZ_FINISHED;
        rows[4 * n + 2] = 1;
    }
    add(&m, "A0 67");
    check("512 pages", "rows", sizeof rows == PZ_ROWS);
    runs("512 pages", m, 1, rows, PZ_PAGES_MAX, 0);
    runs("512 pages", m, 1, rows, PZ_PAGES_MAX, 1);
    reprints("page 512", m, 1, PZ_PAGES_MAX, rows + 4 * PZ_PAGES_MAX, &last, 0);
    release(&m);
}

void test_pages(void)
{
    simple_pages();
    every_kind();
    largest_sections();
    most_pages();
}
