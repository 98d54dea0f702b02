/* load, run and reprint refused: each number with its place, in the order of judging, and every table as found. */
#include "test.h"

/* The sizes of the tables lent, and the numbers given. */
typedef struct lent {
    size_t scratch, rows, sections;
    int64_t allowance, page;
} lent;

static const lent right = {PZ_SCRATCH, PZ_ROWS, PZ_SECTIONS, 100, 0};

/* whether scratch is cleared */
enum scratch { AS_FOUND, CLEARED };

static void run_refused(const char *what, bytes m, lent l, uint32_t no, uint64_t place, enum scratch left)
{
    table scratch = lend(l.scratch), rows = lend(l.rows);
    if (left == CLEARED)
        want_zero(&scratch, PZ_SCRATCH);
    check_answer(what, pz_run(m.at, m.size, l.allowance, scratch.now, l.scratch, rows.now, l.rows), no, place);
    check_table(what, "run: scratch", &scratch);
    check_table(what, "run: rows", &rows);
    give_back(&scratch);
    give_back(&rows);
}

static void reprint_refused(const char *what, bytes m, lent l, uint32_t no, uint64_t place, enum scratch left)
{
    table scratch = lend(l.scratch), rows = lend(l.rows), sections = lend(l.sections);
    if (left == CLEARED)
        want_zero(&scratch, PZ_SCRATCH);
    check_answer(what, pz_reprint(m.at, m.size, l.allowance, l.page, scratch.now, l.scratch, rows.now, l.rows, sections.now, l.sections),
                 no, place);
    check_table(what, "reprint: scratch", &scratch);
    check_table(what, "reprint: rows", &rows);
    check_table(what, "reprint: sections", &sections);
    give_back(&scratch);
    give_back(&rows);
    give_back(&sections);
}

/* a master that each of the three calls refuses alike; it is released */
static void all_refuse(const char *what, bytes m, uint32_t no, uint64_t place)
{
    check_answer(what, pz_load(m.at, m.size), no, place);
    run_refused(what, m, right, no, place, AS_FOUND);
    reprint_refused(what, m, right, no, place, AS_FOUND);
    release(&m);
}

/* the tables and numbers l, which run and reprint refuse alike */
static void both_refuse(const char *what, bytes m, lent l, uint32_t no)
{
    run_refused(what, m, l, no, 0, AS_FOUND);
    reprint_refused(what, m, l, no, 0, AS_FOUND);
}

/* ---- masters */

/* the header and BEGIN take 23 bytes, the preamble's { two more */
#define BODY "A0 66 A0 6A "

static bytes repeated(const char *first, const char *each, int times, const char *last)
{
    bytes m = master(first);
    while (times--)
        add(&m, each);
    add(&m, last);
    return m;
}

static bytes too_long(void)
{
    bytes m = {0};
    add_fill(&m, 0, PZ_MASTER_MAX + 1);
    return m;
}

static void wrong_masters(void)
{
    all_refuse("1: no bytes, by NULL", ascii(""), PZ_BAD_HEADER, 0);
    all_refuse("1: 20 bytes of the header", ascii("Interpress/Xerox/3.0"), PZ_BAD_HEADER, 0);
    all_refuse("1: another header", ascii("Interpress/Xerox/2.1 "), PZ_BAD_HEADER, 0);
    all_refuse("2: BEGIN is due", master(""), PZ_CUT_OFF, 21);
    all_refuse("2: a body is due", master("A0 66"), PZ_CUT_OFF, 23);
    all_refuse("2: half an operator", master("A0"), PZ_CUT_OFF, 21);
    all_refuse("2: a string cut off", master(BODY "C1 05 61"), PZ_CUT_OFF, 25);
    all_refuse("2: a continuation cut off", master(BODY "C1 01 61 C7 02 62"), PZ_CUT_OFF, 28);
    all_refuse("2: END is due", master(BODY "A0 6B"), PZ_CUT_OFF, 27);
    all_refuse("3: type 0", master(BODY "C0 00 A0 6B A0 67"), PZ_TYPE_NOT_READ, 25);
    all_refuse("3: type 31", master(BODY "FF 00 00 00 A0 6B A0 67"), PZ_TYPE_NOT_READ, 25);
    all_refuse("4: an integer below the least", master(BODY "C2 04 80 00 00 00 A0 6B A0 67"), PZ_BAD_DATA, 25);
    all_refuse("4: denominator 0", master(BODY "0F A1 C4 02 01 00 A0 6B A0 67"), PZ_BAD_DATA, 27);
    all_refuse("4: a byte 255 in a continuation", master(BODY "C1 00 C7 01 FF A0 6B A0 67"), PZ_BAD_DATA, 25);
    all_refuse("4: an identifier led by a digit", master(BODY "C5 01 31 A0 6B A0 67"), PZ_BAD_DATA, 25);
    all_refuse("5: continued after a number", master(BODY "0F A1 C7 00 A0 6B A0 67"), PZ_NOTHING_CONTINUED, 27);
    all_refuse("6: a number where BEGIN is due", master("0F A1"), PZ_NOT_ALLOWED, 21);
    all_refuse("6: a body without its operator", master(BODY "A0 6A A0 6B A0 6B A0 67"), PZ_NOT_ALLOWED, 25);
    all_refuse("6: IF without its body", master(BODY "A0 EF A0 6B A0 67"), PZ_NOT_ALLOWED, 27);
    all_refuse("6: BEGIN in a body", master(BODY "A0 66 A0 6B A0 67"), PZ_NOT_ALLOWED, 25);
    all_refuse("6: a number between pages", master(BODY "A0 6B 0F A1 A0 67"), PZ_NOT_ALLOWED, 27);
    all_refuse("7: a comment after END", master(BODY "A0 6B A0 67 C6 00"), PZ_AFTER_END, 29);
    all_refuse("8: 17 open bodies", repeated(BODY, "A0 EF A0 6A", 16, ""), PZ_TOO_DEEP, 87);
    all_refuse("9: 513 pages", repeated(BODY "A0 6B", "A0 6A A0 6B", 513, "A0 67"), PZ_TOO_MANY_PAGES, 2075);
    all_refuse("10: a byte too long", too_long(), PZ_TOO_LONG, 0);
}

/* as near to the limits as a master may come */
static void largest_masters(void)
{
    bytes pages = repeated(BODY "A0 6B", "A0 6A A0 6B", PZ_PAGES_MAX, "A0 67");
    check_answer("512 pages", pz_load(pages.at, pages.size), PZ_DONE, PZ_PAGES_MAX);
    release(&pages);

    bytes deep = repeated(BODY, "A0 EF A0 6A", 15, "");
    for (int i = 0; i < 16; i++)
        add(&deep, "A0 6B");
    add(&deep, "A0 67");
    check_answer("16 open bodies", pz_load(deep.at, deep.size), PZ_DONE, 0);
    release(&deep);

    /* BEGIN, then a comment of 16777182 bytes */
    bytes longest = master("A0 66 E6 FF FF DE");
    add_fill(&longest, 0, 16777182);
    add(&longest, "A0 6A A0 6B A0 67");
    check("the longest master", "length", longest.size == PZ_MASTER_MAX);
    check_answer("the longest master", pz_load(longest.at, longest.size), PZ_DONE, 0);
    release(&longest);
}

/* ---- tables and numbers */

static lent with_tables(size_t scratch, size_t rows, size_t sections)
{
    lent l = right;
    l.scratch = scratch;
    l.rows = rows;
    l.sections = sections;
    return l;
}

static lent with_numbers(int64_t allowance, int64_t page)
{
    lent l = right;
    l.allowance = allowance;
    l.page = page;
    return l;
}

static void short_tables(bytes m)
{
    both_refuse("11: scratch a byte short", m, with_tables(PZ_SCRATCH - 1, PZ_ROWS, PZ_SECTIONS), PZ_TABLE_TOO_SHORT);
    both_refuse("11: rows a byte short", m, with_tables(PZ_SCRATCH, PZ_ROWS - 1, PZ_SECTIONS), PZ_TABLE_TOO_SHORT);
    both_refuse("11: no scratch, by NULL", m, with_tables(0, PZ_ROWS, PZ_SECTIONS), PZ_TABLE_TOO_SHORT);
    both_refuse("11: no rows, by NULL", m, with_tables(PZ_SCRATCH, 0, PZ_SECTIONS), PZ_TABLE_TOO_SHORT);
    both_refuse("11: no table, by NULL", m, with_tables(0, 0, 0), PZ_TABLE_TOO_SHORT);
    reprint_refused("11: sections a byte short", m, with_tables(PZ_SCRATCH, PZ_ROWS, PZ_SECTIONS - 1), PZ_TABLE_TOO_SHORT, 0, AS_FOUND);
    reprint_refused("11: no sections, by NULL", m, with_tables(PZ_SCRATCH, PZ_ROWS, 0), PZ_TABLE_TOO_SHORT, 0, AS_FOUND);
}

static void wrong_numbers(bytes m)
{
    static const int64_t allowances[] = {0, -1, PZ_STEPS_MAX + 1, INT64_MIN, INT64_MAX, INT64_C(4294967297)};
    static const int64_t pages[] = {-1, 2, PZ_PAGES_MAX, INT64_MIN, INT64_MAX, INT64_C(4294967297)};

    for (size_t i = 0; i < sizeof allowances / sizeof *allowances; i++)
        both_refuse("14: allowance", m, with_numbers(allowances[i], 0), PZ_BAD_ALLOWANCE);
    for (size_t i = 0; i < sizeof pages / sizeof *pages; i++)
        reprint_refused("13: page", m, with_numbers(100, pages[i]), PZ_NO_SUCH_PAGE, 0, AS_FOUND);
}

static void unfinished_preamble(void)
{
    bytes m = master(BODY "0F A1 0F A2 0F A3 A0 6B A0 6A 0F A7 A0 6B A0 67");
    lent longer = with_tables(PZ_SCRATCH + 5, PZ_ROWS + 5, PZ_SECTIONS + 5);
    longer.allowance = 2;

    run_refused("12: three literals, two steps", m, with_numbers(2, 0), PZ_PREAMBLE_UNFINISHED, 0, CLEARED);
    run_refused("12: longer tables", m, longer, PZ_PREAMBLE_UNFINISHED, 0, CLEARED);
    reprint_refused("12: the preamble", m, with_numbers(2, 0), PZ_PREAMBLE_UNFINISHED, 0, CLEARED);
    reprint_refused("12: a page", m, with_numbers(2, 1), PZ_PREAMBLE_UNFINISHED, 0, CLEARED);
    reprint_refused("12: longer tables", m, longer, PZ_PREAMBLE_UNFINISHED, 0, CLEARED);
    reprint_refused("13 before 12", m, with_numbers(2, 2), PZ_NO_SUCH_PAGE, 0, AS_FOUND);
    release(&m);
}

/* an input with several faults meets the first in order */
static void order(void)
{
    bytes over = too_long(), no_header = {0}, cut = master("A0 66"), late = master(BODY "A0 6B A0 67 00");
    lent nothing = {0, 0, 0, 0, -1}, no_numbers = with_numbers(0, -1);

    both_refuse("10 before 11, 14", over, nothing, PZ_TOO_LONG);
    both_refuse("11 before 14, 1", no_header, nothing, PZ_TABLE_TOO_SHORT);
    both_refuse("14 before 1", no_header, no_numbers, PZ_BAD_ALLOWANCE);
    both_refuse("14 before 2", cut, no_numbers, PZ_BAD_ALLOWANCE);
    reprint_refused("7 before 13", late, with_numbers(1, 1), PZ_AFTER_END, 29, AS_FOUND);
    release(&over);
    release(&cut);
    release(&late);
}

void test_refusals(void)
{
    bytes m = master(BODY "A0 6B A0 6A 0F A7 A0 6B A0 67");

    check_answer("a sound master", pz_load(m.at, m.size), PZ_DONE, 1);
    wrong_masters();
    largest_masters();
    short_tables(m);
    wrong_numbers(m);
    unfinished_preamble();
    order();
    release(&m);
}
