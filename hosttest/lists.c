/* write and read back: bytes and tables put together by hand, refusals with their index or place, and what is written read back. */
#include "test.h"

/* ---- calls */

static void writes(const char *what, bytes list, bytes text, bytes written, size_t spare)
{
    table out = lend(written.size + spare);
    want_bytes(&out, 0, written.at, written.size);
    check_answer(what, pz_write(list.at, list.size, text.at, text.size, out.now, out.size), PZ_DONE, written.size);
    check_table(what, "out", &out);
    give_back(&out);
}

static void write_refused(const char *what, bytes list, bytes text, size_t size, uint32_t no, uint64_t index)
{
    table out = lend(size);
    check_answer(what, pz_write(list.at, list.size, text.at, text.size, out.now, out.size), no, index);
    check_table(what, "out", &out);
    give_back(&out);
}

static void reads_back(const char *what, bytes b, bytes list, bytes text, size_t spare)
{
    table l = lend(list.size + spare), x = lend(text.size + spare);
    want_bytes(&l, 0, list.at, list.size);
    want_bytes(&x, 0, text.at, text.size);
    check_answer(what, pz_read_back(b.at, b.size, l.now, l.size, x.now, x.size), PZ_DONE, list.size / PZ_TOKEN);
    check_table(what, "list", &l);
    check_table(what, "text", &x);
    give_back(&l);
    give_back(&x);
}

static void read_refused(const char *what, bytes b, size_t list_size, size_t text_size, uint32_t no, uint64_t place)
{
    table l = lend(list_size), x = lend(text_size);
    check_answer(what, pz_read_back(b.at, b.size, l.now, l.size, x.now, x.size), no, place);
    check_table(what, "list", &l);
    check_table(what, "text", &x);
    give_back(&l);
    give_back(&x);
}

/* the buffer that was just written, read back as it stands */
static void round_trip(const char *what, bytes list, bytes text, size_t room)
{
    table out = lend(room);
    pz_answer a = pz_write(list.at, list.size, text.at, text.size, out.now, out.size);
    check(what, "written", a.no == PZ_DONE && a.value <= room);
    if (a.no == PZ_DONE) {
        bytes written = {out.now, a.value};
        reads_back(what, written, list, text, 0);
    }
    give_back(&out);
}

/* ---- lists */

static void add_token(bytes *list, int32_t kind, int32_t a, int32_t b, int32_t c)
{
    uint32_t words[4] = {(uint32_t)kind, (uint32_t)a, (uint32_t)b, (uint32_t)c};
    for (int i = 0; i < 16; i++) {
        uint8_t byte = (uint8_t)(words[i / 4] >> 8 * (i % 4));
        add_bytes(list, &byte, 1);
    }
}

/* a list of every kind, its texts and its written form, in exact and in longer tables, and one byte short of each */
static void every_kind(void)
{
    bytes list = {0}, text = ascii("part-7x y"), none = {0};
    bytes written = master("C4 02 FF 02 7F FF C2 02 70 60 C2 04 80 00 00 01 C5 06 70 61 72 74 2D 37 C1 03 78 20 79 C1 00 97 BF FF");
    add_token(&list, 1, -1, 2, 0);
    add_token(&list, 1, 28767, 1, 0);
    add_token(&list, 1, 28768, 1, 0);
    add_token(&list, 1, -2147483647, 1, 0);
    add_token(&list, 2, 0, 6, 0);
    add_token(&list, 3, 6, 3, 0);
    add_token(&list, 3, 9, 0, 0);
    add_token(&list, 4, 23, 0, 0);
    add_token(&list, 4, 8191, 0, 0);

    for (size_t spare = 0; spare < 20; spare += 19) {
        writes("every kind written", list, text, written, spare);
        reads_back("every kind read back", written, list, text, spare);
    }
    round_trip("every kind written, then read back", list, text, 1000);
    write_refused("16: a byte short", list, text, written.size - 1, PZ_NO_ROOM, 0);
    write_refused("16: no buffer, by NULL", list, text, 0, PZ_NO_ROOM, 0);
    write_refused("15: no text, by NULL", list, none, written.size, PZ_NOT_WRITABLE, 4);
    read_refused("11: list a byte short", written, list.size - 1, text.size, PZ_TABLE_TOO_SHORT, 0);
    read_refused("11: text a byte short", written, list.size, text.size - 1, PZ_TABLE_TOO_SHORT, 0);
    read_refused("11: no table, by NULL", written, 0, 0, PZ_TABLE_TOO_SHORT, 0);
    release(&list);
    release(&text);
    release(&written);
}

static void empty_list(void)
{
    bytes none = {0}, header = master("");
    writes("an empty list written", none, none, header, 0);
    writes("an empty list written", none, none, header, 3);
    reads_back("an empty list read back", header, none, none, 0);
    reads_back("an empty list read back", header, none, none, 3);
    write_refused("16: the header alone", none, none, 20, PZ_NO_ROOM, 0);
    write_refused("16: nothing but NULL", none, none, 0, PZ_NO_ROOM, 0);
    read_refused("1: nothing but NULL", none, 0, 0, PZ_BAD_HEADER, 0);
    release(&header);
}

/* comments dropped, sequences joined, capitals lowered, numbers in longer forms than are written */
static void other_forms(void)
{
    bytes b = master("C6 03 61 62 63 C5 02 50 61 C7 01 72 C6 00 C1 01 78 E7 00 00 01 79 A0 17 C2 04 00 00 00 05 C4 04 00 02 00 04");
    bytes list = {0}, text = ascii("parxy");
    add_token(&list, 2, 0, 3, 0);
    add_token(&list, 3, 3, 2, 0);
    add_token(&list, 4, 23, 0, 0);
    add_token(&list, 1, 5, 1, 0);
    add_token(&list, 1, 1, 2, 0);
    reads_back("other forms", b, list, text, 0);
    reads_back("other forms", b, list, text, 5);
    release(&b);
    release(&list);
    release(&text);
}

/* ---- refusals */

/* a good token, then this one, with the text "abC" and a byte 255; no room either, but that is judged later */
static void not_writable(const char *what, int32_t kind, int32_t a, int32_t b, int32_t c)
{
    bytes list = {0}, text = ascii("abC\xFF");
    add_token(&list, 4, 1, 0, 0);
    add_token(&list, kind, a, b, c);
    write_refused(what, list, text, 100, PZ_NOT_WRITABLE, 1);
    write_refused(what, list, text, 0, PZ_NOT_WRITABLE, 1);
    release(&list);
    release(&text);
}

static void wrong_tokens(void)
{
    not_writable("15: kind 0", 0, 0, 0, 0);
    not_writable("15: kind 5", 5, 0, 0, 0);
    not_writable("15: a number's fourth word", 1, 1, 1, 1);
    not_writable("15: a fraction not reduced", 1, 2, 4, 0);
    not_writable("15: denominator 0", 1, 1, 0, 0);
    not_writable("15: a negative denominator", 1, 1, -2, 0);
    not_writable("15: a numerator outside the limits", 1, INT32_MIN, 1, 0);
    not_writable("15: an identifier's fourth word", 2, 0, 1, 1);
    not_writable("15: an empty identifier", 2, 0, 0, 0);
    not_writable("15: a capital", 2, 0, 3, 0);
    not_writable("15: a text past its table", 3, 2, 3, 0);
    not_writable("15: a negative start", 3, -1, 1, 0);
    not_writable("15: a negative length", 3, 1, -1, 0);
    not_writable("15: a byte 255", 3, 0, 4, 0);
    not_writable("15: operator 8192", 4, 8192, 0, 0);
    not_writable("15: operator -1", 4, -1, 0, 0);
    not_writable("15: an operator's third word", 4, 1, 1, 0);
}

/* every length between two whole tokens */
static void incomplete_token(void)
{
    bytes none = {0};
    for (size_t size = PZ_TOKEN + 1; size < 2 * PZ_TOKEN; size++) {
        bytes list = {0};
        add_token(&list, 4, 1, 0, 0);
        while (list.size < size)
            add(&list, "00");
        write_refused("15: an incomplete last token", list, none, 100, PZ_NOT_WRITABLE, 1);
        release(&list);
    }
}

/* read back into tables that are as found afterwards */
static void unreadable(const char *what, const char *hex, uint32_t no, uint64_t place)
{
    bytes b = master(hex);
    read_refused(what, b, 100, 100, no, place);
    read_refused(what, b, 0, 0, no, place);
    release(&b);
}

static void wrong_bytes(void)
{
    bytes wrong = ascii("Interpress/Xerox/3.0_"), too_long = {0};

    add_fill(&too_long, 0, PZ_MASTER_MAX + 1);
    read_refused("10: a byte too long", too_long, 100, 100, PZ_TOO_LONG, 0);
    read_refused("1: another header", wrong, 100, 100, PZ_BAD_HEADER, 0);
    unreadable("2: a string cut off", "0F A1 C1 02 61", PZ_CUT_OFF, 23);
    unreadable("3: type 3", "0F A1 C3 00", PZ_TYPE_NOT_READ, 23);
    unreadable("4: denominator 0", "C4 02 01 00", PZ_BAD_DATA, 21);
    unreadable("5: continued after an operator", "A0 6A C7 00", PZ_NOTHING_CONTINUED, 23);
    release(&wrong);
    release(&too_long);
}

/* a string whose written form is as long as a master may be; one byte more is refused, whatever the room */
static void longest_list(void)
{
    enum { MOST = PZ_MASTER_MAX - 25 };
    bytes list = {0}, longer = {0}, text = {0}, more = {0}, written = master("");
    add_fill(&text, 'x', MOST);
    add_fill(&more, 'x', MOST + 1);
    add_string(&written, 'x', MOST);
    add_token(&list, 3, 0, MOST, 0);
    add_token(&longer, 3, 0, MOST + 1, 0);
    write_refused("16: longer than a master", longer, more, PZ_MASTER_MAX + 9, PZ_NO_ROOM, 0);
    writes("the longest list written", list, text, written, 9);
    reads_back("the longest list read back", written, list, text, 9);
    release(&list);
    release(&longer);
    release(&text);
    release(&more);
    release(&written);
}

void test_lists(void)
{
    every_kind();
    empty_list();
    other_forms();
    wrong_tokens();
    incomplete_token();
    wrong_bytes();
    longest_list();
}
