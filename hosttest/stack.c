/*
 * How much stack each call takes: on a stack of its own that is painted before the call and looked at after it. The master nests as deep as
 * one may, and has the fraction that takes longest to reduce. docs/HOST.md says how much it may be.
 */
#define _XOPEN_SOURCE 700
#include "test.h"

#include <stdio.h>
#include <string.h>
#include <ucontext.h>

#define ROOM 65536
#define PAINT 0xA5
#define OPEN_BODIES 16 /* the page's own among them */

static uint8_t stack[ROOM];
static ucontext_t here, there;
static bytes deep;
static table scratch, rows, sections, list, text, out;

/* 1 IF {1 IF {.. 1134903170/1836311903 DUP ADD ..}} */
static bytes deepest(void)
{
    bytes m = master("A0 66 A0 6A A0 6B A0 6A");
    for (int i = 1; i < OPEN_BODIES; i++)
        add(&m, "0F A1 A0 EF A0 6A");
    add(&m, "C4 08 43 A5 3F 82 6D 73 E5 5F A0 B5 A0 C9");
    for (int i = 0; i < OPEN_BODIES; i++)
        add(&m, "A0 6B");
    add(&m, "A0 67");
    return m;
}

/* ---- the calls, each with what it must answer, so that none is short because it refuses */

static void nothing(void)
{
}

static void load(void)
{
    check_answer("load", pz_load(deep.at, deep.size), PZ_DONE, 1);
}

static void run(void)
{
    check_answer("run", pz_run(deep.at, deep.size, 1000, scratch.now, scratch.size, rows.now, rows.size), PZ_DONE, 1);
}

static void reprint(void)
{
    check_answer("reprint",
                 pz_reprint(deep.at, deep.size, 1000, 1, scratch.now, scratch.size, rows.now, rows.size, sections.now, sections.size),
                 PZ_DONE, 1);
}

static uint64_t count;

static void read_back(void)
{
    pz_answer a = pz_read_back(deep.at, deep.size, list.now, list.size, text.now, text.size);
    check("read back", "done", a.no == PZ_DONE);
    count = a.value;
}

static void write_list(void)
{
    pz_answer a = pz_write(list.now, PZ_TOKEN * count, text.now, text.size, out.now, out.size);
    check("write", "done", a.no == PZ_DONE);
}

/* ---- the stack */

static size_t taken_by(void (*call)(void))
{
    memset(stack, PAINT, ROOM);
    getcontext(&there);
    there.uc_stack.ss_sp = stack;
    there.uc_stack.ss_size = ROOM;
    there.uc_link = &here;
    makecontext(&there, call, 0);
    swapcontext(&here, &there);
    size_t i = 0;
    while (i < ROOM && stack[i] == PAINT)
        i++;
    return ROOM - i;
}

static void check_stack(const char *what, void (*call)(void), size_t most)
{
    size_t taken = taken_by(call) - taken_by(nothing);
    printf("%s: %zu bytes of stack\n", what, taken);
    check(what, "stack", taken <= most);
}

int main(void)
{
    deep = deepest();
    scratch = lend(PZ_SCRATCH);
    rows = lend(PZ_ROWS);
    sections = lend(PZ_SECTIONS);
    list = lend(PZ_TOKEN * 1000);
    text = lend(1000);
    out = lend(10000);
    check_stack("load", load, 13 * 1024);
    check_stack("run", run, 13 * 1024);
    check_stack("reprint", reprint, 13 * 1024);
    check_stack("read back", read_back, 1024);
    check_stack("write", write_list, 1024);
    return report();
}
