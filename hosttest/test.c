#include "test.h"

#include <inttypes.h>
#include <stdio.h>
#include <stdlib.h>
#include <string.h>

/* ---- checks */

static unsigned checks, failures;

void check(const char *what, const char *part, int holds)
{
    checks++;
    if (!holds) {
        failures++;
        printf("FAILED %s: %s\n", what, part);
    }
}

void check_answer(const char *what, pz_answer got, uint32_t no, uint64_t value)
{
    int same = got.no == no && got.value == value;
    check(what, "answer", same);
    if (!same)
        printf("  %" PRIu32 " at %" PRIu64 ", not %" PRIu32 " at %" PRIu64 "\n", got.no, got.value, no, value);
}

int report(void)
{
    printf("%u checks, %u failed\n", checks, failures);
    return failures ? EXIT_FAILURE : EXIT_SUCCESS;
}

/* ---- bytes */

static void *grown(void *old, size_t size)
{
    void *p = realloc(old, size);
    if (!p) {
        fputs("no memory\n", stderr);
        exit(EXIT_FAILURE);
    }
    return p;
}

void add_bytes(bytes *b, const void *more, size_t size)
{
    if (!size)
        return;
    b->at = grown(b->at, b->size + size);
    memcpy(b->at + b->size, more, size);
    b->size += size;
}

void add_fill(bytes *b, uint8_t byte, size_t size)
{
    if (!size)
        return;
    b->at = grown(b->at, b->size + size);
    memset(b->at + b->size, byte, size);
    b->size += size;
}

void add(bytes *b, const char *hex)
{
    for (char *end; *hex; hex = end + strspn(end, " ")) {
        uint8_t byte = (uint8_t)strtoul(hex, &end, 16);
        add_bytes(b, &byte, 1);
    }
}

void add_number(bytes *b, int n)
{
    uint8_t token[2] = {(uint8_t)((n + 4000) / 256), (uint8_t)((n + 4000) % 256)};
    add_bytes(b, token, 2);
}

void add_string(bytes *b, uint8_t element, size_t size)
{
    if (size < 256) {
        uint8_t token[2] = {0xC1, (uint8_t)size};
        add_bytes(b, token, 2);
    } else {
        uint8_t token[4] = {0xE1, (uint8_t)(size >> 16), (uint8_t)(size >> 8), (uint8_t)size};
        add_bytes(b, token, 4);
    }
    add_fill(b, element, size);
}

void release(bytes *b)
{
    free(b->at);
    *b = (bytes){0};
}

bytes ascii(const char *text)
{
    bytes b = {0};
    add_bytes(&b, text, strlen(text));
    return b;
}

bytes master(const char *hex)
{
    bytes b = ascii("Interpress/Xerox/3.0 ");
    add(&b, hex);
    return b;
}

/* ---- tables */

static uint8_t pattern(size_t i)
{
    return (uint8_t)(i * 37 + 129);
}

table lend(size_t size)
{
    table t = {.size = size};
    if (!size)
        return t;
    t.block = grown(NULL, size + 1);
    t.now = t.block + 1;
    t.want = grown(NULL, size);
    t.block[0] = pattern(size);
    for (size_t i = 0; i < size; i++)
        t.now[i] = t.want[i] = pattern(i);
    return t;
}

void want_zero(table *t, size_t size)
{
    memset(t->want, 0, size);
}

void want_bytes(table *t, size_t at, const void *bytes, size_t size)
{
    if (size)
        memcpy(t->want + at, bytes, size);
}

void want_words(table *t, size_t at, const int32_t *words, size_t count)
{
    for (size_t i = 0; i < count; i++) {
        uint32_t w = (uint32_t)words[i];
        for (size_t k = 0; k < 4; k++)
            t->want[at + 4 * i + k] = (uint8_t)(w >> 8 * k);
    }
}

void check_table(const char *what, const char *part, const table *t)
{
    size_t i = 0;
    while (i < t->size && t->now[i] == t->want[i])
        i++;
    int same = i == t->size && (!t->size || t->block[0] == pattern(t->size));
    check(what, part, same);
    if (!same)
        printf("  first at byte %zu of %zu\n", i, t->size);
}

void give_back(table *t)
{
    free(t->block);
    free(t->want);
    *t = (table){0};
}

/* ---- words */

void push(words *w, int32_t word)
{
    w->at[w->count++] = word;
}

void push_value(words *w, int32_t kind, int32_t a, int32_t b, int32_t c, int32_t d)
{
    push(w, kind);
    push(w, a);
    push(w, b);
    push(w, c);
    push(w, d);
}

void push_zeros(words *w, size_t count)
{
    while (count--)
        push_value(w, 1, 0, 1, 0, 0);
}
