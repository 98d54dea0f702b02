/*
 * book FILE [PAGE]: runs the master in FILE and prints a row for the preamble and for each page; then reprints PAGE and prints its row
 * and how many values its stack holds. docs/HOST.md says how to link it.
 */
#include "porthezvan.h"

#include <inttypes.h>
#include <stdio.h>
#include <stdlib.h>

#define ALLOWANCE 100000

static uint8_t master[PZ_MASTER_MAX + 1], scratch[PZ_SCRATCH], rows[PZ_ROWS], sections[PZ_SECTIONS];

/* word i of a table */
static int32_t word(const uint8_t *table, size_t i)
{
    const uint8_t *b = table + 4 * i;
    return (int32_t)(b[0] | (uint32_t)b[1] << 8 | (uint32_t)b[2] << 16 | (uint32_t)b[3] << 24);
}

static void print_row(uint64_t page)
{
    const uint8_t *row = rows + PZ_ROW * page;
    printf("page %" PRIu64 " outcome %c errors %" PRId32 " steps %" PRId32 " cells %" PRId32 "\n", page, "?FRB"[word(row, 0)],
           word(row, 1), word(row, 2), word(row, 3));
}

/* what a call answers; a refusal ends the program */
static uint64_t done(pz_answer a)
{
    if (a.no != PZ_DONE) {
        printf("refused %" PRIu32 " at %" PRIu64 "\n", a.no, a.value);
        exit(EXIT_FAILURE);
    }
    return a.value;
}

int main(int argc, char **argv)
{
    FILE *f = argc > 1 ? fopen(argv[1], "rb") : NULL;
    if (!f) {
        fprintf(stderr, "usage: %s FILE [PAGE]\n", argv[0]);
        return EXIT_FAILURE;
    }
    size_t size = fread(master, 1, sizeof master, f); /* a file that is too long is refused by number */
    fclose(f);

    uint64_t pages = done(pz_run(master, size, ALLOWANCE, scratch, sizeof scratch, rows, sizeof rows));
    for (uint64_t page = 0; page <= pages; page++)
        print_row(page);
    if (argc > 2) {
        int64_t page = strtoll(argv[2], NULL, 10);
        print_row(done(pz_reprint(master, size, ALLOWANCE, page, scratch, sizeof scratch, rows, sizeof rows, sections, sizeof sections)));
        printf("stack %" PRId32 "\n", word(sections, 0));
    }
    return EXIT_SUCCESS;
}
