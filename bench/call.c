/* One call on a master: call load|run|reprint FILE. For bench/count; allowance and page as in bench/speed. */
#include "porthezvan.h"

#include <stdio.h>
#include <stdlib.h>
#include <string.h>

static uint8_t scratch[PZ_SCRATCH], rows[PZ_ROWS], sections[PZ_SECTIONS];

int main(int argc, char **argv)
{
    if (argc != 3)
        return 2;
    FILE *file = fopen(argv[2], "rb");
    uint8_t *master = malloc(PZ_MASTER_MAX + 1);
    if (!file || !master)
        return 2;
    size_t size = fread(master, 1, PZ_MASTER_MAX + 1, file);
    fclose(file);
    pz_answer answer = {0, 0};
    if (strcmp(argv[1], "load") == 0)
        answer = pz_load(master, size);
    else if (strcmp(argv[1], "run") == 0)
        answer = pz_run(master, size, PZ_STEPS_MAX, scratch, sizeof scratch, rows, sizeof rows);
    else
        answer = pz_reprint(master, size, PZ_STEPS_MAX, 400, scratch, sizeof scratch, rows, sizeof rows, sections, sizeof sections);
    free(master);
    return answer.no == PZ_DONE ? 0 : 1;
}
