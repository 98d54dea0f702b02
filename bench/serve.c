/* The five calls over pipes, for bench/compare. A request is eight numbers of 8 bytes, little endian: the call, the allowance, the page and
 * the lengths of five tables, and then the tables: two given, three lent. The reply is the answer's number and value, and the five tables as
 * they stand afterwards. Each table is an allocation of its own, and an empty one is NULL. Ends at the end of its input. */
#include "porthezvan.h"

#include <stdio.h>
#include <stdlib.h>

enum { LOAD, RUN, REPRINT, WRITE, READ_BACK };
enum { CALL, ALLOWANCE, PAGE, LENGTHS, TABLES = 5 };

static void must(int holds, const char *what) {
    if (!holds) {
        fprintf(stderr, "serve: %s\n", what);
        exit(1);
    }
}

static pz_answer perform(const uint64_t *ask, uint8_t **t) {
    const uint64_t *n = ask + LENGTHS;
    int64_t allowance = (int64_t)ask[ALLOWANCE];
    switch (ask[CALL]) {
    case LOAD:
        return pz_load(t[0], n[0]);
    case RUN:
        return pz_run(t[0], n[0], allowance, t[2], n[2], t[3], n[3]);
    case REPRINT:
        return pz_reprint(t[0], n[0], allowance, (int64_t)ask[PAGE], t[2], n[2], t[3], n[3], t[4], n[4]);
    case WRITE:
        return pz_write(t[0], n[0], t[1], n[1], t[2], n[2]);
    default:
        must(ask[CALL] == READ_BACK, "no such call");
        return pz_read_back(t[0], n[0], t[2], n[2], t[3], n[3]);
    }
}

int main(void) {
    uint64_t ask[LENGTHS + TABLES];
    while (fread(ask, sizeof ask, 1, stdin) == 1) {
        uint8_t *t[TABLES] = {NULL, NULL, NULL, NULL, NULL};
        for (int i = 0; i < TABLES; i++) {
            size_t n = ask[LENGTHS + i];
            if (n == 0) continue;
            t[i] = malloc(n);
            must(t[i] != NULL, "no memory");
            must(fread(t[i], 1, n, stdin) == n, "a request is cut off");
        }
        pz_answer answer = perform(ask, t);
        uint64_t reply[2] = {answer.no, answer.value};
        must(fwrite(reply, sizeof reply, 1, stdout) == 1, "no reply");
        for (int i = 0; i < TABLES; i++) {
            size_t n = ask[LENGTHS + i];
            must(fwrite(t[i], 1, n, stdout) == n, "no reply");
            free(t[i]);
        }
        must(fflush(stdout) == 0, "no reply");
    }
    return 0;
}
