/* Shows where a mistyped scramble goes wrong; reads a good one, turns a solved cube by it, and finds the turns that bring it home. */
#include "cubesim.h"
#include <stdio.h>
#include <stdlib.h>
#include <string.h>

/* The value of an answer, or the end of the program with the refusal's number. */
static uint64_t taken(const char *what, uint64_t answer) {
    if (cubesim_number(answer) != 0) {
        printf("%s: refused %u at %llu\n", what, cubesim_number(answer), (unsigned long long)cubesim_value(answer));
        exit(1);
    }
    return cubesim_value(answer);
}

/* A scramble that is refused for a token, with a mark under the byte to retype, as an operator would see it: 5, 12, 13 and 14 have a place. */
static void point_at(const char *scramble, uint64_t answer) {
    unsigned number = cubesim_number(answer);
    if (number == 5 || (number >= 12 && number <= 14)) printf("%s\n%*s^ refused %u\n", scramble, (int)cubesim_value(answer), "", number);
}

int main(void) {
    static const char slip[] = "U2 2D R2", scramble[] = "U2 D2 R2";
    static const uint16_t halves[] = {2, 22, 10, 18, 6, 14}; /* U2 D2 F2 B2 L2 R2 */
    enum { SIZE = 3, STICKERS = 6 * SIZE * SIZE, LIMIT = 4 };
    uint8_t cube[STICKERS], work[(LIMIT + 1) * STICKERS], table[64 * (STICKERS + 1)], text[64];
    uint16_t moves[16], home[LIMIT];

    if (cubesim_version() != CUBESIM_VERSION) {
        printf("the library is of another version than its header\n");
        return 1;
    }
    point_at(slip, cubesim_parse_scramble(SIZE, (const uint8_t *)slip, strlen(slip), moves, 16));
    uint64_t count = taken("parse", cubesim_parse_scramble(SIZE, (const uint8_t *)scramble, strlen(scramble), moves, 16));
    taken("solved", cubesim_solved(SIZE, cube, STICKERS));
    uint64_t entries = taken("table", cubesim_pruning_table(SIZE, cube, STICKERS, halves, 6, 2, table, sizeof table));
    taken("apply", cubesim_apply_moves(SIZE, cube, STICKERS, work, STICKERS, moves, count));
    printf("%s: %.*s\n", scramble, STICKERS, (const char *)cube);
    uint64_t found = taken("search", cubesim_ida_star(SIZE, cube, STICKERS, table, entries * (STICKERS + 1), 2, halves, 6, LIMIT, work, sizeof work, home, LIMIT));
    if (found == 0) {
        printf("no way home\n");
        return 1;
    }
    uint64_t bytes = taken("write", cubesim_write_scramble(SIZE, home, found - 1, text, sizeof text));
    printf("home by: %.*s\n", (int)bytes, (const char *)text);
    return 0;
}
