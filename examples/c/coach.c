/* Writes a coach's algorithms out in plain notation, move by move; shows where a mistyped one goes wrong. */
#include "cubesim.h"
#include <stdio.h>
#include <string.h>

enum { SIZE = 4, ROOM = 64, LONGEST = 7 }; /* a token and the space after it have at most LONGEST bytes: `103Uw' ` at the largest size */

/* What is wrong with a line: 5 and the numbers from 12 on have a place, and get a mark under the byte to retype; 6 says that the moves are too many. */
static void point_at(const char *line, uint64_t answer) {
    unsigned number = cubesim_number(answer);
    if (number == 5 || number >= 12) printf("%s\n%*s^ refused %u\n", line, (int)cubesim_value(answer), "", number);
    else printf("%s\nrefused %u\n", line, number);
}

/* Reads a line and writes its moves without groups: 0, or 1 if what was read can't be written. */
static int write_out(const char *line) {
    uint16_t moves[ROOM];
    uint8_t text[ROOM * LONGEST];
    uint64_t answer = cubesim_parse_algorithm(SIZE, (const uint8_t *)line, strlen(line), moves, ROOM);
    if (cubesim_number(answer) != 0) {
        point_at(line, answer);
        return 0;
    }
    uint64_t written = cubesim_write_scramble(SIZE, moves, cubesim_value(answer), text, sizeof text);
    if (cubesim_number(written) != 0) return 1;
    printf("%s\n= %.*s (%llu moves)\n", line, (int)cubesim_value(written), (const char *)text, (unsigned long long)cubesim_value(answer));
    return 0;
}

int main(void) {
    static const char *const lines[] = {
        "[R U: (R' F)2] [F: [R, U]]",
        "(R U R' U')3 [3Rw: U2]",
        "[[R: U], D2] (F)",
        "[R, U) F",
        "[R, U, F]",
        "(R U 2R)2",
        "[Uw2: 4Fw]",
        "((R U)2 F",
        "(((((((((U)))))))))",
        "((R U)9)9",
    };
    int failed = cubesim_version() != CUBESIM_VERSION;
    if (failed) printf("the library is of another version than its header\n");
    for (size_t k = 0; k < sizeof lines / sizeof lines[0]; k++) failed |= write_out(lines[k]);
    return failed;
}
