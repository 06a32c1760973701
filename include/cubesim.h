/* cubesim.h: the functions of libcubesim.a.

   Every function answers one number: the refusal in its low 8 bits, 0 for none, and above them a value: a count, an index or a place, 0
   where there is none. cubesim_number and cubesim_value take an answer apart.

   A slice is a pointer and the count of its elements. Pointers are not null and do not overlap, also where a count is 0. A refusal changes
   nothing that was lent, with one exception: cubesim_pruning_table's 6 zeroes its table.

   n is the size of the cube, 1 to 104 (tables and search: 1 to 7). A cube is 6n² bytes, its faces in the order U R F D L B, normally the
   letters U R F D L B and X; ids are 6n² numbers. A move is a code, width*64 + kind*4 + turn: kinds U 0, L 1, F 2, R 3, B 4, D 5, Uw 6,
   Lw 7, Fw 8, Rw 9, Bw 10, Dw 11, x 12, y 13, z 14; turn 1 is a quarter clockwise, 2 a half, 3 a quarter back; only kinds 6 to 11 have a
   width other than 0, and theirs is 1 to n.

   What each refusal means, and which is given where several apply, is the table "Refusals" of docs/RULES.md (RULES.md in the archive that
   ./dist makes). New numbers may come with a new version: treat one that you do not know as a refusal.

   The lines after "Example:" are C; tests/header compiles and runs them, each in a block of its own. */

#ifndef CUBESIM_H
#define CUBESIM_H

#include <stddef.h>
#include <stdint.h>

#ifdef __cplusplus
extern "C" {
#endif

/* The version of this header, as VERSION has it. CHANGELOG.md says what a change of it means. */
#define CUBESIM_VERSION_MAJOR 0
#define CUBESIM_VERSION_MINOR 4
#define CUBESIM_VERSION_PATCH 0
#define CUBESIM_VERSION (CUBESIM_VERSION_MAJOR * 65536 + CUBESIM_VERSION_MINOR * 256 + CUBESIM_VERSION_PATCH)

/* The version of the library that is linked, MAJOR*65536 + MINOR*256 + PATCH. Not an answer with a refusal: a plain number, and never refused.
   Example: assert(cubesim_version() == CUBESIM_VERSION); */
uint64_t cubesim_version(void);

/* The parts of an answer.
   Example: assert(cubesim_number(5 + 256 * 7) == 5 && cubesim_value(5 + 256 * 7) == 7);
   Example: for (uint64_t k = 0, most = UINT64_MAX / 256; k < 256; k++) assert(cubesim_number(k + 256 * most) == k && cubesim_value(k + 256 * most) == most); */
static inline uint8_t cubesim_number(uint64_t answer) { return (uint8_t)(answer & 255); }
static inline uint64_t cubesim_value(uint64_t answer) { return answer >> 8; }

/* The kind, width and turn of a code, and a code of these.
   Example: uint16_t dw = cubesim_code(10, 11, 1); assert(dw == 685 && cubesim_kind(dw) == 11 && cubesim_width(dw) == 10 && cubesim_turn(dw) == 1); */
static inline uint16_t cubesim_code(unsigned width, unsigned kind, unsigned turn) { return (uint16_t)(width * 64 + kind * 4 + turn); }
static inline unsigned cubesim_kind(uint16_t code) { return code / 4 % 16; }
static inline unsigned cubesim_width(uint16_t code) { return code / 64; }
static inline unsigned cubesim_turn(uint16_t code) { return code % 4; }

/* Writes the solved cube's letters. Refusals 1, 2.
   Example: uint8_t c[6]; assert(cubesim_solved(1, c, 6) == 0 && memcmp(c, "URFDLB", 6) == 0); */
uint64_t cubesim_solved(uint64_t n, uint8_t *cube, size_t cube_len);

/* Writes the solved cube's ids: 0, 1, 2 and so on. Refusals 1, 2.
   Example: uint16_t ids[6]; assert(cubesim_solved_ids(1, ids, 6) == 0 && ids[0] == 0 && ids[5] == 5); */
uint64_t cubesim_solved_ids(uint64_t n, uint16_t *ids, size_t ids_len);

/* Whether each face shows one byte: the value is 1 if so, else 0. Refusals 1, 2.
   Example: const uint8_t c[] = "URFDLB"; assert(cubesim_value(cubesim_is_solved(1, c, 6)) == 1 && cubesim_number(cubesim_is_solved(2, c, 6)) == 2); */
uint64_t cubesim_is_solved(uint64_t n, const uint8_t *cube, size_t cube_len);

/* The index, from 0, of sticker number `index`, from 1, of a face given by its letter. Refusals 1, 10.
   Example: assert(cubesim_value(cubesim_sticker_index(3, 'F', 1)) == 18 && cubesim_number(cubesim_sticker_index(3, 'F', 10)) == 10); */
uint64_t cubesim_sticker_index(uint64_t n, uint8_t face, uint64_t index);

/* Where the keep byte at a sticker's id is 0 its letter becomes X. Refusals 1, 2, 10.
   Example: uint8_t c[] = "URFDLB"; const uint16_t ids[] = {0, 1, 2, 3, 4, 5}; const uint8_t keep[] = {1, 0, 1, 1, 1, 1};
   Example: assert(cubesim_mask(1, c, 6, ids, 6, keep, 6) == 0 && memcmp(c, "UXFDLB", 6) == 0); */
uint64_t cubesim_mask(uint64_t n, uint8_t *cube, size_t cube_len, const uint16_t *ids, size_t ids_len, const uint8_t *keep, size_t keep_len);

/* Every move in order. The list is checked whole first; afterwards the work area, as long as the cube, is zero. Refusals 1, 2, 3, 5.
   Example: uint8_t c[] = "URFDLB", work[6]; const uint16_t u[] = {1};
   Example: assert(cubesim_apply_moves(1, c, 6, work, 6, u, 1) == 0 && memcmp(c, "UBRDFL", 6) == 0 && work[0] == 0); */
uint64_t cubesim_apply_moves(uint64_t n, uint8_t *cube, size_t cube_len, uint8_t *work, size_t work_len, const uint16_t *moves, size_t moves_len);

/* The same on ids.
   Example: uint16_t ids[] = {0, 1, 2, 3, 4, 5}, work[6]; const uint16_t u[] = {1};
   Example: assert(cubesim_apply_moves_to_ids(1, ids, 6, work, 6, u, 1) == 0 && ids[1] == 5 && ids[2] == 1); */
uint64_t cubesim_apply_moves_to_ids(uint64_t n, uint16_t *ids, size_t ids_len, uint16_t *work, size_t work_len, const uint16_t *moves, size_t moves_len);

/* All moves of a size: 18 + 18*(n/2) codes; the value is their count. Refusals 1, 6.
   Example: uint16_t all[36]; assert(cubesim_value(cubesim_all_moves(3, all, 36)) == 36 && cubesim_number(cubesim_all_moves(3, all, 35)) == 6); */
uint64_t cubesim_all_moves(uint64_t n, uint16_t *out, size_t out_len);

/* Reads a scramble by Article 12 of the WCA Regulations; the value is the count of moves. Refusals: 1; then the first bad token's, with the
   offset of the byte at fault as the value: 13 at its first digit, 12 where its letter should stand, 14 where it goes wrong behind the
   letter, 5 at its start; 12's and 14's byte may be the token's end. Only then 6.
   Example: uint16_t out[4];
   Example: assert(cubesim_value(cubesim_parse_scramble(4, (const uint8_t *)"R2 3Uw'", 7, out, 4)) == 2 && out[0] == 14 && out[1] == 219);
   Example: assert(cubesim_parse_scramble(3, (const uint8_t *)"R 2R", 4, out, 4) == 14 + 256 * 4); */
uint64_t cubesim_parse_scramble(uint64_t n, const uint8_t *text, size_t text_len, uint16_t *out, size_t out_len);

/* Reads an algorithm with groups, as coaches write it, and gives every move of it in order; the value is the count of moves. A sequence is any
   number of tokens, those of cubesim_parse_scramble, and of groups: (A) is A, with a digit 1 to 9 right after the `)` A so many times;
   [A, B] is A, B, A inverted, B inverted; [A: B] is A, B, A inverted. A and B are sequences and may be empty; groups stand at most 8 deep. The
   signs ( ) [ ] , : end a token, and spaces around them are free. Text without them answers as cubesim_parse_scramble. There may be more moves
   than bytes. Refusals: 1; then the first by place, at one place the lower number, with its offset as the value: a token's 13, 12, 14 and 5, as
   cubesim_parse_scramble has them; 16 at a sign that is out of place, or at the text's end if one is missing; 17 at the sign that opens a ninth
   level. Only then 6, if there are more moves than slots.
   examples/c/coach.c writes algorithms out in plain notation.
   Example: uint16_t out[6];
   Example: assert(cubesim_parse_algorithm(3, (const uint8_t *)"[R, U]", 6, out, 6) == 256 * 4 && out[0] == 13 && out[1] == 1 && out[2] == 15 && out[3] == 3);
   Example: assert(cubesim_parse_algorithm(3, (const uint8_t *)"[R: U2]", 7, out, 6) == 256 * 3 && out[0] == 13 && out[1] == 2 && out[2] == 15);
   Example: assert(cubesim_parse_algorithm(3, (const uint8_t *)"(R U)3", 6, out, 6) == 256 * 6 && out[4] == 13 && out[5] == 1);
   Example: assert(cubesim_parse_algorithm(3, (const uint8_t *)"(R U)4", 6, out, 6) == 6 && out[5] == 1);
   Example: assert(cubesim_parse_algorithm(3, (const uint8_t *)"[R, U)", 6, out, 6) == 16 + 256 * 5);
   Example: assert(cubesim_parse_algorithm(3, (const uint8_t *)"(R ", 3, out, 6) == 16 + 256 * 3);
   Example: assert(cubesim_parse_algorithm(3, (const uint8_t *)"(((((((((", 9, out, 6) == 17 + 256 * 8); */
uint64_t cubesim_parse_algorithm(uint64_t n, const uint8_t *text, size_t text_len, uint16_t *out, size_t out_len);

/* Writes a list as a scramble; the value is the count of bytes. A wide width is 2 to n-1. Refusals 1, 3, 5, 6.
   Example: const uint16_t list[] = {14, 219}; uint8_t text[8];
   Example: assert(cubesim_value(cubesim_write_scramble(4, list, 2, text, 8)) == 7 && memcmp(text, "R2 3Uw'", 7) == 0); */
uint64_t cubesim_write_scramble(uint64_t n, const uint16_t *moves, size_t moves_len, uint8_t *out, size_t out_len);

/* Joins neighbours of equal kind and width until none join; the value is the count. The output is as long as the list, or longer; it is
   zero from the count up to the list's length. Refusals 1, 3, 5, 6.
   Example: const uint16_t list[] = {13, 1, 3, 13}; uint16_t out[4];
   Example: assert(cubesim_value(cubesim_simplify_moves(3, list, 4, out, 4)) == 1 && out[0] == 14 && out[3] == 0); */
uint64_t cubesim_simplify_moves(uint64_t n, const uint16_t *moves, size_t moves_len, uint16_t *out, size_t out_len);

/* The list that undoes a list, of the same length, which is the value. Refusals 1, 3, 5, 6.
   Example: const uint16_t list[] = {13, 2}; uint16_t out[2];
   Example: assert(cubesim_value(cubesim_invert_moves(3, list, 2, out, 2)) == 2 && out[0] == 2 && out[1] == 15); */
uint64_t cubesim_invert_moves(uint64_t n, const uint16_t *moves, size_t moves_len, uint16_t *out, size_t out_len);

/* A pruning table: an entry of 6n² + 1 bytes, a cube and a number, for each state that at most `depth` candidates reach from a starting
   cube, with the least such count, in rising order of the cubes; the value is the count of entries, and what lies after them stays.
   Refusals 1, 2, 3, 5, 7, and last 6, after which the whole table is zero.
   Stack: 11 KiB for a table of some hundred entries, 1,028 KiB for a larger one (tests/stack).
   Example: uint8_t c[54], table[7 * 55]; const uint16_t halves[] = {2, 22, 10, 18, 6, 14}; cubesim_solved(3, c, 54);
   Example: assert(cubesim_value(cubesim_pruning_table(3, c, 54, halves, 6, 1, table, sizeof table)) == 7);
   Example: assert(cubesim_number(cubesim_pruning_table(3, c, 54, halves, 6, 1, table, sizeof table - 1)) == 6 && table[0] == 0); */
uint64_t cubesim_pruning_table(uint64_t n, const uint8_t *starts, size_t starts_len, const uint16_t *moves, size_t moves_len, uint64_t depth, uint8_t *table, size_t table_len);

/* The first list, by iterative deepening up to `limit` moves, that leads the cube to an entry with number 0, no two neighbours of the same
   kind and width. The value is 0 for none, and k + 1 for k moves, which then are the first of `out`. `out` has room for `limit` moves, the work area
   for (limit + 1)*6n² bytes, which are zero afterwards. Refusals 1, 2, 3, 5, 6, 7, 8, 9.
   examples/c/station.c builds a table and searches with it. A table of the goal alone, at depth 0; then, at size 6 after 3Uw' 2Uw',
   two widths of Uw as neighbours, 2Uw (153) and 3Uw (217), each in all turns:
   Example: uint8_t goal[55], c[54], work[108]; const uint16_t moves[] = {1}; uint16_t out[1];
   Example: cubesim_solved(3, goal, 54); goal[54] = 0; cubesim_solved(3, c, 54);
   Example: assert(cubesim_value(cubesim_ida_star(3, c, 54, goal, 55, 0, moves, 1, 1, work, 108, out, 1)) == 1);
   Example: const uint16_t back[] = {3}; cubesim_apply_moves(3, c, 54, work, 54, back, 1);
   Example: assert(cubesim_value(cubesim_ida_star(3, c, 54, goal, 55, 0, moves, 1, 1, work, 108, out, 1)) == 2 && out[0] == 1);
   Example: uint8_t six[217], s[216], room[648]; const uint16_t scramble[] = {219, 155}, widths[] = {153, 154, 155, 217, 218, 219}; uint16_t two[2];
   Example: cubesim_solved(6, six, 216); six[216] = 0; cubesim_solved(6, s, 216); cubesim_apply_moves(6, s, 216, room, 216, scramble, 2);
   Example: assert(cubesim_value(cubesim_ida_star(6, s, 216, six, 217, 0, widths, 6, 2, room, 648, two, 2)) == 3 && two[0] == 153 && two[1] == 217); */
uint64_t cubesim_ida_star(uint64_t n, const uint8_t *cube, size_t cube_len, const uint8_t *table, size_t table_len, uint64_t depth, const uint16_t *moves, size_t moves_len, uint64_t limit, uint8_t *work, size_t work_len, uint16_t *out, size_t out_len);

#ifdef __cplusplus
}
#endif

#endif
