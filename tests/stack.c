/* Measures how much stack each function of libcubesim.a uses. A call runs on a stack of its own, painted with one byte and closed page by
   page: the lowest byte that has changed, or that lies where a closed page was first touched, ends what was used. Bytes are counted from
   the caller's frame. The last line is 'N passed, M failed'; the exit status is not 0 where one failed. */
#define _GNU_SOURCE
#include "cubesim.h"
#include <signal.h>
#include <stdio.h>
#include <stdlib.h>
#include <string.h>
#include <sys/mman.h>
#include <ucontext.h>
#include <unistd.h>

enum { SPACE = 8 << 20, GUARD = 1 << 20, PAINT = 0xA5, SMALL_TABLE = 16 << 10, TABLE = 5 << 18, ALGORITHM = 16 << 10, OTHER = 256 << 10, SIZE = 104, STICKERS = 6 * SIZE * SIZE };

static unsigned char *stack;
static size_t page;
static unsigned char *volatile touched;
static unsigned char *volatile frame;
static ucontext_t here, there;
static uint64_t answer;
static unsigned passed, failed;

/* A closed page was touched: it is opened, and the place remembered. The lowest of the pages stay closed and end the program. */
static void open_page(int number, siginfo_t *info, void *context) {
    unsigned char *at = info->si_addr;
    (void)context;
    if (at < stack + GUARD || at >= stack + SPACE) {
        signal(number, SIG_DFL);
        return;
    }
    if (at < touched) touched = at;
    mprotect(stack + (size_t)(at - stack) / page * page, page, PROT_READ | PROT_WRITE);
}

static uint64_t (*function)(void);

static __attribute__((noinline)) void run(void) {
    frame = __builtin_frame_address(0);
    answer = function();
}

/* One call, its answer in `answer`: the bytes that it uses. */
static size_t used_by(uint64_t (*f)(void)) {
    mprotect(stack, SPACE, PROT_READ | PROT_WRITE);
    memset(stack, PAINT, SPACE);
    mprotect(stack, SPACE, PROT_NONE);
    touched = stack + SPACE;
    function = f;
    getcontext(&there);
    there.uc_stack.ss_sp = stack;
    there.uc_stack.ss_size = SPACE;
    there.uc_link = &here;
    mprotect(stack + SPACE - page, page, PROT_READ | PROT_WRITE); /* makecontext writes there */
    makecontext(&there, run, 0);
    swapcontext(&here, &there);
    mprotect(stack, SPACE, PROT_READ | PROT_WRITE);
    unsigned char *lowest = stack;
    while (*lowest == PAINT) lowest++;
    if (touched < lowest) lowest = touched;
    return (size_t)(frame - lowest);
}

static void judge(const char *name, int good) {
    if (good) passed++; else failed++;
    if (!good) printf("failed: %s\n", name);
}

/* The call uses no more than `most` bytes. */
static void measure(const char *name, uint64_t (*f)(void), uint64_t want, size_t most) {
    size_t used = used_by(f);
    printf("%8zu bytes, %8zu allowed: %s\n", used, most, name);
    if (answer != want) printf("%s: answered %llu, not %llu\n", name, (unsigned long long)answer, (unsigned long long)want);
    judge(name, answer == want && used <= most);
}

/* 65,536 bytes of stack, of which one is written: with another byte than the paint, and with the same. */
static __attribute__((noinline)) uint64_t written(void) { volatile uint8_t bytes[1 << 16]; bytes[0] = 1; return bytes[0]; }
static __attribute__((noinline)) uint64_t hidden(void) { volatile uint8_t bytes[1 << 16]; bytes[0] = PAINT; return bytes[0]; }

/* What the calls are lent. */
static uint8_t solved[STICKERS], cube[STICKERS], work[STICKERS], keep[STICKERS], text[1 << 16], starts[4998 * 294], space[21 * 6 * 49], out_text[1 << 16];
static uint16_t ids[STICKERS], id_work[STICKERS], all[954], codes[1 << 16], out[1 << 16], faces[18], sevens[72];
static const uint16_t halves[6] = {2, 22, 10, 18, 6, 14}, pair[2] = {1, 21};
static uint8_t *table;
static size_t room, text_len, starts_len;

static uint64_t halves_at(uint64_t depth) {
    cubesim_solved(3, solved, 54);
    return cubesim_pruning_table(3, solved, 54, halves, 6, depth, table, room);
}
static uint64_t table_1(void) { return halves_at(0); }
static uint64_t table_7(void) { return halves_at(1); }
static uint64_t table_34(void) { return halves_at(2); }
static uint64_t table_9089(void) { return halves_at(6); }
static uint64_t table_46741(void) { return cubesim_pruning_table(3, solved, 54, faces, 18, 4, table, room); }
static uint64_t table_short(void) { return cubesim_pruning_table(3, solved, 54, faces, 18, 4, table, 46740 * 55); }
static uint64_t table_of_7(void) { return cubesim_pruning_table(7, solved, 294, sevens, 72, 2, table, room); }
static uint64_t table_crowded(void) { return cubesim_pruning_table(1, starts, 6000, pair, 2, 20, table, room); }
static uint64_t table_chained_3(void) { return cubesim_pruning_table(3, starts, starts_len, pair, 2, 0, table, room); }
static uint64_t table_chained_7(void) { return cubesim_pruning_table(7, starts, starts_len, pair, 2, 0, table, room); }
static uint64_t search_3(void) { return cubesim_ida_star(3, cube, 54, table, 55, 0, pair, 2, 20, space, sizeof space, out, 20); }
static uint64_t search_7(void) { return cubesim_ida_star(7, cube, 294, table, 295, 0, pair, 2, 20, space, sizeof space, out, 20); }
static uint64_t moves(void) { return cubesim_apply_moves(SIZE, solved, STICKERS, work, STICKERS, all, 954); }
static uint64_t moves_to_ids(void) { return cubesim_apply_moves_to_ids(SIZE, ids, STICKERS, id_work, STICKERS, all, 954); }
static uint64_t parse(void) { return cubesim_parse_scramble(SIZE, text, text_len, codes, 1 << 16); }
static uint64_t parse_bad(void) { return cubesim_parse_scramble(SIZE, (const uint8_t *)"R U 200Uw", 9, codes, 1 << 16); }
static uint64_t algorithm(const char *s) { return cubesim_parse_algorithm(SIZE, (const uint8_t *)s, strlen(s), codes, 1 << 16); }
static uint64_t algorithm_plain(void) { return cubesim_parse_algorithm(SIZE, text, text_len, codes, 1 << 16); }
static uint64_t algorithm_repeats(void) { return algorithm("((((((((103Rw')9)9)9)9)2)2)2)"); }
static uint64_t algorithm_brackets(void) { return algorithm("[[[[[[[[103Rw', U2]: F], F]: F], F]: F], F]: F]"); }
static uint64_t algorithm_second_halves(void) { return algorithm("[F, [F: [F, [F: [F, [F: [F, [F: 103Rw' U2]]]]]]]]"); }
static uint64_t algorithm_empty(void) { return algorithm("(((((((()9)9)9)9)9)9)9)9"); }
static uint64_t algorithm_bad(void) { return algorithm("[[[[[[[(R 200Uw)9"); }
static uint64_t algorithm_ninth(void) { return algorithm("[[[[[[[(U)(("); }
static uint64_t algorithm_cut(void) { return algorithm("[[[[[[[(U)9, R"); }
static uint64_t algorithm_long(void) { return algorithm("((((((((U)9)9)9)9)9)9)9)9"); }
static uint64_t write_list(void) { return cubesim_write_scramble(SIZE, codes, 3000, out_text, sizeof out_text); }
static uint64_t simplify(void) { return cubesim_simplify_moves(SIZE, codes, 3000, out, 1 << 16); }
static uint64_t invert(void) { return cubesim_invert_moves(SIZE, codes, 3000, out, 1 << 16); }
static uint64_t every_move(void) { return cubesim_all_moves(SIZE, all, 954); }
static uint64_t solved_letters(void) { return cubesim_solved(SIZE, solved, STICKERS); }
static uint64_t solved_numbers(void) { return cubesim_solved_ids(SIZE, ids, STICKERS); }
static uint64_t is_solved(void) { return cubesim_is_solved(SIZE, solved, STICKERS); }
static uint64_t sticker(void) { return cubesim_sticker_index(SIZE, 'B', SIZE * SIZE); }
static uint64_t masked(void) { return cubesim_mask(SIZE, solved, STICKERS, ids, STICKERS, keep, STICKERS); }

static uint64_t value(uint64_t v) { return v << 8; }

/* Starting cubes of zeros but for one byte, each place with each of so many values: the i-th in rising order is put at i * step. */
static size_t chain(size_t stickers, size_t values, size_t step) {
    size_t count = stickers * values;
    starts_len = count * stickers;
    memset(starts, 0, starts_len);
    for (size_t i = 0; i < count; i++) starts[i * step % count * stickers + stickers - 1 - i / values] = (uint8_t)(1 + i % values);
    return count;
}

int main(void) {
    struct sigaction action = {.sa_sigaction = open_page, .sa_flags = SA_SIGINFO | SA_ONSTACK};
    stack_t signals = {.ss_sp = malloc(1 << 16), .ss_size = 1 << 16};
    page = (size_t)sysconf(_SC_PAGESIZE);
    stack = mmap(NULL, SPACE, PROT_READ | PROT_WRITE, MAP_PRIVATE | MAP_ANONYMOUS, -1, 0);
    room = (size_t)46741 * 55;
    table = malloc(room);
    if (stack == MAP_FAILED || !table || !signals.ss_sp || sigaltstack(&signals, NULL) || sigaction(SIGSEGV, &action, NULL)) return 2;

    size_t seen = used_by(written), guessed = used_by(hidden);
    judge("65,536 bytes are seen", seen >= 1 << 16 && seen < (1 << 16) + 256 && guessed >= 1 << 16 && guessed < (1 << 16) + 256);

    measure("cubesim_version", cubesim_version, CUBESIM_VERSION, OTHER);
    measure("cubesim_solved, n = 104", solved_letters, 0, OTHER);
    measure("cubesim_solved_ids, n = 104", solved_numbers, 0, OTHER);
    measure("cubesim_is_solved, n = 104", is_solved, value(1), OTHER);
    measure("cubesim_sticker_index, n = 104", sticker, value(STICKERS - 1), OTHER);
    measure("cubesim_mask, n = 104", masked, 0, OTHER);
    measure("cubesim_all_moves, n = 104", every_move, value(954), OTHER);
    measure("cubesim_apply_moves, n = 104, all 954 moves", moves, 0, OTHER);
    measure("cubesim_apply_moves_to_ids, n = 104, all 954 moves", moves_to_ids, 0, OTHER);
    while (text_len < 3000 * 7) text_len += (size_t)sprintf((char *)text + text_len, "%s", text_len / 7 % 3 ? "103Rw' " : "  U'   ");
    measure("cubesim_parse_scramble, 3,000 tokens", parse, value(3000), OTHER);
    measure("cubesim_parse_scramble, refused", parse_bad, value(4) + 5, OTHER);
    measure("cubesim_parse_algorithm, eight levels of repeats", algorithm_repeats, value(9 * 9 * 9 * 9 * 8), ALGORITHM);
    measure("cubesim_parse_algorithm, eight levels of brackets", algorithm_brackets, value(681), ALGORITHM);
    measure("cubesim_parse_algorithm, eight levels, the second half each", algorithm_second_halves, value(122), ALGORITHM);
    measure("cubesim_parse_algorithm, eight levels of nothing", algorithm_empty, 0, ALGORITHM);
    measure("cubesim_parse_algorithm, a token refused, eight deep", algorithm_bad, value(10) + 5, ALGORITHM);
    measure("cubesim_parse_algorithm, a ninth level", algorithm_ninth, value(11) + 17, ALGORITHM);
    measure("cubesim_parse_algorithm, signs missing", algorithm_cut, value(14) + 16, ALGORITHM);
    measure("cubesim_parse_algorithm, 43,046,721 moves, refused", algorithm_long, 6, ALGORITHM);
    measure("cubesim_parse_algorithm, 3,000 tokens without groups", algorithm_plain, value(3000), ALGORITHM);
    measure("cubesim_write_scramble, 3,000 moves", write_list, value(3000 / 3 * (2 + 6 + 6) + 2999), OTHER);
    measure("cubesim_simplify_moves, 3,000 moves", simplify, value(2000), OTHER);
    measure("cubesim_invert_moves, 3,000 moves", invert, value(3000), OTHER);

    /* U and D in turn, to the last of 20 moves: R is not undone by them */
    for (unsigned n = 3; n <= 7; n += 4) {
        static const uint16_t r = 13;
        size_t count = 6 * n * n;
        cubesim_solved(n, table, count);
        table[count] = 0;
        cubesim_solved(n, cube, count);
        cubesim_apply_moves(n, cube, count, work, count, &r, 1);
        if (n == 3) measure("cubesim_ida_star, n = 3, limit 20", search_3, 0, OTHER);
        else measure("cubesim_ida_star, n = 7, limit 20", search_7, 0, OTHER);
    }

    for (unsigned k = 0; k < 18; k++) faces[k] = (uint16_t)(k / 3 * 4 + 1 + k % 3);
    measure("cubesim_pruning_table, n = 3, 1 entry", table_1, value(1), SMALL_TABLE);
    measure("cubesim_pruning_table, n = 3, 7 entries", table_7, value(7), SMALL_TABLE);
    measure("cubesim_pruning_table, n = 3, 34 entries", table_34, value(34), SMALL_TABLE);
    measure("cubesim_pruning_table, n = 3, 9,089 entries", table_9089, value(9089), TABLE);
    measure("cubesim_pruning_table, n = 3, 46,741 entries", table_46741, value(46741), TABLE);
    measure("cubesim_pruning_table, n = 3, an entry too few for 46,741", table_short, 6, TABLE);
    cubesim_all_moves(7, sevens, 72);
    cubesim_solved(7, solved, 294);
    measure("cubesim_pruning_table, n = 7, 72 candidates, depth 2", table_of_7, value(2404), TABLE);
    /* 1,000 cubes that are alike in all but two bytes */
    for (unsigned i = 0; i < 1000; i++) {
        uint8_t one[6] = {1, 200, 201, 4, (uint8_t)(i / 256), (uint8_t)(i % 256)};
        memcpy(starts + 6 * i, one, 6);
    }
    measure("cubesim_pruning_table, n = 1, 1,000 starting cubes alike in four bytes", table_crowded, value(4000), TABLE);
    /* long common beginnings, in rising, falling and mixed order: what a sort finds hardest */
    static const char *const order[3] = {"rising", "falling", "mixed"};
    for (unsigned k = 0; k < 3; k++) {
        char name[100];
        size_t count = chain(54, 255, k == 0 ? 1 : k == 1 ? 54 * 255 - 1 : 7919);
        snprintf(name, sizeof name, "cubesim_pruning_table, n = 3, %zu starting cubes alike but for one byte, %s", count, order[k]);
        measure(name, table_chained_3, value(count), TABLE);
        count = chain(294, 17, k == 0 ? 1 : k == 1 ? 294 * 17 - 1 : 7919);
        snprintf(name, sizeof name, "cubesim_pruning_table, n = 7, %zu starting cubes alike but for one byte, %s", count, order[k]);
        measure(name, table_chained_7, value(count), TABLE);
    }
    printf("%u passed, %u failed\n", passed, failed);
    return failed != 0;
}
