/* What findavoreb.h has a caller see to, and what it says of the memory that is lent: the version, the mode of the arithmetic, null
 * pointers with a length of 0, how many rows are enough, memory that was never written.
 *
 * Its word says which part is tried. Without one it is all that an ordinary program can see. `fast` is for one that was linked with
 * -ffast-math: it shows what that does to an answer, and puts the mode right. `null`, `zeroed` and `unwritten` are for a memory checker to
 * watch: null pointers, and a call of each function with work memory that was zeroed, or never written. The last line counts what was
 * tried. */
#include <fenv.h>
#include <stdio.h>
#include <stdlib.h>
#include <string.h>

#include "findavoreb.h"

enum { ROWS = 1024, TEXT = 1 << 17 };

static uint64_t store[FINDAVOREB_MOST_ROWS][4], desk[FINDAVOREB_DESK_WORDS], table[FINDAVOREB_TABLE_WORDS];
static uint64_t answer[FINDAVOREB_ANSWER_WORDS], picked[FINDAVOREB_PICKED_WORDS];
static uint8_t out[FINDAVOREB_ORIGINS_OUT_BYTES], marks[FINDAVOREB_MARKS_BYTES];

#define ZERO "0000000000000000"
#define BYTES(text) (const uint8_t *)(text), strlen(text)
#define WORK store, FINDAVOREB_MOST_ROWS, desk, table
#define OUT out, sizeof out
#define MARKED answer, (memset(marks, 0xFF, sizeof marks), marks)

/* ---- what is counted and said */

static unsigned tried, wrong;

static void expect(const char *what, int is_so)
{
    tried++;
    if (!is_so) {
        printf("not so: %s\n", what);
        wrong++;
    }
}

/* The answer of the last call is this, and it was returned. */
static void expect_answer(const char *what, uint64_t returned, uint64_t number, uint64_t detail, uint64_t re)
{
    expect(what, returned == number && answer[0] == number && answer[1] == detail && answer[2] == re);
}

/* Each mark is written: 1 for the first so many rows, and 0 for all others. */
static int are_marked(const uint8_t *all, size_t count)
{
    size_t right = 0;
    for (size_t j = 0; j < FINDAVOREB_MARKS_BYTES; j++)
        right += all[j] == (j < count);
    return right == FINDAVOREB_MARKS_BYTES;
}

/* The same of the last call with marks, which used no row. */
static void expect_unmarked(const char *what, uint64_t returned, uint64_t number, uint64_t detail, uint64_t re)
{
    expect_answer(what, returned, number, detail, re);
    expect("all marks are 0", are_marked(marks, 0));
}

/* ---- the version */

static void version(void)
{
    char words[32];
    unsigned number = FINDAVOREB_VERSION_NUMBER;
    snprintf(words, sizeof words, "%u.%u.%u", number / 10000, number / 100 % 100, number % 100);
    expect("the archive has the header's version", findavoreb_version() == FINDAVOREB_VERSION_NUMBER);
    expect("the version's number and its words are one", strcmp(words, FINDAVOREB_VERSION) == 0);
    expect("the major number is the interface", number / 10000 == FINDAVOREB_INTERFACE);
}

/* ---- the mode of the arithmetic */

/* The smallest jobs that show it, and the bits of their values in the right mode: 2^-1074 + 2^-1074, and the square of 1 + 2^-52, of which
 * 2^-104 is rounded off. */
static const char LEAST[] = "n\t0000000000000001\t" ZERO "\nb\t+\t0\t0\n", SQUARE[] = "n\t3FF0000000000001\t" ZERO "\nb\t*\t0\t0\n";
static const uint64_t LEAST_BITS = 2, SQUARE_BITS = 0x3FF0000000000002;
static const uint32_t RIGHT = 0x1F80;

static uint64_t value_of(const char *listing)
{
    expect("the job has a value", findavoreb_evaluate(BYTES(listing), FINDAVOREB_NO_BYTES, 0, WORK, answer) == FINDAVOREB_DONE);
    return answer[2];
}

static void set_mode(uint32_t mode)
{
    __asm__ volatile("ldmxcsr %0" : : "m"(mode));
}

static void expect_right(void)
{
    expect("the mode is right", findavoreb_float_mode_is_right() == 1);
    expect("2^-1074 + 2^-1074 is 2^-1073", value_of(LEAST) == LEAST_BITS);
    expect("the square is rounded to nearest", value_of(SQUARE) == SQUARE_BITS);
}

static void rounded_up(void)
{
    fesetround(FE_UPWARD);
    expect("rounding up is seen", findavoreb_float_mode_is_right() == 0);
    expect("the square is rounded up", value_of(SQUARE) == SQUARE_BITS + 1);
    fesetround(FE_TONEAREST);
}

/* Each bit that matters is seen, and the flags, bits 0 to 5, are not. With an exception unmasked no call is made: it might trap. */
static void bits_of_the_mode(void)
{
    for (unsigned bit = 0; bit < 16; bit++) {
        set_mode(RIGHT ^ (uint32_t)1 << bit);
        int is_right = findavoreb_float_mode_is_right();
        set_mode(RIGHT);
        expect("a bit of the mode is seen, or is a flag", is_right == (bit < 6));
    }
    for (unsigned bit = 6; bit < 16; bit += 9) {
        set_mode(RIGHT | (uint32_t)1 << bit);
        uint64_t bits = value_of(LEAST);
        set_mode(RIGHT);
        expect("DAZ, or FTZ, makes the sum 0", bits == 0);
    }
}

static void modes(void)
{
    expect_right();
    rounded_up();
    expect_right();
    bits_of_the_mode();
    expect_right();
}

/* Before main the mode is another one, and the answer a wrong one, with no refusal. */
static void fast_math(void)
{
    expect("-ffast-math is seen", findavoreb_float_mode_is_right() == 0);
    expect("2^-1074 + 2^-1074 is 0 with -ffast-math", value_of(LEAST) == 0);
    set_mode(RIGHT);
    expect_right();
}

/* ---- null pointers with a length of 0: not promised, but nothing is read or written through them */

static const char PI[] = "p\n", VARIABLE[] = "v\t0\n";
static const uint64_t PI_BITS = 0x400921FB54442D18, ONE_BITS = 0x3FF0000000000000;
static const uint8_t PI_TAPE[24] = {2};

#define NO_TEXT NULL, 0
#define NO_STORE NULL, 0, desk, table
#define NO_OUT NULL, 0

static void no_texts(void)
{
    expect_answer("evaluate nothing", findavoreb_evaluate(NO_TEXT, NO_TEXT, NO_STORE, answer), FINDAVOREB_BAD_LIST, 0, 0);
    expect_answer("substitute nothing", findavoreb_substitute(NO_TEXT, NO_STORE, NO_OUT, answer), FINDAVOREB_BAD_LIST, 0, 0);
    expect_answer("to_real of nothing", findavoreb_to_real(NO_TEXT, NO_STORE, answer), FINDAVOREB_BAD_LIST, 0, 0);
    expect_answer("simplify nothing", findavoreb_simplify(NO_TEXT, NO_TEXT, 10, NO_STORE, NO_OUT, answer), FINDAVOREB_BAD_LIST, 0, 0);
    expect_answer("compile nothing", findavoreb_compile(NO_TEXT, NO_STORE, NO_OUT, answer), FINDAVOREB_BAD_LIST, 0, 0);
    expect_answer("play nothing", findavoreb_play(NO_TEXT, NO_TEXT, table, answer), FINDAVOREB_BAD_TAPE, 0, 0);
    expect_answer("check nothing", findavoreb_check(NO_TEXT, answer), FINDAVOREB_BAD_TAPE, 0, 0);
    expect_unmarked("evaluate nothing", findavoreb_evaluate_marked(NO_TEXT, NO_TEXT, NO_STORE, MARKED), FINDAVOREB_BAD_LIST, 0, 0);
    expect_unmarked(
        "simplify nothing", findavoreb_simplify_marked(NO_TEXT, NO_TEXT, 10, NO_STORE, NO_OUT, MARKED), FINDAVOREB_BAD_LIST, 0, 0);
    expect_answer("substitute nothing, with origins", findavoreb_substitute_origins(NO_TEXT, NO_STORE, NO_OUT, answer), FINDAVOREB_BAD_LIST, 0, 0);
    expect_unmarked("simplify nothing, with origins", findavoreb_simplify_origins(NO_TEXT, NO_TEXT, 10, NO_STORE, NO_OUT, MARKED),
                    FINDAVOREB_BAD_LIST, 0, 0);
    expect_unmarked("play nothing", findavoreb_play_marked(NO_TEXT, NO_TEXT, table, MARKED), FINDAVOREB_BAD_TAPE, 0, 0);
    expect("pick of nothing", findavoreb_pick(NO_TEXT, NO_TEXT, picked) == 0);
    expect("pick beside nothing", findavoreb_pick(PI_TAPE, 24, NO_TEXT, picked) == 1 && picked[1] == 24);
    expect("pick after nothing", findavoreb_pick(NO_TEXT, PI_TAPE, 24, picked) == 2 && picked[1] == 24);
}

static void no_sheets(void)
{
    expect_answer("evaluate without a sheet", findavoreb_evaluate(BYTES(PI), NO_TEXT, WORK, answer), 0, 0, PI_BITS);
    expect_answer("lack without a sheet", findavoreb_evaluate(BYTES(VARIABLE), NO_TEXT, WORK, answer), FINDAVOREB_INCOMPLETE, 0, 0);
    expect_answer("simplify without a sheet", findavoreb_simplify(BYTES(VARIABLE), NO_TEXT, 10, WORK, OUT, answer), 0, 4, 1);
    expect_answer("play without a sheet", findavoreb_play(PI_TAPE, 24, NO_TEXT, table, answer), 0, 0, PI_BITS);
    expect_unmarked("evaluate without a sheet", findavoreb_evaluate_marked(BYTES(PI), NO_TEXT, WORK, MARKED), 0, 0, PI_BITS);
    expect_unmarked("simplify without a sheet", findavoreb_simplify_marked(BYTES(VARIABLE), NO_TEXT, 10, WORK, OUT, MARKED), 0, 4, 1);
    expect_unmarked(
        "simplify without a sheet, with origins", findavoreb_simplify_origins(BYTES(VARIABLE), NO_TEXT, 10, WORK, OUT, MARKED), 0, 7, 1);
    expect_unmarked("play without a sheet", findavoreb_play_marked(PI_TAPE, 24, NO_TEXT, table, MARKED), 0, 0, PI_BITS);
}

static void no_rows(void)
{
    expect_answer("evaluate without rows", findavoreb_evaluate(BYTES(PI), NO_TEXT, NO_STORE, answer), FINDAVOREB_ROOM, 0, 0);
    expect_answer("substitute without rows", findavoreb_substitute(BYTES(PI), NO_STORE, OUT, answer), FINDAVOREB_ROOM, 0, 0);
    expect_answer("to_real without rows", findavoreb_to_real(BYTES(PI), NO_STORE, answer), FINDAVOREB_ROOM, 0, 0);
    expect_answer("simplify without rows", findavoreb_simplify(BYTES(PI), NO_TEXT, 10, NO_STORE, OUT, answer), FINDAVOREB_ROOM, 0, 0);
    expect_answer("compile without rows", findavoreb_compile(BYTES(PI), NO_STORE, OUT, answer), FINDAVOREB_ROOM, 0, 0);
    expect_unmarked("evaluate without rows", findavoreb_evaluate_marked(BYTES(PI), NO_TEXT, NO_STORE, MARKED), FINDAVOREB_ROOM, 0, 0);
    expect_unmarked(
        "simplify without rows", findavoreb_simplify_marked(BYTES(PI), NO_TEXT, 10, NO_STORE, OUT, MARKED), FINDAVOREB_ROOM, 0, 0);
    expect_answer("substitute without rows, with origins", findavoreb_substitute_origins(BYTES(PI), NO_STORE, OUT, answer), FINDAVOREB_ROOM, 0, 0);
    expect_unmarked("simplify without rows, with origins", findavoreb_simplify_origins(BYTES(PI), NO_TEXT, 10, NO_STORE, OUT, MARKED),
                    FINDAVOREB_ROOM, 0, 0);
}

static void no_outputs(void)
{
    expect_answer("substitute without out", findavoreb_substitute(BYTES(PI), WORK, NO_OUT, answer), FINDAVOREB_OUT_ROOM, 0, 0);
    expect_answer("simplify without out", findavoreb_simplify(BYTES(PI), NO_TEXT, 10, WORK, NO_OUT, answer), FINDAVOREB_OUT_ROOM, 0, 0);
    expect_answer("compile without out", findavoreb_compile(BYTES(PI), WORK, NO_OUT, answer), FINDAVOREB_OUT_ROOM, 0, 0);
    expect_unmarked(
        "simplify without out", findavoreb_simplify_marked(BYTES(PI), NO_TEXT, 10, WORK, NO_OUT, MARKED), FINDAVOREB_OUT_ROOM, 0, 0);
    expect_answer("substitute without out, with origins", findavoreb_substitute_origins(BYTES(PI), WORK, NO_OUT, answer), FINDAVOREB_OUT_ROOM, 0, 0);
    expect_unmarked("simplify without out, with origins", findavoreb_simplify_origins(BYTES(PI), NO_TEXT, 10, WORK, NO_OUT, MARKED),
                    FINDAVOREB_OUT_ROOM, 0, 0);
}

/* ---- how many rows are enough */

static char text[TEXT];

/* So many numbers, all different. */
static void numbers(unsigned count)
{
    size_t length = 0;
    for (unsigned i = 1; i <= count; i++)
        length += (size_t)snprintf(text + length, TEXT - length, "n\t%016X\t" ZERO "\n", i);
}

/* The value is the last number, whose bits are the number of the lines. */
static void in_rows(unsigned lines, size_t rows, uint64_t number, uint64_t detail)
{
    uint64_t re = number == FINDAVOREB_DONE ? lines : 0, bytes = number == FINDAVOREB_DONE ? 24 : detail;
    numbers(lines);
    uint64_t returned = findavoreb_evaluate(BYTES(text), FINDAVOREB_NO_BYTES, 0, store, rows, desk, table, answer);
    expect_answer("evaluate in so many rows", returned, number, detail, re);
    returned = findavoreb_evaluate_marked(BYTES(text), FINDAVOREB_NO_BYTES, 0, store, rows, desk, table, MARKED);
    expect_unmarked("evaluate with marks in so many rows", returned, number, detail, re);
    returned = findavoreb_to_real(BYTES(text), store, rows, desk, table, answer);
    expect_answer("to_real in so many rows", returned, number, detail, re);
    returned = findavoreb_compile(BYTES(text), store, rows, desk, table, OUT, answer);
    expect_answer("compile in so many rows", returned, number, bytes, 0);
}

/* As many rows as lines are enough, and where all lines differ one less is not; 1024 are for each listing, and for one that is too long. */
static void rows(void)
{
    for (unsigned lines = 1; lines <= ROWS; lines = lines < 8 ? lines + 1 : lines * 2) {
        in_rows(lines, lines, FINDAVOREB_DONE, 0);
        in_rows(lines, lines - 1, FINDAVOREB_ROOM, 0);
    }
    in_rows(ROWS, FINDAVOREB_MOST_ROWS, FINDAVOREB_DONE, 0);
    in_rows(ROWS + 1, ROWS, FINDAVOREB_LONG_LIST, ROWS);
    in_rows(ROWS + 1, FINDAVOREB_MOST_ROWS, FINDAVOREB_LONG_LIST, ROWS);
}

/* ---- memory fresh from the C library */

static const char TWICE_LESS[] = "v\t0\nv\t1\nb\t-\t0\t1\nb\t-\t2\t1\n", SHIFT[] = "v\t0\nv\t1\nb\t-\t0\t1\ns\t0\t2\n",
                  BOUND[] = "v\t0\t4008000000000000\t" ZERO "\nv\t1\t3FF0000000000000\t" ZERO "\n",
                  SINE[] = "n\t3FF0000000000000\t" ZERO "\nf\tsin\t0\n",
                  CIS[] = "n\t3FF0000000000000\t" ZERO "\nf\tcis\t0\n",
                  COSINES[] = "t\tcos\t3FF0000000000000\t" ZERO "\t" ZERO "\t" ZERO "\t3FE14A280FB5068C\t" ZERO "\n";
static const uint8_t CIS_TAPE[48] = {1, 0, 0, 0, 0, 0, 0, 0, 0, 0, 0, 0, 0, 0, 0xF0, 0x3F, [24] = 5, [25] = 5};

struct memory {
    uint64_t (*store)[4], *desk, *table, *answer;
    uint8_t *out, *marks;
};

static void *fresh(int is_zeroed, size_t bytes)
{
    void *memory = is_zeroed ? calloc(bytes, 1) : malloc(bytes);
    if (memory == NULL)
        exit(EXIT_FAILURE);
    return memory;
}

/* Each call gets memory of its own, since a return leaves it zero; it is not given back, so that no other call gets it. */
static struct memory fresh_memory(int is_zeroed)
{
    struct memory m;
    m.store = fresh(is_zeroed, FINDAVOREB_MOST_ROWS * sizeof *m.store);
    m.desk = fresh(is_zeroed, FINDAVOREB_DESK_WORDS * sizeof *m.desk);
    m.table = fresh(is_zeroed, FINDAVOREB_TABLE_WORDS * sizeof *m.table);
    m.answer = fresh(is_zeroed, FINDAVOREB_ANSWER_WORDS * sizeof *m.answer);
    m.out = fresh(is_zeroed, FINDAVOREB_ORIGINS_OUT_BYTES);
    m.marks = fresh(is_zeroed, FINDAVOREB_MARKS_BYTES);
    return m;
}

#define WORK_OF(m) m.store, FINDAVOREB_MOST_ROWS, m.desk, m.table
#define OUT_OF(m) m.out, FINDAVOREB_ORIGINS_OUT_BYTES

static void evaluate_in(struct memory m)
{
    expect("evaluate", findavoreb_evaluate(BYTES(TWICE_LESS), BYTES(BOUND), WORK_OF(m), m.answer) == FINDAVOREB_DONE);
    expect("the value", m.answer[2] == ONE_BITS);
}

static void substitute_in(struct memory m)
{
    expect("substitute", findavoreb_substitute(BYTES(SHIFT), WORK_OF(m), OUT_OF(m), m.answer) == FINDAVOREB_DONE);
    expect("what it writes", m.answer[1] == strlen(TWICE_LESS) && memcmp(m.out, TWICE_LESS, strlen(TWICE_LESS)) == 0);
}

static void to_real_in(struct memory m)
{
    expect("to_real", findavoreb_to_real(BYTES(PI), WORK_OF(m), m.answer) == FINDAVOREB_DONE && m.answer[2] == PI_BITS);
}

static void simplify_in(struct memory m)
{
    expect("simplify", findavoreb_simplify(BYTES(TWICE_LESS), BYTES(""), 10, WORK_OF(m), OUT_OF(m), m.answer) == FINDAVOREB_DONE);
    expect("what it writes", m.answer[1] == strlen(VARIABLE) && memcmp(m.out, VARIABLE, strlen(VARIABLE)) == 0);
}

static void compile_in(struct memory m)
{
    expect("compile", findavoreb_compile(BYTES(PI), WORK_OF(m), OUT_OF(m), m.answer) == FINDAVOREB_DONE);
    expect("what it writes", m.answer[1] == sizeof PI_TAPE && memcmp(m.out, PI_TAPE, sizeof PI_TAPE) == 0);
}

static void play_in(struct memory m)
{
    expect("play", findavoreb_play(PI_TAPE, sizeof PI_TAPE, BYTES(BOUND), m.table, m.answer) == FINDAVOREB_DONE && m.answer[2] == PI_BITS);
}

static void need_in(struct memory m)
{
    expect("need", findavoreb_evaluate(BYTES(SINE), BYTES(COSINES), WORK_OF(m), m.answer) == FINDAVOREB_NEED);
}

/* cis finds cos, the first row, and lacks sin. */
static void marked_in(struct memory m, struct memory simplified, struct memory played)
{
    expect("need, with marks", findavoreb_evaluate_marked(BYTES(CIS), BYTES(COSINES), WORK_OF(m), m.answer, m.marks) == FINDAVOREB_NEED);
    expect("cos is marked", are_marked(m.marks, 1));
    m = simplified;
    expect("need to simplify, with marks",
           findavoreb_simplify_marked(BYTES(CIS), BYTES(COSINES), 10, WORK_OF(m), OUT_OF(m), m.answer, m.marks) == FINDAVOREB_NEED);
    expect("cos is marked", are_marked(m.marks, 1));
    m = played;
    expect("need to play, with marks",
           findavoreb_play_marked(CIS_TAPE, sizeof CIS_TAPE, BYTES(COSINES), m.table, m.answer, m.marks) == FINDAVOREB_NEED);
    expect("cos is marked", are_marked(m.marks, 1));
}

/* (a - b) - b as it is made of (a - b) by putting that in for a, and as it is made a by simplifying. */
static void traced_in(struct memory m, struct memory simplified)
{
    static const char MADE[] = "v\t0\t@0\nv\t1\t@1\nb\t-\t0\t1\t@2\nb\t-\t2\t1\t@-\n", LEFT[] = "v\t0\t@0\n";
    expect("substitute, with origins", findavoreb_substitute_origins(BYTES(SHIFT), WORK_OF(m), OUT_OF(m), m.answer) == FINDAVOREB_DONE);
    expect("what it writes", m.answer[1] == strlen(MADE) && memcmp(m.out, MADE, strlen(MADE)) == 0);
    m = simplified;
    expect("simplify, with origins",
           findavoreb_simplify_origins(BYTES(TWICE_LESS), BYTES(""), 10, WORK_OF(m), OUT_OF(m), m.answer, m.marks) == FINDAVOREB_DONE);
    expect("what it writes", m.answer[1] == strlen(LEFT) && memcmp(m.out, LEFT, strlen(LEFT)) == 0);
    expect("no row is marked", are_marked(m.marks, 0));
}

static void in_fresh_memory(int is_zeroed)
{
    evaluate_in(fresh_memory(is_zeroed));
    need_in(fresh_memory(is_zeroed));
    substitute_in(fresh_memory(is_zeroed));
    to_real_in(fresh_memory(is_zeroed));
    simplify_in(fresh_memory(is_zeroed));
    compile_in(fresh_memory(is_zeroed));
    play_in(fresh_memory(is_zeroed));
    marked_in(fresh_memory(is_zeroed), fresh_memory(is_zeroed), fresh_memory(is_zeroed));
    traced_in(fresh_memory(is_zeroed), fresh_memory(is_zeroed));
}

static void zeroed(void)
{
    in_fresh_memory(1);
}

static void unwritten(void)
{
    in_fresh_memory(0);
}

/* ---- the parts */

static void null_pointers(void)
{
    no_texts();
    no_sheets();
    no_rows();
    no_outputs();
}

static void ordinary(void)
{
    version();
    modes();
    null_pointers();
    rows();
    zeroed();
    unwritten();
}

static const struct part {
    const char *word;
    void (*try_it)(void);
} PARTS[] = {{"ordinary", ordinary}, {"fast", fast_math}, {"null", null_pointers}, {"zeroed", zeroed}, {"unwritten", unwritten}};

int main(int count, char **words)
{
    const char *word = count > 1 ? words[1] : "ordinary";
    for (size_t i = 0; i < sizeof PARTS / sizeof PARTS[0]; i++)
        if (strcmp(word, PARTS[i].word) == 0)
            PARTS[i].try_it();
    printf("%s: %u tried, %u wrong\n", word, tried, wrong);
    return tried > 0 && wrong == 0 ? EXIT_SUCCESS : EXIT_FAILURE;
}
