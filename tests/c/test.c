/* Calls the functions of findavoreb.h with jobs whose answers are known from the rules, and compares every word of the answer, the
 * output and the work memory. Each call finds junk in all the memory that it is lent. The last line counts what was tried. */
#include <stdio.h>
#include <stdlib.h>
#include <string.h>

#include "findavoreb.h"

/* ---- the memory that is lent, with words after it that nothing may touch */

enum { GUARD = 8, ROWS = FINDAVOREB_MOST_ROWS + 904, TEXT = 1 << 17, PAPER = FINDAVOREB_ORIGINS_OUT_BYTES + 4096 };

static const uint64_t JUNK[4] = {0xDEADBEEF00010001, UINT64_MAX - 3, 0x0001000100010001, 1};
static const uint8_t BLANK = 0xA5, SPOT = 0xFF;

static uint64_t junk = 0xDEADBEEF00010001; /* what all words hold before a call; in a row each word has one more than the word before */

static uint64_t store[ROWS + GUARD][4];
static uint64_t desk[FINDAVOREB_DESK_WORDS + GUARD];
static uint64_t table[FINDAVOREB_TABLE_WORDS + GUARD];
static uint64_t answer[FINDAVOREB_ANSWER_WORDS + GUARD];
static uint64_t picked[FINDAVOREB_PICKED_WORDS + GUARD];
static uint8_t out[PAPER], marks[FINDAVOREB_MARKS_BYTES + GUARD];
static struct findavoreb_work work;

/* How much of the memory a call is lent. */
struct lent {
    size_t rows;
    size_t bytes;
};

static const struct lent ALL = {FINDAVOREB_MOST_ROWS, PAPER};

/* ---- what is counted and said */

static unsigned calls, wrong;

static void complain(const char *name, const char *what)
{
    printf("%s: %s\n", name, what);
    wrong++;
}

/* ---- filling and looking */

static void fill(uint64_t *words, size_t count, uint64_t word)
{
    for (size_t i = 0; i < count; i++)
        words[i] = word;
}

static int all_are(const uint64_t *words, size_t from, size_t to, uint64_t word)
{
    for (size_t i = from; i < to; i++)
        if (words[i] != word)
            return 0;
    return 1;
}

static int is_blank_from(size_t from)
{
    for (size_t i = from; i < PAPER; i++)
        if (out[i] != BLANK)
            return 0;
    return 1;
}

static void prepare(void)
{
    for (size_t i = 0; i < ROWS + GUARD; i++)
        for (uint64_t k = 0; k < 4; k++)
            store[i][k] = junk + k;
    fill(desk, FINDAVOREB_DESK_WORDS + GUARD, junk);
    fill(table, FINDAVOREB_TABLE_WORDS + GUARD, junk);
    fill(answer, FINDAVOREB_ANSWER_WORDS + GUARD, junk);
    fill(picked, FINDAVOREB_PICKED_WORDS + GUARD, junk);
    memset(out, BLANK, PAPER);
    memset(marks, SPOT, sizeof marks);
}

/* Rows that were lent are zero, and the others as they were. */
static void check_rows(const char *name, size_t lent)
{
    size_t changed = 0;
    for (size_t i = 0; i < lent; i++)
        if (!all_are(store[i], 0, 4, 0)) {
            complain(name, "a row is not zero");
            break;
        }
    for (size_t i = lent; i < ROWS + GUARD; i++)
        for (uint64_t k = 0; k < 4; k++)
            changed += store[i][k] != junk + k;
    if (changed != 0)
        complain(name, "a row that is not lent was changed");
}

/* The same of the desk and the table, each of which is lent whole or not at all. */
static void check_words(const char *name, const uint64_t *words, size_t count, int is_lent)
{
    if (!all_are(words, 0, count, is_lent ? 0 : junk))
        complain(name, is_lent ? "the desk or the table is not zero" : "the desk or the table was changed");
    if (!all_are(words, count, count + GUARD, junk))
        complain(name, "a word past the desk or the table was changed");
}

static void check_answer_end(const char *name)
{
    if (!all_are(answer, FINDAVOREB_ANSWER_WORDS, FINDAVOREB_ANSWER_WORDS + GUARD, junk))
        complain(name, "a word past the answer was changed");
}

/* Every lent row, the desk and the table are zero over their whole length, and what was not lent is as it was. */
static void check_memory(const char *name, struct lent lent)
{
    check_rows(name, lent.rows);
    check_words(name, desk, FINDAVOREB_DESK_WORDS, 1);
    check_words(name, table, FINDAVOREB_TABLE_WORDS, 1);
    check_answer_end(name);
}

/* After a function that is lent neither rows nor a desk nor an output, and the table or not even that. */
static void check_untouched(const char *name, int is_table_lent)
{
    check_rows(name, 0);
    check_words(name, desk, FINDAVOREB_DESK_WORDS, 0);
    check_words(name, table, FINDAVOREB_TABLE_WORDS, is_table_lent);
    if (!is_blank_from(0))
        complain(name, "the output was changed");
}

static void check_answer(const char *name, uint64_t returned, const uint64_t *want)
{
    calls++;
    if (returned != want[0])
        complain(name, "another number is returned");
    for (int i = 0; i < FINDAVOREB_ANSWER_WORDS; i++)
        if (answer[i] != want[i]) {
            printf("%s: answer[%d] is %016llX, not %016llX\n", name, i, (unsigned long long)answer[i], (unsigned long long)want[i]);
            wrong++;
        }
}

/* Whether an answer leaves rows marked. */
static int has_marks(uint64_t number)
{
    return number == FINDAVOREB_DONE || number == FINDAVOREB_NEED || number == FINDAVOREB_INCOMPLETE;
}

/* What is known of the marks where a job does not say which they are. */
static const char *const ANY = NULL;

/* `used` has a digit for each t row, 1 where it has to be marked; the rows behind it have no mark. */
static void check_marks(const char *name, const char *used)
{
    size_t count = used == ANY ? 0 : strlen(used);
    uint8_t most = used == ANY && has_marks(answer[0]);
    for (size_t j = 0; j < FINDAVOREB_MARKS_BYTES; j++) {
        uint8_t least = j < count && used[j] == '1';
        if (marks[j] < least || marks[j] > (least | most)) {
            printf("%s: marks[%d] is %d\n", name, (int)j, marks[j]);
            wrong++;
        }
    }
    for (size_t j = FINDAVOREB_MARKS_BYTES; j < sizeof marks; j++)
        if (marks[j] != SPOT) {
            complain(name, "a byte past the marks was changed");
            break;
        }
}

/* ---- one call each; a text ends where its string does. What can be asked with marks is asked with them too, and answers the same. What
 * writes a listing is asked with origins too, and writes the same but for these. */

static const uint8_t *bytes(const char *text)
{
    return (const uint8_t *)text;
}

static void check_evaluated(const char *name, struct lent lent, uint64_t returned, const uint64_t *want)
{
    check_answer(name, returned, want);
    check_memory(name, lent);
    if (!is_blank_from(0))
        complain(name, "the output was changed");
}

static void evaluate_marked_in(
    const char *name, struct lent lent, const char *listing, const char *sheet, const char *used, const uint64_t *want)
{
    prepare();
    uint64_t returned = findavoreb_evaluate_marked(
        bytes(listing), strlen(listing), bytes(sheet), strlen(sheet), store, lent.rows, desk, table, answer, marks);
    check_evaluated(name, lent, returned, want);
    check_marks(name, used);
}

static void evaluate_in(const char *name, struct lent lent, const char *listing, const char *sheet, const uint64_t *want)
{
    prepare();
    uint64_t returned = findavoreb_evaluate(
        bytes(listing), strlen(listing), bytes(sheet), strlen(sheet), store, lent.rows, desk, table, answer);
    check_evaluated(name, lent, returned, want);
    evaluate_marked_in(name, lent, listing, sheet, ANY, want);
}

/* What work memory has after a call, and at the beginning: the rows that it was given, and no word on the desk or in the table. */
static void check_work(const char *name, struct lent lent)
{
    if (work.store != store || work.rows != lent.rows)
        complain(name, "the work memory has other rows");
    if (!all_are(work.desk, 0, FINDAVOREB_DESK_WORDS, 0) || !all_are(work.table, 0, FINDAVOREB_TABLE_WORDS, 0))
        complain(name, "the desk or the table of the work memory is not zero");
}

/* With all work memory behind one pointer: as it begins, and then with junk. */
static void to_real_with(const char *name, struct lent lent, int is_clean, const char *listing, const uint64_t *want)
{
    prepare();
    fill(work.desk, FINDAVOREB_DESK_WORDS, junk);
    fill(work.table, FINDAVOREB_TABLE_WORDS, junk);
    findavoreb_init_work(&work, store, lent.rows);
    check_work(name, lent);
    check_rows(name, 0);
    if (!is_clean) {
        fill(work.desk, FINDAVOREB_DESK_WORDS, junk);
        fill(work.table, FINDAVOREB_TABLE_WORDS, junk);
    }
    uint64_t returned =
        findavoreb_to_real(bytes(listing), strlen(listing), work.store, work.rows, work.desk, work.table, answer);
    check_answer(name, returned, want);
    check_work(name, lent);
    check_rows(name, lent.rows);
    check_answer_end(name);
}

static void to_real_in(const char *name, struct lent lent, const char *listing, const uint64_t *want)
{
    prepare();
    uint64_t returned = findavoreb_to_real(bytes(listing), strlen(listing), store, lent.rows, desk, table, answer);
    check_answer(name, returned, want);
    check_memory(name, lent);
    if (!is_blank_from(0))
        complain(name, "the output was changed");
    to_real_with(name, lent, 0, listing, want);
    to_real_with(name, lent, 1, listing, want);
}

/* The output is what is written, and blank from there on; nothing is after a refusal. */
static void check_bytes(const char *name, const uint8_t *written, size_t count)
{
    if (memcmp(out, written, count) != 0)
        complain(name, "the output is another one");
    if (!is_blank_from(count))
        complain(name, "the output was changed past the result");
}

static void check_output(const char *name, const char *written)
{
    check_bytes(name, bytes(written), strlen(written));
}

/* How many bytes are written; no listing has the byte that out is filled with. */
static size_t written_length(void)
{
    size_t count = 0;
    while (count < PAPER && out[count] != BLANK)
        count++;
    return count;
}

/* The end of an origin that begins here: `@` and a number below 1024 without leading zeros, or `@-`; NULL where there is none. */
static const uint8_t *end_of_origin(const uint8_t *at)
{
    unsigned number = 0;
    const uint8_t *digits = at + 1;
    if (at[0] != '@')
        return NULL;
    if (digits[0] == '-')
        return digits + 1;
    for (at = digits; *at >= '0' && *at <= '9' && number < 1024; at++)
        number = 10 * number + (unsigned)(*at - '0');
    return at > digits && number < 1024 && (*digits != '0' || at == digits + 1) ? at : NULL;
}

/* The listing in out is this one with an origin at the end of each line. */
static void check_traced(const char *name, const char *written)
{
    const uint8_t *at = out;
    for (; *written != 0; written++) {
        if (*written == '\n') {
            at = *at == '\t' ? end_of_origin(at + 1) : NULL;
            if (at == NULL) {
                complain(name, "a line has no origin");
                return;
            }
        }
        if (*at++ != (uint8_t)*written) {
            complain(name, "without the origins the output is another one");
            return;
        }
    }
    if (at != out + written_length() || !is_blank_from(written_length()))
        complain(name, "the output was changed past the result");
}

/* What is answered with origins where this is without: the same, but for the number of the bytes that were written. */
static void check_answer_with_origins(const char *name, uint64_t returned, const uint64_t *want)
{
    uint64_t longer[FINDAVOREB_ANSWER_WORDS];
    memcpy(longer, want, sizeof longer);
    if (want[0] == FINDAVOREB_DONE)
        longer[1] = written_length();
    check_answer(name, returned, longer);
}

/* An output that is just long enough without origins is too short with them. */
static struct lent with_room(struct lent lent, const uint64_t *want)
{
    if (want[0] == FINDAVOREB_DONE)
        lent.bytes = PAPER;
    return lent;
}

static void substitute_origins_in(const char *name, struct lent lent, const char *listing, const char *written, const uint64_t *want)
{
    prepare();
    uint64_t returned = findavoreb_substitute_origins(
        bytes(listing), strlen(listing), store, lent.rows, desk, table, out, lent.bytes, answer);
    check_answer(name, returned, want);
    check_memory(name, lent);
    check_output(name, written);
}

static void substitute_in(const char *name, struct lent lent, const char *listing, const char *written, const uint64_t *want)
{
    prepare();
    uint64_t returned = findavoreb_substitute(
        bytes(listing), strlen(listing), store, lent.rows, desk, table, out, lent.bytes, answer);
    check_answer(name, returned, want);
    check_memory(name, lent);
    check_output(name, written);
    prepare();
    lent = with_room(lent, want);
    returned = findavoreb_substitute_origins(
        bytes(listing), strlen(listing), store, lent.rows, desk, table, out, lent.bytes, answer);
    check_answer_with_origins(name, returned, want);
    check_memory(name, lent);
    check_traced(name, written);
}

static void simplify_origins_in(
    const char *name, struct lent lent, const char *listing, const char *sheet, uint64_t limit, const char *written, const char *used,
    const uint64_t *want)
{
    prepare();
    uint64_t returned = findavoreb_simplify_origins(
        bytes(listing), strlen(listing), bytes(sheet), strlen(sheet), limit, store, lent.rows, desk, table, out, lent.bytes, answer, marks);
    check_answer(name, returned, want);
    check_memory(name, lent);
    check_output(name, written);
    check_marks(name, used);
}

static void simplify_marked_in(
    const char *name, struct lent lent, const char *listing, const char *sheet, uint64_t limit, const char *written, const char *used,
    const uint64_t *want)
{
    prepare();
    uint64_t returned = findavoreb_simplify_marked(
        bytes(listing), strlen(listing), bytes(sheet), strlen(sheet), limit, store, lent.rows, desk, table, out, lent.bytes, answer, marks);
    check_answer(name, returned, want);
    check_memory(name, lent);
    check_output(name, written);
    check_marks(name, used);
    prepare();
    lent = with_room(lent, want);
    returned = findavoreb_simplify_origins(
        bytes(listing), strlen(listing), bytes(sheet), strlen(sheet), limit, store, lent.rows, desk, table, out, lent.bytes, answer, marks);
    check_answer_with_origins(name, returned, want);
    check_memory(name, lent);
    check_traced(name, written);
    check_marks(name, used);
}

static void simplify_in(
    const char *name, struct lent lent, const char *listing, const char *sheet, uint64_t limit, const char *written, const uint64_t *want)
{
    prepare();
    uint64_t returned = findavoreb_simplify(
        bytes(listing), strlen(listing), bytes(sheet), strlen(sheet), limit, store, lent.rows, desk, table, out, lent.bytes, answer);
    check_answer(name, returned, want);
    check_memory(name, lent);
    check_output(name, written);
    simplify_marked_in(name, lent, listing, sheet, limit, written, ANY, want);
}

/* ---- tapes: steps in C's own form, and their bytes */

struct step {
    unsigned opcode, sub, half;
    uint32_t word;
    uint64_t re, im;
};

struct tape {
    size_t length;
    uint8_t bytes[FINDAVOREB_TAPE_BYTES + 48];
};

static uint8_t *little(uint8_t *to, uint64_t number, int count)
{
    for (int i = 0; i < count; i++)
        to[i] = (uint8_t)(number >> 8 * i);
    return to + count;
}

static void add_step(struct tape *tape, struct step step)
{
    uint8_t *to = tape->bytes + tape->length;
    to = little(little(to, step.opcode, 1), step.sub, 1);
    to = little(little(to, step.half, 2), step.word, 4);
    to = little(little(to, step.re, 8), step.im, 8);
    tape->length = (size_t)(to - tape->bytes);
}

static struct tape tape_of(const struct step *steps, size_t count)
{
    struct tape tape = {0, {0}};
    for (size_t i = 0; i < count; i++)
        add_step(&tape, steps[i]);
    return tape;
}

#define TAPE(...) tape_of((struct step[]){__VA_ARGS__}, sizeof((struct step[]){__VA_ARGS__}) / sizeof(struct step))

static const struct tape EMPTY = {0, {0}};

/* ---- one call each of the functions that know tapes */

static void compile_in(const char *name, struct lent lent, const char *listing, struct tape written, const uint64_t *want)
{
    prepare();
    uint64_t returned =
        findavoreb_compile(bytes(listing), strlen(listing), store, lent.rows, desk, table, out, lent.bytes, answer);
    check_answer(name, returned, want);
    check_memory(name, lent);
    check_bytes(name, written.bytes, written.length);
}

static void play_marked_all(const char *name, struct tape tape, const char *sheet, const char *used, const uint64_t *want)
{
    prepare();
    uint64_t returned = findavoreb_play_marked(tape.bytes, tape.length, bytes(sheet), strlen(sheet), table, answer, marks);
    check_answer(name, returned, want);
    check_untouched(name, 1);
    check_answer_end(name);
    check_marks(name, used);
}

static void play_all(const char *name, struct tape tape, const char *sheet, const uint64_t *want)
{
    prepare();
    uint64_t returned = findavoreb_play(tape.bytes, tape.length, bytes(sheet), strlen(sheet), table, answer);
    check_answer(name, returned, want);
    check_untouched(name, 1);
    check_answer_end(name);
    play_marked_all(name, tape, sheet, ANY, want);
}

static void check_all(const char *name, struct tape tape, const uint64_t *want)
{
    prepare();
    uint64_t returned = findavoreb_check(tape.bytes, tape.length, answer);
    check_answer(name, returned, want);
    check_untouched(name, 0);
    check_answer_end(name);
}

static void pick(const char *name, struct tape first, struct tape second, uint64_t which, size_t length_of_it)
{
    prepare();
    uint64_t returned = findavoreb_pick(first.bytes, first.length, second.bytes, second.length, picked);
    calls++;
    if (returned != which || picked[0] != which || picked[1] != length_of_it)
        complain(name, "another one is picked");
    check_untouched(name, 0);
    if (!all_are(picked, FINDAVOREB_PICKED_WORDS, FINDAVOREB_PICKED_WORDS + GUARD, junk))
        complain(name, "a word past what is picked was changed");
}

/* ---- the same with all the memory, and what is wanted in a few words */

static void value(const char *name, const char *listing, const char *sheet, uint64_t re, uint64_t im)
{
    evaluate_in(name, ALL, listing, sheet, (uint64_t[]){0, 0, re, im, 0, 0});
}

static void no_value(const char *name, const char *listing, const char *sheet, uint64_t refusal, uint64_t place)
{
    evaluate_in(name, ALL, listing, sheet, (uint64_t[]){refusal, place, 0, 0, 0, 0});
}

static void need(const char *name, const char *listing, const char *sheet, uint64_t operation, const uint64_t *operands)
{
    evaluate_in(
        name, ALL, listing, sheet,
        (uint64_t[]){FINDAVOREB_NEED, operation, operands[0], operands[1], operands[2], operands[3]});
}

static void result(const char *name, const char *listing, const char *written)
{
    substitute_in(name, ALL, listing, written, (uint64_t[]){0, strlen(written), 0, 0, 0, 0});
}

static void no_result(const char *name, const char *listing, uint64_t refusal, uint64_t place)
{
    substitute_in(name, ALL, listing, "", (uint64_t[]){refusal, place, 0, 0, 0, 0});
}

static void real(const char *name, const char *listing, uint64_t bits)
{
    to_real_in(name, ALL, listing, (uint64_t[]){0, 0, bits, 0, 0, 0});
}

static void no_real(const char *name, const char *listing, uint64_t refusal, uint64_t place)
{
    to_real_in(name, ALL, listing, (uint64_t[]){refusal, place, 0, 0, 0, 0});
}

static void simpler(
    const char *name, const char *listing, const char *sheet, uint64_t limit, const char *written, uint64_t simplify_calls)
{
    simplify_in(name, ALL, listing, sheet, limit, written, (uint64_t[]){0, strlen(written), simplify_calls, 0, 0, 0});
}

static void not_simpler(
    const char *name, const char *listing, const char *sheet, uint64_t limit, uint64_t refusal, uint64_t place)
{
    simplify_in(name, ALL, listing, sheet, limit, "", (uint64_t[]){refusal, place, 0, 0, 0, 0});
}

static void need_to_simplify(const char *name, const char *listing, const char *sheet, uint64_t operation, const uint64_t *operands)
{
    simplify_in(
        name, ALL, listing, sheet, 10, "",
        (uint64_t[]){FINDAVOREB_NEED, operation, operands[0], operands[1], operands[2], operands[3]});
}

static void compiled(const char *name, const char *listing, struct tape written)
{
    compile_in(name, ALL, listing, written, (uint64_t[]){0, written.length, 0, 0, 0, 0});
}

static void not_compiled(const char *name, const char *listing, uint64_t refusal, uint64_t place)
{
    compile_in(name, ALL, listing, EMPTY, (uint64_t[]){refusal, place, 0, 0, 0, 0});
}

static void played(const char *name, struct tape tape, const char *sheet, uint64_t re, uint64_t im)
{
    play_all(name, tape, sheet, (uint64_t[]){0, 0, re, im, 0, 0});
}

static void not_played(const char *name, struct tape tape, const char *sheet, uint64_t refusal, uint64_t place)
{
    play_all(name, tape, sheet, (uint64_t[]){refusal, place, 0, 0, 0, 0});
}

static void need_to_play(const char *name, struct tape tape, const char *sheet, uint64_t operation, const uint64_t *operands)
{
    play_all(
        name, tape, sheet, (uint64_t[]){FINDAVOREB_NEED, operation, operands[0], operands[1], operands[2], operands[3]});
}

static void sound(const char *name, struct tape tape)
{
    check_all(name, tape, (uint64_t[]){0, tape.length / 24, 0, 0, 0, 0});
}

/* A bad tape is refused by the check and by the player alike. */
static void unsound(const char *name, struct tape tape, uint64_t step)
{
    const uint64_t want[] = {FINDAVOREB_BAD_TAPE, step, 0, 0, 0, 0};
    check_all(name, tape, want);
    play_all(name, tape, "q", want);
}

static struct tape tape_of_listing(const char *listing)
{
    struct tape tape;
    prepare();
    findavoreb_compile(
        bytes(listing), strlen(listing), store, FINDAVOREB_MOST_ROWS, desk, table, tape.bytes, FINDAVOREB_TAPE_BYTES, answer);
    tape.length = answer[0] == 0 ? (size_t)answer[1] : 0;
    calls++;
    return tape;
}

/* The listing is compiled, and its tape gives the six words that evaluating gives. */
static void same_played(const char *name, const char *listing, const char *sheet)
{
    uint64_t want[FINDAVOREB_ANSWER_WORDS];
    prepare();
    findavoreb_evaluate(
        bytes(listing), strlen(listing), bytes(sheet), strlen(sheet), store, FINDAVOREB_MOST_ROWS, desk, table, answer);
    calls++;
    memcpy(want, answer, sizeof want);
    struct tape tape = tape_of_listing(listing);
    sound(name, tape);
    play_all(name, tape, sheet, want);
}

/* Evaluating marks these rows, and so does playing the tape, if the expression has one. */
static void marked(const char *name, const char *listing, const char *sheet, const char *used, const uint64_t *want)
{
    evaluate_marked_in(name, ALL, listing, sheet, used, want);
    struct tape tape = tape_of_listing(listing);
    if (tape.length > 0)
        play_marked_all(name, tape, sheet, used, want);
}

/* The same where it has a value, of imaginary part 0. */
static void marked_value(const char *name, const char *listing, const char *sheet, const char *used, uint64_t re)
{
    marked(name, listing, sheet, used, (uint64_t[]){0, 0, re, 0, 0, 0});
}

static void marked_need(
    const char *name, const char *listing, const char *sheet, const char *used, uint64_t operation, const uint64_t *operands)
{
    marked(name, listing, sheet, used,
           (uint64_t[]){FINDAVOREB_NEED, operation, operands[0], operands[1], operands[2], operands[3]});
}

static void marked_refusal(
    const char *name, const char *listing, const char *sheet, const char *used, uint64_t refusal, uint64_t place)
{
    marked(name, listing, sheet, used, (uint64_t[]){refusal, place, 0, 0, 0, 0});
}

static void marked_simpler(
    const char *name, const char *listing, const char *sheet, uint64_t limit, const char *written, const char *used, uint64_t simplify_calls)
{
    simplify_marked_in(
        name, ALL, listing, sheet, limit, written, used, (uint64_t[]){0, strlen(written), simplify_calls, 0, 0, 0});
}

/* With just enough memory for the bytes with origins, and then with a byte less. */
static void result_from(const char *name, const char *listing, const char *written)
{
    struct lent lent = {FINDAVOREB_MOST_ROWS, strlen(written)};
    substitute_origins_in(name, ALL, listing, written, (uint64_t[]){0, lent.bytes, 0, 0, 0, 0});
    substitute_origins_in(name, lent, listing, written, (uint64_t[]){0, lent.bytes, 0, 0, 0, 0});
    lent.bytes--;
    substitute_origins_in(name, lent, listing, "", (uint64_t[]){FINDAVOREB_OUT_ROOM, 0, 0, 0, 0, 0});
}

static void simpler_from(
    const char *name, const char *listing, const char *sheet, uint64_t limit, const char *written, const char *used, uint64_t simplify_calls)
{
    struct lent lent = {FINDAVOREB_MOST_ROWS, strlen(written)};
    const uint64_t want[] = {0, lent.bytes, simplify_calls, 0, 0, 0};
    simplify_origins_in(name, ALL, listing, sheet, limit, written, used, want);
    simplify_origins_in(name, lent, listing, sheet, limit, written, used, want);
    lent.bytes--;
    simplify_origins_in(name, lent, listing, sheet, limit, "", "", (uint64_t[]){FINDAVOREB_OUT_ROOM, 0, 0, 0, 0, 0});
}

/* ---- pieces of texts: doubles by their bits */

#define ZERO "0000000000000000"
#define HALF "3FE0000000000000"
#define ONE "3FF0000000000000"
#define TWO "4000000000000000"
#define THREE "4008000000000000"
#define A_NAN "FFF0000000000001"
#define NUMBER(re, im) "n\t" re "\t" im "\n"
#define INFIX(op, left, right) "b\t" op "\t" left "\t" right "\n"
#define BOUND(variable, re) "v\t" variable "\t" re "\t" ZERO "\n"
#define ROW(name, x, y, re, im) "t\t" name "\t" x "\t" ZERO "\t" y "\t" ZERO "\t" re "\t" im "\n"

/* (theta - phi) / 2, where theta is variable 0 and phi variable 1 */
#define HALF_DIFFERENCE "v\t0\nv\t1\n" INFIX("-", "0", "1") NUMBER(TWO, ZERO) INFIX("/", "2", "3")

/* the same with a node theta + 0.5, which is put in for theta, and what comes of it */
#define SHIFT "v\t0\nv\t1\n" INFIX("-", "0", "1") NUMBER(TWO, ZERO) NUMBER(HALF, ZERO) INFIX("+", "0", "4") INFIX("/", "2", "3") "s\t0\t5\n"
#define SHIFTED "v\t0\n" NUMBER(HALF, ZERO) INFIX("+", "0", "1") "v\t1\n" INFIX("-", "2", "3") NUMBER(TWO, ZERO) INFIX("/", "4", "5")

/* (a - b) - b, which the rules make a of by 11 calls: the root, a-b with its two leaves, b, then b-b and a+0 with theirs. It has 4 nodes,
 * and b-b, 0 and a+0 are stored on the way. */
#define TWICE_LESS "v\t0\nv\t1\n" INFIX("-", "0", "1") INFIX("-", "2", "1")

#define COS_OF_HALF ROW("cos", HALF, ZERO, "3FEC1528065B7D50", "8000000000000000")
#define SIN_OF_HALF ROW("sin", HALF, ZERO, "3FDEAEE8744B05F0", ZERO)

/* rows with values that are easy to tell, and what asks for them */
#define ONE_FOR_SIN ROW("sin", HALF, ZERO, ONE, ZERO)
#define ONE_FOR_EXP ROW("exp", HALF, ZERO, ONE, ZERO)
#define SINE NUMBER(HALF, ZERO) "f\tsin\t0\n"
#define CIS NUMBER(HALF, ZERO) "f\tcis\t0\n"
#define POWER(x, y) NUMBER(x, ZERO) NUMBER(y, ZERO) INFIX("^", "0", "1")

static const uint64_t HALF_BITS = 0x3FE0000000000000, ONE_BITS = 0x3FF0000000000000, TWO_BITS = 0x4000000000000000, THREE_BITS = 0x4008000000000000,
                      NAN_BITS = 0x7FF8000000000000, PI_BITS = 0x400921FB54442D18, MINUS_ZERO_BITS = 0x8000000000000000,
                      SIN_BITS = 0x3FDEAEE8744B05F0, COS_BITS = 0x3FEC1528065B7D50;

/* ---- texts that are too long to be written out */

static char text[TEXT];
static size_t length;

static void begin(void)
{
    length = 0;
    text[0] = 0;
}

/* Adds a line; a format may use the number up to twice. */
static void add(const char *format, unsigned a, unsigned b)
{
    length += (size_t)snprintf(text + length, TEXT - length, format, a, b);
}

static const char *many(const char *head, const char *format, unsigned count)
{
    begin();
    add(head, 0, 0);
    for (unsigned i = 0; i < count; i++)
        add(format, i, i);
    return text;
}

/* 300 sums of the variable and a number, and the sum of them all, which is put in for the variable. The listing has 900 node lines;
 * 599 of the nodes have the variable below them and are made anew, so that the result has 1499. */
static const char *grown(void)
{
    begin();
    add("v\t0\n", 0, 0);
    for (unsigned i = 1; i <= 300; i++)
        add("n\t%016X\t" ZERO "\n", i, 0);
    for (unsigned i = 1; i <= 300; i++)
        add("b\t+\t0\t%u\n", i, 0);
    for (unsigned i = 301; i < 899; i += 2)
        add("b\t+\t%u\t%u\n", i, i + 1);
    add("s\t0\t899\n", 0, 0);
    return text;
}

/* The lines that join these with one operator, in pairs and then again, until one is left. `next` is the number of the next line. */
static unsigned join(const char *format, unsigned *lines, unsigned count, unsigned next)
{
    for (; count > 1; count = (count + 1) / 2) {
        unsigned odd = lines[count - 1];
        for (unsigned i = 0; i + 1 < count; i += 2) {
            add(format, lines[i], lines[i + 1]);
            lines[i / 2] = next++;
        }
        if (count % 2 == 1)
            lines[count / 2] = odd;
    }
    return next;
}

/* 302 products of one of 20 variables with one of 20 sums of eight others, all multiplied; before them variables that nothing reaches.
 * Simplifying it at limit 10 takes 4095 nodes and those. */
static const char *crowd(unsigned unreached)
{
    unsigned sums[20], lines[302], next = unreached;
    begin();
    for (unsigned i = 0; i < unreached; i++)
        add("v\t%u\n", 60000 + i, 0);
    for (unsigned k = 0; k < 20; k++) {
        for (unsigned i = 0; i < 8; i++) {
            add("v\t%u\n", 8 * k + i, 0);
            lines[i] = next++;
        }
        next = join(INFIX("+", "%u", "%u"), lines, 8, next);
        sums[k] = next - 1;
    }
    for (unsigned i = 0; i < 20; i++)
        add("v\t%u\n", 1000 + i, 0);
    for (unsigned i = 0; i < 302; i++) {
        add(INFIX("*", "%u", "%u"), next + i % 20, sums[i / 20]);
        lines[i] = next + 20 + i;
    }
    join(INFIX("*", "%u", "%u"), lines, 302, next + 322);
    return text;
}

/* ---- the jobs */

static void evaluate_values(void)
{
    value("half of a difference", HALF_DIFFERENCE, BOUND("0", "3FF4000000000000") BOUND("1", HALF), 0x3FD8000000000000, 0);
    value(
        "cis", NUMBER(HALF, ZERO) "f\tcis\t0\n", SIN_OF_HALF COS_OF_HALF, 0x3FEC1528065B7D50, 0x3FDEAEE8744B05F0);
    value("a power", NUMBER(TWO, ZERO) NUMBER(THREE, ZERO) INFIX("^", "0", "1"), ROW("pow", TWO, THREE, "4020000000000000", ZERO),
          0x4020000000000000, 0);
    value("a cell", "m\t3\t4294967295\nu\t-\t0\n", "m\t3\t4294967295\t" ONE "\n", 0xBFF0000000000000, MINUS_ZERO_BITS);
    value("pi", "p\n", "", PI_BITS, 0);
    value("zero by zero", NUMBER(ZERO, ZERO) INFIX("/", "0", "0"), "", NAN_BITS, NAN_BITS);
    value("a zero keeps its sign", NUMBER("8000000000000000", ZERO), "", MINUS_ZERO_BITS, 0);
    value("every NaN is one", NUMBER(A_NAN, ONE), "", NAN_BITS, 0x3FF0000000000000);
    value("the first row counts", NUMBER(HALF, ZERO) "f\tsin\t0\n", SIN_OF_HALF ROW("sin", HALF, ZERO, ONE, ZERO),
          0x3FDEAEE8744B05F0, 0);
}

static void evaluate_bad_texts(void)
{
    no_value("an empty listing", "", "", FINDAVOREB_BAD_LIST, 0);
    no_value("a space for a tab", "v\t0\nv\t1\nb\t- 0\t1\n", "", FINDAVOREB_BAD_LIST, 2);
    no_value("no line feed", "v\t0\np", "", FINDAVOREB_BAD_LIST, 1);
    no_value("a child that is not earlier", "v\t0\nu\t-\t1\n", "", FINDAVOREB_BAD_LIST, 1);
    no_value("an s line", "v\t0\ns\t0\t0\n", "", FINDAVOREB_BAD_LIST, 1);
    no_value("the listing speaks first", "q\n", "q\n", FINDAVOREB_BAD_LIST, 0);
    no_value("1025 lines", many("p\n", "v\t%u\n", 1024), "", FINDAVOREB_LONG_LIST, 1024);
    no_value("bytes that are no text", "\001\377\n", "", FINDAVOREB_BAD_LIST, 0);
    no_value("a sheet with an empty line", "p\n", BOUND("0", ONE) "\n", FINDAVOREB_BAD_SHEET, 1);
    no_value("variables that fall", "p\n", BOUND("1", ONE) BOUND("0", ONE), FINDAVOREB_BAD_SHEET, 1);
    no_value("a second operand for sin", "p\n", ROW("sin", HALF, HALF, ONE, ZERO), FINDAVOREB_BAD_SHEET, 0);
    no_value("257 variables", "p\n", many("", "v\t%u\t" ONE "\t" ZERO "\n", 257), FINDAVOREB_LONG_SHEET, 256);
    no_value("1025 cells", "p\n", many("", "m\t0\t%u\t" ONE "\n", 1025), FINDAVOREB_LONG_SHEET, 1024);
    no_value("257 rows", "p\n", many("", SIN_OF_HALF, 257), FINDAVOREB_LONG_SHEET, 256);
}

static void evaluate_limits(void)
{
    many("", "p\n", 1024);
    add("q\n", 0, 0);
    no_value("a malformed 1025th line", text, "", FINDAVOREB_LONG_LIST, 1024);
    value("1024 lines", many("p\n", "n\t%016X\t" ZERO "\n", 1023), "", 1022, 0);
    no_value("a size of 1048575", many("v\t0\n", INFIX("+", "%u", "%u"), 19), BOUND("0", ONE), FINDAVOREB_BIG, 0);
    value("a size of 524287", many("v\t0\n", INFIX("+", "%u", "%u"), 18), BOUND("0", ONE), 0x4110000000000000, 0);
    no_value("a depth of 65", many("p\n", "u\t-\t%u\n", 64), "", FINDAVOREB_DEEP, 0);
    value("a depth of 64", many("p\n", "u\t+\t%u\n", 63), "", PI_BITS, 0);
}

static void evaluate_lacks(void)
{
    const uint64_t half[] = {HALF_BITS, 0, 0, 0};
    need("no sine", NUMBER(HALF, ZERO) "f\tsin\t0\n", COS_OF_HALF, FINDAVOREB_SIN, half);
    need("no cosine", NUMBER(HALF, ZERO) "f\tcos\t0\n", SIN_OF_HALF, FINDAVOREB_COS, half);
    need("no exponent", NUMBER(HALF, ZERO) "f\texp\t0\n", "", FINDAVOREB_EXP, half);
    need("no root", NUMBER(HALF, ZERO) "f\tsqrt\t0\n", "", FINDAVOREB_SQRT, half);
    need("no power", NUMBER(TWO, HALF) NUMBER(THREE, A_NAN) INFIX("^", "0", "1"), "", FINDAVOREB_POW,
         (uint64_t[]){TWO_BITS, HALF_BITS, THREE_BITS, NAN_BITS});
    need("cis asks cos first", NUMBER(HALF, ZERO) "f\tcis\t0\n", "", FINDAVOREB_COS, half);
    need("then sin", NUMBER(HALF, ZERO) "f\tcis\t0\n", COS_OF_HALF, FINDAVOREB_SIN, half);
    need("a zero of the other sign", NUMBER(HALF, "8000000000000000") "f\tsin\t0\n", SIN_OF_HALF, FINDAVOREB_SIN,
         (uint64_t[]){HALF_BITS, MINUS_ZERO_BITS, 0, 0});
    no_value("a free variable", HALF_DIFFERENCE, BOUND("0", ONE), FINDAVOREB_INCOMPLETE, 0);
    no_value("a free cell", "m\t0\t1\n", "m\t0\t0\t" ONE "\n", FINDAVOREB_INCOMPLETE, 0);
    no_value("the left lack first", "v\t0\n" NUMBER(HALF, ZERO) "f\tsin\t1\n" INFIX("+", "0", "2"), "", FINDAVOREB_INCOMPLETE, 0);
}

static void substitute_results(void)
{
    result("a shift", SHIFT, SHIFTED);
    result("a swap", "v\t0\nv\t1\n" INFIX("-", "0", "1") "s\t0\t1\ns\t1\t0\n", "v\t1\nv\t0\n" INFIX("-", "0", "1"));
    result("equal and unused lines", "v\t0\nv\t7\nv\t0\n" INFIX("*", "0", "2"), "v\t0\n" INFIX("*", "0", "0"));
    result("a leaf", "p\nv\t0\ns\t0\t0\n", "p\n");
}

static void substitute_refusals(void)
{
    no_result("an empty listing", "", FINDAVOREB_BAD_LIST, 0);
    no_result("s lines alone", "s\t0\t0\n", FINDAVOREB_BAD_LIST, 0);
    no_result("s lines that fall", "v\t0\ns\t1\t0\ns\t0\t0\n", FINDAVOREB_BAD_LIST, 2);
    no_result("a node after an s line", "v\t0\ns\t0\t0\np\n", FINDAVOREB_BAD_LIST, 2);
    no_result("257 s lines", many("v\t0\n", "s\t%u\t0\n", 257), FINDAVOREB_LONG_LIST, 257);
    no_result("1499 lines of result", grown(), FINDAVOREB_LONG_LIST, 0);
    many("v\t0\n", "u\t-\t%u\n", 63);
    add("s\t0\t1\n", 0, 0);
    no_result("a result of depth 65", text, FINDAVOREB_DEEP, 0);
}

static void simplify_results(void)
{
    simpler("a - a", "v\t0\n" INFIX("-", "0", "0"), "", 10, NUMBER(ZERO, ZERO), 3);
    simpler("0 - a", NUMBER(ZERO, ZERO) "v\t0\n" INFIX("-", "0", "1"), "", 10, "v\t0\nu\t-\t0\n", 5);
    simpler("-(-a)", "v\t0\nu\t-\t0\nu\t-\t1\n", "", 10, "v\t0\n", 3);
    simpler("(a - b) - b", TWICE_LESS, "", 10, "v\t0\n", 11);
    simpler("a / -a", "v\t0\nu\t-\t0\n" INFIX("/", "0", "1"), "", 10, NUMBER("BFF0000000000000", "8000000000000000"), 4);
    simpler("0 ^ 0", NUMBER(ZERO, ZERO) INFIX("^", "0", "0"), "", 10, NUMBER(ZERO, ZERO), 3);
    simpler("2 / 0", NUMBER(TWO, ZERO) NUMBER(ZERO, ZERO) INFIX("/", "0", "1"), "", 10, NUMBER("7FF8000000000000", ZERO), 3);
    simpler("a sine", NUMBER(HALF, ZERO) "f\tsin\t0\n", SIN_OF_HALF, 10, NUMBER("3FDEAEE8744B05F0", ZERO), 2);
    simpler("a bound variable stays", "v\t0\n", BOUND("0", ONE), 10, "v\t0\n", 1);
    simpler("pi at limit 0", "p\n", "", 0, NUMBER("400921FB54442D18", ZERO), 1);
    simpler("limit 0 asks for nothing", NUMBER(HALF, ZERO) "f\tsin\t0\n", "", 0, NUMBER(HALF, ZERO) "f\tsin\t0\n", 1);
    simpler("equal and unused lines", "v\t0\nv\t7\nv\t0\n" INFIX("^", "0", "2"), "", 1, "v\t0\n" INFIX("^", "0", "0"), 3);
}

static void simplify_refusals(void)
{
    const uint64_t half[] = {HALF_BITS, 0, 0, 0};
    not_simpler("a limit of 11", "v\t0\n", "", 11, FINDAVOREB_BAD_LIMIT, 0);
    not_simpler("the greatest limit", "v\t0\n", "", UINT64_MAX, FINDAVOREB_BAD_LIMIT, 0);
    not_simpler("the limit speaks first", "q\n", "q\n", 11, FINDAVOREB_BAD_LIMIT, 0);
    not_simpler("then the listing", "p\nq\n", "q\n", 10, FINDAVOREB_BAD_LIST, 1);
    not_simpler("then the sheet", NUMBER(HALF, ZERO) "f\tsin\t0\n", BOUND("0", ONE) "\n", 10, FINDAVOREB_BAD_SHEET, 1);
    not_simpler("an s line", "v\t0\ns\t0\t0\n", "", 10, FINDAVOREB_BAD_LIST, 1);
    not_simpler("a size of 1048575", many("v\t0\n", INFIX("+", "%u", "%u"), 19), "", 0, FINDAVOREB_BIG, 0);
    not_simpler("a depth of 65", many("p\n", "u\t-\t%u\n", 64), "", 0, FINDAVOREB_DEEP, 0);
    need_to_simplify("no sine", NUMBER(HALF, ZERO) "f\tsin\t0\n", COS_OF_HALF, FINDAVOREB_SIN, half);
    need_to_simplify("cis asks cos first", NUMBER(HALF, ZERO) "f\tcis\t0\n", "", FINDAVOREB_COS, half);
    need_to_simplify("then sin", NUMBER(HALF, ZERO) "f\tcis\t0\n", COS_OF_HALF, FINDAVOREB_SIN, half);
    need_to_simplify("no power", NUMBER(TWO, HALF) NUMBER(THREE, A_NAN) INFIX("^", "0", "1"), "", FINDAVOREB_POW,
                     (uint64_t[]){TWO_BITS, HALF_BITS, THREE_BITS, NAN_BITS});
}

static void to_real_jobs(void)
{
    real("pi", "p\n", PI_BITS);
    real("a number", NUMBER(HALF, ZERO), HALF_BITS);
    real("an imaginary part of 1e-17", NUMBER(HALF, "3C670EF54646D497"), HALF_BITS);
    real("one of -1e-17", NUMBER(HALF, "BC670EF54646D497"), HALF_BITS);
    real("a real part that is a NaN", NUMBER(A_NAN, ZERO), NAN_BITS);
    no_real("an imaginary part of 1e-16", NUMBER(HALF, "3C9CD2B297D889BC"), FINDAVOREB_NOT_REAL, 0);
    no_real("one of -1e-16", NUMBER(HALF, "BC9CD2B297D889BC"), FINDAVOREB_NOT_REAL, 0);
    no_real("one that is a NaN", NUMBER(HALF, A_NAN), FINDAVOREB_NOT_REAL, 0);
    no_real("a variable", "v\t0\n", FINDAVOREB_NOT_A_NUMBER, 0);
    no_real("a number with a sign", NUMBER(HALF, ZERO) "u\t+\t0\n", FINDAVOREB_NOT_A_NUMBER, 0);
    no_real("an empty listing", "", FINDAVOREB_BAD_LIST, 0);
    no_real("an empty line", "p\n\n", FINDAVOREB_BAD_LIST, 1);
    no_real("an s line", "p\ns\t0\t0\n", FINDAVOREB_BAD_LIST, 1);
    no_real("1025 lines", many("p\n", "v\t%u\n", 1024), FINDAVOREB_LONG_LIST, 1024);
}

/* Steps: opcode, sub, u16, u32 and the bits of two doubles. */
#define PI_STEP {2, 0, 0, 0, 0, 0}
#define NUMBER_STEP(re, im) {1, 0, 0, 0, re, im}
#define VARIABLE_STEP(number) {3, 0, number, 0, 0, 0}
#define CELL_STEP(region, index) {4, 0, region, index, 0, 0}
#define FUNCTION_STEP(sub) {5, sub, 0, 0, 0, 0}
#define PREFIX_STEP(sub) {6, sub, 0, 0, 0, 0}
#define INFIX_STEP(sub) {7, sub, 0, 0, 0, 0}

static void compile_results(void)
{
    compiled("half of a difference", HALF_DIFFERENCE,
             TAPE(VARIABLE_STEP(0), VARIABLE_STEP(1), INFIX_STEP(2), NUMBER_STEP(TWO_BITS, 0), INFIX_STEP(4)));
    compiled("a leaf", "p\n", TAPE(PI_STEP));
    compiled("evaluation's order, not the listing's", "v\t0\nv\t1\n" INFIX("^", "1", "0"),
             TAPE(VARIABLE_STEP(1), VARIABLE_STEP(0), INFIX_STEP(5)));
    compiled("a node twice, and one that is not reached", "v\t65535\np\n" INFIX("*", "0", "0"),
             TAPE(VARIABLE_STEP(65535), VARIABLE_STEP(65535), INFIX_STEP(3)));
    compiled("a cell and prefixes", "m\t65534\t4294967295\nu\t+\t0\nu\t-\t1\n",
             TAPE(CELL_STEP(65534, 4294967295), PREFIX_STEP(1), PREFIX_STEP(2)));
    compiled("all functions", "p\nf\tsin\t0\nf\tcos\t1\nf\texp\t2\nf\tsqrt\t3\nf\tcis\t4\n",
             TAPE(PI_STEP, FUNCTION_STEP(1), FUNCTION_STEP(2), FUNCTION_STEP(3), FUNCTION_STEP(4), FUNCTION_STEP(5)));
    compiled("every NaN is one", NUMBER(A_NAN, "8000000000000000"), TAPE(NUMBER_STEP(NAN_BITS, MINUS_ZERO_BITS)));
}

static void compile_refusals(void)
{
    not_compiled("an empty listing", "", FINDAVOREB_BAD_LIST, 0);
    not_compiled("an s line", "v\t0\ns\t0\t0\n", FINDAVOREB_BAD_LIST, 1);
    not_compiled("1025 lines", many("p\n", "v\t%u\n", 1024), FINDAVOREB_LONG_LIST, 1024);
    not_compiled("a size of 1048575", many("v\t0\n", INFIX("+", "%u", "%u"), 19), FINDAVOREB_BIG, 0);
    not_compiled("a depth of 65", many("p\n", "u\t-\t%u\n", 64), FINDAVOREB_DEEP, 0);
    many("v\t0\n", INFIX("+", "%u", "%u"), 8);
    add("u\t-\t8\nu\t-\t9\n", 0, 0);
    not_compiled("a size of 513", text, FINDAVOREB_LONG_TAPE, 0);
    compile_in("that comes before a short output", (struct lent){FINDAVOREB_MOST_ROWS, 0}, text, EMPTY,
               (uint64_t[]){FINDAVOREB_LONG_TAPE, 0, 0, 0, 0, 0});
}

/* (theta - phi) / 2 has 5 nodes and 5 steps. */
static void compile_short_memory(void)
{
    const uint64_t full[] = {FINDAVOREB_ROOM, 0, 0, 0, 0, 0}, short_of_out[] = {FINDAVOREB_OUT_ROOM, 0, 0, 0, 0, 0};
    const struct tape tape = TAPE(VARIABLE_STEP(0), VARIABLE_STEP(1), INFIX_STEP(2), NUMBER_STEP(TWO_BITS, 0), INFIX_STEP(4));
    struct lent lent = {5, 120};
    compile_in("just enough to compile", lent, HALF_DIFFERENCE, tape, (uint64_t[]){0, 120, 0, 0, 0, 0});
    lent.bytes = 119;
    compile_in("an output too short", lent, HALF_DIFFERENCE, EMPTY, short_of_out);
    lent.bytes = 0;
    compile_in("an empty output", lent, HALF_DIFFERENCE, EMPTY, short_of_out);
    lent.rows = 4;
    for (int k = 0; k < 4; k++) {
        junk = JUNK[k];
        compile_in("full before it is compiled", lent, HALF_DIFFERENCE, EMPTY, full);
    }
    junk = JUNK[0];
}

static void play_values(void)
{
    played("half of a difference", TAPE(VARIABLE_STEP(0), VARIABLE_STEP(1), INFIX_STEP(2), NUMBER_STEP(TWO_BITS, 0), INFIX_STEP(4)),
           BOUND("0", "3FF4000000000000") BOUND("1", HALF), 0x3FD8000000000000, 0);
    played("cis", TAPE(NUMBER_STEP(HALF_BITS, 0), FUNCTION_STEP(5)), SIN_OF_HALF COS_OF_HALF, 0x3FEC1528065B7D50, 0x3FDEAEE8744B05F0);
    played("a power", TAPE(NUMBER_STEP(TWO_BITS, 0), NUMBER_STEP(THREE_BITS, 0), INFIX_STEP(5)),
           ROW("pow", TWO, THREE, "4020000000000000", ZERO), 0x4020000000000000, 0);
    played("a cell", TAPE(CELL_STEP(3, 4294967295), PREFIX_STEP(2)), "m\t3\t4294967295\t" ONE "\n", 0xBFF0000000000000, MINUS_ZERO_BITS);
    played("pi", TAPE(PI_STEP), "", PI_BITS, 0);
    played("zero by zero", TAPE(NUMBER_STEP(0, 0), NUMBER_STEP(0, 0), INFIX_STEP(4)), "", NAN_BITS, NAN_BITS);
    played("a zero keeps its sign", TAPE(NUMBER_STEP(MINUS_ZERO_BITS, 0), PREFIX_STEP(1)), "", MINUS_ZERO_BITS, 0);
}

static void play_lacks(void)
{
    const uint64_t half[] = {HALF_BITS, 0, 0, 0};
    const struct tape cis = TAPE(NUMBER_STEP(HALF_BITS, 0), FUNCTION_STEP(5));
    need_to_play("no sine", TAPE(NUMBER_STEP(HALF_BITS, 0), FUNCTION_STEP(1)), COS_OF_HALF, FINDAVOREB_SIN, half);
    need_to_play("cis asks cos first", cis, SIN_OF_HALF, FINDAVOREB_COS, half);
    need_to_play("then sin", cis, COS_OF_HALF, FINDAVOREB_SIN, half);
    need_to_play("no power", TAPE(NUMBER_STEP(TWO_BITS, HALF_BITS), NUMBER_STEP(THREE_BITS, NAN_BITS), INFIX_STEP(5)), "", FINDAVOREB_POW,
                 (uint64_t[]){TWO_BITS, HALF_BITS, THREE_BITS, NAN_BITS});
    not_played("a free variable", TAPE(VARIABLE_STEP(1)), BOUND("0", ONE), FINDAVOREB_INCOMPLETE, 0);
    not_played("a free cell", TAPE(CELL_STEP(0, 1)), "m\t0\t0\t" ONE "\n", FINDAVOREB_INCOMPLETE, 0);
    not_played("a sheet with an empty line", TAPE(PI_STEP), BOUND("0", ONE) "\n", FINDAVOREB_BAD_SHEET, 1);
    not_played("257 rows", TAPE(PI_STEP), many("", SIN_OF_HALF, 257), FINDAVOREB_LONG_SHEET, 256);
}

static void compile_and_play(void)
{
    same_played("half of a difference", HALF_DIFFERENCE, BOUND("0", "3FF4000000000000") BOUND("1", HALF));
    same_played("the left lack first", "v\t0\n" NUMBER(HALF, ZERO) "f\tsin\t1\n" INFIX("+", "0", "2"), "");
    same_played("a lack to the left of a free variable", "v\t0\n" NUMBER(HALF, ZERO) "f\tsin\t1\n" INFIX("+", "2", "0"), "");
    same_played("a stack of 64", many(NUMBER(ONE, ZERO), INFIX("+", "0", "%u"), 63), "");
    same_played("a stack of 2", many(NUMBER(ONE, ZERO), INFIX("-", "%u", "0"), 63), "");
    many("v\t0\n", INFIX("+", "%u", "%u"), 8);
    add("u\t-\t8\n", 0, 0);
    same_played("512 steps", text, BOUND("0", HALF));
}

/* How many subs an opcode has; those without any want a sub of 0. */
static int is_known(unsigned opcode, unsigned sub)
{
    const unsigned subs[] = {0, 0, 0, 0, 0, 5, 2, 5};
    if (opcode < 1 || opcode > 7)
        return 0;
    return subs[opcode] == 0 ? sub == 0 : sub >= 1 && sub <= subs[opcode];
}

static void check_codes(void)
{
    for (unsigned code = 0; code < 80; code++) {
        const struct step step = {code / 8, code % 8, 0, 0, 0, 0};
        const struct tape leaf = TAPE(PI_STEP, PI_STEP, step, INFIX_STEP(1), INFIX_STEP(1)), one = TAPE(PI_STEP, step),
                          two = TAPE(PI_STEP, PI_STEP, step);
        if (is_known(step.opcode, step.sub))
            sound("a known code", step.opcode == 7 ? two : step.opcode >= 5 ? one : leaf);
        else
            unsound("a code that is not known", leaf, 2);
    }
}

static void check_fields(void)
{
    unsound("a number's u16", TAPE({1, 0, 1, 0, 0, 0}), 0);
    unsound("a number's u32", TAPE({1, 0, 0, 1, 0, 0}), 0);
    unsound("pi's u16", TAPE({2, 0, 256, 0, 0, 0}), 0);
    unsound("pi's u32", TAPE({2, 0, 0, 65536, 0, 0}), 0);
    unsound("pi's real part", TAPE({2, 0, 0, 0, PI_BITS, 0}), 0);
    unsound("pi's imaginary part", TAPE({2, 0, 0, 0, 0, MINUS_ZERO_BITS}), 0);
    unsound("a variable's u32", TAPE({3, 0, 1, 16777216, 0, 0}), 0);
    unsound("a variable's real part", TAPE({3, 0, 1, 0, 1, 0}), 0);
    unsound("a cell's imaginary part", TAPE({4, 0, 1, 1, 0, 1}), 0);
    unsound("a function's u16", TAPE(PI_STEP, {5, 1, 1, 0, 0, 0}), 1);
    unsound("a prefix's u32", TAPE(PI_STEP, {6, 1, 0, 1, 0, 0}), 1);
    unsound("an infix's imaginary part", TAPE(PI_STEP, PI_STEP, {7, 1, 0, 0, 0, 1}), 2);
    unsound("another NaN", TAPE(NUMBER_STEP(0xFFF8000000000000, 0)), 0);
    unsound("one in the imaginary part", TAPE(PI_STEP, NUMBER_STEP(0, 0x7FF0000000000001)), 1);
    sound("the one NaN, and infinities",
          TAPE(NUMBER_STEP(NAN_BITS, 0x7FF0000000000000), NUMBER_STEP(0xFFF0000000000000, 0), INFIX_STEP(1)));
}

/* A tape of pushes, and infixes after them. */
static struct tape tower(unsigned pushes, unsigned infixes)
{
    struct tape tape = EMPTY;
    for (unsigned i = 0; i < pushes; i++)
        add_step(&tape, (struct step)NUMBER_STEP(ONE_BITS, 0));
    for (unsigned i = 0; i < infixes; i++)
        add_step(&tape, (struct step)INFIX_STEP(1));
    return tape;
}

static struct tape prefixes(unsigned steps)
{
    struct tape tape = TAPE(PI_STEP);
    for (unsigned i = 1; i < steps; i++)
        add_step(&tape, (struct step)PREFIX_STEP(1));
    return tape;
}

static struct tape cut(struct tape tape, size_t to)
{
    tape.length = to;
    return tape;
}

static void check_lengths_and_counts(void)
{
    unsound("no bytes", EMPTY, 0);
    for (size_t i = 1; i < 24; i++) {
        unsound("a part of a step", cut(TAPE(PI_STEP), i), 0);
        unsound("a step and a part of one", cut(TAPE(PI_STEP, PREFIX_STEP(1)), 24 + i), 0);
    }
    sound("512 steps", prefixes(512));
    unsound("513 steps", prefixes(513), 0);
    unsound("a prefix of nothing", TAPE(PREFIX_STEP(1)), 0);
    unsound("a function of nothing", TAPE(FUNCTION_STEP(1)), 0);
    unsound("an infix of nothing", TAPE(INFIX_STEP(1)), 0);
    unsound("an infix of one", TAPE(PI_STEP, PREFIX_STEP(2), INFIX_STEP(1)), 2);
    unsound("two values at the end", TAPE(PI_STEP, PI_STEP), 2);
    sound("a stack of 64", tower(64, 63));
    unsound("a stack of 65", tower(65, 64), 64);
    unsound("64 values at the end", tower(64, 0), 64);
    unsound("an infix too many", tower(64, 64), 127);
    played("64 ones", tower(64, 63), "", 0x4050000000000000, 0);
    not_played("the tape speaks before the sheet", TAPE(PI_STEP, PI_STEP), "q\n", FINDAVOREB_BAD_TAPE, 2);
}

static void picks(void)
{
    const struct tape one = TAPE(PI_STEP), other = TAPE(VARIABLE_STEP(0)), two = TAPE(PI_STEP, PREFIX_STEP(2)),
                      bad = TAPE(PREFIX_STEP(2)), long_one = prefixes(512), too_long = prefixes(513);
    pick("the first is shorter", one, two, 1, 24);
    pick("the second is shorter", two, one, 2, 24);
    pick("a tie", one, other, 1, 24);
    pick("the same", two, two, 1, 48);
    pick("the first is unsound", bad, long_one, 2, 12288);
    pick("the second is unsound", long_one, bad, 1, 12288);
    pick("an empty second", two, EMPTY, 1, 48);
    pick("an empty first", EMPTY, two, 2, 48);
    pick("a part of a step", cut(two, 47), two, 2, 48);
    pick("neither is sound", bad, too_long, 0, 0);
    pick("neither is there", EMPTY, EMPTY, 0, 0);
}

/* ---- which t rows were used */

static void marks_of_values(void)
{
    marked("cis has two rows", CIS, BOUND("0", ONE) "m\t0\t0\t" ONE "\n" SIN_OF_HALF ONE_FOR_EXP COS_OF_HALF, "101",
           (uint64_t[]){0, 0, COS_BITS, SIN_BITS, 0, 0});
    marked_value("the first of two for one operand", SINE, ONE_FOR_EXP SIN_OF_HALF ONE_FOR_SIN, "010", SIN_BITS);
    marked_value("the first of three that are equal", SINE, SIN_OF_HALF SIN_OF_HALF SIN_OF_HALF, "100", SIN_BITS);
    marked_value("a row that is used twice", SINE "f\tsin\t0\n" INFIX("*", "1", "2"), ONE_FOR_EXP SIN_OF_HALF, "01", 0x3FCD6BAFE095F2E9);
    marked_value("zeros of two signs", NUMBER("8000000000000000", ZERO) "f\tsin\t0\n",
                 ROW("sin", ZERO, ZERO, ONE, ZERO) ROW("sin", "8000000000000000", ZERO, TWO, ZERO), "01", TWO_BITS);
    marked_value("a NaN of another pattern", NUMBER(A_NAN, ZERO) "f\tsqrt\t0\n",
                 ROW("sqrt", HALF, ZERO, ONE, ZERO) ROW("sqrt", "7FF8000000000001", ZERO, TWO, ZERO), "01", TWO_BITS);
    marked_value("a power", POWER(TWO, THREE), ROW("pow", THREE, TWO, ONE, ZERO) ROW("pow", TWO, THREE, "4020000000000000", ZERO), "01",
                 0x4020000000000000);
    marked_value("nothing is looked up", "p\n", SIN_OF_HALF COS_OF_HALF, "00", PI_BITS);
    marked_value("a line that nothing reaches", SINE "p\n", SIN_OF_HALF, "0", PI_BITS);
}

static void marks_of_lacks(void)
{
    const uint64_t half[] = {HALF_BITS, 0, 0, 0};
    marked_need("cis without sin", CIS, ONE_FOR_EXP COS_OF_HALF, "01", FINDAVOREB_SIN, half);
    marked_need("cis without cos", CIS, SIN_OF_HALF ONE_FOR_EXP, "00", FINDAVOREB_COS, half);
    marked_need("a lack after two rows", SINE "f\tcos\t0\n" "f\texp\t0\n" INFIX("+", "1", "2") INFIX("+", "4", "3"),
                ROW("sin", ONE, ZERO, ONE, ZERO) COS_OF_HALF SIN_OF_HALF, "011", FINDAVOREB_EXP, half);
    marked_need("a lack before a row", SINE "f\texp\t0\n" INFIX("+", "2", "1"), SIN_OF_HALF, "0", FINDAVOREB_EXP, half);
    marked_refusal("a free variable after a row", SINE "v\t7\n" INFIX("+", "1", "2"), COS_OF_HALF SIN_OF_HALF, "01", FINDAVOREB_INCOMPLETE, 0);
    marked_refusal("a free variable before a row", SINE "v\t7\n" INFIX("+", "2", "1"), COS_OF_HALF SIN_OF_HALF, "00", FINDAVOREB_INCOMPLETE, 0);
    marked_refusal("a free cell between two rows", SINE "m\t7\t7\nf\texp\t0\n" INFIX("*", "2", "3") INFIX("+", "1", "4"),
                   ONE_FOR_EXP SIN_OF_HALF, "01", FINDAVOREB_INCOMPLETE, 0);
}

/* Two lines have two nodes, and one row has no room for the second. */
static void marks_of_refusals(void)
{
    const struct lent one_row = {1, PAPER};
    marked_refusal("a bad listing", SINE "q\n", SIN_OF_HALF, "", FINDAVOREB_BAD_LIST, 2);
    marked_refusal("a bad sheet", SINE, SIN_OF_HALF "q\n", "", FINDAVOREB_BAD_SHEET, 1);
    marked_refusal("257 rows", SINE, many("", SIN_OF_HALF, 257), "", FINDAVOREB_LONG_SHEET, 256);
    marked_refusal("a size of 1048575", many("v\t0\n", INFIX("+", "%u", "%u"), 19), SIN_OF_HALF, "", FINDAVOREB_BIG, 0);
    marked_refusal("a depth of 65", many("p\n", "u\t-\t%u\n", 64), SIN_OF_HALF, "", FINDAVOREB_DEEP, 0);
    evaluate_marked_in("no room", one_row, SINE, SIN_OF_HALF, "", (uint64_t[]){FINDAVOREB_ROOM, 0, 0, 0, 0, 0});
    play_marked_all("a bad tape", TAPE(NUMBER_STEP(HALF_BITS, 0), FUNCTION_STEP(1), PI_STEP), SIN_OF_HALF, "",
                    (uint64_t[]){FINDAVOREB_BAD_TAPE, 3, 0, 0, 0, 0});
    play_marked_all("no tape", EMPTY, SIN_OF_HALF, "", (uint64_t[]){FINDAVOREB_BAD_TAPE, 0, 0, 0, 0, 0});
}

/* The sum of the sines of so many numbers, whose bits are 0, 1, 2 and so on from the first one. */
static const char *sum_of_sines(unsigned first, unsigned count)
{
    unsigned lines[257];
    begin();
    for (unsigned i = 0; i < count; i++) {
        add("n\t%016X\t" ZERO "\n", first + i, 0);
        add("f\tsin\t%u\n", 2 * i, 0);
        lines[i] = 2 * i + 1;
    }
    join(INFIX("+", "%u", "%u"), lines, count, 2 * count);
    return text;
}

/* With a row for each bits from 0 to 255, all of the value 1. */
static void marks_of_many(void)
{
    static char rows[TEXT], all[257];
    many("", "t\tsin\t%016X\t" ZERO "\t" ZERO "\t" ZERO "\t" ONE "\t" ZERO "\n", 256);
    memcpy(rows, text, length + 1);
    memset(all, '1', 256);
    marked_value("256 rows", sum_of_sines(0, 256), rows, all, 0x4070000000000000);
    marked_need("a 257th row is lacking", sum_of_sines(0, 257), rows, all, FINDAVOREB_SIN, (uint64_t[]){256, 0, 0, 0});
    marked_value("the first row", sum_of_sines(0, 1), rows, "1", ONE_BITS);
    memset(all, '0', 128);
    marked_value("128 rows", sum_of_sines(128, 128), rows, all, 0x4060000000000000);
    memset(all, '0', 255);
    marked_value("the last row", sum_of_sines(255, 1), rows, all, ONE_BITS);
}

#define SINE_NUMBER NUMBER("3FDEAEE8744B05F0", ZERO)

static void marks_of_folds(void)
{
    marked_simpler("a fold", SINE, BOUND("0", ONE) ONE_FOR_EXP SIN_OF_HALF ONE_FOR_SIN, 10, SINE_NUMBER, "010", 2);
    marked_simpler("cis folded", CIS, SIN_OF_HALF ONE_FOR_EXP COS_OF_HALF, 10, NUMBER("3FEC1528065B7D50", "3FDEAEE8744B05F0"), "101", 2);
    marked_simpler("a fold of the same again", SINE NUMBER("3FD0000000000000", ZERO) INFIX("+", "2", "2") "f\tsin\t3\n" INFIX("*", "1", "4"),
                   ONE_FOR_EXP SIN_OF_HALF ONE_FOR_SIN, 10, NUMBER("3FCD6BAFE095F2E9", ZERO), "010", 7);
    marked_simpler("a result that is kept", SINE INFIX("+", "1", "1"), SIN_OF_HALF, 10, NUMBER("3FEEAEE8744B05F0", ZERO), "1", 4);
    marked_simpler("a number that does not stay", SINE NUMBER(ZERO, ZERO) INFIX("*", "2", "1"), ONE_FOR_EXP SIN_OF_HALF, 10,
                   NUMBER(ZERO, ZERO), "01", 4);
    marked_simpler("a power folded", POWER(TWO, THREE), ROW("pow", THREE, TWO, ONE, ZERO) ROW("pow", TWO, THREE, "4020000000000000", ZERO), 10,
                   NUMBER("4020000000000000", ZERO), "01", 3);
    marked_simpler("0 ^ 2 is not looked up", POWER(ZERO, TWO), ROW("pow", ZERO, TWO, ONE, ZERO), 10, NUMBER(ZERO, ZERO), "0", 3);
    marked_simpler("limit 0 looks up nothing", SINE, SIN_OF_HALF, 0, SINE, "0", 1);
}

static void marks_of_folds_that_lack(void)
{
    const uint64_t no_sin[] = {FINDAVOREB_NEED, FINDAVOREB_SIN, HALF_BITS, 0, 0, 0}, no_exp[] = {FINDAVOREB_NEED, FINDAVOREB_EXP, HALF_BITS, 0, 0, 0};
    simplify_marked_in("cis without sin", ALL, CIS, ONE_FOR_EXP COS_OF_HALF, 10, "", "01", no_sin);
    simplify_marked_in("a lack after a fold", ALL, SINE "f\texp\t0\n" INFIX("*", "1", "2"), COS_OF_HALF SIN_OF_HALF, 10, "", "01", no_exp);
    simplify_marked_in("a lack before a fold", ALL, SINE "f\texp\t0\n" INFIX("*", "2", "1"), COS_OF_HALF SIN_OF_HALF, 10, "", "00", no_exp);
}

/* The negation of a sum of the sine of a half and 510 variables, 1023 lines, to the power of that sine. At limit 2 the sine is folded where
 * it stands alone and stays in the sum, so that the result has a line more. With a variable less it is not too long. */
static const char *grown_by_a_fold(unsigned variables)
{
    unsigned lines[511] = {1};
    begin();
    add(SINE, 0, 0);
    for (unsigned i = 1; i <= variables; i++) {
        add("v\t%u\n", i, 0);
        lines[i] = i + 1;
    }
    unsigned next = join(INFIX("+", "%u", "%u"), lines, variables + 1, variables + 2);
    add("u\t-\t%u\n", next - 1, 0);
    add(INFIX("^", "%u", "1"), next, 0);
    return text;
}

/* A tree is multiplied by one that has the folded sine in it: by a negation, which makes it deeper, or by a sum, which makes it twice as
 * large. */
static void marks_of_large_nodes(void)
{
    const uint64_t big[] = {FINDAVOREB_BIG, 0, 0, 0, 0, 0}, deep[] = {FINDAVOREB_DEEP, 0, 0, 0, 0, 0};
    many("v\t0\n", INFIX("^", "%u", "0"), 62);
    add("v\t9\n" NUMBER(HALF, ZERO) "f\tsin\t64\n" INFIX("^", "63", "65") "u\t-\t66\n" INFIX("*", "62", "67"), 0, 0);
    simplify_marked_in("a depth of 65 after a fold", ALL, text, SIN_OF_HALF, 10, "", "", deep);
    many("v\t0\n", INFIX("^", "%u", "%u"), 18);
    add("v\t9\n" NUMBER(HALF, ZERO) "f\tsin\t20\n" INFIX("^", "19", "21") "v\t8\n" INFIX("+", "23", "22") INFIX("*", "18", "24"), 0, 0);
    simplify_marked_in("a size over 1000000 after a fold", ALL, text, SIN_OF_HALF, 10, "", "", big);
    simplify_marked_in("before that the sine is asked for", ALL, text, COS_OF_HALF, 10, "", "0",
                       (uint64_t[]){FINDAVOREB_NEED, FINDAVOREB_SIN, HALF_BITS, 0, 0, 0});
}

static void marks_of_long_results(void)
{
    prepare();
    grown_by_a_fold(509);
    findavoreb_simplify_marked(
        bytes(text), length, bytes(SIN_OF_HALF), strlen(SIN_OF_HALF), 2, store, FINDAVOREB_MOST_ROWS, desk, table, out, PAPER, answer, marks);
    calls++;
    if (answer[0] != FINDAVOREB_DONE)
        complain("1023 lines of result", "it is refused");
    check_marks("1023 lines of result", "1");
    simplify_marked_in("1025 lines of result", ALL, grown_by_a_fold(510), SIN_OF_HALF, 2, "", "", (uint64_t[]){FINDAVOREB_LONG_LIST, 0, 0, 0, 0, 0});
}

/* The sine of a half has 2 nodes, the fold makes a third, and the result has 36 bytes. */
static void marks_of_short_memory(void)
{
    const uint64_t done[] = {0, 36, 2, 0, 0, 0}, full[] = {FINDAVOREB_ROOM, 0, 0, 0, 0, 0}, short_of_out[] = {FINDAVOREB_OUT_ROOM, 0, 0, 0, 0, 0};
    for (int k = 0; k < 4; k++) {
        struct lent lent = {3, 36};
        junk = JUNK[k];
        simplify_marked_in("just enough for a fold", lent, SINE, SIN_OF_HALF, 10, SINE_NUMBER, "1", done);
        lent.bytes = 35;
        simplify_marked_in("an output too short after a fold", lent, SINE, SIN_OF_HALF, 10, "", "", short_of_out);
        lent.bytes = 0;
        simplify_marked_in("an empty output after a fold", lent, SINE, SIN_OF_HALF, 10, "", "", short_of_out);
        lent.rows = 2;
        simplify_marked_in("no room for what is folded", lent, SINE, SIN_OF_HALF, 10, "", "", full);
        lent.rows = 1;
        simplify_marked_in("no room for the listing", lent, SINE, SIN_OF_HALF, 10, "", "", full);
    }
    junk = JUNK[0];
    simplify_marked_in("a limit of 11", ALL, SINE, SIN_OF_HALF, 11, "", "", (uint64_t[]){FINDAVOREB_BAD_LIMIT, 0, 0, 0, 0, 0});
    simplify_marked_in("a bad listing", ALL, SINE "q\n", SIN_OF_HALF, 10, "", "", (uint64_t[]){FINDAVOREB_BAD_LIST, 2, 0, 0, 0, 0});
    simplify_marked_in("a bad sheet", ALL, SINE, SIN_OF_HALF "q\n", 10, "", "", (uint64_t[]){FINDAVOREB_BAD_SHEET, 1, 0, 0, 0, 0});
}

/* ---- where the nodes came from */

#define FROM(line, origin) line "\t@" origin "\n"
#define NUMBER_FROM(re, im, origin) FROM("n\t" re "\t" im, origin)
#define INFIX_FROM(op, left, right, origin) FROM("b\t" op "\t" left "\t" right, origin)

/* What is put in is a line's, and what is made around it is not, unless a line has the same. */
static void origins_of_results(void)
{
    result_from("a shift", SHIFT,
                FROM("v\t0", "0") NUMBER_FROM(HALF, ZERO, "4") INFIX_FROM("+", "0", "1", "5") FROM("v\t1", "1") INFIX_FROM("-", "2", "3", "-")
                NUMBER_FROM(TWO, ZERO, "3") INFIX_FROM("/", "4", "5", "-"));
    result_from("a swap", "v\t0\nv\t1\n" INFIX("-", "0", "1") "s\t0\t1\ns\t1\t0\n", FROM("v\t1", "1") FROM("v\t0", "0") INFIX_FROM("-", "0", "1", "-"));
    result_from("a swap of which a line has the result", "v\t0\nv\t1\n" INFIX("-", "1", "0") INFIX("-", "0", "1") "s\t0\t1\ns\t1\t0\n",
                FROM("v\t1", "1") FROM("v\t0", "0") INFIX_FROM("-", "0", "1", "2"));
    result_from("equal and unused lines", "v\t0\nv\t7\nv\t0\n" INFIX("*", "0", "2"), FROM("v\t0", "0") INFIX_FROM("*", "0", "0", "3"));
    result_from("the first of three", "p\nu\t-\t0\nu\t-\t0\nu\t-\t0\nu\t+\t3\n", FROM("p", "0") FROM("u\t-\t0", "1") FROM("u\t+\t1", "4"));
    result_from("lines in another order", "v\t0\nv\t1\n" INFIX("-", "1", "0"), FROM("v\t1", "1") FROM("v\t0", "0") INFIX_FROM("-", "0", "1", "2"));
    result_from("a leaf", "v\t0\np\nv\t1\nv\t0\ns\t0\t1\n", FROM("p", "1"));
    result_from("every kind", NUMBER(ONE, TWO) "p\nv\t65535\nm\t65535\t4294967295\n" "f\tcis\t3\n" INFIX("^", "0", "1") INFIX("*", "5", "2") INFIX("/", "6", "4"),
                NUMBER_FROM(ONE, TWO, "0") FROM("p", "1") INFIX_FROM("^", "0", "1", "5") FROM("v\t65535", "2") INFIX_FROM("*", "2", "3", "6")
                FROM("m\t65535\t4294967295", "3") FROM("f\tcis\t5", "4") INFIX_FROM("/", "4", "6", "7"));
}

/* Numbers are the same by their bits, and all NaNs are one. */
static void origins_of_numbers(void)
{
    result_from("zeros of two signs", NUMBER("8000000000000000", ZERO) NUMBER(ZERO, ZERO) NUMBER(ZERO, "8000000000000000") INFIX("+", "1", "2"),
                NUMBER_FROM(ZERO, ZERO, "1") NUMBER_FROM(ZERO, "8000000000000000", "2") INFIX_FROM("+", "0", "1", "3"));
    result_from("NaNs", NUMBER(A_NAN, ONE) NUMBER("7FF8000000000000", ONE) INFIX("+", "0", "1"),
                NUMBER_FROM("7FF8000000000000", ONE, "0") INFIX_FROM("+", "0", "0", "2"));
    simpler_from("a zero of a line", NUMBER(ZERO, ZERO) "v\t0\n" INFIX("-", "1", "1"), "", 10, NUMBER_FROM(ZERO, ZERO, "0"), "", 3);
    simpler_from("a zero of the other sign", NUMBER("8000000000000000", ZERO) "v\t0\n" INFIX("-", "1", "1"), "", 10, NUMBER_FROM(ZERO, ZERO, "-"), "", 3);
}

static void origins_of_simpler(void)
{
    simpler_from("(a - b) - b", TWICE_LESS, "", 10, FROM("v\t0", "0"), "", 11);
    simpler_from("a - a", "v\t0\n" INFIX("-", "0", "0"), "", 10, NUMBER_FROM(ZERO, ZERO, "-"), "", 3);
    simpler_from("0 - a", NUMBER(ZERO, ZERO) "v\t0\n" INFIX("-", "0", "1"), "", 10, FROM("v\t0", "1") FROM("u\t-\t0", "-"), "", 5);
    simpler_from("0 - a where a line has -a", NUMBER(ZERO, ZERO) "v\t0\nu\t-\t1\n" INFIX("-", "0", "1"), "", 10, FROM("v\t0", "1") FROM("u\t-\t0", "2"), "", 5);
    simpler_from("limit 0", HALF_DIFFERENCE, "", 0,
                 FROM("v\t0", "0") FROM("v\t1", "1") INFIX_FROM("-", "0", "1", "2") NUMBER_FROM(TWO, ZERO, "3") INFIX_FROM("/", "2", "3", "4"), "", 1);
    simpler_from("a fold", SINE, ONE_FOR_EXP SIN_OF_HALF ONE_FOR_SIN, 10, NUMBER_FROM("3FDEAEE8744B05F0", ZERO, "-"), "010", 2);
    simpler_from("a fold to the number of a line", SINE, ROW("sin", HALF, ZERO, HALF, ZERO), 10, NUMBER_FROM(HALF, ZERO, "0"), "1", 2);
}

/* The origins that a listing has are looked at and ignored, whatever they say. */
static void origins_that_are_given(void)
{
    result_from("lines with origins", FROM("v\t0", "7") "v\t0\n" FROM("u\t-\t1", "-") FROM("v\t1", "1023") INFIX_FROM("+", "2", "3", "0") "s\t1\t0\n",
                FROM("v\t0", "0") FROM("u\t-\t0", "2") INFIX_FROM("+", "1", "0", "-"));
    simpler_from("lines with origins", FROM("v\t3", "5") FROM("v\t0", "5") INFIX_FROM("-", "0", "1", "5") INFIX_FROM("-", "2", "1", "5"), "", 10,
                 FROM("v\t3", "0"), "", 11);
    result("the same without", FROM("v\t0", "7") FROM("v\t0", "-") INFIX_FROM("*", "0", "1", "1"), "v\t0\n" INFIX("*", "0", "0"));
    simpler("the same without", FROM("v\t0", "1") FROM("v\t1", "-") INFIX_FROM("-", "0", "1", "3") INFIX("-", "2", "1"), "", 10, "v\t0\n", 11);
    value("a value", FROM("v\t0", "4") FROM("v\t1", "10") INFIX_FROM("-", "0", "1", "999") NUMBER_FROM(TWO, ZERO, "1000") INFIX_FROM("/", "2", "3", "-"),
          BOUND("0", "3FF4000000000000") BOUND("1", HALF), 0x3FD8000000000000, 0);
    value("a cell and a function", FROM("m\t3\t4294967295", "0") FROM("f\tsin\t0", "-"), "m\t3\t4294967295\t" HALF "\n" SIN_OF_HALF, SIN_BITS, 0);
    real("a real number", NUMBER_FROM(TWO, ZERO, "-") NUMBER_FROM(THREE, ZERO, "2"), THREE_BITS);
    real("pi", FROM("p", "0"), PI_BITS);
    compiled("a tape", FROM("v\t1", "3") FROM("u\t-\t0", "0"), TAPE(VARIABLE_STEP(1), PREFIX_STEP(2)));
    same_played("played", FROM("v\t0", "4") NUMBER_FROM(HALF, ZERO, "-") FROM("f\tcis\t1", "0") INFIX_FROM("*", "0", "2", "1"),
                BOUND("0", TWO) SIN_OF_HALF COS_OF_HALF);
    value("equal lines take one row", many("", "p\t@%u\n", 1024), "", PI_BITS, 0);
    evaluate_in("equal lines take one row", (struct lent){1, PAPER}, text, "", (uint64_t[]){0, 0, PI_BITS, 0, 0, 0});
}

/* A line that ends in this is refused by each function that reads a listing, and leaves all memory as a refusal does. */
static void bad_line(const char *name, const char *end)
{
    begin();
    add("v\t0\t@0\np\t@-\n", 0, 0);
    add("u\t-\t1\t", 0, 0);
    strcpy(text + length, end);
    no_value(name, text, "", FINDAVOREB_BAD_LIST, 2);
    no_result(name, text, FINDAVOREB_BAD_LIST, 2);
    no_real(name, text, FINDAVOREB_BAD_LIST, 2);
    not_simpler(name, text, "", 10, FINDAVOREB_BAD_LIST, 2);
    not_compiled(name, text, FINDAVOREB_BAD_LIST, 2);
}

static void malformed_origins(void)
{
    static const char *const ENDS[] = {
        "\n", "@\n", "@01\n", "@00\n", "@1024\n", "@10000\n", "@18446744073709551616\n", "@x\n", "@1a\n", "@-1\n", "@--\n", "@+1\n", "@ 1\n",
        "@1 \n", "@1\t\n", "@1\t@2\n", "@-\t@-\n", "\t@1\n", "@@1\n", "1\n", "-\n", "@1\r\n", "@", "@1", "@-"};
    for (size_t i = 0; i < sizeof ENDS / sizeof ENDS[0]; i++)
        bad_line(ENDS[i], ENDS[i]);
    no_value("without a tab", "p@1\n", "", FINDAVOREB_BAD_LIST, 0);
    no_value("an origin alone", "p\n@1\n", "", FINDAVOREB_BAD_LIST, 1);
    no_value("an origin for a child", "p\nu\t-\t@0\n", "", FINDAVOREB_BAD_LIST, 1);
    no_result("an s line", "v\t0\ns\t0\t0\t@0\n", FINDAVOREB_BAD_LIST, 1);
    no_result("an s line, and none", "v\t0\ns\t0\t0\t@-\n", FINDAVOREB_BAD_LIST, 1);
    no_value("a sheet", "p\n", "v\t0\t" ONE "\t" ZERO "\t@0\n", FINDAVOREB_BAD_SHEET, 0);
    many("", "p\t@0\n", 1024);
    add("p\t@\n", 0, 0);
    no_value("a malformed 1025th line", text, "", FINDAVOREB_LONG_LIST, 1024);
    many("", "p\t@0\n", 1023);
    add("p\t@\n", 0, 0);
    no_value("a malformed 1024th line", text, "", FINDAVOREB_BAD_LIST, 1023);
}

/* 512 numbers and a tree of 511 sums over them, below a sign: 1024 lines. */
static const char *full_listing(void)
{
    unsigned lines[512];
    begin();
    for (unsigned i = 0; i < 512; i++) {
        add("n\t%016X\t%016X\n", i, i);
        lines[i] = i;
    }
    unsigned next = join(INFIX("+", "%u", "%u"), lines, 512, 512);
    add("u\t-\t%u\n", next - 1, 0);
    return text;
}

/* A listing as it is written keeps its lines, so each is its own origin; the last of 1024 is 1023. */
static void origins_of_many(void)
{
    static char listing[PAPER], written[PAPER];
    size_t at = 0;
    unsigned line = 0;
    full_listing();
    prepare();
    findavoreb_substitute(bytes(text), length, store, FINDAVOREB_MOST_ROWS, desk, table, out, PAPER, answer);
    memcpy(listing, out, (size_t)answer[1]);
    listing[answer[1]] = 0;
    for (const char *each = listing; *each != 0; each++)
        at += (size_t)(*each == '\n' ? snprintf(written + at, PAPER - at, "\t@%u\n", line++) : snprintf(written + at, PAPER - at, "%c", *each));
    if (line != 1024)
        complain("1024 lines", "the listing has another number of lines");
    result_from("1024 lines", listing, written);
    result_from("1024 lines with origins", written, written);
    simpler_from("1024 lines at limit 0", listing, "", 0, written, "", 1);
    result("1024 lines with origins, written without", written, listing);
    result("1024 lines in another order", full_listing(), listing);
}

/* The shift has 7 nodes, and two more are made; with origins its result has 104 bytes and 21 more. */
static void origins_in_short_memory(void)
{
    const char *traced = FROM("v\t0", "0") NUMBER_FROM(HALF, ZERO, "4") INFIX_FROM("+", "0", "1", "5") FROM("v\t1", "1") INFIX_FROM("-", "2", "3", "-")
        NUMBER_FROM(TWO, ZERO, "3") INFIX_FROM("/", "4", "5", "-");
    const uint64_t full[] = {FINDAVOREB_ROOM, 0, 0, 0, 0, 0}, short_of_out[] = {FINDAVOREB_OUT_ROOM, 0, 0, 0, 0, 0};
    for (int k = 0; k < 4; k++) {
        struct lent lent = {9, strlen(traced)};
        junk = JUNK[k];
        substitute_origins_in("just enough", lent, SHIFT, traced, (uint64_t[]){0, strlen(traced), 0, 0, 0, 0});
        lent.bytes = strlen(traced) - 1;
        substitute_origins_in("a byte less", lent, SHIFT, "", short_of_out);
        lent.bytes = strlen(SHIFTED);
        substitute_origins_in("just enough without origins", lent, SHIFT, "", short_of_out);
        lent.bytes = 0;
        substitute_origins_in("an empty output", lent, SHIFT, "", short_of_out);
        lent.rows = 8;
        substitute_origins_in("full before it is written", lent, SHIFT, "", full);
        lent.rows = 3, lent.bytes = 39;
        simplify_origins_in("just enough for a fold", lent, SINE, SIN_OF_HALF, 10, NUMBER_FROM("3FDEAEE8744B05F0", ZERO, "-"), "1",
                            (uint64_t[]){0, 39, 2, 0, 0, 0});
        lent.bytes = 38;
        simplify_origins_in("an output too short after a fold", lent, SINE, SIN_OF_HALF, 10, "", "", short_of_out);
        lent.bytes = 36;
        simplify_origins_in("just enough without origins", lent, SINE, SIN_OF_HALF, 10, "", "", short_of_out);
        lent.rows = 2;
        simplify_origins_in("no room for what is folded", lent, SINE, SIN_OF_HALF, 10, "", "", full);
    }
    junk = JUNK[0];
    simplify_origins_in("a lack", ALL, CIS, ONE_FOR_EXP COS_OF_HALF, 10, "", "01",
                        (uint64_t[]){FINDAVOREB_NEED, FINDAVOREB_SIN, HALF_BITS, 0, 0, 0});
    simplify_origins_in("a limit of 11", ALL, SINE, SIN_OF_HALF, 11, "", "", (uint64_t[]){FINDAVOREB_BAD_LIMIT, 0, 0, 0, 0, 0});
    substitute_origins_in("1499 lines of result", ALL, grown(), "", (uint64_t[]){FINDAVOREB_LONG_LIST, 0, 0, 0, 0, 0});
}

/* Room for two nodes, for one, for none, whatever the memory held. */
static void few_rows(void)
{
    const uint64_t full[] = {FINDAVOREB_ROOM, 0, 0, 0, 0, 0};
    for (int k = 0; k < 4; k++) {
        struct lent lent = ALL;
        junk = JUNK[k];
        lent.rows = 2;
        evaluate_in("room for two of three", lent, "p\nv\t0\nv\t1\n", BOUND("1", ONE), full);
        evaluate_in("two of two", lent, "p\np\nu\t+\t1\n", "", (uint64_t[]){0, 0, PI_BITS, 0, 0, 0});
        substitute_in("two of three to replace", lent, "p\nv\t0\nu\t-\t1\ns\t0\t0\n", "", full);
        lent.rows = 1;
        to_real_in("one of one", lent, "p\np\n", (uint64_t[]){0, 0, PI_BITS, 0, 0, 0});
        lent.rows = 0;
        to_real_in("none", lent, "p\n", full);
        substitute_in("none to replace", lent, "v\t0\n", "", full);
        evaluate_in("a bad line before a full store", lent, "p", "", (uint64_t[]){FINDAVOREB_BAD_LIST, 0, 0, 0, 0, 0});
    }
    junk = JUNK[0];
}

/* The shift has 7 nodes, and two more are made; its result is of a known length. */
static void short_memory(void)
{
    struct lent lent = {9, strlen(SHIFTED)};
    substitute_in("just enough", lent, SHIFT, SHIFTED, (uint64_t[]){0, strlen(SHIFTED), 0, 0, 0, 0});
    lent.bytes = strlen(SHIFTED) - 1;
    substitute_in("an output too short", lent, SHIFT, "", (uint64_t[]){FINDAVOREB_OUT_ROOM, 0, 0, 0, 0, 0});
    lent.bytes = 0;
    substitute_in("an empty output", lent, SHIFT, "", (uint64_t[]){FINDAVOREB_OUT_ROOM, 0, 0, 0, 0, 0});
    lent.rows = 8;
    substitute_in("full before it is written", lent, SHIFT, "", (uint64_t[]){FINDAVOREB_ROOM, 0, 0, 0, 0, 0});
}

/* As much as (a - b) - b takes, and a little less. */
static void simplify_short_memory(void)
{
    const uint64_t done[] = {0, 4, 11, 0, 0, 0}, full[] = {FINDAVOREB_ROOM, 0, 0, 0, 0, 0},
                   short_of_out[] = {FINDAVOREB_OUT_ROOM, 0, 0, 0, 0, 0};
    struct lent lent = {7, 4};
    simplify_in("just enough to simplify", lent, TWICE_LESS, "", 10, "v\t0\n", done);
    lent.bytes = 3;
    simplify_in("an output too short", lent, TWICE_LESS, "", 10, "", short_of_out);
    lent.bytes = 0;
    simplify_in("an empty output", lent, TWICE_LESS, "", 10, "", short_of_out);
    for (int k = 0; k < 4; k++) {
        junk = JUNK[k];
        lent.rows = 6;
        simplify_in("full before it is simpler", lent, TWICE_LESS, "", 10, "", full);
        lent.rows = 3;
        simplify_in("full while it is read", lent, TWICE_LESS, "", 10, "", full);
    }
    junk = JUNK[0];
}

/* More rows than a store holds nodes: the answers are the same, and all rows come back zero. */
static void many_rows(void)
{
    const struct lent lent = {ROWS, PAPER};
    const struct tape tape = TAPE(VARIABLE_STEP(0), VARIABLE_STEP(1), INFIX_STEP(2), NUMBER_STEP(TWO_BITS, 0), INFIX_STEP(4));
    for (int k = 0; k < 4; k++) {
        junk = JUNK[k];
        evaluate_in("a value", lent, HALF_DIFFERENCE, BOUND("0", "3FF4000000000000") BOUND("1", HALF),
                    (uint64_t[]){0, 0, 0x3FD8000000000000, 0, 0, 0});
        evaluate_in("no value", lent, HALF_DIFFERENCE, "", (uint64_t[]){FINDAVOREB_INCOMPLETE, 0, 0, 0, 0, 0});
        evaluate_in("a bad listing", lent, "p\nq\n", "", (uint64_t[]){FINDAVOREB_BAD_LIST, 1, 0, 0, 0, 0});
        substitute_in("a shift", lent, SHIFT, SHIFTED, (uint64_t[]){0, strlen(SHIFTED), 0, 0, 0, 0});
        substitute_in("1499 lines of result", lent, grown(), "", (uint64_t[]){FINDAVOREB_LONG_LIST, 0, 0, 0, 0, 0});
        simplify_in("(a - b) - b", lent, TWICE_LESS, "", 10, "v\t0\n", (uint64_t[]){0, 4, 11, 0, 0, 0});
        simplify_in("no sine", lent, NUMBER(HALF, ZERO) "f\tsin\t0\n", "", 10, "",
                    (uint64_t[]){FINDAVOREB_NEED, FINDAVOREB_SIN, HALF_BITS, 0, 0, 0});
        to_real_in("pi", lent, "p\n", (uint64_t[]){0, 0, PI_BITS, 0, 0, 0});
        to_real_in("no number", lent, "v\t0\n", (uint64_t[]){FINDAVOREB_NOT_A_NUMBER, 0, 0, 0, 0, 0});
        compile_in("a tape", lent, HALF_DIFFERENCE, tape, (uint64_t[]){0, 120, 0, 0, 0, 0});
        compile_in("an empty listing", lent, "", EMPTY, (uint64_t[]){FINDAVOREB_BAD_LIST, 0, 0, 0, 0, 0});
    }
    junk = JUNK[0];
}

/* 4096 nodes fit, in so many rows or in more, and 4097 do not. */
static void most_nodes(void)
{
    static char written[PAPER];
    const uint64_t done[] = {0, 8933, 6382, 0, 0, 0}, full[] = {FINDAVOREB_ROOM, 0, 0, 0, 0, 0};
    const struct lent lent = {ROWS, PAPER}, one_less = {FINDAVOREB_MOST_ROWS - 1, PAPER};
    crowd(1);
    prepare(); /* what is written is not known from the rules: it has to be the same each time */
    findavoreb_simplify(bytes(text), length, bytes(""), 0, 10, store, FINDAVOREB_MOST_ROWS, desk, table, out, PAPER, answer);
    memcpy(written, out, done[1]);
    simplify_in("4096 nodes", ALL, text, "", 10, written, done);
    simplify_in("4096 nodes, more rows", lent, text, "", 10, written, done);
    simplify_in("4096 nodes, a row less", one_less, text, "", 10, "", full);
    crowd(2);
    simplify_in("4097 nodes", ALL, text, "", 10, "", full);
    simplify_in("4097 nodes, more rows", lent, text, "", 10, "", full);
}

int main(void)
{
    evaluate_values();
    evaluate_bad_texts();
    evaluate_limits();
    evaluate_lacks();
    substitute_results();
    substitute_refusals();
    simplify_results();
    simplify_refusals();
    to_real_jobs();
    few_rows();
    short_memory();
    simplify_short_memory();
    many_rows();
    most_nodes();
    compile_results();
    compile_refusals();
    compile_short_memory();
    play_values();
    play_lacks();
    compile_and_play();
    check_codes();
    check_fields();
    check_lengths_and_counts();
    picks();
    marks_of_values();
    marks_of_lacks();
    marks_of_refusals();
    marks_of_many();
    marks_of_folds();
    marks_of_folds_that_lack();
    marks_of_large_nodes();
    marks_of_long_results();
    marks_of_short_memory();
    origins_of_results();
    origins_of_numbers();
    origins_of_simpler();
    origins_that_are_given();
    malformed_origins();
    origins_of_many();
    origins_in_short_memory();
    printf("%u calls, %u wrong\n", calls, wrong);
    return wrong == 0 ? EXIT_SUCCESS : EXIT_FAILURE;
}
