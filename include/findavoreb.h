/* Findavoreb for C and for all that calls C: expressions evaluated, simplified, substituted and read as real numbers, or compiled to a
 * tape that is checked, played and picked.
 *
 * The functions are those of the static library that `tools/staticlib exports` makes, target/staticlib/libexports.a, for x86-64. What is
 * named here is what a caller lends and what comes back. How a listing, a sheet and a tape are written and when each is refused is said in
 * docs/FORMATS.md; what of all this is proved, and what is believed, in docs/TRUST.md.
 *
 * What a function asks of its caller: nothing of the bytes and nothing of the lengths. Whatever texts, tapes, work memory and answer
 * hold at entry, a function returns, and its answer is what the rules say. It keeps nothing between calls and allocates
 * nothing, so that calls with memory of their own may run at the same time.
 *
 * What a caller must see to. Nothing of it can be tested by the functions, and without it nothing is promised:
 *
 *   Pointers      A pointer is not null and is aligned for what it points to; there are as many elements behind it as its length, or the
 *                 parameter's comment, says; and the lent memory (store, desk, table, out, answer, marks, picked) overlaps neither itself
 *                 nor a text nor a tape. This holds for a length of 0 too, where any aligned address will do, as FINDAVOREB_NO_BYTES. Null
 *                 with a length of 0 is not promised, since the proofs know no null pointer. It is harmless in this archive: nothing
 *                 is read or written through a pointer whose length is 0, the compiler was not told that a pointer is not null, and
 *                 tests/c tries it for each of them.
 *   Other threads From a call's beginning to its return nobody else writes to what it is lent, texts and tapes included, and nobody else
 *                 reads what it may write. Bytes are read more than once: a tape is first checked and then played, and one that changes
 *                 in between is neither.
 *   Arithmetic    The processor rounds to nearest, handles subnormal numbers as IEEE 754 has them (neither flushes results to zero nor
 *                 takes operands for zero) and masks all exceptions. So it is in every thread of a C program that has not changed it.
 *                 Linking with -ffast-math changes it for the whole program, before main: 2^-1074 + 2^-1074 is then 0, with no refusal.
 *                 So do fesetround, feenableexcept and some libraries. findavoreb_float_mode_is_right, below, looks. On x86-64 only the
 *                 register MXCSR counts: the archive has no x87 instruction. A call may set the flags of exceptions (fetestexcept), and
 *                 leaves the mode as it was.
 *   memset        The archive needs this one function of the C library, and nothing else. A host without a C library brings its own.
 *   Stack         Bytes that a call takes, its return address and what C passes on the stack included. Measured on x86-64, with the build
 *                 of an older kit, by bench/stack, the most over its jobs, and not proved (bench/results/stack.md). What memset takes is not in it, nor
 *                 what binding it takes at its first call in a dynamically linked program, about 3,000 bytes.
 *
 *                   evaluate        15,600    substitute      14,648    simplify        8,904    compile     8,408
 *                   play             2,552    to_real            520    pick              144    check         128    version 8
 *                   evaluate_marked 15,352    simplify_marked  8,928    play_marked     2,304
 *                   substitute_origins 14,648    simplify_origins 8,928
 *
 * What holds at every return, also after a refusal: each word of the store's rows, as many as are lent, of the desk and of the table is
 * 0. After a refusal, out is as it was; after a success its first bytes are the result, and the rest is as it was. marks, where it is lent,
 * is written whole.
 *
 * What to lend, in bytes:
 *
 *   store    32 a row      131,072 for 4096 rows, 32,768 for 1024      evaluate, substitute, to_real, simplify, compile
 *   desk      2,176                                                    the same
 *   table    36,864                                                    the same, and play
 *   answer       48                                                    all but pick and version; pick 16
 *   out      36,864 for a listing, 12,288 for a tape, or less          substitute, simplify; compile
 *            43,008 for a listing with origins, or less                substitute_origins, simplify_origins
 *   marks       256                                                    evaluate_marked, simplify_marked, simplify_origins, play_marked
 *
 *   in all   170,160 with 4096 rows and 71,856 with 1024, and out; 36,912 for play; with marks 256 more
 *
 * How many rows: evaluate, to_real and compile store no more nodes than the listing has node lines, of which there are at most 1024. So
 * 1024 rows are always enough for them: with more the answer is the same, word for word, and compile's bytes too (proved:
 * crates/exports/proofs/Capacity.antt); for a shorter listing as many as it has lines are enough (tried by tests/c). substitute and
 * simplify store new nodes besides. All rows that are lent are cleared, whether or not they were used: about 0.3 ns a row on the machine
 * that docs/SPEED.md names, 1.2 microseconds for 4096, where a whole call on 5 nodes with 64 rows takes 0.7. So lend evaluate, to_real and
 * compile as many rows as the listing has lines, or 1024; simplify and substitute 4096, if no job is to be refused for want of room.
 *
 * Memory that was never written: a function reads rows, and the words of the table that are an index of the sheet's t lines, before it
 * writes them, tests what it finds there, and answers the same whatever it was. So a memory checker (valgrind) that watches memory fresh
 * from malloc reports jumps that depend on uninitialised values, and soundly: of the rows in store::add and writing::order::visit, of the
 * table in sheet::read_sheet and evaluation::calculate::ask. The report is harmless where two reads of one word give the same, which is not
 * so of pages that the system may still take back (MADV_FREE). Who zeroes the memory once, as by calloc, has neither: every return leaves
 * it zero. Nothing was reported of desk, out, answer and marks. */
#ifndef FINDAVOREB_H
#define FINDAVOREB_H

#include <stddef.h>
#include <stdint.h>

#ifdef __cplusplus
extern "C" {
#endif

/* Which version this is: major.minor.patch, and as a number 10000 * major + 100 * minor + patch.
 *
 *   major   a program that was right with the one before has to be changed, or at least compiled anew: a parameter, a size, the meaning of
 *           an answer or what a call asks is another one. It is FINDAVOREB_INTERFACE.
 *   minor   something was added: a function, a macro, the number of a refusal that only an added function gives. What was there answers as
 *           before.
 *   patch   no declaration changed and no answer: speed, stack, words.
 *
 * In 1 the store was four slices of words, tag, first, second and link, each with a length of its own; in 2 it is rows, with a desk beside
 * them. So each of the five functions with a store has three parameters (the rows, their number, the desk) in place of eight (a pointer and a
 * length for each of the four slices). The table has 4608 words in place of 8192. All else is as it was: the other parameters and functions, the answers, what is written
 * to out. 2.1 added the three functions with marks. 2.2 added the two functions with origins; and a listing whose node lines have origins,
 * which was FINDAVOREB_BAD_LIST before, is accepted by every function that reads one. */
#define FINDAVOREB_INTERFACE 2
#define FINDAVOREB_VERSION "2.2.0"
#define FINDAVOREB_VERSION_NUMBER 20200

/* The version of the archive that was linked, as a number: FINDAVOREB_VERSION_NUMBER, unless this header is that of another version. */
uint64_t findavoreb_version(void);

/* answer[0], which is also what each function returns: 0 for a success, else why the job is refused. The numbers and the names are
 * those of the rules. */
enum findavoreb_refusal {
    FINDAVOREB_DONE = 0,
    FINDAVOREB_BAD_LIST = 1,     /* a line of the listing is malformed, out of order or without its line feed; or no node line */
    FINDAVOREB_LONG_LIST = 2,    /* the 1025th node line or the 257th s line; or a result of more than 1024 lines, with place 0 */
    FINDAVOREB_BAD_SHEET = 3,    /* a line of the sheet is malformed, out of order or without its line feed */
    FINDAVOREB_LONG_SHEET = 4,   /* the 257th v line, the 1025th m line or the 257th t line */
    FINDAVOREB_BAD_LIMIT = 5,    /* a limit above 10 */
    FINDAVOREB_BIG = 6,          /* a new node of a size above 1,000,000 */
    FINDAVOREB_DEEP = 7,         /* a new node of a depth above 64 */
    FINDAVOREB_ROOM = 8,         /* a new node, and the store is full */
    FINDAVOREB_NEED = 9,         /* the sheet has no t row for this function value */
    FINDAVOREB_INCOMPLETE = 10,  /* evaluation met a variable or a memory cell that the sheet does not bind */
    FINDAVOREB_NOT_REAL = 11,    /* the number's imaginary part is not below 1e-16 in magnitude */
    FINDAVOREB_NOT_A_NUMBER = 12, /* the expression is neither a number nor pi */
    FINDAVOREB_OUT_ROOM = 13,    /* out is shorter than the result */
    FINDAVOREB_LONG_TAPE = 14,   /* an expression of a size above 512, to be compiled */
    FINDAVOREB_BAD_TAPE = 15,    /* an unsound tape */
    /* No function of this library answers one of those below yet. */
    FINDAVOREB_BAD_NAMES = 16,   /* a line of the name sheet is malformed, repeats a name or a number, or is without its line feed */
    FINDAVOREB_UNKNOWN_NAME = 17, /* a name without a number in the name sheet, or a number without a name */
    FINDAVOREB_BAD_BOOK = 18,    /* an unknown rule book */
    FINDAVOREB_MANY = 19,        /* the 4097th listing */
    FINDAVOREB_NO_TEXT = 20      /* a number with a part that is not written as Quil text */
};

/* answer[1] after FINDAVOREB_NEED: which function value is lacking. */
enum findavoreb_operation {
    FINDAVOREB_SIN = 1,
    FINDAVOREB_COS = 2,
    FINDAVOREB_EXP = 3,
    FINDAVOREB_SQRT = 4,
    FINDAVOREB_POW = 5
};

/* Sizes. The store has a row of four words for each node: it holds as many nodes as rows, and no more than 4096. The desk, the table, the
 * answer, the marks and what is picked have exactly the size that is given here. No written listing is longer than 1024 lines of 36 bytes,
 * with origins of 42 bytes; no tape is longer than 512 steps of 24 bytes. */
enum {
    FINDAVOREB_MOST_ROWS = 4096,
    FINDAVOREB_DESK_WORDS = 272,
    FINDAVOREB_TABLE_WORDS = 4608,
    FINDAVOREB_ANSWER_WORDS = 6,
    FINDAVOREB_MARKS_BYTES = 256,
    FINDAVOREB_OUT_BYTES = 36864,
    FINDAVOREB_ORIGINS_OUT_BYTES = 43008,
    FINDAVOREB_TAPE_BYTES = 12288,
    FINDAVOREB_PICKED_WORDS = 2
};

/* An empty text. */
#define FINDAVOREB_NO_BYTES ((const uint8_t *)"")

/* All the work memory of a call behind one pointer, for those who want that. A function is lent its four parts. */
struct findavoreb_work {
    uint64_t (*store)[4];
    size_t rows;
    uint64_t desk[FINDAVOREB_DESK_WORDS];
    uint64_t table[FINDAVOREB_TABLE_WORDS];
};

/* Work memory with these rows, which stay as they are (at the top, "Memory that was never written"), and with 0 in each word of the desk and
 * of the table, though no function asks for that. */
static inline void findavoreb_init_work(struct findavoreb_work *work, uint64_t (*store)[4], size_t rows)
{
    size_t i;
    work->store = store;
    work->rows = rows;
    for (i = 0; i < FINDAVOREB_DESK_WORDS; i++)
        work->desk[i] = 0;
    for (i = 0; i < FINDAVOREB_TABLE_WORDS; i++)
        work->table[i] = 0;
}

/* Whether this thread's arithmetic is in the mode that the functions ask for (at the top, "Arithmetic"): 1, or 0. On x86-64 it reads
 * MXCSR: the rounding is to nearest, neither FTZ nor DAZ is set and all six exceptions are masked. On AArch64 it reads FPCR: the rounding
 * is to nearest, FZ, FIZ, AH and NEP are 0 and no exception is trapped; DN and FZ16 do not matter. On any other processor, or for a
 * compiler that does not know GNU C's asm, it cannot tell and answers 0. */
static inline int findavoreb_float_mode_is_right(void)
{
#if defined(__GNUC__) && defined(__x86_64__)
    uint32_t mode;
    __asm__ volatile("stmxcsr %0" : "=m"(mode));
    return (mode & 0xFFC0) == 0x1F80; /* FTZ 15, rounding 14 and 13, masks 12 to 7, DAZ 6 */
#elif defined(__GNUC__) && defined(__aarch64__)
    uint64_t mode;
    __asm__ volatile("mrs %0, fpcr" : "=r"(mode));
    return (mode & 0x1C09F07) == 0; /* FZ 24, rounding 23 and 22, traps 15 and 12 to 8, NEP 2, AH 1, FIZ 0 */
#else
    return 0;
#endif
}

/* The answer's words; those that are not used are 0.
 *
 *   [0]       0, or the number of the refusal; it is returned as well
 *   [1]       after a success: how many bytes were written to out, 0 for a function without out; from check the number of steps
 *             after FINDAVOREB_NEED: the operation
 *             after FINDAVOREB_BAD_TAPE: the first bad step, counted from 0; 0 for a length that no tape has; the step past the last
 *             where the tape does not end with one value
 *             after another refusal: the line of the listing or of the sheet, counted from 0, if the refusal carries one
 *   [2], [3]  after a success: the bits of the value's real and imaginary part; of the real number and 0 from to_real; 0, 0 from
 *             substitute, compile and check; the number of simplify calls that were made and 0 from simplify
 *             after FINDAVOREB_NEED: the bits of the real and imaginary part of the operand, for pow of the first one
 *   [4], [5]  after FINDAVOREB_NEED: the same of the second operand, 0, 0 unless the operation is pow
 *
 * Bits are those of IEEE 754 binary64; a NaN is always 7FF8000000000000. */

/* The value of the listing's expression under the sheet. The sheet may be empty. */
uint64_t findavoreb_evaluate(
    const uint8_t *listing, size_t listing_length,
    const uint8_t *sheet, size_t sheet_length,
    uint64_t (*store)[4], size_t rows,
    uint64_t *desk,    /* FINDAVOREB_DESK_WORDS words */
    uint64_t *table,   /* FINDAVOREB_TABLE_WORDS words */
    uint64_t *answer); /* FINDAVOREB_ANSWER_WORDS words */

/* The listing's expression with its variables replaced as the listing's s lines say, all at once, written to out as a listing. */
uint64_t findavoreb_substitute(
    const uint8_t *listing, size_t listing_length,
    uint64_t (*store)[4], size_t rows,
    uint64_t *desk,    /* FINDAVOREB_DESK_WORDS words */
    uint64_t *table,   /* FINDAVOREB_TABLE_WORDS words */
    uint8_t *out, size_t out_length,
    uint64_t *answer); /* FINDAVOREB_ANSWER_WORDS words */

/* The real number that the listing's expression is, if it is a number or pi; nothing is worked out. */
uint64_t findavoreb_to_real(
    const uint8_t *listing, size_t listing_length,
    uint64_t (*store)[4], size_t rows,
    uint64_t *desk,    /* FINDAVOREB_DESK_WORDS words */
    uint64_t *table,   /* FINDAVOREB_TABLE_WORDS words */
    uint64_t *answer); /* FINDAVOREB_ANSWER_WORDS words */

/* The listing's expression simplified at the limit, 0 to 10, written to out as a listing. Of the sheet only the t rows are used; it may
 * be empty, and FINDAVOREB_NEED says which row is wanted next. The number of simplify calls is at most 244,531. */
uint64_t findavoreb_simplify(
    const uint8_t *listing, size_t listing_length,
    const uint8_t *sheet, size_t sheet_length,
    uint64_t limit,
    uint64_t (*store)[4], size_t rows,
    uint64_t *desk,    /* FINDAVOREB_DESK_WORDS words */
    uint64_t *table,   /* FINDAVOREB_TABLE_WORDS words */
    uint8_t *out, size_t out_length,
    uint64_t *answer); /* FINDAVOREB_ANSWER_WORDS words */

/* The listing's expression compiled, written to out as a tape: 24 bytes for each node as often as evaluation visits it. */
uint64_t findavoreb_compile(
    const uint8_t *listing, size_t listing_length,
    uint64_t (*store)[4], size_t rows,
    uint64_t *desk,    /* FINDAVOREB_DESK_WORDS words */
    uint64_t *table,   /* FINDAVOREB_TABLE_WORDS words */
    uint8_t *out, size_t out_length,
    uint64_t *answer); /* FINDAVOREB_ANSWER_WORDS words */

/* The tape played under the sheet, which may be empty. A tape that was compiled gives what findavoreb_evaluate gives for its listing:
 * the same six words, unless evaluating is lent fewer rows than the listing needs and answers FINDAVOREB_ROOM. The tape is checked before
 * the sheet is read. No store is needed. */
uint64_t findavoreb_play(
    const uint8_t *tape, size_t tape_length,
    const uint8_t *sheet, size_t sheet_length,
    uint64_t *table,   /* FINDAVOREB_TABLE_WORDS words */
    uint64_t *answer); /* FINDAVOREB_ANSWER_WORDS words */

/* Which t rows were used. The three functions below are evaluate, simplify and play with one parameter more, the last. For the same texts,
 * tape, limit and lengths they answer the same, write the same to out and leave the work memory zero alike. Besides they write marks:
 *
 *   marks[j]  1 if t row j of the sheet was used, else 0; rows are counted from 0, among the t lines alone
 *
 * A row is used where a function value is looked up and this row is found for it: the first that matches, so that a later one with the same
 * name and operands has no mark. cis looks up cos and then sin. However often a row is used, its mark is 1.
 *
 * marks is always written whole, whatever it held and whatever the answer is. After a success it has all rows that were used. After
 * FINDAVOREB_NEED and FINDAVOREB_INCOMPLETE it has those that were used up to there, the row for the cos of a cis that lacks its sin among
 * them. After any other refusal all marks are 0, also where an expression was simplified and its result is refused by FINDAVOREB_LONG_LIST
 * or FINDAVOREB_OUT_ROOM. Marks are an answer and no bytes of the output: what is said above of out after a refusal is not said of them.
 *
 * evaluate, simplify and play themselves have the parameters and the answers that they had, because who does not ask which rows were used
 * needs no array to lend. */
uint64_t findavoreb_evaluate_marked(
    const uint8_t *listing, size_t listing_length,
    const uint8_t *sheet, size_t sheet_length,
    uint64_t (*store)[4], size_t rows,
    uint64_t *desk,    /* FINDAVOREB_DESK_WORDS words */
    uint64_t *table,   /* FINDAVOREB_TABLE_WORDS words */
    uint64_t *answer,  /* FINDAVOREB_ANSWER_WORDS words */
    uint8_t *marks);   /* FINDAVOREB_MARKS_BYTES bytes */

/* The rows are those that were looked up while it was simplified: for each operation on numbers that was worked out, whether or not its
 * number stands in the result. A result that is kept for an equal part already is not worked out again. */
uint64_t findavoreb_simplify_marked(
    const uint8_t *listing, size_t listing_length,
    const uint8_t *sheet, size_t sheet_length,
    uint64_t limit,
    uint64_t (*store)[4], size_t rows,
    uint64_t *desk,    /* FINDAVOREB_DESK_WORDS words */
    uint64_t *table,   /* FINDAVOREB_TABLE_WORDS words */
    uint8_t *out, size_t out_length,
    uint64_t *answer,  /* FINDAVOREB_ANSWER_WORDS words */
    uint8_t *marks);   /* FINDAVOREB_MARKS_BYTES bytes */

/* A tape that was compiled gives the marks that findavoreb_evaluate_marked gives for its listing, where that answers the same. */
uint64_t findavoreb_play_marked(
    const uint8_t *tape, size_t tape_length,
    const uint8_t *sheet, size_t sheet_length,
    uint64_t *table,   /* FINDAVOREB_TABLE_WORDS words */
    uint64_t *answer,  /* FINDAVOREB_ANSWER_WORDS words */
    uint8_t *marks);   /* FINDAVOREB_MARKS_BYTES bytes */

/* Where each node came from. The two functions below are substitute and simplify_marked, with the parameters of these. What they write is
 * the listing that these write, with one field more at the end of each line, before its line feed: a tab and
 *
 *   @n        n is the first node line of the listing, counted from 0, that gave this node: the same expression, bit for bit. However
 *             often the node comes up again, and whatever it was put in for, this stays its origin
 *   @-        no line gave it: substituting or simplifying made it
 *
 * Without these fields the bytes are those that substitute and simplify_marked write, and so are the answer's words but for answer[1], the
 * number of bytes, which counts the fields. FINDAVOREB_LONG_LIST comes where it comes from these. FINDAVOREB_OUT_ROOM speaks of the longer
 * bytes; FINDAVOREB_ORIGINS_OUT_BYTES are always enough.
 *
 * A listing that is read may have such a field at the end of any of its node lines, in every function of this header. The field is looked
 * at, so that a malformed one is FINDAVOREB_BAD_LIST, and then ignored: what is written has the lines of the listing that was read, and not
 * those that its fields name. */
uint64_t findavoreb_substitute_origins(
    const uint8_t *listing, size_t listing_length,
    uint64_t (*store)[4], size_t rows,
    uint64_t *desk,    /* FINDAVOREB_DESK_WORDS words */
    uint64_t *table,   /* FINDAVOREB_TABLE_WORDS words */
    uint8_t *out, size_t out_length,
    uint64_t *answer); /* FINDAVOREB_ANSWER_WORDS words */

/* The marks are those of findavoreb_simplify_marked, and all 0 after FINDAVOREB_OUT_ROOM, which speaks of the longer bytes. */
uint64_t findavoreb_simplify_origins(
    const uint8_t *listing, size_t listing_length,
    const uint8_t *sheet, size_t sheet_length,
    uint64_t limit,
    uint64_t (*store)[4], size_t rows,
    uint64_t *desk,    /* FINDAVOREB_DESK_WORDS words */
    uint64_t *table,   /* FINDAVOREB_TABLE_WORDS words */
    uint8_t *out, size_t out_length,
    uint64_t *answer,  /* FINDAVOREB_ANSWER_WORDS words */
    uint8_t *marks);   /* FINDAVOREB_MARKS_BYTES bytes */

/* Whether the bytes are a sound tape: FINDAVOREB_DONE and the number of steps, or FINDAVOREB_BAD_TAPE and the first bad step. */
uint64_t findavoreb_check(
    const uint8_t *tape, size_t tape_length,
    uint64_t *answer); /* FINDAVOREB_ANSWER_WORDS words */

/* Which of two tapes is picked: the one with fewer steps, the first at a tie; an unsound one loses. It is returned, and is picked[0] too:
 * 1 for the first, 2 for the second, 0 if neither is sound. picked[1] is how many bytes the picked one has, 0 for neither. The two may
 * overlap or be the same. */
uint64_t findavoreb_pick(
    const uint8_t *first, size_t first_length,
    const uint8_t *second, size_t second_length,
    uint64_t *picked); /* FINDAVOREB_PICKED_WORDS words */

#ifdef __cplusplus
}
#endif

#endif
