/* How much stack the functions of findavoreb.h use, and the zero and one tests alone. Each job runs on a stack of its own that was painted
 * before; the lowest byte that has changed says how deep the call went. Two paints, since a byte may be written as it was. For each function
 * the most is printed, the answer's number there, and the job; a number as argument asks for so many random jobs. bench/stack builds it
 * and runs it. */
#include <math.h>
#include <stdbool.h>
#include <stdio.h>
#include <stdlib.h>
#include <string.h>
#include <ucontext.h>

#include "findavoreb.h"

enum { STACK = 1 << 16, TEXT = 1 << 17, RANDOM_JOBS = 4000 };

static uint8_t stack[STACK] __attribute__((aligned(64)));
static uint64_t store[FINDAVOREB_MOST_ROWS][4], desk[FINDAVOREB_DESK_WORDS], table[FINDAVOREB_TABLE_WORDS];
static uint64_t answer[FINDAVOREB_ANSWER_WORDS], picked[FINDAVOREB_PICKED_WORDS];
static uint8_t out[FINDAVOREB_ORIGINS_OUT_BYTES], marks[FINDAVOREB_MARKS_BYTES];

/* ---- a job and its texts */

static char listing[TEXT], sheet[TEXT];
static uint8_t tape[FINDAVOREB_TAPE_BYTES];
static size_t listing_length, swaps_length, sheet_length, tape_length; /* the s lines stand after the listing, for substituting alone */

/* The stack pointer just before a call, so that the return address and what C passes on the stack are counted. */
static uint8_t *top;
#define HERE __asm__ volatile("mov %%rsp, %0" : "=m"(top) : : "memory")
#define LISTING (uint8_t *)listing, listing_length
#define WITH_SWAPS (uint8_t *)listing, listing_length + swaps_length
#define SHEET (uint8_t *)sheet, sheet_length
#define WORK store, FINDAVOREB_MOST_ROWS, desk, table

static void evaluate(void) { HERE; findavoreb_evaluate(LISTING, SHEET, WORK, answer); }
static void substitute(void) { HERE; findavoreb_substitute(WITH_SWAPS, WORK, out, sizeof out, answer); }
static void to_real(void) { HERE; findavoreb_to_real(LISTING, WORK, answer); }
static void simplify(void) { HERE; findavoreb_simplify(LISTING, SHEET, 10, WORK, out, sizeof out, answer); }
static void compile(void) { HERE; findavoreb_compile(LISTING, WORK, out, sizeof out, answer); }
static void play(void) { HERE; findavoreb_play(tape, tape_length, SHEET, table, answer); }
static void evaluate_marked(void) { HERE; findavoreb_evaluate_marked(LISTING, SHEET, WORK, answer, marks); }
static void simplify_marked(void) { HERE; findavoreb_simplify_marked(LISTING, SHEET, 10, WORK, out, sizeof out, answer, marks); }
static void play_marked(void) { HERE; findavoreb_play_marked(tape, tape_length, SHEET, table, answer, marks); }
static void substitute_origins(void) { HERE; findavoreb_substitute_origins(WITH_SWAPS, WORK, out, sizeof out, answer); }
static void simplify_origins(void) { HERE; findavoreb_simplify_origins(LISTING, SHEET, 10, WORK, out, sizeof out, answer, marks); }
static void check(void) { HERE; findavoreb_check(tape, tape_length, answer); }
static void pick(void) { HERE; findavoreb_pick(tape, tape_length, tape, tape_length, picked); }
static void version(void) { HERE; findavoreb_version(); }

/* The zero and one tests, by the crate timed, which calls them and does nothing else. */
bool timed_is_zero(double re, double im), timed_is_one(double re, double im);
static double re, im;
static bool told;

static void is_zero(void) { HERE; told = timed_is_zero(re, im); }
static void is_one(void) { HERE; told = timed_is_one(re, im); }

static struct function {
    const char *name;
    void (*call)(void);
    size_t most;
    uint64_t number;
    const char *job;
} functions[] = {
    {"evaluate", evaluate, 0, 0, ""}, {"substitute", substitute, 0, 0, ""}, {"to_real", to_real, 0, 0, ""},
    {"simplify", simplify, 0, 0, ""}, {"compile", compile, 0, 0, ""},       {"play", play, 0, 0, ""},
    {"check", check, 0, 0, ""},       {"pick", pick, 0, 0, ""},             {"version", version, 0, 0, ""},
    {"evaluate_marked", evaluate_marked, 0, 0, ""}, {"simplify_marked", simplify_marked, 0, 0, ""}, {"play_marked", play_marked, 0, 0, ""},
    {"substitute_origins", substitute_origins, 0, 0, ""}, {"simplify_origins", simplify_origins, 0, 0, ""},
}, tests[] = {{"is_zero", is_zero, 0, 0, ""}, {"is_one", is_one, 0, 0, ""}};

enum { FUNCTIONS = sizeof functions / sizeof functions[0], TESTS = sizeof tests / sizeof tests[0] };

/* ---- painting */

static void (*call)(void);
static ucontext_t here, there;

static void enter(void) { call(); }

static size_t depth_with(uint8_t paint)
{
    size_t lowest = 0;
    memset(stack, paint, STACK);
    getcontext(&there);
    there.uc_stack.ss_sp = stack;
    there.uc_stack.ss_size = STACK;
    there.uc_link = &here;
    makecontext(&there, enter, 0);
    swapcontext(&here, &there);
    while (stack[lowest] == paint)
        lowest++;
    return (size_t)(top - (stack + lowest));
}

static uint64_t number_of(const struct function *f)
{
    if (f->call == is_zero || f->call == is_one)
        return told;
    return f->call == pick ? picked[0] : f->call == version ? 0 : answer[0];
}

static void try_function(struct function *f, const char *job)
{
    size_t one, two;
    call = f->call;
    one = depth_with(0xA5);
    two = depth_with(0x5A);
    if (one < two)
        one = two;
    if (f->most < one) {
        f->most = one;
        f->number = number_of(f);
        f->job = job;
    }
}

/* The tape is the one that compiling writes, or the last that it wrote. */
static void try_all(const char *job)
{
    compile();
    if (answer[0] == FINDAVOREB_DONE) {
        tape_length = (size_t)answer[1];
        memcpy(tape, out, tape_length);
    }
    for (size_t i = 0; i < FUNCTIONS; i++)
        try_function(&functions[i], job);
}

/* ---- sheets */

static void add(char *text, size_t *length, const char *format, unsigned a, unsigned b)
{
    *length += (size_t)snprintf(text + *length, TEXT - *length, format, a, b);
}

#define ZERO "0000000000000000"
#define ONE "3FF0000000000000"

/* As many lines as a sheet may have. The last t row is the sine of 1, the one before its cosine. */
static void full_sheet(void)
{
    sheet_length = 0;
    for (unsigned i = 0; i < 256; i++)
        add(sheet, &sheet_length, "v\t%u\t" ONE "\t" ZERO "\n", i, 0);
    for (unsigned i = 0; i < 1024; i++)
        add(sheet, &sheet_length, "m\t%u\t%u\t" ONE "\n", i / 128, i % 128);
    for (unsigned i = 0; i < 254; i++)
        add(sheet, &sheet_length, "t\tpow\t%016X\t" ZERO "\t" ONE "\t" ZERO "\t" ONE "\t" ZERO "\n", i, 0);
    add(sheet, &sheet_length, "t\tcos\t" ONE "\t" ZERO "\t" ZERO "\t" ZERO "\t" ONE "\t" ZERO "\n", 0, 0);
    add(sheet, &sheet_length, "t\tsin\t" ONE "\t" ZERO "\t" ZERO "\t" ZERO "\t" ZERO "\t" ZERO "\n", 0, 0);
}

/* ---- listings */

static void line(const char *format, unsigned a, unsigned b) { add(listing, &listing_length, format, a, b); }
static void swap_line(unsigned variable, unsigned node)
{
    size_t length = listing_length + swaps_length;
    add(listing, &length, "s\t%u\t%u\n", variable, node);
    swaps_length = length - listing_length;
}

static void new_listing(void) { listing_length = swaps_length = 0; }

/* An expression of depth 64 whose stack has 64 values: the left operand of each infix is a leaf or a function of one. An s line for the
 * variable has all of it built anew. */
static void deep_chain(const char *operator)
{
    new_listing();
    line("v\t255\nm\t7\t127\nf\tcis\t0\nn\t" ONE "\t" ZERO "\n", 0, 0);
    for (unsigned i = 0; i < 62; i++) {
        line("b\t", 0, 0);
        line(operator, 0, 0);
        line("\t%u\t%u\n", i % 3, i == 0 ? 2 : i + 3);
    }
    swap_line(255, 3);
}

/* 63 times the same over a variable. */
static void deep_stack(const char *what)
{
    new_listing();
    line("v\t255\n", 0, 0);
    for (unsigned i = 0; i < 63; i++) {
        line(what, 0, 0);
        line("\t%u\n", i, 0);
    }
    swap_line(255, 0);
}

static uint64_t seed = 0xA0761D6478BD642F;

static unsigned below(unsigned limit)
{
    seed = seed * 6364136223846793005 + 1442695040888963407;
    return (unsigned)((seed >> 33) % limit);
}

static void random_leaf(void)
{
    switch (below(6)) {
    case 0: line("n\t" ONE "\t" ZERO "\n", 0, 0); break;
    case 1: line("n\t" ZERO "\t" ZERO "\n", 0, 0); break;
    case 2: line("n\t4008000000000000\t3FE0000000000000\n", 0, 0); break;
    case 3: line("m\t%u\t%u\n", below(8), below(4)); break;
    default: line("v\t%u\n", below(3), 0);
    }
}

/* A node over two of the last few before it, so that it grows deep. */
static void random_node(unsigned number)
{
    static const char *functions[] = {"sin", "cos", "exp", "sqrt", "cis"}, *infixes[] = {"+", "-", "*", "/", "^"};
    unsigned a = number - 1 - below(number < 3 ? number : 3), b = below(2) ? below(number) : number - 1, kind = below(12);
    if (kind == 0) {
        line("f\t", 0, 0);
        line(functions[below(5)], 0, 0);
        line("\t%u\n", a, 0);
    } else if (kind < 3) {
        line(kind == 1 ? "u\t-\t%u\n" : "u\t+\t%u\n", a, 0);
    } else {
        line("b\t", 0, 0);
        line(infixes[below(below(4) == 0 ? 5 : 4)], 0, 0);
        line("\t%u\t%u\n", kind % 2 ? a : b, kind % 2 ? b : a);
    }
}

static void random_listing(void)
{
    unsigned leaves = 1 + below(4), nodes = 2 + below(70);
    new_listing();
    for (unsigned i = 0; i < leaves; i++)
        random_leaf();
    for (unsigned i = leaves; i < leaves + nodes; i++)
        random_node(i);
    swap_line(0, below(leaves + nodes));
}

/* ---- the jobs */

static void deep_jobs(void)
{
    static const char *infixes[] = {"+", "-", "*", "/", "^"};
    for (unsigned i = 0; i < 5; i++) {
        deep_chain(infixes[i]);
        try_all("depth 64, a chain of one infix operator with cis at its end");
    }
    deep_stack("f\tsin");
    try_all("depth 64, functions of functions");
    deep_stack("u\t-");
    try_all("depth 64, prefixes of prefixes");
}

static void refused_jobs(void)
{
    new_listing();
    for (unsigned i = 0; i < 1024; i++)
        line("n\t" ONE "\t%016X\n", i, 0);
    try_all("1024 numbers");
    line("q", 0, 0);
    try_all("a bad last line of a listing");
    deep_chain("+");
    compile();
    add(sheet, &sheet_length, "q\n", 0, 0);
    try_all("a bad last line of a sheet");
    tape[tape_length - 1] ^= 1;
    try_function(&functions[5], "an unsound tape");
    try_function(&functions[6], "an unsound tape");
}

/* ---- the zero and one tests */

#define T 1e-10

static void try_number(double x, double y, const char *job)
{
    re = x;
    im = y;
    try_function(&tests[0], job);
    re = 1 + x;
    try_function(&tests[1], job);
}

/* Every number with two of these parts, then some around the circle of radius T. */
static void numbers(unsigned jobs)
{
    static const double parts[] = {0, 5e-324, 1e-310, 1e-100, 1e-20, T / 2, 0x1.36fd255a2213bp-34, T - 1e-20, T, 2 * T, 1, INFINITY, NAN};
    enum { PARTS = sizeof parts / sizeof parts[0] };
    for (unsigned i = 0; i < PARTS * PARTS; i++)
        try_number(parts[i / PARTS], -parts[i % PARTS], "a number of two parts from 0 to infinity");
    for (unsigned i = 0; i < jobs; i++) {
        double x = T / 1000 * below(1001);
        try_number(x, sqrt(T * T - x * x) * (1 - 1e-16 * below(9)), "a number near T");
    }
}

static void print(const struct function *f, size_t count)
{
    for (const struct function *end = f + count; f < end; f++)
        printf("%-20s%8zu  answer %2llu  %s\n", f->name, f->most, (unsigned long long)f->number, f->job);
}

int main(int count, char **words)
{
    unsigned jobs = count > 1 ? (unsigned)strtoul(words[1], NULL, 10) : RANDOM_JOBS;
    full_sheet();
    deep_jobs();
    refused_jobs();
    sheet_length = 0;
    deep_jobs();
    full_sheet();
    for (unsigned i = 0; i < jobs; i++) {
        random_listing();
        try_all("a random expression");
    }
    numbers(jobs);
    print(functions, FUNCTIONS);
    print(tests, TESTS);
    return EXIT_SUCCESS;
}
