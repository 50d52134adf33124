// How fast evaluating and playing are in plain C over the library's own layout: rows of four words (link, tag, first, second) with the
// code in the tag's low six bits, the sheet's table, the tape's steps of 24 bytes. bench/cores puts these times beside the library's.
// The kit's clang has no headers, so there are none here.
typedef __UINT64_TYPE__ word;
typedef unsigned char byte;

struct complex { double re, im; };

// The rows of a sheet in the table: variables from word 0 on, cells, function values.
struct sheet { const word *table; word variables, cells, functions; };

enum { CELLS = 768, FUNCTIONS = 2816, DONE = 0, NEED = 9, INCOMPLETE = 10, BAD_TAPE = 15 };
enum { SIN = 1, COS, EXP, SQRT, POW };

static double from_bits(word w) { double x; __builtin_memcpy(&x, &w, 8); return x; }
static word to_bits(double x) { word w; __builtin_memcpy(&w, &x, 8); return x != x ? 0x7FF8000000000000 : w; }
static struct complex number(word re, word im) { return (struct complex){from_bits(re), from_bits(im)}; }

// ---- the sheet

static const word *bound(const word *rows, word step, word count, word key)
{
    word low = 0, high = count;
    while (low < high) {
        word middle = (low + high) / 2, stands = rows[step * middle];
        if (stands == key)
            return rows + step * middle;
        if (stands < key)
            low = middle + 1;
        else
            high = middle;
    }
    return 0;
}

static int variable(const struct sheet *s, word key, struct complex *z)
{
    const word *row = bound(s->table, 3, s->variables, key);
    if (row)
        *z = number(row[1], row[2]);
    return row ? DONE : INCOMPLETE;
}

static int cell(const struct sheet *s, word key, struct complex *z)
{
    const word *row = bound(s->table + CELLS, 2, s->cells, key);
    if (row)
        *z = number(row[1], 0);
    return row ? DONE : INCOMPLETE;
}

// The first row with this name and these operands.
static int look_up(const struct sheet *s, word name, struct complex x, struct complex y, struct complex *z)
{
    const word *row = s->table + FUNCTIONS, *end = row + 7 * s->functions;
    word a = to_bits(x.re), b = to_bits(x.im), c = to_bits(y.re), d = to_bits(y.im);
    for (; row < end; row += 7)
        if (row[1] == a && row[0] == name && row[2] == b && row[3] == c && row[4] == d) {
            *z = number(row[5], row[6]);
            return DONE;
        }
    return NEED;
}

// ---- operations

static int function(const struct sheet *s, word code, struct complex x, struct complex *z)
{
    struct complex zero = {0, 0}, sine;
    if (code < 5)
        return look_up(s, code, x, zero, z);
    if (look_up(s, COS, x, zero, z) || look_up(s, SIN, x, zero, &sine))
        return NEED;
    z->re += 0 * sine.re - 1 * sine.im;
    z->im += 0 * sine.im + 1 * sine.re;
    return DONE;
}

static int infix(const struct sheet *s, word code, struct complex x, struct complex y, struct complex *z)
{
    double n;
    switch (code) {
    case 1: *z = (struct complex){x.re + y.re, x.im + y.im}; return DONE;
    case 2: *z = (struct complex){x.re - y.re, x.im - y.im}; return DONE;
    case 3: *z = (struct complex){x.re * y.re - x.im * y.im, x.re * y.im + x.im * y.re}; return DONE;
    case 4:
        n = y.re * y.re + y.im * y.im;
        *z = (struct complex){(x.re * y.re + x.im * y.im) / n, (x.im * y.re - x.re * y.im) / n};
        return DONE;
    default: return look_up(s, POW, x, y, z);
    }
}

static struct complex prefix(word code, struct complex x) { return code == 2 ? (struct complex){-x.re, -x.im} : x; }

static const struct complex pi = {0x1.921fb54442d18p1, 0};

// ---- evaluating

static int value(word (*rows)[4], const struct sheet *s, word node, struct complex *z);

static int operation(word (*rows)[4], const struct sheet *s, const word *row, word code, struct complex *z)
{
    struct complex x, y;
    int lack = value(rows, s, row[2], &x);
    if (lack)
        return lack;
    if (code % 8 == 5)
        return function(s, code / 8, x, z);
    if (code % 8 == 6) {
        *z = prefix(code / 8, x);
        return DONE;
    }
    lack = value(rows, s, row[3], &y);
    return lack ? lack : infix(s, code / 8, x, y, z);
}

// The value of a node. An operation's row becomes that of a number, its value, so that it is worked out once.
static int value(word (*rows)[4], const struct sheet *s, word node, struct complex *z)
{
    word *row = rows[node], code = row[1] % 64;
    switch (code % 8) {
    case 1: *z = number(row[2], row[3]); return DONE;
    case 2: *z = pi; return DONE;
    case 3: return variable(s, row[2], z);
    case 4: return cell(s, row[2] << 32 | row[3], z);
    default: break;
    }
    int lack = operation(rows, s, row, code, z);
    if (lack)
        return lack;
    row[1] = row[1] / 64 * 64 + 1;
    row[2] = to_bits(z->re);
    row[3] = to_bits(z->im);
    return DONE;
}

int bound_evaluate(word (*rows)[4], const struct sheet *s, word node, struct complex *z) { return value(rows, s, node, z); }

// ---- the tape

struct step { byte opcode, sub; unsigned short half; unsigned word; __UINT64_TYPE__ re, im; };

static struct step step_at(const byte *tape, word i)
{
    struct step s;
    __builtin_memcpy(&s, tape + 24 * i, 24);
    return s;
}

// How many values a step takes, or -1 if it is none: "known codes, unused fields zero, the one NaN".
static int takes(const struct step *s)
{
    static const byte most[8] = {0, 0, 0, 0, 0, 5, 2, 5}, taken[8] = {0, 0, 0, 0, 0, 1, 1, 2};
    if (s->opcode < 1 || s->opcode > 7 || s->sub > most[s->opcode] || (s->opcode > 4 && s->sub == 0))
        return -1;
    if (s->opcode == 1)
        return s->half || s->word || to_bits(from_bits(s->re)) != s->re || to_bits(from_bits(s->im)) != s->im ? -1 : 0;
    if (s->re || s->im || (s->opcode != 4 && s->word) || (s->opcode != 3 && s->opcode != 4 && s->half))
        return -1;
    return taken[s->opcode];
}

static int is_sound(const byte *tape, word count)
{
    long values = 0;
    for (word i = 0; i < count; i++) {
        struct step s = step_at(tape, i);
        int taken = takes(&s);
        if (taken < 0 || values < taken || values - taken >= 64)
            return 0;
        values += 1 - taken;
    }
    return values == 1;
}

// Checks and plays.
int bound_play(const byte *tape, word count, const struct sheet *sheet, struct complex *z)
{
    struct complex stack[65], *top = stack; // the first free one
    if (!is_sound(tape, count))
        return BAD_TAPE;
    for (word i = 0; i < count; i++) {
        struct step s = step_at(tape, i);
        int lack = DONE;
        switch (s.opcode) {
        case 1: *top++ = number(s.re, s.im); break;
        case 2: *top++ = pi; break;
        case 3: lack = variable(sheet, s.half, top++); break;
        case 4: lack = cell(sheet, (word)s.half << 32 | s.word, top++); break;
        case 5: lack = function(sheet, s.sub, top[-1], top - 1); break;
        case 6: top[-1] = prefix(s.sub, top[-1]); break;
        default: top--; lack = infix(sheet, s.sub, top[-1], top[0], top - 1);
        }
        if (lack)
            return lack;
    }
    *z = stack[0];
    return DONE;
}
