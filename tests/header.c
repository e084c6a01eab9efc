/* What include/yoyomyrtle.h promises besides the answers, tried: NULL where a length is 0, buffers that are only read lent twice, the words
 * of the answer that facts stand in and those that are kept, the bytes of a bad row's string, the degree that a table tells, and the stack that
 * a call takes, with the tables and rows of the stored vectors (docs/VECTORS.md has their format) on standard input.
 *
 *     cc -std=c99 -I include tests/header.c target/staticlib/libadder_c.a -o header && ./header <crates/vectors/stdin */
#define _XOPEN_SOURCE 700
#include <stdio.h>
#include <stdlib.h>
#include <string.h>
#include <ucontext.h>

#include "yoyomyrtle.h"

/* A buffer without bytes, as two arguments. */
#define NONE NULL, 0
#define ANSWER answer, YOYOMYRTLE_ANSWER_WORDS

enum { TABLE, FIRST, SECOND, SUM, BUFFERS };
enum { LONGEST = 70000, EDITS = 3, DIGITS = 5 };
/* What is in each word of the answer array before a call; no call answers it here. */
enum { KEPT = -77 };

static int64_t answer[YOYOMYRTLE_ANSWER_WORDS];
static uint8_t tern[YOYOMYRTLE_TERN_BYTES];
static int wrong;

static void judge(const char *what, int right) {
    if (!right) {
        printf("%s: not as promised\n", what);
        wrong++;
    }
}

static void fresh_answer(void) {
    for (size_t word = 0; word < YOYOMYRTLE_ANSWER_WORDS; word++) {
        answer[word] = KEPT;
    }
}

/* Judges what a call has returned and its answer: its first words are those given, and the further ones are kept. */
static void told(const char *what, uint64_t returned, uint64_t expected, size_t count, const int64_t *words) {
    judge(what, returned == expected);
    for (size_t word = 0; word < YOYOMYRTLE_ANSWER_WORDS; word++) {
        judge(what, answer[word] == (word < count ? words[word] : KEPT));
    }
    fresh_answer();
}

/* Facts: n + h and the reach, the count and the reach, pairs and bytes, or the first two parts of an element. */
static void facts(const char *what, uint64_t returned, int64_t first, int64_t second) {
    told(what, returned, YOYOMYRTLE_FACTS, 3, (const int64_t[]){0, first, second});
}

/* The parts of an element. */
static void parts(const char *what, uint64_t returned, size_t count, int64_t a, int64_t b, int64_t c, int64_t d) {
    told(what, returned, YOYOMYRTLE_FACTS, 1 + count, (const int64_t[]){0, a, b, c, d});
}

/* One fact. */
static void fact(const char *what, uint64_t returned, int64_t only) {
    told(what, returned, YOYOMYRTLE_FACTS, 2, (const int64_t[]){0, only});
}

static void fault(const char *what, uint64_t returned, int64_t whose, int64_t number) {
    told(what, returned, YOYOMYRTLE_FAULT, 3, (const int64_t[]){whose, number, 0});
}

static void too_short(const char *what, uint64_t returned) {
    told(what, returned, YOYOMYRTLE_TOO_SHORT, 0, NULL);
}

/* Each buffer of each call. The sum of empty rows is one digit with TERN. */
static void nothing_lent(void) {
    uint8_t sum[1], string[YOYOMYRTLE_STRING_BYTES];
    fault("check: file", yoyomyrtle_check(NONE, ANSWER), 1, 1);
    fault("bad_row: table", yoyomyrtle_bad_row(NONE, string, sizeof string, ANSWER), 1, 1);
    fault("forecast: table", yoyomyrtle_forecast(NONE, 257, ANSWER), 1, 1);
    fault("value: table", yoyomyrtle_value(NONE, NONE, ANSWER), 1, 1);
    facts("value: row", yoyomyrtle_value(tern, sizeof tern, NONE, ANSWER), 0, 0);
    fault("add: table", yoyomyrtle_add(NONE, NONE, NONE, NONE, ANSWER), 1, 1);
    facts("add: rows", yoyomyrtle_add(tern, sizeof tern, NONE, NONE, sum, 1, ANSWER), 1, 1);
    fault("add: sum", yoyomyrtle_add(tern, sizeof tern, NONE, NONE, NONE, ANSWER), 2, 23);
    fault("subtract: table", yoyomyrtle_subtract(NONE, NONE, NONE, NONE, ANSWER), 1, 1);
    facts("subtract: rows", yoyomyrtle_subtract(tern, sizeof tern, NONE, NONE, sum, 1, ANSWER), 1, 1);
    fault("subtract: difference", yoyomyrtle_subtract(tern, sizeof tern, NONE, NONE, NONE, ANSWER), 2, 23);
    fault("edit: table", yoyomyrtle_edit(NONE, NONE, NONE, NONE, 0, 0, 0, ANSWER), 1, 1);
    fault("edit: rows", yoyomyrtle_edit(tern, sizeof tern, NONE, NONE, sum, 1, 0, 0, 0, ANSWER), 3, 25);
    fault("edit: sum", yoyomyrtle_edit(tern, sizeof tern, NONE, NONE, NONE, 0, 0, 0, ANSWER), 2, 23);
    fault("run: table", yoyomyrtle_run(NONE, NONE, NONE, NONE, NONE, NONE, NONE, NONE, NONE, NONE, ANSWER), 1, 1);
    fact("run: rows", yoyomyrtle_run(tern, sizeof tern, NONE, NONE, sum, 1, NONE, NONE, NONE, NONE, NONE, NONE, ANSWER), 0);
    fault("run: sum", yoyomyrtle_run(tern, sizeof tern, NONE, NONE, NONE, NONE, NONE, NONE, NONE, NONE, NONE, ANSWER), 2, 23);
    too_short("check: answer", yoyomyrtle_check(tern, sizeof tern, NONE));
    too_short("bad_row: answer", yoyomyrtle_bad_row(tern, sizeof tern, string, sizeof string, NONE));
    too_short("bad_row: string", yoyomyrtle_bad_row(tern, sizeof tern, NONE, ANSWER));
    too_short("forecast: answer", yoyomyrtle_forecast(tern, sizeof tern, 257, NONE));
    too_short("value: answer", yoyomyrtle_value(tern, sizeof tern, NONE, NONE));
    too_short("add: answer", yoyomyrtle_add(tern, sizeof tern, NONE, NONE, sum, 1, NONE));
    too_short("subtract: answer", yoyomyrtle_subtract(tern, sizeof tern, NONE, NONE, sum, 1, NONE));
    too_short("edit: answer", yoyomyrtle_edit(tern, sizeof tern, NONE, NONE, sum, 1, 0, 0, 0, NONE));
    too_short("run: answer", yoyomyrtle_run(tern, sizeof tern, NONE, NONE, sum, 1, NONE, NONE, NONE, NONE, NONE, NONE, NONE));
    too_short("midpoint: answer", yoyomyrtle_midpoint(1, 2, 3, 4, 5, 6, 7, 8, NONE));
    too_short("tern: out", yoyomyrtle_tern(NONE));
    too_short("bin: out", yoyomyrtle_bin(NONE));
}

/* TERN's words are the input indexes in order, the last bytes of the file, so that the first five make a row. */
static void lent_twice(void) {
    const uint8_t *part = tern + sizeof tern - 9;
    uint8_t first[DIGITS], second[DIGITS], sum[DIGITS + 1], same[DIGITS + 1];
    memcpy(first, part, DIGITS);
    memcpy(second, part, DIGITS);
    facts("add: rows apart", yoyomyrtle_add(tern, sizeof tern, first, DIGITS, second, DIGITS, sum, sizeof sum, ANSWER), DIGITS + 1, 1);
    facts("add: one row", yoyomyrtle_add(tern, sizeof tern, part, DIGITS, part, DIGITS, same, sizeof same, ANSWER), DIGITS + 1, 1);
    judge("add: the sum of one row", memcmp(sum, same, sizeof sum) == 0);
    const uint8_t zeros[DIGITS + 1] = {0};
    facts("subtract: one row", yoyomyrtle_subtract(tern, sizeof tern, part, DIGITS, part, DIGITS, same, sizeof same, ANSWER), DIGITS + 1, 1);
    judge("subtract: a row from itself", memcmp(zeros, same, sizeof same) == 0);

    const size_t ones[EDITS] = {1, 1, 1};
    size_t whose[EDITS], numbers[EDITS], values[EDITS];
    fact("run: one list", yoyomyrtle_run(tern, sizeof tern, first, DIGITS, second, DIGITS, sum, sizeof sum, ones, EDITS, ones, EDITS,
                                         ones, EDITS, whose, EDITS, numbers, EDITS, values, EDITS, ANSWER), EDITS);
    judge("run: the edits of one list", whose[2] == 0 && numbers[2] == 0 && values[2] == 0);
}

/* The reach with BIN, which looks at one digit more below 1 and below -1 and nowhere else. The first row has a 1 at place 1. The first three
 * edits store the zero that is there, so that no sum digit changes; an edit looks at the place below its own and at two above. The last two
 * make 1 + 1 and 0 + 1 of the digits at place 1, and the reach is that of the rows as edited. */
static void reached(void) {
    uint8_t bin[YOYOMYRTLE_BIN_BYTES], first[DIGITS] = {0, 1}, second[DIGITS] = {0}, sum[DIGITS + 2];
    yoyomyrtle_bin(bin, sizeof bin);
#define BIN_ROWS bin, sizeof bin, first, DIGITS, second, DIGITS, sum, sizeof sum
    facts("add: reach", yoyomyrtle_add(BIN_ROWS, ANSWER), DIGITS + 2, 2);
    facts("subtract: reach", yoyomyrtle_subtract(bin, sizeof bin, first, DIGITS, first, DIGITS, sum, sizeof sum, ANSWER), DIGITS + 2, 1);
    facts("subtract: reach of a 1", yoyomyrtle_subtract(BIN_ROWS, ANSWER), DIGITS + 2, 2);
    facts("edit: reach at place 0", yoyomyrtle_edit(BIN_ROWS, 1, 0, 0, ANSWER), 0, 2);
    facts("edit: reach of the place below", yoyomyrtle_edit(BIN_ROWS, 1, 2, 0, ANSWER), 0, 2);
    facts("edit: reach two places up", yoyomyrtle_edit(BIN_ROWS, 1, 3, 0, ANSWER), 0, 1);
    fault("edit: no reach", yoyomyrtle_edit(BIN_ROWS, 2, 1, 0, ANSWER), 3, 24);
    facts("edit: reach of 1 + 1", yoyomyrtle_edit(BIN_ROWS, 1, 1, 1, ANSWER), 2, 1);
    facts("edit: reach of 0 + 1", yoyomyrtle_edit(BIN_ROWS, 0, 1, 0, ANSWER), 2, 2);
#undef BIN_ROWS
}

static uint8_t *put_number(uint8_t *to, size_t number) {
    to[0] = (uint8_t)(number % 256);
    to[1] = (uint8_t)(number / 256);
    return to + 2;
}

/* Records of BIN at a degree: what stands in front of each one's element, and that element with BIN's first part as its first and its last. */
static uint8_t *put_records(uint8_t *to, const uint8_t *records, size_t count, size_t front, size_t degree) {
    for (; count > 0; count--, records += front + 4) {
        memcpy(to, records, front);
        memset(to + front, 0, 2 * degree);
        memcpy(to + front, records + front, 2);
        memcpy(to + front + 2 * degree - 2, records + front, 2);
        to += front + 2 * degree;
    }
    return to;
}

/* BIN in a ring of degree three or four, where omega to the power of the degree is 0, with every digit and weight times
 * 1 + omega^(degree - 1). Its length. */
static size_t raised(uint8_t *out, size_t degree) {
    enum { ALPHABET = 3, INPUTS = 5, LEAVES = 13, WORDS = 23, DIRECTORY = 20, BASE = 8 };
    const size_t lengths[] = {4 * degree, ALPHABET * 2 * degree, INPUTS * 2 * degree, LEAVES * (4 + 2 * degree), WORDS};
    uint8_t bin[YOYOMYRTLE_BIN_BYTES], *to = out;
    yoyomyrtle_bin(bin, sizeof bin);
    for (size_t section = 0, offset = DIRECTORY; section < 5; offset += lengths[section++]) {
        to = put_number(put_number(to, offset), lengths[section]);
    }
    memset(to, 0, 4 * degree);
    put_number(to + 2 * degree, 2);
    to += 4 * degree;
    const uint8_t *digits = bin + DIRECTORY + BASE, *leaves = digits + 4 * (ALPHABET + INPUTS);
    to = put_records(to, digits, ALPHABET + INPUTS, 0, degree);
    to = put_records(to, leaves, LEAVES, 4, degree);
    memcpy(to, leaves + 8 * LEAVES, WORDS);
    return (size_t)(to + WORDS - out);
}

/* Facts of elements: of a value as many parts as the degree of the ring, of a midpoint four. The row 1 1 0 -1 has the value 1 + 2 - 8 in
 * base 2, the sum of it and itself twice as much. */
static void degrees(void) {
    const uint8_t row[] = {1, 1, 0, 2};
    uint8_t table[512], sum[sizeof row + 2];
    yoyomyrtle_bin(table, sizeof table);
    judge("degree two", table[2] == 8 && table[3] == 0);
    parts("value: degree two", yoyomyrtle_value(table, YOYOMYRTLE_BIN_BYTES, row, sizeof row, ANSWER), 2, -5, 0, KEPT, KEPT);
    for (size_t degree = 3; degree <= 4; degree++) {
        size_t table_len = raised(table, degree);
        told("check: degree", yoyomyrtle_check(table, table_len, ANSWER), YOYOMYRTLE_FACTS, 5, (const int64_t[]){0, 2, 13, 3, 65});
        facts("forecast: degree", yoyomyrtle_forecast(table, table_len, sizeof row, ANSWER), 65, sizeof sum);
        facts("add: degree", yoyomyrtle_add(table, table_len, row, sizeof row, row, sizeof row, sum, sizeof sum, ANSWER), sizeof sum, 1);
        int64_t third = degree == 3 ? -5 : 0;
        parts("value: degree", yoyomyrtle_value(table, table_len, row, sizeof row, ANSWER), degree, -5, 0, third, -5);
        parts("value: of the sum", yoyomyrtle_value(table, table_len, sum, sizeof sum, ANSWER), degree, -10, 0, 2 * third, -10);
    }
    parts("midpoint: four parts", yoyomyrtle_midpoint(1, -1, 3, INT32_MAX, 2, 0, -4, INT32_MAX, ANSWER), 4, 2, 0, 0, INT32_MAX);
    parts("midpoint: two parts", yoyomyrtle_midpoint(-3, 5, 0, 0, 0, 2, 0, 0, ANSWER), 4, -2, 4, 0, 0);
}

/* TERN with weight 0 at leaf 2, which has its record behind the directory, the base, 5 alphabet and 9 input digits and two leaves. */
static void refused_tern(uint8_t *out) {
    memcpy(out, tern, sizeof tern);
    out[20 + 8 + 5 * 4 + 9 * 4 + 2 * 8 + 4] = 0;
}

/* Four facts of the check, two of the forecast. The latter counts pairs and judges none: of the table that 14 refuses it says what it said
 * before. */
static void forecast(void) {
    const uint64_t over[] = {257, 65536, (uint64_t)1 << 32, UINT64_MAX};
    told("check: four facts", yoyomyrtle_check(tern, sizeof tern, ANSWER), YOYOMYRTLE_FACTS, 5, (const int64_t[]){0, 1, 9, 5, 81});
    facts("forecast: no digits", yoyomyrtle_forecast(tern, sizeof tern, 0, ANSWER), 81, 1);
    facts("forecast: the most digits", yoyomyrtle_forecast(tern, sizeof tern, 256, ANSWER), 81, 257);
    for (size_t k = 0; k < sizeof over / sizeof *over; k++) {
        fault("forecast: too many digits", yoyomyrtle_forecast(tern, sizeof tern, over[k], ANSWER), 2, 20);
    }
    uint8_t refused[sizeof tern];
    refused_tern(refused);
    told("check: 14", yoyomyrtle_check(refused, sizeof refused, ANSWER), YOYOMYRTLE_FAULT, 3, (const int64_t[]){1, 14, 2});
    facts("forecast: no pair is judged", yoyomyrtle_forecast(refused, sizeof refused, 256, ANSWER), 81, 257);
}

/* A string that is longer than bad_row needs it, and what each byte of it holds before the call. */
enum { LENT_BYTES = YOYOMYRTLE_STRING_BYTES + 3, KEPT_BYTE = 0x77 };

/* Makes the call with a string of so many bytes and judges which it wrote: the given ones, the further ones being kept. */
static uint64_t shown(const char *what, const uint8_t *table, size_t table_len, size_t string_len, size_t count, const uint8_t *bytes) {
    uint8_t string[LENT_BYTES];
    memset(string, KEPT_BYTE, sizeof string);
    uint64_t returned = yoyomyrtle_bad_row(table, table_len, string, string_len, ANSWER);
    for (size_t at = 0; at < sizeof string; at++) {
        judge(what, string[at] == (at < count ? bytes[at] : KEPT_BYTE));
    }
    return returned;
}

/* A bad row, as many parts as the degree of the ring, nothing to show, and faults. In the refused TERN 2 goes up from nothing, so that it gives 3
 * with 3 below it. In BIN of every degree leaf 12, the digit -2, sends nothing up if its weight is 0; at degree two its record starts 8 * 12 bytes
 * behind the leaves'. Eight bytes are too few for a string, however short it would be, and for nothing to show. */
static void bad_row(void) {
    uint8_t table[512];
    refused_tern(table);
    const uint8_t pair[] = {2, 3}, top[] = {4, 0};
    const int64_t words[] = {0, 2, 2, 3, 3, 0};
    told("bad_row: TERN", shown("bad_row: string", table, sizeof tern, 9, 2, pair), YOYOMYRTLE_FACTS, 6, words);
    told("bad_row: long", shown("bad_row: long string", table, sizeof tern, LENT_BYTES, 2, pair), YOYOMYRTLE_FACTS, 6, words);
    too_short("bad_row: 8 bytes", shown("bad_row: short string", table, sizeof tern, 8, 0, NULL));
    too_short("bad_row: 8 bytes, nothing", shown("bad_row: short string", tern, sizeof tern, 8, 0, NULL));
    fact("bad_row: nothing", shown("bad_row: no string", tern, sizeof tern, 9, 0, NULL), 0);
    fault("bad_row: 1", shown("bad_row: refused", tern, 19, 9, 0, NULL), 1, 1);
    yoyomyrtle_bin(table, sizeof table);
    memset(table + 20 + 8 + 8 * 4 + 12 * 8 + 4, 0, 2);
    told("bad_row: BIN", shown("bad_row: top", table, YOYOMYRTLE_BIN_BYTES, 9, 2, top), YOYOMYRTLE_FACTS, 6, (const int64_t[]){0, 2, 12, 0, -2, 0});
    for (size_t degree = 3; degree <= 4; degree++) {
        size_t table_len = raised(table, degree);
        memset(table + 20 + 4 * degree + 8 * 2 * degree + 12 * (4 + 2 * degree) + 4, 0, 2 * degree);
        const int64_t three[] = {0, 2, 12, 0, -2, 0, -2}, four[] = {0, 2, 12, 0, -2, 0, 0, -2};
        told("bad_row: degree", shown("bad_row: top", table, table_len, 9, 2, top), YOYOMYRTLE_FACTS, 4 + degree, degree == 3 ? three : four);
    }
}

/* What the calls below are given: buffers of one vector, those that it lacks being empty, and an edit. */
static uint8_t space[BUFFERS][LONGEST], *lent[BUFFERS];
static size_t length[BUFFERS];
static const size_t rows[EDITS] = {0, 1, 0}, places[EDITS] = {0, 1, 5}, digits[EDITS] = {1, 0, 2};
static size_t answers[3][EDITS];

#define LENT(buffer) lent[buffer], length[buffer]

static void no_call(void) {}
static void check_call(void) { yoyomyrtle_check(LENT(TABLE), ANSWER); }
static void bad_row_call(void) {
    static uint8_t string[YOYOMYRTLE_STRING_BYTES];
    yoyomyrtle_bad_row(LENT(TABLE), string, sizeof string, ANSWER);
}
static void forecast_call(void) { yoyomyrtle_forecast(LENT(TABLE), 256, ANSWER); }
static void add_call(void) { yoyomyrtle_add(LENT(TABLE), LENT(FIRST), LENT(SECOND), LENT(SUM), ANSWER); }
static void subtract_call(void) { yoyomyrtle_subtract(LENT(TABLE), LENT(FIRST), LENT(SECOND), LENT(SUM), ANSWER); }
static void edit_call(void) { yoyomyrtle_edit(LENT(TABLE), LENT(FIRST), LENT(SECOND), LENT(SUM), 1, 0, 1, ANSWER); }
static void run_call(void) {
    yoyomyrtle_run(LENT(TABLE), LENT(FIRST), LENT(SECOND), LENT(SUM), rows, EDITS, places, EDITS, digits, EDITS, answers[0], EDITS,
                   answers[1], EDITS, answers[2], EDITS, ANSWER);
}
static void value_call(void) { yoyomyrtle_value(LENT(TABLE), LENT(FIRST), ANSWER); }
static void midpoint_call(void) { yoyomyrtle_midpoint(1, 2, 3, 4, 5, 6, 7, 8, ANSWER); }
static void tern_call(void) { yoyomyrtle_tern(space[TABLE], LONGEST); }
static void bin_call(void) { yoyomyrtle_bin(space[TABLE], LONGEST); }

/* The bytes that the header names; the calls that write a table come last, since they write over the vector's. */
static struct {
    const char *name;
    void (*call)(void);
    size_t promised, most;
} calls[] = {
    {"check", check_call, 73500, 0}, {"bad_row", bad_row_call, 73500, 0},   {"forecast", forecast_call, 35500, 0},
    {"add", add_call, 4300, 0},      {"subtract", subtract_call, 4300, 0}, {"edit", edit_call, 4300, 0},
    {"run", run_call, 73500, 0},     {"value", value_call, 2600, 0},       {"midpoint", midpoint_call, 100, 0},
    {"tern", tern_call, 800, 0},     {"bin", bin_call, 800, 0},
};

enum { CALLS = sizeof calls / sizeof *calls, STACK = 256 * 1024, PAINT = 0xa5 };

/* How much of a painted stack a call has written on. */
static size_t stack_of(void (*call)(void)) {
    static uint8_t stack[STACK];
    static ucontext_t here, there;
    memset(stack, PAINT, STACK);
    getcontext(&there);
    there.uc_stack.ss_sp = stack;
    there.uc_stack.ss_size = STACK;
    there.uc_link = &here;
    makecontext(&there, call, 0);
    swapcontext(&here, &there);
    size_t kept = 0;
    while (kept < STACK && stack[kept] == PAINT) {
        kept++;
    }
    return STACK - kept;
}

static void read_bytes(uint8_t *to, size_t count) {
    if (fread(to, 1, count, stdin) != count) {
        printf("the vectors are cut short\n");
        exit(1);
    }
}

/* Takes the next vector's buffers; 0 where there is none. */
static int next_vector(void) {
    static const size_t buffers[] = {[1] = 1, [2] = 4, [3] = 4, [4] = 2, [8] = 4, [9] = 1, [17] = 1, [19] = 1};
    static const size_t more[] = {[3] = 24, [5] = 1, [17] = 8, [19] = 8};
    int call = getchar();
    uint8_t bytes[2 * 4 * 255];
    if (call == EOF) {
        return 0;
    }
    for (size_t buffer = 0; buffer < BUFFERS; buffer++) {
        lent[buffer] = NULL;
        length[buffer] = 0;
        if (buffer < buffers[call]) {
            read_bytes(bytes, 4);
            lent[buffer] = space[buffer];
            length[buffer] = bytes[0] + 256u * bytes[1] + 65536u * bytes[2];
            read_bytes(lent[buffer], length[buffer]);
        }
    }
    read_bytes(bytes, more[call]);
    /* The one byte of a midpoint is a degree, and as many parts of two elements come behind it. */
    read_bytes(bytes, call == 5 ? 2u * 4 * bytes[0] : 0);
    return 1;
}

static void stack_taken(void) {
    size_t vectors = 0;
    for (; next_vector(); vectors++) {
        for (size_t k = 0; k < CALLS; k++) {
            size_t taken = stack_of(calls[k].call) - stack_of(no_call);
            calls[k].most = taken > calls[k].most ? taken : calls[k].most;
        }
    }
    judge("vectors", vectors > 0);
    for (size_t k = 0; k < CALLS; k++) {
        printf("%s: %d bytes of stack at the most\n", calls[k].name, (int)calls[k].most);
        judge(calls[k].name, calls[k].most <= calls[k].promised);
    }
}

int main(void) {
    yoyomyrtle_tern(tern, sizeof tern);
    fresh_answer();
    nothing_lent();
    lent_twice();
    reached();
    degrees();
    forecast();
    bad_row();
    stack_taken();
    printf("%d things not as promised\n", wrong);
    return wrong > 0;
}
