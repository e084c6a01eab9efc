/* Loads a table (the file named, else the carried TERN), forecasts what a sum will need, adds two rows, tells their values and the midpoint of
 * these, edits a digit, runs a list of edits, subtracts and prints the rows. Of a table that refusal 14 is against it shows the bad row.
 *
 *     cc -std=c99 -I include examples/caller.c target/staticlib/libadder_c.a -o caller && ./caller tables/bin.table */
#include <stdio.h>

#include "yoyomyrtle.h"

enum { DIGITS = 6, DEEPEST = 8, EDITS = 3, PARTS = 4, LONGEST_FILE = 65535 };

/* One byte more than the longest file, so that a file that is too long is seen to be. */
static uint8_t table[LONGEST_FILE + 1];
static int64_t answer[YOYOMYRTLE_ANSWER_WORDS];

/* Reads a file into the table; 0 where it can't. A folder can be opened and not read. */
static int load(const char *name, size_t *length) {
    FILE *file = fopen(name, "rb");
    if (file == NULL) {
        return 0;
    }
    *length = fread(table, 1, sizeof table, file);
    int whole = !ferror(file);
    fclose(file);
    return whole;
}

static const char *const groups[] = {"nobody", "author", "rows", "editor"};

static int refused(void) {
    printf("refused %s %d place %d\n", groups[answer[0]], (int)answer[1], (int)answer[2]);
    return 1;
}

static void print_row(const char *name, const uint8_t *row, size_t length) {
    printf("%s:", name);
    for (size_t place = 0; place < length; place++) {
        printf(" %d", row[place]);
    }
    printf("\n");
}

/* Prints the parts of an element that the words of the answer hold from one on. */
static void print_parts(const char *name, size_t from, size_t count) {
    printf("%s:", name);
    for (size_t part = from; part < from + count; part++) {
        printf(" %d", (int)answer[part]);
    }
    printf("\n");
}

/* The base section's length is four times the degree of the ring. */
static size_t degree_of_table(void) {
    return (table[2] + 256u * table[3]) / 4;
}

/* The string holds input digits by their indexes, and the one whose place gets the digit comes first. */
static void show_bad_row(size_t length) {
    uint8_t string[YOYOMYRTLE_STRING_BYTES];
    if (yoyomyrtle_bad_row(table, length, string, sizeof string, answer, YOYOMYRTLE_ANSWER_WORDS) == YOYOMYRTLE_FACTS && answer[1] > 0) {
        printf("bad row: leaves %d and %d\n", (int)answer[2], (int)answer[3]);
        print_parts("digit", 4, degree_of_table());
        print_row("string", string, (size_t)answer[1]);
    }
}

/* Prints the value of a row, with as many parts as the degree of the table's ring, and keeps them; 0 where it is too large. */
static int value_of(const char *name, size_t length, const uint8_t *row, size_t digits, size_t degree, int32_t *parts) {
    if (yoyomyrtle_value(table, length, row, digits, answer, YOYOMYRTLE_ANSWER_WORDS) != YOYOMYRTLE_FACTS) {
        return !refused();
    }
    print_parts(name, 1, degree);
    for (size_t part = 0; part < degree; part++) {
        parts[part] = (int32_t)answer[1 + part];
    }
    return 1;
}

int main(int argc, char **argv) {
    size_t length = YOYOMYRTLE_TERN_BYTES;
    if (argc < 2) {
        yoyomyrtle_tern(table, sizeof table);
    } else if (!load(argv[1], &length)) {
        fprintf(stderr, "can't read %s\n", argv[1]);
        return 2;
    }
    if (yoyomyrtle_check(table, length, answer, YOYOMYRTLE_ANSWER_WORDS) != YOYOMYRTLE_FACTS) {
        refused();
        show_bad_row(length);
        return 1;
    }
    uint64_t alphabet = (uint64_t)answer[3];
    printf("depth %d, leaves %d, digits %d, pairs %d\n", (int)answer[1], (int)answer[2], (int)answer[3], (int)answer[4]);

    /* The forecast tells how many bytes to lend for the sum or the difference of rows of so many digits. */
    if (yoyomyrtle_forecast(table, length, DIGITS, answer, YOYOMYRTLE_ANSWER_WORDS) != YOYOMYRTLE_FACTS) {
        return refused();
    }
    size_t places = (size_t)answer[2];
    printf("forecast for %d digits: pairs %d, bytes %d\n", DIGITS, (int)answer[1], (int)answer[2]);

    uint8_t first[DIGITS], second[DIGITS], sum[DIGITS + DEEPEST];
    for (size_t place = 0; place < DIGITS; place++) {
        first[place] = (uint8_t)((place + 1) % alphabet);
        second[place] = (uint8_t)((2 * place + 1) % alphabet);
    }
    if (yoyomyrtle_add(table, length, first, DIGITS, second, DIGITS, sum, places, answer,
                       YOYOMYRTLE_ANSWER_WORDS) != YOYOMYRTLE_FACTS) {
        return refused();
    }
    /* The reach: digits further below a place than this had no part in the sum digit there. */
    printf("added: %d sum digits, reach %d\n", (int)answer[1], (int)answer[2]);
    print_row("first", first, DIGITS);
    print_row("second", second, DIGITS);
    print_row("sum", sum, places);

    /* The midpoint has four parts of each element, whatever the degree. */
    size_t degree = degree_of_table();
    int32_t x[PARTS] = {0}, y[PARTS] = {0}, z[PARTS];
    if (value_of("value of the first", length, first, DIGITS, degree, x) && value_of("value of the second", length, second, DIGITS, degree, y) &&
        value_of("value of the sum", length, sum, places, degree, z)) {
        yoyomyrtle_midpoint(x[0], x[1], x[2], x[3], y[0], y[1], y[2], y[3], answer, YOYOMYRTLE_ANSWER_WORDS);
        print_parts("midpoint of the rows", 1, degree);
    }

    /* Place 2 of the second row (row number 1) gets the next digit of the alphabet. */
    uint64_t digit = (second[2] + 1u) % alphabet;
    if (yoyomyrtle_edit(table, length, first, DIGITS, second, DIGITS, sum, places, 1, 2, digit, answer,
                        YOYOMYRTLE_ANSWER_WORDS) != YOYOMYRTLE_FACTS) {
        return refused();
    }
    printf("edited: %d sum digits changed, reach %d\n", (int)answer[1], (int)answer[2]);
    print_row("second", second, DIGITS);
    print_row("sum", sum, places);

    /* Both rows get a zero at place 0; between the two stands an edit of a place that there isn't. */
    const size_t rows[EDITS] = {0, 0, 1}, edited[EDITS] = {0, DIGITS, 0}, digits[EDITS] = {0, 0, 0};
    size_t whose[EDITS], numbers[EDITS], values[EDITS];
    if (yoyomyrtle_run(table, length, first, DIGITS, second, DIGITS, sum, places, rows, EDITS, edited, EDITS, digits, EDITS,
                       whose, EDITS, numbers, EDITS, values, EDITS, answer, YOYOMYRTLE_ANSWER_WORDS) != YOYOMYRTLE_FACTS) {
        return refused();
    }
    for (size_t edit = 0; edit < (size_t)answer[1]; edit++) {
        if (whose[edit] == 0) {
            printf("edit %d: %d sum digits changed\n", (int)edit, (int)values[edit]);
        } else {
            printf("edit %d: refused %s %d place %d\n", (int)edit, groups[whose[edit]], (int)numbers[edit], (int)values[edit]);
        }
    }
    print_row("sum", sum, places);

    /* The rows as the edits left them; a table may add and yet not subtract. */
    uint8_t difference[DIGITS + DEEPEST];
    if (yoyomyrtle_subtract(table, length, first, DIGITS, second, DIGITS, difference, places, answer,
                            YOYOMYRTLE_ANSWER_WORDS) != YOYOMYRTLE_FACTS) {
        return refused();
    }
    printf("subtracted: %d digits, reach %d\n", (int)answer[1], (int)answer[2]);
    print_row("difference", difference, places);
    return 0;
}
