/* Weight tables and the digit adder, for C callers. Link libadder_c.a, which `bin/build library` writes to target/staticlib.
 *
 * The archive is for x86-64 Linux: ELF, the System V calling convention, instructions that every such processor has. Its code is position
 * independent, so that it may go into a shared library; bin/build makes one too, target/libyoyomyrtle.so. It needs memcpy and memset from
 * outside and nothing else. It has no variables of its own, so that calls may run on several threads at once where none writes a buffer that
 * another is lent.
 *
 * Stack in bytes, at the most: check, bad_row and run 73,500 and forecast 35,500, even with TERN, add, subtract and edit 4,300, value 2,600, tern
 * and bin 800, midpoint 100. Where memcpy and memset are looked up on first use, the dynamic linker takes some 3,000 more at that time.
 *
 * Each buffer is a pointer and its length, and must hold as many bytes or words as its length says; the pointer may be NULL where the length
 * is 0. A buffer that a call may write, which is one without const and the answer array too, must not overlap any other buffer of that call.
 * Those that it only reads may be the same or overlap each other. No call keeps a pointer after it returns or asks for memory.
 *
 * The answer array is the last parameter. Word 0 is 0 for facts, 1 for a fault of the table's author, 2 of whoever lends the rows,
 * 3 of the editor. After 0 come the facts that are named at each call below; after 1, 2 or 3 the refusal number and its place.
 * docs/REFUSALS.md says what each number means, what its place counts and what to do. Words with nothing to say keep their contents.
 *
 * An element has as many parts as the degree of its ring, which is 2, 3 or 4: it is a + b*omega, a + b*omega + c*omega^2 or
 * a + b*omega + c*omega^2 + d*omega^3. A table tells the degree of its ring by the length of its section 0, which is four times the degree: the
 * 16-bit number in bytes 2 and 3 of the file, the low byte first, is 8, 12 or 16. TERN and BIN are of degree two.
 *
 * The reach, a fact of add, subtract and edit, is the length of the longest word among the leaves that the call looked up, 1 to h: in add and
 * subtract at places 0 to n + h - 1, in an edit of place p at places p - 1 to p + h of the rows as edited, -1 left out. Digits further below a
 * place than the reach had no part in the digit that the call found there. Of rows of zeros the reach is the length of leaf 0's word.
 *
 * A call returns YOYOMYRTLE_FACTS or YOYOMYRTLE_FAULT. If the answer array has under YOYOMYRTLE_ANSWER_WORDS words, or the string of bad_row
 * under YOYOMYRTLE_STRING_BYTES bytes, it does nothing and returns YOYOMYRTLE_TOO_SHORT. A call that refuses writes nothing but its answer. */
#ifndef YOYOMYRTLE_H
#define YOYOMYRTLE_H

#include <stddef.h>
#include <stdint.h>

#ifdef __cplusplus
extern "C" {
#endif

#define YOYOMYRTLE_ANSWER_WORDS 8
#define YOYOMYRTLE_STRING_BYTES 9
#define YOYOMYRTLE_TERN_BYTES 165
#define YOYOMYRTLE_BIN_BYTES 187

#define YOYOMYRTLE_FACTS 0
#define YOYOMYRTLE_FAULT 1
#define YOYOMYRTLE_TOO_SHORT 2

/* Checks a table file. Facts: depth h in word 1, the number of leaves in word 2, of alphabet digits in word 3, of fitting pairs in word 4.
 * A pair is an upper and a lower leaf, which may be the same one; it fits where the upper leaf's word without its first digit and the lower
 * leaf's word agree as far as both reach. */
uint64_t yoyomyrtle_check(const uint8_t *file, size_t file_len,
                          int64_t *answer, size_t answer_len);

/* Shows the row that refusal 14 is about. Where an upper and a lower leaf fit and give no alphabet digit, the facts are of the lowest upper leaf
 * U for which this happens and the lowest lower leaf L with which it does: in word 1 how many bytes of the string are written, 2 to 9, U in
 * word 2, L in word 3, and from word 4 on the parts of the digit, as many as the degree of the table's ring: a in word 4, b in word 5, c in
 * word 6 from degree three on, d in word 7 at degree four. The digit is U's first digit plus L's weight minus the base times U's weight. The
 * string holds input digits by their indexes, that of the top place first: U's first digit, and then the longer of U's word without it and L's
 * word. In every row that holds it, from a place downwards, conversion gives the digit at that place. Further bytes of the string keep their
 * contents.
 *
 * Word 1 is 0 where there is nothing to show, which is where the check accepts the table. The words from 2 on and all bytes of the string keep
 * their contents then. Faults 1 to 13 are told as ever; 14 is no fault here. */
uint64_t yoyomyrtle_bad_row(const uint8_t *table, size_t table_len,
                            uint8_t *string, size_t string_len,
                            int64_t *answer, size_t answer_len);

/* Tells what a table and rows of so many digits will take, without judging a pair or adding. Facts: the number of fitting pairs in word 1, which
 * is the one that a check of an accepted table tells, and in word 2 the bytes that the sum of two such rows needs, digits + h. Over 256 digits it
 * refuses with 20. A table that only 14 is against has a forecast too. */
uint64_t yoyomyrtle_forecast(const uint8_t *table, size_t table_len,
                             uint64_t digits,
                             int64_t *answer, size_t answer_len);

/* Adds two rows of n digits (alphabet indexes, lowest place first) into the first n + h bytes of the sum. Facts: n + h in word 1, the reach in
 * word 2. */
uint64_t yoyomyrtle_add(const uint8_t *table, size_t table_len,
                        const uint8_t *first, size_t first_len,
                        const uint8_t *second, size_t second_len,
                        uint8_t *sum, size_t sum_len,
                        int64_t *answer, size_t answer_len);

/* Subtracts the second row of n digits from the first, into the first n + h bytes of the difference. Facts: n + h in word 1, the reach in
 * word 2. It refuses with 42 a table in which some difference of two alphabet digits isn't an input digit, even for empty rows; no other call
 * does. The place is the alphabet index of the digit that is subtracted from, the lowest. */
uint64_t yoyomyrtle_subtract(const uint8_t *table, size_t table_len,
                             const uint8_t *first, size_t first_len,
                             const uint8_t *second, size_t second_len,
                             uint8_t *difference, size_t difference_len,
                             int64_t *answer, size_t answer_len);

/* Stores a digit at a place of a row (0 the first, 1 the second) and renews the sum places from there to h above it.
 * Facts: how many of these sum bytes changed in word 1, the reach in word 2. Edits of different places or rows may come in any order: what the
 * buffers hold after them is the same, by a table that the check accepts. */
uint64_t yoyomyrtle_edit(const uint8_t *table, size_t table_len,
                         uint8_t *first, size_t first_len,
                         uint8_t *second, size_t second_len,
                         uint8_t *sum, size_t sum_len,
                         uint64_t row, uint64_t place, uint64_t digit,
                         int64_t *answer, size_t answer_len);

/* Checks the table, adds the rows and then makes edits in turn: edit k has the row number rows[k], the place places[k] and the digit
 * digits[k], and there are as many as the shortest of the six arrays has entries. Its answer goes to whose[k] (0 facts, 1 author, 2 rows,
 * 3 editor), numbers[k] (0 for facts, else the refusal number) and values[k] (how many sum bytes changed, else the place); further entries
 * keep their contents. A refused edit changes nothing and the next one follows. Facts: the number of edits. A run doesn't tell the reach,
 * neither the addition's nor an edit's. If the check or the addition refuses, that is the fault, and nothing but the answer is written. */
uint64_t yoyomyrtle_run(const uint8_t *table, size_t table_len,
                        uint8_t *first, size_t first_len,
                        uint8_t *second, size_t second_len,
                        uint8_t *sum, size_t sum_len,
                        const size_t *rows, size_t rows_len,
                        const size_t *places, size_t places_len,
                        const size_t *digits, size_t digits_len,
                        size_t *whose, size_t whose_len,
                        size_t *numbers, size_t numbers_len,
                        size_t *values, size_t values_len,
                        int64_t *answer, size_t answer_len);

/* The value of a row. Facts: the parts of the element, as many as the degree of the table's ring: a in word 1, b in word 2, c in word 3 from
 * degree three on, d in word 4 at degree four. Words above the degree keep their contents. */
uint64_t yoyomyrtle_value(const uint8_t *table, size_t table_len,
                          const uint8_t *row, size_t row_len,
                          int64_t *answer, size_t answer_len);

/* The midpoint of two elements: half the sum of each two parts, where the sum is odd to the even neighbour (3/2 is 2, 1/2 is 0,
 * -1/2 is 0, -3/2 is -2). Facts: a, b, c and d in words 1 to 4, whatever the ring. It has no table to tell the degree; a caller of a smaller
 * degree gives zeros for the parts above it, and finds zeros there. */
uint64_t yoyomyrtle_midpoint(int32_t a1, int32_t b1, int32_t c1, int32_t d1,
                             int32_t a2, int32_t b2, int32_t c2, int32_t d2,
                             int64_t *answer, size_t answer_len);

/* The carried tables TERN and BIN. A shorter buffer: nothing is written and YOYOMYRTLE_TOO_SHORT is returned. */
uint64_t yoyomyrtle_tern(uint8_t *out, size_t out_len);
uint64_t yoyomyrtle_bin(uint8_t *out, size_t out_len);

#ifdef __cplusplus
}
#endif

#endif
