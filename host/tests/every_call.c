/*
 * Calls every function of the archive through the header, with a check on each answer and on a refusal where there is one.
 * The names of the functions that were called go to the standard output. host/tests/header.rs compiles and runs it.
 */
#include "keccak_tables.h"

#include <stdio.h>
#include <stdlib.h>
#include <string.h>

/* A function, its name being told. */
#define CALL(function) (puts(#function), function)

/* Ends the program where a check fails. */
#define CHECK(condition)                                                                                                          \
    do {                                                                                                                          \
        if (!(condition)) {                                                                                                       \
            fprintf(stderr, "%s:%d: %s\n", __FILE__, __LINE__, #condition);                                                       \
            exit(1);                                                                                                              \
        }                                                                                                                         \
    } while (0)

/* The answer is that of a call that is not refused, that of one that did its work or goes on reading, or that of one that is refused. */
#define ACCEPTED(answer) CHECK((answer).refusal == KECCAK_TABLES_REFUSAL_NONE && (answer).detail == 0)
#define DONE(answer) CHECK((answer).refusal == KECCAK_TABLES_REFUSAL_NONE && (answer).detail == 0 && (answer).done == 1)
#define READING(cursor) CHECK((cursor).refusal == KECCAK_TABLES_REFUSAL_NONE && (cursor).detail == 0 && (cursor).reading == 1)
#define REFUSED(answer, n, d) CHECK((answer).refusal == (n) && (answer).detail == (d))

/* A verdict that is refused, whose other words are 0. */
#define NO_VERDICT(verdict, n, d)                                                                                                 \
    do {                                                                                                                          \
        REFUSED(verdict, n, d);                                                                                                   \
        CHECK((verdict).holds == 0 && (verdict).active == 0 && (verdict).kind == 0);                                              \
        CHECK((verdict).table == 0 && (verdict).row == 0 && (verdict).index == 0);                                                \
    } while (0)

/* Stands past every slice that is written. */
#define GUARD 0xA5A5A5A5A5A5A5A5u

enum { ADDRESS_HALF = 2, ADDRESS_WORD = 3, TIMESTAMP = 5, CORE = 4 * 486, ROUND = 32 * 1480 };
enum { ROUNDS = KECCAK_TABLES_ROUNDS, FEWER = 12, FLOOR = KECCAK_TABLES_FLOOR, HIGHER = 64 };
enum { OP = KECCAK_TABLES_OP_WORDS, SEGMENT = KECCAK_TABLES_SEGMENT_WORD };

static uint64_t operation[OP];
static uint64_t core[CORE + 1];
static uint64_t rounds[ROUND + 1];
static uint64_t all[KECCAK_TABLES_ROUND_TUPLE_WORDS + 1];
static uint8_t file[KECCAK_TABLES_RECORD_BYTES + 1];

static void bitwise_rows(void) {
    static const uint64_t expected[11] = {52, 18, 4, 16, 54, 38, 0, 0, 0, 9024, 1};
    uint64_t row[12];
    row[11] = GUARD;
    keccak_tables_answer answer = CALL(keccak_tables_generate_bitwise_row)(266804, row, 11);
    DONE(answer);
    CHECK(memcmp(row, expected, sizeof expected) == 0 && row[11] == GUARD);
    answer = keccak_tables_generate_bitwise_row(KECCAK_TABLES_BITWISE_ROWS, row, 11);
    REFUSED(answer, 1, 1048576);
    answer = keccak_tables_generate_bitwise_row(0, row, 10);
    REFUSED(answer, 3, 11);
    CHECK(memcmp(row, expected, sizeof expected) == 0);

    keccak_tables_number number = CALL(keccak_tables_bitwise_row_index)(52, 18, 4);
    DONE(number);
    CHECK(number.value == 266804);
    number = keccak_tables_bitwise_row_index(52, 18, 16);
    REFUSED(number, 1, 16);
    CHECK(number.value == 0);
}

static void bitwise_counters(void) {
    size_t length = KECCAK_TABLES_BITWISE_COUNTERS;
    uint64_t *counters = calloc(length, sizeof *counters);
    CHECK(counters != NULL);
    keccak_tables_answer answer = CALL(keccak_tables_bitwise_bump)(counters, length, 7, 52, 18, 4);
    DONE(answer);
    CHECK(counters[2668047] == 1 && counters[2668046] == 0 && counters[2668048] == 0);
    answer = keccak_tables_bitwise_bump(counters, length, 10, 52, 18, 16);
    REFUSED(answer, 1, 10);
    answer = keccak_tables_bitwise_bump(counters, length, 9, 52, 18, 16);
    REFUSED(answer, 1, 16);
    answer = keccak_tables_bitwise_bump(counters, length - 1, 7, 52, 18, 4);
    REFUSED(answer, 3, length);
    counters[2668047] = KECCAK_TABLES_P;
    answer = keccak_tables_bitwise_bump(counters, length, 7, 52, 18, 4);
    REFUSED(answer, 5, 2668047);
    free(counters);
}

static void bitwise_tuples(void) {
    uint64_t row[21], out[5];
    out[4] = GUARD;
    keccak_tables_answer answer = keccak_tables_generate_bitwise_row(266804, row, 21);
    DONE(answer);
    for (size_t kind = 0; kind < 10; kind++)
        row[11 + kind] = 100 + kind;
    keccak_tables_tuple tuple = CALL(keccak_tables_bitwise_bus_interaction)(row, 21, 9, out, 4);
    DONE(tuple);
    /* XOR is ByteAlu's operation 2. */
    CHECK(tuple.bus == 0 && tuple.side == 1 && tuple.length == 4 && tuple.multiplicity == 109);
    CHECK(out[0] == 2 && out[1] == 52 && out[2] == 18 && out[3] == 38 && out[4] == GUARD);
    tuple = keccak_tables_bitwise_bus_interaction(row, 21, 10, out, 4);
    REFUSED(tuple, 1, 10);
    tuple = keccak_tables_bitwise_bus_interaction(row, 20, 9, out, 3);
    REFUSED(tuple, 3, 21);
    row[20] = KECCAK_TABLES_P;
    tuple = keccak_tables_bitwise_bus_interaction(row, 21, 9, out, 4);
    REFUSED(tuple, 5, 20);
    CHECK(tuple.bus == 0 && tuple.side == 0 && tuple.length == 0 && tuple.multiplicity == 0);
}

static void bitwise_table(void) {
    size_t length = KECCAK_TABLES_BITWISE_WORDS, count = KECCAK_TABLES_BITWISE_COUNTERS;
    uint64_t *table = malloc((length + 1) * sizeof *table), *counters = calloc(count, sizeof *counters);
    CHECK(table != NULL && counters != NULL);
    table[length] = GUARD;
    uint64_t *row = table + 266804 * 21;
    keccak_tables_answer answer = CALL(keccak_tables_generate_bitwise_trace)(table, length);
    DONE(answer);
    CHECK(row[0] == 52 && row[10] == 1 && row[11] == 0 && row[20] == 0 && table[length] == GUARD);
    answer = keccak_tables_generate_bitwise_trace(table, length - 1);
    REFUSED(answer, 3, length);

    counters[2668047] = 9;
    answer = CALL(keccak_tables_fill_multiplicities)(counters, count, table, length);
    DONE(answer);
    CHECK(row[17] == 0 && row[18] == 9 && row[19] == 0 && table[length] == GUARD);
    answer = keccak_tables_fill_multiplicities(counters, count - 1, table, length - 1);
    REFUSED(answer, 3, count);

    uint64_t lookups[8] = {7, 52, 18, 4, 9, 52, 18, 4};
    answer = CALL(keccak_tables_bitwise_update_multiplicities)(table, length, lookups, 8);
    DONE(answer);
    CHECK(row[18] == 10 && row[20] == 1);
    answer = keccak_tables_bitwise_update_multiplicities(table, length, lookups, 7);
    REFUSED(answer, 2, 2);
    row[18] = KECCAK_TABLES_P;
    answer = keccak_tables_bitwise_update_multiplicities(table, length, lookups, 8);
    REFUSED(answer, 5, 266804 * 21 + 18);
    CHECK(row[20] == 1);
    free(table);
    free(counters);
}

/* A lookup has these words. */
#define LOOKUP(lookup, k, a, b, c)                                                                                                \
    CHECK((lookup).kind == (k) && (lookup).x == (a) && (lookup).y == (b) && (lookup).z == (c))

static void lookups(void) {
    keccak_tables_lookup lookup = CALL(keccak_tables_lookup_new)(KECCAK_TABLES_KIND_XOR, 52, 18, 4);
    DONE(lookup);
    LOOKUP(lookup, 9, 52, 18, 4);
    lookup = keccak_tables_lookup_new(10, 52, 18, 16);
    REFUSED(lookup, 1, 10);
    LOOKUP(lookup, 0, 0, 0, 0);
    lookup = keccak_tables_lookup_new(9, 52, 18, 16);
    REFUSED(lookup, 1, 16);

    lookup = CALL(keccak_tables_lookup_byte_op)(KECCAK_TABLES_KIND_AND, 52, 18);
    DONE(lookup);
    LOOKUP(lookup, 7, 52, 18, 0);
    lookup = keccak_tables_lookup_byte_op(10, 52, 18);
    REFUSED(lookup, 1, 10);

    lookup = CALL(keccak_tables_lookup_single_byte)(KECCAK_TABLES_KIND_ARE_BYTES, 52);
    DONE(lookup);
    LOOKUP(lookup, 3, 52, 0, 0);
    lookup = keccak_tables_lookup_single_byte(SIZE_MAX, 52);
    REFUSED(lookup, 1, 10);

    lookup = CALL(keccak_tables_lookup_halfword)(KECCAK_TABLES_KIND_MSB16, 52, 18);
    DONE(lookup);
    LOOKUP(lookup, 1, 52, 18, 0);
    lookup = keccak_tables_lookup_halfword(10, 52, 18);
    REFUSED(lookup, 1, 10);

    lookup = CALL(keccak_tables_lookup_zero)(266804);
    DONE(lookup);
    LOOKUP(lookup, 2, 52, 18, 4);
    lookup = keccak_tables_lookup_zero(1048576);
    REFUSED(lookup, 1, 1048576);

    lookup = CALL(keccak_tables_lookup_shift_op)(KECCAK_TABLES_KIND_HWSL, 52, 18, 15);
    DONE(lookup);
    LOOKUP(lookup, 6, 52, 18, 15);
    lookup = keccak_tables_lookup_shift_op(10, 52, 18, 16);
    REFUSED(lookup, 1, 10);

    lookup = CALL(keccak_tables_lookup_b20)(52, 18, 4);
    DONE(lookup);
    LOOKUP(lookup, 5, 52, 18, 4);
    lookup = keccak_tables_lookup_b20(52, 18, 16);
    REFUSED(lookup, 1, 16);
}

static void more_counters(void) {
    size_t length = KECCAK_TABLES_BITWISE_COUNTERS;
    uint64_t *counters = calloc(length, sizeof *counters), *other = calloc(length, sizeof *other);
    CHECK(counters != NULL && other != NULL);
    keccak_tables_answer answer = CALL(keccak_tables_bump_n)(counters, length, 7, 52, 18, 4, KECCAK_TABLES_P - 1);
    DONE(answer);
    answer = keccak_tables_bump_n(counters, length, 7, 52, 18, 4, KECCAK_TABLES_P + 3);
    DONE(answer);
    CHECK(counters[2668047] == 2);
    answer = keccak_tables_bump_n(counters, length, 7, 52, 18, 16, 1);
    REFUSED(answer, 1, 16);

    uint64_t lookups[8] = {7, 52, 18, 4, 3, 1, 2, 0};
    answer = CALL(keccak_tables_add_ops)(counters, length, lookups, 8);
    DONE(answer);
    CHECK(counters[2668047] == 3 && counters[5133] == 1);
    lookups[6] = 256;
    answer = keccak_tables_add_ops(counters, length, lookups, 8);
    REFUSED(answer, 5, 6);
    lookups[0] = 10;
    answer = keccak_tables_add_ops(counters, length, lookups, 8);
    REFUSED(answer, 1, 10);

    other[5133] = KECCAK_TABLES_P - 1;
    answer = CALL(keccak_tables_merge)(counters, length, other, length);
    DONE(answer);
    CHECK(counters[2668047] == 3 && counters[5133] == 0);
    answer = keccak_tables_merge(counters, length, other, length - 1);
    REFUSED(answer, 3, length);
    free(counters);
    free(other);
}

static void constant_calls(void) {
    /* The last round's constant is 8000000080008008, hexadecimal. */
    static const uint64_t expected[9] = {23, 8, 128, 0, 128, 0, 0, 0, 128};
    uint64_t row[10], table[321], out[9];
    row[9] = GUARD;
    keccak_tables_answer answer = CALL(keccak_tables_keccak_rc_generate_row)(23, row, 9);
    DONE(answer);
    CHECK(memcmp(row, expected, sizeof expected) == 0 && row[9] == GUARD);
    answer = keccak_tables_keccak_rc_generate_row(32, row, 9);
    REFUSED(answer, 1, 32);
    answer = keccak_tables_keccak_rc_generate_row(31, row, 8);
    REFUSED(answer, 3, 9);

    table[320] = GUARD;
    answer = CALL(keccak_tables_generate_keccak_rc_trace)(table, 320);
    DONE(answer);
    CHECK(memcmp(table + 230, expected, sizeof expected) == 0 && table[239] == 0 && table[310] == 31 && table[320] == GUARD);
    answer = keccak_tables_generate_keccak_rc_trace(table, 319);
    REFUSED(answer, 3, 320);

    answer = CALL(keccak_tables_keccak_rc_update_multiplicities)(ROUNDS, table, 320, 7);
    DONE(answer);
    CHECK(table[9] == 7 && table[239] == 7 && table[249] == 0 && table[320] == GUARD);
    answer = keccak_tables_keccak_rc_update_multiplicities(ROUNDS, table, 320, KECCAK_TABLES_MAX_OPS + 1);
    REFUSED(answer, 1, 89478486);
    answer = keccak_tables_keccak_rc_update_multiplicities(ROUNDS, table, 319, KECCAK_TABLES_MAX_OPS);
    REFUSED(answer, 3, 320);

    keccak_tables_tuple tuple = CALL(keccak_tables_keccak_rc_bus_interaction)(table + 230, 10, 0, out, 9);
    DONE(tuple);
    CHECK(tuple.bus == 4 && tuple.side == 1 && tuple.length == 9 && tuple.multiplicity == 7);
    CHECK(memcmp(out, expected, sizeof expected) == 0);
    tuple = keccak_tables_keccak_rc_bus_interaction(table, 10, 1, out, 9);
    REFUSED(tuple, 1, 1);
}

static void key_calls(void) {
    keccak_tables_key key = CALL(keccak_tables_is_wh_key)(0x0123456789ABCDEF);
    DONE(key);
    CHECK(key.word == 0x01234567 && key.half == 0x89AB);

    uint64_t row[4] = {3, 2, 1, 9}, out[3] = {0, 0, GUARD};
    keccak_tables_tuple tuple = CALL(keccak_tables_is_wh_bus_interaction)(row, 4, 4, out, 2);
    DONE(tuple);
    CHECK(tuple.bus == 3 && tuple.side == 1 && tuple.length == 2 && tuple.multiplicity == 9);
    /* The lowest halfword is the key's half, the other two its word. */
    CHECK(out[0] == 65538 && out[1] == 3 && out[2] == GUARD);
    tuple = keccak_tables_is_wh_bus_interaction(row, 4, 5, out, 2);
    REFUSED(tuple, 1, 5);
    tuple = keccak_tables_is_wh_bus_interaction(row, 4, 4, out, 1);
    REFUSED(tuple, 3, 2);
}

static void key_rows(void) {
    uint64_t keys[8] = {7, 9, 7, 8, 0, 65535, 7, 9}, codes[5], spare[5], rows[13], table[17];
    static const uint64_t expected_rows[9] = {0, 65535, 1, 7, 8, 1, 7, 9, 2};
    static const uint64_t expected[16] = {65535, 0, 0, 1, 8, 7, 0, 1, 9, 7, 0, 2};
    codes[4] = spare[4] = rows[9] = rows[12] = table[16] = GUARD;
    keccak_tables_number number = CALL(keccak_tables_dedup_is_wh_rows)(keys, 8, codes, 4, spare, 4, rows, 12);
    DONE(number);
    CHECK(number.value == 3 && memcmp(rows, expected_rows, sizeof expected_rows) == 0);
    CHECK(codes[4] == GUARD && spare[4] == GUARD && rows[9] == GUARD && rows[12] == GUARD);
    number = keccak_tables_dedup_is_wh_rows(keys, 8, codes, 4, spare, 3, rows, 11);
    REFUSED(number, 3, 4);
    number = keccak_tables_dedup_is_wh_rows(keys, 8, codes, 4, spare, 4, rows, 11);
    REFUSED(number, 3, 12);

    number = CALL(keccak_tables_is_wh_height)(5);
    DONE(number);
    CHECK(number.value == 8);
    number = keccak_tables_is_wh_height((size_t)KECCAK_TABLES_MAX_KEYS + 1);
    REFUSED(number, 1, 2236962126);

    keccak_tables_answer answer = CALL(keccak_tables_generate_is_wh_trace)(rows, 9, table, 16);
    DONE(answer);
    CHECK(memcmp(table, expected, sizeof expected) == 0 && table[16] == GUARD);
    answer = keccak_tables_generate_is_wh_trace(rows, 9, table, 15);
    REFUSED(answer, 3, 16);

    size_t length = KECCAK_TABLES_BITWISE_COUNTERS;
    uint64_t *counters = calloc(length, sizeof *counters);
    CHECK(counters != NULL);
    answer = CALL(keccak_tables_collect_bitwise_from_is_wh)(rows, 9, counters, length);
    DONE(answer);
    /* IsHalfword of 0 and of 9; IsB20 of 0, which the padding row sends, and of 1. */
    CHECK(counters[4] == 5 && counters[94] == 2 && counters[5] == 1 && counters[15] == 2);
    rows[2] = KECCAK_TABLES_IS_WH_MU_MAX + 1;
    answer = keccak_tables_collect_bitwise_from_is_wh(rows, 9, counters, length);
    REFUSED(answer, 5, 2);
    free(counters);
}

static void segment(void) {
    size_t length = KECCAK_TABLES_BITWISE_COUNTERS;
    uint64_t out[KECCAK_TABLES_LOOK_WORDS + 1];
    uint64_t *counters = calloc(length, sizeof *counters);
    uint64_t *copy = calloc(length, sizeof *copy);
    CHECK(counters != NULL && copy != NULL);
    out[20] = GUARD;
    keccak_tables_answer answer =
        CALL(keccak_tables_look)(ROUNDS, FLOOR, false, operation, OP, counters, length, copy, length, out, 20);
    DONE(answer);
    /* AreBytes, IsHalfword, AND and XOR; every counter was 0. */
    CHECK(out[6] == 7044 && out[8] == 25 && out[14] == 4801 && out[18] == 14592 && out[20] == GUARD);
    CHECK(out[2 * KECCAK_TABLES_KIND_OR] == 0 && out[9] == 1 && counters[3] == 0 && copy[3] == out[7]);
    answer = CALL(keccak_tables_charge)(ROUNDS, FLOOR, false, operation, OP, counters, length);
    DONE(answer);
    CHECK(memcmp(counters, copy, length * sizeof *copy) == 0);
    answer = keccak_tables_charge(ROUNDS, FLOOR, true, operation, 0, counters, length);
    DONE(answer);
    CHECK(counters[3] == copy[3] + 880);
    /* Twelve rounds, and four rows of padding. */
    answer = keccak_tables_look(FEWER, FLOOR, false, operation, OP, counters, length, copy, length, out, 20);
    DONE(answer);
    CHECK(out[6] == 4 + 16 * 220 && out[8] == 25 && out[14] == 1 + 12 * 200 && out[18] == 12 * 608);
    answer = keccak_tables_charge(FEWER, FLOOR, true, operation, OP, counters, length);
    DONE(answer);
    CHECK(memcmp(counters, copy, length * sizeof *copy) == 0);
    /* Sixty-four rows of the round table, all of them padding. */
    answer = keccak_tables_look(FEWER, HIGHER, true, operation, 0, counters, length, copy, length, out, 20);
    DONE(answer);
    CHECK(out[6] == HIGHER * 220 && out[8] == 0 && out[14] == 0 && out[18] == 0 && copy[3] == counters[3] + HIGHER * 220);
    answer = keccak_tables_charge(FEWER, HIGHER, true, operation, 0, counters, length);
    DONE(answer);
    CHECK(memcmp(counters, copy, length * sizeof *copy) == 0);
    answer = keccak_tables_charge(ROUNDS, FLOOR, false, operation, OP - 1, counters, length);
    REFUSED(answer, 2, 2);
    answer = keccak_tables_look(ROUNDS, FLOOR, false, operation, OP, counters, length, copy, length - 1, out, 0);
    REFUSED(answer, 3, length);
    answer = keccak_tables_look(ROUNDS, FLOOR, false, operation, OP, counters, length, copy, length, out, 19);
    REFUSED(answer, 3, 20);
    counters[9] = KECCAK_TABLES_P;
    answer = keccak_tables_charge(ROUNDS, FLOOR, false, operation, OP, counters, length);
    REFUSED(answer, 5, 9);
    free(counters);
    free(copy);
}

/* The same charge through two registers of three, whose ledgers stand before a cut one. */
static void registers(void) {
    size_t length = KECCAK_TABLES_BITWISE_COUNTERS;
    uint64_t out[KECCAK_TABLES_REGISTER_LOOK_WORDS + 1], ledgers[3 * KECCAK_TABLES_LEDGER_WORDS + 1] = {0};
    uint64_t *counters = calloc(length, sizeof *counters);
    uint64_t *copy = calloc(length, sizeof *copy);
    CHECK(counters != NULL && copy != NULL);
    out[30] = ledgers[30] = GUARD;
    keccak_tables_answer answer = CALL(keccak_tables_register_look)(ROUNDS, FLOOR, false, 2, operation, OP, counters, length,
                                                                    ledgers, 31, copy, length, out, 30);
    DONE(answer);
    CHECK(out[6] == 7044 && out[18] == 14592 && out[20 + 3] == 7044 && out[20 + 7] == 4801 && out[29] == 14592 && out[30] == GUARD);
    CHECK(counters[3] == 0 && copy[3] == out[7] && ledgers[29] == 0);
    answer = CALL(keccak_tables_register_charge)(ROUNDS, FLOOR, false, 2, operation, OP, counters, length, ledgers, 31);
    DONE(answer);
    CHECK(memcmp(counters, copy, length * sizeof *copy) == 0 && memcmp(ledgers + 20, out + 20, 10 * sizeof *out) == 0);
    answer = keccak_tables_register_charge(FEWER, HIGHER, true, 0, operation, 0, counters, length, ledgers, 31);
    DONE(answer);
    CHECK(ledgers[3] == HIGHER * 220 && ledgers[13] == 0 && ledgers[23] == 7044 && ledgers[30] == GUARD);
    CHECK(counters[3] == copy[3] + HIGHER * 220);
    /* A register that is not in use comes before a list that is cut; another's ledger is not looked at. */
    answer = keccak_tables_register_charge(ROUNDS, FLOOR, false, 3, operation, OP - 1, counters, length, ledgers, 31);
    REFUSED(answer, KECCAK_TABLES_REFUSAL_REGISTER, 3);
    answer = keccak_tables_register_look(ROUNDS, FLOOR, false, UINT64_MAX, operation, OP - 1, counters, 0, ledgers, 31, copy, 0, out, 0);
    REFUSED(answer, KECCAK_TABLES_REFUSAL_REGISTER, UINT64_MAX);
    answer = keccak_tables_register_look(ROUNDS, FLOOR, false, 2, operation, OP, counters, length, ledgers, 31, copy, length, out, 29);
    REFUSED(answer, 3, 30);
    ledgers[14] = KECCAK_TABLES_P;
    answer = keccak_tables_register_charge(ROUNDS, FLOOR, false, 1, operation, OP, counters, length, ledgers, 31);
    REFUSED(answer, 5, 14);
    answer = keccak_tables_register_charge(ROUNDS, FLOOR, false, 2, operation, OP, counters, length, ledgers, 31);
    DONE(answer);
    CHECK(ledgers[29] == 2 * 14592 && ledgers[14] == KECCAK_TABLES_P);
    free(counters);
    free(copy);
}

/* Of the zero state, by the last round alone, after which lane 0 is its constant, and by 24; then each refusal. */
static void permutation(void) {
    uint64_t state[KECCAK_TABLES_LANES + 1] = {0};
    state[25] = GUARD;
    keccak_tables_answer answer = CALL(keccak_tables_keccak_f)(1, state, 26);
    DONE(answer);
    CHECK(state[0] == 0x8000000080008008 && state[1] == 0 && state[24] == 0 && state[25] == GUARD);
    state[0] = 0;
    answer = keccak_tables_keccak_f(ROUNDS, state, 25);
    DONE(answer);
    CHECK(state[0] == 0xF1258F7940E1DDE7 && state[1] == 0x84D5CCF933C0478A && state[24] == 0xEAF1FF7B5CECA249 && state[25] == GUARD);
    answer = keccak_tables_keccak_f(0, state, 24);
    REFUSED(answer, KECCAK_TABLES_REFUSAL_ROUNDS, 0);
    answer = keccak_tables_keccak_f(ROUNDS + 1, state, 26);
    REFUSED(answer, KECCAK_TABLES_REFUSAL_ROUNDS, 25);
    answer = keccak_tables_keccak_f(ROUNDS, state, 24);
    REFUSED(answer, 3, 25);
    CHECK(answer.done == 0 && state[0] == 0xF1258F7940E1DDE7 && state[25] == GUARD);
}

/* Two blocks of A3, whose digest is published, and what is judged; then each refusal. */
static void messages(void) {
    uint8_t page[200], most[KECCAK_TABLES_MAX_MESSAGE + 1] = {0};
    uint64_t ops[2 * OP + 1];
    memset(page, 0xA3, sizeof page);
    ops[2 * OP] = GUARD;
    keccak_tables_number number = CALL(keccak_tables_message_operations)(page, sizeof page, 4096, 5, ops, 2 * OP);
    DONE(number);
    CHECK(number.value == sizeof page / KECCAK_TABLES_RATE + 1 && ops[2 * OP] == GUARD);
    CHECK(ops[0] == 5 && ops[OP] == 6 && ops[1] == 4096 && ops[OP + 1] == 4096 && ops[SEGMENT] == 0 && ops[OP + SEGMENT] == 0);
    CHECK(ops[OP + 27] == 0x0703C2C5DE8AF379 && ops[OP + 27 + KECCAK_TABLES_DIGEST_BYTES / 8 - 1] == 0x8717E39DBDA15FC6);
    keccak_tables_reply reply = CALL(keccak_tables_judge_message)(page, sizeof page, ops, 2 * OP);
    ACCEPTED(reply);
    CHECK(reply.yes == 1);
    reply = keccak_tables_judge_message(page, sizeof page - 1, ops, 2 * OP);
    ACCEPTED(reply);
    CHECK(reply.yes == 0);
    reply = keccak_tables_judge_message(page, sizeof page, ops, 0);
    ACCEPTED(reply);
    CHECK(reply.yes == 0);
    number = keccak_tables_message_operations(most, sizeof most, 1, UINT64_MAX, ops, 0);
    REFUSED(number, KECCAK_TABLES_REFUSAL_LONG_MESSAGE, sizeof most);
    number = keccak_tables_message_operations(page, sizeof page, 1, UINT64_MAX, ops, 0);
    REFUSED(number, KECCAK_TABLES_REFUSAL_LATE_TIMESTAMP, UINT64_MAX);
    number = keccak_tables_message_operations(page, sizeof page, 1, UINT64_MAX - 1, ops, 2 * OP - 1);
    REFUSED(number, 3, 2 * OP);
    number = keccak_tables_message_operations(page, sizeof page, 1, UINT64_MAX - 1, ops, 2 * OP);
    REFUSED(number, 7, 1);
    number = keccak_tables_message_operations(page, 0, UINT64_MAX, UINT64_MAX, ops, OP);
    REFUSED(number, 4, UINT64_MAX);
    reply = keccak_tables_judge_message(most, sizeof most, ops, 1);
    REFUSED(reply, 12, sizeof most);
    reply = keccak_tables_judge_message(page, sizeof page, ops, 1);
    REFUSED(reply, 2, 2);
    ops[OP + SEGMENT] = 4294967296u;
    reply = keccak_tables_judge_message(page, sizeof page, ops, 2 * OP);
    REFUSED(reply, 11, 4294967296u);
    CHECK(reply.yes == 0);
}

static void core_rows(void) {
    uint64_t row[487];
    row[486] = core[CORE] = GUARD;
    keccak_tables_answer answer = CALL(keccak_tables_keccak_row)(operation, OP, 0, row, 486);
    DONE(answer);
    CHECK(row[0] == TIMESTAMP && row[2 + 2] == ADDRESS_HALF && row[2 + 4] == ADDRESS_WORD && row[485] == 1 && row[486] == GUARD);
    answer = keccak_tables_keccak_row(operation, OP, 1, row, 486);
    REFUSED(answer, 1, 1);
    answer = keccak_tables_keccak_row(operation, OP, 0, row, 485);
    REFUSED(answer, 3, 486);

    answer = CALL(keccak_tables_generate_keccak_trace)(FLOOR, operation, OP, core, CORE);
    DONE(answer);
    CHECK(memcmp(core, row, 486 * sizeof *row) == 0 && core[486 + 413] == 8 && core[486 + 485] == 0 && core[CORE] == GUARD);
    answer = keccak_tables_generate_keccak_trace(FLOOR, operation, OP - 1, core, CORE);
    REFUSED(answer, 2, 2);
    answer = keccak_tables_generate_keccak_trace(FLOOR, operation, OP, core, CORE - 1);
    REFUSED(answer, 3, CORE);
}

static void core_keys(void) {
    uint64_t keys[51];
    keys[50] = GUARD;
    keccak_tables_answer answer = CALL(keccak_tables_is_wh_keys)(operation, OP, keys, 50);
    DONE(answer);
    CHECK(keys[0] == ADDRESS_WORD && keys[1] == ADDRESS_HALF && keys[48] == ADDRESS_WORD && keys[50] == GUARD);
    uint64_t address = operation[1];
    operation[1] = KECCAK_TABLES_LAST_ADDRESS + 1;
    answer = keccak_tables_is_wh_keys(operation, OP, keys, 50);
    REFUSED(answer, 4, operation[1]);
    operation[1] = address;

    keccak_tables_number number = CALL(keccak_tables_keccak_height)(FLOOR, 5);
    DONE(number);
    CHECK(number.value == 8);
    number = keccak_tables_keccak_height(FLOOR, KECCAK_TABLES_MAX_OPS + 1);
    REFUSED(number, 1, 89478486);
}

/* The values and tuples of the first row that core_rows wrote. */
static void core_evaluations(void) {
    uint64_t row[487], values[53], out[204];
    memcpy(row, core, 486 * sizeof *row);
    row[486] = values[52] = GUARD;
    keccak_tables_answer answer = CALL(keccak_tables_keccak_values)(row, 486, values, 52);
    DONE(answer);
    for (size_t value = 0; value < 52; value++)
        CHECK(values[value] == 0);
    CHECK(values[52] == GUARD);
    answer = keccak_tables_keccak_values(row, 486, values, 51);
    REFUSED(answer, 3, 52);

    keccak_tables_tuple tuple = CALL(keccak_tables_keccak_bus_interaction)(ROUNDS, row, 486, 0, 0x700000006, out, 204);
    DONE(tuple);
    CHECK(tuple.bus == 7 && tuple.side == 1 && tuple.multiplicity == 1 && tuple.length <= 203);
    /* The number's two halves are among the values. */
    size_t low = 0, high = 0;
    for (size_t value = 0; value < tuple.length; value++) {
        low += out[value] == 6;
        high += out[value] == 7;
    }
    CHECK(low == 1 && high == 1);
    tuple = keccak_tables_keccak_bus_interaction(ROUNDS, row, 486, 84, 0, out, 204);
    REFUSED(tuple, 1, 84);

    all[1457] = GUARD;
    answer = CALL(keccak_tables_keccak_bus_interactions)(ROUNDS, row, 486, 0x700000006, all, 1457);
    DONE(answer);
    CHECK(all[0] == 7 && all[1] == 1 && all[2] == 4 && all[3] == 1 && all[6] == 6 && all[7] == 7 && all[1457] == GUARD);
    answer = keccak_tables_keccak_bus_interactions(ROUNDS, row, 486, 0, all, 1456);
    REFUSED(answer, 3, 1457);
    row[485] = KECCAK_TABLES_P;
    tuple = keccak_tables_keccak_bus_interaction(ROUNDS, row, 487, 83, 0, out, 204);
    REFUSED(tuple, 5, 485);
}

static void round_rows(void) {
    uint64_t row[1481];
    row[1480] = rounds[ROUND] = GUARD;
    keccak_tables_answer answer = CALL(keccak_tables_keccak_rnd_row)(TIMESTAMP, operation + 2, 25, 0, row, 1480);
    DONE(answer);
    /* From the zero state, lane 0 is 1 after round 0. */
    CHECK(row[0] == TIMESTAMP && row[1471] == 1 && row[1472] == 0 && row[1479] == 1 && row[1480] == GUARD);
    answer = keccak_tables_keccak_rnd_row(TIMESTAMP, operation + 2, 24, 24, row, 1479);
    REFUSED(answer, 1, 24);
    answer = keccak_tables_keccak_rnd_row(TIMESTAMP, operation + 2, 24, 23, row, 1479);
    REFUSED(answer, 3, 25);
    answer = keccak_tables_keccak_rnd_row(TIMESTAMP, operation + 2, 25, 23, row, 1479);
    REFUSED(answer, 3, 1480);

    answer = CALL(keccak_tables_generate_keccak_rnd_trace)(ROUNDS, FLOOR, operation, OP, rounds, ROUND);
    DONE(answer);
    CHECK(memcmp(rounds, row, 1480 * sizeof *row) == 0 && rounds[24 * 1480 + 1479] == 0 && rounds[ROUND] == GUARD);
    answer = keccak_tables_generate_keccak_rnd_trace(ROUNDS, FLOOR, operation, OP + 1, rounds, ROUND);
    REFUSED(answer, 2, 2);
    answer = keccak_tables_generate_keccak_rnd_trace(ROUNDS, FLOOR, operation, OP, rounds, ROUND - 1);
    REFUSED(answer, 3, ROUND);
}

/* The rows of two operations, each in its own half of a slice; and one call for both. */
static void rows_in_parts(void) {
    uint64_t list[2 * OP], rows[2 * 486 + 1], parts[2 * 486];
    memcpy(list, operation, sizeof operation);
    memcpy(list + OP, operation, sizeof operation);
    list[OP] = TIMESTAMP + 1;
    rows[2 * 486] = GUARD;
    keccak_tables_answer answer = CALL(keccak_tables_keccak_rows)(list, 2 * OP, rows, 2 * 486);
    DONE(answer);
    CHECK(memcmp(rows, core, 486 * sizeof *rows) == 0 && rows[486] == TIMESTAMP + 1 && rows[2 * 486] == GUARD);
    for (size_t i = 0; i < 2; i++) {
        answer = keccak_tables_keccak_rows(list + OP * i, OP, parts + 486 * i, 486);
        DONE(answer);
    }
    CHECK(memcmp(rows, parts, sizeof parts) == 0);
    answer = keccak_tables_keccak_rows(list, 2 * OP, rows, 2 * 486 - 1);
    REFUSED(answer, 3, 2 * 486);

    uint64_t *round = calloc(2 * 24 * 1480 + 1, sizeof *round);
    CHECK(round != NULL);
    round[2 * 24 * 1480] = GUARD;
    answer = CALL(keccak_tables_keccak_rnd_rows)(ROUNDS, list, 2 * OP, round, 2 * 24 * 1480);
    DONE(answer);
    CHECK(memcmp(round, rounds, 24 * 1480 * sizeof *round) == 0 && round[24 * 1480] == TIMESTAMP + 1);
    CHECK(round[2 * 24 * 1480] == GUARD);
    answer = keccak_tables_keccak_rnd_rows(ROUNDS, list, 2 * OP - 1, round, 2 * 24 * 1480);
    REFUSED(answer, 2, 2);
    free(round);
}

/*
 * Each call that takes operations, on a list of two, by the second's address and the first's segment word: accepted, refused by 4, by 7
 * where no address is high, by 11 where none is refused.
 */
static void addresses(void) {
    static const struct {
        uint64_t first, second, segment, refusal, detail;
    } cases[] = {
        {4096, 18446744073709551416u, 4294967295u, 0, 0},
        {4096, 18446744073709551424u, 0, KECCAK_TABLES_REFUSAL_HIGH_ADDRESS, 18446744073709551424u},
        {4096, 18446744073709551423u, 0, KECCAK_TABLES_REFUSAL_UNALIGNED, 18446744073709551423u},
        {4100, 1, 4294967296u, KECCAK_TABLES_REFUSAL_UNALIGNED, 4100},
        {4100, 18446744073709551424u, 4294967296u, KECCAK_TABLES_REFUSAL_HIGH_ADDRESS, 18446744073709551424u},
        {4096, 4096, 4294967296u, KECCAK_TABLES_REFUSAL_SEGMENT, 4294967296u},
        {4096, 4096, UINT64_MAX, KECCAK_TABLES_REFUSAL_SEGMENT, UINT64_MAX},
    };
    size_t length = KECCAK_TABLES_BITWISE_COUNTERS;
    uint64_t list[2 * OP], out[4 * 486], *table = calloc(64 * 1480, sizeof *table);
    uint64_t *counters = calloc(length, sizeof *counters), *copy = calloc(length, sizeof *copy);
    uint8_t bytes[1024];
    CHECK(table != NULL && counters != NULL && copy != NULL);
    memcpy(list, operation, sizeof operation);
    memcpy(list + OP, operation, sizeof operation);
    for (size_t i = 0; i < sizeof cases / sizeof *cases; i++) {
        list[1] = cases[i].first;
        list[OP + 1] = cases[i].second;
        list[SEGMENT] = cases[i].segment;
        const keccak_tables_answer answers[] = {
            keccak_tables_keccak_row(list, 2 * OP, 0, out, 486),
            keccak_tables_generate_keccak_trace(FLOOR, list, 2 * OP, out, 4 * 486),
            keccak_tables_keccak_rows(list, 2 * OP, out, 2 * 486),
            keccak_tables_is_wh_keys(list, 2 * OP, out, 100),
            keccak_tables_generate_keccak_rnd_trace(ROUNDS, FLOOR, list, 2 * OP, table, 64 * 1480),
            keccak_tables_keccak_rnd_rows(ROUNDS, list, 2 * OP, table, 48 * 1480),
            keccak_tables_charge(ROUNDS, FLOOR, false, list, 2 * OP, counters, length),
            keccak_tables_look(ROUNDS, FLOOR, false, list, 2 * OP, counters, length, copy, length, out, KECCAK_TABLES_LOOK_WORDS),
            keccak_tables_register_charge(ROUNDS, FLOOR, false, 0, list, 2 * OP, counters, length, table, 10),
            keccak_tables_register_look(ROUNDS, FLOOR, false, 0, list, 2 * OP, counters, length, table, 10, copy, length, out, 30),
            keccak_tables_write_operations(list, 2 * OP, bytes, sizeof bytes),
        };
        for (size_t call = 0; call < sizeof answers / sizeof *answers; call++)
            CHECK(answers[call].refusal == cases[i].refusal && answers[call].detail == cases[i].detail &&
                  answers[call].done == (cases[i].refusal == 0));
        /* A short slice comes first. */
        REFUSED(keccak_tables_is_wh_keys(list, 2 * OP, out, 99), 3, 100);
    }
    free(table);
    free(counters);
    free(copy);
}

static void round_numbers(void) {
    keccak_tables_number number = CALL(keccak_tables_keccak_rnd_height)(ROUNDS, FLOOR, 2731);
    DONE(number);
    CHECK(number.value == 131072);
    number = keccak_tables_keccak_rnd_height(ROUNDS, FLOOR, KECCAK_TABLES_MAX_OPS + 1);
    REFUSED(number, 1, 89478486);
    number = CALL(keccak_tables_padding_are_bytes)(ROUNDS, FLOOR, 1);
    DONE(number);
    CHECK(number.value == 1760);
    number = keccak_tables_padding_are_bytes(ROUNDS, FLOOR, KECCAK_TABLES_MAX_OPS + 1);
    REFUSED(number, 1, 89478486);
}

/* The values and tuples of the first row that round_rows wrote. */
static void round_evaluations(void) {
    const uint64_t *row = rounds;
    uint64_t values[142], out[203];
    values[141] = GUARD;
    keccak_tables_answer answer = CALL(keccak_tables_keccak_rnd_values)(row, 1480, values, 141);
    DONE(answer);
    for (size_t value = 0; value < 141; value++)
        CHECK(values[value] == 0);
    CHECK(values[141] == GUARD);
    answer = keccak_tables_keccak_rnd_values(row, 1479, values, 140);
    REFUSED(answer, 3, 1480);

    keccak_tables_tuple tuple = CALL(keccak_tables_keccak_rnd_bus_interaction)(row, 1480, 0, out, 203);
    DONE(tuple);
    CHECK(tuple.bus == 5 && tuple.side == 1 && tuple.length == 203 && tuple.multiplicity == 1 && out[0] == TIMESTAMP);
    tuple = keccak_tables_keccak_rnd_bus_interaction(row, 1480, 1031, out, 203);
    REFUSED(tuple, 1, 1031);
    tuple = keccak_tables_keccak_rnd_bus_interaction(row, 1480, 0, out, 202);
    REFUSED(tuple, 3, 203);

    all[8211] = GUARD;
    answer = CALL(keccak_tables_keccak_rnd_bus_interactions)(row, 1480, all, 8211);
    DONE(answer);
    CHECK(all[0] == 5 && all[1] == 1 && all[2] == 203 && all[3] == 1 && all[8211] == GUARD);
    CHECK(memcmp(all + 4, out, sizeof out) == 0);
    answer = keccak_tables_keccak_rnd_bus_interactions(row, 1479, all, 8210);
    REFUSED(answer, 3, 1480);
}

/* The two orders of a state: START of the last round's row as columns, and as that row receives it. */
static void state_orders(void) {
    const uint64_t *row = rounds + 23 * 1480, *from = row + KECCAK_TABLES_ROUND_START;
    uint64_t out[203], to[200];
    keccak_tables_tuple tuple = keccak_tables_keccak_rnd_bus_interaction(row, 1480, 0, out, 203);
    CHECK(tuple.bus == KECCAK_TABLES_BUS_KECCAK && tuple.side == KECCAK_TABLES_SIDE_RECEIVER);
    for (int x = 0; x < 5; x++)
        for (int y = 0; y < 5; y++)
            memcpy(to + 8 * (5 * x + y), from + 8 * (x + 5 * y), 8 * sizeof *to);
    CHECK(memcmp(to, out + 3, sizeof to) == 0 && memcmp(to, from, sizeof to) != 0);
}

/* Room for the places of the tuples of one operation's tables, and a word past it. */
enum { PLACES = KECCAK_TABLES_SCRATCH_WORDS * (4 + 32) };

static void put_guards(uint64_t *words, size_t length) {
    for (size_t word = 0; word < length; word++)
        words[word] = GUARD;
}

/* The first words are 0, and all up to the length are as they were behind them. */
static void check_zeros(const uint64_t *words, size_t zeros, size_t length) {
    for (size_t word = 0; word < length; word++)
        CHECK(words[word] == (word < zeros ? 0 : GUARD));
}

/* The verdict on the same tables, which hold, in lent memory: of just the length, longer, and either slice a word short. */
static void verdict_within(void) {
    uint64_t scratch[PLACES + 2], spare[PLACES + 2];
    for (size_t more = 0; more < 2; more++) {
        put_guards(scratch, PLACES + 2);
        put_guards(spare, PLACES + 2);
        keccak_tables_judgement verdict =
            CALL(keccak_tables_verdict_within)(ROUNDS, core, CORE, rounds, ROUND, scratch, PLACES + more, spare, PLACES + 1 - more);
        CHECK(verdict.holds == 1 && verdict.kind == KECCAK_TABLES_VERDICT_HOLDS && verdict.active == 1 && verdict.row == 0 && verdict.index == 0);
        check_zeros(scratch, PLACES, PLACES + 2);
        check_zeros(spare, PLACES, PLACES + 2);
    }
    uint8_t line[KECCAK_TABLES_LINE_MOST];
    memset(line, 0xA5, sizeof line);
    put_guards(scratch, PLACES + 2);
    put_guards(spare, PLACES + 2);
    keccak_tables_number length = CALL(keccak_tables_verdict_line_within)(ROUNDS, core, CORE, rounds, ROUND, line, sizeof line, scratch,
                                                                          PLACES + 1, spare, PLACES);
    DONE(length);
    CHECK(length.value == 7 && memcmp(line, "holds 1", 7) == 0 && line[7] == 0xA5);
    check_zeros(scratch, PLACES, PLACES + 2);
    check_zeros(spare, PLACES, PLACES + 2);
    /* A line is lent as many bytes as any may need: with fewer nothing is judged, and all is as it was. */
    put_guards(scratch, PLACES + 2);
    put_guards(spare, PLACES + 2);
    memset(line, 0xA5, sizeof line);
    length = keccak_tables_verdict_line_within(ROUNDS, core, CORE, rounds, ROUND, line, sizeof line - 1, scratch, PLACES, spare, PLACES);
    CHECK(length.refusal == 3 && length.detail == KECCAK_TABLES_LINE_MOST && length.value == 0);
    CHECK(line[0] == 0xA5 && line[6] == 0xA5);
    check_zeros(scratch, 0, PLACES + 2);
    check_zeros(spare, 0, PLACES + 2);
}

/* Refused, both slices are as they were: scratch before spare, both after the rows, and a line that is short, and before the words, of which
 * the last is none now. */
static void verdict_within_refused(void) {
    uint64_t scratch[PLACES], spare[PLACES];
    uint8_t line[KECCAK_TABLES_LINE_MOST];
    put_guards(scratch, PLACES);
    put_guards(spare, PLACES);
    const struct {
        size_t round, scratch, spare;
        uint64_t refusal, detail;
    } cases[] = {
        {ROUND - 1, 0, 0, 2, 1},           {ROUND, PLACES - 1, PLACES, 3, PLACES}, {ROUND, PLACES, PLACES - 1, 3, PLACES},
        {ROUND, 0, 0, 3, PLACES},          {ROUND, PLACES, PLACES, 5, ROUND - 1},  {0, 0, 7, 3, PLACES - 64},
    };
    for (size_t i = 0; i < sizeof cases / sizeof *cases; i++) {
        keccak_tables_judgement verdict = keccak_tables_verdict_within(ROUNDS, core, CORE, rounds, cases[i].round, scratch,
                                                                       cases[i].scratch, spare, cases[i].spare);
        NO_VERDICT(verdict, cases[i].refusal, cases[i].detail);
        keccak_tables_number length = keccak_tables_verdict_line_within(ROUNDS, core, CORE, rounds, cases[i].round, line, sizeof line,
                                                                        scratch, cases[i].scratch, spare, cases[i].spare);
        REFUSED(length, cases[i].refusal, cases[i].detail);
        length = keccak_tables_verdict_line_within(ROUNDS, core, CORE, rounds, cases[i].round, line, sizeof line - 1, scratch,
                                                   cases[i].scratch, spare, cases[i].spare);
        if (cases[i].refusal == 2)
            REFUSED(length, 2, cases[i].detail);
        else
            REFUSED(length, 3, KECCAK_TABLES_LINE_MOST);
    }
    check_zeros(scratch, 0, PLACES);
    check_zeros(spare, 0, PLACES);
}

/* The operation claims a zero output, which is wrong; then the output is put right by the last round's row. */
static void verdict_calls(void) {
    uint64_t out[203];
    keccak_tables_judgement verdict = CALL(keccak_tables_verdict)(ROUNDS, core, CORE, rounds, ROUND);
    CHECK(verdict.holds == 0 && verdict.kind == KECCAK_TABLES_VERDICT_BALANCE && verdict.table == KECCAK_TABLES_TABLE_CORE && verdict.row == 0);
    keccak_tables_tuple tuple = keccak_tables_keccak_bus_interaction(ROUNDS, core, 486, (size_t)verdict.index, 0, out, 203);
    DONE(tuple);
    CHECK(tuple.bus == 5 && tuple.side == 1);

    const uint64_t *last = rounds + 23 * 1480;
    memcpy(core + 210, last + 1471, 8 * sizeof *core);
    memcpy(core + 218, last + 1271, 192 * sizeof *core);
    verdict = keccak_tables_verdict(ROUNDS, core, CORE, rounds, ROUND);
    CHECK(verdict.holds == 1 && verdict.kind == KECCAK_TABLES_VERDICT_HOLDS && verdict.active == 1 && verdict.row == 0 && verdict.index == 0);
    uint8_t line[KECCAK_TABLES_LINE_MOST];
    memset(line, 0xA5, sizeof line);
    keccak_tables_number length = CALL(keccak_tables_verdict_line)(ROUNDS, core, CORE, rounds, ROUND, line, sizeof line);
    DONE(length);
    CHECK(length.value == 7 && memcmp(line, "holds 1", 7) == 0 && line[7] == 0xA5);
    length = keccak_tables_verdict_line(ROUNDS, core, CORE, rounds, ROUND, line, 6);
    CHECK(length.refusal == 3 && length.detail == 7 && length.value == 0);
    length = keccak_tables_verdict_line(ROUNDS, core, CORE, rounds, ROUND - 1, line, 0);
    CHECK(length.refusal == 2 && length.detail == 1);
    verdict = keccak_tables_verdict(ROUNDS, core, CORE - 1, rounds, ROUND - 1);
    NO_VERDICT(verdict, 2, 0);
    verdict = keccak_tables_verdict(ROUNDS, core, CORE, rounds, ROUND - 1);
    NO_VERDICT(verdict, 2, 1);
    verdict_within();
    rounds[ROUND - 1] = UINT64_MAX;
    verdict_within_refused();
    verdict = keccak_tables_verdict(ROUNDS, core, CORE, rounds, ROUND);
    NO_VERDICT(verdict, 5, ROUND - 1);
}

/* The same operation by twelve rounds: rows of rounds 12 to 23, judged by their own number and by others. */
static void fewer_rounds(void) {
    static uint64_t table[16 * 1480 + 1], constants[321], states[CORE];
    uint64_t out[203];
    memcpy(states, core, sizeof states);
    table[16 * 1480] = constants[320] = GUARD;
    keccak_tables_number number = keccak_tables_keccak_rnd_height(FEWER, FLOOR, 1);
    DONE(number);
    CHECK(number.value == 16);
    number = keccak_tables_padding_are_bytes(FEWER, FLOOR, 1);
    DONE(number);
    CHECK(number.value == 4 * 220);
    keccak_tables_answer answer = keccak_tables_generate_keccak_rnd_trace(FEWER, FLOOR, operation, OP, table, 16 * 1480);
    DONE(answer);
    for (size_t row = 0; row < 12; row++)
        CHECK(table[1480 * row + KECCAK_TABLES_ROUND_ROUND] == 12 + row && table[1480 * row + KECCAK_TABLES_ROUND_MU] == 1);
    CHECK(table[12 * 1480 + KECCAK_TABLES_ROUND_MU] == 0 && table[16 * 1480] == GUARD);
    memset(table + 1480, 0, 15 * 1480 * sizeof *table);
    answer = keccak_tables_keccak_rnd_rows(FEWER, operation, OP, table, 12 * 1480);
    DONE(answer);

    const uint64_t *last = table + 11 * 1480;
    memcpy(states + 210, last + 1471, 8 * sizeof *states);
    memcpy(states + 218, last + 1271, 192 * sizeof *states);
    keccak_tables_judgement verdict = keccak_tables_verdict(FEWER, states, CORE, table, 16 * 1480);
    CHECK(verdict.holds == 1 && verdict.kind == KECCAK_TABLES_VERDICT_HOLDS && verdict.active == 1);
    verdict = keccak_tables_verdict(ROUNDS, states, CORE, table, 16 * 1480);
    CHECK(verdict.holds == 0 && verdict.kind == KECCAK_TABLES_VERDICT_BALANCE && verdict.table == KECCAK_TABLES_TABLE_CORE && verdict.index == 2);
    keccak_tables_tuple tuple = keccak_tables_keccak_bus_interaction(FEWER, states, 486, 2, 0, out, 203);
    DONE(tuple);
    CHECK(tuple.bus == KECCAK_TABLES_BUS_KECCAK && tuple.side == KECCAK_TABLES_SIDE_SENDER && out[2] == 12);
    answer = keccak_tables_keccak_bus_interactions(FEWER, states, 486, 0, all, 1457);
    DONE(answer);
    uint8_t line[KECCAK_TABLES_LINE_MOST];
    static const char begins[] = "core row 0 balance 2 Keccak 5 0 11 0 0 ";
    number = keccak_tables_verdict_line(FEWER + 1, states, CORE, table, 16 * 1480, line, sizeof line);
    DONE(number);
    CHECK(number.value > sizeof begins && memcmp(line, begins, sizeof begins - 1) == 0);

    answer = keccak_tables_generate_keccak_rc_trace(constants, 320);
    DONE(answer);
    answer = keccak_tables_keccak_rc_update_multiplicities(ROUNDS, constants, 320, 7);
    DONE(answer);
    answer = keccak_tables_keccak_rc_update_multiplicities(FEWER, constants, 320, 9);
    DONE(answer);
    for (size_t row = 0; row < 32; row++)
        CHECK(constants[10 * row + 9] == (row >= 12 && row < 24 ? 9 : 0));
    CHECK(constants[320] == GUARD);
}

/* The report on a job of two such segments in lent memory: slices that are too short, in their order, and what each holds afterwards. */
static void job_within(const uint64_t *cores, const uint64_t *tables, const uint64_t *counts, const uint64_t *expected) {
    uint64_t report[13], scratch[2 * PLACES + 1], spare[2 * PLACES + 1];
    put_guards(report, 13);
    put_guards(scratch, 2 * PLACES + 1);
    put_guards(spare, 2 * PLACES + 1);
    keccak_tables_answer answer =
        keccak_tables_job_within(ROUNDS, cores, 2 * CORE, tables, 2 * ROUND, counts, 3, report, 11, scratch, 0, spare, 0);
    REFUSED(answer, 2, 2);
    answer = keccak_tables_job_within(ROUNDS, cores, 2 * CORE, tables, 2 * ROUND, counts, 4, report, 11, scratch, 0, spare, 0);
    REFUSED(answer, 3, 12);
    answer = keccak_tables_job_within(ROUNDS, cores, 2 * CORE, tables, 2 * ROUND, counts, 4, report, 12, scratch, 2 * PLACES - 1, spare,
                                      2 * PLACES);
    REFUSED(answer, 3, 2 * PLACES);
    answer = keccak_tables_job_within(ROUNDS, cores, 2 * CORE, tables, 2 * ROUND, counts, 4, report, 12, scratch, 2 * PLACES, spare,
                                      2 * PLACES - 1);
    REFUSED(answer, 3, 2 * PLACES);
    check_zeros(report, 0, 13);
    check_zeros(scratch, 0, 2 * PLACES + 1);
    check_zeros(spare, 0, 2 * PLACES + 1);
    answer = CALL(keccak_tables_job_within)(ROUNDS, cores, 2 * CORE, tables, 2 * ROUND, counts, 4, report, 13, scratch, 2 * PLACES + 1,
                                            spare, 2 * PLACES);
    DONE(answer);
    CHECK(memcmp(report, expected, 12 * sizeof *report) == 0 && report[12] == GUARD);
    check_zeros(scratch, 2 * PLACES, 2 * PLACES + 1);
    check_zeros(spare, 2 * PLACES, 2 * PLACES + 1);
}

/*
 * The operation twice, at two times and with its output, as a job of two segments: as written; then with the first round row of the second
 * filed with the first, where nobody sends what it receives.
 */
static void job(void) {
    static uint64_t cores[2 * CORE], tables[2 * ROUND];
    uint64_t list[OP], report[13], counts[] = {4, 32, 4, 32};
    memcpy(list, operation, sizeof list);
    for (size_t segment = 0; segment < 2; segment++) {
        list[0] = TIMESTAMP + segment;
        keccak_tables_answer answer = keccak_tables_generate_keccak_trace(FLOOR, list, OP, cores + segment * CORE, CORE);
        DONE(answer);
        answer = keccak_tables_generate_keccak_rnd_trace(ROUNDS, FLOOR, list, OP, tables + segment * ROUND, ROUND);
        DONE(answer);
        const uint64_t *last = tables + segment * ROUND + 23 * 1480;
        memcpy(cores + segment * CORE + 210, last + 1471, 8 * sizeof *cores);
        memcpy(cores + segment * CORE + 218, last + 1271, 192 * sizeof *cores);
    }
    for (size_t word = 0; word < 13; word++)
        report[word] = GUARD;
    keccak_tables_answer answer = keccak_tables_job(ROUNDS, cores, 2 * CORE, tables, 2 * ROUND, counts, 3, report, 12);
    REFUSED(answer, KECCAK_TABLES_REFUSAL_NOT_WHOLE, KECCAK_TABLES_LENT_LIST);
    answer = keccak_tables_job(ROUNDS, cores, 2 * CORE, tables, 2 * ROUND, counts, 4, report, 11);
    REFUSED(answer, 3, 3 * KECCAK_TABLES_VERDICT_WORDS);
    CHECK(report[0] == GUARD && report[10] == GUARD);

    const uint64_t each[12] = {0, 1, 0, 0, 0, 1, 0, 0, 0, 2, 0, 0};
    answer = CALL(keccak_tables_job)(ROUNDS, cores, 2 * CORE, tables, 2 * ROUND, counts, 2 * KECCAK_TABLES_COUNT_WORDS, report, 13);
    DONE(answer);
    CHECK(memcmp(report, each, sizeof each) == 0 && report[12] == GUARD);
    job_within(cores, tables, counts, each);
    const uint64_t misfiled[12] = {KECCAK_TABLES_VERDICT_BALANCE, KECCAK_TABLES_TABLE_ROUND, 32, 0,
                                   KECCAK_TABLES_VERDICT_BALANCE, KECCAK_TABLES_TABLE_CORE,  0,  2, 0, 2, 0, 0};
    counts[1]++;
    counts[3]--;
    answer = keccak_tables_job(ROUNDS, cores, 2 * CORE, tables, 2 * ROUND, counts, 4, report, 12);
    DONE(answer);
    CHECK(memcmp(report, misfiled, sizeof misfiled) == 0);
    /* Sums that are right mod 2^64 alone. */
    counts[0] += 8;
    counts[2] -= 8;
    answer = keccak_tables_job(ROUNDS, cores, 2 * CORE, tables, 2 * ROUND, counts, 4, report, 12);
    REFUSED(answer, 2, 2);
    counts[0] -= 8;
    counts[2] += 8;
    tables[5] = KECCAK_TABLES_P;
    answer = keccak_tables_job(ROUNDS, cores, 2 * CORE, tables, 2 * ROUND, counts, 4, report, 12);
    REFUSED(answer, 5, 5);
    answer = keccak_tables_job(ROUNDS, cores, 0, tables, 0, counts, 0, report, 4);
    DONE(answer);
    CHECK(report[0] == 0 && report[1] == 0 && report[4] == misfiled[4]);
}

/* A number of rounds that is none is refused before anything else, and nothing is written. */
static void no_rounds(void) {
    static const uint64_t numbers[] = {0, KECCAK_TABLES_ROUNDS + 1, UINT64_MAX};
    for (size_t i = 0; i < sizeof numbers / sizeof *numbers; i++) {
        uint64_t nr = numbers[i], word = KECCAK_TABLES_P;
        uint8_t byte = 0xA5;
        const keccak_tables_answer answers[] = {
            keccak_tables_generate_keccak_rnd_trace(nr, FLOOR + 1, &word, 1, &word, 0),
            keccak_tables_keccak_rnd_rows(nr, &word, 1, &word, 0),
            keccak_tables_keccak_rc_update_multiplicities(nr, &word, 1, UINT64_MAX),
            keccak_tables_keccak_bus_interactions(nr, &word, 1, 0, &word, 0),
            keccak_tables_keccak_f(nr, &word, 1),
            keccak_tables_charge(nr, FLOOR + 1, true, operation, OP - 1, &word, 1),
            keccak_tables_look(nr, FLOOR + 1, false, operation, OP - 1, &word, 1, &word, 0, &word, 0),
            keccak_tables_register_charge(nr, FLOOR + 1, true, 1, operation, OP - 1, &word, 0, &word, 1),
            keccak_tables_register_look(nr, FLOOR + 1, false, 1, operation, OP - 1, &word, 1, &word, 1, &word, 0, &word, 0),
            keccak_tables_month(nr, FLOOR + 1, &word, 1, &word, 0),
            keccak_tables_job(nr, &word, 1, &word, 1, &word, 1, &word, 0),
            keccak_tables_job_within(nr, &word, 1, &word, 1, &word, 1, &word, 0, &word, 0, &word, 0),
        };
        for (size_t call = 0; call < sizeof answers / sizeof *answers; call++)
            REFUSED(answers[call], KECCAK_TABLES_REFUSAL_ROUNDS, nr);
        const keccak_tables_number given[] = {
            keccak_tables_keccak_rnd_height(nr, FLOOR + 1, SIZE_MAX),
            keccak_tables_padding_are_bytes(nr, FLOOR + 1, SIZE_MAX),
            keccak_tables_verdict_line(nr, &word, 1, &word, 1, &byte, 1),
            keccak_tables_verdict_line_within(nr, &word, 1, &word, 1, &byte, 1, &word, 0, &word, 0),
        };
        for (size_t call = 0; call < sizeof given / sizeof *given; call++)
            CHECK(given[call].refusal == KECCAK_TABLES_REFUSAL_ROUNDS && given[call].detail == nr && given[call].value == 0);
        keccak_tables_tuple tuple = keccak_tables_keccak_bus_interaction(nr, &word, 1, SIZE_MAX, 0, &word, 0);
        REFUSED(tuple, KECCAK_TABLES_REFUSAL_ROUNDS, nr);
        keccak_tables_judgement verdict = keccak_tables_verdict(nr, &word, 1, &word, 1);
        NO_VERDICT(verdict, 8, nr);
        verdict = keccak_tables_verdict_within(nr, &word, 1, &word, 1, &word, 0, &word, 0);
        NO_VERDICT(verdict, 8, nr);
        CHECK(word == KECCAK_TABLES_P && byte == 0xA5);
    }
}

/* The same operation with a higher floor: the rows as they were, and padding to the floor. */
static void higher_floor(void) {
    static uint64_t table[HIGHER * 1480 + 1], rows[HIGHER * 486 + 1], lower[ROUND], few[CORE];
    table[HIGHER * 1480] = rows[HIGHER * 486] = GUARD;
    keccak_tables_number number = keccak_tables_keccak_height(HIGHER, HIGHER);
    DONE(number);
    CHECK(number.value == HIGHER);
    number = keccak_tables_keccak_height(KECCAK_TABLES_MAX_FLOOR, 1);
    DONE(number);
    CHECK(number.value == KECCAK_TABLES_MAX_FLOOR);
    number = keccak_tables_keccak_rnd_height(ROUNDS, HIGHER, 2);
    DONE(number);
    CHECK(number.value == HIGHER);
    number = keccak_tables_keccak_rnd_height(ROUNDS, HIGHER, 3);
    DONE(number);
    CHECK(number.value == 128);
    number = keccak_tables_padding_are_bytes(ROUNDS, HIGHER, 1);
    DONE(number);
    CHECK(number.value == 40 * 220);
    number = keccak_tables_padding_are_bytes(ROUNDS, HIGHER, 0);
    DONE(number);
    CHECK(number.value == 0);

    keccak_tables_answer answer = keccak_tables_generate_keccak_trace(FLOOR, operation, OP, few, CORE);
    DONE(answer);
    answer = keccak_tables_generate_keccak_trace(HIGHER, operation, OP, rows, HIGHER * 486);
    DONE(answer);
    CHECK(memcmp(rows, few, sizeof few) == 0 && rows[HIGHER * 486] == GUARD);
    for (size_t row = 4; row < HIGHER; row++)
        CHECK(memcmp(rows + 486 * row, few + 486, 486 * sizeof *rows) == 0);
    answer = keccak_tables_generate_keccak_trace(HIGHER, operation, OP, rows, HIGHER * 486 - 1);
    REFUSED(answer, 3, HIGHER * 486);
    answer = keccak_tables_generate_keccak_rnd_trace(ROUNDS, FLOOR, operation, OP, lower, ROUND);
    DONE(answer);
    answer = keccak_tables_generate_keccak_rnd_trace(ROUNDS, HIGHER, operation, OP, table, HIGHER * 1480);
    DONE(answer);
    CHECK(memcmp(table, lower, sizeof lower) == 0 && table[HIGHER * 1480] == GUARD);
    for (size_t word = ROUND; word < HIGHER * 1480; word++)
        CHECK(table[word] == 0);
    answer = keccak_tables_generate_keccak_rnd_trace(ROUNDS, HIGHER, operation, OP, table, HIGHER * 1480 - 1);
    REFUSED(answer, 3, HIGHER * 1480);
}

/* A floor that is none is refused after the rounds and before anything else, and nothing is written. */
static void no_floor(void) {
    static const uint64_t floors[] = {0, 1, 2, 3, 5, 6, 65535, 65537, 131072, (uint64_t)1 << 63, UINT64_MAX};
    keccak_tables_cursor cut = keccak_tables_tally_feed(keccak_tables_tally_start(), (const uint8_t *)"K", 1);
    for (size_t i = 0; i < sizeof floors / sizeof *floors; i++) {
        uint64_t floor = floors[i], word = KECCAK_TABLES_P;
        const keccak_tables_answer answers[] = {
            keccak_tables_generate_keccak_trace(floor, &word, 1, &word, 0),
            keccak_tables_generate_keccak_rnd_trace(ROUNDS, floor, &word, 1, &word, 0),
            keccak_tables_charge(ROUNDS, floor, true, operation, OP - 1, &word, 1),
            keccak_tables_look(ROUNDS, floor, false, operation, OP - 1, &word, 1, &word, 0, &word, 0),
            keccak_tables_register_charge(ROUNDS, floor, true, 1, operation, OP - 1, &word, 0, &word, 1),
            keccak_tables_register_look(ROUNDS, floor, false, 1, operation, OP - 1, &word, 1, &word, 1, &word, 0, &word, 0),
            keccak_tables_month(ROUNDS, floor, &word, 1, &word, 0),
        };
        for (size_t call = 0; call < sizeof answers / sizeof *answers; call++)
            REFUSED(answers[call], KECCAK_TABLES_REFUSAL_FLOOR, floor);
        const keccak_tables_number given[] = {
            keccak_tables_keccak_height(floor, SIZE_MAX),
            keccak_tables_keccak_rnd_height(ROUNDS, floor, SIZE_MAX),
            keccak_tables_padding_are_bytes(ROUNDS, floor, SIZE_MAX),
        };
        for (size_t call = 0; call < sizeof given / sizeof *given; call++)
            CHECK(given[call].refusal == KECCAK_TABLES_REFUSAL_FLOOR && given[call].detail == floor && given[call].value == 0);
        keccak_tables_sums sums = keccak_tables_tally_finish(floor, true, cut);
        CHECK(sums.refusal == KECCAK_TABLES_REFUSAL_FLOOR && sums.detail == floor && sums.core_rows == 0 && sums.are_bytes == 0);
        CHECK(word == KECCAK_TABLES_P);
    }
}

/* Tables of 32, 64 and 128 rows that are equally full, and an empty one; other rounds and a floor; no file; and what is refused. */
static void months(void) {
    static const uint64_t counts[] = {0, 1, 2, 4};
    static uint64_t many[KECCAK_TABLES_MAX_FILES + 1];
    uint64_t out[KECCAK_TABLES_MONTH_WORDS + 1];
    out[KECCAK_TABLES_MONTH_WORDS] = GUARD;
    keccak_tables_answer answer = CALL(keccak_tables_month)(ROUNDS, FLOOR, counts, 4, out, KECCAK_TABLES_MONTH_WORDS);
    DONE(answer);
    CHECK(out[KECCAK_TABLES_MONTH_FILES] == 4 && out[KECCAK_TABLES_MONTH_OPERATIONS] == 7);
    CHECK(out[KECCAK_TABLES_MONTH_USED_ROWS] == 168 && out[KECCAK_TABLES_MONTH_PADDING_ROWS] == 60);
    CHECK(out[KECCAK_TABLES_MONTH_FULLEST_USED] == 24 && out[KECCAK_TABLES_MONTH_FULLEST_TOTAL] == 32);
    CHECK(out[KECCAK_TABLES_MONTH_EMPTIEST_USED] == 0 && out[KECCAK_TABLES_MONTH_EMPTIEST_TOTAL] == 4);
    for (size_t power = 2; power < 32; power++)
        CHECK(out[KECCAK_TABLES_MONTH_HEIGHTS + power - 2] == (power == 2 || power == 5 || power == 6 || power == 7));
    CHECK(out[KECCAK_TABLES_MONTH_SHOWN] == 1 && out[KECCAK_TABLES_MONTH_WORDS] == GUARD);
    answer = keccak_tables_month(FEWER, HIGHER, counts, 4, out, KECCAK_TABLES_MONTH_WORDS);
    DONE(answer);
    CHECK(out[KECCAK_TABLES_MONTH_USED_ROWS] == 7 * FEWER && out[KECCAK_TABLES_MONTH_PADDING_ROWS] == 4 * HIGHER - 7 * FEWER);
    CHECK(out[KECCAK_TABLES_MONTH_FULLEST_USED] == 4 * FEWER && out[KECCAK_TABLES_MONTH_FULLEST_TOTAL] == HIGHER);
    answer = keccak_tables_month(ROUNDS, FLOOR, counts, 0, out, KECCAK_TABLES_MONTH_WORDS);
    DONE(answer);
    for (size_t word = 0; word < KECCAK_TABLES_MONTH_WORDS; word++)
        CHECK(out[word] == 0);
    answer = keccak_tables_month(ROUNDS, FLOOR, many, KECCAK_TABLES_MAX_FILES, out, KECCAK_TABLES_MONTH_WORDS);
    DONE(answer);
    CHECK(out[KECCAK_TABLES_MONTH_PADDING_ROWS] == 4 * KECCAK_TABLES_MAX_FILES);
    many[7] = KECCAK_TABLES_MAX_OPS + 1;
    answer = keccak_tables_month(ROUNDS, FLOOR, many, KECCAK_TABLES_MAX_FILES + 1, out, 0);
    REFUSED(answer, KECCAK_TABLES_REFUSAL_FILES, KECCAK_TABLES_MAX_FILES + 1);
    answer = keccak_tables_month(ROUNDS, FLOOR, many, KECCAK_TABLES_MAX_FILES, out, 0);
    REFUSED(answer, 1, 89478486);
    answer = keccak_tables_month(ROUNDS, FLOOR, counts, 4, out, KECCAK_TABLES_MONTH_WORDS - 1);
    REFUSED(answer, 3, 39);
}

static void file_lists(void) {
    uint64_t list[OP + 1];
    file[418] = 0xA5;
    list[OP] = GUARD;
    keccak_tables_answer answer = CALL(keccak_tables_write_operations)(operation, OP, file, 418);
    DONE(answer);
    CHECK(file[0] == 0x4B && file[1] == 0x4F && file[2] == TIMESTAMP && file[10 + 2] == ADDRESS_HALF && file[418] == 0xA5);
    answer = keccak_tables_write_operations(operation, OP, file, 417);
    REFUSED(answer, 3, 418);
    answer = CALL(keccak_tables_read_operations)(file, 418, list, OP);
    DONE(answer);
    CHECK(memcmp(list, operation, sizeof operation) == 0 && list[OP] == GUARD);
    answer = keccak_tables_read_operations(file, 417, list, OP);
    REFUSED(answer, 6, 0);
    answer = keccak_tables_read_operations(file, 418, list, OP - 1);
    REFUSED(answer, 3, OP);
}

/* The sums of the file that file_lists wrote. */
static void file_sums(void) {
    keccak_tables_cursor cursor = CALL(keccak_tables_tally_start)();
    READING(cursor);
    keccak_tables_sums empty = keccak_tables_tally_finish(FLOOR, false, cursor);
    DONE(empty);
    CHECK(empty.ops == 0 && empty.core_rows == 4 && empty.round_rows == 4 && empty.byte_alu == 0 && empty.are_bytes == 0);
    empty = keccak_tables_tally_finish(FLOOR, true, cursor);
    DONE(empty);
    CHECK(empty.ops == 0 && empty.core_rows == 4 && empty.round_rows == 4 && empty.byte_alu == 0 && empty.are_bytes == 880);
    CHECK(empty.keccak_rc == 0 && empty.is_halfword == 0 && empty.is_wh == 0 && empty.memw == 0 && empty.ecall == 0);
    empty = keccak_tables_tally_finish(HIGHER, true, cursor);
    DONE(empty);
    CHECK(empty.core_rows == HIGHER && empty.round_rows == HIGHER && empty.byte_alu == 0 && empty.are_bytes == HIGHER * 220);
    cursor = CALL(keccak_tables_tally_feed)(cursor, file, 13);
    READING(cursor);
    CHECK(cursor.records == 0 && cursor.at == 13);
    keccak_tables_sums sums = CALL(keccak_tables_tally_finish)(FLOOR, false, cursor);
    REFUSED(sums, 6, 0);
    cursor = keccak_tables_tally_feed(cursor, file + 13, 405);
    sums = keccak_tables_tally_finish(FLOOR, false, cursor);
    DONE(sums);
    CHECK(sums.ops == 1 && sums.core_rows == 4 && sums.round_rows == 32 && sums.byte_alu == 19393 && sums.are_bytes == 7044);
    CHECK(sums.keccak_rc == 24 && sums.is_halfword == 25 && sums.is_wh == 25 && sums.memw == 26 && sums.ecall == 1);
    CHECK(sums.unaligned == 0);
    sums = keccak_tables_tally_finish(HIGHER, false, cursor);
    DONE(sums);
    CHECK(sums.ops == 1 && sums.core_rows == HIGHER && sums.round_rows == HIGHER && sums.byte_alu == 19393);
    CHECK(sums.are_bytes == 4 + HIGHER * 220 && sums.keccak_rc == 24 && sums.memw == 26 && sums.ecall == 1);
    keccak_tables_cursor marked = keccak_tables_tally_feed(cursor, file + 1, 1);
    REFUSED(marked, 6, 418);

    /* A record at an address that is no multiple of 8 is read, counted and left out of the sums. */
    file[10] += 4;
    cursor = keccak_tables_tally_feed(cursor, file, 418);
    READING(cursor);
    CHECK(cursor.records == 1 && cursor.unaligned == 1);
    sums = keccak_tables_tally_finish(FLOOR, false, cursor);
    DONE(sums);
    CHECK(sums.ops == 1 && sums.core_rows == 4 && sums.round_rows == 32 && sums.byte_alu == 19393 && sums.unaligned == 1);
    marked = keccak_tables_tally_feed(cursor, file + 1, 1);
    REFUSED(marked, 6, 836);
    uint64_t list[OP];
    keccak_tables_answer answer = keccak_tables_read_operations(file, 418, list, OP);
    DONE(answer);
    CHECK(list[1] == operation[1] + 4);
    answer = keccak_tables_write_operations(list, OP, file, 418);
    REFUSED(answer, KECCAK_TABLES_REFUSAL_UNALIGNED, list[1]);

    /* A reader that has read as many records as a file may have: its end is no fault, a byte more is, whatever is left out. */
    keccak_tables_cursor full = {.reading = 1, .records = KECCAK_TABLES_MAX_OPS - 3, .unaligned = 3};
    sums = keccak_tables_tally_finish(FLOOR, true, full);
    DONE(sums);
    CHECK(sums.ops == KECCAK_TABLES_MAX_OPS - 3 && sums.unaligned == 3);
    cursor = keccak_tables_tally_feed(full, file, 0);
    READING(cursor);
    cursor = keccak_tables_tally_feed(full, file, 1);
    REFUSED(cursor, 1, 89478486);
    /* A fault that no call found is answered as it is named, but one that there is none of. */
    keccak_tables_cursor made_up = {.refusal = KECCAK_TABLES_REFUSAL_REGISTER, .detail = 5};
    sums = keccak_tables_tally_finish(FLOOR, false, made_up);
    REFUSED(sums, 10, 5);
    made_up.refusal = KECCAK_TABLES_REFUSAL_SEGMENT;
    sums = keccak_tables_tally_finish(FLOOR, false, made_up);
    REFUSED(sums, 11, 5);
    made_up.refusal = KECCAK_TABLES_REFUSAL_FILES;
    sums = keccak_tables_tally_finish(FLOOR, false, made_up);
    REFUSED(sums, 14, 5);
    made_up.refusal++;
    sums = keccak_tables_tally_finish(FLOOR, false, made_up);
    REFUSED(sums, 6, 5);
    full.records--;
    cursor = keccak_tables_tally_feed(full, file, 418);
    READING(cursor);
    CHECK(cursor.records == KECCAK_TABLES_MAX_OPS - 4 && cursor.unaligned == 4 && cursor.at == 0);
}

/* A record under 4B 50 behind one under 4B 4F; then readers that no call made. */
static void file_segments(void) {
    uint8_t both[2 * KECCAK_TABLES_SEGMENT_RECORD_BYTES];
    uint64_t list[2 * OP], read[2 * OP];
    memcpy(list, operation, sizeof operation);
    memcpy(list + OP, operation, sizeof operation);
    list[OP + SEGMENT] = 0x04030201;
    keccak_tables_answer answer = keccak_tables_write_operations(list, 2 * OP, both, 839);
    REFUSED(answer, 3, 840);
    answer = keccak_tables_write_operations(list, 2 * OP, both, 840);
    DONE(answer);
    CHECK(both[0] == 0x4B && both[1] == 0x4F && both[418] == 0x4B && both[419] == 0x50 && both[836] == 1 && both[839] == 4);
    answer = keccak_tables_read_operations(both, 840, read, 2 * OP);
    DONE(answer);
    CHECK(memcmp(read, list, sizeof list) == 0);
    answer = keccak_tables_read_operations(both, 839, read, 2 * OP);
    REFUSED(answer, 6, 418);
    keccak_tables_cursor cursor = keccak_tables_tally_feed(keccak_tables_tally_start(), both, 838);
    READING(cursor);
    CHECK(cursor.records == 1 && cursor.at == 420 && cursor.start == 418 && cursor.mark == 0x50 && cursor.segments == 0);
    cursor = keccak_tables_tally_feed(cursor, both + 838, 2);
    READING(cursor);
    CHECK(cursor.records == 2 && cursor.at == 0 && cursor.start == 840);
    keccak_tables_sums sums = keccak_tables_tally_finish(FLOOR, false, cursor);
    DONE(sums);
    CHECK(sums.ops == 2 && sums.segments == 1 && sums.least_segment == 0 && sums.greatest_segment == 0x04030201);
    /* Past the most bytes of a file there is no record; up to there every word of a reader is taken as it is. */
    keccak_tables_cursor far = {
        .reading = 1, .start = (uint64_t)422 * KECCAK_TABLES_MAX_OPS + 1, .least_segment = UINT64_MAX};
    sums = keccak_tables_tally_finish(FLOOR, false, far);
    REFUSED(sums, 1, 89478486);
    cursor = keccak_tables_tally_feed(far, both, 418);
    REFUSED(cursor, 1, 89478486);
    far.start--;
    cursor = keccak_tables_tally_feed(far, both, 417);
    READING(cursor);
    cursor.at = SIZE_MAX;
    cursor.address = 8;
    cursor.tail = UINT64_MAX;
    cursor = keccak_tables_tally_feed(cursor, both, 1);
    READING(cursor);
    CHECK(cursor.records == 1 && cursor.at == 0 && cursor.start == far.start + 418);
    cursor = keccak_tables_tally_feed(cursor, both, 1);
    REFUSED(cursor, 1, 89478486);
}

/* Two equal calls: both in the file, in a third copy, one of them alone; then what is refused, the table first. */
static void file_against_a_table(void) {
    static uint64_t table[CORE];
    uint8_t records[3 * KECCAK_TABLES_SEGMENT_RECORD_BYTES];
    uint64_t list[3 * OP];
    for (size_t i = 0; i < 3; i++)
        memcpy(list + i * OP, operation, sizeof operation);
    list[OP + SEGMENT] = 7;
    keccak_tables_answer answer = keccak_tables_write_operations(list, 3 * OP, records, sizeof records);
    DONE(answer);
    answer = keccak_tables_generate_keccak_trace(FLOOR, list, 2 * OP, table, CORE);
    DONE(answer);
    keccak_tables_agreement both = CALL(keccak_tables_same_operations)(table, CORE, records, 840);
    ACCEPTED(both);
    CHECK(both.same == 1 && both.kind == KECCAK_TABLES_AGREEMENT_SAME && both.place == 0);
    both = keccak_tables_same_operations(table, CORE, records, 1258);
    ACCEPTED(both);
    CHECK(both.same == 0 && both.kind == KECCAK_TABLES_AGREEMENT_RECORD && both.place == 2);
    both = keccak_tables_same_operations(table, CORE, records, 418);
    ACCEPTED(both);
    CHECK(both.same == 0 && both.kind == KECCAK_TABLES_AGREEMENT_ROW && both.place == 1);
    table[486 + KECCAK_TABLES_CORE_ADDR] += 4;
    records[418 + 10] += 4;
    both = keccak_tables_same_operations(table, CORE, records, 840);
    ACCEPTED(both);
    CHECK(both.same == 1 && both.kind == KECCAK_TABLES_AGREEMENT_SAME);
    both = keccak_tables_same_operations(table, CORE, records, 839);
    REFUSED(both, 6, 418);
    CHECK(both.same == 0 && both.kind == 0 && both.place == 0);
    memset(records + 10, 0xFF, 8);
    both = keccak_tables_same_operations(table, CORE, records, 839);
    REFUSED(both, 4, UINT64_MAX);
    table[CORE - 1] = KECCAK_TABLES_P;
    both = keccak_tables_same_operations(table, CORE, records, 839);
    REFUSED(both, 5, CORE - 1);
    both = keccak_tables_same_operations(table, CORE - 1, records, 839);
    REFUSED(both, KECCAK_TABLES_REFUSAL_NOT_WHOLE, KECCAK_TABLES_LENT_CORE);
    CHECK(both.same == 0 && both.kind == 0 && both.place == 0);
}

int main(void) {
    operation[0] = TIMESTAMP;
    operation[1] = ((uint64_t)ADDRESS_WORD << 32) + ((uint64_t)ADDRESS_HALF << 16);
    bitwise_rows();
    bitwise_counters();
    bitwise_tuples();
    bitwise_table();
    lookups();
    more_counters();
    constant_calls();
    key_calls();
    key_rows();
    segment();
    registers();
    permutation();
    messages();
    core_rows();
    core_keys();
    core_evaluations();
    round_rows();
    rows_in_parts();
    addresses();
    round_numbers();
    round_evaluations();
    state_orders();
    verdict_calls();
    fewer_rounds();
    job();
    no_rounds();
    higher_floor();
    no_floor();
    months();
    file_lists();
    file_sums();
    file_segments();
    file_against_a_table();
    return 0;
}
