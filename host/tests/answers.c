/*
 * Reads an answer of every call as the header's first page teaches it, by its third word: of a struct that is all zeros, of a refusal, of a
 * failure and of a call that is good, which alone reads as good. The names of the functions that were called go to the standard output.
 * host/tests/header.rs compiles it as C99 with every warning, and runs it.
 */
#include "keccak_tables.h"

#include <stdio.h>
#include <stdlib.h>
#include <string.h>

/* Ends the program where a check fails. */
#define CHECK(condition)                                                                                                          \
    do {                                                                                                                          \
        if (!(condition)) {                                                                                                       \
            fprintf(stderr, "%s:%d: %s\n", __FILE__, __LINE__, #condition);                                                       \
            exit(1);                                                                                                              \
        }                                                                                                                         \
    } while (0)

/* Whether `if (answer.word)` goes into its first branch. */
#define READS(answer, word) ((answer).word ? 1 : 0)

/* An answer of zeros, and one of a call that does what is asked: `arguments` is a list in parentheses. */
#define GOOD(type, word, function, arguments)                                                                                     \
    do {                                                                                                                          \
        type answer;                                                                                                              \
        memset(&answer, 0, sizeof answer);                                                                                        \
        CHECK(!READS(answer, word));                                                                                              \
        answer = function arguments;                                                                                              \
        CHECK(READS(answer, word) && answer.word == 1 && !READS(answer, refusal) && !READS(answer, detail));                      \
        puts(#function);                                                                                                          \
    } while (0)

/* One that is refused, by this number. */
#define REFUSED(type, word, function, number, arguments)                                                                          \
    do {                                                                                                                          \
        type answer = function arguments;                                                                                         \
        CHECK(!READS(answer, word) && READS(answer, refusal) && answer.refusal == (number));                                      \
    } while (0)

/* One that is not refused and says no, by a kind where it has kinds. */
#define FAILED(type, word, function, arguments)                                                                                   \
    do {                                                                                                                          \
        type answer = function arguments;                                                                                         \
        CHECK(!READS(answer, word) && !READS(answer, refusal) && !READS(answer, detail));                                         \
    } while (0)

/* A call that only writes, one that gives a number, a tuple or a lookup: refused, then good. */
#define WRITES(function, number, refused, good)                                                                                   \
    do {                                                                                                                          \
        REFUSED(keccak_tables_answer, done, function, number, refused);                                                           \
        GOOD(keccak_tables_answer, done, function, good);                                                                         \
    } while (0)
#define GIVES(type, function, number, refused, good)                                                                              \
    do {                                                                                                                          \
        REFUSED(type, done, function, number, refused);                                                                           \
        GOOD(type, done, function, good);                                                                                         \
    } while (0)

enum { OP = KECCAK_TABLES_OP_WORDS, CORE = 4 * KECCAK_TABLES_CORE_COLUMNS, ROUND = 32 * KECCAK_TABLES_ROUND_COLUMNS };
enum { COUNTERS = KECCAK_TABLES_BITWISE_COUNTERS, TABLE = KECCAK_TABLES_BITWISE_WORDS, PLACES = 2 * (4 + 32) };

/* A call whose output is right, its two tables, and memory that calls write to. */
static uint64_t operation[OP], core[CORE], rounds[ROUND];
static uint64_t out[KECCAK_TABLES_ROUND_TUPLE_WORDS], scratch[PLACES], spare[PLACES];
static uint64_t *counters, *copy, *table;

static void tables(void) {
    operation[0] = 5;
    operation[1] = 4096;
    WRITES(keccak_tables_keccak_f, 3, (24, operation + 27, 24), (24, operation + 27, 25));
    WRITES(keccak_tables_keccak_row, 1, (operation, OP, 1, out, 486), (operation, OP, 0, out, 486));
    WRITES(keccak_tables_generate_keccak_trace, 9, (5, operation, OP, core, CORE), (4, operation, OP, core, CORE));
    WRITES(keccak_tables_keccak_rows, 2, (operation, 1, out, 486), (operation, OP, out, 486));
    WRITES(keccak_tables_is_wh_keys, 3, (operation, OP, out, 49), (operation, OP, out, 50));
    GIVES(keccak_tables_number, keccak_tables_keccak_height, 9, (0, 1), (4, 1));
    WRITES(keccak_tables_keccak_rnd_row, 1, (5, operation + 2, 25, 24, out, 1480), (5, operation + 2, 25, 0, out, 1480));
    WRITES(keccak_tables_generate_keccak_rnd_trace, 8, (0, 4, operation, OP, rounds, ROUND), (24, 4, operation, OP, rounds, ROUND));
    WRITES(keccak_tables_keccak_rnd_rows, 8, (25, operation, OP, rounds, ROUND), (24, operation, OP, rounds, ROUND));
    GIVES(keccak_tables_number, keccak_tables_keccak_rnd_height, 8, (0, 4, 1), (24, 4, 1));
    GIVES(keccak_tables_number, keccak_tables_padding_are_bytes, 9, (24, 0, 0), (24, 4, 0));
    WRITES(keccak_tables_keccak_values, 3, (core, 485, out, 52), (core, 486, out, 52));
    WRITES(keccak_tables_keccak_rnd_values, 3, (rounds, 1479, out, 141), (rounds, 1480, out, 141));
    GIVES(keccak_tables_tuple, keccak_tables_keccak_bus_interaction, 1, (24, core, 486, 84, 0, out, 203), (24, core, 486, 83, 0, out, 203));
    GIVES(keccak_tables_tuple, keccak_tables_keccak_rnd_bus_interaction, 1, (rounds, 1480, 1031, out, 203), (rounds, 1480, 1030, out, 203));
    WRITES(keccak_tables_keccak_bus_interactions, 8, (0, core, 486, 0, out, 1457), (24, core, 486, 0, out, 1457));
    WRITES(keccak_tables_keccak_rnd_bus_interactions, 3, (rounds, 1480, out, 8210), (rounds, 1480, out, 8211));
}

static void looked_up(void) {
    uint64_t row[KECCAK_TABLES_BITWISE_COLUMNS] = {0}, list[4] = {7, 52, 18, 4}, keys[2] = {7, 9}, codes[1], rows[3];
    WRITES(keccak_tables_generate_bitwise_row, 1, (1048576, row, 11), (266804, row, 11));
    GIVES(keccak_tables_number, keccak_tables_bitwise_row_index, 1, (0, 0, 16), (0, 0, 0));
    GIVES(keccak_tables_tuple, keccak_tables_bitwise_bus_interaction, 1, (row, 21, 10, out, 4), (row, 21, 9, out, 4));
    WRITES(keccak_tables_bitwise_bump, 1, (counters, COUNTERS, 10, 0, 0, 0), (counters, COUNTERS, 9, 0, 0, 0));
    WRITES(keccak_tables_bump_n, 1, (counters, COUNTERS, 9, 0, 0, 16, 7), (counters, COUNTERS, 9, 0, 0, 15, 7));
    WRITES(keccak_tables_add_ops, 2, (counters, COUNTERS, list, 3), (counters, COUNTERS, list, 4));
    WRITES(keccak_tables_merge, 3, (counters, COUNTERS, copy, 0), (counters, COUNTERS, copy, COUNTERS));
    WRITES(keccak_tables_generate_bitwise_trace, 3, (table, TABLE - 1), (table, TABLE));
    WRITES(keccak_tables_fill_multiplicities, 3, (counters, 0, table, TABLE), (counters, COUNTERS, table, TABLE));
    WRITES(keccak_tables_bitwise_update_multiplicities, 2, (table, TABLE, list, 1), (table, TABLE, list, 4));
    GIVES(keccak_tables_lookup, keccak_tables_lookup_new, 1, (0, 0, 0, 16), (0, 0, 0, 0));
    GIVES(keccak_tables_lookup, keccak_tables_lookup_byte_op, 1, (10, 0, 0), (0, 0, 0));
    GIVES(keccak_tables_lookup, keccak_tables_lookup_single_byte, 1, (10, 0), (0, 0));
    GIVES(keccak_tables_lookup, keccak_tables_lookup_halfword, 1, (10, 0, 0), (0, 0, 0));
    GIVES(keccak_tables_lookup, keccak_tables_lookup_zero, 1, (1048576), (0));
    GIVES(keccak_tables_lookup, keccak_tables_lookup_shift_op, 1, (0, 0, 0, 16), (0, 0, 0, 0));
    GIVES(keccak_tables_lookup, keccak_tables_lookup_b20, 1, (0, 0, 16), (0, 0, 0));
    WRITES(keccak_tables_keccak_rc_generate_row, 1, (32, out, 9), (31, out, 9));
    WRITES(keccak_tables_generate_keccak_rc_trace, 3, (out, 319), (out, 320));
    WRITES(keccak_tables_keccak_rc_update_multiplicities, 8, (0, out, 320, 7), (24, out, 320, 7));
    GIVES(keccak_tables_tuple, keccak_tables_keccak_rc_bus_interaction, 1, (out, 10, 1, row, 9), (out, 10, 0, row, 9));
    /* A key is never refused. */
    GOOD(keccak_tables_key, done, keccak_tables_is_wh_key, (0));
    GIVES(keccak_tables_number, keccak_tables_dedup_is_wh_rows, 3, (keys, 2, codes, 0, spare, 1, rows, 3), (keys, 2, codes, 1, spare, 1, rows, 3));
    GIVES(keccak_tables_number, keccak_tables_is_wh_height, 1, ((size_t)KECCAK_TABLES_MAX_KEYS + 1), (0));
    WRITES(keccak_tables_generate_is_wh_trace, 2, (rows, 2, out, 16), (rows, 3, out, 16));
    WRITES(keccak_tables_collect_bitwise_from_is_wh, 3, (rows, 3, counters, 1), (rows, 3, counters, COUNTERS));
    GIVES(keccak_tables_tuple, keccak_tables_is_wh_bus_interaction, 1, (out, 4, 5, row, 2), (out, 4, 4, row, 2));
}

static void charged(void) {
    static const uint64_t counts[1] = {1};
    uint64_t ledgers[KECCAK_TABLES_LEDGER_WORDS] = {0};
    WRITES(keccak_tables_charge, 8, (0, 4, false, operation, OP, counters, COUNTERS), (24, 4, false, operation, OP, counters, COUNTERS));
    WRITES(keccak_tables_look, 3, (24, 4, false, operation, OP, counters, COUNTERS, copy, COUNTERS, out, 19),
           (24, 4, false, operation, OP, counters, COUNTERS, copy, COUNTERS, out, 20));
    WRITES(keccak_tables_register_charge, 10, (24, 4, false, 1, operation, OP, counters, COUNTERS, ledgers, 10),
           (24, 4, false, 0, operation, OP, counters, COUNTERS, ledgers, 10));
    WRITES(keccak_tables_register_look, 10, (24, 4, false, 1, operation, OP, counters, COUNTERS, ledgers, 10, copy, COUNTERS, out, 30),
           (24, 4, false, 0, operation, OP, counters, COUNTERS, ledgers, 10, copy, COUNTERS, out, 30));
    WRITES(keccak_tables_month, 9, (24, 0, counts, 1, out, 39), (24, 4, counts, 1, out, 39));
}

/* The tables as they are, with an output that nobody computed, and with a round table that is not whole. */
static void judged(void) {
    static const uint64_t counts[] = {4, 32};
    uint64_t forged[CORE], report[8];
    uint8_t line[KECCAK_TABLES_LINE_MOST];
    memcpy(forged, core, sizeof forged);
    forged[KECCAK_TABLES_CORE_OUTPUT_STATE] ^= 1;
    GOOD(keccak_tables_judgement, holds, keccak_tables_verdict, (24, core, CORE, rounds, ROUND));
    FAILED(keccak_tables_judgement, holds, keccak_tables_verdict, (24, forged, CORE, rounds, ROUND));
    REFUSED(keccak_tables_judgement, holds, keccak_tables_verdict, 2, (24, core, CORE, rounds, ROUND - 1));
    GOOD(keccak_tables_judgement, holds, keccak_tables_verdict_within,
         (24, core, CORE, rounds, ROUND, scratch, PLACES, spare, PLACES));
    FAILED(keccak_tables_judgement, holds, keccak_tables_verdict_within,
           (24, forged, CORE, rounds, ROUND, scratch, PLACES, spare, PLACES));
    REFUSED(keccak_tables_judgement, holds, keccak_tables_verdict_within, 3,
            (24, core, CORE, rounds, ROUND, scratch, 0, spare, PLACES));
    keccak_tables_judgement verdict = keccak_tables_verdict(24, forged, CORE, rounds, ROUND);
    CHECK(verdict.kind == KECCAK_TABLES_VERDICT_BALANCE && verdict.table == KECCAK_TABLES_TABLE_CORE && verdict.active == 0);
    verdict = keccak_tables_verdict(0, core, CORE, rounds, ROUND);
    CHECK(verdict.kind != KECCAK_TABLES_VERDICT_HOLDS && verdict.kind == 0 && verdict.active == 0);

    GIVES(keccak_tables_number, keccak_tables_verdict_line, 3, (24, core, CORE, rounds, ROUND, line, 6),
          (24, core, CORE, rounds, ROUND, line, sizeof line));
    GIVES(keccak_tables_number, keccak_tables_verdict_line_within, 3, (24, core, CORE, rounds, ROUND, line, sizeof line, scratch, 0, spare, 0),
          (24, core, CORE, rounds, ROUND, line, sizeof line, scratch, PLACES, spare, PLACES));
    /* Done, the report is there; it says what holds. */
    WRITES(keccak_tables_job, 2, (24, core, CORE, rounds, ROUND, counts, 1, report, 8), (24, core, CORE, rounds, ROUND, counts, 2, report, 8));
    CHECK(report[0] == KECCAK_TABLES_REPORT_HOLDS && report[4] == KECCAK_TABLES_REPORT_HOLDS);
    WRITES(keccak_tables_job_within, 3, (24, core, CORE, rounds, ROUND, counts, 2, report, 7, scratch, PLACES, spare, PLACES),
           (24, forged, CORE, rounds, ROUND, counts, 2, report, 8, scratch, PLACES, spare, PLACES));
    CHECK(report[0] == KECCAK_TABLES_VERDICT_BALANCE && report[4] == KECCAK_TABLES_VERDICT_BALANCE);
}

/* The file of the operation, cut, with a record more than the table has rows, and with one less. */
static void files(void) {
    uint8_t file[2 * KECCAK_TABLES_RECORD_BYTES];
    keccak_tables_cursor zeros, start = keccak_tables_tally_start();
    memset(&zeros, 0, sizeof zeros);
    WRITES(keccak_tables_write_operations, 3, (operation, OP, file, 417), (operation, OP, file, 418));
    WRITES(keccak_tables_read_operations, 6, (file, 417, out, OP), (file, 418, out, OP));
    memcpy(file + 418, file, 418);
    GOOD(keccak_tables_agreement, same, keccak_tables_same_operations, (core, CORE, file, 418));
    FAILED(keccak_tables_agreement, same, keccak_tables_same_operations, (core, CORE, file, 836));
    FAILED(keccak_tables_agreement, same, keccak_tables_same_operations, (core, CORE, file, 0));
    REFUSED(keccak_tables_agreement, same, keccak_tables_same_operations, 6, (core, CORE, file, 417));
    keccak_tables_agreement both = keccak_tables_same_operations(core, CORE, file, 417);
    CHECK(both.kind != KECCAK_TABLES_AGREEMENT_SAME && both.kind == 0);

    GOOD(keccak_tables_cursor, reading, keccak_tables_tally_start, ());
    GOOD(keccak_tables_cursor, reading, keccak_tables_tally_feed, (start, file, 418));
    REFUSED(keccak_tables_cursor, reading, keccak_tables_tally_feed, 6, (start, file + 1, 1));
    REFUSED(keccak_tables_cursor, reading, keccak_tables_tally_feed, 6, (zeros, file, 418));
    GIVES(keccak_tables_sums, keccak_tables_tally_finish, 9, (5, false, start), (4, false, start));
    REFUSED(keccak_tables_sums, done, keccak_tables_tally_finish, 6, (4, false, zeros));
}

static void messages(void) {
    static const uint8_t message[1] = {0xA3};
    uint64_t ops[OP];
    GIVES(keccak_tables_number, keccak_tables_message_operations, 7, (message, 1, 1, 5, ops, OP), (message, 1, 4096, 5, ops, OP));
    GOOD(keccak_tables_reply, yes, keccak_tables_judge_message, (message, 1, ops, OP));
    FAILED(keccak_tables_reply, yes, keccak_tables_judge_message, (message, 0, ops, OP));
    FAILED(keccak_tables_reply, yes, keccak_tables_judge_message, (message, 1, ops, 0));
    REFUSED(keccak_tables_reply, yes, keccak_tables_judge_message, 2, (message, 1, ops, OP - 1));
}

int main(void) {
    counters = calloc(COUNTERS, sizeof *counters);
    copy = calloc(COUNTERS, sizeof *copy);
    table = calloc(TABLE, sizeof *table);
    CHECK(counters != NULL && copy != NULL && table != NULL);
    tables();
    looked_up();
    charged();
    judged();
    files();
    messages();
    free(counters);
    free(copy);
    free(table);
    return 0;
}
