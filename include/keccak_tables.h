/*
 * The proved Keccak tables, by C linkage: the functions of libkeccak_tables.a, which `make archive` makes of crates/keccak_tables_c.
 * crates/keccak_tables/src has the contract of each. host/tests/header.rs holds the names, parameters, structs and numbers of this
 * page against it, .ci/documents the refusals that are said here; the differential runs try them.
 *
 * A slice is a pointer, then a length: in words of 64 bits, or in bytes where the pointer is one to bytes. The pointer is not
 * NULL, even where the length is 0, and is aligned; a slice that is written overlaps no other slice of the call. That is all
 * that a caller has to keep; every number and every word is allowed, and what can't be taken is refused. A word of a table, and a counter,
 * is to be below p = 2^64 - 2^32 + 1.
 *
 * A call answers a struct, whose third word is 1 where the answer is good and 0 anywhere else. So a refusal, a failure, and a struct
 * that no call has filled and that is all zeros never read as good:
 *
 *   keccak_tables_judgement j = keccak_tables_verdict(24, core, core_length, round, round_length);
 *   if (j.holds)
 *       printf("both tables hold, of %" PRIu64 " active core rows\n", j.active);
 *   else if (j.refusal)
 *       printf("refused %" PRIu64 " %" PRIu64 "\n", j.refusal, j.detail);
 *   else
 *       printf("failure %" PRIu64 " in row %" PRIu64 "\n", j.kind, j.row);
 *
 *   if (j.holds)     of a verdict: both tables hold;
 *   if (s.same)      of an operation file against a core table: both record the same calls;
 *   if (m.yes)       of a list of operations against a message: it is the message's;
 *   if (c.reading)   of a reader of an operation file: it has met no fault;
 *   if (a.done)      of every other call: it did its work. Whether a job holds is said by the words of its report.
 *
 * Each struct begins with the refusal and its detail, 0 and 0 where the call is not refused:
 *
 *   refusal 0   it did its work: the slice begins with what is asked for, and the words past that are as they were;
 *   refusal N   it is refused, and every word is as it was. Unless said below, the checks are made in the order of their numbers,
 *               those of one number in the order of the arguments, and the first that refuses is told:
 *
 *   N  what is wrong                                                            detail
 *   1  an index, kind, Z, round or number of operations, keys or rows past its  the least number refused
 *      end
 *   2  a table or a list that is not whole rows, operations, lookups or keys;   0 core, 1 round, 2 list
 *      a list of row counts that does not split a job's tables
 *   3  a slice too short                                                        the length needed
 *   4  an address above 2^64 - 193: a lane would start past 2^64 - 1            the first such address
 *   5  a column, a word of a judged table or a counter that is not below p; a   its place in the slice, from 0
 *      word of a list of lookups, keys or rows that is more than it can be
 *   6  a wrong mark or a cut record in an operation file                        the byte where the record starts
 *   7  an address that is no multiple of 8: no row of it passes its alignment   the first such address
 *      lookup. It is checked after 4 and before 5
 *   8  a number of rounds that is 0 or above 24. It is checked before all       that number
 *      others
 *   9  a floor that is no power of two from 4 to 65,536. It is checked after 8  that floor
 *      and before 1
 *  10  a register that is not in use. It is checked after 9 and before 1        its number
 *  11  a segment word of 2^32 or more in a list of operations. It is checked    the first such word
 *      after 7 and before 5
 *  12  a message of more than 65,536 bytes. It is checked after 1 and before 2  its length
 *  13  timestamps that pass 2^64 - 1. It is checked after 12 and before 2       the first of them
 *  14  more than 4,096 files of a month. It is checked after 9 and before 1     their number
 *
 * `nr` is the number of rounds, one for a whole segment: 24 makes and judges the tables of Keccak-f[1600], and nr those of
 * Keccak-p[1600, nr] of FIPS 202, whose rounds run from 24 - nr to 23.
 *
 * `floor` is the least height of a core and of a round table, one for a whole segment, as the verifier has it: 4, 8, 16, and so on to
 * 65,536. A table has as many rows as the next power of two of those that it needs, and no fewer than the floor; the rest is padding.
 * The tables that are looked up have no part in it.
 *
 * A list of operations is flat, 53 words each: timestamp, address, 25 input lanes, 25 output lanes, segment number; lane (x, y) is at
 * x + 5y. A segment number has 32 bits, and no table, key or counter depends on it.
 * A list of lookups is flat too, 4 words each: kind, x, y, z. A list of keys has 2 words each: a pointer's upper 32 bits, and its bits
 * 16 to 31; a list of rows of the IS_WH table 3 words each: a key's two, and how often. A list of a job's row counts has 2 words a
 * segment: its core rows and its round rows.
 * A row may be lent longer than its columns; the rest is neither read nor written.
 *
 * A state has two orders. Columns, and lanes of operations, run by lane x + 5y: byte b of lane (x, y) is 8 (x + 5 y) + b columns
 * after the state's first. A tuple on the Keccak bus has 203 values, the timestamp's two words, the round and 200 bytes, which run by
 * lane 5x + y: byte b of lane (x, y) is value 3 + 8 (5 x + y) + b. So lane (1, 0) stands in columns 8 to 15 of a state, and in
 * values 43 to 50 of a tuple. To turn one order into the other, in either direction:
 *
 *   for (int x = 0; x < 5; x++)
 *       for (int y = 0; y < 5; y++)
 *           memcpy(to + 8 * (5 * x + y), from + 8 * (x + 5 * y), 8 * sizeof *to);
 */
#ifndef KECCAK_TABLES_H
#define KECCAK_TABLES_H

#include <stdbool.h>
#include <stddef.h>
#include <stdint.h>

#ifdef __cplusplus
extern "C" {
#endif

/* An answer that is not looked at may be a refusal. */
#if defined(__GNUC__) || defined(__clang__)
#define KECCAK_TABLES_MUST_USE __attribute__((warn_unused_result))
#else
#define KECCAK_TABLES_MUST_USE
#endif

/* Refusals, as in the list above; 0 is none. Of what is not whole, the detail says which. */
#define KECCAK_TABLES_REFUSAL_NONE 0
#define KECCAK_TABLES_REFUSAL_PAST_END 1
#define KECCAK_TABLES_REFUSAL_NOT_WHOLE 2
#define KECCAK_TABLES_REFUSAL_TOO_SHORT 3
#define KECCAK_TABLES_REFUSAL_HIGH_ADDRESS 4
#define KECCAK_TABLES_REFUSAL_NOT_ELEMENT 5
#define KECCAK_TABLES_REFUSAL_BAD_RECORD 6
#define KECCAK_TABLES_REFUSAL_UNALIGNED 7
#define KECCAK_TABLES_REFUSAL_ROUNDS 8
#define KECCAK_TABLES_REFUSAL_FLOOR 9
#define KECCAK_TABLES_REFUSAL_REGISTER 10
#define KECCAK_TABLES_REFUSAL_SEGMENT 11
#define KECCAK_TABLES_REFUSAL_LONG_MESSAGE 12
#define KECCAK_TABLES_REFUSAL_LATE_TIMESTAMP 13
#define KECCAK_TABLES_REFUSAL_FILES 14
#define KECCAK_TABLES_LENT_CORE 0
#define KECCAK_TABLES_LENT_ROUND 1
#define KECCAK_TABLES_LENT_LIST 2

/* Buses and sides. On ByteAlu the first value is an operation. */
#define KECCAK_TABLES_BUS_BYTE_ALU 0
#define KECCAK_TABLES_BUS_ARE_BYTES 1
#define KECCAK_TABLES_BUS_IS_HALFWORD 2
#define KECCAK_TABLES_BUS_IS_WH 3
#define KECCAK_TABLES_BUS_KECCAK_RC 4
#define KECCAK_TABLES_BUS_KECCAK 5
#define KECCAK_TABLES_BUS_MEMW 6
#define KECCAK_TABLES_BUS_ECALL 7
#define KECCAK_TABLES_BUS_MSB8 8
#define KECCAK_TABLES_BUS_MSB16 9
#define KECCAK_TABLES_BUS_ZERO 10
#define KECCAK_TABLES_BUS_IS_B20 11
#define KECCAK_TABLES_BUS_HWSL 12
#define KECCAK_TABLES_SIDE_SENDER 0
#define KECCAK_TABLES_SIDE_RECEIVER 1
#define KECCAK_TABLES_ALU_AND 0
#define KECCAK_TABLES_ALU_OR 1
#define KECCAK_TABLES_ALU_XOR 2

/* Kinds of lookup in the bitwise table. */
#define KECCAK_TABLES_KIND_MSB8 0
#define KECCAK_TABLES_KIND_MSB16 1
#define KECCAK_TABLES_KIND_ZERO 2
#define KECCAK_TABLES_KIND_ARE_BYTES 3
#define KECCAK_TABLES_KIND_IS_HALF 4
#define KECCAK_TABLES_KIND_IS_B20 5
#define KECCAK_TABLES_KIND_HWSL 6
#define KECCAK_TABLES_KIND_AND 7
#define KECCAK_TABLES_KIND_OR 8
#define KECCAK_TABLES_KIND_XOR 9

/*
 * Kinds of verdict: 1 to 6 are failures, in the order in which they are looked for; and the two tables. A verdict that is refused has
 * none. In the report on a job the first word of a verdict is one of 1 to 6, or KECCAK_TABLES_REPORT_HOLDS.
 */
#define KECCAK_TABLES_VERDICT_CORE_VALUE 1
#define KECCAK_TABLES_VERDICT_CORE_LOOKUP 2
#define KECCAK_TABLES_VERDICT_TIMESTAMP 3
#define KECCAK_TABLES_VERDICT_ROUND_VALUE 4
#define KECCAK_TABLES_VERDICT_ROUND_LOOKUP 5
#define KECCAK_TABLES_VERDICT_BALANCE 6
#define KECCAK_TABLES_VERDICT_HOLDS 7
#define KECCAK_TABLES_REPORT_HOLDS 0
#define KECCAK_TABLES_TABLE_CORE 0
#define KECCAK_TABLES_TABLE_ROUND 1

/* What is said of an operation file and a core table; nothing where it is refused. */
#define KECCAK_TABLES_AGREEMENT_RECORD 1
#define KECCAK_TABLES_AGREEMENT_ROW 2
#define KECCAK_TABLES_AGREEMENT_SAME 3

/* p = 2^64 - 2^32 + 1: a field element is a word below it. */
#define KECCAK_TABLES_P 0xFFFFFFFF00000001

/*
 * The words of an operation, and the place of its segment number among them; the most operations of a list, the highest address that is
 * not refused by 4 (the highest multiple of 8 is 7 below it), the bytes of a file's record without and with a segment number, and the
 * bytes of their marks: the first, and the second of either.
 */
#define KECCAK_TABLES_OP_WORDS 53
#define KECCAK_TABLES_SEGMENT_WORD 52
#define KECCAK_TABLES_MAX_OPS 89478485
#define KECCAK_TABLES_LAST_ADDRESS 0xFFFFFFFFFFFFFF3F
#define KECCAK_TABLES_RECORD_BYTES 418
#define KECCAK_TABLES_SEGMENT_RECORD_BYTES 422
#define KECCAK_TABLES_FIRST_MARK 0x4B
#define KECCAK_TABLES_PLAIN_MARK 0x4F
#define KECCAK_TABLES_SEGMENT_MARK 0x50

/*
 * Bitwise rows: their number, the columns that the index fixes, all columns, the words of the table; the kinds of lookup; the
 * counters; the words of a lookup in a list; the words of a look at a charge; the most registers in use, the words of a register's
 * ledger, and the words of its look.
 */
#define KECCAK_TABLES_BITWISE_ROWS 1048576
#define KECCAK_TABLES_BITWISE_FIXED_COLUMNS 11
#define KECCAK_TABLES_BITWISE_COLUMNS 21
#define KECCAK_TABLES_BITWISE_WORDS 22020096
#define KECCAK_TABLES_BITWISE_KINDS 10
#define KECCAK_TABLES_BITWISE_COUNTERS 10485760
#define KECCAK_TABLES_LOOKUP_WORDS 4
#define KECCAK_TABLES_LOOK_WORDS 20
#define KECCAK_TABLES_MAX_REGISTERS 16
#define KECCAK_TABLES_LEDGER_WORDS 10
#define KECCAK_TABLES_REGISTER_LOOK_WORDS 30

/* The lanes of a state. */
#define KECCAK_TABLES_LANES 25

/* Of a message: the bytes of a block, the most bytes, and the bytes of its digest. */
#define KECCAK_TABLES_RATE 136
#define KECCAK_TABLES_MAX_MESSAGE 65536
#define KECCAK_TABLES_DIGEST_BYTES 32

/* Constant rows: their number, the columns that the row's number fixes, all columns, the words of the table. */
#define KECCAK_TABLES_RC_ROWS 32
#define KECCAK_TABLES_RC_FIXED_COLUMNS 9
#define KECCAK_TABLES_RC_COLUMNS 10
#define KECCAK_TABLES_RC_WORDS 320

/* Rows of keys: their columns and tuples; the words of a row in a list; the most keys or rows of a list; the most that a row counts. */
#define KECCAK_TABLES_IS_WH_COLUMNS 4
#define KECCAK_TABLES_IS_WH_TUPLES 5
#define KECCAK_TABLES_IS_WH_ROW_WORDS 3
#define KECCAK_TABLES_MAX_KEYS 2236962125
#define KECCAK_TABLES_IS_WH_MU_MAX 1048575

/* Core rows: columns, values, tuples, the words of a row's tuples; the words of an operation's keys. */
#define KECCAK_TABLES_CORE_COLUMNS 486
#define KECCAK_TABLES_CORE_VALUES 52
#define KECCAK_TABLES_CORE_TUPLES 84
#define KECCAK_TABLES_CORE_TUPLE_WORDS 1457
#define KECCAK_TABLES_KEY_WORDS 50

/*
 * Round rows: the rounds of Keccak-f[1600], which is what `nr` is where nothing else is wanted, and the most that it can be; columns,
 * values, tuples, the words of a row's tuples.
 */
#define KECCAK_TABLES_ROUNDS 24
#define KECCAK_TABLES_ROUND_COLUMNS 1480
#define KECCAK_TABLES_ROUND_VALUES 141
#define KECCAK_TABLES_ROUND_TUPLES 1031
#define KECCAK_TABLES_ROUND_TUPLE_WORDS 8211

/*
 * The floor of both tables' heights: the default, which is what `floor` is where nothing else is wanted, and the least that it can be;
 * then the most.
 */
#define KECCAK_TABLES_FLOOR 4
#define KECCAK_TABLES_MAX_FLOOR 65536

/*
 * A month: the most files, its words and what each is. From KECCAK_TABLES_MONTH_HEIGHTS on stand the files at each round height, 2^2 to
 * 2^31; KECCAK_TABLES_MONTH_SHOWN is 1 where there is a file, and so a fullest and an emptiest, else 0.
 */
#define KECCAK_TABLES_MAX_FILES 4096
#define KECCAK_TABLES_MONTH_WORDS 39
#define KECCAK_TABLES_MONTH_FILES 0
#define KECCAK_TABLES_MONTH_OPERATIONS 1
#define KECCAK_TABLES_MONTH_USED_ROWS 2
#define KECCAK_TABLES_MONTH_PADDING_ROWS 3
#define KECCAK_TABLES_MONTH_FULLEST_USED 4
#define KECCAK_TABLES_MONTH_FULLEST_TOTAL 5
#define KECCAK_TABLES_MONTH_EMPTIEST_USED 6
#define KECCAK_TABLES_MONTH_EMPTIEST_TOTAL 7
#define KECCAK_TABLES_MONTH_HEIGHTS 8
#define KECCAK_TABLES_MONTH_SHOWN 38

/* Columns of a core row: each group's first. */
#define KECCAK_TABLES_CORE_TIMESTAMP_0 0
#define KECCAK_TABLES_CORE_TIMESTAMP_1 1
#define KECCAK_TABLES_CORE_ADDR 2
#define KECCAK_TABLES_CORE_INPUT_STATE 10
#define KECCAK_TABLES_CORE_OUTPUT_STATE 210
#define KECCAK_TABLES_CORE_STATE_PTR 410
#define KECCAK_TABLES_CORE_MU 485

/* Columns of a round row, likewise. */
#define KECCAK_TABLES_ROUND_TIMESTAMP_0 0
#define KECCAK_TABLES_ROUND_TIMESTAMP_1 1
#define KECCAK_TABLES_ROUND_ROUND 2
#define KECCAK_TABLES_ROUND_START 3
#define KECCAK_TABLES_ROUND_CXZ 203
#define KECCAK_TABLES_ROUND_CXZ_LEFT 363
#define KECCAK_TABLES_ROUND_CXZ_RIGHT 403
#define KECCAK_TABLES_ROUND_DXZ 423
#define KECCAK_TABLES_ROUND_THETA 463
#define KECCAK_TABLES_ROUND_ROT_LEFT 663
#define KECCAK_TABLES_ROUND_ROT_RIGHT 863
#define KECCAK_TABLES_ROUND_CHI_ANDS 1063
#define KECCAK_TABLES_ROUND_CHI 1263
#define KECCAK_TABLES_ROUND_RC 1463
#define KECCAK_TABLES_ROUND_IOTA 1471
#define KECCAK_TABLES_ROUND_MU 1479

/* The most values that a tuple of any row has, and the most bytes that the line of a verdict has. */
#define KECCAK_TABLES_MAX_TUPLE_LENGTH 203
#define KECCAK_TABLES_LINE_MOST 4335

/* The words of a segment in a list of row counts, and those of a verdict in the report on a job. */
#define KECCAK_TABLES_COUNT_WORDS 2
#define KECCAK_TABLES_VERDICT_WORDS 4

/*
 * What a verdict is lent to work in: the words of `scratch`, and as many of `spare`, for each row of both tables. (The bindings in Rust
 * lend both as one slice, so their SCRATCH_WORDS is twice this.)
 */
#define KECCAK_TABLES_SCRATCH_WORDS 2

/*
 * The answers. Where a call is refused, all words behind `refusal` and `detail` are 0.
 */

/* The answer of a call that only writes. */
typedef struct keccak_tables_answer {
    uint64_t refusal;
    uint64_t detail;
    uint64_t done;
} keccak_tables_answer;

/* The answer of a call that gives a number. */
typedef struct keccak_tables_number {
    uint64_t refusal;
    uint64_t detail;
    uint64_t done;
    uint64_t value;
} keccak_tables_number;

/* The answer of a call that gives a tuple: bus, side, the number of its values, which are in the lent slice, and how often. */
typedef struct keccak_tables_tuple {
    uint64_t refusal;
    uint64_t detail;
    uint64_t done;
    uint64_t bus;
    uint64_t side;
    uint64_t length;
    uint64_t multiplicity;
} keccak_tables_tuple;

/* A key: bits 32 to 63 of a pointer, and bits 16 to 31. It is never refused. */
typedef struct keccak_tables_key {
    uint64_t refusal;
    uint64_t detail;
    uint64_t done;
    uint64_t word;
    uint64_t half;
} keccak_tables_key;

/* The answer of a call that gives a lookup: the four words of it in a list. */
typedef struct keccak_tables_lookup {
    uint64_t refusal;
    uint64_t detail;
    uint64_t done;
    uint64_t kind;
    uint64_t x;
    uint64_t y;
    uint64_t z;
} keccak_tables_lookup;

/*
 * A verdict. `holds` is 1 where both tables hold, and `active` is then the number of active core rows. `kind` is one of
 * KECCAK_TABLES_VERDICT_..; of a failure `table`, `row` and `index` say where it is, all from 0, the index being that of the value or
 * tuple, and 0 of a timestamp that an earlier active core row has. What a verdict does not have is 0.
 */
typedef struct keccak_tables_judgement {
    uint64_t refusal;
    uint64_t detail;
    uint64_t holds;
    uint64_t active;
    uint64_t kind;
    uint64_t table;
    uint64_t row;
    uint64_t index;
} keccak_tables_judgement;

/*
 * The answer of a file against a core table: `same` is 1 where both record the same calls; a kind, KECCAK_TABLES_AGREEMENT_..; and the
 * number, from 0, of the record in the file or of the row in the table, 0 where both are the same.
 */
typedef struct keccak_tables_agreement {
    uint64_t refusal;
    uint64_t detail;
    uint64_t same;
    uint64_t kind;
    uint64_t place;
} keccak_tables_agreement;

/* The answer of a list of operations against a message: 1 yes, 0 no. */
typedef struct keccak_tables_reply {
    uint64_t refusal;
    uint64_t detail;
    uint64_t yes;
} keccak_tables_reply;

/*
 * Where a reader of an operation file stands: refusal and detail of the first fault; or `reading` 1 while there is none, and then the whole
 * records at multiples of 8, the bytes of the next one, what its address bytes so far make, the whole records at other addresses, where the
 * next one starts, the second byte of its mark, what the bytes of its segment number so far make, and of the records at multiples of 8
 * whether one has a segment number, the least and the greatest. Hand it from call to call as it is.
 */
typedef struct keccak_tables_cursor {
    uint64_t refusal;
    uint64_t detail;
    uint64_t reading;
    uint64_t records;
    size_t at;
    uint64_t address;
    uint64_t unaligned;
    uint64_t start;
    uint64_t mark;
    uint64_t tail;
    uint64_t segments;
    uint64_t least_segment;
    uint64_t greatest_segment;
} keccak_tables_cursor;

/*
 * What a file's tables would hold and send: operations, heights, and per bus the sum of multiplicities (Ecall: received). Records at
 * addresses that are no multiples of 8 are left out of all of these, and `unaligned` is their number. Where a record that is counted is
 * marked 4B 50, `segments` is 1, and the least and the greatest segment number are those of all that are counted; else the three are 0.
 */
typedef struct keccak_tables_sums {
    uint64_t refusal;
    uint64_t detail;
    uint64_t done;
    uint64_t ops;
    uint64_t core_rows;
    uint64_t round_rows;
    uint64_t byte_alu;
    uint64_t are_bytes;
    uint64_t keccak_rc;
    uint64_t is_halfword;
    uint64_t is_wh;
    uint64_t memw;
    uint64_t ecall;
    uint64_t unaligned;
    uint64_t segments;
    uint64_t least_segment;
    uint64_t greatest_segment;
} keccak_tables_sums;

/* ---- bitwise rows and their counters ---- */

/* Writes the 11 fixed columns of row `index` = x + 256 y + 65,536 z. 1 index >= 1,048,576; 3 row < 11. */
KECCAK_TABLES_MUST_USE
keccak_tables_answer keccak_tables_generate_bitwise_row(size_t index, uint64_t *row, size_t row_length);

/* The index of the row of x, y and z. 1 z >= 16. */
KECCAK_TABLES_MUST_USE
keccak_tables_number keccak_tables_bitwise_row_index(uint8_t x, uint8_t y, uint8_t z);

/*
 * Adds one, mod p, to the counter of a kind of lookup (KECCAK_TABLES_KIND_..) in the row of x, y and z, at row * 10 + kind.
 * 1 kind >= 10, then z >= 16; 3 counters < 10,485,760; 5 that counter is p or more.
 * A row's counter of kind k belongs in column 11 + k of its 21 columns. ByteAlu (op, a, b, c) is looked up as kind 7 + op at x = a,
 * y = b, z = 0; AreBytes (a, b) as kind 3 likewise; IsHalfword (h) as kind 4 at x = h mod 256, y = h div 256, z = 0.
 */
KECCAK_TABLES_MUST_USE
keccak_tables_answer keccak_tables_bitwise_bump(uint64_t *counters, size_t counters_length, size_t kind, uint8_t x, uint8_t y,
                                                uint8_t z);

/* Adds n, mod p, to such a counter; an n of p or more counts as what is left of it mod p. 1, 3 and 5 as above. */
KECCAK_TABLES_MUST_USE
keccak_tables_answer keccak_tables_bump_n(uint64_t *counters, size_t counters_length, size_t kind, uint8_t x, uint8_t y, uint8_t z,
                                          uint64_t n);

/* A lookup of a kind at x, y and z. 1 kind >= 10, then z >= 16. */
KECCAK_TABLES_MUST_USE
keccak_tables_lookup keccak_tables_lookup_new(size_t kind, uint8_t x, uint8_t y, uint8_t z);

/* AND, OR or XOR of two bytes, z being 0. 1 kind >= 10. */
KECCAK_TABLES_MUST_USE
keccak_tables_lookup keccak_tables_lookup_byte_op(size_t kind, uint8_t x, uint8_t y);

/* MSB8 or ARE_BYTES of a byte, y and z being 0. 1 kind >= 10. */
KECCAK_TABLES_MUST_USE
keccak_tables_lookup keccak_tables_lookup_single_byte(size_t kind, uint8_t x);

/* MSB16 or IS_HALF of x + 256 y, z being 0. 1 kind >= 10. */
KECCAK_TABLES_MUST_USE
keccak_tables_lookup keccak_tables_lookup_halfword(size_t kind, uint8_t x, uint8_t y);

/* ZERO of value = x + 256 y + 65,536 z. 1 value >= 1,048,576. */
KECCAK_TABLES_MUST_USE
keccak_tables_lookup keccak_tables_lookup_zero(uint32_t value);

/* HWSL of x + 256 y by z bits. 1 kind >= 10, then z >= 16. */
KECCAK_TABLES_MUST_USE
keccak_tables_lookup keccak_tables_lookup_shift_op(size_t kind, uint8_t x, uint8_t y, uint8_t z);

/* IS_B20 of x + 256 y + 65,536 z. 1 z >= 16. */
KECCAK_TABLES_MUST_USE
keccak_tables_lookup keccak_tables_lookup_b20(uint8_t x, uint8_t y, uint8_t z);

/*
 * Adds a list of lookups to their counters, one each, mod p. 1 the first lookup with kind >= 10 or z >= 16; 2 the list;
 * 3 counters < 10,485,760; 5 x or y >= 256, then the first of the counters that they charge which is p or more. No other counter is
 * read.
 */
KECCAK_TABLES_MUST_USE
keccak_tables_answer keccak_tables_add_ops(uint64_t *counters, size_t counters_length, const uint64_t *ops, size_t ops_length);

/* Adds other counters, each to its own, mod p. 3 counters, then other, < 10,485,760; 5 any of counters, then of other. */
KECCAK_TABLES_MUST_USE
keccak_tables_answer keccak_tables_merge(uint64_t *counters, size_t counters_length, const uint64_t *other, size_t other_length);

/* Writes the table, 1,048,576 rows of 21 columns, every multiplicity 0. 3 table < 22,020,096. */
KECCAK_TABLES_MUST_USE
keccak_tables_answer keccak_tables_generate_bitwise_trace(uint64_t *table, size_t table_length);

/*
 * Sets the multiplicities of the table, columns 11 to 20 of each row, to the counters; the other columns are neither read nor written.
 * 3 counters < 10,485,760, then table < 22,020,096; 5 any counter.
 */
KECCAK_TABLES_MUST_USE
keccak_tables_answer keccak_tables_fill_multiplicities(const uint64_t *counters, size_t counters_length, uint64_t *table,
                                                       size_t table_length);

/*
 * Adds a list of lookups to the multiplicities of the table, one each, mod p. 1 the first lookup with kind >= 10 or z >= 16; 2 the list;
 * 3 table < 22,020,096; 5 x or y >= 256, then the first of the multiplicities that they charge which is p or more.
 */
KECCAK_TABLES_MUST_USE
keccak_tables_answer keccak_tables_bitwise_update_multiplicities(uint64_t *table, size_t table_length, const uint64_t *ops,
                                                                 size_t ops_length);

/* Tuple `index` of a row of 21 columns. 1 index >= 10; 3 row < 21, then out < the tuple's length; 5 a column. */
KECCAK_TABLES_MUST_USE
keccak_tables_tuple keccak_tables_bitwise_bus_interaction(const uint64_t *row, size_t row_length, size_t index, uint64_t *out,
                                                          size_t out_length);

/* ---- round constants ---- */

/* Writes the 9 fixed columns of a constant row: its number, then the constant's bytes. 1 round >= 32; 3 out < 9. */
KECCAK_TABLES_MUST_USE
keccak_tables_answer keccak_tables_keccak_rc_generate_row(size_t round, uint64_t *out, size_t out_length);

/* Writes the 32 rows of 10 columns, every multiplicity 0. 3 table < 320. */
KECCAK_TABLES_MUST_USE
keccak_tables_answer keccak_tables_generate_keccak_rc_trace(uint64_t *table, size_t table_length);

/* Sets the multiplicities of rounds 24 - nr to 23 to n, and those of the rounds before to 0. 8 nr; 1 n > 89,478,485; 3 table < 320. */
KECCAK_TABLES_MUST_USE
keccak_tables_answer keccak_tables_keccak_rc_update_multiplicities(uint64_t nr, uint64_t *table, size_t table_length, uint64_t n);

/* Tuple `index` of a row of 10 columns, of which it has one. 1 index >= 1; 3 row < 10, then out < 9; 5 a column. */
KECCAK_TABLES_MUST_USE
keccak_tables_tuple keccak_tables_keccak_rc_bus_interaction(const uint64_t *row, size_t row_length, size_t index, uint64_t *out,
                                                            size_t out_length);

/* ---- keys of pointers ---- */

/* The key of a number. Never refused. */
KECCAK_TABLES_MUST_USE
keccak_tables_key keccak_tables_is_wh_key(uint64_t value);

/*
 * Writes the rows of the IS_WH table for a list of keys, and gives their number: the keys in order, by word and then by half, each once
 * with how often it occurs, over several rows where that is more than 1,048,575, full rows first. `codes` and `spare`, a word for each
 * key, are worked in. 1 more than 2,236,962,125 keys; 2 the list; 3 codes < n, then spare < n, then rows < 3 n; 5 a word >= 2^32 or a
 * half >= 2^16.
 */
KECCAK_TABLES_MUST_USE
keccak_tables_number keccak_tables_dedup_is_wh_rows(const uint64_t *keys, size_t keys_length, uint64_t *codes, size_t codes_length,
                                                    uint64_t *spare, size_t spare_length, uint64_t *rows, size_t rows_length);

/* The height of the table of n such rows: the next power of two, at least 4. 1 n > 2,236,962,125. */
KECCAK_TABLES_MUST_USE
keccak_tables_number keccak_tables_is_wh_height(size_t n);

/*
 * Writes the table of a list of rows: a key's half, the low and the high half of its word, how often; padding rows are 0.
 * 1 more than 2,236,962,125 rows; 2 the list; 3 table < height * 4; 5 a word >= 2^32, a half >= 2^16 or a count >= 2^20.
 */
KECCAK_TABLES_MUST_USE
keccak_tables_answer keccak_tables_generate_is_wh_trace(const uint64_t *rows, size_t rows_length, uint64_t *table,
                                                        size_t table_length);

/*
 * Adds to the counters of the bitwise table, mod p, what the table of a list of rows looks up, padding rows included; nothing where
 * there are no rows. 1 and 2 as above; 3 counters < 10,485,760; 5 a word of the list as above, then the first of the counters charged
 * which is p or more. Every other counter is neither read nor written.
 */
KECCAK_TABLES_MUST_USE
keccak_tables_answer keccak_tables_collect_bitwise_from_is_wh(const uint64_t *rows, size_t rows_length, uint64_t *counters,
                                                              size_t counters_length);

/* Tuple `index` of a row of 4 columns. 1 index >= 5; 3 row < 4, then out < the tuple's length; 5 a column. */
KECCAK_TABLES_MUST_USE
keccak_tables_tuple keccak_tables_is_wh_bus_interaction(const uint64_t *row, size_t row_length, size_t index, uint64_t *out,
                                                        size_t out_length);

/* ---- the core table ---- */

/*
 * Writes the core row of operation `index` of a list. Every operation of the list is checked, so a call's time grows with the list: where
 * one row is wanted, lend its 53 words alone, `keccak_tables_keccak_row(ops + 53 * index, 53, 0, row, 486)`.
 * 1 more than 89,478,485 operations, then index >= their number; 2 the list; 3 row < 486; 4, 7 the first such address of the list; 11 its
 * first such segment word.
 */
KECCAK_TABLES_MUST_USE
keccak_tables_answer keccak_tables_keccak_row(const uint64_t *ops, size_t ops_length, size_t index, uint64_t *row,
                                              size_t row_length);

/*
 * Writes the core table of a list. 9 floor; 1 more than 89,478,485 operations; 2 the list; 3 table < height * 486; 4, 7 an
 * address; 11 a segment word.
 */
KECCAK_TABLES_MUST_USE
keccak_tables_answer keccak_tables_generate_keccak_trace(uint64_t floor, const uint64_t *ops, size_t ops_length, uint64_t *table,
                                                         size_t table_length);

/*
 * Writes the rows of a list's operations alone, with no padding. The rows of two lists, one after the other, are those of the list that
 * the two make, so threads can fill one table, each its own part from its part of the list.
 * 1 more than 89,478,485 operations; 2 the list; 3 table < 486 n; 4, 7 an address; 11 a segment word.
 */
KECCAK_TABLES_MUST_USE
keccak_tables_answer keccak_tables_keccak_rows(const uint64_t *ops, size_t ops_length, uint64_t *table, size_t table_length);

/*
 * Writes the keys of a list, 25 to an operation. 1 more than 89,478,485 operations; 2 the list; 3 out < 50 n; 4, 7 an address; 11 a
 * segment word.
 */
KECCAK_TABLES_MUST_USE
keccak_tables_answer keccak_tables_is_wh_keys(const uint64_t *ops, size_t ops_length, uint64_t *out, size_t out_length);

/* The height of the core table of n operations: the next power of two, at least the floor. 9 floor; 1 n > 89,478,485. */
KECCAK_TABLES_MUST_USE
keccak_tables_number keccak_tables_keccak_height(uint64_t floor, size_t n);

/* Writes the 52 constraint values of a core row. 3 row < 486, then out < 52; 5 a column. */
KECCAK_TABLES_MUST_USE
keccak_tables_answer keccak_tables_keccak_values(const uint64_t *row, size_t row_length, uint64_t *out, size_t out_length);

/*
 * Tuple `index` of a core row; `syscall` is the number of the system call, which stands in tuple 0; tuple 2 sends the input at round
 * 24 - nr. 8 nr; 1 index >= 84; 3 row < 486, then out < the tuple's length; 5 a column.
 */
KECCAK_TABLES_MUST_USE
keccak_tables_tuple keccak_tables_keccak_bus_interaction(uint64_t nr, const uint64_t *row, size_t row_length, size_t index,
                                                         uint64_t syscall, uint64_t *out, size_t out_length);

/*
 * Writes all 84 tuples of a core row, one after the other: for each bus, side, length and multiplicity, then its values.
 * 8 nr; 3 row < 486, then out < 1,457; 5 a column.
 */
KECCAK_TABLES_MUST_USE
keccak_tables_answer keccak_tables_keccak_bus_interactions(uint64_t nr, const uint64_t *row, size_t row_length, uint64_t syscall,
                                                           uint64_t *out, size_t out_length);

/* ---- the round table ---- */

/* Writes the row of a round from the 25 lanes of START. 1 round >= 24; 3 start < 25, then row < 1,480. */
KECCAK_TABLES_MUST_USE
keccak_tables_answer keccak_tables_keccak_rnd_row(uint64_t timestamp, const uint64_t *start, size_t start_length, size_t round,
                                                  uint64_t *row, size_t row_length);

/*
 * Writes the round table of a list, nr rows to an operation. 8 nr; 9 floor; 1 more than 89,478,485 operations; 2 the list; 3 table <
 * height * 1,480; 4, 7 an address; 11 a segment word.
 */
KECCAK_TABLES_MUST_USE
keccak_tables_answer keccak_tables_generate_keccak_rnd_trace(uint64_t nr, uint64_t floor, const uint64_t *ops, size_t ops_length,
                                                             uint64_t *table, size_t table_length);

/* Writes the rows of a list's operations alone, nr to each, likewise. 8, 1, 2, 4, 7 and 11 as the table; 3 table < nr * 1,480 n. */
KECCAK_TABLES_MUST_USE
keccak_tables_answer keccak_tables_keccak_rnd_rows(uint64_t nr, const uint64_t *ops, size_t ops_length, uint64_t *table,
                                                   size_t table_length);

/*
 * The height of the round table of n operations: the next power of two of nr * n, at least the floor. 8 nr; 9 floor; 1 n >
 * 89,478,485.
 */
KECCAK_TABLES_MUST_USE
keccak_tables_number keccak_tables_keccak_rnd_height(uint64_t nr, uint64_t floor, size_t n);

/* How many AreBytes tuples the padding rows of that table send; 0 where n is 0. 8 nr; 9 floor; 1 n > 89,478,485. */
KECCAK_TABLES_MUST_USE
keccak_tables_number keccak_tables_padding_are_bytes(uint64_t nr, uint64_t floor, size_t n);

/* Writes the 141 constraint values of a round row. 3 row < 1,480, then out < 141; 5 a column. */
KECCAK_TABLES_MUST_USE
keccak_tables_answer keccak_tables_keccak_rnd_values(const uint64_t *row, size_t row_length, uint64_t *out, size_t out_length);

/* Tuple `index` of a round row. 1 index >= 1,031; 3 row < 1,480, then out < the tuple's length; 5 a column. */
KECCAK_TABLES_MUST_USE
keccak_tables_tuple keccak_tables_keccak_rnd_bus_interaction(const uint64_t *row, size_t row_length, size_t index, uint64_t *out,
                                                             size_t out_length);

/* Writes all 1,031 tuples of a round row, likewise. 3 row < 1,480, then out < 8,211; 5 a column. */
KECCAK_TABLES_MUST_USE
keccak_tables_answer keccak_tables_keccak_rnd_bus_interactions(const uint64_t *row, size_t row_length, uint64_t *out,
                                                               size_t out_length);

/* ---- what a segment looks up on the bitwise table ---- */

/*
 * Adds to the counters of the bitwise table, mod p, all that the core and the round table of a list look up there, padding rows included.
 * An empty list adds nothing, and where its tables are shipped the padding rows' pairs of bytes, 220 times the floor. 8 nr; 9 floor;
 * 1 more than 89,478,485 operations; 2 the list; 3 counters < 10,485,760; 4, 7 an address; 11 a segment word; 5 any
 * counter.
 */
KECCAK_TABLES_MUST_USE
keccak_tables_answer keccak_tables_charge(uint64_t nr, uint64_t floor, bool shipped, const uint64_t *ops, size_t ops_length,
                                          uint64_t *counters, size_t counters_length);

/*
 * A look at that beforehand: `copy` then begins with the counters as the charge would leave them, and `out` with two words for each of
 * the ten kinds, how many are added and the largest of its counters afterwards. 8, 9, 1, 2, 4, 7, 11 and 5 as above; 3 counters <
 * 10,485,760, then copy < 10,485,760, then out < 20.
 */
KECCAK_TABLES_MUST_USE
keccak_tables_answer keccak_tables_look(uint64_t nr, uint64_t floor, bool shipped, const uint64_t *ops, size_t ops_length,
                                        const uint64_t *counters, size_t counters_length, uint64_t *copy, size_t copy_length,
                                        uint64_t *out, size_t out_length);

/* ---- several registers on one counter table ---- */

/*
 * The same charge through a register, one of several that share the counters. A register has a ledger of ten words at register * 10, the
 * sum of each kind that it has charged, mod p; in use are as many registers as whole ledgers stand in the lent words, 16 at most. The
 * charge adds to its own ledger how many it adds of each kind; every other ledger word is as it was, those past the sixteenth ledger too.
 * 8 nr; 9 floor; 10 the register is not in use; 1, 2, 3, 4, 7, 11 and 5 as `charge`; then 5 a word of its own ledger, its place in
 * `ledgers`.
 */
KECCAK_TABLES_MUST_USE
keccak_tables_answer keccak_tables_register_charge(uint64_t nr, uint64_t floor, bool shipped, uint64_t register_number,
                                                   const uint64_t *ops, size_t ops_length, uint64_t *counters,
                                                   size_t counters_length, uint64_t *ledgers, size_t ledgers_length);

/*
 * A look at that beforehand: `copy` as the look above leaves it, and `out` begins with its twenty words and then the ten of the
 * register's ledger as the charge would leave it. 8, 9, 10, 1, 2, 4, 7, 11 and 5 as the charge; 3 counters < 10,485,760, then copy <
 * 10,485,760, then out < 30.
 */
KECCAK_TABLES_MUST_USE
keccak_tables_answer keccak_tables_register_look(uint64_t nr, uint64_t floor, bool shipped, uint64_t register_number,
                                                 const uint64_t *ops, size_t ops_length, const uint64_t *counters,
                                                 size_t counters_length, const uint64_t *ledgers, size_t ledgers_length,
                                                 uint64_t *copy, size_t copy_length, uint64_t *out, size_t out_length);

/* ---- the permutation by itself ---- */

/*
 * Keccak-p[1600, nr] of FIPS 202 of a state, Keccak-f[1600] where nr is 24: the first 25 words of `state` are its lanes, lane (x, y) at
 * x + 5y, and are then the lanes after the rounds 24 - nr to 23. 8 nr; 3 state < 25.
 */
KECCAK_TABLES_MUST_USE
keccak_tables_answer keccak_tables_keccak_f(uint64_t nr, uint64_t *state, size_t state_length);

/* ---- from message to operations ---- */

/*
 * Writes the operations that hash a message with SHA3-256, all at one address, from a first timestamp on, and answers how many there
 * are: a block each, length / 136 + 1. Each output is Keccak-f[1600] of its input; each input is the previous output with the next
 * block of the padded message added by exclusive or, the first from zero; timestamps rise by 1, and the segment is 0. The first 4 lanes
 * of the last output are the digest, lowest byte first. 12 the message; 13 the timestamp; 3 ops < 53 n; 4, 7 the address.
 */
KECCAK_TABLES_MUST_USE
keccak_tables_number keccak_tables_message_operations(const uint8_t *message, size_t message_length, uint64_t address,
                                                      uint64_t timestamp, uint64_t *ops, size_t ops_length);

/*
 * Whether a list of operations is the one that is written for a message at the list's own first address and from its first timestamp
 * on. An empty list is not, and none whose timestamps would pass 2^64 - 1. 1 more than 89,478,485 operations; 12 the
 * message; 2 the list; 4, 7 an address; 11 a segment word.
 */
KECCAK_TABLES_MUST_USE
keccak_tables_reply keccak_tables_judge_message(const uint8_t *message, size_t message_length, const uint64_t *ops,
                                                size_t ops_length);

/* ---- the month in whole numbers ---- */

/*
 * What the segments of many files use of their round tables, nr rows to an operation, from the files' operation counts: the 39 words
 * KECCAK_TABLES_MONTH_FILES to KECCAK_TABLES_MONTH_SHOWN. A file of no operations is one whose tables are shipped, with as many rows of
 * padding as the floor. Fullness is used rows to all rows, and of tables that are equally full the first is shown; else the order of the
 * counts changes no word. Of no files all words are 0. 8 nr; 9 floor; 14 more than 4,096 counts; 1 a count above 89,478,485; 3 out < 39.
 */
KECCAK_TABLES_MUST_USE
keccak_tables_answer keccak_tables_month(uint64_t nr, uint64_t floor, const uint64_t *counts, size_t counts_length, uint64_t *out,
                                         size_t out_length);

/* ---- the verdict ---- */

/*
 * Judges a core table and a round table of nr rounds, either possibly empty. It has no memory of its own: for rows that stand as the writers
 * put them the time grows with the rows, in other orders up to their square. 8 nr; 2 core, then round, is not whole rows; 5 a word, core
 * first.
 */
KECCAK_TABLES_MUST_USE
keccak_tables_judgement keccak_tables_verdict(uint64_t nr, const uint64_t *core, size_t core_length, const uint64_t *round,
                                              size_t round_length);

/*
 * The same verdict as one line of text, and the line's length: `holds N`; or `core` or `round`, `row R`, then `value I`, `timestamp 0`,
 * `lookup I` or `balance I`, of the last two the bus's name and the tuple's values. Decimals, single spaces, no line end and no zero
 * behind it. Two lines are equal exactly where the verdicts and the shown tuples are. 8, 2 and 5 as above; then 3 line < the line's
 * length, never where KECCAK_TABLES_LINE_MOST bytes are lent.
 */
KECCAK_TABLES_MUST_USE
keccak_tables_number keccak_tables_verdict_line(uint64_t nr, const uint64_t *core, size_t core_length, const uint64_t *round,
                                                size_t round_length, uint8_t *line, size_t line_length);

/*
 * The verdict in lent memory: the same answer, in a time that was measured to grow as n log n with the rows in every order that was tried,
 * so for tables that somebody else ordered. `scratch` and `spare` each need two words for each row of both tables,
 * KECCAK_TABLES_SCRATCH_WORDS * (core rows + round rows), together 32 bytes a row; what they hold before does not matter. Afterwards that
 * many words of each are 0, and the words past them as they were. 8 and 2 as above; 3 scratch, then spare; 5 as above.
 */
KECCAK_TABLES_MUST_USE
keccak_tables_judgement keccak_tables_verdict_within(uint64_t nr, const uint64_t *core, size_t core_length, const uint64_t *round,
                                                     size_t round_length, uint64_t *scratch, size_t scratch_length, uint64_t *spare,
                                                     size_t spare_length);

/*
 * The line of that verdict, likewise, into KECCAK_TABLES_LINE_MOST bytes or more, whatever the line, so that nothing is refused once the
 * tables are judged. 8 and 2 as above; 3 line < KECCAK_TABLES_LINE_MOST, then scratch, then spare; 5 as above.
 */
KECCAK_TABLES_MUST_USE
keccak_tables_number keccak_tables_verdict_line_within(uint64_t nr, const uint64_t *core, size_t core_length, const uint64_t *round,
                                                       size_t round_length, uint8_t *line, size_t line_length, uint64_t *scratch,
                                                       size_t scratch_length, uint64_t *spare, size_t spare_length);

/* ---- segments, then the job ---- */

/*
 * Judges each segment of a job, and then the job: `core` and `round` have all rows of its segments, one segment after the other, `counts`
 * the two row counts of each segment. `report` then begins with four words for each segment in order, and four for the job: 0, the count
 * of active core rows, 0, 0; or the failure's kind, 1 to 6 of KECCAK_TABLES_VERDICT_.., its table, row and index, counted from the first
 * row of what was judged. Read it only where the answer is `done`, since a verdict of zeros holds. A job of no segments has no rows. A job
 * can hold while a segment fails: where a round row stands with the wrong one. 8 nr; 2 core, then round, is not whole rows, then counts
 * that are no pairs, or whose sums, as whole numbers, are not the rows of both tables; 3 report < 4 (segments + 1); 5 a word of core, then
 * of round.
 */
KECCAK_TABLES_MUST_USE
keccak_tables_answer keccak_tables_job(uint64_t nr, const uint64_t *core, size_t core_length, const uint64_t *round,
                                       size_t round_length, const uint64_t *counts, size_t counts_length, uint64_t *report,
                                       size_t report_length);

/*
 * The same report in lent memory, as keccak_tables_verdict_within is lent it: `scratch` and `spare` each two words for each row of the job's
 * two tables. 8 and 2 as above; 3 report, then scratch, then spare; 5 as above.
 */
KECCAK_TABLES_MUST_USE
keccak_tables_answer keccak_tables_job_within(uint64_t nr, const uint64_t *core, size_t core_length, const uint64_t *round,
                                              size_t round_length, const uint64_t *counts, size_t counts_length, uint64_t *report,
                                              size_t report_length, uint64_t *scratch, size_t scratch_length, uint64_t *spare,
                                              size_t spare_length);

/*
 * ---- operation files: records under two marks, in any order ----
 *
 * 4B 4F: 418 bytes, the mark and then an operation's 52 words before its segment number, lowest byte first; of segment 0.
 * 4B 50: 422 bytes, the same and then four bytes of the segment number, lowest first.
 */

/* A reader at the beginning of a file. Never refused. */
KECCAK_TABLES_MUST_USE
keccak_tables_cursor keccak_tables_tally_start(void);

/*
 * Reads the next piece of the file, cut anywhere; a fault stays what it is. 1 a byte after record 89,478,485; 4 a record's
 * address, told when all bytes of the record are read; 6 a wrong mark, told at its first wrong byte. No file gives 7: a record at an address
 * that is no multiple of 8 is counted apart; nor 8 to 14. A cursor that a caller made up is answered, unless its `reading` is 1, by the
 * refusal that it names, where a number that no refusal has counts as 6; so is one of zeros. One that stands past the most bytes of a file,
 * 422 times 89,478,485, gets 1.
 */
KECCAK_TABLES_MUST_USE
keccak_tables_cursor keccak_tables_tally_feed(keccak_tables_cursor cursor, const uint8_t *bytes, size_t bytes_length);

/*
 * What the file says at its end, of tables with this floor and 24 rounds: 9 floor; then 1, 4 and 6 of the reader's fault; 1 more than
 * 89,478,485 records, or bytes after the last of them (only a reader that no call made); 6 a cut record; or the sums over the rows of both
 * tables.
 * Where the tables of an empty file are not shipped its sums are 0; where they are, its zero round rows, as many as the floor, send 220
 * times the floor on AreBytes. Of a file with a record that is counted `shipped` changes nothing.
 */
KECCAK_TABLES_MUST_USE
keccak_tables_sums keccak_tables_tally_finish(uint64_t floor, bool shipped, keccak_tables_cursor cursor);

/*
 * Writes the operations of a whole file, also at addresses that are no multiples of 8, which the calls that take a list refuse. 1, 4 and
 * 6 as a reader gives them, for the first faulty record; then 3 ops < 53 n.
 */
KECCAK_TABLES_MUST_USE
keccak_tables_answer keccak_tables_read_operations(const uint8_t *file, size_t file_length, uint64_t *ops, size_t ops_length);

/*
 * Writes the records of a list, of segment 0 under 4B 4F, of any other under 4B 50. 1 more than 89,478,485 operations; 2 the list; 3 file <
 * 418 for each segment word of 0 and 422 for each other; 4, 7 an address; 11 a segment word.
 */
KECCAK_TABLES_MUST_USE
keccak_tables_answer keccak_tables_write_operations(const uint64_t *ops, size_t ops_length, uint8_t *file, size_t file_length);

/* ---- the executor's file against the core table ---- */

/*
 * Whether the active rows of a core table and the records of a whole file are the same calls, in some order, repeats counted: timestamp,
 * address, INPUT and OUTPUT are compared, pointers and segment numbers are not. Else the first record that has no row of its own, or failing
 * that the first active row left; equal copies are partnered earliest first. Records at addresses that are no multiples of 8 are compared like
 * any other. A row with a byte of 256 or more, or a timestamp word of 2^32 or more, has no record. The time grows with rows and records as
 * far as both stand in one order, and with the square of what is left from there on. 2 the table; 5 a word of it; then 1, 6 and 4 as a reader
 * gives them, for the first faulty record; never 7.
 */
KECCAK_TABLES_MUST_USE
keccak_tables_agreement keccak_tables_same_operations(const uint64_t *core, size_t core_length, const uint8_t *file,
                                                      size_t file_length);

#ifdef __cplusplus
}
#endif

#endif
