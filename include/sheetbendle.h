/*
 * Sheetbendle for C: runs one batch of small programs against a table of 32-bit cells.
 *
 * A board makes the calls in this order, once per batch:
 *
 *     sheetbendle_open         clears the work area
 *     sheetbendle_gather       once for each program, in any order: runs it, notes its reads and stores
 *     sheetbendle_settle       once for each program that is then gathered, in any order: commits or carries it
 *     sheetbendle_why          as often as wanted, for a carried program: the reason, with its cause
 *     sheetbendle_order        the committed programs, as if they had run one after the other
 *     sheetbendle_next_image   the carried programs and the fresh ones, as the next batch
 *
 * The calls above are those of a batch. Four others need no batch and can be made at any time:
 *
 *     sheetbendle_program, sheetbendle_program_refusal   a program of an image, by its number
 *     sheetbendle_image_of                               from a sheet, which is text, to its image
 *     sheetbendle_sheet_of                               from an image to its sheet
 *
 * Who owns what. The caller owns every buffer. The library keeps nothing between calls, has no
 * memory of its own and never asks for any; a batch lives in its image, table, guards and area alone.
 * So several batches can be under way at once, each with its own table and area. From its opening to
 * its next image a batch is lent the same image, table, guards and area at every call, and nobody
 * else changes them.
 *
 * Buffers. A buffer that a call may change, which is one whose pointer is not const, must not
 * overlap another buffer of that call; buffers that it only reads may overlap. Each pointer goes
 * with its length: in bytes for an image or a sheet, in cells for a table, in words for guards or an
 * area, in entries for a list. A null pointer goes with length 0. A buffer of words is aligned as
 * uint32_t asks.
 *
 * Threads. Calls may be made from any thread, also at the same time or from a handler that
 * interrupts another call, as long as no buffer that one of the calls under way may change overlaps
 * a buffer lent to another of them. So gatherings of one batch go one after the other, since each
 * changes the area; but boards with tables and areas of their own can share one image and one list
 * of guards.
 *
 * Guards. Beside the table goes a guard list of two words for each cell, cell by cell: the smallest
 * number that a program may store there, then the largest. Both are signed, as is the stored value
 * when it is compared with them: in two's complement, where a word of 2147483648 or more stands for
 * the number that is smaller by 4294967296. A heater that stays between -20 and 45 has the guard
 * 4294967276, 45, since -20 is 4294967276, or (uint32_t)-20 in C. A store below low or above high is
 * a fault: the program ends there, stores nothing and is not carried. Where low is above high the
 * cell is closed, and every store to it is a fault. What the table holds when a batch is opened is
 * compared with no guard, and a load is not either. No call changes the guards, so they can be a const
 * array:
 *
 *     static const uint32_t guards[] = { SHEETBENDLE_GUARD(-20, 45), SHEETBENDLE_FULL_RANGE };
 *
 * What it needs. The archive is x86-64 code today, for the System V calling convention. From
 * outside it needs one function, memset. A call takes at most so many bytes of stack,
 * from the caller's frame down, with the arguments that lie there and the return address:
 *
 *     program   program_refusal   open   gather   settle   why   order   next_image   image_of   sheet_of
 *         197               197    229      517      309   293    1045          357        344        277
 *
 * bench/run measures it, on x86-64, with the inputs that take the most, and tests/needs holds this
 * table to it. Where memset is called, 100 of these bytes are left for its own.
 *
 * Refusals. Every call may be lent anything: it checks first, in the order of the rows below (the
 * next image: 1 to 3, 41 to 44, 5, 14, 6, 7, 9, 21 to 23, 61 to 64, 11, 10; the image of a sheet: 51,
 * 2, 3, 42 to 44, 10), and the first that holds is returned. 41 to 44 are one check, and so are 61 to
 * 64: it goes through the programs in their order, each from its first instruction on, and stops at
 * the first instruction that is bad. Where that one is bad in several ways, the first of the four is
 * returned. A refused call changes no lent memory, and every other number it returns is 0, but for
 * the place of 41 to 44 and 61 to 64 and the line of 51.
 *
 * The place is that of the bad instruction: the number of its program, in the image, the fresh image
 * or the sheet, and its own number in that program, both from 0. For every other refusal, and for 0,
 * program and instruction are 0 and mean nothing.
 *
 *     no.   when exactly                                                              from
 *      0    done                                                                      all
 *      1    image under 6 or over 8326 bytes                                          all but image_of
 *      2    program count over 64, rule over 2, or byte 3 not 0; a sheet: over 64     all
 *           programs
 *      3    image under 2n+6 bytes, or an offset rule broken; a sheet: some program   all
 *           has over 32 instructions
 *     41    the first bad instruction has an unknown operation, which is one over 8   all but image_of
 *     42    the first bad instruction names a register over 7                         all
 *     43    the first bad instruction has an unused byte that is not 0                all
 *     44    the first bad instruction is a skip past the end of its program           all
 *      5    table of 0 or over 256 cells                                              those of a batch
 *     14    guard list is not T pairs, which are 2T words                             those of a batch
 *      6    area is not 2T + 100n words                                               those of a batch
 *      7    a mark over n, a state over 5, a count over 32, or a cell of T or more    those of a batch but open
 *           among the counted ones
 *      8    program number n or more                                                  program, gather, settle, why
 *      9    gather: this state is not 0; settle: some state is 0, or this one is      those of a batch but open
 *           not 1; why, order and next image: some state is 0 or 1
 *     10    list under n entries; output shorter than the next image, than the        order, next_image,
 *           sheet's image, than the image's sheet                                     image_of, sheet_of
 *     11    carried plus fresh programs over 64                                       next_image
 *     12    no order exists (never for an area that these calls made on this image)   order
 *     13    this program is not carried                                               why
 *     15    its detail is not the reason that its slot, the marks and the rule give   why
 *           (never for an area that these calls made on this image)
 *     21-23 as 1 to 3, for the fresh image                                            next_image
 *     61-64 as 41 to 44, for the fresh image                                          next_image
 *     51    some line of the sheet is one that its place does not allow; the number   image_of
 *           of the first such line is returned too
 *
 * T is the number of cells and n the number of programs.
 *
 * The image. All numbers are 16 bits, low byte first. Bytes 0 and 1: the program count n. Byte 2:
 * the rule, 1 or 2, or 0, which means Rule 1. Byte 3: 0. Then n+1 offsets. Program i is the bytes
 * from offset i up to, not including, offset i+1. The offset rules: the first offset is 2n+6,
 * offsets never fall, each length is a multiple of 4 and at most 128, the last offset is the
 * image's length. An instruction is four bytes: operation, a, b, c.
 *
 *     0 end        stops; a, b, c are 0
 *     1 set        r[a] = 256 * b + c
 *     2 load       r[a] = cell number r[b]; c is 0
 *     3 store      cell number r[a] = r[b]; c is 0
 *     4 add        r[a] = r[b] + r[c], modulo 2^32
 *     5 sub        r[a] = r[b] - r[c], modulo 2^32
 *     6 skipless   if r[a] < r[b], leaves out the next c instructions
 *     7 skipequal  the same if r[a] = r[b]
 *     8 reject     stops, code a; b and c are 0
 *
 * Any other operation is unknown, and what its a, b, c are is not asked. r[a], r[b] and r[c] name
 * registers, which are r[0] to r[7]. An unused byte is one that the list says is 0. A skip at
 * instruction i of m, from 0, goes past the end where i+1+c is over m, taken or not; where it is m,
 * the program ends there.
 *
 * The sheet. An image as text that can be typed: a line "rule R" with the rule byte R, which is 0,
 * 1 or 2, then for each program a line "program" and a line for each of its instructions: its name
 * in the list above and its three bytes a, b, c in decimal. Words stand apart by single spaces,
 * numbers have no leading zeros and go up to 255, every line ends with a newline (byte 10), the
 * last one too. Nothing else is a sheet. So line 1 is a rule line, line 2, if there is one, is
 * "program", and every line after it is "program" or an instruction. Bytes behind the last newline
 * are a line that is never allowed, and an empty sheet is refused at line 1.
 *
 *     rule 2
 *     program
 *     set 0 0 4
 *     store 0 1 0
 *
 * The two ways undo each other: the sheet of a sheet's image is that sheet, and the image of an
 * image's sheet is that image, byte by byte.
 */
#ifndef SHEETBENDLE_H
#define SHEETBENDLE_H

#include <stddef.h>
#include <stdint.h>

#ifdef __cplusplus
extern "C" {
#endif

/*
 * The number of what this header declares: raised by every change of a signature, a state, a
 * refusal, a size or a place in memory. A program that was written for this one can ask for it:
 * #if SHEETBENDLE_VERSION != 5
 */
#define SHEETBENDLE_VERSION 5

/* Limits. */
#define SHEETBENDLE_PROGRAMS 64     /* the most programs of an image */
#define SHEETBENDLE_INSTRUCTIONS 32 /* the most instructions of a program, of 4 bytes each */
#define SHEETBENDLE_REGISTERS 8     /* registers of a program, all 0 at its start */
#define SHEETBENDLE_CELLS 256       /* the most cells of a table; the fewest is 1 */

/* The bytes of an image of so many programs and, together, so many instructions. */
#define SHEETBENDLE_IMAGE_BYTES(programs, instructions) (2u * (programs) + 6u + 4u * (instructions))
#define SHEETBENDLE_SHORTEST_IMAGE SHEETBENDLE_IMAGE_BYTES(0u, 0u) /* 6 bytes */
#define SHEETBENDLE_LONGEST_IMAGE \
    SHEETBENDLE_IMAGE_BYTES(SHEETBENDLE_PROGRAMS, SHEETBENDLE_PROGRAMS * SHEETBENDLE_INSTRUCTIONS) /* 8326 bytes */

/*
 * The bytes of the longest sheet that a good image has: 7 for "rule 2" and, for each program, 8 for
 * "program" and at most 17 for an instruction, newlines included. No good instruction has a longer
 * line than skipequal: "skipequal 7 7 c" takes 17 where c is 10 or more, and 16 otherwise. A skip
 * stays in its program, so c can be 10 or more in all but a program's last 10 instructions.
 */
#define SHEETBENDLE_LONGEST_SHEET \
    (7u + SHEETBENDLE_PROGRAMS * (8u + 17u * (SHEETBENDLE_INSTRUCTIONS - 10u) + 16u * 10u)) /* 34695 bytes */

/* The program count of an image, which its first two bytes say. */
#define SHEETBENDLE_PROGRAM_COUNT(image) ((size_t)(image)[0] + 256u * (size_t)(image)[1])

/* Rules, for byte 2 of an image. */
#define SHEETBENDLE_DEFAULT_RULE 0u /* means Rule 1 */
#define SHEETBENDLE_RULE_1 1u
#define SHEETBENDLE_RULE_2 2u

/* Operations; the list above says what each does. */
#define SHEETBENDLE_OP_END 0u
#define SHEETBENDLE_OP_SET 1u
#define SHEETBENDLE_OP_LOAD 2u
#define SHEETBENDLE_OP_STORE 3u
#define SHEETBENDLE_OP_ADD 4u
#define SHEETBENDLE_OP_SUB 5u
#define SHEETBENDLE_OP_SKIPLESS 6u
#define SHEETBENDLE_OP_SKIPEQUAL 7u
#define SHEETBENDLE_OP_REJECT 8u

/*
 * The words of a slot, from its start. The cells that a program read, those that it stored and the
 * stored values are three lists, each in order of first use; words behind the counted ones are 0.
 * A rejected or faulted program's slot has only state and detail.
 */
#define SHEETBENDLE_SLOT_STATE 0u
#define SHEETBENDLE_SLOT_DETAIL 1u
#define SHEETBENDLE_SLOT_READ_COUNT 2u
#define SHEETBENDLE_SLOT_STORE_COUNT 3u
#define SHEETBENDLE_SLOT_LIST_WORDS 32u /* of each list */
#define SHEETBENDLE_SLOT_READS 4u
#define SHEETBENDLE_SLOT_STORES (SHEETBENDLE_SLOT_READS + SHEETBENDLE_SLOT_LIST_WORDS)  /* 36 */
#define SHEETBENDLE_SLOT_VALUES (SHEETBENDLE_SLOT_STORES + SHEETBENDLE_SLOT_LIST_WORDS) /* 68 */
#define SHEETBENDLE_SLOT_WORDS (SHEETBENDLE_SLOT_VALUES + SHEETBENDLE_SLOT_LIST_WORDS)  /* 100 */

/*
 * Where things begin in an area on a table of so many cells, in words: a write mark for each cell, a
 * read mark for each cell, a slot for each program by its number. A mark is 0, or 1 + the smallest
 * number of a gathered program that stores, or reads, the cell.
 */
#define SHEETBENDLE_WRITE_MARKS(cells) 0u
#define SHEETBENDLE_READ_MARKS(cells) (cells)
#define SHEETBENDLE_SLOT(cells, program) (2u * (cells) + SHEETBENDLE_SLOT_WORDS * (program))

/* The words of an area. */
#define SHEETBENDLE_AREA_WORDS(cells, programs) SHEETBENDLE_SLOT(cells, programs)

/*
 * The two words of a cell's guard, for the initializer of a guard list: one that allows low, high and
 * what lies between them, from -2147483648 to 2147483647; and one that allows every value.
 */
#define SHEETBENDLE_GUARD(low, high) (uint32_t)(low), (uint32_t)(high)
#define SHEETBENDLE_FULL_RANGE 0x80000000u, 0x7fffffffu

/* The words of a guard list for a table of so many cells. */
#define SHEETBENDLE_GUARD_WORDS(cells) (2u * (cells))

/* Refusals; the table above says when. */
#define SHEETBENDLE_DONE 0u
#define SHEETBENDLE_REFUSED_IMAGE_SIZE 1u
#define SHEETBENDLE_REFUSED_HEADER 2u
#define SHEETBENDLE_REFUSED_OFFSETS 3u
#define SHEETBENDLE_REFUSED_OPERATION 41u
#define SHEETBENDLE_REFUSED_REGISTER 42u
#define SHEETBENDLE_REFUSED_UNUSED 43u
#define SHEETBENDLE_REFUSED_SKIP 44u
#define SHEETBENDLE_REFUSED_TABLE_SIZE 5u
#define SHEETBENDLE_REFUSED_GUARDS 14u
#define SHEETBENDLE_REFUSED_AREA_SIZE 6u
#define SHEETBENDLE_REFUSED_AREA 7u
#define SHEETBENDLE_REFUSED_NUMBER 8u
#define SHEETBENDLE_REFUSED_STATE 9u
#define SHEETBENDLE_REFUSED_TOO_SHORT 10u
#define SHEETBENDLE_REFUSED_TOO_MANY 11u
#define SHEETBENDLE_REFUSED_NO_ORDER 12u
#define SHEETBENDLE_REFUSED_NOT_CARRIED 13u
#define SHEETBENDLE_REFUSED_REASON 15u
#define SHEETBENDLE_REFUSED_FRESH_IMAGE_SIZE 21u
#define SHEETBENDLE_REFUSED_FRESH_HEADER 22u
#define SHEETBENDLE_REFUSED_FRESH_OFFSETS 23u
#define SHEETBENDLE_REFUSED_FRESH_OPERATION 61u
#define SHEETBENDLE_REFUSED_FRESH_REGISTER 62u
#define SHEETBENDLE_REFUSED_FRESH_UNUSED 63u
#define SHEETBENDLE_REFUSED_FRESH_SKIP 64u
#define SHEETBENDLE_REFUSED_LINE 51u

/* States of a program, with what its detail then says. */
#define SHEETBENDLE_WAITING 0u   /* 0 */
#define SHEETBENDLE_GATHERED 1u  /* 0 */
#define SHEETBENDLE_REJECTED 2u  /* the code that the program rejected with */
#define SHEETBENDLE_FAULTED 3u   /* 256 * kind + instruction number, from 0 */
#define SHEETBENDLE_COMMITTED 4u /* 0 */
#define SHEETBENDLE_CARRIED 5u   /* the reason */

/* Kinds of faults. Of a store, 2 comes before 3: a cell outside the table has no guard. */
#define SHEETBENDLE_FAULT_AT_LOAD 1u  /* a load of a cell of T or more */
#define SHEETBENDLE_FAULT_AT_STORE 2u /* a store to a cell of T or more */
#define SHEETBENDLE_FAULT_AT_GUARD 3u /* a store of a value that the cell's guard does not allow */

/* Reasons to carry a program. "Earlier" means a smaller number. */
#define SHEETBENDLE_WAW 1u          /* an earlier program stores a cell that it stores; looked at first */
#define SHEETBENDLE_RAW 2u          /* Rule 1: an earlier program stores a cell that it reads */
#define SHEETBENDLE_RAW_WITH_WAR 3u /* Rule 2: that, and an earlier program reads a cell that it stores */

/* A refusal: its number, and the place of the bad instruction for the numbers that have one. */
typedef struct {
    uint32_t number, program, instruction;
} sheetbendle_refusal;

/* What gathering and settling return. */
typedef struct {
    sheetbendle_refusal refusal;
    uint32_t state, detail;
} sheetbendle_step;

/*
 * What why returns: the reason and its cause, a cell and an earlier program. They are those of WAW
 * for reason 1 and those of RAW for reasons 2 and 3. Reason 3 has those of WAR too, in the last two
 * members, which are 0 for the others.
 */
typedef struct {
    sheetbendle_refusal refusal;
    uint32_t reason, cell, program, war_cell, war_program;
} sheetbendle_cause;

/* What the order and the next image return: a count of entries, a length in bytes. */
typedef struct {
    sheetbendle_refusal refusal;
    uint32_t count;
} sheetbendle_count;

/*
 * What the two calls of sheets return: the length in bytes of what was written. Refusal 51 has the
 * number of the line, from 1, that its place does not allow (4294967295 where it is larger); line
 * is 0 for everything else.
 */
typedef struct {
    sheetbendle_refusal refusal;
    uint32_t length, line;
} sheetbendle_text;

/* A part of the image: where it starts and how many bytes it has; 0, 0 on a refusal. */
typedef struct {
    size_t start, length;
} sheetbendle_part;

/*
 * Where a program lies in the image, by its number from 0. A program may be empty; whether the
 * call was refused, sheetbendle_program_refusal tells.
 */
sheetbendle_part sheetbendle_program(const uint8_t *image, size_t image_bytes, size_t number);

/* The refusal of the same question: 1 to 3, 41 to 44, 8; or 0. */
sheetbendle_refusal sheetbendle_program_refusal(const uint8_t *image, size_t image_bytes, size_t number);

/*
 * Opens a batch: sets the whole area to 0. What stood in the area before does not matter. Returns
 * the refusal: 1 to 3, 41 to 44, 5, 14, 6; or 0.
 */
sheetbendle_refusal sheetbendle_open(const uint8_t *image, size_t image_bytes,
                                     const uint32_t *table, size_t cells,
                                     const uint32_t *guards, size_t guard_words,
                                     uint32_t *area, size_t words);

/*
 * Gathers one waiting program: runs it on the table, under the guards, rewrites its slot in the area
 * and makes its reservations there. The table does not change. Returns the state, which is gathered,
 * rejected or faulted, and the detail; or a refusal: 1 to 3, 41 to 44, 5, 14, 6 to 9.
 */
sheetbendle_step sheetbendle_gather(const uint8_t *image, size_t image_bytes,
                                    const uint32_t *table, size_t cells,
                                    const uint32_t *guards, size_t guard_words,
                                    uint32_t *area, size_t words,
                                    size_t number);

/*
 * Settles one gathered program, once no program is waiting: commits it, and its stores go into the
 * table, or carries it. Of the area only this program's state and detail change. Returns both; or
 * a refusal: 1 to 3, 41 to 44, 5, 14, 6 to 9.
 */
sheetbendle_step sheetbendle_settle(const uint8_t *image, size_t image_bytes,
                                    uint32_t *table, size_t cells,
                                    const uint32_t *guards, size_t guard_words,
                                    uint32_t *area, size_t words,
                                    size_t number);

/*
 * Says why a program was carried, once all are settled: for each dependency of the reason the lowest
 * cell, by its number, that shows it, and the earlier program that this cell's mark names, which is
 * the smallest that stores the cell (WAW, RAW) or reads it (WAR). Nothing that is lent changes.
 * Returns the reason and its cause; or a refusal: 1 to 3, 41 to 44, 5, 14, 6 to 9, 13, 15.
 */
sheetbendle_cause sheetbendle_why(const uint8_t *image, size_t image_bytes,
                                  const uint32_t *table, size_t cells,
                                  const uint32_t *guards, size_t guard_words,
                                  const uint32_t *area, size_t words,
                                  size_t number);

/*
 * Lists the committed programs' numbers in an order in which they could have run one after the
 * other, each on the table that the one before it left, with the same loads, stores and end table.
 * The list has at least n entries; those beyond the returned count stay as they are. Returns the
 * count; or a refusal: 1 to 3, 41 to 44, 5, 14, 6, 7, 9, 10, 12.
 */
sheetbendle_count sheetbendle_order(const uint8_t *image, size_t image_bytes,
                                    const uint32_t *table, size_t cells,
                                    const uint32_t *guards, size_t guard_words,
                                    const uint32_t *area, size_t words,
                                    uint32_t *list, size_t entries);

/*
 * Writes the next batch's image: the carried programs in number order, then the fresh image's
 * programs, under the fresh image's rule byte. An output of SHEETBENDLE_LONGEST_IMAGE bytes is
 * always long enough; its bytes beyond the returned length stay as they are. Returns the length;
 * or a refusal: 1 to 3, 41 to 44, 5, 14, 6, 7, 9, 21 to 23, 61 to 64, 11, 10.
 */
sheetbendle_count sheetbendle_next_image(const uint8_t *image, size_t image_bytes,
                                         const uint32_t *table, size_t cells,
                                         const uint32_t *guards, size_t guard_words,
                                         const uint32_t *area, size_t words,
                                         const uint8_t *fresh, size_t fresh_bytes,
                                         uint8_t *out, size_t out_bytes);

/*
 * Reads a sheet and writes its image. The sheet is bytes with a length: no zero ends it. An output
 * of SHEETBENDLE_LONGEST_IMAGE bytes is always long enough; its bytes beyond the returned length
 * stay as they are. Returns the length; or a refusal: 51 with the line, 2, 3, 42 to 44, 10.
 */
sheetbendle_text sheetbendle_image_of(const uint8_t *sheet, size_t sheet_bytes,
                                      uint8_t *out, size_t out_bytes);

/*
 * Reads an image and writes its sheet. No zero is put behind it. An output of
 * SHEETBENDLE_LONGEST_SHEET bytes is always long enough; its bytes beyond the returned length stay
 * as they are. Returns the length; or a refusal: 1 to 3, 41 to 44, 10.
 */
sheetbendle_text sheetbendle_sheet_of(const uint8_t *image, size_t image_bytes,
                                      uint8_t *out, size_t out_bytes);

#ifdef __cplusplus
}
#endif

#endif
