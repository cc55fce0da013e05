/*
 * The header's numbers are the documents': each is written here once more, from document 01 or 02, and compared when this is compiled. So is where each
 * member of a returned struct lies: the archive counts on it.
 */
#include <sheetbendle.h>

#define IS(name, number) _Static_assert((name) == (number), #name " is not the document's number")

/* "Sizes". */
IS(SHEETBENDLE_PROGRAMS, 64);
IS(SHEETBENDLE_INSTRUCTIONS, 32);
IS(SHEETBENDLE_REGISTERS, 8);
IS(SHEETBENDLE_CELLS, 256);
IS(SHEETBENDLE_SHORTEST_IMAGE, 6);
IS(SHEETBENDLE_LONGEST_IMAGE, 8326);

/* "The image: counts and offsets". */
IS(SHEETBENDLE_IMAGE_BYTES(3, 5), 2 * 3 + 6 + 4 * 5);
IS(SHEETBENDLE_DEFAULT_RULE, 0);
IS(SHEETBENDLE_RULE_1, 1);
IS(SHEETBENDLE_RULE_2, 2);

/* "Instructions". */
IS(SHEETBENDLE_OP_END, 0);
IS(SHEETBENDLE_OP_SET, 1);
IS(SHEETBENDLE_OP_LOAD, 2);
IS(SHEETBENDLE_OP_STORE, 3);
IS(SHEETBENDLE_OP_ADD, 4);
IS(SHEETBENDLE_OP_SUB, 5);
IS(SHEETBENDLE_OP_SKIPLESS, 6);
IS(SHEETBENDLE_OP_SKIPEQUAL, 7);
IS(SHEETBENDLE_OP_REJECT, 8);

/* "The work area": T write marks, T read marks, then a slot of 100 words per program; here T is 5. */
IS(SHEETBENDLE_WRITE_MARKS(5), 0);
IS(SHEETBENDLE_READ_MARKS(5), 5);
IS(SHEETBENDLE_SLOT(5, 0), 2 * 5);
IS(SHEETBENDLE_SLOT(5, 3), 2 * 5 + 100 * 3);
IS(SHEETBENDLE_AREA_WORDS(5, 3), 2 * 5 + 100 * 3);
IS(SHEETBENDLE_SLOT_WORDS, 100);

/* State, detail, read count, store count, 32 read cells, 32 stored cells, 32 stored values. */
IS(SHEETBENDLE_SLOT_STATE, 0);
IS(SHEETBENDLE_SLOT_DETAIL, 1);
IS(SHEETBENDLE_SLOT_READ_COUNT, 2);
IS(SHEETBENDLE_SLOT_STORE_COUNT, 3);
IS(SHEETBENDLE_SLOT_READS, 4);
IS(SHEETBENDLE_SLOT_STORES, 4 + 32);
IS(SHEETBENDLE_SLOT_VALUES, 4 + 32 + 32);
IS(SHEETBENDLE_SLOT_LIST_WORDS, 32);

/* "What each refusal says". */
IS(SHEETBENDLE_DONE, 0);
IS(SHEETBENDLE_REFUSED_IMAGE_SIZE, 1);
IS(SHEETBENDLE_REFUSED_HEADER, 2);
IS(SHEETBENDLE_REFUSED_OFFSETS, 3);
IS(SHEETBENDLE_REFUSED_TABLE_SIZE, 5);
IS(SHEETBENDLE_REFUSED_AREA_SIZE, 6);
IS(SHEETBENDLE_REFUSED_AREA, 7);
IS(SHEETBENDLE_REFUSED_NUMBER, 8);
IS(SHEETBENDLE_REFUSED_STATE, 9);
IS(SHEETBENDLE_REFUSED_TOO_SHORT, 10);
IS(SHEETBENDLE_REFUSED_TOO_MANY, 11);
IS(SHEETBENDLE_REFUSED_NO_ORDER, 12);
IS(SHEETBENDLE_REFUSED_FRESH_IMAGE_SIZE, 21);
IS(SHEETBENDLE_REFUSED_FRESH_HEADER, 22);
IS(SHEETBENDLE_REFUSED_FRESH_OFFSETS, 23);

/* Document 02, request 1. */
IS(SHEETBENDLE_REFUSED_LINE, 51);
IS(SHEETBENDLE_LONGEST_SHEET, 7 + 64 * (8 + 22 * 17 + 10 * 16));
IS(SHEETBENDLE_LONGEST_SHEET, 34695);

/* Document 02, request 2: they replace 4 and 24. */
IS(SHEETBENDLE_REFUSED_OPERATION, 41);
IS(SHEETBENDLE_REFUSED_REGISTER, 42);
IS(SHEETBENDLE_REFUSED_UNUSED, 43);
IS(SHEETBENDLE_REFUSED_SKIP, 44);
IS(SHEETBENDLE_REFUSED_FRESH_OPERATION, 61);
IS(SHEETBENDLE_REFUSED_FRESH_REGISTER, 62);
IS(SHEETBENDLE_REFUSED_FRESH_UNUSED, 63);
IS(SHEETBENDLE_REFUSED_FRESH_SKIP, 64);

/* Document 02, request 3. */
IS(SHEETBENDLE_REFUSED_NOT_CARRIED, 13);
IS(SHEETBENDLE_REFUSED_REASON, 15);

/* Document 02, request 5: "a guard list of T pairs, low then high"; here T is 5. */
IS(SHEETBENDLE_REFUSED_GUARDS, 14);
IS(SHEETBENDLE_GUARD_WORDS(5), 2 * 5);
static const uint32_t guards[] = { SHEETBENDLE_GUARD(-20, 45), SHEETBENDLE_FULL_RANGE };
IS(sizeof guards, 2 * 2 * 4);

/* States, kinds of faults, reasons. */
IS(SHEETBENDLE_WAITING, 0);
IS(SHEETBENDLE_GATHERED, 1);
IS(SHEETBENDLE_REJECTED, 2);
IS(SHEETBENDLE_FAULTED, 3);
IS(SHEETBENDLE_COMMITTED, 4);
IS(SHEETBENDLE_CARRIED, 5);
IS(SHEETBENDLE_FAULT_AT_LOAD, 1);
IS(SHEETBENDLE_FAULT_AT_STORE, 2);
IS(SHEETBENDLE_FAULT_AT_GUARD, 3);
IS(SHEETBENDLE_WAW, 1);
IS(SHEETBENDLE_RAW, 2);
IS(SHEETBENDLE_RAW_WITH_WAR, 3);

/* Where the members of the structs lie. */
#define MEMBER(type, member, offset, size)                                                                        \
    _Static_assert(offsetof(type, member) == (offset), #type "." #member " does not lie where the archive has it"); \
    _Static_assert(sizeof(((type *)0)->member) == (size), #type "." #member " has another size than in the archive")
#define SIZE(type, size) _Static_assert(sizeof(type) == (size), #type " has another size than in the archive")

MEMBER(sheetbendle_refusal, number, 0, 4);
MEMBER(sheetbendle_refusal, program, 4, 4);
MEMBER(sheetbendle_refusal, instruction, 8, 4);
SIZE(sheetbendle_refusal, 12);

MEMBER(sheetbendle_step, refusal, 0, 12);
MEMBER(sheetbendle_step, state, 12, 4);
MEMBER(sheetbendle_step, detail, 16, 4);
SIZE(sheetbendle_step, 20);

MEMBER(sheetbendle_cause, refusal, 0, 12);
MEMBER(sheetbendle_cause, reason, 12, 4);
MEMBER(sheetbendle_cause, cell, 16, 4);
MEMBER(sheetbendle_cause, program, 20, 4);
MEMBER(sheetbendle_cause, war_cell, 24, 4);
MEMBER(sheetbendle_cause, war_program, 28, 4);
SIZE(sheetbendle_cause, 32);

MEMBER(sheetbendle_count, refusal, 0, 12);
MEMBER(sheetbendle_count, count, 12, 4);
SIZE(sheetbendle_count, 16);

MEMBER(sheetbendle_text, refusal, 0, 12);
MEMBER(sheetbendle_text, length, 12, 4);
MEMBER(sheetbendle_text, line, 16, 4);
SIZE(sheetbendle_text, 20);

MEMBER(sheetbendle_part, start, 0, sizeof(size_t));
MEMBER(sheetbendle_part, length, sizeof(size_t), sizeof(size_t));
SIZE(sheetbendle_part, 2 * sizeof(size_t));

/* What no constant can show: the program count of an image lies in two bytes, the low one first; a guard in two words, in two's complement. */
int main(void) {
    static const uint8_t image[] = { 3, 2 };
    int count_is_good = SHEETBENDLE_PROGRAM_COUNT(image) == 3 + 256 * 2;
    int guard_is_good = guards[0] == 4294967276u && guards[1] == 45;
    int full_range_is_good = guards[2] == 2147483648u && guards[3] == 2147483647u;
    return count_is_good && guard_is_good && full_range_is_good ? 0 : 1;
}
