/*
 * Each of the ten functions is called through the header where the members of its answer are told apart: a member that lies in another's place, in the
 * header or in the archive, is noticed here. So is a word of the area that does not lie where the header says. Every expected number is worked
 * out by hand from documents 01 and 02.
 */
#include <sheetbendle.h>
#include <stdio.h>

enum { CELLS = 4, PROGRAMS = 5, WORDS = SHEETBENDLE_AREA_WORDS(CELLS, PROGRAMS), GUARDS = SHEETBENDLE_GUARD_WORDS(CELLS) };

static const uint8_t image[] = {
    PROGRAMS, 0, SHEETBENDLE_RULE_2, 0,
    16, 0, 32, 0, 40, 0, 56, 0, 68, 0, 72, 0,
    /* 0 copies cell 1 into cell 2. */
    SHEETBENDLE_OP_SET, 0, 0, 1,
    SHEETBENDLE_OP_LOAD, 1, 0, 0,
    SHEETBENDLE_OP_SET, 2, 0, 2,
    SHEETBENDLE_OP_STORE, 2, 1, 0,
    /* 1 stores in cell 4 of 4: a fault of kind 2 at instruction 1. */
    SHEETBENDLE_OP_SET, 0, 0, 4,
    SHEETBENDLE_OP_STORE, 0, 0, 0,
    /* 2 copies cell 2 into cell 1: it reads what 0 stores and stores what 0 reads. */
    SHEETBENDLE_OP_SET, 0, 0, 2,
    SHEETBENDLE_OP_LOAD, 1, 0, 0,
    SHEETBENDLE_OP_SET, 2, 0, 1,
    SHEETBENDLE_OP_STORE, 2, 1, 0,
    /* 3 stores 300 in cell 3. */
    SHEETBENDLE_OP_SET, 0, 0, 3,
    SHEETBENDLE_OP_SET, 1, 1, 44,
    SHEETBENDLE_OP_STORE, 0, 1, 0,
    /* 4 rejects. */
    SHEETBENDLE_OP_REJECT, 77, 0, 0,
};

/* One program, which is empty. */
static const uint8_t fresh[] = { 1, 0, SHEETBENDLE_RULE_1, 0, 8, 0, 8, 0 };

static uint32_t table[CELLS] = { 10, 11, 12, 13 };
static const uint32_t guards[GUARDS] = { SHEETBENDLE_FULL_RANGE, SHEETBENDLE_FULL_RANGE, SHEETBENDLE_FULL_RANGE, SHEETBENDLE_FULL_RANGE };
static uint32_t area[WORDS];
static uint32_t list[PROGRAMS] = { 90, 91, 92, 93, 94 };
static uint8_t out[SHEETBENDLE_LONGEST_IMAGE];

static unsigned passed, failed;

static void is(const char *what, unsigned line, unsigned long got, unsigned long expected) {
    if (got == expected) {
        passed++;
    } else {
        failed++;
        printf("tests/values.c:%u: %s is %lu, not %lu\n", line, what, got, expected);
    }
}

#define IS(got, expected) is(#got, __LINE__, got, expected)

/* Everything lent to most calls. */
#define LENT image, sizeof image, table, CELLS, guards, GUARDS, area, WORDS

/* A refusal that names a bad instruction; and one that does not, or 0. */
#define REFUSAL_AT(refusal_, number_, program_, instruction_) \
    do {                                                      \
        sheetbendle_refusal refused = refusal_;               \
        IS(refused.number, number_);                          \
        IS(refused.program, program_);                        \
        IS(refused.instruction, instruction_);                \
    } while (0)

#define REFUSAL_IS(refusal_, number_) REFUSAL_AT(refusal_, number_, 0, 0)

#define STEP_IS(call, refusal_, state_, detail_) \
    do {                                         \
        sheetbendle_step step = call;            \
        REFUSAL_IS(step.refusal, refusal_);      \
        IS(step.state, state_);                  \
        IS(step.detail, detail_);                \
    } while (0)

#define CAUSE_IS(call, refusal_, reason_, cell_, program_, war_cell_, war_program_) \
    do {                                                                            \
        sheetbendle_cause cause = call;                                             \
        REFUSAL_IS(cause.refusal, refusal_);                                        \
        IS(cause.reason, reason_);                                                  \
        IS(cause.cell, cell_);                                                      \
        IS(cause.program, program_);                                                \
        IS(cause.war_cell, war_cell_);                                              \
        IS(cause.war_program, war_program_);                                        \
    } while (0)

#define WHY_REFUSED(call, refusal_) CAUSE_IS(call, refusal_, 0, 0, 0, 0, 0)

#define COUNT_IS(call, refusal_, count_)      \
    do {                                      \
        sheetbendle_count answer = call;      \
        REFUSAL_IS(answer.refusal, refusal_); \
        IS(answer.count, count_);             \
    } while (0)

#define TEXT_IS(call, refusal_, length_, line_) \
    do {                                        \
        sheetbendle_text text = call;           \
        REFUSAL_IS(text.refusal, refusal_);     \
        IS(text.length, length_);               \
        IS(text.line, line_);                   \
    } while (0)

#define PART_IS(call, start_, length_)  \
    do {                                \
        sheetbendle_part part = call;   \
        IS(part.start, start_);         \
        IS(part.length, length_);       \
    } while (0)

/* A slot with one read and one store. */
static void slot_is(size_t program, uint32_t state, uint32_t detail, uint32_t read, uint32_t store, uint32_t value) {
    const uint32_t *slot = area + SHEETBENDLE_SLOT(CELLS, program);
    IS(slot[SHEETBENDLE_SLOT_STATE], state);
    IS(slot[SHEETBENDLE_SLOT_DETAIL], detail);
    IS(slot[SHEETBENDLE_SLOT_READ_COUNT], 1);
    IS(slot[SHEETBENDLE_SLOT_STORE_COUNT], 1);
    IS(slot[SHEETBENDLE_SLOT_READS], read);
    IS(slot[SHEETBENDLE_SLOT_STORES], store);
    IS(slot[SHEETBENDLE_SLOT_VALUES], value);
}

/* A batch of its own for why, in which the members of a cause are five different numbers, none of them 0. */
enum {
    CAUSE_CELLS = 7,
    CAUSE_PROGRAMS = 5,
    CAUSE_WORDS = SHEETBENDLE_AREA_WORDS(CAUSE_CELLS, CAUSE_PROGRAMS),
    CAUSE_GUARDS = SHEETBENDLE_GUARD_WORDS(CAUSE_CELLS)
};

static uint8_t cause_image[] = {
    CAUSE_PROGRAMS, 0, SHEETBENDLE_RULE_2, 0,
    16, 0, 16, 0, 24, 0, 32, 0, 48, 0, 56, 0,
    /* 0 is empty; 1 stores cell 5. */
    SHEETBENDLE_OP_SET, 0, 0, 5,
    SHEETBENDLE_OP_STORE, 0, 0, 0,
    /* 2 reads cell 6. */
    SHEETBENDLE_OP_SET, 0, 0, 6,
    SHEETBENDLE_OP_LOAD, 1, 0, 0,
    /* 3 copies cell 5 into cell 6: it reads what 1 stores and stores what 2 reads. */
    SHEETBENDLE_OP_SET, 0, 0, 5,
    SHEETBENDLE_OP_LOAD, 1, 0, 0,
    SHEETBENDLE_OP_SET, 2, 0, 6,
    SHEETBENDLE_OP_STORE, 2, 1, 0,
    /* 4 stores cell 5, as 1 does. */
    SHEETBENDLE_OP_SET, 0, 0, 5,
    SHEETBENDLE_OP_STORE, 0, 0, 0,
};

static uint32_t cause_table[CAUSE_CELLS];
/* The programs store 5 and 0, and only in these two cells. */
static const uint32_t cause_guards[CAUSE_GUARDS] = {
    [2 * 5] = SHEETBENDLE_GUARD(0, 5),
    [2 * 6] = SHEETBENDLE_GUARD(0, 5),
};
static uint32_t cause_area[CAUSE_WORDS];

#define CAUSE_LENT cause_image, sizeof cause_image, cause_table, CAUSE_CELLS, cause_guards, CAUSE_GUARDS, cause_area, CAUSE_WORDS

/* Runs that batch under a rule, in number order. */
static void run_cause_batch(uint8_t rule) {
    size_t i;
    cause_image[2] = rule;
    REFUSAL_IS(sheetbendle_open(CAUSE_LENT), SHEETBENDLE_DONE);
    for (i = 0; i < CAUSE_PROGRAMS; i++)
        STEP_IS(sheetbendle_gather(CAUSE_LENT, i), SHEETBENDLE_DONE, SHEETBENDLE_GATHERED, 0);
    for (i = 0; i < CAUSE_PROGRAMS; i++)
        REFUSAL_IS(sheetbendle_settle(CAUSE_LENT, i).refusal, SHEETBENDLE_DONE);
}

/* Each reason and each of why's own refusals. */
static void causes(void) {
    uint32_t *detail = cause_area + SHEETBENDLE_SLOT(CAUSE_CELLS, 3) + SHEETBENDLE_SLOT_DETAIL;

    run_cause_batch(SHEETBENDLE_RULE_2);
    CAUSE_IS(sheetbendle_why(CAUSE_LENT, 3), SHEETBENDLE_DONE, SHEETBENDLE_RAW_WITH_WAR, 5, 1, 6, 2);
    CAUSE_IS(sheetbendle_why(CAUSE_LENT, 4), SHEETBENDLE_DONE, SHEETBENDLE_WAW, 5, 1, 0, 0);
    WHY_REFUSED(sheetbendle_why(CAUSE_LENT, CAUSE_PROGRAMS), SHEETBENDLE_REFUSED_NUMBER);
    WHY_REFUSED(sheetbendle_why(CAUSE_LENT, 2), SHEETBENDLE_REFUSED_NOT_CARRIED);
    *detail = SHEETBENDLE_RAW;
    WHY_REFUSED(sheetbendle_why(CAUSE_LENT, 3), SHEETBENDLE_REFUSED_REASON);

    run_cause_batch(SHEETBENDLE_RULE_1);
    CAUSE_IS(sheetbendle_why(CAUSE_LENT, 3), SHEETBENDLE_DONE, SHEETBENDLE_RAW, 5, 1, 0, 0);
}

/* The image with one byte changed, so that an instruction is bad. */
static uint8_t bad[sizeof image];

#define BAD bad, sizeof bad, table, CELLS, guards, GUARDS, area, WORDS

/* Changes a byte: every call that is lent the image then names this place, and the next image that is lent it as the fresh one does so by 20 more. */
static void bad_instruction(size_t place, uint8_t byte, uint32_t number, uint32_t program, uint32_t instruction) {
    size_t i;
    for (i = 0; i < sizeof image; i++)
        bad[i] = image[i];
    bad[place] = byte;
    PART_IS(sheetbendle_program(bad, sizeof bad, 0), 0, 0);
    REFUSAL_AT(sheetbendle_program_refusal(bad, sizeof bad, 0), number, program, instruction);
    REFUSAL_AT(sheetbendle_open(BAD), number, program, instruction);
    REFUSAL_AT(sheetbendle_gather(BAD, 0).refusal, number, program, instruction);
    REFUSAL_AT(sheetbendle_settle(BAD, 0).refusal, number, program, instruction);
    REFUSAL_AT(sheetbendle_why(BAD, 0).refusal, number, program, instruction);
    REFUSAL_AT(sheetbendle_order(BAD, list, PROGRAMS).refusal, number, program, instruction);
    REFUSAL_AT(sheetbendle_next_image(BAD, fresh, sizeof fresh, out, sizeof out).refusal, number, program, instruction);
    REFUSAL_AT(sheetbendle_sheet_of(bad, sizeof bad, out, sizeof out).refusal, number, program, instruction);
    REFUSAL_AT(sheetbendle_next_image(LENT, bad, sizeof bad, out, sizeof out).refusal, number + 20, program, instruction);
}

/* Each way to be bad, once the batch is settled. Number, program and instruction are told apart, and none of them is 0. */
static void bad_instructions(void) {
    bad_instruction(44, 9, SHEETBENDLE_REFUSED_OPERATION, 2, 1);
    bad_instruction(53, 8, SHEETBENDLE_REFUSED_REGISTER, 2, 3);
    bad_instruction(67, 1, SHEETBENDLE_REFUSED_UNUSED, 3, 2);
    bad_instruction(60, SHEETBENDLE_OP_SKIPLESS, SHEETBENDLE_REFUSED_SKIP, 3, 1);
}

/* A batch of its own for guards: cell 0 is closed, cell 1 is guarded from -20 to 300, cell 2 has to be -1. */
enum { GUARDED_CELLS = 3, GUARDED_PROGRAMS = 5, GUARDED_WORDS = SHEETBENDLE_AREA_WORDS(GUARDED_CELLS, GUARDED_PROGRAMS) };

static const uint32_t guarded_guards[] = {
    SHEETBENDLE_GUARD(1, 0), SHEETBENDLE_GUARD(-20, 300), SHEETBENDLE_GUARD(-1, -1),
    /* one pair too many */
    SHEETBENDLE_FULL_RANGE,
};

static const uint8_t guarded_image[] = {
    GUARDED_PROGRAMS, 0, SHEETBENDLE_RULE_1, 0,
    16, 0, 20, 0, 32, 0, 44, 0, 60, 0, 68, 0,
    /* 0 stores 0 in cell 0, which is closed: a fault of kind 3 at instruction 0. */
    SHEETBENDLE_OP_STORE, 0, 0, 0,
    /* 1 stores 300 in cell 1. */
    SHEETBENDLE_OP_SET, 0, 0, 1,
    SHEETBENDLE_OP_SET, 1, 1, 44,
    SHEETBENDLE_OP_STORE, 0, 1, 0,
    /* 2 stores 301 there: a fault of kind 3 at instruction 2. */
    SHEETBENDLE_OP_SET, 0, 0, 1,
    SHEETBENDLE_OP_SET, 1, 1, 45,
    SHEETBENDLE_OP_STORE, 0, 1, 0,
    /* 3 stores 0 - 1 in cell 2. */
    SHEETBENDLE_OP_SET, 0, 0, 2,
    SHEETBENDLE_OP_SET, 1, 0, 1,
    SHEETBENDLE_OP_SUB, 2, 2, 1,
    SHEETBENDLE_OP_STORE, 0, 2, 0,
    /* 4 stores in cell 3 of 3: a fault of kind 2 at instruction 1, and no guard is asked. */
    SHEETBENDLE_OP_SET, 0, 0, 3,
    SHEETBENDLE_OP_STORE, 0, 0, 0,
};

static uint32_t guarded_table[GUARDED_CELLS] = { 7, 1000, 8 };
static uint32_t guarded_area[GUARDED_WORDS];

/* What the calls of this batch are lent, with so many words of the guard list. */
#define GUARDED_LENT(guard_words) \
    guarded_image, sizeof guarded_image, guarded_table, GUARDED_CELLS, guarded_guards, guard_words, guarded_area, GUARDED_WORDS

/* Guards that are not T pairs: every call that is lent them refuses 14. */
static void guards_refused(size_t guard_words) {
    REFUSAL_IS(sheetbendle_open(GUARDED_LENT(guard_words)), SHEETBENDLE_REFUSED_GUARDS);
    STEP_IS(sheetbendle_gather(GUARDED_LENT(guard_words), 0), SHEETBENDLE_REFUSED_GUARDS, 0, 0);
    STEP_IS(sheetbendle_settle(GUARDED_LENT(guard_words), 0), SHEETBENDLE_REFUSED_GUARDS, 0, 0);
    WHY_REFUSED(sheetbendle_why(GUARDED_LENT(guard_words), 0), SHEETBENDLE_REFUSED_GUARDS);
    COUNT_IS(sheetbendle_order(GUARDED_LENT(guard_words), list, PROGRAMS), SHEETBENDLE_REFUSED_GUARDS, 0);
    COUNT_IS(sheetbendle_next_image(GUARDED_LENT(guard_words), fresh, sizeof fresh, out, sizeof out), SHEETBENDLE_REFUSED_GUARDS, 0);
}

/* Both ends of a guard, a closed cell, a negative number, and kind 2 before kind 3; the opening values are no fault. */
static void guarded(void) {
    enum { PAIRS = SHEETBENDLE_GUARD_WORDS(GUARDED_CELLS) };
    REFUSAL_IS(sheetbendle_open(GUARDED_LENT(PAIRS)), SHEETBENDLE_DONE);
    STEP_IS(sheetbendle_gather(GUARDED_LENT(PAIRS), 0), SHEETBENDLE_DONE, SHEETBENDLE_FAULTED, 768);
    STEP_IS(sheetbendle_gather(GUARDED_LENT(PAIRS), 1), SHEETBENDLE_DONE, SHEETBENDLE_GATHERED, 0);
    STEP_IS(sheetbendle_gather(GUARDED_LENT(PAIRS), 2), SHEETBENDLE_DONE, SHEETBENDLE_FAULTED, 256 * SHEETBENDLE_FAULT_AT_GUARD + 2);
    STEP_IS(sheetbendle_gather(GUARDED_LENT(PAIRS), 3), SHEETBENDLE_DONE, SHEETBENDLE_GATHERED, 0);
    STEP_IS(sheetbendle_gather(GUARDED_LENT(PAIRS), 4), SHEETBENDLE_DONE, SHEETBENDLE_FAULTED, 513);
    guards_refused(PAIRS - 1);
    guards_refused(PAIRS + 1);
    guards_refused(PAIRS + 2);
    guards_refused(GUARDED_CELLS);
    guards_refused(0);
    STEP_IS(sheetbendle_settle(GUARDED_LENT(PAIRS), 1), SHEETBENDLE_DONE, SHEETBENDLE_COMMITTED, 0);
    STEP_IS(sheetbendle_settle(GUARDED_LENT(PAIRS), 3), SHEETBENDLE_DONE, SHEETBENDLE_COMMITTED, 0);
    IS(guarded_table[0], 7);
    IS(guarded_table[1], 300);
    IS(guarded_table[2], 4294967295u);
}

/* Sheets: that of the fresh image; one of 28 bytes with an instruction whose bytes are told apart; the same with a byte over 255. */
static const char empty_program[] = "rule 1\nprogram\n";
static const char one_instruction[] = "rule 2\nprogram\nset 3 44 255\n";
static const char bad_line[] = "rule 2\nprogram\nset 3 44 256\n";

/* Sheets whose lines are all allowed, with a bad instruction. */
static const char bad_register[] = "rule 2\nprogram\nprogram\nend 0 0 0\nend 0 0 0\nset 8 44 255\n";
static const char bad_unused[] = "rule 2\nprogram\nprogram\nprogram\nend 0 0 0\nload 7 7 1\n";
static const char bad_skip[] = "rule 2\nprogram\nprogram\nend 0 0 0\nskipless 0 0 2\nend 0 0 0\n";
static uint8_t sheet[SHEETBENDLE_LONGEST_SHEET];

/* A sheet as the calls take it: without the zero at its end. */
#define TYPED(text) (const uint8_t *)(text), sizeof(text) - 1

/* Each way, and each of image_of's own refusals. */
static void sheets(void) {
    size_t i;
    for (i = 0; i < sizeof sheet; i++)
        sheet[i] = 90;
    TEXT_IS(sheetbendle_sheet_of(fresh, sizeof fresh, sheet, sizeof empty_program - 2), SHEETBENDLE_REFUSED_TOO_SHORT, 0, 0);
    TEXT_IS(sheetbendle_sheet_of(fresh, sizeof fresh - 3, sheet, sizeof sheet), SHEETBENDLE_REFUSED_IMAGE_SIZE, 0, 0);
    IS(sheet[0], 90);
    TEXT_IS(sheetbendle_sheet_of(fresh, sizeof fresh, sheet, sizeof sheet), SHEETBENDLE_DONE, 15, 0);
    for (i = 0; i < 15; i++)
        IS(sheet[i], (unsigned char)empty_program[i]);
    IS(sheet[15], 90);

    for (i = 0; i < sizeof out; i++)
        out[i] = 90;
    TEXT_IS(sheetbendle_image_of(TYPED(bad_line), out, sizeof out), SHEETBENDLE_REFUSED_LINE, 0, 3);
    TEXT_IS(sheetbendle_image_of((const uint8_t *)bad_line, 14, out, sizeof out), SHEETBENDLE_REFUSED_LINE, 0, 2);
    TEXT_IS(sheetbendle_image_of(NULL, 0, out, sizeof out), SHEETBENDLE_REFUSED_LINE, 0, 1);
    REFUSAL_AT(sheetbendle_image_of(TYPED(bad_register), out, sizeof out).refusal, SHEETBENDLE_REFUSED_REGISTER, 1, 2);
    REFUSAL_AT(sheetbendle_image_of(TYPED(bad_unused), out, sizeof out).refusal, SHEETBENDLE_REFUSED_UNUSED, 2, 1);
    REFUSAL_AT(sheetbendle_image_of(TYPED(bad_skip), out, sizeof out).refusal, SHEETBENDLE_REFUSED_SKIP, 1, 1);
    IS(sheetbendle_image_of(TYPED(bad_skip), out, sizeof out).line, 0);
    TEXT_IS(sheetbendle_image_of(TYPED(one_instruction), out, 11), SHEETBENDLE_REFUSED_TOO_SHORT, 0, 0);
    IS(out[0], 90);
    TEXT_IS(sheetbendle_image_of(TYPED(one_instruction), out, sizeof out), SHEETBENDLE_DONE, 12, 0);
    IS(SHEETBENDLE_PROGRAM_COUNT(out), 1);
    IS(out[2], SHEETBENDLE_RULE_2);
    IS(out[4], 8);
    IS(out[6], 12);
    IS(out[8], SHEETBENDLE_OP_SET);
    IS(out[9], 3);
    IS(out[10], 44);
    IS(out[11], 255);
    IS(out[12], 90);
    TEXT_IS(sheetbendle_image_of(TYPED(empty_program), out, sizeof out), SHEETBENDLE_DONE, sizeof fresh, 0);
    for (i = 0; i < sizeof fresh; i++)
        IS(out[i], fresh[i]);
}

int main(void) {
    const uint32_t *writes = area + SHEETBENDLE_WRITE_MARKS(CELLS), *reads = area + SHEETBENDLE_READ_MARKS(CELLS), *slot;

    PART_IS(sheetbendle_program(image, sizeof image, 2), 40, 16);
    PART_IS(sheetbendle_program(image, sizeof image, PROGRAMS), 0, 0);
    REFUSAL_IS(sheetbendle_program_refusal(image, sizeof image, 2), SHEETBENDLE_DONE);
    REFUSAL_IS(sheetbendle_program_refusal(image, sizeof image, PROGRAMS), SHEETBENDLE_REFUSED_NUMBER);
    IS(SHEETBENDLE_PROGRAM_COUNT(image), 5);

    REFUSAL_IS(sheetbendle_open(image, sizeof image, table, CELLS, guards, GUARDS, area, WORDS - 1), SHEETBENDLE_REFUSED_AREA_SIZE);
    REFUSAL_IS(sheetbendle_open(LENT), SHEETBENDLE_DONE);

    STEP_IS(sheetbendle_gather(LENT, 4), SHEETBENDLE_DONE, SHEETBENDLE_REJECTED, 77);
    STEP_IS(sheetbendle_gather(LENT, 1), SHEETBENDLE_DONE, SHEETBENDLE_FAULTED, 513);
    STEP_IS(sheetbendle_gather(LENT, 3), SHEETBENDLE_DONE, SHEETBENDLE_GATHERED, 0);
    STEP_IS(sheetbendle_gather(LENT, 2), SHEETBENDLE_DONE, SHEETBENDLE_GATHERED, 0);
    STEP_IS(sheetbendle_gather(LENT, 2), SHEETBENDLE_REFUSED_STATE, 0, 0);
    STEP_IS(sheetbendle_settle(LENT, 2), SHEETBENDLE_REFUSED_STATE, 0, 0);
    STEP_IS(sheetbendle_gather(LENT, 0), SHEETBENDLE_DONE, SHEETBENDLE_GATHERED, 0);

    IS(writes[0], 0);
    IS(writes[1], 3);
    IS(writes[2], 1);
    IS(writes[3], 4);
    IS(reads[0], 0);
    IS(reads[1], 1);
    IS(reads[2], 3);
    IS(reads[3], 0);
    slot_is(0, SHEETBENDLE_GATHERED, 0, 1, 2, 11);
    slot = area + SHEETBENDLE_SLOT(CELLS, 1);
    IS(slot[SHEETBENDLE_SLOT_STATE], SHEETBENDLE_FAULTED);
    IS(slot[SHEETBENDLE_SLOT_DETAIL], 256 * SHEETBENDLE_FAULT_AT_STORE + 1);

    COUNT_IS(sheetbendle_order(LENT, list, PROGRAMS), SHEETBENDLE_REFUSED_STATE, 0);
    WHY_REFUSED(sheetbendle_why(LENT, 2), SHEETBENDLE_REFUSED_STATE);
    STEP_IS(sheetbendle_settle(LENT, 2), SHEETBENDLE_DONE, SHEETBENDLE_CARRIED, SHEETBENDLE_RAW_WITH_WAR);
    STEP_IS(sheetbendle_settle(LENT, 3), SHEETBENDLE_DONE, SHEETBENDLE_COMMITTED, 0);
    STEP_IS(sheetbendle_settle(LENT, 0), SHEETBENDLE_DONE, SHEETBENDLE_COMMITTED, 0);
    STEP_IS(sheetbendle_settle(LENT, PROGRAMS), SHEETBENDLE_REFUSED_NUMBER, 0, 0);
    slot_is(2, SHEETBENDLE_CARRIED, SHEETBENDLE_RAW_WITH_WAR, 2, 1, 12);
    IS(table[0], 10);
    IS(table[1], 11);
    IS(table[2], 11);
    IS(table[3], 300);

    CAUSE_IS(sheetbendle_why(LENT, 2), SHEETBENDLE_DONE, SHEETBENDLE_RAW_WITH_WAR, 2, 0, 1, 0);
    WHY_REFUSED(sheetbendle_why(LENT, 4), SHEETBENDLE_REFUSED_NOT_CARRIED);
    causes();

    COUNT_IS(sheetbendle_order(LENT, list, PROGRAMS - 1), SHEETBENDLE_REFUSED_TOO_SHORT, 0);
    COUNT_IS(sheetbendle_order(LENT, list, PROGRAMS), SHEETBENDLE_DONE, 2);
    IS(list[0], 0);
    IS(list[1], 3);
    IS(list[2], 92);

    COUNT_IS(sheetbendle_next_image(LENT, fresh, 5, out, sizeof out), SHEETBENDLE_REFUSED_FRESH_IMAGE_SIZE, 0);
    COUNT_IS(sheetbendle_next_image(LENT, fresh, sizeof fresh, out, sizeof out), SHEETBENDLE_DONE, 26);
    PART_IS(sheetbendle_program(out, 26, 0), 10, 16);
    IS(out[10 + 3], 2);
    IS(out[2], SHEETBENDLE_RULE_1);

    bad_instructions();
    guarded();
    sheets();

    printf("values in C: %u passed, %u failed\n", passed, failed);
    return failed == 0 ? 0 : 1;
}
