/*
 * Runs a batch under each rule and says in words why a program was carried.
 *
 * Build and run, from the repository's root, once the archive is there (rt lib, in crates/sheetbendle_c):
 *
 *     tools/cc examples/why.c target/why
 *     tools/run target/why
 *
 * examples/why.txt is what it prints.
 */
#include <sheetbendle.h>
#include <stdio.h>
#include <stdlib.h>

/* The heater's set point and a spare copy of it. */
enum { HEATER, SPARE, CELLS };

static const char *const cell_names[CELLS] = { "the heater's set point", "the spare copy" };

enum { PROGRAMS = 3, WORDS = SHEETBENDLE_AREA_WORDS(CELLS, PROGRAMS), GUARDS = SHEETBENDLE_GUARD_WORDS(CELLS) };

/* The image. Where the programs begin and end stands before them: 3 * 2 + 6 bytes, and then 4 for each instruction. */
static uint8_t image[] = {
    PROGRAMS, 0, SHEETBENDLE_DEFAULT_RULE, 0,
    12, 0, 28, 0, 44, 0, 56, 0,
    /* 0 saves the set point: spare = heater. */
    SHEETBENDLE_OP_SET, 0, 0, HEATER,
    SHEETBENDLE_OP_LOAD, 1, 0, 0,
    SHEETBENDLE_OP_SET, 2, 0, SPARE,
    SHEETBENDLE_OP_STORE, 2, 1, 0,
    /* 1 takes it back: heater = spare. */
    SHEETBENDLE_OP_SET, 0, 0, SPARE,
    SHEETBENDLE_OP_LOAD, 1, 0, 0,
    SHEETBENDLE_OP_SET, 2, 0, HEATER,
    SHEETBENDLE_OP_STORE, 2, 1, 0,
    /* 2 sets the spare copy to 20. */
    SHEETBENDLE_OP_SET, 0, 0, SPARE,
    SHEETBENDLE_OP_SET, 1, 0, 20,
    SHEETBENDLE_OP_STORE, 0, 1, 0,
};

static uint32_t table[CELLS];
static const uint32_t guards[GUARDS] = { SHEETBENDLE_FULL_RANGE, SHEETBENDLE_FULL_RANGE };
static uint32_t area[WORDS];

/* What every call is lent. */
#define LENT image, sizeof image, table, CELLS, guards, GUARDS, area, WORDS

/* Ends the example where a call was refused, and says so: where an instruction is bad, with its place. */
static void check(const char *call, sheetbendle_refusal refusal) {
    switch (refusal.number) {
    case SHEETBENDLE_DONE:
        return;
    case SHEETBENDLE_REFUSED_OPERATION:
    case SHEETBENDLE_REFUSED_REGISTER:
    case SHEETBENDLE_REFUSED_UNUSED:
    case SHEETBENDLE_REFUSED_SKIP:
        fprintf(stderr, "%s refused %u: program %u, instruction %u\n", call, (unsigned)refusal.number,
                (unsigned)refusal.program, (unsigned)refusal.instruction);
        break;
    default:
        fprintf(stderr, "%s refused %u\n", call, (unsigned)refusal.number);
    }
    exit(EXIT_FAILURE);
}

/* Opens, gathers and settles the batch under a rule. */
static void run_batch(uint8_t rule) {
    size_t i;
    image[2] = rule;
    table[HEATER] = 25;
    table[SPARE] = 15;
    check("open", sheetbendle_open(LENT));
    for (i = 0; i < PROGRAMS; i++)
        check("gather", sheetbendle_gather(LENT, i).refusal);
    /* None of these programs rejects or faults, so each is gathered now. */
    for (i = 0; i < PROGRAMS; i++)
        check("settle", sheetbendle_settle(LENT, i).refusal);
}

/* Says why a carried program was carried. */
static void print_cause(size_t number) {
    sheetbendle_cause cause = sheetbendle_why(LENT, number);
    check("why", cause.refusal);
    switch (cause.reason) {
    case SHEETBENDLE_WAW:
        printf("it stores %s, and so does program %u\n", cell_names[cause.cell], (unsigned)cause.program);
        break;
    case SHEETBENDLE_RAW:
        printf("it read %s, which program %u stores\n", cell_names[cause.cell], (unsigned)cause.program);
        break;
    case SHEETBENDLE_RAW_WITH_WAR:
        printf("it read %s, which program %u stores, and stores %s, which program %u read\n", cell_names[cause.cell],
               (unsigned)cause.program, cell_names[cause.war_cell], (unsigned)cause.war_program);
        break;
    }
}

/* Says what came of each program. */
static void print_batch(void) {
    size_t i;
    for (i = 0; i < PROGRAMS; i++) {
        if (area[SHEETBENDLE_SLOT(CELLS, i) + SHEETBENDLE_SLOT_STATE] == SHEETBENDLE_CARRIED) {
            printf("program %u is carried: ", (unsigned)i);
            print_cause(i);
        } else {
            printf("program %u is committed\n", (unsigned)i);
        }
    }
}

int main(void) {
    printf("under Rule 1\n");
    run_batch(SHEETBENDLE_RULE_1);
    print_batch();
    printf("under Rule 2\n");
    run_batch(SHEETBENDLE_RULE_2);
    print_batch();
    return EXIT_SUCCESS;
}
