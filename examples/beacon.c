/*
 * A beacon runs two passes of small programs over a table of four cells, one of which is guarded.
 *
 * Build and run, from the repository's root, once the archive is there (rt lib, in crates/sheetbendle_c):
 *
 *     tools/cc examples/beacon.c target/beacon
 *     tools/run target/beacon
 *
 * examples/beacon.txt is what it prints.
 */
#include <sheetbendle.h>
#include <stdio.h>
#include <stdlib.h>
#include <string.h>

/* The beacon's cells: beacons sent, the count last reported, millivolts, seconds between beacons. */
enum { SENT, REPORT, BATTERY, INTERVAL, CELLS };
enum { GUARDS = SHEETBENDLE_GUARD_WORDS(CELLS) };

/* The operations that the programs below use, by short names. */
enum {
    SET = SHEETBENDLE_OP_SET,
    LOAD = SHEETBENDLE_OP_LOAD,
    STORE = SHEETBENDLE_OP_STORE,
    ADD = SHEETBENDLE_OP_ADD,
    SKIPLESS = SHEETBENDLE_OP_SKIPLESS
};

/* Bytes b and c of a set. */
#define NUMBER(n) (n) / 256, (n) % 256

/* Counts a beacon: sent = sent + 1. */
static const uint8_t count[] = {
    SET,   0, NUMBER(SENT),
    LOAD,  1, 0, 0,
    SET,   2, NUMBER(1),
    ADD,   1, 1, 2,
    STORE, 0, 1, 0,
};

/* Reports: report = sent. It reads the table that the pass opened with, so not the count above. */
static const uint8_t report[] = {
    SET,   0, NUMBER(SENT),
    LOAD,  1, 0, 0,
    SET,   2, NUMBER(REPORT),
    STORE, 2, 1, 0,
};

/* Starts the count anew: sent = 0. It stores what an earlier program stores, so it waits a pass. */
static const uint8_t restart[] = {
    SET,   0, NUMBER(SENT),
    STORE, 0, 1, 0,
};

/* Saves power: unless 3300 < battery, interval = 600. */
static const uint8_t save_power[] = {
    SET,      0, NUMBER(BATTERY),
    LOAD,     1, 0, 0,
    SET,      2, NUMBER(3300),
    SKIPLESS, 2, 1, 3,
    SET,      0, NUMBER(INTERVAL),
    SET,      1, NUMBER(600),
    STORE,    0, 1, 0,
};

/*
 * Falls silent: interval = 0. The interval's guard below does not allow that, so the program faults and
 * changes nothing. Its detail is 256 * SHEETBENDLE_FAULT_AT_GUARD + 1: the store is instruction 1.
 */
static const uint8_t fall_silent[] = {
    SET,   0, NUMBER(INTERVAL),
    STORE, 0, 1, 0,
};

struct program {
    const uint8_t *bytes;
    size_t length;
};

#define PROGRAM(name) { name, sizeof name }

static const struct program first_pass[] = { PROGRAM(count), PROGRAM(report), PROGRAM(restart) };
static const struct program second_pass[] = { PROGRAM(save_power), PROGRAM(fall_silent) };

/* Everything lent to the library, for the largest image. */
static uint8_t image[SHEETBENDLE_LONGEST_IMAGE];
static uint8_t fresh[SHEETBENDLE_LONGEST_IMAGE];
static uint8_t next[SHEETBENDLE_LONGEST_IMAGE];
static uint32_t table[CELLS] = { 41, 0, 3210, 60 };
static const uint32_t guards[GUARDS] = {
    [2 * SENT] = SHEETBENDLE_FULL_RANGE,
    [2 * REPORT] = SHEETBENDLE_FULL_RANGE,
    [2 * BATTERY] = SHEETBENDLE_FULL_RANGE,
    [2 * INTERVAL] = SHEETBENDLE_GUARD(30, 3600),
};
static uint32_t area[SHEETBENDLE_AREA_WORDS(CELLS, SHEETBENDLE_PROGRAMS)];
static uint32_t list[SHEETBENDLE_PROGRAMS];

static void put_number(uint8_t *place, size_t number) {
    place[0] = (uint8_t)(number % 256);
    place[1] = (uint8_t)(number / 256);
}

/* Writes an image of these programs under Rule 2, and returns its length. */
static size_t make_image(uint8_t *out, const struct program *programs, size_t programs_count) {
    size_t offset = SHEETBENDLE_IMAGE_BYTES(programs_count, 0), i;
    put_number(out, programs_count);
    out[2] = SHEETBENDLE_RULE_2;
    out[3] = 0;
    put_number(out + 4, offset);
    for (i = 0; i < programs_count; i++) {
        memcpy(out + offset, programs[i].bytes, programs[i].length);
        offset += programs[i].length;
        put_number(out + 6 + 2 * i, offset);
    }
    return offset;
}

/* In what the bad instruction stands that a refusal names; nothing where it names none. */
static const char *bad_program(uint32_t number) {
    switch (number) {
    case SHEETBENDLE_REFUSED_OPERATION:
    case SHEETBENDLE_REFUSED_REGISTER:
    case SHEETBENDLE_REFUSED_UNUSED:
    case SHEETBENDLE_REFUSED_SKIP:
        return "program";
    case SHEETBENDLE_REFUSED_FRESH_OPERATION:
    case SHEETBENDLE_REFUSED_FRESH_REGISTER:
    case SHEETBENDLE_REFUSED_FRESH_UNUSED:
    case SHEETBENDLE_REFUSED_FRESH_SKIP:
        return "fresh program";
    default:
        return NULL;
    }
}

/* Ends the example where a call was refused. */
static void check(const char *call, sheetbendle_refusal refusal) {
    const char *bad = bad_program(refusal.number);
    if (refusal.number == SHEETBENDLE_DONE)
        return;
    fprintf(stderr, "%s refused %u", call, (unsigned)refusal.number);
    if (bad)
        fprintf(stderr, ": %s %u, instruction %u", bad, (unsigned)refusal.program, (unsigned)refusal.instruction);
    fprintf(stderr, "\n");
    exit(EXIT_FAILURE);
}

/* Opens, gathers and settles a batch, and prints what came of it. */
static void run_batch(size_t bytes) {
    static const char *const words[] = {
        [SHEETBENDLE_WAITING] = "waiting",   [SHEETBENDLE_GATHERED] = "gathered",   [SHEETBENDLE_REJECTED] = "rejected",
        [SHEETBENDLE_FAULTED] = "faulted",   [SHEETBENDLE_COMMITTED] = "committed", [SHEETBENDLE_CARRIED] = "carried",
    };
    size_t n = SHEETBENDLE_PROGRAM_COUNT(image), area_words = SHEETBENDLE_AREA_WORDS(CELLS, n), i;
    sheetbendle_step steps[SHEETBENDLE_PROGRAMS];
    sheetbendle_count order;

    check("open", sheetbendle_open(image, bytes, table, CELLS, guards, GUARDS, area, area_words));
    for (i = 0; i < n; i++) {
        steps[i] = sheetbendle_gather(image, bytes, table, CELLS, guards, GUARDS, area, area_words, i);
        check("gather", steps[i].refusal);
    }
    for (i = 0; i < n; i++) {
        if (steps[i].state == SHEETBENDLE_GATHERED) {
            steps[i] = sheetbendle_settle(image, bytes, table, CELLS, guards, GUARDS, area, area_words, i);
            check("settle", steps[i].refusal);
        }
    }
    order = sheetbendle_order(image, bytes, table, CELLS, guards, GUARDS, area, area_words, list, SHEETBENDLE_PROGRAMS);
    check("order", order.refusal);

    for (i = 0; i < n; i++)
        printf("program %u %s %u\n", (unsigned)i, words[steps[i].state], (unsigned)steps[i].detail);
    printf("order");
    for (i = 0; i < order.count; i++)
        printf(" %u", (unsigned)list[i]);
    printf("\nsent %u, reported %u, battery %u, interval %u\n", (unsigned)table[SENT],
           (unsigned)table[REPORT], (unsigned)table[BATTERY], (unsigned)table[INTERVAL]);
}

/* The carried programs and the fresh ones become the image; returns its length. */
static size_t take_up_next_image(size_t bytes, size_t fresh_bytes) {
    size_t n = SHEETBENDLE_PROGRAM_COUNT(image);
    sheetbendle_count length =
        sheetbendle_next_image(image, bytes, table, CELLS, guards, GUARDS, area, SHEETBENDLE_AREA_WORDS(CELLS, n),
                               fresh, fresh_bytes, next, sizeof next);
    check("next_image", length.refusal);
    memcpy(image, next, length.count);
    return length.count;
}

int main(void) {
    size_t bytes, fresh_bytes;

    printf("first pass\n");
    bytes = make_image(image, first_pass, sizeof first_pass / sizeof first_pass[0]);
    run_batch(bytes);

    fresh_bytes = make_image(fresh, second_pass, sizeof second_pass / sizeof second_pass[0]);
    bytes = take_up_next_image(bytes, fresh_bytes);
    printf("next image: %u bytes\n", (unsigned)bytes);

    printf("second pass\n");
    run_batch(bytes);
    return EXIT_SUCCESS;
}
