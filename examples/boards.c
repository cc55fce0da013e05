/*
 * The flight computer, the radio board and the mirror on the ground each run the same batches
 * alone, each in an order of its own, with steps in between that must be refused. After every
 * batch their tables, areas, orders and next images must be equal. Batches follow until no program
 * is carried any more.
 *
 * Build and run, from the repository's root, once the archive is there (rt lib, in crates/sheetbendle_c):
 *
 *     tools/cc examples/boards.c target/boards
 *     tools/run target/boards
 *
 * A number on the command line is the seed of programs and orders; without one it is 13, and
 * examples/boards.txt is what is then printed. A board that differs is named, and the program fails.
 */
#include <sheetbendle.h>
#include <stdio.h>
#include <stdlib.h>
#include <string.h>

enum {
    CELLS = 7,
    FRESH_PROGRAMS = 5, /* sent up for one pass */
    FRESH_PASSES = 3,   /* passes for which programs are sent up */
    BOARDS = 3
};

/* A board owns everything that it lends to the library. */
struct board {
    const char *name;
    uint64_t random; /* where its generator stands */
    uint8_t image[SHEETBENDLE_LONGEST_IMAGE];
    size_t bytes, programs, words; /* the image's length and count, the area's length */
    uint32_t table[CELLS];
    uint32_t area[SHEETBENDLE_AREA_WORDS(CELLS, SHEETBENDLE_PROGRAMS)];
    uint32_t order[SHEETBENDLE_PROGRAMS];
    size_t gathers[SHEETBENDLE_PROGRAMS], settles[SHEETBENDLE_PROGRAMS]; /* the orders of its steps */
    size_t to_settle, committed;
    unsigned refused; /* wrong steps of this pass */
};

static struct board boards[BOARDS] = { { .name = "flight computer" }, { .name = "radio board" }, { .name = "mirror" } };

static const uint32_t opening_table[CELLS] = { 3, 600, 5, 41, 2, 3300, 7 };

/* Every value may be stored in every cell. The list never changes, so all boards share it. */
static const uint32_t guards[SHEETBENDLE_GUARD_WORDS(CELLS)] = {
    SHEETBENDLE_FULL_RANGE, SHEETBENDLE_FULL_RANGE, SHEETBENDLE_FULL_RANGE, SHEETBENDLE_FULL_RANGE,
    SHEETBENDLE_FULL_RANGE, SHEETBENDLE_FULL_RANGE, SHEETBENDLE_FULL_RANGE,
};

static uint8_t fresh[SHEETBENDLE_LONGEST_IMAGE]; /* what is sent up, to all boards alike */
static size_t fresh_bytes;
static uint64_t random_programs; /* where the generator of programs stands */
static unsigned pass;

/* What most calls are lent. */
#define LENT(board)                                          \
    (board)->image, (board)->bytes, (board)->table, CELLS,   \
    guards, SHEETBENDLE_GUARD_WORDS(CELLS), (board)->area, (board)->words

/* The next random number, by SplitMix64: the same on every machine. */
static uint64_t next(uint64_t *random) {
    uint64_t word = *random += 0x9E3779B97F4A7C15u;
    word = (word ^ (word >> 30)) * 0xBF58476D1CE4E5B9u;
    word = (word ^ (word >> 27)) * 0x94D049BB133111EBu;
    return word ^ (word >> 31);
}

/* One below the bound, which is not 0. */
static size_t below(uint64_t *random, size_t bound) {
    return (size_t)(next(random) % bound);
}

/* Says what is wrong with a board, and ends. */
static void fail(const struct board *board, const char *what) {
    fflush(stdout);
    fprintf(stderr, "pass %u: the %s %s\n", pass, board->name, what);
    exit(EXIT_FAILURE);
}

/* The programs that are sent up. */

/* Writes an instruction; returns where the next one begins. */
static uint8_t *put(uint8_t *at, unsigned operation, size_t a, size_t b, size_t c) {
    at[0] = (uint8_t)operation;
    at[1] = (uint8_t)a;
    at[2] = (uint8_t)b;
    at[3] = (uint8_t)c;
    return at + 4;
}

/* Loads a cell: its number into register r, its value into the register after that. */
static uint8_t *put_load(uint8_t *at, size_t r, size_t cell) {
    at = put(at, SHEETBENDLE_OP_SET, r, 0, cell);
    return put(at, SHEETBENDLE_OP_LOAD, r + 1, r, 0);
}

/* Writes one program of seven kinds, on two cells x and y; returns where it ends. */
static uint8_t *put_program(uint8_t *at) {
    size_t kind = below(&random_programs, 7), x = below(&random_programs, CELLS), y = below(&random_programs, CELLS);
    size_t number = below(&random_programs, 10);
    switch (kind) {
    case 0: /* y = x */
        at = put_load(at, 0, x);
        at = put(at, SHEETBENDLE_OP_SET, 2, 0, y);
        return put(at, SHEETBENDLE_OP_STORE, 2, 1, 0);
    case 1: /* x = x + number */
        at = put_load(at, 0, x);
        at = put(at, SHEETBENDLE_OP_SET, 2, 0, number);
        at = put(at, SHEETBENDLE_OP_ADD, 1, 1, 2);
        return put(at, SHEETBENDLE_OP_STORE, 0, 1, 0);
    case 2: /* y = x - y */
        at = put_load(at, 0, x);
        at = put_load(at, 2, y);
        at = put(at, SHEETBENDLE_OP_SUB, 1, 1, 3);
        return put(at, SHEETBENDLE_OP_STORE, 2, 1, 0);
    case 3: /* x = number; y = number */
        at = put(at, SHEETBENDLE_OP_SET, 0, 0, x);
        at = put(at, SHEETBENDLE_OP_SET, 1, 0, y);
        at = put(at, SHEETBENDLE_OP_SET, 2, 0, number);
        at = put(at, SHEETBENDLE_OP_STORE, 0, 2, 0);
        return put(at, SHEETBENDLE_OP_STORE, 1, 2, 0);
    case 4: /* y = number, unless number < x */
        at = put_load(at, 0, x);
        at = put(at, SHEETBENDLE_OP_SET, 2, 0, y);
        at = put(at, SHEETBENDLE_OP_SET, 3, 0, number);
        at = put(at, SHEETBENDLE_OP_SKIPLESS, 3, 1, 1);
        return put(at, SHEETBENDLE_OP_STORE, 2, 3, 0);
    case 5: /* y = x, unless x = y: then rejects with the number */
        at = put_load(at, 0, x);
        at = put_load(at, 2, y);
        at = put(at, SHEETBENDLE_OP_SKIPEQUAL, 1, 3, 2);
        at = put(at, SHEETBENDLE_OP_STORE, 2, 1, 0);
        at = put(at, SHEETBENDLE_OP_END, 0, 0, 0);
        return put(at, SHEETBENDLE_OP_REJECT, number, 0, 0);
    default: /* number into the cell whose number x holds; faults where there is no such cell */
        at = put_load(at, 0, x);
        at = put(at, SHEETBENDLE_OP_SET, 2, 0, number);
        return put(at, SHEETBENDLE_OP_STORE, 1, 2, 0);
    }
}

static void put_number(uint8_t *place, size_t number) {
    place[0] = (uint8_t)(number % 256);
    place[1] = (uint8_t)(number / 256);
}

/* Makes the fresh image of so many programs, under a rule that the seed picks. */
static void make_fresh(size_t programs) {
    uint8_t *at = fresh + SHEETBENDLE_IMAGE_BYTES(programs, 0);
    size_t i;
    put_number(fresh, programs);
    fresh[2] = below(&random_programs, 2) ? SHEETBENDLE_RULE_2 : SHEETBENDLE_RULE_1;
    fresh[3] = 0;
    put_number(fresh + 4, (size_t)(at - fresh));
    for (i = 0; i < programs; i++) {
        at = put_program(at);
        put_number(fresh + 6 + 2 * i, (size_t)(at - fresh));
    }
    fresh_bytes = (size_t)(at - fresh);
}

/* What a board does. */

/* Ends the example where a right step was refused. */
static void done(const struct board *board, const char *what, sheetbendle_refusal refusal) {
    if (refusal.number != SHEETBENDLE_DONE)
        fail(board, what);
}

/* Puts numbers in an order of the board's own. */
static void shuffle(struct board *board, size_t *numbers, size_t count) {
    size_t i;
    for (i = count; i > 1; i--) {
        size_t other = below(&board->random, i), number = numbers[i - 1];
        numbers[i - 1] = numbers[other];
        numbers[other] = number;
    }
}

/* A wrong step while some program waits and so many are gathered; returns its refusal's number, and what that must be. */
static uint32_t wrong_while_gathering(struct board *board, size_t gathered, uint32_t *expected) {
    size_t kind = below(&board->random, gathered > 0 ? 3 : 2), number = below(&board->random, board->programs);
    *expected = SHEETBENDLE_REFUSED_STATE;
    switch (kind) {
    case 0: /* too early */
        return sheetbendle_settle(LENT(board), number).refusal.number;
    case 1: /* out of range */
        *expected = SHEETBENDLE_REFUSED_NUMBER;
        return sheetbendle_gather(LENT(board), board->programs + number).refusal.number;
    default: /* a second time */
        return sheetbendle_gather(LENT(board), board->gathers[number % gathered]).refusal.number;
    }
}

/* The same while some program is gathered, none waits and so many are settled. */
static uint32_t wrong_while_settling(struct board *board, size_t settled, uint32_t *expected) {
    size_t kind = below(&board->random, settled > 0 ? 4 : 3), number = below(&board->random, board->programs);
    *expected = SHEETBENDLE_REFUSED_STATE;
    switch (kind) {
    case 0: /* too early */
        return sheetbendle_order(LENT(board), board->order, SHEETBENDLE_PROGRAMS).refusal.number;
    case 1: /* out of range */
        *expected = SHEETBENDLE_REFUSED_NUMBER;
        return sheetbendle_settle(LENT(board), board->programs + number).refusal.number;
    case 2: /* too late */
        return sheetbendle_gather(LENT(board), number).refusal.number;
    default: /* a second time */
        return sheetbendle_settle(LENT(board), board->settles[number % settled]).refusal.number;
    }
}

/* Sometimes takes wrong steps, which must be refused and must leave table and area as they are. */
static void stumble(struct board *board, size_t steps, uint32_t (*wrong)(struct board *, size_t, uint32_t *)) {
    static uint32_t table[CELLS], area[SHEETBENDLE_AREA_WORDS(CELLS, SHEETBENDLE_PROGRAMS)];
    while (below(&board->random, 3) == 0) {
        uint32_t expected, refusal;
        memcpy(table, board->table, sizeof table);
        memcpy(area, board->area, sizeof area);
        refusal = wrong(board, steps, &expected);
        if (refusal != expected)
            fail(board, "took a wrong step that was not refused as it must be");
        if (memcmp(table, board->table, sizeof table) != 0 || memcmp(area, board->area, sizeof area) != 0)
            fail(board, "was changed by a refused step");
        board->refused++;
    }
}

/* Runs the board's batch from its opening to its order. */
static void run_batch(struct board *board) {
    sheetbendle_count order;
    size_t i;
    board->programs = SHEETBENDLE_PROGRAM_COUNT(board->image);
    board->words = SHEETBENDLE_AREA_WORDS(CELLS, board->programs);
    board->refused = 0;
    done(board, "could not open", sheetbendle_open(LENT(board)));

    for (i = 0; i < board->programs; i++)
        board->gathers[i] = i;
    shuffle(board, board->gathers, board->programs);
    board->to_settle = 0;
    for (i = 0; i < board->programs; i++) {
        sheetbendle_step step;
        stumble(board, i, wrong_while_gathering);
        step = sheetbendle_gather(LENT(board), board->gathers[i]);
        done(board, "could not gather", step.refusal);
        if (step.state == SHEETBENDLE_GATHERED)
            board->settles[board->to_settle++] = board->gathers[i];
    }

    shuffle(board, board->settles, board->to_settle);
    for (i = 0; i < board->to_settle; i++) {
        stumble(board, i, wrong_while_settling);
        done(board, "could not settle", sheetbendle_settle(LENT(board), board->settles[i]).refusal);
    }

    order = sheetbendle_order(LENT(board), board->order, SHEETBENDLE_PROGRAMS);
    done(board, "found no order", order.refusal);
    board->committed = order.count;
}

/* The carried programs and the fresh ones become the board's image. */
static void take_up_next_image(struct board *board) {
    static uint8_t out[SHEETBENDLE_LONGEST_IMAGE];
    sheetbendle_count length = sheetbendle_next_image(LENT(board), fresh, fresh_bytes, out, sizeof out);
    done(board, "could not make the next image", length.refusal);
    memcpy(board->image, out, length.count);
    board->bytes = length.count;
}

/* In what one board differs from another after a pass, if it does. */
static const char *difference(const struct board *one, const struct board *other) {
    if (memcmp(one->table, other->table, sizeof one->table) != 0)
        return "ends with another table";
    if (memcmp(one->area, other->area, one->words * sizeof one->area[0]) != 0)
        return "ends with another area";
    if (one->committed != other->committed || memcmp(one->order, other->order, one->committed * sizeof one->order[0]) != 0)
        return "lists another order";
    if (one->bytes != other->bytes || memcmp(one->image, other->image, one->bytes) != 0)
        return "makes another next image";
    return NULL;
}

/* Ends the example where the boards are not equal: the one that the other two outvote is named. */
static void compare_boards(void) {
    size_t i;
    for (i = 0; i < BOARDS; i++) {
        const struct board *one = &boards[i], *second = &boards[(i + 1) % BOARDS], *third = &boards[(i + 2) % BOARDS];
        if (difference(second, one) && !difference(second, third))
            fail(one, difference(second, one));
    }
    if (difference(&boards[0], &boards[1]))
        fail(&boards[0], "and the others all end differently");
}

/* What is printed. */

static void print_numbers(const char *word, const size_t *numbers, size_t count) {
    size_t i;
    printf(" %s", word);
    for (i = 0; i < count; i++)
        printf(" %u", (unsigned)numbers[i]);
}

static void print_words(const char *word, const uint32_t *words, size_t count) {
    size_t i;
    printf("%s", word);
    for (i = 0; i < count; i++)
        printf(" %u", (unsigned)words[i]);
}

static void print_steps(const struct board *board) {
    printf("%-15s:", board->name);
    print_numbers("gathers", board->gathers, board->programs);
    print_numbers("| settles", board->settles, board->to_settle);
    printf(" | %u refused\n", board->refused);
}

/* What came of one program, and the cells that it read and stored. */
static void print_program(const struct board *board, size_t number) {
    static const char *const words[] = {
        [SHEETBENDLE_WAITING] = "waiting",   [SHEETBENDLE_GATHERED] = "gathered",   [SHEETBENDLE_REJECTED] = "rejected",
        [SHEETBENDLE_FAULTED] = "faulted",   [SHEETBENDLE_COMMITTED] = "committed", [SHEETBENDLE_CARRIED] = "carried",
    };
    const uint32_t *slot = board->area + SHEETBENDLE_SLOT(CELLS, number);
    printf("%u %s %u", (unsigned)number, words[slot[SHEETBENDLE_SLOT_STATE]], (unsigned)slot[SHEETBENDLE_SLOT_DETAIL]);
    if (slot[SHEETBENDLE_SLOT_READ_COUNT] > 0)
        print_words(", reads", slot + SHEETBENDLE_SLOT_READS, slot[SHEETBENDLE_SLOT_READ_COUNT]);
    if (slot[SHEETBENDLE_SLOT_STORE_COUNT] > 0)
        print_words(", stores", slot + SHEETBENDLE_SLOT_STORES, slot[SHEETBENDLE_SLOT_STORE_COUNT]);
    printf("\n");
}

static void print_batch(const struct board *board) {
    size_t i;
    for (i = 0; i < board->programs; i++)
        print_program(board, i);
    print_words("order", board->order, board->committed);
    print_words("\ntable", board->table, CELLS);
    printf("\nequal on all three boards\n\n");
}

/* One pass on all boards: each runs the batch and makes its next image, and all are compared. */
static void run_pass(void) {
    unsigned programs = (unsigned)SHEETBENDLE_PROGRAM_COUNT(boards[0].image), rule = boards[0].image[2];
    size_t i;
    printf("pass %u: %u program%s, rule %u\n", pass, programs, programs == 1 ? "" : "s", rule);
    make_fresh(pass < FRESH_PASSES ? FRESH_PROGRAMS : 0);
    for (i = 0; i < BOARDS; i++) {
        run_batch(&boards[i]);
        print_steps(&boards[i]);
        take_up_next_image(&boards[i]);
    }
    compare_boards();
    print_batch(&boards[0]);
}

/* The boards begin with the same table and the same image, and each with a generator of its own. */
static void begin(uint64_t seed) {
    size_t i;
    random_programs = seed;
    make_fresh(FRESH_PROGRAMS);
    for (i = 0; i < BOARDS; i++) {
        boards[i].random = next(&random_programs);
        memcpy(boards[i].table, opening_table, sizeof opening_table);
        memcpy(boards[i].image, fresh, fresh_bytes);
        boards[i].bytes = fresh_bytes;
    }
}

int main(int argc, char **argv) {
    char *end = NULL;
    unsigned long seed = argc > 1 ? strtoul(argv[1], &end, 10) : 13;
    if (argc > 2 || (argc == 2 && (end == argv[1] || *end != '\0'))) {
        fprintf(stderr, "usage: boards [SEED]\n");
        return EXIT_FAILURE;
    }
    begin(seed);
    /* Number 0 is never carried: each pass ends at least one program of those that are left. */
    do {
        pass++;
        if (pass > FRESH_PASSES * FRESH_PROGRAMS)
            fail(&boards[0], "carries a program for ever");
        run_pass();
    } while (SHEETBENDLE_PROGRAM_COUNT(boards[0].image) > 0);
    printf("%u passes, and no program is carried any more\n", pass);
    return EXIT_SUCCESS;
}
