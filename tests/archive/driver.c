/*
 * Makes the archive's calls for a process that cannot link it: each call comes as one frame on
 * standard input and goes back as one frame on standard output. The lent buffers lie inside the
 * frame, each between fences, and the whole frame goes back as the call left it. So this program
 * compares nothing: whoever sent the frame sees every byte that changed. tests/archive/frame.rs is
 * the other end.
 */
#include <sheetbendle.h>
#include <signal.h>
#include <stdio.h>
#include <unistd.h>

enum { PROGRAM, PROGRAM_REFUSAL, OPEN, GATHER, SETTLE, WHY, ORDER, NEXT_IMAGE, IMAGE_OF, SHEET_OF };
enum { TABLE, GUARDS, AREA, LIST, IMAGE, FRESH, SHEET, OUT, BUFFERS };
enum { NOTHING, STACK, INSTRUCTIONS };

/* A call that takes more seconds than this is taken to hang, and ends this program. Counting instructions may take long. */
#define LIMIT 60
#define NO_LIMIT 0

/* The most numbers that a call returns: three of a refusal, and five behind them. */
#define RESULTS 8

/* Room for the largest buffers that are lent, with their fences: a sheet of more than a megabyte is the largest. */
#define ROOM (2 * 1024 * 1024)

static struct {
    uint64_t bytes; /* of the frame */
    uint64_t call, number, null_when_empty, measure;
    uint64_t results[RESULTS], measured;
    struct {
        uint64_t start, length; /* in bytes of the memory; in bytes or words */
    } lent[BUFFERS];
    uint32_t memory[ROOM / 4];
} frame;

/* Where a buffer lies: a null pointer goes with length 0, if the frame asks for that. */
static void *place(int buffer) {
    if (frame.lent[buffer].length == 0 && frame.null_when_empty)
        return NULL;
    return (uint8_t *)frame.memory + frame.lent[buffer].start;
}

/* A buffer as the calls take it: pointer and length. */
#define LENT(buffer) place(buffer), frame.lent[buffer].length

/* What every call of a batch is lent first. */
#define BATCH LENT(IMAGE), LENT(TABLE), LENT(GUARDS), LENT(AREA)

static void refusal_results(sheetbendle_refusal refusal) {
    frame.results[0] = refusal.number;
    frame.results[1] = refusal.program;
    frame.results[2] = refusal.instruction;
}

static void step_results(sheetbendle_step step) {
    refusal_results(step.refusal);
    frame.results[3] = step.state;
    frame.results[4] = step.detail;
}

static void cause_results(sheetbendle_cause cause) {
    refusal_results(cause.refusal);
    frame.results[3] = cause.reason;
    frame.results[4] = cause.cell;
    frame.results[5] = cause.program;
    frame.results[6] = cause.war_cell;
    frame.results[7] = cause.war_program;
}

static void count_results(sheetbendle_count count) {
    refusal_results(count.refusal);
    frame.results[3] = count.count;
}

static void text_results(sheetbendle_text text) {
    refusal_results(text.refusal);
    frame.results[3] = text.length;
    frame.results[4] = text.line;
}

static void part_results(sheetbendle_part part) {
    frame.results[0] = part.start;
    frame.results[1] = part.length;
}

/* Inlined where it is used, so that the stack is measured from that very frame. */
static inline __attribute__((always_inline)) void make_call(void) {
    switch (frame.call) {
    case PROGRAM: part_results(sheetbendle_program(LENT(IMAGE), frame.number)); break;
    case PROGRAM_REFUSAL: refusal_results(sheetbendle_program_refusal(LENT(IMAGE), frame.number)); break;
    case OPEN: refusal_results(sheetbendle_open(BATCH)); break;
    case GATHER: step_results(sheetbendle_gather(BATCH, frame.number)); break;
    case SETTLE: step_results(sheetbendle_settle(BATCH, frame.number)); break;
    case WHY: cause_results(sheetbendle_why(BATCH, frame.number)); break;
    case ORDER: count_results(sheetbendle_order(BATCH, LENT(LIST))); break;
    case NEXT_IMAGE: count_results(sheetbendle_next_image(BATCH, LENT(FRESH), LENT(OUT))); break;
    case IMAGE_OF: text_results(sheetbendle_image_of(LENT(SHEET), LENT(OUT))); break;
    case SHEET_OF: text_results(sheetbendle_sheet_of(LENT(IMAGE), LENT(OUT))); break;
    }
}

#define PAINTED (64 * 1024)
#define PAINT 0xC3

static uintptr_t lowest_painted;

/* Paints the stack below the caller. */
static __attribute__((noinline)) void paint(void) {
    volatile uint8_t below[PAINTED];
    size_t i;
    for (i = 0; i < PAINTED; i++)
        below[i] = PAINT;
    lowest_painted = (uintptr_t)below;
}

/* The lowest address that is no longer paint. What is read is dead stack, which nothing but the call used. */
static uintptr_t lowest_used(void) {
    uintptr_t lowest = lowest_painted;
    while (*(volatile uint8_t *)lowest == PAINT)
        lowest++;
    return lowest;
}

/* Makes the call; returns how many bytes below this frame it went. */
static __attribute__((noinline)) uint64_t stack_of_call(void) {
    uintptr_t frame_end;
    paint();
    __asm__ volatile("mov %%rsp, %0" : "=r"(frame_end));
    make_call();
    return frame_end - lowest_used();
}

static volatile uint64_t instructions;

static void count_instruction(int signal_number) {
    (void)signal_number;
    instructions++;
}

/*
 * The processor's trap flag: while it is set, SIGTRAP follows every instruction. Changed only in a
 * function that calls others, where nothing lies below the stack pointer.
 */
#define TRAP_FLAG "$0x100"
#define NO_TRAP_FLAG "$0xfffffffffffffeff"
#define CHANGE_FLAGS(operation, mask) __asm__ volatile("pushfq; " operation " " mask ", (%%rsp); popfq" ::: "memory", "cc")

/* Makes the call; returns how many instructions it took, some thirty of this program's own among them. */
static __attribute__((noinline)) uint64_t instructions_of_call(void) {
    instructions = 0;
    signal(SIGTRAP, count_instruction);
    CHANGE_FLAGS("orq", TRAP_FLAG);
    make_call();
    CHANGE_FLAGS("andq", NO_TRAP_FLAG);
    return instructions;
}

/* Reads the next frame; returns whether a whole one came. */
static int read_frame(void) {
    size_t head = sizeof frame.bytes;
    if (fread(&frame, head, 1, stdin) != 1 || frame.bytes > sizeof frame)
        return 0;
    return fread((uint8_t *)&frame + head, frame.bytes - head, 1, stdin) == 1;
}

int main(void) {
    while (read_frame()) {
        alarm(frame.measure == INSTRUCTIONS ? NO_LIMIT : LIMIT);
        switch (frame.measure) {
        case NOTHING: make_call(); break;
        case STACK: frame.measured = stack_of_call(); break;
        case INSTRUCTIONS: frame.measured = instructions_of_call(); break;
        }
        alarm(NO_LIMIT);
        if (fwrite(&frame, frame.bytes, 1, stdout) != 1 || fflush(stdout) != 0)
            return 1;
    }
    return 0;
}
