/*
 * Types a sheet, makes its image, and makes the sheet again from the image; then types two that are
 * refused, and says at which line and at which instruction.
 *
 * Build and run, from the repository's root, once the archive is there (rt lib, in crates/sheetbendle_c):
 *
 *     tools/cc examples/sheet.c target/sheet
 *     tools/run target/sheet
 *
 * examples/sheet.txt is what it prints.
 */
#include <sheetbendle.h>
#include <stdio.h>
#include <stdlib.h>
#include <string.h>

/* The heater's set point is cell 0, a spare copy of it cell 1: program 0 sets one, program 1 saves it. */
static const char good[] =
    "rule 2\n"
    "program\n"
    "set 1 0 25\n"
    "store 0 1 0\n"
    "program\n"
    "load 1 0 0\n"
    "set 2 0 1\n"
    "store 2 1 0\n";

/* The same, typed in a hurry: a leading zero in line 3. */
static const char hurried[] =
    "rule 2\n"
    "program\n"
    "set 1 0 025\n"
    "store 0 1 0\n";

/* The same, well typed, but there is no register 8: instruction 1 of program 1. */
static const char mistaken[] =
    "rule 2\n"
    "program\n"
    "set 1 0 25\n"
    "store 0 1 0\n"
    "program\n"
    "load 1 0 0\n"
    "set 8 0 1\n"
    "store 2 1 0\n";

static uint8_t image[SHEETBENDLE_LONGEST_IMAGE];
static uint8_t sheet[SHEETBENDLE_LONGEST_SHEET];

/* Makes the image of a text; where it is refused, says so and where. */
static sheetbendle_text make_image(const char *typed) {
    sheetbendle_text text = sheetbendle_image_of((const uint8_t *)typed, strlen(typed), image, sizeof image);
    sheetbendle_refusal refusal = text.refusal;
    switch (refusal.number) {
    case SHEETBENDLE_DONE:
        break;
    case SHEETBENDLE_REFUSED_LINE:
        printf("refused %u line %u\n", (unsigned)refusal.number, (unsigned)text.line);
        break;
    case SHEETBENDLE_REFUSED_REGISTER:
    case SHEETBENDLE_REFUSED_UNUSED:
    case SHEETBENDLE_REFUSED_SKIP:
        printf("refused %u program %u instruction %u\n", (unsigned)refusal.number, (unsigned)refusal.program,
               (unsigned)refusal.instruction);
        break;
    default:
        printf("refused %u\n", (unsigned)refusal.number);
    }
    return text;
}

/* Makes the sheet of an image that was made, and returns its length. */
static uint32_t make_sheet(uint32_t image_bytes) {
    sheetbendle_text text = sheetbendle_sheet_of(image, image_bytes, sheet, sizeof sheet);
    /* The image of a sheet is good, so the output alone could be too short. */
    if (text.refusal.number != SHEETBENDLE_DONE) {
        fprintf(stderr, "sheet_of refused %u\n", (unsigned)text.refusal.number);
        exit(EXIT_FAILURE);
    }
    return text.length;
}

int main(void) {
    sheetbendle_text made = make_image(good);
    uint32_t length = make_sheet(made.length);
    printf("a sheet of %u bytes\n", (unsigned)strlen(good));
    printf("its image: %u bytes, %u programs\n", (unsigned)made.length, (unsigned)SHEETBENDLE_PROGRAM_COUNT(image));
    printf("the sheet of that image: %u bytes, %s\n", (unsigned)length,
           length == strlen(good) && memcmp(sheet, good, length) == 0 ? "the same text" : "another text");
    fwrite(sheet, 1, length, stdout);
    printf("typed in a hurry: ");
    make_image(hurried);
    printf("with register 8: ");
    make_image(mistaken);
    return EXIT_SUCCESS;
}
