/* Makes accepted calls on a stack of its own that is painted before, and prints how many bytes of it each one changed, its return
 * address among them. Linked with -z now: where names are bound late, the first call takes the linker's bytes too. */
#include <nuggetbay.h>
#include <stdio.h>
#include <string.h>

#define PAINT 0xa5
#define TOP 60000

static unsigned char stack[65536] __attribute__((aligned(64)));

/* An argument, a number or a pointer, as it is passed. */
typedef unsigned long word;
#define WORD(argument) ((word)(argument))

/* Calls a function with six words in registers and five on the stack. */
static size_t bytes_used(void (*function)(void), const word registers[6], const word passed[5]) {
    memset(stack, PAINT, sizeof stack);
    unsigned char *top = stack + TOP / 64 * 64;
    memcpy(top, passed, 5 * sizeof(word));
    word a = registers[0], b = registers[1], c = registers[2], d = registers[3];
    register word e __asm__("r8") = registers[4];
    register word f __asm__("r9") = registers[5];
    __asm__ volatile("mov %%rsp, %%rbx\n\tmov %[top], %%rsp\n\tcall *%[function]\n\tmov %%rbx, %%rsp"
                     : "+D"(a), "+S"(b), "+d"(c), "+c"(d), "+r"(e), "+r"(f)
                     : [top] "r"(top), [function] "r"(function)
                     : "rax", "rbx", "r10", "r11", "memory", "cc", "xmm0", "xmm1", "xmm2", "xmm3", "xmm4", "xmm5", "xmm6", "xmm7",
                       "xmm8", "xmm9", "xmm10", "xmm11", "xmm12", "xmm13", "xmm14", "xmm15");
    unsigned char *lowest = stack;
    while (*lowest == PAINT) lowest++;
    return (size_t)(top - lowest);
}

#define USED(function, ...) \
    printf("%s %zu\n", #function, bytes_used((void (*)(void))function, (const word[11]){__VA_ARGS__}, &(const word[11]){__VA_ARGS__}[6]))

/* The case of document 01's P16. */
static uint8_t text[NB_TEXT_LENGTH];
static uint32_t counts[NB_MAP_CELLS];
static uint64_t marks[NB_MAP_ROWS];
static uint8_t frame[NB_FRAME_LENGTH];

static void make_text(void) {
#define DIGITS(name, digits) + digits
    size_t line_1 = 0 NB_LINE_1(DIGITS);
    memset(text, '0', sizeof text);
    memcpy(text, "000003e800002710000009c400002710001000", line_1);
    uint8_t *at = text + line_1;
    *at++ = '\n';
    at[0] = '8';
    for (size_t row = 0; row < NB_MAP_ROWS; row++, at += NB_MARK_DIGITS + 1) at[NB_MARK_DIGITS] = '\n';
    at[NB_COUNT_DIGITS - 1] = '8';
    for (size_t row = 0; row < NB_MAP_ROWS; row++, at += NB_MAP_COLUMNS * NB_COUNT_DIGITS + 1) at[NB_MAP_COLUMNS * NB_COUNT_DIGITS] = '\n';
}

int main(void) {
    nb_sheet_answer_t sheet;
    nb_high_angle_t high_angle;
    nb_descent_t descent;
    nb_footprint_t footprint;
    nb_assessment_t assessment;
    nb_reading_t reading;
    make_text();
    USED(nb_case, WORD(text), sizeof text, WORD(counts), NB_MAP_CELLS, WORD(marks), NB_MAP_ROWS, WORD(frame), sizeof frame);
    if (memcmp(frame, "000001bf3e", 10) != 0) return 1;
    USED(nb_read_case, WORD(&reading), WORD(text), sizeof text, WORD(counts), NB_MAP_CELLS, WORD(marks), NB_MAP_ROWS);
    USED(nb_assess, WORD(&assessment), 1000, 10000, 2500, WORD(counts), NB_MAP_CELLS, WORD(marks), NB_MAP_ROWS, 10000, 0, 0x1000);
    if (assessment.refusal != NB_ACCEPTED || assessment.footprint.people != 8) return 1;
    USED(nb_footprint, WORD(&footprint), WORD(counts), NB_MAP_CELLS, WORD(marks), NB_MAP_ROWS, 10000);
    USED(nb_sheet, WORD(&sheet), 1000, 10000, 2500);
    if (sheet.refusal != NB_ACCEPTED || footprint.row != 5 || reading.head.mass != 10000) return 1;
    USED(nb_high_angle, WORD(&high_angle), 1100, 15000, 2500);
    if (high_angle.refusal != NB_ACCEPTED || high_angle.area.high != 57102) return 1;
    /* nearly all steps of the largest budget */
    USED(nb_descent, WORD(&descent), 3000, 50, 500, 28250, NB_BUDGET_MOST);
    if (descent.refusal != NB_ACCEPTED || descent.steps < NB_BUDGET_MOST - 100) return 1;
    /* the answers of these come in a register */
    USED(nb_greatest_speed, 3000, 25000, 2);
    USED(nb_greatest_mass, 3000, 5000, 2);
    if (nb_greatest_speed(3000, 25000, 2).refusal != NB_ACCEPTED || nb_greatest_mass(3000, 5000, 2).refusal != NB_ACCEPTED) return 1;
    USED(nb_intrinsic_class, 3, 4, 0);
    USED(nb_final_class, 3, 6, 0x2212);
    return 0;
}
