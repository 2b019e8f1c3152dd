/* A whole case, a sheet, a high angle, a descent, a greatest speed, and a greatest mass, that do one thing wrong, put before the
 * library's own by the linker (--wrap), to show that boundary.c notices it. The environment's FAULT says which. */
#include <nuggetbay.h>
#include <stdlib.h>
#include <string.h>

uint8_t __real_nb_case(const uint8_t *text, size_t text_len, uint32_t *counts, size_t counts_len, uint64_t *marks,
                       size_t marks_len, uint8_t *frame, size_t frame_len);

nb_sheet_answer_t __real_nb_sheet(uint32_t dimension, uint32_t mass, uint32_t speed);

nb_high_angle_t __real_nb_high_angle(uint32_t dimension, uint32_t mass, uint32_t speed);

nb_descent_t __real_nb_descent(uint32_t dimension, uint32_t mass, uint32_t speed, uint32_t height, uint32_t budget);

nb_greatest_speed_t __real_nb_greatest_speed(uint32_t dimension, uint32_t mass, uint8_t column);

nb_greatest_mass_t __real_nb_greatest_mass(uint32_t dimension, uint32_t speed, uint8_t column);

static volatile uint8_t seen;

static char fault(void) {
    const char *named = getenv("FAULT");
    return named == NULL ? '-' : named[0];
}

uint8_t __wrap_nb_case(const uint8_t *text, size_t text_len, uint32_t *counts, size_t counts_len, uint64_t *marks,
                       size_t marks_len, uint8_t *frame, size_t frame_len) {
    char which = fault();
    if (which == 'u' && frame_len > 0 && frame[0] == 7) seen = 1; /* uninitialised content decides */
    uint8_t answer =
        __real_nb_case(text, text_len, counts, counts_len, marks, marks_len, frame, frame_len);
    switch (which) {
    case 'a': seen = text[text_len]; break;                                        /* reads after the text */
    case 'b': seen = text[-1]; break;                                              /* reads before the text */
    case 'c': seen = (uint8_t)counts[counts_len]; break;                           /* reads after the counts */
    case 'm': seen = (uint8_t)marks[-1]; break;                                    /* reads before the marks */
    case 't': if (text_len > 0) *(volatile uint8_t *)text = text[0]; break;        /* writes the text, the same byte */
    case 'f': if (frame_len > NB_FRAME_LENGTH) frame[NB_FRAME_LENGTH] ^= 1; break; /* writes after the frame's last byte */
    case 'r': if (answer == NB_TEXT_BYTE) counts[0] = 0; break;                    /* stores under a refused reading */
    case 'n': answer ^= answer == NB_TEXT_SIZE; break;                             /* another refusal */
    case 'p': if (answer == 0) frame[NB_FRAME_LENGTH - 2] ^= 1; break;             /* another digit */
    default: break;
    }
    return answer;
}

/* A cut of the area formula one millimetre too high, or too low: the area is that of the millimetre before, or after. */
nb_sheet_answer_t __wrap_nb_sheet(uint32_t dimension, uint32_t mass, uint32_t speed) {
    nb_sheet_answer_t answer = __real_nb_sheet(dimension, mass, speed);
    switch (fault()) {
    case 'A': if (dimension == 1000) answer.sheet.area = __real_nb_sheet(999, mass, speed).sheet.area; break;
    case 'B': if (dimension == 8000) answer.sheet.area = __real_nb_sheet(7999, mass, speed).sheet.area; break;
    case 'C': if (dimension == 999) answer.sheet.area = __real_nb_sheet(1000, mass, speed).sheet.area; break;
    case 'D': if (dimension == 7999) answer.sheet.area = __real_nb_sheet(8000, mass, speed).sheet.area; break;
    default: break;
    }
    return answer;
}

nb_high_angle_t __wrap_nb_high_angle(uint32_t dimension, uint32_t mass, uint32_t speed) {
    nb_high_angle_t answer = __real_nb_high_angle(dimension, mass, speed);
    switch (fault()) {
    case 'j': if (answer.refusal == 0) answer.area.high++; break;                               /* another area */
    case 'o': if (answer.refusal == NB_FRONTAL_DIMENSION) answer.refusal = NB_DIMENSION; break; /* another refusal */
    case 'z': if (answer.refusal != 0) answer.frontal_area = dimension; break;                  /* a number under a refusal */
    default: break;
    }
    return answer;
}

static double next_double(double number) {
    uint64_t bits;
    memcpy(&bits, &number, sizeof bits);
    bits++;
    memcpy(&number, &bits, sizeof number);
    return number;
}

nb_descent_t __wrap_nb_descent(uint32_t dimension, uint32_t mass, uint32_t speed, uint32_t height, uint32_t budget) {
    char which = fault();
    if (which == 'g' && height > 1) height--; /* a centimetre too low */
    nb_descent_t answer = __real_nb_descent(dimension, mass, speed, height, budget);
    switch (which) {
    case 'd': if (answer.refusal == 0) answer.end.fallen = next_double(answer.end.fallen); break; /* another last bit */
    case 's': if (answer.refusal == 0) answer.steps++; break;                                     /* a step too many */
    case 'v': if (answer.refusal == 0 && answer.end.horizontal == 0) answer.above_60 = 0; break;  /* another verdict */
    case 'l': if (answer.refusal == NB_NEGATIVE_SPEED && budget == 1) answer.refusal = NB_BUDGET_SPENT; break; /* the later refusal */
    case 'e': if (answer.refusal != 0) answer.end.downward = -0.0; break;                         /* a sign under a refusal */
    case 'k': if (answer.refusal == NB_BUDGET_SPENT) answer.steps = budget; break;                /* a number under a refusal */
    default: break;
    }
    return answer;
}

static int is_column(uint8_t column) { return column >= 1 && column <= 5; }

nb_greatest_speed_t __wrap_nb_greatest_speed(uint32_t dimension, uint32_t mass, uint8_t column) {
    char which = fault();
    if (which == 'y' && dimension == 1000) dimension = 999; /* the cut at a metre too high */
    nb_greatest_speed_t answer = __real_nb_greatest_speed(dimension, mass, column);
    switch (which) {
    case 'h': if (answer.refusal == 0 && answer.speed > 0) answer.speed--; break;                /* one too small */
    case 'i': if (answer.refusal == 0) answer.speed++; break;                                    /* one too large */
    case 'q': if (answer.refusal == NB_NONE_FOR_COLUMN) answer.speed = 1; break;                 /* a number under a refusal */
    case 'w': if (answer.refusal != 0 && !is_column(column)) answer.refusal = NB_WANTED_COLUMN; break; /* 20 before 1 and 2 */
    case 'x': if (answer.refusal == NB_WANTED_COLUMN) answer.refusal = NB_NONE_FOR_COLUMN; break; /* another refusal */
    default: break;
    }
    return answer;
}

/* The same of a mass, by capital letters. */
nb_greatest_mass_t __wrap_nb_greatest_mass(uint32_t dimension, uint32_t speed, uint8_t column) {
    char which = fault();
    if (which == 'Y' && dimension == 8000) dimension = 7999; /* the other cut */
    nb_greatest_mass_t answer = __real_nb_greatest_mass(dimension, speed, column);
    switch (which) {
    case 'H': if (answer.refusal == 0) answer.mass--; break;
    case 'I': if (answer.refusal == 0) answer.mass++; break;
    case 'Q': if (answer.refusal == NB_NONE_FOR_COLUMN) answer.mass = 1; break;
    case 'W': if (answer.refusal != 0 && !is_column(column)) answer.refusal = NB_WANTED_COLUMN; break;
    case 'X': if (answer.refusal == NB_WANTED_COLUMN) answer.refusal = NB_NONE_FOR_COLUMN; break;
    default: break;
    }
    return answer;
}
