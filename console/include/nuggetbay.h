/* nuggetbay: the proved ground risk sheet (SORA 2.5), for C and C++ on x86-64 Linux (x86-64-v2).
 *
 * From an aircraft, a map of head counts and the flight's footprint to the critical area, the intrinsic and the final
 * ground risk class. Link with -lnuggetbay, or with libnuggetbay.a; beside it only the C library's memcpy is needed.
 *
 * For every function here:
 *   - Every call is answered, also a wrong one: what is out of range is refused by a number (enum nb_refusal), and there is
 *     no number and no length that must not be passed. Refusals are tested in the order in which they are listed at the
 *     function.
 *   - Memory is lent for the time of the call: a pointer, then its length in elements (not in bytes). The pointer must be
 *     aligned for its type and the whole length must be there; with length 0 it isn't looked at, and may be NULL. Buffers
 *     lent to one call must not overlap, unless all that overlap are const. Nothing outside what is lent is read or written,
 *     and nothing is kept after the call.
 *   - Nothing is allocated, locked or called back. Any number of threads may call at once, each with its own buffers.
 *   - The stack must have room for the call (NB_.._STACK below): a full one would end the program, and no function can refuse
 *     that.
 */
#ifndef NUGGETBAY_H
#define NUGGETBAY_H

#include <stddef.h>
#include <stdint.h>

#ifdef __cplusplus
extern "C" {
#endif

/* ---- Version ---- */

/* The version of this header: the major number grows where an old signature or struct changes, the minor one where something
 * is new or an old function answers otherwise. A library serves a program that was built with this header where its major number is
 * the same and nb_version() is at least NB_VERSION. */
#define NB_VERSION_MAJOR 3
#define NB_VERSION_MINOR 4
#define NB_VERSION_PATCH 0
#define NB_VERSION (NB_VERSION_MAJOR * 10000 + NB_VERSION_MINOR * 100 + NB_VERSION_PATCH)

/* NB_VERSION of the library that the program runs with. */
uint32_t nb_version(void);

/* ---- Stack ---- */

/* The bytes of stack that a call takes at most below the caller's own frame (which has the arguments that are passed on the
 * stack), its return address among them, as read from the library's machine code. Of memcpy, which nb_assess, nb_read_case and
 * nb_case call, the return address is counted. This is so once names are bound: in a program that is linked with -Wl,-z,now or
 * statically, or runs with LD_BIND_NOW=1. Elsewhere the first call binds a name, which took some 3,100 bytes more where it was
 * tried. */
#define NB_SHEET_STACK 64u
#define NB_HIGH_ANGLE_STACK 40u
#define NB_DESCENT_STACK 312u
#define NB_GREATEST_SPEED_STACK 8u
#define NB_GREATEST_MASS_STACK 8u
#define NB_FOOTPRINT_STACK 88u
#define NB_INTRINSIC_CLASS_STACK 8u
#define NB_FINAL_CLASS_STACK 56u
#define NB_ASSESS_STACK 312u
#define NB_READ_CASE_STACK 840u
#define NB_WRITE_FRAME_STACK 8u
#define NB_CASE_STACK 1016u
#define NB_REFUSAL_MESSAGE_STACK 8u
#define NB_VERSION_STACK 8u

/* ---- Lengths ---- */

/* A map is 64 rows of 64 cells, row 0 north, column 0 west, row after row: the cell at row r and column c is number
 * NB_MAP_COLUMNS * r + c. Each cell has a head count. A footprint is one number for each map row. The highest bit is the
 * westernmost cell; a set bit marks a cell as flown over. */
#define NB_MAP_ROWS 64u
#define NB_MAP_COLUMNS 64u
#define NB_MAP_CELLS 4096u

/* A case text: line 1, then a line for each footprint row, then a line for each map row, of its counts. All digits are
 * lower-case hexadecimal, and each line ends with byte 10. These are the fields of line 1 with their digits, in order, the
 * digits of a footprint row, of a count, and the bytes of the whole text. */
#define NB_LINE_1(FIELD) \
    FIELD(dimension, 8) FIELD(mass, 8) FIELD(speed, 8) FIELD(cell_area, 8) FIELD(controlled, 2) FIELD(word, 4)
#define NB_MARK_DIGITS 16u
#define NB_COUNT_DIGITS 8u
#define NB_TEXT_LENGTH 33959u

/* A printed frame: its fields with their digits, in order, and its bytes, the line end among them. A printed refusal is the
 * first field and a line end. */
#define NB_FRAME(FIELD) \
    FIELD(refusal, 2) FIELD(low, 8) FIELD(high, 8) FIELD(column, 2) FIELD(flag, 2) FIELD(size_column, 2) FIELD(row_used, 2) \
    FIELD(place, 4) FIELD(people, 8) FIELD(intrinsic, 2) FIELD(final_class, 2)
#define NB_FRAME_LENGTH 43u
#define NB_REFUSAL_LENGTH 3u

/* ---- Refusals ---- */

/* Why a call is refused: number, name, and which value was wrong and what is allowed. */
#define NB_REFUSALS(R) \
    R(1, NB_DIMENSION, "dimension out of range: 50 to 100,000 mm is allowed") \
    R(2, NB_MASS, "mass out of range: 50 to 25,000,000 g is allowed") \
    R(3, NB_SPEED, "speed out of range: 0 to 40,000 cm/s is allowed") \
    R(4, NB_AREA, "critical area too large: at most 650,000,000 square centimetres is allowed") \
    R(5, NB_BUFFER_LENGTH, "wrong buffer length: 4,096 counts and 64 footprint rows are needed") \
    R(6, NB_CELL_AREA, "cell area out of range: 100 to 25,000,000 square metres is allowed") \
    R(7, NB_COUNT, "a head count is too large: at most 1,000,000 people a cell is allowed") \
    R(8, NB_NO_CELL, "empty footprint: at least one marked cell is needed") \
    R(9, NB_CLASS_INPUT, "wrong class table input: column 1 to 5, row 2 to 7, controlled mark 0 or 1 and a class of the column are allowed") \
    R(10, NB_NO_CLASS, "the class table has no class for this row and column: row 7 is allowed in columns 1 and 2 only") \
    R(11, NB_MITIGATION, "mitigation digit not offered: M1(A) 0 to 2, M1(B) 0, 2 or 3, M1(C) 0 or 1, M2 0, 2 or 3 is allowed") \
    R(12, NB_FINAL_CLASS, "final class too high: at most 7 is allowed") \
    R(13, NB_TEXT_SIZE, "wrong text length: 33,959 bytes are needed") \
    R(14, NB_TEXT_BYTE, "wrong byte in the text: lower-case hexadecimal digits, and byte 10 at the end of each line, are allowed") \
    R(15, NB_FRAME_SIZE, "frame buffer too short: at least 43 bytes are needed") \
    R(16, NB_FRONTAL_DIMENSION, "no frontal area for this dimension: 1,000 to 40,000 mm is allowed") \
    R(17, NB_HEIGHT_OR_BUDGET, "height or step budget out of range: 1 to 50,000 cm and 1 to 20,000 steps are allowed") \
    R(18, NB_BUDGET_SPENT, "step budget spent before the ground is reached: more steps are needed, at most 20,000 are allowed") \
    R(19, NB_NEGATIVE_SPEED, "a step makes a speed negative: too light for its frontal area and speed, more mass or less speed is needed for steps of 0.01 s") \
    R(20, NB_WANTED_COLUMN, "wanted column out of range: 1 to 5 is allowed") \
    R(21, NB_NONE_FOR_COLUMN, "no speed or mass in range gives this column or a lower one: a higher column, a smaller dimension or, for a mass, less speed is needed")

#define NB_REFUSAL_NUMBER(number, name, message) name = number,
enum nb_refusal { NB_REFUSALS(NB_REFUSAL_NUMBER) NB_ACCEPTED = 0 };
#undef NB_REFUSAL_NUMBER

/* The refusal in words, "not refused" for 0: a text that stays where it is as long as the library does. */
const char *nb_refusal_message(uint8_t refusal);

/* ---- The aircraft and its area ---- */

/* A figure: a number at most the exact one, and a number at least the exact one. */
typedef struct {
    uint64_t low;
    uint64_t high;
} nb_bracket_t;

/* Lines 1 to 6 of the sheet, the column of the class table, the flag and the size column.
 *
 * The area is the whole total from 8,000 mm up, six tenths of it from 1,000 mm up, and below 1,000 mm its glide and half its circle,
 * without slide.
 *
 * The size column is the first of five whose dimension and speed are both at least the aircraft's: 1,000 mm and 2,500 cm/s;
 * 3,000 and 3,500; 8,000 and 7,500; 20,000 and 12,000; 40,000 and 20,000. It is there to be shown, so that crews can see why
 * the area route was taken: where it is higher than the column, or 0, dimension and speed alone would give a higher column, or
 * none. Where one of the five is large enough, refusal 4 never comes and the column is at most the size column, except at exactly
 * 1,000 and 8,000 mm, where it may be one above. The class comes from the area's column, never from the size column. */
typedef struct {
    nb_bracket_t glide;  /* micrometres */
    nb_bracket_t run;    /* micrometres */
    nb_bracket_t saving; /* micrometres */
    nb_bracket_t slide;  /* micrometres */
    nb_bracket_t total;  /* thousandths of a square millimetre */
    nb_bracket_t area;   /* the critical area, square centimetres */
    uint8_t column;      /* 1 to 5, from the high area */
    uint8_t flag;        /* 1 where the low area lies within the column before, so that the exact column may be that one; else 0 */
    uint8_t size_column; /* 1 to 5; 0 where none of the five is large enough, and where refused */
} nb_sheet_t;

typedef struct {
    uint8_t refusal;
    nb_sheet_t sheet; /* all zeros where refused */
} nb_sheet_answer_t;

/* The sheet of an aircraft: its maximum characteristic dimension in mm (50 to 100,000), maximum take-off mass in g (50 to
 * 25,000,000) and maximum cruise speed in cm/s (0 to 40,000).
 * Refusals: 1, 2, 3, 4. */
nb_sheet_answer_t nb_sheet(uint32_t dimension, uint32_t mass, uint32_t speed);

/* ---- The high impact angle model ---- */

/* The critical area by the high impact angle model, chapter 5 of the EASA guideline: a circle of radius D = 0.3 m + half the
 * dimension, 3.14 x D x D, times a safety factor that comes from the energy of a fall at terminal speed.
 *
 * The guideline has this model for rotorcraft and multirotors only, not for hybrids with wings, and only where the aircraft
 * strikes the ground at an angle above 60 degrees, falling from the lowest operating height at the greatest speed. nb_descent
 * judges the angle; no function judges what kind of aircraft it is. Where one of them doesn't hold, the area is nb_sheet's. */
typedef struct {
    uint8_t refusal;
    uint8_t column;        /* 1 to 5, from the high area, as on the sheet */
    uint8_t flag;          /* 1 where the low area lies within the column before, as on the sheet; else 0 */
    uint64_t frontal_area; /* square millimetres: in straight lines between 100,000 at 1,000 mm, 500,000 at 3,000, 2,500,000 at
                              8,000, 12,500,000 at 20,000 and 25,000,000 at 40,000, rounded down */
    nb_bracket_t joules;   /* the energy at terminal speed, joules, in air of 1.225 kg per cubic metre with a drag coefficient of 0.8 */
    nb_bracket_t factor;   /* the safety factor, thousandths: 2,300 below 12,000 J, 7,000 above 3,125,000 J, between them 1,400
                              times the fifth root of the energy in kJ; each by its own joules */
    nb_bracket_t area;     /* the critical area, square centimetres */
} nb_high_angle_t;         /* all zeros but the refusal where refused */

/* The high impact angle model of an aircraft: its maximum characteristic dimension in mm (1,000 to 40,000), maximum take-off mass
 * in g (50 to 25,000,000) and maximum cruise speed in cm/s (0 to 40,000), which is judged for its range only: no figure depends on
 * it. The exact area, with the exact energy from this frontal area, lies in the bracket, which is no wider than one part in 500 of
 * the high area plus 2 square centimetres.
 * Refusals: 1, 2, 3 as nb_sheet (1 for a dimension outside 50 to 100,000), then 16. Refusal 4 never occurs: no area of this model
 * is above the last limit. */
nb_high_angle_t nb_high_angle(uint32_t dimension, uint32_t mass, uint32_t speed);

/* ---- The descent ---- */

/* The greatest height of a descent in cm, and its largest step budget. */
#define NB_HEIGHT_MOST 50000u
#define NB_BUDGET_MOST 20000u

/* A state of a fall. */
typedef struct {
    double horizontal; /* the horizontal speed, m/s */
    double downward;   /* the downward speed, m/s */
    double fallen;     /* the distance fallen, m */
} nb_fall_t;

/* The fall of an aircraft from its operating height to the ground, annex 1 of the EASA guideline, in steps of 0.01 s: gravity of
 * 9.81 m/s^2, and drag in air of 1.225 kg per cubic metre with a drag coefficient of 0.8 on nb_high_angle's frontal area.
 *
 * The verdict is the guideline's condition for the high impact angle model where the height is the lowest operating height and the
 * speed the greatest one. That height is then a limitation in the operator's manual. */
typedef struct {
    uint8_t refusal;
    uint8_t above_60; /* 1 where the end state's angle is above 60 degrees: downward speed squared exceeds 3 times horizontal speed
                         squared; else 0 */
    uint32_t steps;   /* the number of states made after the first, 1 to the budget: the fall takes that many times 0.01 s */
    nb_fall_t end;    /* the first state whose distance fallen is at least the height */
} nb_descent_t;       /* all zeros but the refusal where refused */

/* The descent of an aircraft: its maximum characteristic dimension in mm (1,000 to 40,000), maximum take-off mass in g (50 to
 * 25,000,000) and maximum cruise speed in cm/s (0 to 40,000), which is the horizontal speed of the first state; the height in cm
 * (1 to NB_HEIGHT_MOST); and the step budget, the most steps that may be made (1 to NB_BUDGET_MOST). The budget bounds the time of
 * the call and changes no answer that is given: who has none in mind passes NB_BUDGET_MOST, which is a fall of 200 s.
 *
 * Each operation is one of IEEE binary64, rounded to nearest, in the order that document 02 says and none fused with another, so
 * that an answer is the same bits on every machine that computes so. The processor must be in the floating-point mode in which a
 * C program starts: rounding to nearest, subnormal numbers kept, no traps.
 * Refusals: 1, 2, 3, 16 as nb_high_angle; 17 where the height or the budget is out of range; then at each new state 19, where a
 * speed is negative, before it is held to the height; 18 where the state after the whole budget is still short of the height. */
nb_descent_t nb_descent(uint32_t dimension, uint32_t mass, uint32_t speed, uint32_t height, uint32_t budget);

/* ---- The greatest speed and the greatest mass for a column ---- */

/* The trade-off that Annex F, section 1.7.4, makes by tables, made for one aircraft by the sheet's own model: how fast it may fly, or
 * how heavy it may be, for its sheet to have a column that is wanted, or a lower one. The answer is the greatest number in range for which nb_sheet accepts the aircraft with a column at most the
 * wanted one. Every smaller number in range passes too, and no larger one does: an upper limit for the operator's manual.
 *
 * The column is that of nb_sheet's glide model, from the high area; the high impact angle model has no part in it. Where the area has
 * no slide, below 1,000 mm, it depends on neither speed nor mass, and every column answers the greatest number in range. */
typedef struct {
    uint8_t refusal;
    uint32_t speed; /* cm/s, 0 to 40,000; 0 where refused, so look at the refusal first */
} nb_greatest_speed_t;

typedef struct {
    uint8_t refusal;
    uint32_t mass; /* g, 50 to 25,000,000; 0 where refused */
} nb_greatest_mass_t;

/* The greatest speed of an aircraft: its maximum characteristic dimension in mm (50 to 100,000), maximum take-off mass in g (50 to
 * 25,000,000), and the wanted column (1 to 5).
 * On the way a square root is taken of a floating-point number, and held to its square in whole numbers: the processor must be in the
 * floating-point mode that nb_descent asks for.
 * Refusals: 1, 2 as nb_sheet; 20; 21 exactly where no speed in range passes, which is where 0 doesn't. */
nb_greatest_speed_t nb_greatest_speed(uint32_t dimension, uint32_t mass, uint8_t column);

/* The greatest mass of an aircraft: its maximum characteristic dimension in mm (50 to 100,000), maximum cruise speed in cm/s (0 to
 * 40,000), and the wanted column (1 to 5).
 * Refusals: 1, 3 as nb_sheet; 20; 21 exactly where no mass in range passes, which is where 50 g don't. */
nb_greatest_mass_t nb_greatest_mass(uint32_t dimension, uint32_t speed, uint8_t column);

/* ---- The footprint on the map ---- */

typedef struct {
    uint8_t refusal;
    uint8_t row;     /* the highest table row of a marked cell, 2 (below 5 people per square kilometre) to 7 (50,000 and more) */
    uint32_t place;  /* the first marked cell with the largest count, NB_MAP_COLUMNS * row + column */
    uint64_t people; /* the people in marked cells */
    uint32_t cells;  /* the number of marked cells */
} nb_footprint_t;    /* all zeros but the refusal where refused */

/* The footprint on a lent map: NB_MAP_CELLS counts (0 to 1,000,000 people each), NB_MAP_ROWS footprint rows, and the area of
 * one cell in square metres (100 to 25,000,000). Both buffers are only read.
 * Refusals: 5, 6, 7, 8. */
nb_footprint_t nb_footprint(const uint32_t *counts, size_t counts_len, const uint64_t *marks, size_t marks_len,
                            uint32_t cell_area);

/* ---- The class table and the mitigation word ---- */

typedef struct {
    uint8_t refusal;
    uint8_t class_number; /* 1 to 10; 0 where refused */
} nb_intrinsic_class_t;

/* The intrinsic ground risk class: column (1 to 5), which is the sheet's column and not its size column, row (2 to 7) of the
 * footprint, controlled mark: 1 puts row 1 (controlled ground) in place of the row, 0 keeps it.
 * Refusals: 9, 10. */
nb_intrinsic_class_t nb_intrinsic_class(uint8_t column, uint8_t row, uint8_t controlled);

typedef struct {
    uint8_t refusal;
    int8_t class_number; /* -1 to 7; 0 where refused, so look at the refusal first */
} nb_final_class_t;

/* The final ground risk class after mitigation: column (1 to 5, the sheet's column), intrinsic class (an entry of that column)
 * and the mitigation word, whose four hexadecimal digits are M1(A), M1(B), M1(C), M2, with 0 none, 1 low, 2 medium, 3 high: 0x2212
 * is M1(A) medium, M1(B) medium, M1(C) low, M2 medium. Offered are M1(A) 0 to 2, M1(B) 0, 2, 3, M1(C) 0, 1, M2 0, 2, 3.
 * Refusals: 9, 11, 12. */
nb_final_class_t nb_final_class(uint8_t column, uint8_t class_number, uint16_t word);

/* ---- Sheet, footprint and both classes over a lent map ---- */

typedef struct {
    uint8_t refusal;
    nb_sheet_t sheet;
    nb_footprint_t footprint; /* its own refusal is 0 */
    uint8_t row_used;         /* the class table's row: 1 on controlled ground, else the footprint's */
    uint8_t intrinsic;
    int8_t final_class;
} nb_assessment_t;            /* all zeros but the refusal where refused */

/* The arguments are those of nb_sheet, nb_footprint, nb_intrinsic_class and nb_final_class. Both buffers are only read.
 * Refusals: 1 to 12, those of the sheet first, then the footprint's, the class table's, the mitigation word's. */
nb_assessment_t nb_assess(uint32_t dimension, uint32_t mass, uint32_t speed, const uint32_t *counts, size_t counts_len,
                          const uint64_t *marks, size_t marks_len, uint32_t cell_area, uint8_t controlled, uint16_t word);

/* ---- Case text and printed frame ---- */

/* Line 1 of a case text, in the units of the functions above. The reading judges no ranges. */
typedef struct {
    uint32_t dimension;
    uint32_t mass;
    uint32_t speed;
    uint32_t cell_area;
    uint8_t controlled;
    uint16_t word;
} nb_case_head_t;

typedef struct {
    uint8_t refusal;
    nb_case_head_t head; /* all zeros where refused */
} nb_reading_t;

/* Reads a case text (NB_TEXT_LENGTH bytes, only read) into NB_MAP_CELLS counts and NB_MAP_ROWS footprint rows. Where the
 * reading is refused, both buffers keep their content.
 * Refusals: 13, 5, 14. */
nb_reading_t nb_read_case(const uint8_t *text, size_t text_len, uint32_t *counts, size_t counts_len, uint64_t *marks,
                          size_t marks_len);

/* The fields of a printed frame after its refusal, in its order; NB_FRAME has their digits. Of a number that has more digits
 * than its field, the last digits are printed; no accepted case has one. */
typedef struct {
    uint64_t low;        /* the low critical area */
    uint64_t high;       /* the high critical area */
    uint8_t column;
    uint8_t flag;
    uint8_t size_column; /* the sheet's, shown only; 0 where none is large enough */
    uint8_t row_used;    /* the class table's row that was used */
    uint32_t place;
    uint64_t people;
    uint8_t intrinsic;
    int8_t final_class;  /* a negative class is printed ff */
} nb_frame_fields_t;

/* Writes a frame into a buffer of at least NB_FRAME_LENGTH bytes: with refusal 0 the digits 00, the fields and a line end,
 * NB_FRAME_LENGTH bytes; else the refusal's two digits and a line end, NB_REFUSAL_LENGTH bytes. The bytes after the last one
 * written keep their content, and all do where the writing is refused. Answers 0, or the refusal.
 * Refusal: 15. */
uint8_t nb_write_frame(uint8_t refusal, nb_frame_fields_t fields, uint8_t *frame, size_t frame_len);

/* The whole case: reads the text, assesses it, and prints the frame. Answers the refusal, 0 where there is none.
 *
 * counts and marks are filled where the reading succeeds, also when a later refusal is printed, and keep their content
 * where it doesn't. Of the frame the first NB_FRAME_LENGTH bytes are written, or the first NB_REFUSAL_LENGTH where the case is
 * refused. Under refusal 15, tested first, all three buffers keep their content.
 * Refusals: 15, 13, 5, 14, then 1 to 12 as nb_assess. */
uint8_t nb_case(const uint8_t *text, size_t text_len, uint32_t *counts, size_t counts_len, uint64_t *marks,
                size_t marks_len, uint8_t *frame, size_t frame_len);

/* The layout that the library was built with, and the sums of the lists above. */
#if defined(__cplusplus) && __cplusplus >= 201103L
#define NB_ASSERT(condition, name) static_assert(condition, #name)
#elif defined(__STDC_VERSION__) && __STDC_VERSION__ >= 201112L
#define NB_ASSERT(condition, name) _Static_assert(condition, #name)
#else
#define NB_ASSERT(condition, name) typedef char nb_assert_##name[(condition) ? 1 : -1]
#endif
NB_ASSERT(sizeof(nb_bracket_t) == 16, bracket_size);
NB_ASSERT(sizeof(nb_sheet_t) == 104, sheet_size);
NB_ASSERT(sizeof(nb_sheet_answer_t) == 112, sheet_answer_size);
NB_ASSERT(sizeof(nb_high_angle_t) == 64, high_angle_size);
NB_ASSERT(sizeof(nb_fall_t) == 24, fall_size);
NB_ASSERT(sizeof(nb_descent_t) == 32, descent_size);
NB_ASSERT(sizeof(nb_greatest_speed_t) == 8, greatest_speed_size);
NB_ASSERT(sizeof(nb_greatest_mass_t) == 8, greatest_mass_size);
NB_ASSERT(sizeof(nb_footprint_t) == 24, footprint_size);
NB_ASSERT(sizeof(nb_intrinsic_class_t) == 2, intrinsic_class_size);
NB_ASSERT(sizeof(nb_final_class_t) == 2, final_class_size);
NB_ASSERT(sizeof(nb_assessment_t) == 144, assessment_size);
NB_ASSERT(sizeof(nb_case_head_t) == 20, case_head_size);
NB_ASSERT(sizeof(nb_reading_t) == 24, reading_size);
NB_ASSERT(sizeof(nb_frame_fields_t) == 40, frame_fields_size);
#define NB_DIGITS(name, digits) + digits
NB_ASSERT(NB_MAP_CELLS == NB_MAP_ROWS * NB_MAP_COLUMNS, map_cells);
NB_ASSERT(NB_TEXT_LENGTH == 0u NB_LINE_1(NB_DIGITS) + 1 + NB_MAP_ROWS * (NB_MARK_DIGITS + 1)
                                + NB_MAP_ROWS * (NB_MAP_COLUMNS * NB_COUNT_DIGITS + 1), text_length);
NB_ASSERT(NB_FRAME_LENGTH == 0u NB_FRAME(NB_DIGITS) + 1, frame_length);
#undef NB_DIGITS
#undef NB_ASSERT

#ifdef __cplusplus
}
#endif

#endif
