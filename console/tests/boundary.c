/* Makes the calls that boundary_calls.py wrote, and compares each answer and every byte of what is lent with what the
 * checker says.
 *
 *   boundary FILE           each call twice: every lent buffer ends where unreadable memory begins, then every one begins where
 *                           unreadable memory ends, or is NULL where its length is 0; what is lent to be read can't be written
 *   boundary --heap FILE    each lent buffer is a malloc of its exact length, and what is lent to be written isn't
 *                           initialised: for valgrind
 */
#define _DEFAULT_SOURCE
#include <nuggetbay.h>
#include <signal.h>
#include <stdarg.h>
#include <stdio.h>
#include <stdlib.h>
#include <string.h>
#include <sys/mman.h>
#include <unistd.h>

enum placement { AT_END, AT_START, HEAP };

static enum placement placement;
static unsigned long calls, accepted;
static char now[64]; /* what is called, for messages */

static void fail(const char *what, ...) {
    va_list args;
    va_start(args, what);
    fprintf(stderr, "boundary: call %lu (%s): ", calls, now);
    vfprintf(stderr, what, args);
    fprintf(stderr, "\n");
    va_end(args);
    _exit(1);
}

static void on_fault(int signal_number) {
    (void)signal_number;
    fail("it touched memory that wasn't lent, or wrote what was lent to be read");
}

/* ---- Lent memory ---- */

#define PATTERN 0xa5

struct arena {
    uint8_t *pages; /* between two unreadable pages */
    size_t size;
    uint8_t *lent;
    size_t length;
    int heap;
};

static struct arena arena_of(size_t most) {
    size_t page = (size_t)sysconf(_SC_PAGESIZE);
    struct arena arena = {0};
    arena.size = (most + page - 1) / page * page;
    uint8_t *all = mmap(NULL, arena.size + 2 * page, PROT_NONE, MAP_PRIVATE | MAP_ANONYMOUS, -1, 0);
    if (all == MAP_FAILED) fail("no memory");
    arena.pages = all + page;
    return arena;
}

static void protect(struct arena *arena, int protection) {
    if (mprotect(arena->pages, arena->size, protection) != 0) fail("mprotect failed");
}

/* Lends a part of this many bytes. With content it is lent to be read; without, it holds a pattern, or is not initialised. */
static void *lend(struct arena *arena, size_t length, const void *content) {
    arena->length = length;
    if (placement == HEAP) {
        /* one byte for a length of 0, which no call may touch */
        arena->lent = malloc(length == 0 ? 1 : length);
        if (arena->lent == NULL) fail("no memory");
        if (content != NULL) memcpy(arena->lent, content, length);
        return arena->lent;
    }
    if (length > arena->size) fail("an arena is too small");
    protect(arena, PROT_READ | PROT_WRITE);
    memset(arena->pages, PATTERN, arena->size);
    arena->lent = placement == AT_END ? arena->pages + arena->size - length : arena->pages;
    if (content != NULL) {
        memcpy(arena->lent, content, length);
        protect(arena, PROT_READ);
    }
    return length == 0 && placement == AT_START ? NULL : arena->lent;
}

static int all_pattern(const uint8_t *bytes, size_t length) {
    for (size_t i = 0; i < length; i++)
        if (bytes[i] != PATTERN) return 0;
    return 1;
}

/* After the call: the first bytes are these, and all others in reach are as they were. */
static void give_back(struct arena *arena, const char *name, const void *first, size_t first_length) {
    if (first_length > arena->length) fail("more is expected in %s than was lent", name);
    if (first_length != 0 && memcmp(arena->lent, first, first_length) != 0) fail("%s holds something else", name);
    if (placement == HEAP) {
        free(arena->lent);
        return;
    }
    size_t before = (size_t)(arena->lent - arena->pages);
    size_t after = before + first_length;
    if (!all_pattern(arena->pages, before) || !all_pattern(arena->pages + after, arena->size - after))
        fail("%s was written where it had to keep its content", name);
}

/* ---- The file of calls ---- */

static FILE *file;

static void take(void *into, size_t length) {
    if (length != 0 && fread(into, 1, length, file) != length) fail("the file of calls ends too early");
}

#define TAKE(type, name) type name; take(&name, sizeof name)

/* ---- The structs, by lists of their fields ---- */

/* Each struct's fields in order: a NUMBER, or a PART that is a struct with a list of its own. */
#define BRACKET(NUMBER, PART) NUMBER(low) NUMBER(high)
#define SHEET(NUMBER, PART) \
    PART(bracket, glide) PART(bracket, run) PART(bracket, saving) PART(bracket, slide) PART(bracket, total) PART(bracket, area) \
    NUMBER(column) NUMBER(flag) NUMBER(size_column)
#define SHEET_ANSWER(NUMBER, PART) NUMBER(refusal) PART(sheet, sheet)
#define HIGH_ANGLE(NUMBER, PART) \
    NUMBER(refusal) NUMBER(column) NUMBER(flag) NUMBER(frontal_area) PART(bracket, joules) PART(bracket, factor) PART(bracket, area)
#define FALL(NUMBER, PART) NUMBER(horizontal) NUMBER(downward) NUMBER(fallen)
#define DESCENT(NUMBER, PART) NUMBER(refusal) NUMBER(above_60) NUMBER(steps) PART(fall, end)
#define GREATEST_SPEED(NUMBER, PART) NUMBER(refusal) NUMBER(speed)
#define GREATEST_MASS(NUMBER, PART) NUMBER(refusal) NUMBER(mass)
#define FOOTPRINT(NUMBER, PART) NUMBER(refusal) NUMBER(row) NUMBER(place) NUMBER(people) NUMBER(cells)
#define INTRINSIC_CLASS(NUMBER, PART) NUMBER(refusal) NUMBER(class_number)
#define FINAL_CLASS(NUMBER, PART) NUMBER(refusal) NUMBER(class_number)
#define ASSESSMENT(NUMBER, PART) \
    NUMBER(refusal) PART(sheet, sheet) PART(footprint, footprint) NUMBER(row_used) NUMBER(intrinsic) NUMBER(final_class)
#define CASE_HEAD(NUMBER, PART) \
    NUMBER(dimension) NUMBER(mass) NUMBER(speed) NUMBER(cell_area) NUMBER(controlled) NUMBER(word)
#define READING(NUMBER, PART) NUMBER(refusal) PART(case_head, head)
#define FRAME_FIELDS(NUMBER, PART) \
    NUMBER(low) NUMBER(high) NUMBER(column) NUMBER(flag) NUMBER(size_column) NUMBER(row_used) NUMBER(place) NUMBER(people) \
    NUMBER(intrinsic) NUMBER(final_class)

/* A number's bytes as a number, whatever its type: two doubles are the same where all their bits are. */
static uint64_t bits(const void *number, size_t size) {
    uint64_t value = 0;
    memcpy(&value, number, size);
    return value;
}

static void same(const char *field, uint64_t got, uint64_t wanted) {
    if (got != wanted) fail("%s is %llu, not %llu", field, (unsigned long long)got, (unsigned long long)wanted);
}

#define TAKE_NUMBER(field) take(&value.field, sizeof value.field);
#define TAKE_PART(part, field) value.field = take_##part();
#define SAME_NUMBER(field) same(#field, bits(&got->field, sizeof got->field), bits(&wanted->field, sizeof wanted->field));
#define SAME_PART(part, field) same_##part(&got->field, &wanted->field);

/* take_NAME reads a struct from the file, where it has no gaps; same_NAME compares two, field by field, since they have gaps. */
#define STRUCT(name, FIELDS) \
    static inline nb_##name##_t take_##name(void) { \
        nb_##name##_t value; \
        FIELDS(TAKE_NUMBER, TAKE_PART) \
        return value; \
    } \
    static inline void same_##name(const nb_##name##_t *got, const nb_##name##_t *wanted) { FIELDS(SAME_NUMBER, SAME_PART) }

STRUCT(bracket, BRACKET)
STRUCT(sheet, SHEET)
STRUCT(sheet_answer, SHEET_ANSWER)
STRUCT(high_angle, HIGH_ANGLE)
STRUCT(fall, FALL)
STRUCT(descent, DESCENT)
STRUCT(greatest_speed, GREATEST_SPEED)
STRUCT(greatest_mass, GREATEST_MASS)
STRUCT(footprint, FOOTPRINT)
STRUCT(intrinsic_class, INTRINSIC_CLASS)
STRUCT(final_class, FINAL_CLASS)
STRUCT(assessment, ASSESSMENT)
STRUCT(case_head, CASE_HEAD)
STRUCT(reading, READING)
STRUCT(frame_fields, FRAME_FIELDS)

/* ---- The lent buffers, by a list ---- */

/* The buffers of a map, in the order in which they are lent: name, type of an element, right length. */
#define MAP_BUFFERS(BUFFER) BUFFER(counts, uint32_t, NB_MAP_CELLS) BUFFER(marks, uint64_t, NB_MAP_ROWS)

/* What an accepted reading leaves, and the map that is lent to be read, which may be lent with one element more. */
#define DECLARE(name, type, right) \
    static struct arena name##_arena; \
    static type read_##name[right], map_##name[(right) + 1];
MAP_BUFFERS(DECLARE)
static struct arena text_arena, frame_arena;
static uint8_t text[NB_TEXT_LENGTH + 1];

#define TAKE_LENGTH(name, type, right) TAKE(uint32_t, name##_len);
#define LEND_WRITTEN(name, type, right) type *name = lend(&name##_arena, sizeof(type) * name##_len, NULL);
#define LEND_READ(name, type, right) const type *name = lend(&name##_arena, sizeof(type) * name##_len, map_##name);
#define FIRST(name, type, right) name, name##_len,
#define NEXT(name, type, right) , name, name##_len
#define GIVE_BACK_FILLED(name, type, right) give_back(&name##_arena, #name, read_##name, filled ? sizeof read_##name : 0);
#define GIVE_BACK_READ(name, type, right) give_back(&name##_arena, #name, map_##name, sizeof(type) * name##_len);
#define TAKE_READ(name, type, right) take(read_##name, sizeof read_##name);
#define TAKE_MAP(name, type, right) take(map_##name, sizeof map_##name);
#define MAKE_ARENA(name, type, right) name##_arena = arena_of(sizeof map_##name);

/* ---- The calls ---- */

static void starts(const char *name, uint8_t refusal) {
    snprintf(now, sizeof now, "%s, refusal %u expected", name, refusal);
    calls++;
    accepted += refusal == 0;
}

/* Runs once for each placement that is tried. */
#define EACH_PLACEMENT(heap) for (placement = (heap) ? HEAP : AT_END; placement <= ((heap) ? HEAP : AT_START); placement++)

/* What is written of a frame: its length, then the bytes. */
static uint8_t written[NB_FRAME_LENGTH], written_len;

static void take_written(void) {
    take(&written_len, 1);
    if (written_len > sizeof written) fail("more is written than a frame has");
    take(written, written_len);
}

static void call_case(int heap) {
    TAKE(uint32_t, text_len);
    MAP_BUFFERS(TAKE_LENGTH)
    TAKE(uint32_t, frame_len);
    TAKE(uint8_t, answer);
    TAKE(uint8_t, filled);
    take_written();
    EACH_PLACEMENT(heap) {
        starts("nb_case", answer);
        const uint8_t *t = lend(&text_arena, text_len, text);
        MAP_BUFFERS(LEND_WRITTEN)
        uint8_t *frame = lend(&frame_arena, frame_len, NULL);
        same("answer", nb_case(t, text_len MAP_BUFFERS(NEXT), frame, frame_len), answer);
        give_back(&text_arena, "the text", text, text_len);
        MAP_BUFFERS(GIVE_BACK_FILLED)
        give_back(&frame_arena, "the frame buffer", written, written_len);
    }
}

static void call_reading(int heap) {
    TAKE(uint32_t, text_len);
    MAP_BUFFERS(TAKE_LENGTH)
    nb_reading_t wanted = take_reading();
    int filled = wanted.refusal == 0;
    EACH_PLACEMENT(heap) {
        starts("nb_read_case", wanted.refusal);
        const uint8_t *t = lend(&text_arena, text_len, text);
        MAP_BUFFERS(LEND_WRITTEN)
        nb_reading_t got = nb_read_case(t, text_len MAP_BUFFERS(NEXT));
        same_reading(&got, &wanted);
        give_back(&text_arena, "the text", text, text_len);
        MAP_BUFFERS(GIVE_BACK_FILLED)
    }
}

static void call_footprint(int heap) {
    MAP_BUFFERS(TAKE_LENGTH)
    TAKE(uint32_t, cell_area);
    nb_footprint_t wanted = take_footprint();
    EACH_PLACEMENT(heap) {
        starts("nb_footprint", wanted.refusal);
        MAP_BUFFERS(LEND_READ)
        nb_footprint_t got = nb_footprint(MAP_BUFFERS(FIRST) cell_area);
        same_footprint(&got, &wanted);
        MAP_BUFFERS(GIVE_BACK_READ)
    }
}

static void call_assessment(int heap) {
    TAKE(uint32_t, dimension);
    TAKE(uint32_t, mass);
    TAKE(uint32_t, speed);
    MAP_BUFFERS(TAKE_LENGTH)
    TAKE(uint32_t, cell_area);
    TAKE(uint8_t, controlled);
    TAKE(uint16_t, word);
    nb_assessment_t wanted = take_assessment();
    EACH_PLACEMENT(heap) {
        starts("nb_assess", wanted.refusal);
        MAP_BUFFERS(LEND_READ)
        nb_assessment_t got = nb_assess(dimension, mass, speed MAP_BUFFERS(NEXT), cell_area, controlled, word);
        same_assessment(&got, &wanted);
        MAP_BUFFERS(GIVE_BACK_READ)
    }
}

static void call_sheet(void) {
    TAKE(uint32_t, dimension);
    TAKE(uint32_t, mass);
    TAKE(uint32_t, speed);
    nb_sheet_answer_t wanted = take_sheet_answer();
    starts("nb_sheet", wanted.refusal);
    nb_sheet_answer_t got = nb_sheet(dimension, mass, speed);
    same_sheet_answer(&got, &wanted);
}

static void call_high_angle(void) {
    TAKE(uint32_t, dimension);
    TAKE(uint32_t, mass);
    TAKE(uint32_t, speed);
    nb_high_angle_t wanted = take_high_angle();
    starts("nb_high_angle", wanted.refusal);
    nb_high_angle_t got = nb_high_angle(dimension, mass, speed);
    same_high_angle(&got, &wanted);
}

static void call_descent(void) {
    TAKE(uint32_t, dimension);
    TAKE(uint32_t, mass);
    TAKE(uint32_t, speed);
    TAKE(uint32_t, height);
    TAKE(uint32_t, budget);
    nb_descent_t wanted = take_descent();
    starts("nb_descent", wanted.refusal);
    nb_descent_t got = nb_descent(dimension, mass, speed, height, budget);
    same_descent(&got, &wanted);
}

static void call_greatest_speed(void) {
    TAKE(uint32_t, dimension);
    TAKE(uint32_t, mass);
    TAKE(uint8_t, column);
    nb_greatest_speed_t wanted = take_greatest_speed();
    starts("nb_greatest_speed", wanted.refusal);
    nb_greatest_speed_t got = nb_greatest_speed(dimension, mass, column);
    same_greatest_speed(&got, &wanted);
}

static void call_greatest_mass(void) {
    TAKE(uint32_t, dimension);
    TAKE(uint32_t, speed);
    TAKE(uint8_t, column);
    nb_greatest_mass_t wanted = take_greatest_mass();
    starts("nb_greatest_mass", wanted.refusal);
    nb_greatest_mass_t got = nb_greatest_mass(dimension, speed, column);
    same_greatest_mass(&got, &wanted);
}

static void call_intrinsic_class(void) {
    TAKE(uint8_t, column);
    TAKE(uint8_t, row);
    TAKE(uint8_t, controlled);
    nb_intrinsic_class_t wanted = take_intrinsic_class();
    starts("nb_intrinsic_class", wanted.refusal);
    nb_intrinsic_class_t got = nb_intrinsic_class(column, row, controlled);
    same_intrinsic_class(&got, &wanted);
}

static void call_final_class(void) {
    TAKE(uint8_t, column);
    TAKE(uint8_t, class_number);
    TAKE(uint16_t, word);
    nb_final_class_t wanted = take_final_class();
    starts("nb_final_class", wanted.refusal);
    nb_final_class_t got = nb_final_class(column, class_number, word);
    same_final_class(&got, &wanted);
}

static void call_frame(int heap) {
    TAKE(uint8_t, refusal);
    nb_frame_fields_t fields = take_frame_fields();
    TAKE(uint32_t, frame_len);
    TAKE(uint8_t, answer);
    take_written();
    EACH_PLACEMENT(heap) {
        starts("nb_write_frame", answer);
        uint8_t *f = lend(&frame_arena, frame_len, NULL);
        same("answer", nb_write_frame(refusal, fields, f, frame_len), answer);
        give_back(&frame_arena, "the frame buffer", written, written_len);
    }
}

static void take_text(void) {
    TAKE(uint32_t, length);
    if (length > sizeof text) fail("a text is too long");
    take(text, length);
}

static void make_all_calls(int heap) {
    for (;;) {
        TAKE(uint8_t, letter);
        switch (letter) {
        case 'T': take_text(); break;
        case 'R': MAP_BUFFERS(TAKE_READ) break;
        case 'M': MAP_BUFFERS(TAKE_MAP) break;
        case 'C': call_case(heap); break;
        case 'L': call_reading(heap); break;
        case 'F': call_footprint(heap); break;
        case 'A': call_assessment(heap); break;
        case 'S': call_sheet(); break;
        case 'H': call_high_angle(); break;
        case 'D': call_descent(); break;
        case 'G': call_greatest_speed(); break;
        case 'J': call_greatest_mass(); break;
        case 'I': call_intrinsic_class(); break;
        case 'K': call_final_class(); break;
        case 'W': call_frame(heap); break;
        case 'E': return;
        default: fail("the file of calls has an unknown record");
        }
    }
}

int main(int argc, char **argv) {
    int heap = argc == 3 && strcmp(argv[1], "--heap") == 0;
    if (argc != 2 && !heap) {
        fprintf(stderr, "usage: boundary [--heap] FILE\n");
        return 2;
    }
    file = fopen(argv[argc - 1], "rb");
    if (file == NULL) {
        perror(argv[argc - 1]);
        return 2;
    }
    signal(SIGSEGV, on_fault);
    signal(SIGBUS, on_fault);
    MAP_BUFFERS(MAKE_ARENA)
    text_arena = arena_of(sizeof text);
    frame_arena = arena_of(2 * NB_FRAME_LENGTH);
    make_all_calls(heap);
    printf("%lu calls, %lu accepted: every answer and every lent byte as the checker says%s\n", calls, accepted,
           heap ? "" : ", nothing touched beyond what was lent");
    return 0;
}
