/* Reads a case file and says in words what its printed frame says.
 *
 *   cc case.c $(pkg-config --cflags --libs nuggetbay) -o case && ./case FILE
 *
 * Ends with 0 where the case is accepted, 1 where it is refused, 2 where the file can't be read or the words can't be written. */
#include <nuggetbay.h>
#include <stdio.h>

/* A printed frame, field by field as the header lists them. */
#define MEMBER(name, digits) unsigned long name;
struct frame { NB_FRAME(MEMBER) };

/* The number in the next digits. */
static unsigned long number(const uint8_t **at, int digits) {
    unsigned long value = 0;
    for (; digits > 0; digits--, (*at)++) value = value * 16 + (**at <= '9' ? **at - '0' : **at - 'a' + 10);
    return value;
}

static struct frame read_frame(const uint8_t *at) {
    struct frame frame;
#define READ(name, digits) frame.name = number(&at, digits);
    NB_FRAME(READ)
    return frame;
}

static const char *const GROUND[] = {
    "",
    "controlled ground",
    "below 5 people per square kilometre",
    "below 50 people per square kilometre",
    "below 500 people per square kilometre",
    "below 5,000 people per square kilometre",
    "below 50,000 people per square kilometre",
    "50,000 people per square kilometre or more",
};

static void say(struct frame f) {
    printf("critical area: %lu to %lu square centimetres\n", f.low, f.high);
    printf("column: %lu%s\n", f.column, f.flag ? ", the exact one may be the column before" : "");
    if (f.size_column != 0) printf("size column: %lu\n", f.size_column);
    else printf("size column: none is large enough\n");
    printf("table row: %lu, %s\n", f.row_used, f.row_used <= 7 ? GROUND[f.row_used] : "");
    printf("most people: in the cell at row %lu, column %lu\n", f.place / NB_MAP_COLUMNS, f.place % NB_MAP_COLUMNS);
    printf("people under the footprint: %lu\n", f.people);
    printf("intrinsic ground risk class: %lu\n", f.intrinsic);
    printf("final ground risk class: %d\n", f.final_class == 255 ? -1 : (int)f.final_class);
}

/* The status, once all is written. */
static int end(int status) {
    if (fflush(stdout) == 0 && !ferror(stdout)) return status;
    fprintf(stderr, "can't write\n");
    return 2;
}

int main(int argc, char **argv) {
    /* one byte more than a text has, so that a longer file is seen to be longer */
    static uint8_t text[NB_TEXT_LENGTH + 1];
    static uint32_t counts[NB_MAP_CELLS];
    static uint64_t marks[NB_MAP_ROWS];
    uint8_t frame[NB_FRAME_LENGTH];
    FILE *file = argc == 2 ? fopen(argv[1], "rb") : NULL;
    size_t length = file == NULL ? 0 : fread(text, 1, sizeof text, file);
    if (file == NULL || ferror(file)) {
        fprintf(stderr, argc == 2 ? "can't read %s\n" : "usage: %s FILE\n", argv[argc == 2]);
        return 2;
    }
    fclose(file);
    uint8_t refusal = nb_case(text, length, counts, NB_MAP_CELLS, marks, NB_MAP_ROWS, frame, sizeof frame);
    if (refusal != NB_ACCEPTED) {
        printf("refusal %u: %s\n", refusal, nb_refusal_message(refusal));
        return end(1);
    }
    say(read_frame(frame));
    return end(0);
}
