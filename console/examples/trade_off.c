/* Says in words how fast an aircraft may fly, or how heavy it may be, for its sheet to have a column or a lower one.
 *
 *   cc trade_off.c $(pkg-config --cflags --libs nuggetbay) -o trade_off
 *   ./trade_off speed DIMENSION MASS COLUMN
 *   ./trade_off mass DIMENSION SPEED COLUMN
 *
 * The maximum characteristic dimension is in mm, the maximum take-off mass in g, the maximum cruise speed in cm/s. Ends with 0 where
 * there is a greatest one, 1 where it is refused, 2 where an argument is wrong or the words can't be written. */
#include <nuggetbay.h>
#include <stdio.h>
#include <string.h>

/* Whether an argument is a number of digits alone, of 32 bits; it is the value then. */
static int is_number(const char *argument, uint32_t *value) {
    uint64_t number = 0;
    if (*argument == '\0') return 0;
    for (; *argument != '\0'; argument++) {
        if (*argument < '0' || *argument > '9') return 0;
        number = number * 10 + (uint64_t)(*argument - '0');
        if (number > UINT32_MAX) return 0;
    }
    *value = (uint32_t)number;
    return 1;
}

/* A number with a comma before each three digits. */
static void put(uint64_t number) {
    if (number < 1000) {
        printf("%u", (unsigned)number);
        return;
    }
    put(number / 1000);
    printf(",%03u", (unsigned)(number % 1000));
}

/* The answer, and the sheet that an aircraft has with it, whose area shows how near the limit it is. */
static void say(const char *sought, const char *unit, uint8_t column, uint32_t greatest, nb_sheet_t sheet) {
    printf("greatest %s for column %u: ", sought, column);
    put(greatest);
    printf(" %s\ncritical area at this %s: ", unit, sought);
    put(sheet.area.low);
    printf(" to ");
    put(sheet.area.high);
    printf(" square centimetres\ncolumn at this %s: %u%s\n", sought, sheet.column,
           sheet.flag ? ", the exact one may be the column before" : "");
}

/* The status, once all is written. */
static int end(int status) {
    if (fflush(stdout) == 0 && !ferror(stdout)) return status;
    fprintf(stderr, "can't write\n");
    return 2;
}

static int refused(uint8_t refusal) {
    printf("refusal %u: %s\n", refusal, nb_refusal_message(refusal));
    return end(1);
}

static int say_speed(uint32_t dimension, uint32_t mass, uint8_t column) {
    nb_greatest_speed_t answer = nb_greatest_speed(dimension, mass, column);
    if (answer.refusal != NB_ACCEPTED) return refused(answer.refusal);
    say("speed", "cm/s", column, answer.speed, nb_sheet(dimension, mass, answer.speed).sheet);
    return end(0);
}

static int say_mass(uint32_t dimension, uint32_t speed, uint8_t column) {
    nb_greatest_mass_t answer = nb_greatest_mass(dimension, speed, column);
    if (answer.refusal != NB_ACCEPTED) return refused(answer.refusal);
    say("mass", "g", column, answer.mass, nb_sheet(dimension, answer.mass, speed).sheet);
    return end(0);
}

int main(int argc, char **argv) {
    uint32_t asked[3];
    int of_speed = argc == 5 && strcmp(argv[1], "speed") == 0;
    int of_mass = argc == 5 && strcmp(argv[1], "mass") == 0;
    if (!of_speed && !of_mass) {
        fprintf(stderr, "usage: trade_off speed DIMENSION MASS COLUMN, or trade_off mass DIMENSION SPEED COLUMN, in mm, g and cm/s\n");
        return 2;
    }
    for (int i = 0; i < 3; i++) {
        if (!is_number(argv[i + 2], &asked[i])) {
            fprintf(stderr, "not a number of 32 bits: '%s'\n", argv[i + 2]);
            return 2;
        }
    }
    /* one of more than 8 bits is refused as 0 is; cut to 8 bits it might be a column */
    uint8_t column = asked[2] > UINT8_MAX ? 0 : (uint8_t)asked[2];
    return of_speed ? say_speed(asked[0], asked[1], column) : say_mass(asked[0], asked[1], column);
}
