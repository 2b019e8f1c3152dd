/* Says in words what the high impact angle model gives for an aircraft.
 *
 *   cc high_angle.c $(pkg-config --cflags --libs nuggetbay) -o high_angle && ./high_angle DIMENSION MASS SPEED
 *
 * The maximum characteristic dimension is in mm, the maximum take-off mass in g, the maximum cruise speed in cm/s. Ends with 0 where
 * the aircraft is accepted, 1 where it is refused, 2 where an argument is no number or the words can't be written. */
#include <nuggetbay.h>
#include <stdio.h>

/* Whether an argument is a number of digits alone, of 32 bits; it is the value then. */
static int is_number(const char *argument, uint32_t *value) {
    uint64_t number = 0;
    if (*argument == '\0') return 0;
    for (; *argument != '\0'; argument++) {
        if (*argument < '0' || *argument > '9') return 0;
        number = number * 10 + (uint64_t)(*argument - '0');
        if (number > UINT32_MAX) return 0;
    }
    *value = (uint32_t)number;
    return 1;
}

/* A number of thousandths as a decimal. */
#define DECIMAL(thousandths) (unsigned)((thousandths) / 1000), (unsigned)((thousandths) % 1000)

static void say(nb_high_angle_t a) {
    printf("frontal area: %lu square millimetres\n", (unsigned long)a.frontal_area);
    printf("energy at terminal speed: %lu to %lu joules\n", (unsigned long)a.joules.low, (unsigned long)a.joules.high);
    printf("safety factor: %u.%03u to %u.%03u\n", DECIMAL(a.factor.low), DECIMAL(a.factor.high));
    printf("critical area: %lu to %lu square centimetres\n", (unsigned long)a.area.low, (unsigned long)a.area.high);
    printf("column: %u%s\n", a.column, a.flag ? ", the exact one may be the column before" : "");
    printf("only for a rotorcraft or multirotor that strikes the ground at more than 60 degrees, which the descent judges\n");
}

/* The status, once all is written. */
static int end(int status) {
    if (fflush(stdout) == 0 && !ferror(stdout)) return status;
    fprintf(stderr, "can't write\n");
    return 2;
}

int main(int argc, char **argv) {
    uint32_t aircraft[3];
    if (argc != 4) {
        fprintf(stderr, "usage: high_angle DIMENSION MASS SPEED, in mm, g and cm/s\n");
        return 2;
    }
    for (int i = 0; i < 3; i++) {
        if (!is_number(argv[i + 1], &aircraft[i])) {
            fprintf(stderr, "not a number of 32 bits: '%s'\n", argv[i + 1]);
            return 2;
        }
    }
    nb_high_angle_t answer = nb_high_angle(aircraft[0], aircraft[1], aircraft[2]);
    if (answer.refusal != NB_ACCEPTED) {
        printf("refusal %u: %s\n", answer.refusal, nb_refusal_message(answer.refusal));
        return end(1);
    }
    say(answer);
    return end(0);
}
