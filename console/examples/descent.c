/* Says in words how an aircraft that falls from its operating height strikes the ground.
 *
 *   cc descent.c $(pkg-config --cflags --libs nuggetbay) -o descent && ./descent DIMENSION MASS SPEED HEIGHT [BUDGET]
 *
 * The maximum characteristic dimension is in mm, the maximum take-off mass in g, the maximum cruise speed in cm/s, the lowest operating
 * height in cm, and the step budget in steps of 0.01 s, the largest one where none is given. Ends with 0 where the descent is accepted,
 * 1 where it is refused, 2 where an argument is no number or the words can't be written. */
#include <nuggetbay.h>
#include <stdio.h>

/* Whether an argument is a number of digits alone, of 32 bits; it is the value then. */
static int is_number(const char *argument, uint32_t *value) {
    uint64_t number = 0;
    if (*argument == '\0') return 0;
    for (; *argument != '\0'; argument++) {
        if (*argument < '0' || *argument > '9') return 0;
        number = number * 10 + (uint64_t)(*argument - '0');
        if (number > UINT32_MAX) return 0;
    }
    *value = (uint32_t)number;
    return 1;
}

static void say(nb_descent_t d) {
    printf("strikes the ground after %u.%02u seconds, %u steps\n", d.steps / 100, d.steps % 100, d.steps);
    printf("distance fallen: %.3f metres\n", d.end.fallen);
    printf("speed at the ground: %.3f m/s horizontally, %.3f m/s downward\n", d.end.horizontal, d.end.downward);
    if (d.above_60) {
        printf("impact angle: above 60 degrees\n");
        printf("from this operating height a rotorcraft or multirotor may use the high impact angle model\n");
    } else {
        printf("impact angle: not above 60 degrees\n");
        printf("from this operating height the high impact angle model may not be used: the area is the sheet's\n");
    }
}

/* The status, once all is written. */
static int end(int status) {
    if (fflush(stdout) == 0 && !ferror(stdout)) return status;
    fprintf(stderr, "can't write\n");
    return 2;
}

int main(int argc, char **argv) {
    uint32_t asked[5] = {0, 0, 0, 0, NB_BUDGET_MOST};
    if (argc != 5 && argc != 6) {
        fprintf(stderr, "usage: descent DIMENSION MASS SPEED HEIGHT [BUDGET], in mm, g, cm/s, cm and steps of 0.01 s\n");
        return 2;
    }
    for (int i = 0; i < argc - 1; i++) {
        if (!is_number(argv[i + 1], &asked[i])) {
            fprintf(stderr, "not a number of 32 bits: '%s'\n", argv[i + 1]);
            return 2;
        }
    }
    nb_descent_t answer = nb_descent(asked[0], asked[1], asked[2], asked[3], asked[4]);
    if (answer.refusal != NB_ACCEPTED) {
        printf("refusal %u: %s\n", answer.refusal, nb_refusal_message(answer.refusal));
        return end(1);
    }
    say(answer);
    return end(0);
}
