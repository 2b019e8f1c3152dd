/* Prints the trade-off tables, in Markdown: the greatest speed by mass and column, and the greatest mass by speed and column, for
 * aircraft of some dimensions. An en dash stands where no speed or mass has the column or a lower one.
 *
 *   cc trade_off_tables.c $(pkg-config --cflags --libs nuggetbay) -o trade_off_tables && ./trade_off_tables
 *
 * Ends with 0, or with 2 where the tables can't be written. */
#include <nuggetbay.h>
#include <stdio.h>

static const uint32_t DIMENSIONS[] = {1000, 3000, 8000, 20000, 40000}; /* mm */
static const uint32_t MASSES[] = {250,    900,    4000,    10000,   25000,   50000,    100000,
                                  250000, 600000, 1000000, 2500000, 5000000, 10000000, 25000000}; /* g */
static const uint32_t SPEEDS[] = {1000, 1500,  2000,  2500,  3000,  3500,  4000,  5000,
                                  7500, 10000, 12000, 15000, 20000, 25000, 30000, 40000}; /* cm/s */

#define EACH(i, list) for (size_t i = 0; i < sizeof(list) / sizeof(list)[0]; i++)
#define EACH_COLUMN(column) for (uint8_t column = 1; column <= 5; column++)

/* A number with a comma before each three digits. */
static void put(uint32_t number) {
    if (number < 1000) {
        printf("%u", (unsigned)number);
        return;
    }
    put(number / 1000);
    printf(",%03u", (unsigned)(number % 1000));
}

static void put_mass(uint32_t mass) {
    put(mass < 1000 ? mass : mass / 1000);
    printf(mass < 1000 ? " g" : " kg");
}

static void put_speed(uint32_t speed) {
    put(speed);
    printf(" cm/s");
}

/* All that is given here is in range, so the only refusal is that there is none for the column. */
static void put_cell(uint8_t refusal, uint32_t greatest) {
    if (refusal == NB_ACCEPTED) put(greatest);
    else printf("–");
    printf(" |");
}

static void put_head(const char *sought, const char *given) {
    printf("\nGreatest %s, by %s and column:\n\n| %c%s |", sought, given, given[0] - 'a' + 'A', given + 1);
    EACH_COLUMN(column) printf(" %u |", column);
    printf("\n|---:|---:|---:|---:|---:|---:|\n");
}

static void put_speeds(uint32_t dimension) {
    put_head("speed in cm/s", "mass");
    EACH(i, MASSES) {
        printf("| ");
        put_mass(MASSES[i]);
        printf(" |");
        EACH_COLUMN(column) {
            nb_greatest_speed_t answer = nb_greatest_speed(dimension, MASSES[i], column);
            printf(" ");
            put_cell(answer.refusal, answer.speed);
        }
        printf("\n");
    }
}

static void put_masses(uint32_t dimension) {
    put_head("mass in g", "speed");
    EACH(i, SPEEDS) {
        printf("| ");
        put_speed(SPEEDS[i]);
        printf(" |");
        EACH_COLUMN(column) {
            nb_greatest_mass_t answer = nb_greatest_mass(dimension, SPEEDS[i], column);
            printf(" ");
            put_cell(answer.refusal, answer.mass);
        }
        printf("\n");
    }
}

int main(void) {
    EACH(i, DIMENSIONS) {
        printf(i == 0 ? "## " : "\n## ");
        put(DIMENSIONS[i]);
        printf(" mm\n");
        put_speeds(DIMENSIONS[i]);
        put_masses(DIMENSIONS[i]);
    }
    if (fflush(stdout) == 0 && !ferror(stdout)) return 0;
    fprintf(stderr, "can't write\n");
    return 2;
}
