/* A program outside the repository, in C or C++: the library's version, every message, an answer with floating-point numbers to the
 * last digit, answers that fit a register, and calls that lend nothing. */
#include <nuggetbay.h>
#include <stdio.h>

int main(void) {
    printf("%u %u\n", (unsigned)NB_VERSION, (unsigned)nb_version());
    for (unsigned refusal = 0; refusal < 256; refusal++) printf("%s\n", nb_refusal_message((uint8_t)refusal));
    nb_descent_t descent = nb_descent(1100, 15000, 2500, 5740, NB_BUDGET_MOST);
    printf("%u %u %u %.17g %.17g %.17g\n", descent.refusal, descent.above_60, (unsigned)descent.steps, descent.end.horizontal,
           descent.end.downward, descent.end.fallen);
    nb_greatest_speed_t speed = nb_greatest_speed(3000, 25000, 2);
    nb_greatest_mass_t mass = nb_greatest_mass(3000, 5000, 2);
    printf("%u %u %u %u\n", speed.refusal, (unsigned)speed.speed, mass.refusal, (unsigned)mass.mass);
    printf("%u\n", nb_footprint(NULL, 0, NULL, 0, 100).refusal);
    printf("%u\n", nb_assess(1000, 10000, 2500, NULL, 0, NULL, 0, 100, 0, 0).refusal);
    printf("%u\n", nb_read_case(NULL, 0, NULL, 0, NULL, 0).refusal);
    printf("%u\n", nb_case(NULL, 0, NULL, 0, NULL, 0, NULL, 0));
    return 0;
}
