/* The descent of document 02, item 4, a third time: in C, from the item's words (quoted), for checker/compare_descents.
 *
 * Reads a descent a line from standard input: dimension (mm), mass (g), speed (cm/s), height (cm), budget (steps), in decimal.
 * Prints for each: the refusal, whether the angle is above 60 degrees, the number of steps, and the end state's three numbers by
 * their bits, in hexadecimal. Compiled with -ffp-contract=off, so that no two operations are done as one.
 */
#include <float.h>
#include <inttypes.h>
#include <stdio.h>
#include <string.h>

#if FLT_EVAL_METHOD != 0
#error "operations in f64 are not rounded to f64 here"
#endif

/* "The state is horizontal speed, downward speed and distance fallen, in f64." */
struct state {
    double horizontal, downward, distance;
};

struct answer {
    int refusal, above;
    unsigned steps;
    struct state end;
};

static int outside(unsigned long number, unsigned long lowest, unsigned long highest) {
    return number < lowest || number > highest;
}

/* Square millimetres, by item 2: "in straight lines between 100,000 at 1,000 mm, 500,000 at 3,000, 2,500,000 at 8,000, 12,500,000 at
 * 20,000 and 25,000,000 at 40,000, rounded down." */
static unsigned long frontal_area(unsigned long dimension) {
    static const struct {
        unsigned long dimension, area;
    } points[] = {{1000, 100000}, {3000, 500000}, {8000, 2500000}, {20000, 12500000}, {40000, 25000000}};
    int i = 0;
    while (dimension > points[i + 1].dimension) i++;
    return points[i].area + (points[i + 1].area - points[i].area) * (dimension - points[i].dimension)
                                / (points[i + 1].dimension - points[i].dimension);
}

/* "Speed is found from the sum of the squares by six rounds: sum over guess, added to the guess, times 0.5. The first guess is the two
 * speeds added; speed is 0 when both are 0." */
static double speed(struct state s) {
    if (s.horizontal == 0 && s.downward == 0) return 0;
    double sum = s.horizontal * s.horizontal + s.downward * s.downward;
    double guess = s.horizontal + s.downward;
    for (int round = 1; round <= 6; round++) guess = (sum / guess + guess) * 0.5;
    return guess;
}

static struct state step(struct state old, double area, double mass) {
    struct state new;
    /* "Drag per speed is 0.5 x 1.225 x frontal area x 0.8 x speed, in that order." */
    double drag = 0.5 * 1.225 * area * 0.8 * speed(old);
    /* "A speed's slowing is drag per speed x that speed / mass." */
    double horizontal_slowing = drag * old.horizontal / mass;
    double downward_slowing = drag * old.downward / mass;
    /* "The new horizontal speed is the old less (slowing x step). The new downward speed is the old plus ((9.81 less slowing) x step)." */
    new.horizontal = old.horizontal - horizontal_slowing * 0.01;
    new.downward = old.downward + (9.81 - downward_slowing) * 0.01;
    /* "The distance grows by 0.5 x (old plus new downward speed) x step." */
    new.distance = old.distance + 0.5 * (old.downward + new.downward) * 0.01;
    return new;
}

static struct answer refused(int refusal) {
    struct answer a = {0};
    a.refusal = refusal;
    return a;
}

static struct answer descent(unsigned long dimension, unsigned long mass, unsigned long cruise, unsigned long height,
                             unsigned long budget) {
    if (outside(dimension, 50, 100000)) return refused(1);
    if (outside(mass, 50, 25000000)) return refused(2);
    if (outside(cruise, 0, 40000)) return refused(3);
    if (outside(dimension, 1000, 40000)) return refused(16);
    /* "17 when, after 1, 2, 3 and 16, the height is outside 1 to 50,000 cm or the step budget outside 1 to 20,000." */
    if (outside(height, 1, 50000) || outside(budget, 1, 20000)) return refused(17);
    /* "Inputs become metres, kilograms and square metres by one division each." */
    double metres = (double)height / 100, kilograms = (double)mass / 1000, area = (double)frontal_area(dimension) / 1000000;
    /* "The first state is the cruise speed, 0 and 0." */
    struct state s = {(double)cruise / 100, 0, 0};
    for (unsigned steps = 1; steps <= budget; steps++) {
        s = step(s, area, kilograms);
        /* "19 when a step makes either speed negative, tested at each new state before the ground and before 18." */
        if (s.horizontal < 0 || s.downward < 0) return refused(19);
        /* "The fall ends at the first state whose distance is at least the height. The angle is above 60 degrees when downward speed
         * squared exceeds 3 x (horizontal speed squared)." */
        if (s.distance >= metres) {
            struct answer landed = {0, s.downward * s.downward > 3 * (s.horizontal * s.horizontal), steps, s};
            return landed;
        }
    }
    /* "18 when the definition's state after the whole budget is still short of the height." */
    return refused(18);
}

static uint64_t bits(double number) {
    uint64_t value;
    memcpy(&value, &number, sizeof value);
    return value;
}

int main(void) {
    unsigned long dimension, mass, cruise, height, budget;
    int read;
    while ((read = scanf("%lu %lu %lu %lu %lu", &dimension, &mass, &cruise, &height, &budget)) == 5) {
        struct answer a = descent(dimension, mass, cruise, height, budget);
        printf("%d %d %u %016" PRIx64 " %016" PRIx64 " %016" PRIx64 "\n", a.refusal, a.above, a.steps, bits(a.end.horizontal),
               bits(a.end.downward), bits(a.end.distance));
    }
    return read == EOF ? 0 : 2;
}
