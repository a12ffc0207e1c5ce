/* Finds a factor of the number in its input by two searches that race: trial division is quick where a
 * factor is small, and Fermat's method where two factors are close. Which it is nobody knows before.
 *
 * A join waits for a child as long as the child lives. So each search sets its own timer, and gives up
 * when that interrupts it. There are always two at work, of which one has half as many steps as the other.
 * The parent joins that one, and where it gave up starts it anew with four times its steps. Where it found a
 * factor, the other has lost and is killed.
 */

#include "snow.h"

/* The trap handler, in the place of that of crt0.S: a search that is interrupted gives up. */
__attribute__((interrupt)) void snow_trap(void)
{
    snow_exit(0);
}

static uint32_t by_division(uint32_t number)
{
    for (uint32_t divisor = 2; divisor <= number / divisor; divisor++)
        if (number % divisor == 0)
            return divisor;
    return 1;
}

/* The number is a * a - b * b, where a is counted up while that is too little, and b while it is too much. */
static uint32_t by_squares(uint32_t number)
{
    uint32_t root = 0, a_step, b_step = 1;
    int32_t excess;

    for (uint32_t bit = 32768; bit; bit /= 2)
        if ((root + bit) * (root + bit) < number)
            root += bit;
    root++; /* the least number whose square is not below it */
    excess = (int32_t)(root * root - number);
    a_step = 2 * root + 1;
    while (excess != 0) {
        if (excess > 0) {
            excess -= (int32_t)b_step;
            b_step += 2;
        } else {
            excess += (int32_t)a_step;
            a_step += 2;
        }
    }
    return (a_step - b_step) / 2;
}

static struct search {
    const char *name;
    uint32_t (*find)(uint32_t);
    uint64_t steps;
    uint32_t ticket;
} searches[] = {
    {"trial division", by_division, 2000, 0},
    {"Fermat's method", by_squares, 4000, 0},
};

static uint32_t read_number(void)
{
    uint32_t number = 0;
    int digit;

    while ((digit = snow_get()) >= '0' && digit <= '9')
        number = 10 * number + (uint32_t)(digit - '0');
    return number;
}

static void start(struct search *search, uint32_t number)
{
    search->ticket = snow_ticket(1, 0);
    if (snow_refused(search->ticket)) {
        snow_print("no search can start: see --clones\n");
        snow_exit(1);
    }
    if (snow_clone(search->ticket)) {
        snow_alarm(search->steps);
        snow_exit(search->find(number));
    }
    search->steps *= 4;
}

int main(void)
{
    uint32_t number = read_number(), factor;
    struct search *first = &searches[0], *second = &searches[1], *other;

    start(first, number);
    start(second, number);
    for (;;) {
        snow_join(first->ticket);
        factor = snow_value(1);
        if (factor != 0)
            break;
        if (snow_kind(1) == SNOW_LIMIT) {
            snow_print("no search found it before the limit\n");
            return 1;
        }
        start(first, number);
        other = first, first = second, second = other;
    }
    snow_kill(second->ticket);
    snow_print_number(number);
    snow_print(" = ");
    snow_print_number(factor);
    snow_print(" * ");
    snow_print_number(number / factor);
    snow_print(" by ");
    snow_print(first->name);
    snow_put('\n');
    return 0;
}
