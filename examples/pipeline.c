/* Finds primes by siblings that stand in a ring, each of which receives from the one before it and sends to the one
 * behind it. The first feeds the numbers from 2 on. Each of the others keeps the first number that comes to it, and
 * strikes out what that divides: it passes on 0 in its place. So a number that comes round has no divisor that was
 * kept, and is a prime as long as it is below the square of the first one that came round.
 *
 * A queue holds eight words, and a sibling whose next has no room waits. So the feeder has a few numbers under way,
 * and receives one before it sends another. If it sent on and on, each sibling would come to wait for the next.
 */

#include "snow.h"

enum { SIEVES = 4, UNDER_WAY = 8 };

static uint32_t one_before(void)
{
    return snow_id() == 1 ? snow_siblings() : snow_id() - 1;
}

static uint32_t one_behind(void)
{
    return snow_id() % snow_siblings() + 1;
}

/* Feeds numbers, and puts out those that come round and are primes for sure. Returns how many they are. */
static uint32_t feed(void)
{
    uint32_t next = 2, came = 2, end = UINT32_MAX, count = 0, number = 0;

    while (came < next || next < end) {
        if (next < end && next - came < UNDER_WAY) {
            snow_send(one_behind(), next++);
            continue;
        }
        snow_receive(one_before(), &number);
        came++;
        if (number && end == UINT32_MAX)
            end = number * number;
        if (number && number < end) {
            if (count++)
                snow_put(' ');
            snow_print_number(number);
        }
    }
    return count;
}

/* Keeps a number and sieves the others, until the sibling before it has ended. Returns the one that it kept. */
static uint32_t sieve(void)
{
    uint32_t kept = 0, number;

    while (snow_receive(one_before(), &number) == 0) {
        if (!kept)
            kept = number;
        if (number && number % kept == 0)
            number = 0;
        snow_send(one_behind(), number);
    }
    return kept;
}

int main(void)
{
    uint32_t ticket = snow_ticket(SIEVES + 1, 0), siblings = snow_granted(), child;

    if (snow_refused(ticket) || siblings < 2) {
        snow_print("a ring has two siblings at least: see --clones\n");
        return 1;
    }
    child = snow_clone(ticket);
    if (child)
        snow_exit(child == 1 ? feed() : sieve());
    snow_join(ticket);
    for (child = 2; child <= siblings; child++) {
        snow_print_number(snow_value(child));
        snow_put(' ');
    }
    snow_print("were kept, and ");
    snow_print_number(snow_value(1));
    snow_print(" more came round\n");
    return 0;
}
