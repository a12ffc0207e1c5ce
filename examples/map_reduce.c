/* Finds the primes below 4,000: how many there are, and which two neighbours are the farthest apart. Each child looks
 * at one part of the numbers, and hands over what it found as it exits. A value would not do: the widest gap may lie
 * between two parts, so the parent has to know where the primes of each begin and end.
 *
 * Where it is granted fewer children than it asks for, the parts are larger, and where it is granted none it looks at
 * all numbers itself.
 */

#include "snow.h"

enum { END = 4000, CHILDREN = 8 };

/* What the primes of a part come to, and all zeros where it has none. */
struct found {
    uint32_t count, first, last;
    uint32_t gap, below_gap; /* the widest gap, and the prime below it; or 0 and 0 */
};

static int is_prime(uint32_t number)
{
    for (uint32_t divisor = 2; divisor * divisor <= number; divisor++)
        if (number % divisor == 0)
            return 0;
    return number > 1;
}

/* Returns what two parts come to together, of which one ends where the other begins. */
static struct found together(struct found low, struct found high)
{
    if (!low.count || !high.count)
        return low.count ? low : high;
    if (high.first - low.last > low.gap) {
        low.gap = high.first - low.last;
        low.below_gap = low.last;
    }
    if (high.gap > low.gap) {
        low.gap = high.gap;
        low.below_gap = high.below_gap;
    }
    low.count += high.count;
    low.last = high.last;
    return low;
}

static struct found find_between(uint32_t first, uint32_t end)
{
    struct found all = {0};

    for (uint32_t number = first; number < end; number++)
        if (is_prime(number))
            all = together(all, (struct found){1, number, number, 0, 0});
    return all;
}

/* Returns what a child of the last join found. */
static struct found found_by(uint32_t child)
{
    union {
        uint32_t words[SNOW_HANDED_WORDS];
        struct found found;
    } bytes;

    if (snow_joined_bytes(child, bytes.words) != sizeof bytes.found)
        snow_print("a part is missing: its child came to the limit\n");
    return bytes.found;
}

int main(void)
{
    uint32_t ticket = snow_ticket(CHILDREN, 0);
    uint32_t parts = snow_granted(), child;
    struct found all = {0};

    if (snow_refused(ticket)) {
        all = find_between(0, END);
    } else {
        child = snow_clone(ticket);
        if (child) {
            all = find_between(END * (child - 1) / parts, END * child / parts);
            snow_exit_bytes(all.count, &all, sizeof all);
        }
        snow_join(ticket);
        for (child = 1; child <= parts; child++)
            all = together(all, found_by(child));
    }
    snow_print_number(all.count);
    snow_print(" primes, by ");
    snow_print_number(parts);
    snow_print(" children\nthe widest gap is from ");
    snow_print_number(all.below_gap);
    snow_print(" to ");
    snow_print_number(all.below_gap + all.gap);
    snow_put('\n');
    return 0;
}
