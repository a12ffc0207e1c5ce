/* A family that gets stuck where it has too much to say. Three siblings stand in a ring. The first sends as many words
 * as the number in its input says, and only then receives them, when the two others have passed them on and added 1.
 *
 * The ring has room for 26 words: eight in each of its three queues, and one that each of the others has in hand. With
 * 27 the first waits until the second receives, the second until the third does, and the third until the first does.
 * None of them ever makes another step. Nor does their parent, which waits for them.
 */

#include "snow.h"

static uint32_t read_number(void)
{
    uint32_t number = 0;
    int digit;

    while ((digit = snow_get()) >= '0' && digit <= '9')
        number = 10 * number + (uint32_t)(digit - '0');
    return number;
}

static uint32_t send_all_round(uint32_t count)
{
    uint32_t sum = 0, word = 0;

    for (uint32_t i = 0; i < count; i++)
        snow_send(2, i);
    for (uint32_t i = 0; i < count; i++) {
        snow_receive(3, &word);
        sum += word;
    }
    return sum;
}

/* Passes words on until the sibling that sends them has ended. Returns how many they were. */
static uint32_t pass_on(uint32_t from, uint32_t to)
{
    uint32_t count = 0, word;

    for (; snow_receive(from, &word) == 0; count++)
        snow_send(to, word + 1);
    return count;
}

int main(void)
{
    uint32_t count = read_number(), ticket = snow_ticket(3, 0);

    if (snow_granted() < 3) {
        snow_print("the ring has three siblings: see --clones\n");
        return 1;
    }
    switch (snow_clone(ticket)) {
    case 0: break;
    case 1: snow_exit(send_all_round(count));
    case 2: snow_exit(pass_on(1, 3));
    default: snow_exit(pass_on(2, 1));
    }
    snow_join(ticket);
    snow_print("all came round\n");
    return (int)snow_value(1);
}
