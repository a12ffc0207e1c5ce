/* Serves the requests of its input, each in a sandbox: a child that has a copy of all and can harm nothing
 * but itself. A request is a line, a program of the language of eight signs, of which six are here: > and <
 * move along a tape of bytes, + and - count the byte up and down, . puts it out, and [ ] repeat while it is
 * not 0. The answer is the byte at the end.
 *
 * The interpreter checks nothing. A program that does not end is ended by the child's own timer, and one
 * that goes wrong traps.
 */

#include "snow.h"

enum { STEPS = 20000 };

static char request[256];
static uint8_t tape[256];

/* Reads the next line. Returns whether there was one. */
static int read_request(void)
{
    uint32_t length = 0;
    int byte = snow_get();

    if (byte < 0)
        return 0;
    for (; byte >= 0 && byte != '\n'; byte = snow_get())
        if (length < sizeof request - 1)
            request[length++] = (char)byte;
    request[length] = 0;
    return 1;
}

static uint32_t interpret(const char *sign)
{
    uint8_t *cell = tape;

    for (; *sign; sign++) {
        int depth = *sign == '[' && !*cell ? 1 : *sign == ']' && *cell ? -1 : 0;

        switch (*sign) {
        case '>': cell++; break;
        case '<': cell--; break;
        case '+': ++*cell; break;
        case '-': --*cell; break;
        case '.': snow_put((char)*cell); break;
        case '[':
            while (depth) {
                sign++;
                depth += (*sign == '[') - (*sign == ']');
            }
            break;
        case ']':
            while (depth) {
                sign--;
                depth += (*sign == '[') - (*sign == ']');
            }
            break;
        default: __builtin_trap();
        }
    }
    return *cell;
}

/* Tells how the child of the last join ended. */
static void tell(uint32_t number)
{
    uint32_t value = snow_value(1);

    snow_print("request ");
    snow_print_number(number);
    if (snow_kind(1) == SNOW_LIMIT) {
        snow_print(": came to the limit");
    } else if (value == SNOW_TRAPPED_BY_TIMER) {
        snow_print(": ran away");
    } else if (value >= SNOW_TRAPPED) {
        snow_print(": trapped, cause ");
        snow_print_number(value - SNOW_TRAPPED);
    } else {
        snow_print(": ");
        snow_print_number(value);
    }
    snow_put('\n');
}

int main(void)
{
    uint32_t number = 0;

    while (read_request()) {
        uint32_t ticket = snow_ticket(1, 0);

        number++;
        if (snow_refused(ticket)) {
            snow_print("there is no sandbox: see --clones\n");
            return 1;
        }
        if (snow_clone(ticket)) {
            snow_alarm(STEPS);
            snow_exit(interpret(request));
        }
        snow_join(ticket);
        tell(number);
    }
    return 0;
}
