/* Looks for the first line of its input in the disk. Each child looks at a part of the sectors, from the first on, and
 * stops where it has found the text. A child fetches a page of the disk, which is eight sectors, as it first reads one
 * of them: so what no child looks at is fetched by none, and the parent, which knows where to begin, reads nothing.
 *
 * Where it is granted fewer children than it asks for, the parts are larger, and where it is granted none it looks at
 * the whole disk itself.
 */

#include "snow.h"

enum { CHILDREN = 8, LONGEST = 64, SECTOR_BYTES = 4 * SNOW_SECTOR_WORDS };

static char text[LONGEST];
static uint32_t length;
static uint32_t sector[SNOW_SECTOR_WORDS];
static uint32_t sector_read = UINT32_MAX;

/* Reads a line, and returns whether it has a place in `text`. */
static int read_text(void)
{
    int byte;

    while ((byte = snow_get()) >= 0 && byte != '\n') {
        if (length == LONGEST)
            return 0;
        text[length++] = (char)byte;
    }
    return length > 0;
}

/* Returns a byte of the disk. Its sector is read, unless the last byte was of the same. */
static char byte_at(uint32_t place)
{
    if (sector_read != place / SECTOR_BYTES) {
        sector_read = place / SECTOR_BYTES;
        snow_disk_read(sector_read, sector);
    }
    return ((const char *)sector)[place % SECTOR_BYTES];
}

static int is_at(uint32_t place)
{
    for (uint32_t i = 0; i < length; i++)
        if (byte_at(place + i) != text[i])
            return 0;
    return 1;
}

/* Returns the first place of the text that begins in these sectors, and 1 more, or 0 where there is none. */
static uint32_t find_between(uint32_t first, uint32_t end)
{
    uint32_t last = snow_sectors() * SECTOR_BYTES;

    for (uint32_t place = first * SECTOR_BYTES; place < end * SECTOR_BYTES && place + length <= last; place++)
        if (is_at(place))
            return place + 1;
    return 0;
}

int main(void)
{
    uint32_t ticket, parts, child, found = 0;

    if (!read_text()) {
        snow_print("the text is a line of 1 to 64 bytes: see --input\n");
        return 1;
    }
    ticket = snow_ticket(CHILDREN, 0);
    parts = snow_granted();
    if (snow_refused(ticket)) {
        found = find_between(0, snow_sectors());
    } else {
        child = snow_clone(ticket);
        if (child)
            snow_exit(find_between(snow_sectors() * (child - 1) / parts, snow_sectors() * child / parts));
        snow_join(ticket);
        for (child = 1; child <= parts && !found; child++)
            found = snow_value(child);
    }
    if (found) {
        snow_print("the text is at byte ");
        snow_print_number(found - 1);
        snow_print(", in sector ");
        snow_print_number((found - 1) / SECTOR_BYTES);
    } else {
        snow_print("the text is not on the disk");
    }
    snow_put('\n');
    return 0;
}
