/* Keeps a log on its disk, an entry in each sector. A machine's disk is its own from the fork on: a child
 * goes on with the log of its parent as it was then, and what it writes is in its own log alone. What the
 * parent is to know of it comes back as the child's value.
 */

#include "snow.h"

enum { ROUNDS = 2, CHILDREN = 2 };

static uint32_t sector[SNOW_SECTOR_WORDS];
static uint32_t entries;

/* Counts the entries that the disk has, up to the first sector that begins with a zero. */
static void open_log(void)
{
    while (snow_disk_read(entries, sector) == SNOW_DISK_DONE && sector[0] != 0)
        entries++;
}

/* Adds an entry, a text with a number in its place of a sign #. */
static void add(const char *text, uint32_t number)
{
    char *to = (char *)sector;

    for (uint32_t i = 0; i < SNOW_SECTOR_WORDS; i++)
        sector[i] = 0;
    for (; *text; text++)
        *to++ = *text == '#' ? (char)('0' + number % 10) : *text;
    if (snow_disk_write(entries, sector) != SNOW_DISK_DONE) {
        snow_print("the disk is full: see --disk\n");
        snow_exit(1);
    }
    entries++;
}

static void show_log(void)
{
    for (uint32_t i = 0; i < entries; i++) {
        snow_disk_read(i, sector);
        snow_print((const char *)sector);
        snow_put('\n');
    }
}

int main(void)
{
    open_log();
    add("booted", 0);
    for (uint32_t round = 1; round <= ROUNDS; round++) {
        uint32_t ticket = snow_ticket(CHILDREN, 0), child;

        if (snow_refused(ticket)) {
            snow_print("there are no children: see --clones\n");
            return 1;
        }
        add("round # begins", round);
        child = snow_clone(ticket);
        if (child) {
            add("child # works", child);
            show_log();
            snow_exit(round * child);
        }
        snow_join(ticket);
        for (child = 1; child <= snow_granted(); child++)
            add("a child came back with #", snow_value(child));
    }
    show_log();
    return 0;
}
