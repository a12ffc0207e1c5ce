/* Runs tasks that it does not trust, each in user mode under memory protection. A task may run the code of this
 * guest, and has a room of its own for its data and its stack. What it wants besides it asks for by an ECALL, and
 * at whatever else it tries it is stopped.
 *
 * The supervisor forks before each try. So a task that spoils its room, or has the supervisor spend what it is
 * entrusted with, costs a child, and the next one finds all as it was.
 */

#include "snow.h"

enum { STEPS = 10000, SPEND = 1, PRINT = 2 };

#define REFUSED 0xFFFFFFFFu

static uint32_t account = 100;          /* the supervisor's: no task reaches it */
static _Alignas(16) uint8_t room[1024]; /* the task's: its data, and its stack at the end */
static const struct snow_region regions[SNOW_REGIONS] = {SNOW_CODE, {room, room + sizeof room, SNOW_STORE}};

/* ---- The tasks ---- */

static uint32_t counts_primes(void)
{
    uint32_t count = 0;

    for (uint32_t number = 2; number < 300; number++) {
        count += !room[number];
        for (uint32_t multiple = 2 * number; multiple < 300; multiple += number)
            room[multiple] = 1;
    }
    return count;
}

static uint32_t spends(void)
{
    snow_ask(PRINT, (uint32_t)"I spend 30\n", 11, 0);
    return snow_ask(SPEND, 30, 0, 0);
}

static uint32_t spends_too_much(void) { return snow_ask(SPEND, 101, 0, 0); }
static uint32_t has_the_account_printed(void) { return snow_ask(PRINT, (uint32_t)&account, 4, 0); }
static uint32_t writes_the_account(void) { return *(volatile uint32_t *)&account = 1000000; }
static uint32_t reads_the_account(void) { return *(volatile uint32_t *)&account; }
static uint32_t forks(void) { return snow_ticket(1000, 0); }
static uint32_t runs_away(void) { for (;;); return 0; }

static uint32_t opens_protection(void)
{
    SNOW_WRITE_CSR(pmpcfg0, 0x1F);
    return account;
}

static uint32_t runs_its_data(void)
{
    *(uint32_t *)room = 0x00008067; /* ret */
    return ((uint32_t (*)(void))(uintptr_t)room)();
}

static const struct { const char *name; uint32_t (*task)(void); } tries[] = {
    {"counts primes", counts_primes}, {"spends", spends}, {"spends too much", spends_too_much},
    {"has the account printed", has_the_account_printed}, {"writes the account", writes_the_account},
    {"reads the account", reads_the_account}, {"forks", forks}, {"opens protection", opens_protection},
    {"runs its data", runs_its_data}, {"runs away", runs_away},
};

/* ---- The supervisor ---- */

/* Serves what a task asks for. The text is to be the task's own, or the supervisor would read for it. */
uint32_t snow_service(const uint32_t registers[8])
{
    uint32_t first = registers[0], second = registers[1], service = registers[7];

    if (service == SPEND && first <= account)
        return account -= first;
    if (service == PRINT && snow_may(regions, SNOW_LOAD, first, second)) {
        for (uint32_t i = 0; i < second; i++)
            snow_put(((const char *)first)[i]);
        return second;
    }
    return REFUSED;
}

/* Runs a task in this machine, a child, and exits with the task's value, or with SNOW_TRAPPED and the cause. */
static _Noreturn void try(uint32_t (*task)(void))
{
    struct snow_stop stop;

    snow_alarm(STEPS);
    stop = snow_user(task, room + sizeof room, regions);
    if (snow_returned(&stop))
        snow_exit(stop.a0 < SNOW_TRAPPED || stop.a0 == REFUSED ? stop.a0 : SNOW_TRAPPED - 1);
    snow_print("pc ");
    snow_print_hex(stop.pc);
    snow_print(" value ");
    snow_print_hex(stop.value);
    snow_put('\n');
    snow_exit(stop.cause == SNOW_CAUSE_TIMER ? SNOW_TRAPPED_BY_TIMER : SNOW_TRAPPED + stop.cause % 32);
}

int main(void)
{
    for (uint32_t i = 0; i < sizeof tries / sizeof *tries; i++) {
        uint32_t ticket = snow_ticket(1, 0), value;

        if (snow_refused(ticket)) {
            snow_print("there is no sandbox: see --clones\n");
            return 1;
        }
        if (snow_clone(ticket))
            try(tries[i].task);
        snow_join(ticket);
        value = snow_value(1);
        snow_print(tries[i].name);
        snow_print(value == REFUSED ? ": refused" : value < SNOW_TRAPPED ? ": returned " : ": stopped by cause ");
        if (value != REFUSED)
            snow_print_number(value % SNOW_TRAPPED);
        snow_put('\n');
    }
    return account != 100;
}
