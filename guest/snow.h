/* The machine of `snow` for guests in C and C++: its registers and commands, and inline calls for them.
 *
 * A guest runs on one hart, in machine mode, and its tasks in user mode (docs/machine.md). Outside RAM it has a
 * timer, a console, a disk, the fork port and the sibling port. The registers of the console are bytes, and all
 * others are words: an access of another width is a trap. guest/cc makes an image of C files that include this.
 */

#ifndef SNOW_H
#define SNOW_H

#include <stdint.h>

#ifdef __cplusplus
extern "C" {
#define SNOW_NORETURN [[noreturn]]
#define SNOW_AT_LEAST(count) /* C++ has no word for the least size of an array that a function is given */
#else
#define SNOW_NORETURN _Noreturn
#define SNOW_AT_LEAST(count) static count
#endif

/* ---- RAM ---- */

#define SNOW_RAM 0x80000000u    /* the address of the first byte */
#define SNOW_PAGE_BYTES 4096u   /* RAM is so many bytes for each page of --ram */

/* ---- The fork port, at 0x10002000 ---- */

#define SNOW_HANDED_WORDS 16 /* a machine hands over 64 bytes at most */

struct snow_fork_port {
    uint32_t arg0, arg1;     /* the arguments of the next command */
    uint32_t command;        /* written: does one of the commands below */
    uint32_t result;         /* read: what became of the last command */
    uint32_t clone_id;       /* read: 0 in the machine that was booted, else which child of its ticket it is, from 1 */
    uint32_t allot;          /* read: how many machines may still come from this one */
    uint32_t jsel;           /* which child of the last join the registers of joins tell of, from 1 */
    uint32_t jkind;          /* read: how it ended, one of SNOW_NONE, SNOW_EXITED and SNOW_LIMIT */
    uint32_t jvalue;         /* read: the value that it exited with, or 0 */
    uint32_t granted;        /* read: for how many children the last granted ticket is */
    uint32_t unused_40;      /* no register: an access is a trap */
    uint32_t jlen;           /* read: how many bytes it handed over, or 0 */
    uint32_t unused_48[4];   /* no registers */
    uint32_t jbytes[SNOW_HANDED_WORDS]; /* read: these bytes, and zeros behind them */
};

#define SNOW_FORK_PORT ((volatile struct snow_fork_port *)0x10002000)

/* The commands. */
enum {
    SNOW_TICKET = 1,
    SNOW_CLONE = 2,
    SNOW_JOIN = 3,
    SNOW_KILL = 4,
    SNOW_EXIT = 5,
    SNOW_ZERO = 6,
    SNOW_EXIT_BYTES = 7 /* in the low byte, with the number of bytes above it */
};

/* The refusals, which the calls below return in the place of their results, but for snow_clone. A refusal
 * changes nothing but `result`. snow_refused tells whether a result is one. */
#define SNOW_NO_TICKET 0xFFFFFFFFu    /* there is no such ticket: never granted, or joined, or killed */
#define SNOW_CLONED 0xFFFFFFFEu       /* the ticket's children were made already */
#define SNOW_NOT_CLONED 0xFFFFFFFDu   /* the ticket's children were not made yet */
#define SNOW_BAD_ARGUMENT 0xFFFFFFFCu /* a ticket for no children; no pages, or pages or bytes that are not all of RAM */
#define SNOW_NO_ALLOT 0xFFFFFFFBu     /* what may come from this machine does not pay for one child and its share */
#define SNOW_NO_COMMAND 0xFFFFFFFAu   /* no command has the number */

static inline int snow_refused(uint32_t result)
{
    return result >= SNOW_NO_COMMAND;
}

/* Returns what became of the last command: its result, or why it was refused. */
static inline uint32_t snow_result(void)
{
    return SNOW_FORK_PORT->result;
}

/* How a child ended, as snow_kind tells. */
enum {
    SNOW_NONE = 0,   /* the last join had no such child */
    SNOW_EXITED = 1, /* it exited with a value */
    SNOW_LIMIT = 2   /* its steps reached the limit */
};

/* Returns which child of its ticket this machine is, from 1, or 0 in the machine that was booted. */
static inline uint32_t snow_id(void)
{
    return SNOW_FORK_PORT->clone_id;
}

/* Returns how many machines may still come from this one, its children and theirs together. It is what
 * --clones says in the machine that was booted, and the share of its ticket in a child. */
static inline uint32_t snow_allot(void)
{
    return SNOW_FORK_PORT->allot;
}

/* Asks for a ticket for children, each with a share of the allot for children of its own. A child costs 1
 * and its share. Where the allot does not pay for all, the ticket is for as many as it pays for, which
 * snow_granted tells. Returns the number of the ticket, from 1 on, or SNOW_BAD_ARGUMENT where no child is
 * asked for, or SNOW_NO_ALLOT where the allot does not pay for one. */
static inline uint32_t snow_ticket(uint32_t children, uint32_t share)
{
    SNOW_FORK_PORT->arg0 = children;
    SNOW_FORK_PORT->arg1 = share;
    SNOW_FORK_PORT->command = SNOW_TICKET;
    return SNOW_FORK_PORT->result;
}

/* Returns for how many children the last granted ticket is, and 0 where none was granted yet. */
static inline uint32_t snow_granted(void)
{
    return SNOW_FORK_PORT->granted;
}

/* Makes the children of a ticket. Each is a copy of this machine: its memory, its disk, its place in the
 * input, its timer and its count of steps; but it has no output, no ticket and nothing joined. From then on
 * they share nothing, and have words for one another alone (snow_send). Returns 0 in this machine, and in child
 * k the number k. Where it is refused, since the ticket was refused, joined or killed (SNOW_NO_TICKET) or its
 * children were made already (SNOW_CLONED), there are no children, and it returns 0, too: only a child goes a
 * child's way. snow_result tells why. */
static inline uint32_t snow_clone(uint32_t ticket)
{
    uint32_t result;

    SNOW_FORK_PORT->arg0 = ticket;
    SNOW_FORK_PORT->command = SNOW_CLONE;
    result = SNOW_FORK_PORT->result;
    return snow_refused(result) ? 0 : result;
}

/* Waits until all children of a ticket have ended. Then snow_kind and snow_value tell how, until the next
 * join, and the allot is back. It has no time-out: a child that may run away arms its own timer. Returns how
 * many children they were. Refusals: SNOW_NO_TICKET, SNOW_NOT_CLONED. */
static inline uint32_t snow_join(uint32_t ticket)
{
    SNOW_FORK_PORT->arg0 = ticket;
    SNOW_FORK_PORT->command = SNOW_JOIN;
    return SNOW_FORK_PORT->result;
}

/* Returns how a child of the last join ended, by its number from 1. */
static inline uint32_t snow_kind(uint32_t child)
{
    SNOW_FORK_PORT->jsel = child;
    return SNOW_FORK_PORT->jkind;
}

/* Returns the value that a child of the last join exited with, by its number from 1. It is 0 where there is
 * no such child, or it ended by its limit. */
static inline uint32_t snow_value(uint32_t child)
{
    SNOW_FORK_PORT->jsel = child;
    return SNOW_FORK_PORT->jvalue;
}

/* Copies the bytes that a child of the last join handed over, by its number from 1, to a buffer of 64 bytes, and zeros
 * behind them. Returns how many they are: 0 where it handed over none, there is no such child, or it ended by its limit. */
static inline uint32_t snow_joined_bytes(uint32_t child, uint32_t buffer[SNOW_AT_LEAST(SNOW_HANDED_WORDS)])
{
    SNOW_FORK_PORT->jsel = child;
    for (int at = 0; at < SNOW_HANDED_WORDS; at++)
        buffer[at] = SNOW_FORK_PORT->jbytes[at];
    return SNOW_FORK_PORT->jlen;
}

/* Drops the children of a ticket at once, with all that came from them and what they put out; a ticket whose
 * children were not made is given back. The allot is back. Returns how many children there were, 0 where
 * they were not made. Refusal: SNOW_NO_TICKET. */
static inline uint32_t snow_kill(uint32_t ticket)
{
    SNOW_FORK_PORT->arg0 = ticket;
    SNOW_FORK_PORT->command = SNOW_KILL;
    return SNOW_FORK_PORT->result;
}

/* Ends this machine with a value. Its children that it has not joined are killed. */
SNOW_NORETURN static inline void snow_exit(uint32_t value)
{
    SNOW_FORK_PORT->arg0 = value;
    SNOW_FORK_PORT->command = SNOW_EXIT;
    __builtin_unreachable();
}

/* Ends this machine as snow_exit does, and hands over so many bytes of RAM from an address on, up to 64, as they are
 * then. Its parent reads them by snow_joined_bytes once it has joined this machine, and the report tells them. Where
 * they are more, or not all of RAM, the machine is to end all the same: it traps, as by EBREAK. */
SNOW_NORETURN static inline void snow_exit_bytes(uint32_t value, const void *address, uint32_t length)
{
    SNOW_FORK_PORT->arg0 = value;
    SNOW_FORK_PORT->arg1 = (uint32_t)(uintptr_t)address;
    if (length > 4 * SNOW_HANDED_WORDS)
        length = 4 * SNOW_HANDED_WORDS + 1; /* which is refused, and loses no bits below */
    __asm__ volatile("" ::: "memory"); /* stores to the bytes come before */
    SNOW_FORK_PORT->command = length << 8 | SNOW_EXIT_BYTES;
    __builtin_trap();
}

/* Makes pages of RAM read as zeros, from the one that is named, of 4,096 bytes and counted from 0x80000000.
 * This machine no longer keeps a page that it gives up so. Returns 0. Refusal: SNOW_BAD_ARGUMENT. */
static inline uint32_t snow_zero(uint32_t page, uint32_t pages)
{
    SNOW_FORK_PORT->arg0 = page;
    SNOW_FORK_PORT->arg1 = pages;
    __asm__ volatile("" ::: "memory"); /* stores to the pages come before, and loads from them after */
    SNOW_FORK_PORT->command = SNOW_ZERO;
    __asm__ volatile("" ::: "memory");
    return SNOW_FORK_PORT->result;
}

/* ---- Siblings: the sibling port, at 0x10003000 ---- */

/* The children of one ticket are siblings, and they have words of 32 bits to say to one another. For each two of
 * them there is a queue each way, which holds eight words. A machine that waits here makes no step, so neither its
 * limit nor its timer ends that: a family in which each waits for another is stuck, and its report says so. */
struct snow_sibling_port {
    uint32_t peer;     /* which child of the ticket the next command talks to, from 1 */
    uint32_t data;     /* the word that is sent, and the one that was received */
    uint32_t command;  /* written: does one of the commands below */
    uint32_t result;   /* read: what became of the last command */
    uint32_t siblings; /* read: how many children the ticket has made, and 0 in the machine that was booted */
};

#define SNOW_SIBLING_PORT ((volatile struct snow_sibling_port *)0x10003000)

/* The commands. */
enum {
    SNOW_SEND = 1,
    SNOW_RECEIVE = 2
};

#define SNOW_QUEUE 8 /* how many words to one sibling may wait until it receives them */

/* What snow_receive returns where the sibling has ended and left no more words. It is no refusal. */
#define SNOW_ENDED 0xFFFFFFF9u

/* Returns how many children the ticket of this machine has made, itself among them, or 0 in the machine that was
 * booted. They have the numbers from 1 to that, of which its own is snow_id(). */
static inline uint32_t snow_siblings(void)
{
    return SNOW_SIBLING_PORT->siblings;
}

/* Sends a word to a sibling, by its number. Waits while eight words of this machine wait there already. Where the
 * sibling has ended, the word is dropped. Returns 0. Refusal: SNOW_BAD_ARGUMENT where no other sibling has the number. */
static inline uint32_t snow_send(uint32_t peer, uint32_t word)
{
    SNOW_SIBLING_PORT->peer = peer;
    SNOW_SIBLING_PORT->data = word;
    SNOW_SIBLING_PORT->command = SNOW_SEND;
    return SNOW_SIBLING_PORT->result;
}

/* Receives the oldest word that a sibling has sent to this machine and that has not been received. Waits while there
 * is none and the sibling lives. Returns 0; or SNOW_ENDED where there is none and the sibling has ended, and then the
 * word stays as it is. Refusal: SNOW_BAD_ARGUMENT, as of snow_send. */
static inline uint32_t snow_receive(uint32_t peer, uint32_t *word)
{
    uint32_t result;

    SNOW_SIBLING_PORT->peer = peer;
    SNOW_SIBLING_PORT->command = SNOW_RECEIVE;
    result = SNOW_SIBLING_PORT->result;
    if (result == 0)
        *word = SNOW_SIBLING_PORT->data;
    return result;
}

/* ---- Traps ---- */

/* What the default trap handler of crt0.S exits with: this and the cause of an exception, and 32 more for
 * an interrupt. It puts out `trap: cause C pc P value V` before. A guest has its own by a function
 *
 *     __attribute__((interrupt)) void snow_trap(void) { .. }
 *
 * which goes back to where the trap came, or by snow_set_trap. A trap that came while interrupts were on
 * turns them off until the handler returns. Where the stack has overflowed the default handler tells that,
 * with `stack overflow` before, in place of snow_trap. */
#define SNOW_TRAPPED 900000u
#define SNOW_TRAPPED_BY_TIMER (SNOW_TRAPPED + 32 + 7)
void snow_trap(void);

/* What a guest exits with that a signal ends: this and the number of the signal. abort ends it so, and with it an assert
 * that fails and a call of a pure virtual function; and raise or kill, of a signal that it does not handle. */
#define SNOW_SIGNALLED 910000u
#define SNOW_ABORTED (SNOW_SIGNALLED + 6)

/* The causes of exceptions. */
enum {
    SNOW_CAUSE_JUMP_MISALIGNED = 0,
    SNOW_CAUSE_FETCH = 1,
    SNOW_CAUSE_ILLEGAL = 2,
    SNOW_CAUSE_EBREAK = 3,
    SNOW_CAUSE_LOAD_MISALIGNED = 4,
    SNOW_CAUSE_LOAD = 5,
    SNOW_CAUSE_STORE_MISALIGNED = 6,
    SNOW_CAUSE_STORE = 7,
    SNOW_CAUSE_USER_ECALL = 8, /* from user mode */
    SNOW_CAUSE_ECALL = 11
};
#define SNOW_CAUSE_TIMER 0x80000007u

#define SNOW_READ_CSR(name) (__extension__({ \
    uint32_t csr_; \
    __asm__ volatile("csrr %0, " #name : "=r"(csr_) :: "memory"); \
    csr_; \
}))
#define SNOW_WRITE_CSR(name, value) __asm__ volatile("csrw " #name ", %0" :: "rK"(value) : "memory")

/* Sends traps to a handler from now on, also where the stack has overflowed. */
static inline void snow_set_trap(void (*handler)(void))
{
    SNOW_WRITE_CSR(mtvec, handler);
}

/* ---- The timer, at 0x02004000 ---- */

/* How many steps the clocks of the C library take for a second. */
#define SNOW_STEPS_A_SECOND 1000000

#define SNOW_TIMER_COMPARE ((volatile uint32_t *)0x02004000) /* mtimecmp, low half and high half */
#define SNOW_TIMER_TIME ((volatile uint32_t *)0x0200BFF8)    /* mtime, low half and high half */

/* Returns the time, which is how many steps this machine has made, those of its parents before it among
 * them, unless it wrote mtime. */
static inline uint64_t snow_time(void)
{
    uint32_t low, high;

    do {
        high = SNOW_TIMER_TIME[1];
        low = SNOW_TIMER_TIME[0];
    } while (high != SNOW_TIMER_TIME[1]);
    return (uint64_t)high << 32 | low;
}

/* Sets the time from which the timer is due. It stays due until a later time is set. A child starts with the
 * time of its parent. */
static inline void snow_set_timer(uint64_t time)
{
    SNOW_TIMER_COMPARE[1] = 0xFFFFFFFF; /* never due between the two stores */
    SNOW_TIMER_COMPARE[0] = (uint32_t)time;
    SNOW_TIMER_COMPARE[1] = (uint32_t)(time >> 32);
}

/* Lets the timer interrupt this machine where it is due, or no longer. */
static inline void snow_interrupts_on(void)
{
    __asm__ volatile("csrs mie, %0\n\tcsrsi mstatus, 8" :: "r"(128) : "memory");
}

static inline void snow_interrupts_off(void)
{
    __asm__ volatile("csrci mstatus, 8" ::: "memory");
}

/* Traps after so many steps from now on, once, unless snow_alarm_off is called before. With the default
 * handler this machine then exits with SNOW_TRAPPED_BY_TIMER. */
static inline void snow_alarm(uint64_t steps)
{
    snow_set_timer(snow_time() + steps);
    snow_interrupts_on();
}

static inline void snow_alarm_off(void)
{
    snow_interrupts_off();
    SNOW_TIMER_COMPARE[1] = 0xFFFFFFFF;
}

/* ---- Tasks: code that is not trusted, in user mode under memory protection ---- */

/* What a task may do in a region, joined by |. Where it may store it may load. */
enum {
    SNOW_LOAD = 1,
    SNOW_STORE = 3,
    SNOW_RUN = 4
};

/* A part of memory, RAM or ports, from one address up to but not another, both multiples of 4. */
struct snow_region {
    const volatile void *start, *end;
    uint32_t rights;
};

/* How many regions a task has. Where two overlap the first counts, and an empty one allows nothing. */
#define SNOW_REGIONS 4

/* The region of all code and constants of this guest, to run and to load. No variable lies there. */
#define SNOW_CODE {__code_start, __code_end, SNOW_LOAD | SNOW_RUN}
extern const uint32_t __code_start[], __code_end[];

/* How a task stopped. */
struct snow_stop {
    uint32_t cause; /* SNOW_CAUSE_TIMER, the cause of an exception, or SNOW_UNPROTECTED */
    uint32_t pc;    /* of the instruction that did it */
    uint32_t value; /* the address that it could not reach, or the word that is no instruction for it, or 0 */
    uint32_t a0;    /* the task's register: the value of its function, where that returned */
};

/* The task did not run: its regions are not in form, or the guest has locked an entry of protection. */
#define SNOW_UNPROTECTED 0xFFFFFFFFu

/* Returns whether a task stopped since its function returned, which leads to the address 0. */
static inline int snow_returned(const struct snow_stop *stop)
{
    return stop->cause == SNOW_CAUSE_FETCH && stop->pc == 0;
}

/* Makes entries of protection of the regions, two of each, as snow_user does. They bind user mode alone. Returns
 * whether they are made: the ends are multiples of 4, the rights those above, and no entry was locked. */
static inline int snow_protect(const struct snow_region regions[SNOW_AT_LEAST(SNOW_REGIONS)])
{
    uint32_t bytes[SNOW_REGIONS / 2] = {0}, wrong = 0;

    for (int i = 0; i < SNOW_REGIONS; i++) {
        wrong |= ((uint32_t)regions[i].start | (uint32_t)regions[i].end) % 4 | regions[i].rights / 8;
        bytes[i / 2] |= (8 | regions[i].rights) << (i % 2 ? 24 : 8); /* from the word of the entry before to its own */
    }
    if (wrong)
        return 0;
    SNOW_WRITE_CSR(pmpaddr0, (uint32_t)regions[0].start / 4);
    SNOW_WRITE_CSR(pmpaddr1, (uint32_t)regions[0].end / 4);
    SNOW_WRITE_CSR(pmpaddr2, (uint32_t)regions[1].start / 4);
    SNOW_WRITE_CSR(pmpaddr3, (uint32_t)regions[1].end / 4);
    SNOW_WRITE_CSR(pmpaddr4, (uint32_t)regions[2].start / 4);
    SNOW_WRITE_CSR(pmpaddr5, (uint32_t)regions[2].end / 4);
    SNOW_WRITE_CSR(pmpaddr6, (uint32_t)regions[3].start / 4);
    SNOW_WRITE_CSR(pmpaddr7, (uint32_t)regions[3].end / 4);
    SNOW_WRITE_CSR(pmpcfg0, bytes[0]);
    SNOW_WRITE_CSR(pmpcfg1, bytes[1]);
    /* a byte that was locked is not as it was written, and neither is one with stores and without loads */
    return SNOW_READ_CSR(pmpcfg0) == bytes[0] && SNOW_READ_CSR(pmpcfg1) == bytes[1];
}

/* What the guest may have for the ECALLs of its tasks, as snow_user says below. */
uint32_t snow_service(const uint32_t registers[8]);

/* What snow_user calls, in user.S. */
void snow_enter_user(uint32_t (*task)(void), void *stack, struct snow_stop *stop);

/* Runs a function as a task in user mode, with a stack that ends at an address, a multiple of 16, and tells how it
 * stopped: it returned, it did what it may not, or the timer came, which snow_alarm before this call sees to. The
 * task's registers are 0 at its start but for sp, gp and tp. Interrupts are off when this returns.
 *
 * An ECALL of the task is no stop where the guest has a function
 *
 *     uint32_t snow_service(const uint32_t registers[8]) { .. }
 *
 * It is given a0 to a7, and what it returns becomes a0. It runs in machine mode, where no entry binds it, and what it
 * is given is not trusted: snow_may tells whether the task itself may go to an address. A trap of its own goes to the
 * guest's handler. It does not call snow_user, whose regions would be those of the task. */
static inline struct snow_stop snow_user(uint32_t (*task)(void), void *stack,
                                         const struct snow_region regions[SNOW_AT_LEAST(SNOW_REGIONS)])
{
    struct snow_stop stop = {SNOW_UNPROTECTED, 0, 0, 0};

    snow_interrupts_off();
    if (snow_protect(regions))
        snow_enter_user(task, stack, &stop);
    return stop;
}

/* Returns whether a task may do this with all of so many bytes from an address on, which are in one region. */
static inline int snow_may(const struct snow_region regions[SNOW_AT_LEAST(SNOW_REGIONS)], uint32_t rights, uint32_t address,
                           uint32_t length)
{
    if (address + length < address)
        return 0;
    for (int i = 0; i < SNOW_REGIONS; i++) {
        uint32_t start = (uint32_t)regions[i].start, end = (uint32_t)regions[i].end;

        if (address < end && start < address + length)
            return start <= address && address + length <= end && (regions[i].rights & rights) == rights;
    }
    return 0;
}

/* For a task: asks its supervisor, by an ECALL with three registers and the number of a service in a7. */
static inline uint32_t snow_ask(uint32_t service, uint32_t a0, uint32_t a1, uint32_t a2)
{
    register uint32_t first __asm__("a0") = a0;
    register uint32_t second __asm__("a1") = a1;
    register uint32_t third __asm__("a2") = a2;
    register uint32_t number __asm__("a7") = service;

    __asm__ volatile("ecall" : "+r"(first) : "r"(second), "r"(third), "r"(number) : "memory");
    return first;
}

/* ---- The console, at 0x10000000, by bytes ---- */

#define SNOW_CONSOLE ((volatile uint8_t *)0x10000000) /* 0: data, 3: line control, 5: bit 0 where input is left */

/* Puts a byte out. */
static inline void snow_put(char byte)
{
    SNOW_CONSOLE[0] = (uint8_t)byte;
}

/* Returns the next byte of the input, or -1 where none is left. */
static inline int snow_get(void)
{
    return SNOW_CONSOLE[5] & 1 ? SNOW_CONSOLE[0] : -1;
}

/* Puts out a text, without a newline of its own. */
static inline void snow_print(const char *text)
{
    while (*text)
        snow_put(*text++);
}

/* Puts out a number in decimal. */
static inline void snow_print_number(uint32_t number)
{
    char digits[10];
    int count = 0;

    do
        digits[count++] = (char)('0' + number % 10);
    while (number /= 10);
    while (count)
        snow_put(digits[--count]);
}

/* Puts out a number in hexadecimal, eight digits. */
static inline void snow_print_hex(uint32_t number)
{
    for (int place = 28; place >= 0; place -= 4)
        snow_put("0123456789abcdef"[number >> place & 15]);
}

/* ---- The disk, by the block port at 0x10001000 ---- */

#define SNOW_SECTOR_WORDS 128 /* a sector is 512 bytes */

struct snow_block_port {
    uint32_t sector;     /* the number of a sector, from 0 */
    uint32_t command;    /* written: 1 reads the sector to the buffer, 2 writes the buffer to the sector */
    uint32_t status;     /* read: what became of the last command, as below */
    uint32_t count;      /* read: how many sectors the disk has */
    uint32_t unused[124];
    uint32_t buffer[SNOW_SECTOR_WORDS];
};

#define SNOW_BLOCK_PORT ((volatile struct snow_block_port *)0x10001000)

/* What became of a command of the block port. */
enum {
    SNOW_DISK_DONE = 0,
    SNOW_DISK_NO_SECTOR = 1, /* the disk has no such sector, and nothing was done */
    SNOW_DISK_NO_COMMAND = 2
};

/* Returns how many sectors the disk has. */
static inline uint32_t snow_sectors(void)
{
    return SNOW_BLOCK_PORT->count;
}

/* Reads a sector of this machine's own disk to 128 words. Returns SNOW_DISK_DONE, or SNOW_DISK_NO_SECTOR,
 * and then the words stay as they are. */
static inline uint32_t snow_disk_read(uint32_t sector, uint32_t *words)
{
    SNOW_BLOCK_PORT->sector = sector;
    SNOW_BLOCK_PORT->command = 1;
    if (SNOW_BLOCK_PORT->status != SNOW_DISK_DONE)
        return SNOW_BLOCK_PORT->status;
    for (int i = 0; i < SNOW_SECTOR_WORDS; i++)
        words[i] = SNOW_BLOCK_PORT->buffer[i];
    return SNOW_DISK_DONE;
}

/* Writes 128 words to a sector of this machine's own disk. No other machine sees it but the children that
 * it makes later, and no file is written. Returns SNOW_DISK_DONE or SNOW_DISK_NO_SECTOR. */
static inline uint32_t snow_disk_write(uint32_t sector, const uint32_t *words)
{
    for (int i = 0; i < SNOW_SECTOR_WORDS; i++)
        SNOW_BLOCK_PORT->buffer[i] = words[i];
    SNOW_BLOCK_PORT->sector = sector;
    SNOW_BLOCK_PORT->command = 2;
    return SNOW_BLOCK_PORT->status;
}

#ifdef __cplusplus
}
#endif

#endif
