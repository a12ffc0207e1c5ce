/* What picolibc asks of a system for a process: time, signals, memory, and that there is no other process. Nothing here
 * depends on the computer on which the machine runs, so each run comes out the same. */

#include <errno.h>
#include <signal.h>
#include <stdbool.h>
#include <stdlib.h>
#include <string.h>
#include <sys/time.h>
#include <sys/times.h>
#include <sys/wait.h>
#include <time.h>
#include <unistd.h>
#include "snow.h"

/* ---- Time: a step is a microsecond, and the first is at the time 0 ---- */

#define STEPS_A_SECOND ((uint64_t)SNOW_STEPS_A_SECOND)

_Static_assert(CLOCKS_PER_SEC == SNOW_STEPS_A_SECOND, "clock counts steps");

clock_t clock(void)
{
    return (clock_t)SNOW_READ_CSR(mcycle);
}

clock_t times(struct tms *told)
{
    clock_t steps = clock();

    if (told)
        *told = (struct tms){.tms_utime = steps};
    return steps;
}

int gettimeofday(struct timeval *restrict told, void *restrict zone)
{
    uint64_t steps = snow_time();

    (void)zone;
    told->tv_sec = (time_t)(steps / STEPS_A_SECOND);
    told->tv_usec = (suseconds_t)(steps % STEPS_A_SECOND);
    return 0;
}

time_t time(time_t *told)
{
    time_t seconds = (time_t)(snow_time() / STEPS_A_SECOND);

    if (told)
        *told = seconds;
    return seconds;
}

/* A machine that sleeps makes no steps, and its time goes on. */
static void pass(uint64_t steps)
{
    uint64_t time = snow_time() + steps;

    SNOW_TIMER_TIME[0] = 0; /* no carry between the two stores */
    SNOW_TIMER_TIME[1] = (uint32_t)(time >> 32);
    SNOW_TIMER_TIME[0] = (uint32_t)time;
}

unsigned sleep(unsigned seconds)
{
    pass(seconds * STEPS_A_SECOND);
    return 0;
}

int usleep(useconds_t microseconds)
{
    pass(microseconds);
    return 0;
}

/* ---- Signals: they come of raise, kill and abort alone ---- */

static _sig_func_ptr handlers[NSIG];

static bool is_signal(int number)
{
    return number > 0 && number < NSIG;
}

/* Ends the machine as a signal ends a process that does not handle it. */
static _Noreturn void end_by(int number)
{
    snow_print("ended by signal ");
    snow_print_number((uint32_t)number);
    snow_print(": ");
    snow_print(number == SIGABRT ? "Aborted" : strsignal(number));
    snow_put('\n');
    snow_exit(SNOW_SIGNALLED + (uint32_t)number);
}

/* Gives a signal to this machine. A handler is for one signal, and the next finds the default. */
static void deliver(int number)
{
    _sig_func_ptr handler = handlers[number];

    if (handler == SIG_IGN)
        return;
    if (handler == SIG_DFL) {
        if (number == SIGCHLD || number == SIGURG || number == SIGCONT || number == SIGWINCH)
            return;
        end_by(number);
    }
    handlers[number] = SIG_DFL;
    handler(number);
}

_sig_func_ptr signal(int number, _sig_func_ptr handler)
{
    _sig_func_ptr before;

    if (!is_signal(number) || number == SIGKILL || number == SIGSTOP) {
        errno = EINVAL;
        return SIG_ERR;
    }
    before = handlers[number];
    handlers[number] = handler;
    return before;
}

int raise(int number)
{
    if (!is_signal(number)) {
        errno = EINVAL;
        return -1;
    }
    deliver(number);
    return 0;
}

/* A machine knows of itself alone: 1 is the one that was booted, and child k of a ticket is k + 1. */
pid_t getpid(void)
{
    return (pid_t)snow_id() + 1;
}

int kill(pid_t process, int number)
{
    if (number != 0 && !is_signal(number))
        errno = EINVAL;
    else if (process != getpid())
        errno = ESRCH;
    else {
        if (number)
            deliver(number);
        return 0;
    }
    return -1;
}

_Noreturn void abort(void)
{
    deliver(SIGABRT);
    end_by(SIGABRT); /* also where it is ignored, or its handler returned */
}

/* ---- Memory ---- */

extern char __heap_start[], __heap_end[];

void *sbrk(ptrdiff_t size)
{
    static char *end = __heap_start;
    char *before = end;

    if (size < __heap_start - end || size > __heap_end - end) {
        errno = ENOMEM;
        return (void *)-1;
    }
    end += size;
    return before;
}

/* ---- What there is not: other programs, and chance ---- */

char **environ = (char *[]){NULL};

static int fail(int error)
{
    errno = error;
    return -1;
}

pid_t fork(void)
{
    return fail(ENOSYS);
}

int execve(const char *path, char *const arguments[], char *const environment[])
{
    (void)path, (void)arguments, (void)environment;
    return fail(ENOSYS);
}

pid_t wait(int *status)
{
    (void)status;
    return fail(ECHILD);
}

int getentropy(void *to, size_t length)
{
    (void)to, (void)length;
    return fail(ENOSYS);
}

/* ---- Traps ---- */

/* Addresses below this are those of null pointers, with the places of what they would point to. */
#define NULL_POINTER_BYTES 4096u

/* Returns what an access that neither RAM nor a port takes is likely to be. */
static const char *meaning_of_address(uint32_t address, const char *of_null, const char *other)
{
    if (address < NULL_POINTER_BYTES)
        return of_null;
    if (address >= SNOW_RAM && address < (uint32_t)(uintptr_t)__heap_end)
        return NULL;
    return other;
}

/* Returns the meaning of a trap for whoever wrote the guest, or NULL where RAM is smaller than it is laid out for. */
static const char *meaning_of(uint32_t cause, uint32_t value)
{
    switch (cause) {
    case SNOW_CAUSE_JUMP_MISALIGNED:
        return "a jump to an address that is no multiple of 4";
    case SNOW_CAUSE_FETCH:
        return meaning_of_address(value, "a call of a null pointer", "a jump to an address where there is no code");
    case SNOW_CAUSE_ILLEGAL:
        return "an instruction that the machine does not have";
    case SNOW_CAUSE_EBREAK:
        return "a breakpoint, or a place that the compiler takes for unreachable";
    case SNOW_CAUSE_LOAD_MISALIGNED:
        return "an unaligned load: the address is no multiple of the size";
    case SNOW_CAUSE_LOAD:
        return meaning_of_address(value, "a load by a null pointer", "a load from an address where there is no memory, or no register of this size");
    case SNOW_CAUSE_STORE_MISALIGNED:
        return "an unaligned store: the address is no multiple of the size";
    case SNOW_CAUSE_STORE:
        return meaning_of_address(value, "a store by a null pointer", "a store to an address where there is no memory, or no register of this size");
    case SNOW_CAUSE_TIMER:
        return "the alarm that the guest has set";
    default:
        return "a call of a system that there is not";
    }
}

/* Tells what the trap that comes to the default handler means, for crt0.S. */
void snow_explain_trap(bool is_stack_overflow)
{
    const char *meaning = meaning_of(SNOW_READ_CSR(mcause), SNOW_READ_CSR(mtval));

    if (is_stack_overflow)
        meaning = "the calls are nested too deep, or an array on the stack is too large (guest/cc --stack)";
    if (meaning) {
        snow_print(meaning);
    } else {
        snow_print("there is less RAM than the guest is laid out for: run it with --ram ");
        snow_print_number(((uint32_t)(uintptr_t)__heap_end - SNOW_RAM) / SNOW_PAGE_BYTES);
    }
    snow_put('\n');
}

/* Looks at the last word of RAM, which traps where it is not there: before it is wanted in the midst of a run. */
__attribute__((constructor(101))) static void look_for_ram(void)
{
    (void)*(volatile uint32_t *)((uintptr_t)__heap_end - sizeof(uint32_t));
}
