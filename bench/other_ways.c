// What a system's own ways to a second copy cost, for bench/other_ways:
//
//     other_ways WAY MEGABYTES TIMES
//
// It writes to each page of so much memory, and then makes a copy so many times, one after another. WAY is fork, a process; thread,
// which is no copy; or spawn, a process that runs this program anew. What is made writes to two of the pages and ends, as a child
// does in bench/clones; a spawned one just ends. It prints the microseconds of one: of the processor, those of the copy with it,
// and of the clock on the wall.

#include <pthread.h>
#include <spawn.h>
#include <stdio.h>
#include <stdlib.h>
#include <string.h>
#include <sys/resource.h>
#include <sys/wait.h>
#include <time.h>
#include <unistd.h>

extern char **environ;
enum { PAGE_SIZE = 4096, PAGES = 256 };
static volatile char *memory;

static void fail(const char *what)
{
    perror(what);
    exit(1);
}

static void *touch(void *unused)
{
    memory[0] = memory[PAGE_SIZE] = 1;
    return unused;
}

static void wait_for(pid_t child)
{
    int status;
    if (child < 0 || waitpid(child, &status, 0) != child || status != 0)
        fail("other_ways: a child");
}

static void make(const char *way, char *program)
{
    if (!strcmp(way, "fork")) {
        pid_t child = fork();
        if (child == 0) {
            touch(NULL);
            _exit(0);
        }
        wait_for(child);
    } else if (!strcmp(way, "thread")) {
        pthread_t thread;
        if (pthread_create(&thread, NULL, touch, NULL) || pthread_join(thread, NULL))
            fail("other_ways: a thread");
    } else {
        pid_t child;
        char *words[] = {program, NULL};
        if (posix_spawn(&child, program, NULL, NULL, words, environ))
            fail("other_ways: a program");
        wait_for(child);
    }
}

static double processor(int who)
{
    struct rusage used;
    getrusage(who, &used);
    return (used.ru_utime.tv_sec + used.ru_stime.tv_sec) * 1e6 + used.ru_utime.tv_usec + used.ru_stime.tv_usec;
}

static double used(void)
{
    return processor(RUSAGE_SELF) + processor(RUSAGE_CHILDREN);
}

static double wall(void)
{
    struct timespec now;
    clock_gettime(CLOCK_MONOTONIC, &now);
    return now.tv_sec * 1e6 + now.tv_nsec / 1e3;
}

int main(int count, char **words)
{
    if (count == 1)
        return 0;
    if (count != 4)
        return 2;
    size_t size = strtoul(words[2], NULL, 10) * PAGES * PAGE_SIZE;
    int times = atoi(words[3]);
    memory = malloc(size);
    if (!memory)
        fail("other_ways: memory");
    for (size_t at = 0; at < size; at += PAGE_SIZE)
        memory[at] = 1;
    make(words[1], words[0]);
    double used_before = used(), wall_before = wall();
    for (int each = 0; each < times; each++)
        make(words[1], words[0]);
    printf("%.3f %.3f\n", (used() - used_before) / times, (wall() - wall_before) / times);
    return 0;
}
