/* The command that tools/install puts beside the program, where there is a compiler: it begins the program with the settings for
 * memory. A second execve would cost an eighth of the smallest run. So it maps the program, and the dynamic loader that the program
 * names, into its own process as the system does, and enters the loader. What it does not know so it calls by execve after all. It
 * stands on no library, since a C library's start takes longer than all that it does. For Linux on x86-64, as the program itself. */

#include <elf.h>
#include <fcntl.h>
#include <linux/limits.h>
#include <signal.h>
#include <sys/mman.h>
#include <sys/resource.h>
#include <sys/syscall.h>

#define PAGE 4096UL
#define LOWER 256 /* How far below the stack that the system gives the program's begins. Between them the setting has its place. */
#define TEXT(number) TEXT_OF(number)
#define TEXT_OF(number) #number
#define CALL(...) system_call((const long[7]){__VA_ARGS__})

static const char setting[] = "GLIBC_TUNABLES=" TUNABLES;
static const char suffix[] = "-program";
static const char no_memory[] = "snow: want of memory\n";
static const char no_program[] = "snow: there is no snow-program beside this command\n";

_Static_assert(sizeof setting + sizeof(long) <= LOWER && LOWER % 16 == 0, "the setting has no place on the stack");

/* What a file begins with, and where it is mapped. */
struct image {
    struct headers {
        Elf64_Ehdr file;
        Elf64_Phdr parts[20];
    } headers;
    unsigned long base;
};

static long system_call(const long *words)
{
    register long r10 __asm__("r10") = words[4];
    register long r8 __asm__("r8") = words[5];
    register long r9 __asm__("r9") = words[6];
    long result = words[0];
    __asm__ volatile("syscall" : "+a"(result) : "D"(words[1]), "S"(words[2]), "d"(words[3]), "r"(r10), "r"(r8), "r"(r9) : "rcx", "r11", "memory");
    return result;
}

static void end(const char *said, long length, long status)
{
    CALL(SYS_write, 2, (long)said, length);
    CALL(SYS_exit_group, status);
}

/* Copies entries as far as a null. Returns what is behind it in the copy, and moves `from` there. */
static long *copy(long *to, long **from)
{
    do
        *to++ = **from;
    while (*(*from)++);
    return to;
}

static char *copy_text(char *to, const char *text)
{
    char *copied = to;
    while ((*to++ = *text++))
        ;
    return copied;
}

/* Whether an environment has an entry of the name of the setting. */
static int has_setting(long *environment)
{
    const char *entry, *at;
    for (; *environment; environment++) {
        for (entry = (const char *)*environment, at = setting; *at == *entry && *at != '='; at++, entry++)
            ;
        if (*at == *entry)
            return 1;
    }
    return 0;
}

static long rights(const Elf64_Phdr *part)
{
    return (part->p_flags & PF_R ? PROT_READ : 0) | (part->p_flags & PF_W ? PROT_WRITE : 0) | (part->p_flags & PF_X ? PROT_EXEC : 0);
}

static int maps(unsigned long place, unsigned long length, long allowed, long flags, long file, long offset)
{
    return CALL(SYS_mmap, place, length, allowed, MAP_PRIVATE | MAP_FIXED | flags, file, offset) == (long)place;
}

/* Maps a part of a file. What it has beyond the file is zero, and so is the rest of that page, which the loader takes as its first
 * memory. Pages to be written are had at once, since the loader writes to nearly all of them. */
static int map_part(const Elf64_Phdr *part, unsigned long base, long file)
{
    unsigned long place = base + part->p_vaddr, skew = place % PAGE, filled = place + part->p_filesz, end = place + part->p_memsz;
    unsigned long page = (filled + PAGE - 1) / PAGE * PAGE;
    int is_written = (part->p_flags & PF_W) != 0;

    if (!maps(place - skew, skew + part->p_filesz, rights(part), is_written ? MAP_POPULATE : 0, file, part->p_offset - skew))
        return 0;
    if (end == filled)
        return 1;
    for (volatile char *byte = (char *)filled; is_written && byte < (char *)page; byte++)
        *byte = 0;
    return is_written && (end <= page || maps(page, end - page, rights(part), MAP_ANONYMOUS, -1, 0));
}

/* The part of a kind that is the first, or the last, or null. */
static const Elf64_Phdr *find(const struct headers *headers, unsigned kind, int is_last)
{
    const Elf64_Phdr *found = 0;
    for (unsigned part = 0; part < headers->file.e_phnum && (is_last || !found); part++)
        if (headers->parts[part].p_type == kind)
            found = headers->parts + part;
    return found;
}

/* Whether a file that begins so can be anywhere in memory. */
static int is_known(const struct headers *headers)
{
    const Elf64_Ehdr *file = &headers->file;
    return file->e_ident[EI_MAG0] == ELFMAG0 && file->e_ident[EI_CLASS] == ELFCLASS64 && file->e_type == ET_DYN && file->e_machine == EM_X86_64
        && file->e_phoff == sizeof *file && file->e_phentsize == sizeof *headers->parts
        && file->e_phnum <= sizeof headers->parts / sizeof *headers->parts;
}

/* Maps a file where the system likes: the first part, which begins it, as far as the last will reach, and the others over that. */
static int map_parts(struct image *image, long file)
{
    const Elf64_Phdr *after = image->headers.parts + image->headers.file.e_phnum;
    const Elf64_Phdr *first = find(&image->headers, PT_LOAD, 0), *last = find(&image->headers, PT_LOAD, 1);

    if (!first || first->p_vaddr || first->p_offset)
        return 0;
    image->base = CALL(SYS_mmap, 0, last->p_vaddr + last->p_memsz, rights(first), MAP_PRIVATE, file, 0);
    if ((long)image->base < 0)
        return 0;
    for (const Elf64_Phdr *part = first + 1; part < after; part++)
        if (part->p_type == PT_LOAD && !map_part(part, image->base, file))
            return 0;
    return 1;
}

static int map_file(const char *path, struct image *image)
{
    long file = CALL(SYS_open, (long)path, O_RDONLY | O_CLOEXEC), size = sizeof image->headers;
    int is_mapped = CALL(SYS_read, file, (long)&image->headers, size) == size && is_known(&image->headers) && map_parts(image, file);

    CALL(SYS_close, file);
    return is_mapped;
}

/* Sets a value of the auxiliary vector, by which the system tells the loader where all is. */
static void tell(Elf64_auxv_t *auxiliary, unsigned long kind, unsigned long value)
{
    for (; auxiliary->a_type != AT_NULL; auxiliary++)
        if (auxiliary->a_type == kind)
            auxiliary->a_un.a_val = value;
}

/* Maps the program and its loader, and tells the loader of both. Returns where the loader begins, or 0 where that cannot be done. */
static unsigned long map_program(const char *path, Elf64_auxv_t *auxiliary)
{
    struct image program, loader;
    const Elf64_Phdr *parts, *name;

    if (!map_file(path, &program))
        return 0;
    parts = find(&program.headers, PT_PHDR, 0);
    name = find(&program.headers, PT_INTERP, 0);
    if (!parts || !name || !map_file((char *)program.base + name->p_vaddr, &loader))
        return 0;
    tell(auxiliary, AT_PHDR, program.base + parts->p_vaddr);
    tell(auxiliary, AT_PHNUM, program.headers.file.e_phnum);
    tell(auxiliary, AT_ENTRY, program.base + program.headers.file.e_entry);
    tell(auxiliary, AT_BASE, loader.base);
    return loader.base + loader.headers.file.e_entry;
}

/* Returns where the loader begins, or calls the program. Its room on the stack is taken once there is known to be some. */
__attribute__((noinline)) static unsigned long begin_program(long *words, long *environment, long *auxiliary)
{
    char path[PATH_MAX + sizeof suffix];
    long length = CALL(SYS_readlink, (long)"/proc/self/exe", (long)path, PATH_MAX);

    if (length > 0) {
        copy_text(path + length, suffix);
        unsigned long loader = map_program(path, (Elf64_auxv_t *)auxiliary);
        if (loader)
            return loader;
        CALL(SYS_execve, (long)path, (long)words, (long)environment);
    }
    end(no_program, sizeof no_program - 1, 127);
    return 0;
}

/* Has the stack as the system leaves it: the number of words, the words and a null, the environment and a null, and the auxiliary
 * vector. Moves that to a lower place, with the setting in the environment where none of its name is there, and returns where the
 * loader begins. */
__attribute__((used)) static unsigned long begin(long *from, long *to)
{
    long *words, *environment, *auxiliary, limits[2], ignored[4] = {(long)SIG_IGN};

    /* A smaller stack is answered as the program does, which needs 20 KiB of it to find out. */
    if (!CALL(SYS_prlimit64, 0, RLIMIT_STACK, 0, (long)limits) && (unsigned long)limits[0] < LEAST_STACK)
        end(no_memory, sizeof no_memory - 1, 6);

    /* A file that may grow no more is a write fault. */
    CALL(SYS_rt_sigaction, SIGXFSZ, (long)ignored, 0, 8);

    *to++ = *from++;
    words = to;
    environment = to = copy(to, &from);
    int is_set = has_setting(from);
    auxiliary = to = copy(is_set ? to : to + 1, &from);
    do {
        *to++ = *from++;
        *to++ = *from++;
    } while (to[-2] != AT_NULL);
    if (!is_set)
        *environment = (long)copy_text((char *)to, setting);
    return begin_program(words, environment, auxiliary);
}

/* The loader gets the stack from its lowest entry on. */
__asm__(".globl _start\n"
        "_start:\n"
        "    mov %rsp, %rdi\n"
        "    sub $" TEXT(LOWER) ", %rsp\n"
        "    mov %rsp, %rsi\n"
        "    call begin\n"
        "    xor %edx, %edx\n"
        "    jmp *%rax\n");
