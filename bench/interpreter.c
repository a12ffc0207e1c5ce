// A plain interpreter of RV32IM over flat RAM, written without a thought of speed: a peer beside which
// bench/steps_per_second and bench/clones measure the program. It runs a machine from an image of one segment, and what
// comes from it by forks, each to the same limit of steps, and writes the report:
//
//     interpreter IMAGE LIMIT [PAGES]
//
// A child is a copy of the whole machine, and is run to its end where it is made, in the room of the last one that ended. It
// has traps, the CSRs that the guests of the benchmarks use, the console's output, and of the fork port TICKET, CLONE, JOIN
// and EXIT with the values of children; it has no timer, no disk, no atomic instruction and no allot.

#include <stdint.h>
#include <stdio.h>
#include <stdlib.h>
#include <string.h>

enum { PAGE_SIZE = 4096, DEEPEST = 16, LONGEST_NAME = 400 };
static const uint32_t BASE = 0x80000000, CONSOLE = 0x10000000, FORK = 0x10002000;

static uint8_t *ram;
static uint32_t ram_size = 64 * PAGE_SIZE;
static uint32_t x[32], pc, mtvec, mepc, mcause, mtval, mscratch;
static uint32_t arg0, arg1, result, clone_id, selected;
static uint64_t steps, retired, limit;
static uint8_t *output;
static size_t output_length, output_room;

// The tickets of the machine, by their number, and the one that was joined last. A child's value is its ending's, or 0.
struct ticket { uint32_t children, *values, *kinds; };
static struct ticket *tickets;
static uint32_t last_ticket, joined;
static int has_ended;
static char name[LONGEST_NAME] = "0";
static int depth;

// The lines of all machines that have ended, but the one that runs and those that it came from.
static char *lines;
static size_t lines_length, lines_room;

static void *grown(void *bytes, size_t length, size_t *room) {
    if (length <= *room) return bytes;
    *room = length < 4096 ? 4096 : 2 * length;
    bytes = realloc(bytes, *room);
    if (!bytes) exit(1);
    return bytes;
}

static int in_ram(uint32_t address) { return address - BASE < ram_size; }

static uint32_t load(uint32_t address, int width) {
    uint32_t value = 0;
    memcpy(&value, ram + (address - BASE), width);
    return value;
}

static void trap(uint32_t cause, uint32_t value) {
    mepc = pc;
    mcause = cause;
    mtval = value;
    pc = mtvec & ~3u;
}

static void put_out(uint8_t byte) {
    output = grown(output, output_length + 1, &output_room);
    output[output_length++] = byte;
}

static uint32_t *csr(uint32_t number) {
    static uint32_t count;
    switch (number) {
    case 0x305: return &mtvec;
    case 0x340: return &mscratch;
    case 0x341: return &mepc;
    case 0x342: return &mcause;
    case 0x343: return &mtval;
    case 0xB00: count = (uint32_t)steps; return &count;
    case 0xB02: count = (uint32_t)retired; return &count;
    default: return NULL;
    }
}

static uint32_t multiply(int kind, uint32_t a, uint32_t b) {
    int32_t signed_a = (int32_t)a, signed_b = (int32_t)b;
    switch (kind) {
    case 0: return a * b;
    case 1: return (uint32_t)(((int64_t)signed_a * signed_b) >> 32);
    case 2: return (uint32_t)(((int64_t)signed_a * (int64_t)(uint64_t)b) >> 32);
    case 3: return (uint32_t)(((uint64_t)a * b) >> 32);
    case 4: return b == 0 ? ~0u : a == 0x80000000u && b == ~0u ? a : (uint32_t)(signed_a / signed_b);
    case 5: return b == 0 ? ~0u : a / b;
    case 6: return b == 0 ? a : a == 0x80000000u && b == ~0u ? 0 : (uint32_t)(signed_a % signed_b);
    default: return b == 0 ? a : a % b;
    }
}

static uint32_t compute(int kind, int other, uint32_t a, uint32_t b) {
    switch (kind) {
    case 0: return other ? a - b : a + b;
    case 1: return a << (b & 31);
    case 2: return (int32_t)a < (int32_t)b;
    case 3: return a < b;
    case 4: return a ^ b;
    case 5: return other ? (uint32_t)((int32_t)a >> (b & 31)) : a >> (b & 31);
    case 6: return a | b;
    default: return a & b;
    }
}

static int is_taken(int kind, uint32_t a, uint32_t b) {
    switch (kind) {
    case 0: return a == b;
    case 1: return a != b;
    case 4: return (int32_t)a < (int32_t)b;
    case 5: return (int32_t)a >= (int32_t)b;
    case 6: return a < b;
    default: return a >= b;
    }
}

static void run(void);

static void add_line(const char *ending, uint32_t value) {
    lines = grown(lines, lines_length + LONGEST_NAME + 100 + output_length, &lines_room);
    lines_length += sprintf(lines + lines_length, "machine %s %s", name, ending);
    if (*ending == 'e') lines_length += sprintf(lines + lines_length, " %u", value);
    lines_length += sprintf(lines + lines_length, " steps %llu out %zu\n", (unsigned long long)steps, output_length);
    memcpy(lines + lines_length, output, output_length);
    lines_length += output_length;
    lines[lines_length++] = '\n';
}

// What a machine keeps beside its RAM while another one runs.
struct kept {
    uint8_t *ram, *output;
    size_t output_length, output_room, name_length;
    uint32_t x[32], pc, mtvec, mepc, mcause, mtval, mscratch, arg0, arg1, result, clone_id, selected, last_ticket, joined;
    struct ticket *tickets;
    uint64_t steps, retired;
};

// Runs child k of a ticket to its end, and goes on with its parent.
static void run_child(uint32_t number, uint32_t k) {
    static uint8_t *rooms[DEEPEST];
    if (depth == DEEPEST || (!rooms[depth] && !(rooms[depth] = malloc(ram_size)))) exit(1);
    struct kept parent = {ram, output, output_length, output_room, strlen(name), {0}, pc, mtvec, mepc, mcause, mtval, mscratch,
        arg0, arg1, result, clone_id, selected, last_ticket, joined, tickets, steps, retired};
    memcpy(parent.x, x, sizeof x);
    ram = memcpy(rooms[depth++], ram, ram_size);
    snprintf(name + parent.name_length, LONGEST_NAME - parent.name_length, ".%u.%u", number, k);
    output = NULL, output_length = output_room = 0, tickets = NULL, last_ticket = joined = selected = 0;
    clone_id = k, result = 0, pc += 4, steps++, retired++;
    run();
    parent.tickets[number].kinds[k - 1] = has_ended ? 1 : 2;
    parent.tickets[number].values[k - 1] = has_ended ? arg0 : 0;
    for (uint32_t one = 1; one <= last_ticket; one++) free(tickets[one].kinds), free(tickets[one].values);
    free(output), free(tickets);
    has_ended = 0, name[parent.name_length] = 0, depth--;
    memcpy(x, parent.x, sizeof x);
    ram = parent.ram, output = parent.output, output_length = parent.output_length, output_room = parent.output_room;
    pc = parent.pc, mtvec = parent.mtvec, mepc = parent.mepc, mcause = parent.mcause, mtval = parent.mtval;
    mscratch = parent.mscratch, arg0 = parent.arg0, arg1 = parent.arg1, result = parent.result, clone_id = parent.clone_id;
    selected = parent.selected, last_ticket = parent.last_ticket, joined = parent.joined, tickets = parent.tickets;
    steps = parent.steps, retired = parent.retired;
}

static void command(uint32_t number) {
    switch (number) {
    case 1:
        tickets = realloc(tickets, (last_ticket + 2) * sizeof *tickets);
        if (!tickets) exit(1);
        result = ++last_ticket;
        tickets[result] = (struct ticket){arg0, calloc(arg0, 4), calloc(arg0, 4)};
        if (!tickets[result].values || !tickets[result].kinds) exit(1);
        break;
    case 2:
        for (uint32_t k = 1; k <= tickets[arg0].children; k++) run_child(arg0, k);
        result = 0;
        break;
    case 3: joined = arg0, result = tickets[arg0].children; break;
    case 5: has_ended = 1; break;
    default: exit(1);
    }
}

static int store_fork(uint32_t offset, uint32_t value) {
    switch (offset) {
    case 0: arg0 = value; return 1;
    case 4: arg1 = value; return 1;
    case 8: command(value); return 1;
    case 24: selected = value; return 1;
    default: return 0;
    }
}

static uint32_t load_fork(uint32_t offset) {
    int is_child = joined && selected - 1 < tickets[joined].children;
    switch (offset) {
    case 0: return arg0;
    case 4: return arg1;
    case 12: return result;
    case 16: return clone_id;
    case 24: return selected;
    case 28: return is_child ? tickets[joined].kinds[selected - 1] : 0;
    case 32: return is_child ? tickets[joined].values[selected - 1] : 0;
    default: exit(1);
    }
}

// Makes one step. Answers whether an instruction retired.
static int step(void) {
    if (!in_ram(pc)) return trap(1, pc), 0;
    uint32_t word = load(pc, 4), next = pc + 4;
    uint32_t rd = word >> 7 & 31, kind = word >> 12 & 7, a = x[word >> 15 & 31], b = x[word >> 20 & 31];
    int32_t immediate = (int32_t)word >> 20;
    uint32_t value = 0, address, *at;
    int writes = 1;
    switch (word & 0x7F) {
    case 0x37: value = word & 0xFFFFF000; break;
    case 0x17: value = pc + (word & 0xFFFFF000); break;
    case 0x6F:
        value = next;
        next = pc + (uint32_t)(((int32_t)word >> 31 << 20) | (int32_t)(word & 0xFF000) | (word >> 9 & 0x800) | (word >> 20 & 0x7FE));
        break;
    case 0x67: value = next; next = (a + immediate) & ~1u; break;
    case 0x63:
        writes = 0;
        if (is_taken(kind, a, b))
            next = pc + (uint32_t)(((int32_t)word >> 31 << 12) | (word << 4 & 0x800) | (word >> 20 & 0x7E0) | (word >> 7 & 0x1E));
        break;
    case 0x03:
        address = a + immediate;
        if (address & ((1u << (kind & 3)) - 1)) return trap(4, address), 0;
        if (address - FORK < 128 && kind == 2) value = load_fork(address - FORK);
        else if (!in_ram(address)) return trap(5, address), 0;
        else value = load(address, 1 << (kind & 3));
        if (kind == 0) value = (uint32_t)(int8_t)value;
        if (kind == 1) value = (uint32_t)(int16_t)value;
        break;
    case 0x23:
        writes = 0;
        address = a + (uint32_t)(((int32_t)word >> 25 << 5) | (word >> 7 & 31));
        if (address & ((1u << kind) - 1)) return trap(6, address), 0;
        if (address == CONSOLE && kind == 0) put_out((uint8_t)b);
        else if (kind == 2 && store_fork(address - FORK, b)) break;
        else if (!in_ram(address)) return trap(7, address), 0;
        else memcpy(ram + (address - BASE), &b, 1 << kind);
        break;
    case 0x13: value = compute(kind, kind == 5 && word >> 30, a, immediate); break;
    case 0x33: value = word >> 25 == 1 ? multiply(kind, a, b) : compute(kind, word >> 30, a, b); break;
    case 0x0F: writes = 0; break;
    case 0x73:
        at = csr(word >> 20);
        if (!(kind & 3) || !at) return trap(2, word), 0;
        value = *at;
        if (kind & 4) a = word >> 15 & 31;
        if ((kind & 3) == 1) *at = a;
        if ((kind & 3) == 2) *at |= a;
        if ((kind & 3) == 3) *at &= ~a;
        break;
    default: return trap(2, word), 0;
    }
    if (next & 3) return trap(0, next), 0;
    if (writes && rd) x[rd] = value;
    pc = next;
    return 1;
}

// Runs the machine to its end, and puts its line before those of its children.
static void run(void) {
    size_t before = lines_length;
    while (!has_ended && steps < limit) {
        retired += step();
        steps++;
    }
    size_t middle = lines_length;
    add_line(has_ended ? "exit" : "limit", arg0);
    if (middle == before) return;
    size_t line = lines_length - middle;
    lines = grown(lines, lines_length + line, &lines_room);
    memmove(lines + before + line, lines + before, lines_length - before);
    memcpy(lines + before, lines + lines_length, line);
}

int main(int count, char **words) {
    FILE *file = count == 3 || count == 4 ? fopen(words[1], "rb") : NULL;
    if (!file) return 2;
    uint8_t header[84];
    limit = strtoull(words[2], NULL, 10);
    if (count == 4) ram_size = strtoul(words[3], NULL, 10) * PAGE_SIZE;
    ram = calloc(ram_size, 1);
    if (!ram || fread(header, 1, 84, file) != 84 || fread(ram, 1, ram_size, file) == 0) return 2;
    fclose(file);
    pc = BASE;
    run();
    fwrite(lines, 1, lines_length, stdout);
    return 0;
}
