/* The files of the disk, where it is a tar archive: blocks of 512 bytes, which are its sectors. A header of one block tells
 * of a file, and the file's bytes follow it in whole blocks; a block of zeros is the end. POSIX, "pax", section "ustar
 * Interchange Format", has the header, and "pax Interchange Format" the records for what has no room in it. GNU tar puts
 * longer names into files of its own, of type L and K, before the file that they belong to. */

#include <errno.h>
#include <stdlib.h>
#include <string.h>
#include <tar.h>
#include "archive.h"
#include "snow.h"

enum {
    SECTOR_BYTES = 4 * SNOW_SECTOR_WORDS,
    READ_SECTOR = 1,
    MOST_LINKS = 8, /* how many links lead to a file at most */
    PERMISSIONS = 0777,
    MODE_OF_DIRECTORY = 0755, /* where it has no header */
    ROOM_AT_FIRST = 32
};

/* The types of headers that <tar.h> has no names for: more of the next file, and more of all files that follow. */
enum {
    LONG_NAME = 'L',
    LONG_TARGET = 'K',
    RECORDS = 'x',
    RECORDS_OF_ALL = 'g'
};

struct header {
    char name[100], mode[8], user[8], group[8], size[12], modified[12], checksum[8], type, target[100];
    char magic[TMAGLEN], version[TVERSLEN], user_name[32], group_name[32], major[8], minor[8], prefix[155], unused[12];
};

union block {
    uint32_t words[SNOW_SECTOR_WORDS];
    uint8_t bytes[SECTOR_BYTES];
    struct header header;
};

_Static_assert(sizeof(union block) == SECTOR_BYTES, "a header is a sector");

static struct {
    struct archive_entry *entries; /* by name, each name once */
    uint32_t count, room;
    bool is_walked;
    bool is_damaged; /* the walk came to what is no header, or to the end of the disk within a file */
} archive;

/* What headers before that of a file tell of it. */
struct ahead {
    char *name, *target;
    uint32_t size;
    bool has_size;
};

/* ---- Paths ---- */

/* Appends parts of a path to a plain path of some length, which has room for ARCHIVE_PATH bytes. Returns its length, or -1
 * where it is too long. */
static int append_path(char *plain, int length, const char *path)
{
    while (*path) {
        size_t part = strcspn(path, "/");

        if (part == 2 && path[0] == '.' && path[1] == '.') {
            while (length > 0 && plain[--length] != '/')
                ;
        } else if (part > 1 || (part == 1 && path[0] != '.')) {
            if (length + 1 + part >= ARCHIVE_PATH)
                return -1;
            if (length)
                plain[length++] = '/';
            memcpy(plain + length, path, part);
            length += (int)part;
        }
        path += part + (path[part] == '/');
    }
    plain[length] = '\0';
    return length;
}

/* Returns the length of the directory of a plain path, which is 0 where that is the root. */
static int directory_length(const char *name)
{
    const char *slash = strrchr(name, '/');

    return slash ? (int)(slash - name) : 0;
}

/* ---- The walk ---- */

/* Returns the number of an octal field. What is not octal, as sizes from 8 GiB on are not, is no number. */
static bool octal(const char *field, size_t size, uint32_t *number)
{
    size_t at = 0;

    while (at < size && field[at] == ' ')
        at++;
    for (*number = 0; at < size && field[at] >= '0' && field[at] <= '7'; at++)
        *number = *number << 3 | (uint32_t)(field[at] - '0');
    return at == size || field[at] == ' ' || field[at] == '\0';
}

/* Returns whether a block is a header: the sum of its bytes is the one that it tells, which counts as spaces. */
static bool is_header(const union block *block)
{
    const struct header *header = &block->header;
    uint32_t told, sum = 0;

    if (!octal(header->checksum, sizeof header->checksum, &told))
        return false;
    for (int i = 0; i < SECTOR_BYTES; i++)
        sum += block->bytes[i];
    for (size_t i = 0; i < sizeof header->checksum; i++)
        sum += ' ' - (uint8_t)header->checksum[i];
    return sum == told;
}

static bool is_zero(const union block *block)
{
    uint32_t any = 0;

    for (int i = 0; i < SNOW_SECTOR_WORDS; i++)
        any |= block->words[i];
    return any == 0;
}

/* Returns a copy of a text that ends at a zero byte or behind so many bytes, or NULL. */
static char *copy_text(const char *text, size_t most)
{
    size_t length = strnlen(text, most);
    char *copy = malloc(length + 1);

    if (copy) {
        memcpy(copy, text, length);
        copy[length] = '\0';
    }
    return copy;
}

/* Adds an entry, whose plain name is copied. Returns whether there was room. */
static bool add_entry(const struct archive_entry *entry, const char *name, int length)
{
    struct archive_entry *grown;
    char *copy;

    if (archive.count == archive.room) {
        uint32_t room = archive.room ? 2 * archive.room : ROOM_AT_FIRST;

        grown = realloc(archive.entries, room * sizeof *grown);
        if (!grown)
            return false;
        archive.entries = grown;
        archive.room = room;
    }
    copy = copy_text(name, (size_t)length);
    if (!copy)
        return false;
    archive.entries[archive.count] = *entry;
    archive.entries[archive.count++].name = copy;
    return true;
}

/* Adds an entry, and the directories that it lies in, which need no headers. Those of the entry before it are there. */
static bool add_with_directories(const struct archive_entry *entry, const char *name)
{
    static const struct archive_entry directory = {.kind = ARCHIVE_DIRECTORY, .mode = MODE_OF_DIRECTORY};
    const char *before = archive.count ? archive.entries[archive.count - 1].name : "";
    int length = directory_length(name);

    if (strncmp(before, name, (size_t)length) != 0 || (before[length] != '/' && before[length] != '\0'))
        for (const char *slash = strchr(name, '/'); slash; slash = strchr(slash + 1, '/'))
            if (!add_entry(&directory, name, (int)(slash - name)))
                return false;
    return add_entry(entry, name, (int)strlen(name));
}

/* Returns the kind of an entry by the type of its header, or -1 for what is neither file nor directory nor link. */
static int kind_of(char type)
{
    switch (type) {
    case AREGTYPE:
    case REGTYPE:
    case CONTTYPE:
        return ARCHIVE_FILE;
    case DIRTYPE:
        return ARCHIVE_DIRECTORY;
    case SYMTYPE:
        return ARCHIVE_SYMBOLIC_LINK;
    case LNKTYPE:
        return ARCHIVE_HARD_LINK;
    default:
        return -1;
    }
}

/* Returns the whole name that a header tells, in a buffer: behind its prefix, which is there in the format of POSIX alone. */
static const char *name_of(const struct header *header, char buffer[sizeof header->prefix + sizeof header->name + 2])
{
    size_t length = 0;

    if (memcmp(header->magic, TMAGIC, TMAGLEN) == 0 && header->prefix[0]) {
        length = strnlen(header->prefix, sizeof header->prefix);
        memcpy(buffer, header->prefix, length);
        buffer[length++] = '/';
    }
    memcpy(buffer + length, header->name, sizeof header->name);
    buffer[length + sizeof header->name] = '\0';
    return buffer;
}

/* Keeps what a header tells of a file whose bytes begin at a sector. Returns whether there was room. */
static bool keep_file(const struct header *header, struct ahead *ahead, uint32_t sector, uint32_t size)
{
    char whole[sizeof header->prefix + sizeof header->name + 2], plain[ARCHIVE_PATH];
    const char *name = ahead->name ? ahead->name : name_of(header, whole);
    struct archive_entry entry = {.sector = sector, .size = size};
    int kind = kind_of(header->type);
    uint32_t mode = 0;

    /* before POSIX a directory was a file with a slash at the end of its name */
    if (header->type == AREGTYPE && *name && name[strlen(name) - 1] == '/')
        kind = ARCHIVE_DIRECTORY;
    if (kind < 0 || append_path(plain, 0, name) <= 0)
        return true;
    entry.kind = (uint8_t)kind;
    if (octal(header->mode, sizeof header->mode, &mode))
        entry.mode = mode & PERMISSIONS;
    octal(header->modified, sizeof header->modified, &entry.modified);
    if (kind != ARCHIVE_FILE)
        entry.size = 0;
    if (kind == ARCHIVE_SYMBOLIC_LINK || kind == ARCHIVE_HARD_LINK) {
        entry.target = ahead->target ? copy_text(ahead->target, ARCHIVE_PATH) : copy_text(header->target, sizeof header->target);
        if (!entry.target)
            return false;
    }
    return add_with_directories(&entry, plain);
}

/* Puts a text in the place of another that was allocated. Returns whether there was room. */
static bool replace_text(char **text, const char *by, size_t most)
{
    free(*text);
    *text = copy_text(by, most);
    return *text != NULL;
}

/* Takes what records tell of the next file, each as `LENGTH KEY=VALUE` and a newline. Returns whether there was room. */
static bool take_records(char *text, size_t size, struct ahead *ahead)
{
    static const char path[] = "path=", target[] = "linkpath=", bytes[] = "size=";

    while (size) {
        char *end, *key;
        size_t length = strtoul(text, &end, 10);

        if (*end != ' ' || length > size || text + length <= end + 1)
            return true;
        key = end + 1;
        text[length - 1] = '\0';
        if (strncmp(key, path, sizeof path - 1) == 0 && !replace_text(&ahead->name, key + sizeof path - 1, ARCHIVE_PATH))
            return false;
        if (strncmp(key, target, sizeof target - 1) == 0 && !replace_text(&ahead->target, key + sizeof target - 1, ARCHIVE_PATH))
            return false;
        if (strncmp(key, bytes, sizeof bytes - 1) == 0) {
            ahead->size = strtoul(key + sizeof bytes - 1, NULL, 10);
            ahead->has_size = true;
        }
        text += length;
        size -= length;
    }
    return true;
}

/* Takes what a header that is no file's tells of the next file, by its bytes from a sector on. Returns whether there was room. */
static bool take_ahead(char type, uint32_t sector, uint32_t size, struct ahead *ahead)
{
    const struct archive_entry content = {.sector = sector, .size = size};
    char *text = malloc(size + 1);
    bool taken = true;

    if (!text)
        return false;
    archive_read(&content, 0, text, size);
    text[size] = '\0';
    if (type == LONG_NAME)
        taken = replace_text(&ahead->name, text, ARCHIVE_PATH);
    else if (type == LONG_TARGET)
        taken = replace_text(&ahead->target, text, ARCHIVE_PATH);
    else
        taken = take_records(text, size, ahead);
    free(text);
    return taken;
}

static void forget_ahead(struct ahead *ahead)
{
    free(ahead->name);
    free(ahead->target);
    *ahead = (struct ahead){0};
}

/* Takes a header, behind which the sector is. Moves that behind the bytes of its file. Returns whether there was room. */
static bool take_header(const struct header *header, struct ahead *ahead, uint32_t *sector)
{
    uint32_t size, from = *sector, left = snow_sectors() - from;
    bool is_ahead = header->type == LONG_NAME || header->type == LONG_TARGET || header->type == RECORDS;
    bool kept;

    if (!octal(header->size, sizeof header->size, &size)) {
        archive.is_damaged = true;
        return true;
    }
    if (ahead->has_size && !is_ahead)
        size = ahead->size;
    /* directories and links have a size in some archives, and bytes in none */
    if (header->type >= LNKTYPE && header->type <= FIFOTYPE)
        size = 0;
    archive.is_damaged = (size + SECTOR_BYTES - 1) / SECTOR_BYTES > left;
    if (!archive.is_damaged)
        *sector += (size + SECTOR_BYTES - 1) / SECTOR_BYTES;
    if (is_ahead)
        return archive.is_damaged || take_ahead(header->type, from, size, ahead);
    kept = header->type == RECORDS_OF_ALL || keep_file(header, ahead, from, size);
    forget_ahead(ahead);
    return kept;
}

/* Compares entries by name. Of one name the entry that the archive has last comes first, since it replaces the others. */
static int compare_entries(const void *one, const void *other)
{
    const struct archive_entry *a = one, *b = other;
    int order = strcmp(a->name, b->name);

    return order ? order : (a->sector < b->sector) - (a->sector > b->sector);
}

static void forget_entry(struct archive_entry *entry)
{
    free(entry->name);
    free(entry->target);
}

/* Puts the entries in order, and keeps one of each name. */
static void order_entries(void)
{
    uint32_t kept = 0;

    qsort(archive.entries, archive.count, sizeof *archive.entries, compare_entries);
    for (uint32_t at = 0; at < archive.count; at++)
        if (kept && strcmp(archive.entries[kept - 1].name, archive.entries[at].name) == 0)
            forget_entry(&archive.entries[at]);
        else
            archive.entries[kept++] = archive.entries[at];
    archive.count = kept;
}

static void forget_walk(void)
{
    while (archive.count)
        forget_entry(&archive.entries[--archive.count]);
    free(archive.entries);
    archive.entries = NULL;
    archive.room = 0;
}

/* Walks the headers. Returns whether there was room for what they tell. A disk of which not even the first sector is a
 * header, or the end of an empty archive, has no entries: not even a root. */
static bool walk(void)
{
    static const struct archive_entry root = {.kind = ARCHIVE_DIRECTORY, .mode = MODE_OF_DIRECTORY};
    struct ahead ahead = {0};
    union block block;
    uint32_t sector = 0;
    bool has_room = true;

    while (has_room && !archive.is_damaged && snow_disk_read(sector, block.words) == SNOW_DISK_DONE) {
        bool is_end = is_zero(&block);

        if (!is_end && !is_header(&block)) {
            archive.is_damaged = sector > 0;
            break;
        }
        if (sector == 0)
            has_room = add_entry(&root, "", 0);
        if (is_end)
            break;
        sector++;
        has_room = has_room && take_header(&block.header, &ahead, &sector);
    }
    forget_ahead(&ahead);
    if (has_room)
        order_entries();
    else
        forget_walk();
    return has_room;
}

/* ---- The files ---- */

/* Returns the place of the first entry whose name is not before a plain name. */
static uint32_t place_of(const char *name)
{
    uint32_t low = 0, high = archive.count;

    while (low < high) {
        uint32_t middle = (low + high) / 2;

        if (strcmp(archive.entries[middle].name, name) < 0)
            low = middle + 1;
        else
            high = middle;
    }
    return low;
}

static const struct archive_entry *entry_of(const char *name)
{
    uint32_t place = place_of(name);

    return place < archive.count && strcmp(archive.entries[place].name, name) == 0 ? &archive.entries[place] : NULL;
}

/* Returns the entry of the longest beginning of a plain name that has one, of whole parts, and how long that is. */
static const struct archive_entry *deepest(char *name, size_t *length)
{
    const struct archive_entry *entry;

    for (;;) {
        char cut = name[*length];
        size_t shorter;

        name[*length] = '\0';
        entry = entry_of(name);
        shorter = (size_t)directory_length(name);
        name[*length] = cut;
        if (entry || *length == 0)
            return entry;
        *length = shorter;
    }
}

/* Puts what a link leads to in the place of the link, with which a plain name begins. Returns the length of the name, or -1
 * where that is too long. */
static int follow_link(char *name, const struct archive_entry *link)
{
    char rest[ARCHIVE_PATH];
    int length = 0;

    strcpy(rest, name + strlen(link->name));
    if (link->kind == ARCHIVE_SYMBOLIC_LINK && link->target[0] != '/')
        length = directory_length(link->name);
    length = append_path(name, length, link->target);
    return length < 0 ? length : append_path(name, length, rest);
}

const struct archive_entry *archive_find(const char *path, bool follow)
{
    char name[ARCHIVE_PATH];
    int length = append_path(name, 0, path);

    if (!archive.is_walked && !walk()) {
        errno = ENOMEM;
        return NULL;
    }
    archive.is_walked = true;
    for (int links = 0; links <= MOST_LINKS && length >= 0; links++) {
        size_t found = (size_t)length;
        const struct archive_entry *entry = *path ? deepest(name, &found) : NULL;
        bool is_whole = found == (size_t)length;

        if (entry && is_whole && (!entry->target || (entry->kind == ARCHIVE_SYMBOLIC_LINK && !follow)))
            return entry;
        if (!entry || !entry->target) {
            bool is_below_file = entry && entry->kind != ARCHIVE_DIRECTORY;

            errno = is_below_file ? ENOTDIR : archive.is_damaged ? EIO : ENOENT;
            return NULL;
        }
        length = follow_link(name, entry);
    }
    errno = length < 0 ? ENAMETOOLONG : ELOOP;
    return NULL;
}

const struct archive_entry *archive_next(const struct archive_entry *directory, const struct archive_entry *before)
{
    size_t length = strlen(directory->name);
    const struct archive_entry *entry = before ? before : directory;

    while (++entry < archive.entries + archive.count) {
        const char *rest = entry->name + length;

        if (strncmp(entry->name, directory->name, length) != 0)
            return NULL;
        if (length && *rest++ != '/')
            continue; /* `a.b` lies between `a` and `a/b` */
        if (!strchr(rest, '/'))
            return entry;
    }
    return NULL;
}

bool archive_is_whole(const struct archive_entry *file)
{
    return file->size == 0 || file->sector + (file->size - 1) / SECTOR_BYTES < snow_sectors();
}

/* Copies bytes of a sector, from a place within it on, by the port: no sector is kept, so a guest that writes its disk sees
 * what it wrote. */
static void copy_sector(uint32_t sector, uint32_t at, uint8_t *to, uint32_t length)
{
    uint32_t word = 0;

    SNOW_BLOCK_PORT->sector = sector;
    SNOW_BLOCK_PORT->command = READ_SECTOR;
    if ((uintptr_t)to % 4 == 0 && at % 4 == 0)
        for (; length >= 4; length -= 4, at += 4, to += 4) {
            word = SNOW_BLOCK_PORT->buffer[at / 4];
            memcpy(__builtin_assume_aligned(to, 4), &word, sizeof word);
        }
    for (bool is_first = true; length; length--, at++, is_first = false) {
        if (is_first || at % 4 == 0)
            word = SNOW_BLOCK_PORT->buffer[at / 4];
        *to++ = (uint8_t)(word >> 8 * (at % 4));
    }
}

size_t archive_read(const struct archive_entry *file, uint32_t at, void *to, size_t length)
{
    uint8_t *next = to;
    uint32_t left, count;

    if (at >= file->size)
        return 0;
    if (length > file->size - at)
        length = file->size - at;
    for (left = length; left; left -= count, at += count, next += count) {
        uint32_t from = at % SECTOR_BYTES;

        count = left < SECTOR_BYTES - from ? left : SECTOR_BYTES - from;
        copy_sector(file->sector + at / SECTOR_BYTES, from, next, count);
    }
    return length;
}
