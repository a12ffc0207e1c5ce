/* The files of the disk, where it is a tar archive. They are found by one walk of its headers, at the first use. */

#ifndef SNOW_ARCHIVE_H
#define SNOW_ARCHIVE_H

#include <stdbool.h>
#include <stddef.h>
#include <stdint.h>

/* The longest path, with the byte that ends it. */
#define ARCHIVE_PATH 1024

enum archive_kind {
    ARCHIVE_FILE,
    ARCHIVE_DIRECTORY,
    ARCHIVE_SYMBOLIC_LINK, /* its target is a path from its own directory on */
    ARCHIVE_HARD_LINK      /* its target is a path from the root on */
};

struct archive_entry {
    char *name;        /* a plain path: no `.`, no `..`, no `/` at either end; the root has the empty one */
    char *target;      /* of a link; else NULL */
    uint32_t sector;   /* where its bytes begin, behind its header; 0 where a directory has no header of its own */
    uint32_t size;     /* how many bytes it has, 0 but for files */
    uint32_t modified; /* when, in seconds since 1970 */
    uint16_t mode;     /* who may do what: nine bits as of chmod */
    uint8_t kind;      /* one of those above */
};

/* Returns the entry of a path, behind links at its end if it is to follow them. Where there is none it is NULL, and errno
 * tells why: ENOENT, also where the disk is no archive; ENOTDIR, ELOOP, ENAMETOOLONG; ENOMEM, where there is no room for
 * what the walk finds; EIO, where the archive is cut short or damaged, so that nobody knows what else it had. */
const struct archive_entry *archive_find(const char *path, bool follow);

/* Returns the entry that is behind another one in the same directory, or the first one for NULL, by name; or NULL. */
const struct archive_entry *archive_next(const struct archive_entry *directory, const struct archive_entry *before);

/* Returns whether all bytes of a file are on the disk, and not cut off. */
bool archive_is_whole(const struct archive_entry *file);

/* Copies bytes of a file that is whole from a place on, as many as it has up to the length. Returns how many they are. */
size_t archive_read(const struct archive_entry *file, uint32_t at, void *to, size_t length);

#endif
