/* Descriptors, for picolibc: 0 is the console's input, 1 and 2 are its output, and the others are files of the tar archive on
 * the disk (archive.c), which are read and never written. */

#include <dirent.h>
#include <errno.h>
#include <fcntl.h>
#include <stdlib.h>
#include <string.h>
#include <sys/stat.h>
#include <sys/time.h>
#include <sys/utime.h>
#include <unistd.h>
#include "archive.h"
#include "snow.h"

enum {
    DESCRIPTORS = 64,
    SECTOR_BYTES = 4 * SNOW_SECTOR_WORDS,
    DISK_DEVICE = 1, /* st_dev of files; the console has 0 */
    MAY_WRITE = 0222
};

enum use {
    CLOSED,
    CONSOLE_INPUT,
    CONSOLE_OUTPUT,
    FILE_ON_DISK
};

static struct descriptor {
    enum use use;
    const struct archive_entry *file;
    uint32_t at;
} descriptors[DESCRIPTORS] = {{.use = CONSOLE_INPUT}, {.use = CONSOLE_OUTPUT}, {.use = CONSOLE_OUTPUT}};

struct snow_directory {
    const struct archive_entry *directory, *last;
    struct dirent told;
};

/* Fails a call with an error. */
static int fail(int error)
{
    errno = error;
    return -1;
}

/* Returns what a number is the descriptor of, or NULL and EBADF where nothing is open there. */
static struct descriptor *opened(int number)
{
    if (number >= 0 && number < DESCRIPTORS && descriptors[number].use != CLOSED)
        return &descriptors[number];
    errno = EBADF;
    return NULL;
}

/* ---- Descriptors ---- */

int open(const char *path, int flags, ...)
{
    const struct archive_entry *file = archive_find(path, true);

    if (!file)
        return errno == ENOENT && flags & O_CREAT ? fail(EROFS) : -1;
    if (file->kind == ARCHIVE_DIRECTORY)
        return fail(EISDIR);
    if ((flags & O_CREAT) && (flags & O_EXCL))
        return fail(EEXIST);
    if ((flags & O_ACCMODE) != O_RDONLY || flags & O_TRUNC)
        return fail(EROFS);
    if (!archive_is_whole(file))
        return fail(EIO);
    for (int number = 0; number < DESCRIPTORS; number++)
        if (descriptors[number].use == CLOSED) {
            descriptors[number] = (struct descriptor){FILE_ON_DISK, file, 0};
            return number;
        }
    return fail(EMFILE);
}

int close(int number)
{
    struct descriptor *descriptor = opened(number);

    if (!descriptor)
        return -1;
    descriptor->use = CLOSED;
    return 0;
}

/* Reads the console's input, as far as it goes. */
static ssize_t read_console(uint8_t *to, size_t length)
{
    size_t count = 0;

    for (int byte; count < length && (byte = snow_get()) >= 0; count++)
        to[count] = (uint8_t)byte;
    return (ssize_t)count;
}

ssize_t read(int number, void *to, size_t length)
{
    struct descriptor *descriptor = opened(number);
    size_t count;

    if (!descriptor)
        return -1;
    if (descriptor->use == CONSOLE_INPUT)
        return read_console(to, length);
    if (descriptor->use == CONSOLE_OUTPUT)
        return fail(EBADF);
    count = archive_read(descriptor->file, descriptor->at, to, length);
    descriptor->at += count;
    return (ssize_t)count;
}

ssize_t write(int number, const void *from, size_t length)
{
    const struct descriptor *descriptor = opened(number);
    const char *bytes = from;

    if (!descriptor)
        return -1;
    if (descriptor->use != CONSOLE_OUTPUT)
        return fail(EBADF);
    for (size_t at = 0; at < length; at++)
        snow_put(bytes[at]);
    return (ssize_t)length;
}

off_t lseek(int number, off_t offset, int from)
{
    struct descriptor *descriptor = opened(number);
    int64_t place = offset;

    if (!descriptor)
        return -1;
    if (descriptor->use != FILE_ON_DISK)
        return fail(ESPIPE);
    if (from == SEEK_CUR)
        place += descriptor->at;
    else if (from == SEEK_END)
        place += descriptor->file->size;
    else if (from != SEEK_SET)
        return fail(EINVAL);
    if (place < 0)
        return fail(EINVAL);
    if (place > INT32_MAX)
        return fail(EOVERFLOW);
    descriptor->at = (uint32_t)place;
    return (off_t)place;
}

/* The console is no terminal: nobody sits there who would answer a prompt. */
int isatty(int number)
{
    const struct descriptor *descriptor = opened(number);

    if (descriptor)
        errno = ENOTTY;
    return 0;
}

/* ---- What is known of files ---- */

static void tell_file(const struct archive_entry *file, struct stat *told)
{
    static const mode_t kinds[] = {
        [ARCHIVE_FILE] = S_IFREG, [ARCHIVE_DIRECTORY] = S_IFDIR, [ARCHIVE_SYMBOLIC_LINK] = S_IFLNK, [ARCHIVE_HARD_LINK] = S_IFREG
    };

    memset(told, 0, sizeof *told);
    told->st_dev = DISK_DEVICE;
    told->st_ino = (ino_t)file->sector;
    told->st_mode = kinds[file->kind] | (file->mode & ~(mode_t)MAY_WRITE);
    told->st_nlink = 1;
    told->st_size = (off_t)file->size;
    told->st_blksize = SECTOR_BYTES;
    told->st_blocks = (blkcnt_t)((file->size + SECTOR_BYTES - 1) / SECTOR_BYTES);
    told->st_atime = told->st_mtime = told->st_ctime = (time_t)file->modified;
}

int fstat(int number, struct stat *told)
{
    const struct descriptor *descriptor = opened(number);

    if (!descriptor)
        return -1;
    if (descriptor->use == FILE_ON_DISK) {
        tell_file(descriptor->file, told);
        return 0;
    }
    memset(told, 0, sizeof *told);
    told->st_mode = S_IFCHR | (descriptor->use == CONSOLE_INPUT ? S_IRUSR : S_IWUSR);
    told->st_nlink = 1;
    return 0;
}

int stat(const char *restrict path, struct stat *restrict told)
{
    const struct archive_entry *file = archive_find(path, true);

    if (!file)
        return -1;
    tell_file(file, told);
    return 0;
}

int lstat(const char *restrict path, struct stat *restrict told)
{
    const struct archive_entry *file = archive_find(path, false);

    if (!file)
        return -1;
    tell_file(file, told);
    return 0;
}

int access(const char *path, int how)
{
    if (!archive_find(path, true))
        return -1;
    return how & W_OK ? fail(EROFS) : 0;
}

/* Paths go from the root on, as there is no other directory to be in. */
char *getcwd(char *buffer, size_t size)
{
    static const char root[] = "/";

    if (size < sizeof root) {
        errno = buffer ? ERANGE : EINVAL;
        return NULL;
    }
    return buffer ? strcpy(buffer, root) : strdup(root);
}

/* ---- What would change them ---- */

/* Fails to change what is at a path: nothing is, or it cannot be changed. */
static int unchanged(const char *path)
{
    return archive_find(path, false) ? fail(EROFS) : -1;
}

/* Fails to make something at a path: there is something, or nothing can be made. */
static int unmade(const char *path)
{
    if (archive_find(path, false))
        return fail(EEXIST);
    return errno == ENOENT ? fail(EROFS) : -1;
}

int unlink(const char *path)
{
    return unchanged(path);
}

int rename(const char *from, const char *to)
{
    (void)to;
    return unchanged(from);
}

int link(const char *from, const char *to)
{
    return archive_find(from, false) ? unmade(to) : -1;
}

int mkdir(const char *path, mode_t mode)
{
    (void)mode;
    return unmade(path);
}

int rmdir(const char *path)
{
    return unchanged(path);
}

int symlink(const char *target, const char *path)
{
    (void)target;
    return unmade(path);
}

int chmod(const char *path, mode_t mode)
{
    (void)mode;
    return unchanged(path);
}

int chown(const char *path, uid_t user, gid_t group)
{
    (void)user, (void)group;
    return unchanged(path);
}

int truncate(const char *path, off_t size)
{
    (void)size;
    return unchanged(path);
}

/* picolibc has the struct of it, and no declaration. */
int utime(const char *path, const struct utimbuf *when);

int utime(const char *path, const struct utimbuf *when)
{
    (void)when;
    return unchanged(path);
}

int utimes(const char *path, const struct timeval when[2])
{
    (void)when;
    return unchanged(path);
}

/* Fails to change what a descriptor is of. */
static int unchanged_opened(int number)
{
    return opened(number) ? fail(EROFS) : -1;
}

int fchmod(int number, mode_t mode)
{
    (void)mode;
    return unchanged_opened(number);
}

int fchown(int number, uid_t user, gid_t group)
{
    (void)user, (void)group;
    return unchanged_opened(number);
}

int ftruncate(int number, off_t size)
{
    (void)size;
    return unchanged_opened(number);
}

int fsync(int number)
{
    return opened(number) ? 0 : -1;
}

/* Nothing is made for which the bits would count. */
mode_t umask(mode_t mask)
{
    return mask;
}

/* ---- Directories ---- */

DIR *opendir(const char *path)
{
    const struct archive_entry *directory = archive_find(path, true);
    DIR *opened;

    if (!directory)
        return NULL;
    if (directory->kind != ARCHIVE_DIRECTORY) {
        errno = ENOTDIR;
        return NULL;
    }
    opened = malloc(sizeof *opened);
    if (opened)
        *opened = (DIR){.directory = directory};
    return opened;
}

struct dirent *readdir(DIR *from)
{
    static const unsigned char types[] = {
        [ARCHIVE_FILE] = DT_REG, [ARCHIVE_DIRECTORY] = DT_DIR, [ARCHIVE_SYMBOLIC_LINK] = DT_LNK, [ARCHIVE_HARD_LINK] = DT_REG
    };
    const struct archive_entry *next = archive_next(from->directory, from->last);
    const char *slash;

    if (!next)
        return NULL;
    from->last = next;
    slash = strrchr(next->name, '/');
    from->told.d_ino = (ino_t)next->sector;
    from->told.d_type = types[next->kind];
    strlcpy(from->told.d_name, slash ? slash + 1 : next->name, sizeof from->told.d_name);
    return &from->told;
}

void rewinddir(DIR *from)
{
    from->last = NULL;
}

int closedir(DIR *from)
{
    free(from);
    return 0;
}
