/* What <dirent.h> of picolibc wants of the system: the entries of directories, which are those of the tar archive on the
 * disk (files.c). They come in the order of their names, without `.` and `..`. */

#ifndef SNOW_SYS_DIRENT_H
#define SNOW_SYS_DIRENT_H

#include <sys/types.h>

#define MAXNAMLEN 255

#define DT_UNKNOWN 0
#define DT_DIR 4
#define DT_REG 8
#define DT_LNK 10

struct dirent {
    ino_t d_ino;
    unsigned char d_type; /* DT_DIR, DT_REG or DT_LNK */
    char d_name[MAXNAMLEN + 1];
};

typedef struct snow_directory DIR;

#endif
