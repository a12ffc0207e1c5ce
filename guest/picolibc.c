/* What picolibc asks of the machine for its streams, and where its own functions fall short. */

#include <errno.h>
#include <stdbool.h>
#include <stdio.h>
#include <unistd.h>
#include "snow.h"

/* ---- The streams, which are the console: what is put to it is out at once, so nothing is left to be flushed at the end or
 * before a fork, and the place in the input is the machine's own. ---- */

static int put(char byte, FILE *stream)
{
    (void)stream;
    snow_put(byte);
    return 0;
}

/* The file that stdin reads since freopen, or NULL for the console. */
static FILE *redirected;

static int get(FILE *stream)
{
    int byte = redirected ? getc(redirected) : snow_get();

    (void)stream;
    return byte < 0 ? _FDEV_EOF : byte;
}

static int done(FILE *stream)
{
    (void)stream;
    return 0;
}

static off_t seek(FILE *stream, off_t offset, int from)
{
    if (redirected && stream == stdin)
        return fseeko(redirected, offset, from) ? -1 : ftello(redirected);
    errno = ESPIPE;
    return -1;
}

/* A buffer would change nothing that a program could tell, so the wish for one is granted. */
static int set_buffer(FILE *stream, char *buffer, int mode, size_t size)
{
    (void)stream, (void)buffer, (void)size;
    return mode == _IOFBF || mode == _IOLBF || mode == _IONBF ? 0 : EOF;
}

static struct __file_ext input = FDEV_SETUP_EXT(NULL, get, done, done, seek, set_buffer, _FDEV_SETUP_READ);
static struct __file_ext output = FDEV_SETUP_EXT(put, NULL, done, done, seek, set_buffer, _FDEV_SETUP_WRITE);
static struct __file_ext error = FDEV_SETUP_EXT(put, NULL, done, done, seek, set_buffer, _FDEV_SETUP_WRITE);

FILE *const stdin = &input.cfile.file;
FILE *const stdout = &output.cfile.file;
FILE *const stderr = &error.cfile.file;

/* picolibc's own fdopen, fileno and freopen know of files alone. The linker has them under the names __real_.., and calls of
 * them lead to these, by which the descriptors of the console have these streams. */
FILE *__real_fdopen(int number, const char *mode);
FILE *__real_freopen(const char *path, const char *mode, FILE *stream);
int __real_fileno(FILE *stream);

FILE *__wrap_fdopen(int number, const char *mode)
{
    FILE *const consoles[] = {[STDIN_FILENO] = stdin, [STDOUT_FILENO] = stdout, [STDERR_FILENO] = stderr};
    /* closed, the number may be that of a file */
    bool is_console = lseek(number, 0, SEEK_CUR) < 0 && errno == ESPIPE;

    return is_console ? consoles[number] : __real_fdopen(number, mode);
}

int __wrap_fileno(FILE *stream)
{
    if (stream == stdin)
        return STDIN_FILENO;
    if (stream == stdout)
        return STDOUT_FILENO;
    return stream == stderr ? STDERR_FILENO : __real_fileno(stream);
}

/* stdin may become a file. The others may not, since no file is written. */
FILE *__wrap_freopen(const char *path, const char *mode, FILE *stream)
{
    FILE *file;

    if (stream == stdout || stream == stderr) {
        errno = EROFS;
        return NULL;
    }
    if (stream != stdin)
        return __real_freopen(path, mode, stream);
    file = fopen(path, mode);
    if (!file)
        return NULL;
    if (redirected)
        fclose(redirected);
    redirected = file;
    clearerr(stdin);
    stdin->unget = 0; /* what ungetc put back is gone with the old stream */
    return stdin;
}

/* picolibc's own loses a last line that has no newline. */
char *fgets(char *restrict text, int size, FILE *restrict stream)
{
    int length = 0, byte = 0;

    if (size < 1)
        return NULL;
    while (byte != '\n' && length < size - 1 && (byte = getc(stream)) != EOF)
        text[length++] = (char)byte;
    if (byte == EOF && (length == 0 || ferror(stream)))
        return NULL;
    text[length] = '\0';
    return text;
}

/* picolibc's own takes NULL for a stream. All streams are meant, and none that is written has a buffer. */
int fflush(FILE *stream)
{
    return stream && stream->flush ? stream->flush(stream) : 0;
}
