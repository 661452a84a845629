/* The standard streams. Each call of the C library that reads or writes one has it for itself, so what a call prints
   stays together whichever threads print. */
#include "system.h"
#include <errno.h>
#include <stdarg.h>
#include <stdio.h>
#include <stdio-bufio.h>
#include <string.h>

/* How long output stands in its buffer: until that is full, a line ends, or the call that printed it does */
enum { WHEN_FULL = 0, AT_LINE_END = __BLBF, AT_CALL_END = 0x80 };

static void enter(FILE *file)
{
    if (file->flags & __SBUF)
        guest_lock_take(((struct __file_bufio *)file)->lock);
}

static int flush(FILE *file)
{
    struct __file_bufio *stream = (struct __file_bufio *)file;
    int put = 0, count = 0;
    enter(file);
    while (put < stream->len && count >= 0) {
        count = guest_call(CALL_WRITE, stream->fd, (int)(stream->buf + put), stream->len - put, 0, 0, 0);
        put += count;
    }
    stream->len = 0;
    guest_lock_give(stream->lock);
    return count < 0 ? EOF : 0;
}

static void leave(FILE *file)
{
    struct __file_bufio *stream = (struct __file_bufio *)file;
    if (!(file->flags & __SBUF))
        return;
    if (stream->bflags & AT_CALL_END && stream->lock->depth == 1 && flush(file) < 0)
        file->flags |= __SERR;
    guest_lock_give(stream->lock);
}

/* The buffer is never left full, and what can't be written is dropped. */
static int put(char byte, FILE *file)
{
    struct __file_bufio *stream = (struct __file_bufio *)file;
    int within = stream->lock->owner == guest_this_thread, refused = 0;
    if (!within)
        enter(file);
    stream->buf[stream->len++] = byte;
    if (stream->len == stream->size || (byte == '\n' && stream->bflags & AT_LINE_END))
        refused = flush(file);
    if (!within)
        leave(file);
    return refused;
}

/* Reads the next piece. Who waits for input has seen what was printed before. */
static int fill(struct __file_bufio *stream)
{
    fflush(stdout);
    stream->off = 0;
    int count = guest_call(CALL_READ, stream->fd, (int)stream->buf, stream->size, 0, 0, 0);
    stream->len = count > 0 ? count : 0;
    return count > 0 ? 0 : count == 0 ? _FDEV_EOF : _FDEV_ERR;
}

static int get(FILE *file)
{
    struct __file_bufio *stream = (struct __file_bufio *)file;
    int within = stream->lock->owner == guest_this_thread;
    if (!within)
        enter(file);
    int end = stream->off == stream->len ? fill(stream) : 0;
    int byte = end == 0 ? (unsigned char)stream->buf[stream->off++] : end;
    if (!within)
        leave(file);
    return byte;
}

static int close_stream(FILE *file)
{
    int refused = fflush(file);
    return guest_call(CALL_CLOSE, ((struct __file_bufio *)file)->fd, 0, 0, 0, 0, 0) < 0 ? EOF : refused;
}

/* The buffer stays the stream's own, as the standard allows. */
static int set_buffering(FILE *file, char *buffer, int mode, size_t size)
{
    (void)buffer, (void)size;
    if (mode != _IOFBF && mode != _IOLBF && mode != _IONBF)
        return -1;
    enter(file);
    fflush(file);
    ((struct __file_bufio *)file)->bflags = mode == _IOFBF ? WHEN_FULL : mode == _IOLBF ? AT_LINE_END : AT_CALL_END;
    leave(file);
    return 0;
}

static struct __lock locks[3];
static char input_buffer[4096], output_buffer[1024], error_buffer[1024];

static struct __file_bufio streams[3] = {
    {.xfile = FDEV_SETUP_EXT(NULL, get, NULL, close_stream, NULL, set_buffering, __SRD | __SBUF),
     .fd = 0, .buf = input_buffer, .size = sizeof input_buffer, .lock = &locks[0]},
    {.xfile = FDEV_SETUP_EXT(put, NULL, flush, close_stream, NULL, set_buffering, __SWR | __SBUF),
     .fd = 1, .buf = output_buffer, .size = sizeof output_buffer, .lock = &locks[1], .bflags = AT_LINE_END},
    {.xfile = FDEV_SETUP_EXT(put, NULL, flush, close_stream, NULL, set_buffering, __SWR | __SBUF),
     .fd = 2, .buf = error_buffer, .size = sizeof error_buffer, .lock = &locks[2], .bflags = AT_CALL_END},
};
FILE *const stdin = &streams[0].xfile.cfile.file;
FILE *const stdout = &streams[1].xfile.cfile.file;
FILE *const stderr = &streams[2].xfile.cfile.file;

/* The last of the destructors, since the others may print */
__attribute__((destructor(101))) static void flush_all(void)
{
    fflush(NULL);
}

int fflush(FILE *file)
{
    if (file)
        return file->flush ? file->flush(file) : 0;
    int refused = fflush(stdout);
    return fflush(stderr) < 0 ? EOF : refused;
}

/* The linker gives calls of vfprintf and vfscanf to these (--wrap), from within the C library too. */
int __real_vfprintf(FILE *file, const char *format, va_list values);
int __real_vfscanf(FILE *file, const char *format, va_list places);

int __wrap_vfprintf(FILE *file, const char *format, va_list values)
{
    enter(file);
    int count = __real_vfprintf(file, format, values);
    leave(file);
    return count;
}

int __wrap_vfscanf(FILE *file, const char *format, va_list places)
{
    enter(file);
    int count = __real_vfscanf(file, format, places);
    leave(file);
    return count;
}

int fputs(const char *text, FILE *file)
{
    int refused = 0;
    enter(file);
    while (*text && !refused)
        refused = fputc(*text++, file) < 0;
    leave(file);
    return refused ? EOF : 0;
}

int puts(const char *text)
{
    enter(stdout);
    int refused = fputs(text, stdout) < 0 || fputc('\n', stdout) < 0;
    leave(stdout);
    return refused ? EOF : 0;
}

void perror(const char *text)
{
    const char *reason = strerror(errno);
    if (text && *text)
        fprintf(stderr, "%s: %s\n", text, reason);
    else
        fprintf(stderr, "%s\n", reason);
}

size_t fwrite(const void *bytes, size_t size, size_t count, FILE *file)
{
    const unsigned char *byte = bytes;
    size_t put = 0, whole = size * count;
    enter(file);
    while (put < whole && fputc(byte[put], file) >= 0)
        put++;
    leave(file);
    return size ? put / size : 0;
}

size_t fread(void *bytes, size_t size, size_t count, FILE *file)
{
    unsigned char *place = bytes;
    size_t got = 0, whole = size * count;
    enter(file);
    for (int byte; got < whole && (byte = fgetc(file)) >= 0; got++)
        place[got] = (unsigned char)byte;
    leave(file);
    return size ? got / size : 0;
}

char *fgets(char *text, int size, FILE *file)
{
    int length = 0, byte = 0;
    enter(file);
    while (length < size - 1 && byte != '\n' && (byte = fgetc(file)) >= 0)
        text[length++] = (char)byte;
    leave(file);
    if (size < 1 || (length == 0 && byte < 0))
        return NULL;
    text[length] = 0;
    return text;
}
