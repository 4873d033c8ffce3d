/* The file layer: looks by pread, pieces by pwrite. What the header asks of C for the promise to hold is kept here, in `look`, `put`,
 * `drive` and `put_all`. */
#define _POSIX_C_SOURCE 200809L

#include "h5swmr.h"

#include <errno.h>
#include <fcntl.h>
#include <stdlib.h>
#include <string.h>
#include <sys/mman.h>
#include <sys/stat.h>
#include <time.h>
#include <unistd.h>

/* When a refusal of bytes that may be half written is told: after so many tries that came to the same, over so many nanoseconds. */
#define TRIES 100
#define SPAN 10000000
/* The tries before the first rest, how long a rest is, and the most tries of all. */
#define BRISK 5
#define REST 100000
#define MOST 10000

/* The room for the program's line of a refusal: none has so many bytes. */
#define LINE 256

/* The most names of a writer, and bytes of a name. */
#define NAMES 8
#define NAME 512

struct h5swmr_reader {
    h5w_reader core;
    int fd;
};

/* A writer of one dataset, or of several: the other core is not open. */
struct h5swmr_writer {
    h5w_writer core;
    h5w_several several;
    bool is_several;
    int fd;
};

static h5w_told tell(uint32_t code, uint32_t detail, uint64_t count)
{
    h5w_told told = { code, detail, count };
    return told;
}

static h5w_told misuse(void)
{
    return tell(H5W_MISUSE, 0, 0);
}

static h5w_told failure(int error, uint64_t at)
{
    return tell(H5W_IO, (uint32_t)error, at);
}

/* ---- The program's line of a refusal */

static __thread char last_line[LINE];

/* Keeps the line in front of these bytes, if it ends there. */
static void keep_line(const uint8_t *text)
{
    const uint8_t *end = memchr(text, '\n', LINE);
    size_t len = end ? (size_t)(end - text) : 0;
    memcpy(last_line, text, len);
    last_line[len] = 0;
}

const char *h5swmr_line(void)
{
    return last_line;
}

/* ---- Looks and pieces */

/* The bytes of a look, and how many the file has of them; false where pread failed. */
static bool look(int fd, h5w_place place, uint8_t *bytes, size_t *got)
{
    *got = 0;
    /* (no file goes on behind 2^63) */
    while (*got < place.len && place.at < (uint64_t)INT64_MAX - H5W_PIECE) {
        ssize_t n = pread(fd, bytes + *got, place.len - *got, (off_t)(place.at + *got));
        if (n < 0 && errno == EINTR)
            continue;
        if (n < 0)
            return false;
        if (n == 0)
            break;
        *got += (size_t)n;
    }
    return true;
}

/* Writes a whole piece; 0, or the errno. */
static int put(int fd, h5w_place place, const uint8_t *bytes)
{
    for (size_t done = 0; done < place.len;) {
        ssize_t n = pwrite(fd, bytes + done, place.len - done, (off_t)(place.at + done));
        if (n < 0 && errno == EINTR)
            continue;
        if (n <= 0)
            return n ? errno : EIO;
        done += (size_t)n;
    }
    return 0;
}

/* Takes the call that came to `told` to its answer. */
static h5w_told drive(h5swmr_reader *reader, h5w_told told)
{
    uint8_t bytes[H5W_PIECE];
    h5w_place place;
    size_t got;
    while (told.code == H5W_MORE && h5w_reader_want(&reader->core, &place)) {
        if (!look(reader->fd, place, bytes, &got)) {
            told = failure(errno, place.at);
            h5w_reader_quit(&reader->core);
            return told;
        }
        told = h5w_reader_give(&reader->core, bytes, got);
    }
    return told;
}

/* The oldest pending piece. */
static bool next_piece(h5swmr_writer *writer, uint8_t *bytes, h5w_place *place)
{
    return writer->is_several ? h5w_several_next(&writer->several, bytes, H5W_PIECE, place) : h5w_writer_next(&writer->core, bytes, H5W_PIECE, place);
}

/* It was written, or could not be. */
static void is_written(h5swmr_writer *writer)
{
    if (writer->is_several)
        h5w_several_written(&writer->several);
    else
        h5w_writer_written(&writer->core);
}

static void has_failed(h5swmr_writer *writer)
{
    if (writer->is_several)
        h5w_several_failed(&writer->several);
    else
        h5w_writer_failed(&writer->core);
}

/* Writes all pending pieces, in their order. */
static h5w_told put_all(h5swmr_writer *writer)
{
    uint8_t bytes[H5W_PIECE];
    h5w_place place;
    while (next_piece(writer, bytes, &place)) {
        int error = put(writer->fd, place, bytes);
        if (error) {
            has_failed(writer);
            return failure(error, place.at);
        }
        is_written(writer);
    }
    return tell(H5W_OK, 0, 0);
}

/* ---- Readers */

static bool is_same(h5w_told a, h5w_told b)
{
    return a.code == b.code && a.detail == b.detail && a.count == b.count;
}

/* Whether bytes that are half written may give this answer. */
static bool is_doubtful(h5w_told told)
{
    return told.code == H5W_REFUSED && (told.detail == H5W_NOT_HDF5 || told.detail == H5W_SUPERBLOCK || told.detail == H5W_HEADER || told.detail == H5W_UNSUPPORTED || told.detail == H5W_DAMAGED);
}

/* Whether so long has passed since then. */
static bool has_passed(struct timespec since)
{
    struct timespec now;
    clock_gettime(CLOCK_MONOTONIC, &now);
    return (int64_t)(now.tv_sec - since.tv_sec) * 1000000000 + (now.tv_nsec - since.tv_nsec) >= SPAN;
}

/* The answer of an open or refresh that came to `told`, which is doubtful: the call is begun again as long as it is. */
static h5w_told begin_again(h5swmr_reader *reader, h5w_told told)
{
    struct timespec rest = { 0, REST }, since;
    h5w_told first = told;
    clock_gettime(CLOCK_MONOTONIC, &since);
    for (int tries = 1, same = 1; tries < MOST && !(same >= TRIES && has_passed(since)); tries++) {
        if (tries >= BRISK)
            nanosleep(&rest, NULL);
        told = drive(reader, h5w_reader_refresh(&reader->core));
        if (!is_doubtful(told))
            break;
        same = is_same(told, first) ? same + 1 : 1;
        if (same == 1) {
            first = told;
            clock_gettime(CLOCK_MONOTONIC, &since);
        }
    }
    return told;
}

/* The answer of an open or refresh that came to `told`. */
static h5w_told settle(h5swmr_reader *reader, h5w_told told)
{
    return is_doubtful(told) ? begin_again(reader, told) : told;
}

/* The answer of a call, whose line is kept if it has one. */
static h5w_told noted(h5swmr_reader *reader, h5w_told told)
{
    if (told.code == H5W_AGAIN || told.code == H5W_SHRUNK || told.code == H5W_REFUSED) {
        uint8_t text[LINE] = { 0 };
        h5w_reader_refusal(&reader->core, text, sizeof text);
        keep_line(text);
    }
    return told;
}

/* Ends a reader that may be half open. */
static void drop_reader(h5swmr_reader *reader)
{
    h5w_reader_close(&reader->core);
    if (reader->fd >= 0)
        close(reader->fd);
    free(reader);
}

h5w_told h5swmr_open(h5swmr_reader **out, const char *path, const char *name, uint32_t attempts)
{
    if (!out || !path || !name)
        return misuse();
    *out = NULL;
    h5swmr_reader *reader = calloc(1, sizeof *reader);
    if (!reader)
        return tell(H5W_MEMORY, 0, 0);
    reader->fd = open(path, O_RDONLY | O_CLOEXEC);
    h5w_told told = reader->fd < 0 ? failure(errno, 0) : noted(reader, settle(reader, drive(reader, h5w_reader_open(&reader->core, (const uint8_t *)name, strlen(name), attempts))));
    if (told.code == H5W_OK || told.code == H5W_AGAIN)
        *out = reader;
    else
        drop_reader(reader);
    return told;
}

h5w_told h5swmr_refresh(h5swmr_reader *reader)
{
    return reader ? noted(reader, settle(reader, drive(reader, h5w_reader_refresh(&reader->core)))) : misuse();
}

uint64_t h5swmr_rows(h5swmr_reader *reader)
{
    return reader ? h5w_reader_rows(&reader->core) : 0;
}

h5w_told h5swmr_shape(h5swmr_reader *reader, h5w_shape *shape)
{
    return reader && shape && h5w_reader_shape(&reader->core, shape) ? tell(H5W_OK, 0, 0) : misuse();
}

h5w_told h5swmr_load(h5swmr_reader *reader, uint64_t from, uint64_t rows)
{
    if (!reader)
        return misuse();
    h5w_told told = noted(reader, drive(reader, h5w_reader_read(&reader->core, from, rows)));
    return told.code == H5W_VALUES ? tell(H5W_OK, 0, told.count) : told;
}

/* What a copy of `done` values into this room comes to, where a further value `is_there` that had room too. */
static h5w_told copied(uint64_t done, size_t room, bool is_there)
{
    return tell(done < room && is_there ? H5W_RANGE : H5W_OK, 0, done);
}

h5w_told h5swmr_values(h5swmr_reader *reader, uint64_t from, int64_t *out, size_t room)
{
    uint64_t other;
    if (!reader || (!out && room))
        return misuse();
    uint64_t done = room ? h5w_reader_values(&reader->core, from, out, room) : 0;
    return copied(done, room, done < room && h5w_reader_values_u64(&reader->core, from + done, &other, 1));
}

h5w_told h5swmr_values_u64(h5swmr_reader *reader, uint64_t from, uint64_t *out, size_t room)
{
    int64_t other;
    if (!reader || (!out && room))
        return misuse();
    uint64_t done = room ? h5w_reader_values_u64(&reader->core, from, out, room) : 0;
    return copied(done, room, done < room && h5w_reader_values(&reader->core, from + done, &other, 1));
}

h5w_told h5swmr_read(h5swmr_reader *reader, uint64_t from, uint64_t rows, int64_t *out, size_t room)
{
    h5w_told told = h5swmr_load(reader, from, rows);
    if (told.code != H5W_OK)
        return told;
    return told.count > room ? tell(H5W_ROOM, 0, told.count) : h5swmr_values(reader, 0, out, (size_t)told.count);
}

h5w_told h5swmr_close_reader(h5swmr_reader **reader)
{
    if (!reader || !*reader)
        return misuse();
    drop_reader(*reader);
    *reader = NULL;
    return tell(H5W_OK, 0, 0);
}

/* ---- Writers */

/* Names as the cores take them. */
struct names {
    uint8_t bytes[NAMES * NAME];
    uint64_t lens[NAMES];
    size_t size, count;
};

/* Joins names; false if there are too many, one is too long, or a pointer is NULL. */
static bool join(struct names *all, const char *const *names, size_t count)
{
    all->size = 0;
    all->count = count;
    if (count > NAMES || (count && !names))
        return false;
    for (size_t k = 0; k < count; k++) {
        size_t len = names[k] ? strlen(names[k]) : NAME + 1;
        if (len > NAME)
            return false;
        memcpy(all->bytes + all->size, names[k], len);
        all->size += len;
        all->lens[k] = len;
    }
    return true;
}

/* Frees a writer, whatever it is at; what went wrong before, or at the close of its file. */
static h5w_told drop_writer(h5swmr_writer *writer, h5w_told told)
{
    h5w_writer_free(&writer->core);
    h5w_several_free(&writer->several);
    if (writer->fd >= 0 && close(writer->fd) && errno != EINTR && told.code == H5W_OK)
        told = failure(errno, 0);
    free(writer);
    return told;
}

/* Hands out a writer whose session begins, behind its first pieces. */
static h5w_told begun(h5swmr_writer **out, h5swmr_writer *writer, h5w_told told)
{
    if (told.code == H5W_OK)
        told = put_all(writer);
    if (told.code != H5W_OK)
        return drop_writer(writer, told);
    *out = writer;
    return tell(H5W_OK, 0, h5swmr_appended(writer));
}

/* A writer with neither session nor file. */
static h5swmr_writer *new_writer(bool is_several)
{
    h5swmr_writer *writer = calloc(1, sizeof *writer);
    if (writer) {
        writer->is_several = is_several;
        writer->fd = -1;
    }
    return writer;
}

/* Makes the file of a session that creates one. */
static h5w_told make(h5swmr_writer **out, h5swmr_writer *writer, const char *path, h5w_told told)
{
    if (told.code == H5W_OK) {
        writer->fd = open(path, O_RDWR | O_CREAT | O_EXCL | O_CLOEXEC, 0666);
        if (writer->fd < 0)
            told = failure(errno, 0);
    }
    return begun(out, writer, told);
}

h5w_told h5swmr_create(h5swmr_writer **out, const char *path, const char *name, const h5w_options *options)
{
    if (!out || !path || !name || !options)
        return misuse();
    *out = NULL;
    h5swmr_writer *writer = new_writer(false);
    if (!writer)
        return tell(H5W_MEMORY, 0, 0);
    return make(out, writer, path, h5w_writer_create(&writer->core, (const uint8_t *)name, strlen(name), options));
}

h5w_told h5swmr_create_several(h5swmr_writer **out, const char *path, const char *const *names, size_t count, const h5w_options *options, size_t n)
{
    struct names all;
    if (!out || !path || !options)
        return misuse();
    *out = NULL;
    if (!join(&all, names, count) || !n || (n != 1 && n != count))
        return misuse();
    h5w_options each[NAMES] = { options[0] };
    for (size_t k = 0; k < count; k++)
        each[k] = options[n == 1 ? 0 : k];
    h5swmr_writer *writer = new_writer(true);
    if (!writer)
        return tell(H5W_MEMORY, 0, 0);
    return make(out, writer, path, h5w_several_create(&writer->several, all.bytes, all.size, all.lens, all.count, each, count));
}

/* How a file is opened: by one name, or else by several, and then perhaps taken over. */
struct opening {
    const char *name;
    const struct names *all;
    bool takes;
    uint64_t limit, budget;
};

/* Opens the session over these bytes. */
static h5w_told open_core(h5swmr_writer *writer, const struct opening *how, const uint8_t *bytes, size_t size, uint8_t *text)
{
    const struct names *all = how->all;
    if (how->name)
        return h5w_writer_open(&writer->core, bytes, size, (const uint8_t *)how->name, strlen(how->name), how->limit, how->budget, text, LINE);
    if (how->takes)
        return h5w_several_take_over(&writer->several, bytes, size, all->bytes, all->size, all->lens, all->count, how->limit, how->budget, text, LINE);
    return h5w_several_open(&writer->several, bytes, size, all->bytes, all->size, all->lens, all->count, how->limit, how->budget, text, LINE);
}

/* Opens the session over the bytes of its file. */
static h5w_told open_over(h5swmr_writer *writer, const struct opening *how)
{
    struct stat about;
    uint8_t text[LINE] = { 0 };
    if (fstat(writer->fd, &about))
        return failure(errno, 0);
    size_t size = (size_t)about.st_size;
    /* (a file without bytes cannot be mapped) */
    void *bytes = size ? mmap(NULL, size, PROT_READ, MAP_SHARED, writer->fd, 0) : text;
    if (bytes == MAP_FAILED)
        return failure(errno, 0);
    h5w_told told = open_core(writer, how, bytes, size, text);
    if (size)
        munmap(bytes, size);
    if (told.code == H5W_REFUSED || told.code == H5W_OPENED)
        keep_line(text);
    return told;
}

/* Opens a file, and hands out its writer. */
static h5w_told open_file(h5swmr_writer **out, const char *path, const struct opening *how)
{
    h5swmr_writer *writer = new_writer(!how->name);
    if (!writer)
        return tell(H5W_MEMORY, 0, 0);
    writer->fd = open(path, O_RDWR | O_CLOEXEC);
    return begun(out, writer, writer->fd < 0 ? failure(errno, 0) : open_over(writer, how));
}

h5w_told h5swmr_append_to(h5swmr_writer **out, const char *path, const char *name, uint64_t limit, uint64_t budget)
{
    struct opening how = { name, NULL, false, limit, budget };
    if (!out || !path || !name)
        return misuse();
    *out = NULL;
    return open_file(out, path, &how);
}

/* Opens a file by several names. */
static h5w_told open_several(h5swmr_writer **out, const char *path, const char *const *names, size_t count, bool takes, uint64_t limit, uint64_t budget)
{
    struct names all;
    struct opening how = { NULL, &all, takes, limit, budget };
    if (!out || !path)
        return misuse();
    *out = NULL;
    return join(&all, names, count) ? open_file(out, path, &how) : misuse();
}

h5w_told h5swmr_append_to_several(h5swmr_writer **out, const char *path, const char *const *names, size_t count, uint64_t limit, uint64_t budget)
{
    return open_several(out, path, names, count, false, limit, budget);
}

h5w_told h5swmr_take_over(h5swmr_writer **out, const char *path, const char *const *names, size_t count, uint64_t limit, uint64_t budget)
{
    return open_several(out, path, names, count, true, limit, budget);
}

h5w_told h5swmr_keep_retired(h5swmr_writer *writer)
{
    if (!writer)
        return misuse();
    return writer->is_several ? h5w_several_keep_retired(&writer->several) : h5w_writer_keep_retired(&writer->core);
}

/* What a call of the core comes to once its pieces are written: nothing is pending behind it. The line of a refusal is kept. */
static h5w_told written(h5swmr_writer *writer, h5w_told told, const uint8_t *text)
{
    if (told.code != H5W_OK) {
        keep_line(text);
        return told;
    }
    h5w_told done = put_all(writer);
    return done.code == H5W_OK ? told : done;
}

h5w_told h5swmr_append_in(h5swmr_writer *writer, size_t dataset, const int64_t *values, size_t n)
{
    static const int64_t none;
    uint8_t text[LINE] = { 0 };
    if (!writer || (!values && n) || (!writer->is_several && dataset))
        return misuse();
    values = values ? values : &none;
    h5w_told told = writer->is_several ? h5w_several_append(&writer->several, dataset, values, n, text, sizeof text) : h5w_writer_append(&writer->core, values, n, text, sizeof text);
    return written(writer, told, text);
}

h5w_told h5swmr_append_in_u64(h5swmr_writer *writer, size_t dataset, const uint64_t *values, size_t n)
{
    static const uint64_t none;
    uint8_t text[LINE] = { 0 };
    if (!writer || (!values && n) || (!writer->is_several && dataset))
        return misuse();
    values = values ? values : &none;
    h5w_told told = writer->is_several ? h5w_several_append_u64(&writer->several, dataset, values, n, text, sizeof text) : h5w_writer_append_u64(&writer->core, values, n, text, sizeof text);
    return written(writer, told, text);
}

h5w_told h5swmr_append(h5swmr_writer *writer, const int64_t *values, size_t n)
{
    return h5swmr_append_in(writer, 0, values, n);
}

h5w_told h5swmr_append_u64(h5swmr_writer *writer, const uint64_t *values, size_t n)
{
    return h5swmr_append_in_u64(writer, 0, values, n);
}

h5w_told h5swmr_flush(h5swmr_writer *writer)
{
    uint8_t text[LINE] = { 0 };
    uint64_t counts[NAMES];
    if (!writer)
        return misuse();
    h5w_told told = writer->is_several ? h5w_several_flush(&writer->several, counts, NAMES, text, sizeof text) : h5w_writer_flush(&writer->core, text, sizeof text);
    told = written(writer, told, text);
    return told.code == H5W_OK ? tell(H5W_OK, 0, h5swmr_appended(writer)) : told;
}

uint64_t h5swmr_appended_in(h5swmr_writer *writer, size_t dataset)
{
    if (!writer)
        return 0;
    return writer->is_several ? h5w_several_rows(&writer->several, dataset) : dataset ? 0 : h5w_writer_rows(&writer->core);
}

uint64_t h5swmr_columns_in(h5swmr_writer *writer, size_t dataset)
{
    if (!writer)
        return 0;
    return writer->is_several ? h5w_several_columns(&writer->several, dataset) : dataset ? 0 : h5w_writer_columns(&writer->core);
}

uint64_t h5swmr_count(h5swmr_writer *writer)
{
    if (!writer)
        return 0;
    return writer->is_several ? h5w_several_count(&writer->several) : 1;
}

uint64_t h5swmr_appended(h5swmr_writer *writer)
{
    return h5swmr_appended_in(writer, 0);
}

uint64_t h5swmr_columns(h5swmr_writer *writer)
{
    return h5swmr_columns_in(writer, 0);
}

h5w_told h5swmr_close_writer(h5swmr_writer **out)
{
    if (!out || !*out)
        return misuse();
    h5swmr_writer *writer = *out;
    *out = NULL;
    uint8_t text[LINE] = { 0 };
    h5w_told told = h5swmr_flush(writer);
    h5w_told done = writer->is_several ? h5w_several_close(&writer->several, text, sizeof text) : h5w_writer_close(&writer->core, text, sizeof text);
    done = written(writer, done, text); /* (behind a refused flush its line stays) */
    return drop_writer(writer, told.code == H5W_OK ? done : told);
}

/* ---- Texts */

static const char *refusal_text(uint32_t detail)
{
    static const char *const texts[] = { "refused", "not an HDF5 file", "superblock not as it is read", "flags of a writer that does not write for readers", "object header not as it is read",
        "no such dataset in the root group", "dataset not supported", "too many chunks", "damaged block" };
    return texts[detail < sizeof texts / sizeof *texts ? detail : 0];
}

static const char *unopened_text(uint32_t detail)
{
    static const char *const texts[] = { "not a file to append to", "superblock of another version than 3", "flags of a writer", "the file ends before its end-of-file address",
        "layout message behind the first part of the dataset header", "chunks of too many bytes", "rows without columns", "two names of one dataset" };
    if (detail == H5W_TREE || detail == H5W_TREE_RECORDS)
        return "damaged tree";
    return texts[detail < sizeof texts / sizeof *texts ? detail : 0];
}

const char *h5swmr_text(h5w_told told)
{
    static const char *const texts[] = { "done", "a look is wanted", "values are there", "the dataset header changed in each attempt", "fewer rows than were seen", "", "memory was refused", "busy",
        "rows that were not seen, or no whole rows", "misuse", "the session is stopped", "a value is outside the type", "too many chunks", "no place below the limit", "" };
    switch (told.code) {
    case H5W_REFUSED:
        return refusal_text(told.detail);
    case H5W_OPENED:
        return unopened_text(told.detail);
    case H5W_IO:
        return strerror((int)told.detail);
    case H5W_ROOM:
        return "no room for the values";
    default:
        return told.code < sizeof texts / sizeof *texts ? texts[told.code] : "unknown code";
    }
}
