/* h5swmr for C and C++: one writer appends rows to a dataset of an HDF5 file, or to several, and readers find them, with no lock.
 *
 * There are two layers. The file layer (h5swmr.c, at the end of this page) opens files, and calls pread and pwrite: most programs
 * need nothing else. Below it stand the cores (crates/h5w_c), which touch no file: they say which bytes they want, and which are to
 * be written where. The cores are proved; the file layer is tested. docs/LIBRARY.md has both, with first examples.
 */
#ifndef H5SWMR_H
#define H5SWMR_H

#include <stdbool.h>
#include <stddef.h>
#include <stdint.h>

#ifdef __cplusplus
extern "C" {
#endif

/* The most bytes of a look and of a piece. */
#define H5W_PIECE 512

/* What a call comes to: a code, and what this code tells by its numbers. */
typedef struct {
    uint32_t code; /* one of enum h5w_code */
    uint32_t detail;
    uint64_t count;
} h5w_told;

enum h5w_code {
    H5W_OK = 0,       /* count: what the call says */
    H5W_MORE = 1,     /* cores: the call wants a look */
    H5W_VALUES = 2,   /* cores: count values are there */
    H5W_AGAIN = 3,    /* the header changed in each of detail attempts: refresh again. count: the first place that changed */
    H5W_SHRUNK = 4,   /* count rows are there, fewer than were seen: it is another file, so open it anew */
    H5W_REFUSED = 5,  /* the file is not one that is read. detail: enum h5w_refusal */
    H5W_MEMORY = 6,   /* memory was refused, or rows that wait are past the budget of several datasets; the handle is as before the call */
    H5W_BUSY = 7,     /* a call is unfinished, count pieces are pending, or the handle to be opened is open */
    H5W_ROWS = 8,     /* read: rows that were not seen, count were. append: no whole rows, which have count values each */
    H5W_MISUSE = 9,   /* the handle is not open, an option, a name or a dataset is out of bounds, or no such bytes were asked for */
    H5W_STOPPED = 10, /* the session was closed, or a write failed */
    H5W_RANGE = 11,   /* a value is outside the type, the dataset's or int64_t. count: its index in the call */
    H5W_CHUNKS = 12,  /* the rows need more than count chunks */
    H5W_FULL = 13,    /* detail 1: no place below the limit, the first that is free is count. 2: no room in a tree of another program */
    H5W_OPENED = 14,  /* the file is not one to append to. detail: enum h5w_unopened */
    H5W_IO = 64,      /* file layer: a call of the system failed. detail: its errno. count: the place in the file, or 0 */
    H5W_ROOM = 65     /* file layer: there are count values, more than there is room for */
};

enum h5w_refusal {
    H5W_NOT_HDF5 = 1,
    H5W_SUPERBLOCK = 2,
    H5W_FLAGS = 3,       /* count: the flags, one of bits 0 and 2 without the other */
    H5W_HEADER = 4,      /* count: where the object header stands */
    H5W_LINK = 5,        /* the root group has no such dataset */
    H5W_UNSUPPORTED = 6, /* count: its number in docs/FORMAT.md, "Unsupported" */
    H5W_MANY_CHUNKS = 7, /* count: how many are read at most */
    H5W_DAMAGED = 8      /* count: where the block stands */
};

enum h5w_unopened {
    H5W_VERSION = 1,      /* count: the superblock's version, which is not 3 */
    H5W_WRITER = 2,       /* count: the flags of a writer that has the file open, or was stopped */
    H5W_CUT = 3,          /* count: the end that the superblock says, behind the file's last byte */
    H5W_LAYOUT = 4,       /* the layout message stands behind the first part of the dataset header */
    H5W_CHUNK_BYTES = 5,  /* count: the bytes of a chunk, too many */
    H5W_NO_COLUMNS = 6,   /* rows without columns */
    H5W_SAME = 7,         /* two names lead to one dataset. count: the number of the second, counted from 1 */
    H5W_TREE = 15,        /* a block of the tree is damaged. count: where */
    H5W_TREE_RECORDS = 16 /* the records of the tree are out of order. count: where */
};

/* How a file is made. H5W_OPTIONS is a first value of all: `h5w_options how = H5W_OPTIONS;`, 64-bit signed values in one dimension. */
typedef struct {
    uint64_t chunk_rows; /* rows of a chunk, 1 to 65,536 */
    uint64_t columns;    /* columns of a row, 1 to 65,536; 0: one dimension */
    uint64_t width;      /* columns of a chunk, 1 to 65,536; without columns it is not looked at */
    uint64_t limit;      /* the most bytes of the file, 1,024 to 2^40 */
    uint64_t budget;     /* the most bytes that wait unwritten for a flush, 1,024 to 2^30; of several datasets so many of each */
    int64_t fill;        /* what cells hold that no row was written to; where `filled` is 0 it is not looked at */
    uint8_t size;        /* bytes of a value, 1, 2, 4 or 8 */
    uint8_t big;         /* of these flags 0 is no, and all else yes: big-endian */
    uint8_t is_signed;
    uint8_t filled; /* there is a fill */
    uint8_t fixed;  /* there are never more columns, and `width` is at most `columns` */
} h5w_options;

#define H5W_OPTIONS { 1024, 0, 0, (uint64_t)1 << 40, 65536, 0, 8, 0, 1, 0, 0 }

/* What a dataset is, as the last open or refresh found it. A flag is 0 or 1. */
typedef struct {
    uint64_t rows;
    uint64_t columns;    /* columns of a row, 1 in one dimension */
    uint64_t chunk_rows; /* rows of a chunk */
    uint64_t width;      /* columns of a chunk, 1 in one dimension */
    uint8_t dimensions;  /* 1 or 2 */
    uint8_t growing;     /* there may be more columns later */
    uint8_t size;        /* bytes of a value, 1, 2, 4 or 8 */
    uint8_t big;         /* big-endian */
    uint8_t is_signed;
} h5w_shape;

/* ---- The cores. What C owes them:
 *
 * - A handle is all zero before it is opened, `h5w_reader reader = {0};`, and from then on as the last call left it. C does not write
 *   it, and does not copy it: a copy that is used after a close of the other is used after it was freed.
 * - A handle is in one call at a time, of the thread that opened it. No call comes from a signal handler, nor from the child of a fork
 *   in a process with threads.
 * - A pointer is never NULL, also where its length is 0, and what it points to lies in no other argument.
 * - malloc, realloc and free are of one allocator. 64 KiB of stack are enough.
 *
 * A call of a handle that is not open answers H5W_MISUSE, and changes nothing.
 */

typedef struct {
    uint8_t live;
    void *at;
} h5w_reader;

typedef struct {
    uint8_t live;
    void *at;
} h5w_writer;

/* A writer of several datasets of one file. */
typedef struct {
    uint8_t live;
    void *at;
} h5w_several;

/* A range of the file: of a look, or of a piece. */
typedef struct {
    uint64_t at, len;
} h5w_place;

/* Begins to open the dataset of this name in the root group: MORE, BUSY, MISUSE (attempts outside of 1 to 1,000) or MEMORY. A call tries
 * so often where the dataset header changes meanwhile. */
h5w_told h5w_reader_open(h5w_reader *, const uint8_t *name, size_t len, uint32_t attempts);

/* The next look that the unfinished call wants, 1 to 512 bytes; false where none is wanted, and then the place stays as it was. */
bool h5w_reader_want(h5w_reader *, h5w_place *);

/* Goes on with what the look gave: MORE, OK (count: rows), VALUES, AGAIN, SHRUNK, REFUSED, MEMORY or MISUSE (no look is due, or more bytes
 * than were wanted). C owes: the bytes are those of the file at the place that was wanted, as they stood together at one moment behind
 * the call's begin; they are fewer only where the file ends. Another's bytes give a wrong answer or a refusal, and never a crash. After a
 * refusal the reader knows what it knew before the call. */
h5w_told h5w_reader_give(h5w_reader *, const uint8_t *bytes, size_t len);

/* Begins a refresh, or an open again as long as none was answered with rows: MORE, BUSY or MISUSE. */
h5w_told h5w_reader_refresh(h5w_reader *);

/* Begins a read of so many rows, which have to be seen: MORE, VALUES (no look is needed), BUSY, ROWS, MEMORY or MISUSE. */
h5w_told h5w_reader_read(h5w_reader *, uint64_t from, uint64_t rows);

/* The rows that the last answered open or refresh found; 0 before it. */
uint64_t h5w_reader_rows(h5w_reader *);

/* Copies values of the last answered read into `out`, from value `from` on, and answers how many that were. The values of a row stand one
 * behind another. The copy ends before a value that the type of `out` has not. C owes: `out` has room for n values. */
uint64_t h5w_reader_values(h5w_reader *, uint64_t from, int64_t *out, size_t n);
uint64_t h5w_reader_values_u64(h5w_reader *, uint64_t from, uint64_t *out, size_t n);

/* The shape of the dataset; false as long as no open was answered with rows, and then `shape` stays as it was. */
bool h5w_reader_shape(h5w_reader *, h5w_shape *shape);

/* The line that the program prints of the last AGAIN, SHRUNK, REFUSED or MEMORY of a look goes to the front of `text`, as much of it as has room;
 * it ends with a newline. Answers how many bytes the line has: 0 where there was none, or memory was refused. C owes: `text` has room for n bytes. */
uint64_t h5w_reader_refusal(h5w_reader *, uint8_t *text, size_t n);

/* Ends an unfinished call as if it had not begun, as where pread failed. */
void h5w_reader_quit(h5w_reader *);

/* Frees the reader; the handle is all zero again. */
void h5w_reader_close(h5w_reader *);

/* Begins a new file: OK (count: pieces are pending), BUSY, MISUSE (an option or the name's 1 to 64 bytes out of bounds) or MEMORY. C owes:
 * the pieces go into an empty file. */
h5w_told h5w_writer_create(h5w_writer *, const uint8_t *name, size_t len, const h5w_options *);

/* Opens a file to append to it, from all its bytes: OK (count: a piece is pending), BUSY, MISUSE, REFUSED, OPENED or MEMORY. Nothing of
 * `bytes` is kept. The line that the program prints of a REFUSED or OPENED goes to the front of `text`, as much of it as has room; it ends with a
 * newline. C owes: `bytes` are the whole file, nobody writes it from then on but this handle's pieces, and nobody cuts it; `text` has room for n. */
h5w_told h5w_writer_open(h5w_writer *, const uint8_t *bytes, size_t size, const uint8_t *name, size_t len, uint64_t limit, uint64_t budget, uint8_t *text, size_t n);

/* Appends whole rows, whose values stand one behind another: OK (count: rows in all), ROWS, STOPPED, BUSY, RANGE, CHUNKS, MEMORY or MISUSE.
 * A refusal appends nothing. The line that the program prints of it goes to the front of `text`, as much of it as has room; it ends with a newline.
 * It is that of an input whose first line has these values: `error range 1 2 128`. Of STOPPED and BUSY it is what a script is answered: `stopped`,
 * `busy 3`. Where memory is refused for the line, and behind OK and MISUSE, `text` stays. C owes: pieces may be pending behind it, and are written
 * before the next append, flush or close; `text` has room for `room` bytes. */
h5w_told h5w_writer_append(h5w_writer *, const int64_t *values, size_t n, uint8_t *text, size_t room);
h5w_told h5w_writer_append_u64(h5w_writer *, const uint64_t *values, size_t n, uint8_t *text, size_t room);

/* Plans the pieces that make the appended rows visible: OK (count: pieces are pending), STOPPED, BUSY, FULL, MEMORY or MISUSE. A refusal has its
 * line in `text`, as an append. */
h5w_told h5w_writer_flush(h5w_writer *, uint8_t *text, size_t room);

/* The oldest pending piece and its place; false where none is pending or n is less than its bytes: give room for 512. C owes: it is written
 * at its place, whole, and before the next one, and nobody else writes the file. */
bool h5w_writer_next(h5w_writer *, uint8_t *out, size_t n, h5w_place *);

/* The oldest pending piece was written: OK (count: pieces that are still pending) or MISUSE (none was). C owes: the whole piece is in the
 * file, so that each look from now on finds it. */
h5w_told h5w_writer_written(h5w_writer *);

/* The oldest pending piece could not be written: the session is stopped, and nothing is pending. C owes: nothing of it is in the file. */
h5w_told h5w_writer_failed(h5w_writer *);

/* Plans the last piece, which clears the flags of a writer: OK (count: 1 piece is pending), STOPPED, BUSY or MISUSE. Rows that no flush has
 * planned are dropped. A refusal has its line in `text`, as an append. C owes: the piece is written. */
h5w_told h5w_writer_close(h5w_writer *, uint8_t *text, size_t room);

/* Keeps the places of old blocks out of use, as HDF5's own library wants it of a writer that it reads beside: OK or MISUSE. */
h5w_told h5w_writer_keep_retired(h5w_writer *);

/* The rows that were appended in all, and the values of a row, 1 in one dimension; 0 of a handle that is not open. */
uint64_t h5w_writer_rows(h5w_writer *);
uint64_t h5w_writer_columns(h5w_writer *);

/* Frees the writer, whatever it is at; the handle is all zero again. */
void h5w_writer_free(h5w_writer *);

/* ---- A writer of several datasets of one file. Its calls are those of a writer, and C owes the same. A dataset is named by its number, counted
 * from 0, in the order of the names; a number with no dataset is MISUSE, and changes nothing. Names are their bytes, one behind another, and the
 * length of each: "framestimes" with 6 and 5. */

/* Begins a new file with a dataset of each of 1 to 8 names of 1 to 64 bytes, by the options at its place, one for each name; the limit and the budget
 * are those of the first: OK (count: pieces are pending), BUSY, MISUSE (an option or the names are out of bounds, there are not as many options, a name
 * stands twice, or the limit is below 1,024 bytes a name) or MEMORY. */
h5w_told h5w_several_create(h5w_several *, const uint8_t *names, size_t size, const uint64_t *lens, size_t count, const h5w_options *options, size_t n);

/* Opens a file to append to its datasets of 1 to 8 names of up to 512 bytes, as h5w_writer_open. OPENED too if two names lead to one dataset. */
h5w_told h5w_several_open(h5w_several *, const uint8_t *bytes, size_t n, const uint8_t *names, size_t size, const uint64_t *lens, size_t count, uint64_t limit, uint64_t budget, uint8_t *text, size_t room);

/* The same of a file that a writer left open, as where its process was killed: OK (count: 0, nothing is pending). OPENED (detail: H5W_WRITER) if the
 * file has not both flags of a writer. C owes besides: that writer writes no more. */
h5w_told h5w_several_take_over(h5w_several *, const uint8_t *bytes, size_t n, const uint8_t *names, size_t size, const uint64_t *lens, size_t count, uint64_t limit, uint64_t budget, uint8_t *text, size_t room);

/* Appends whole rows to a dataset, as h5w_writer_append. No row is written before its flush: MEMORY too if the chunks of the dataset's rows that would
 * wait have more bytes than its budget. A flush makes room; a chunk that is larger needs a greater budget. */
h5w_told h5w_several_append(h5w_several *, size_t dataset, const int64_t *values, size_t n, uint8_t *text, size_t room);
h5w_told h5w_several_append_u64(h5w_several *, size_t dataset, const uint64_t *values, size_t n, uint8_t *text, size_t room);

/* Plans the pieces that make the appended rows of all datasets visible, dataset after dataset, as h5w_writer_flush. What is refused is refused for
 * all. How many pieces each dataset has goes to the front of `counts`, as many of these numbers as have room, but for behind a refusal. */
h5w_told h5w_several_flush(h5w_several *, uint64_t *counts, size_t n, uint8_t *text, size_t room);

/* As h5w_writer_next, h5w_writer_written, h5w_writer_failed, h5w_writer_close and h5w_writer_keep_retired. */
bool h5w_several_next(h5w_several *, uint8_t *out, size_t n, h5w_place *);
h5w_told h5w_several_written(h5w_several *);
h5w_told h5w_several_failed(h5w_several *);
h5w_told h5w_several_close(h5w_several *, uint8_t *text, size_t room);
h5w_told h5w_several_keep_retired(h5w_several *);

/* The rows that were appended to a dataset in all, the values of its rows, and how many datasets there are; 0 if there is no such dataset, and of a
 * handle that is not open. */
uint64_t h5w_several_rows(h5w_several *, size_t dataset);
uint64_t h5w_several_columns(h5w_several *, size_t dataset);
uint64_t h5w_several_count(h5w_several *);

/* Frees the writer, whatever it is at; the handle is all zero again. */
void h5w_several_free(h5w_several *);

/* ---- Files. A handle is a pointer, NULL where an open or create failed and after a close: a call of NULL answers H5W_MISUSE. A copy of
 * the pointer is not to be used once the handle is closed. A handle is in one call at a time, of the thread that opened it.
 *
 * A file system may show a look a write half done. So an open or refresh that is refused for what such bytes may be is begun again, after
 * the fifth time with a rest of 0.1 ms. It is refused once 100 tries over 10 ms and more came to the same.
 */

typedef struct h5swmr_reader h5swmr_reader;
typedef struct h5swmr_writer h5swmr_writer;

/* Opens a dataset of the root group to read it: OK (count: its rows), or AGAIN, behind which a refresh opens it. Else no handle is made:
 * REFUSED, MEMORY, IO or MISUSE. 8 is a good number of attempts. */
h5w_told h5swmr_open(h5swmr_reader **, const char *path, const char *name, uint32_t attempts);

/* Looks for new rows: OK (count: all rows that are there), AGAIN, SHRUNK, REFUSED, MEMORY, IO or MISUSE. But for OK the rows stay those that
 * were seen before. */
h5w_told h5swmr_refresh(h5swmr_reader *);

/* The rows that were seen. */
uint64_t h5swmr_rows(h5swmr_reader *);

/* The shape of the dataset, as the last open or refresh found it: OK, or MISUSE as long as none was done. */
h5w_told h5swmr_shape(h5swmr_reader *, h5w_shape *);

/* Reads rows that were seen, and keeps their values until the next: OK (count: values), ROWS, REFUSED, MEMORY, IO or MISUSE. */
h5w_told h5swmr_load(h5swmr_reader *, uint64_t from, uint64_t rows);

/* Copies values of the last load, from value `from` on, as many as there are and have room: OK (count: how many), RANGE or MISUSE. RANGE: the
 * value behind the first `count` is none of int64_t, or of uint64_t. */
h5w_told h5swmr_values(h5swmr_reader *, uint64_t from, int64_t *out, size_t room);
h5w_told h5swmr_values_u64(h5swmr_reader *, uint64_t from, uint64_t *out, size_t room);

/* Reads rows that were seen into `out`, both of the above: OK (count: values), RANGE, ROOM (count: the values that there are), ROWS, REFUSED,
 * MEMORY, IO or MISUSE. */
h5w_told h5swmr_read(h5swmr_reader *, uint64_t from, uint64_t rows, int64_t *out, size_t room);

/* Closes the reader, and sets the pointer to NULL: OK or MISUSE. */
h5w_told h5swmr_close_reader(h5swmr_reader **);

/* Makes a file, which must not be there, with an empty dataset, and goes on as its writer: OK, MISUSE, MEMORY or IO. After IO the file may be
 * there, and is no HDF5 file yet. */
h5w_told h5swmr_create(h5swmr_writer **, const char *path, const char *name, const h5w_options *);

/* Opens a file to append to it: OK (count: the rows that are there), REFUSED, OPENED, MEMORY, IO or MISUSE. `limit` and `budget` are as in
 * h5w_options. Nobody else may write the file, nor cut it. */
h5w_told h5swmr_append_to(h5swmr_writer **, const char *path, const char *name, uint64_t limit, uint64_t budget);

/* Keeps the places of old blocks out of use: call it first, where HDF5's own library reads beside. */
h5w_told h5swmr_keep_retired(h5swmr_writer *);

/* Appends whole rows, which wait for a flush: OK (count: rows in all), ROWS, RANGE, CHUNKS, STOPPED, MEMORY, IO or MISUSE. But for IO a refusal
 * appends nothing. After IO the session is stopped, the file is as after the last piece, and only close is left. */
h5w_told h5swmr_append(h5swmr_writer *, const int64_t *values, size_t n);
h5w_told h5swmr_append_u64(h5swmr_writer *, const uint64_t *values, size_t n);

/* Makes the appended rows visible: OK (count: rows that each reader finds whose call begins from now on), STOPPED, FULL, MEMORY, IO or MISUSE. */
h5w_told h5swmr_flush(h5swmr_writer *);

/* The rows that were appended in all, and the values of a row. */
uint64_t h5swmr_appended(h5swmr_writer *);
uint64_t h5swmr_columns(h5swmr_writer *);

/* Flushes, closes the file and sets the pointer to NULL: OK, or the first of the refusals on the way. Only where a write failed has the file
 * a writer's flags then: `h5swmr check` and `h5swmr clear` say and do the rest. */
h5w_told h5swmr_close_writer(h5swmr_writer **);

/* ---- Writers of several datasets of one file. Any call above takes one too, and means the dataset of the first name if it names none; flush, close
 * and keep_retired are of all. Rows wait for their flush, and their chunks, whole ones, are within the budget of each dataset: else an append is
 * MEMORY. So give it room for a few chunks. */

/* Makes a file, which must not be there, with an empty dataset of each of 1 to 8 names, and goes on as its writer: as h5swmr_create. There are `n`
 * options: one for each name, or one for all. The limit and the budget are those of the first. MISUSE too if a name stands twice, `n` is another
 * number, or the limit is below 1,024 bytes a name. */
h5w_told h5swmr_create_several(h5swmr_writer **, const char *path, const char *const *names, size_t count, const h5w_options *options, size_t n);

/* Opens a file to append to its datasets of 1 to 8 names: as h5swmr_append_to, with the rows of the first. OPENED too if two names lead to one
 * dataset. */
h5w_told h5swmr_append_to_several(h5swmr_writer **, const char *path, const char *const *names, size_t count, uint64_t limit, uint64_t budget);

/* The same of a file that a writer left open, which was killed and writes no more: rows that it had not flushed are gone. OPENED (detail:
 * H5W_WRITER) if the file has not both flags of a writer. */
h5w_told h5swmr_take_over(h5swmr_writer **, const char *path, const char *const *names, size_t count, uint64_t limit, uint64_t budget);

/* As h5swmr_append, to the dataset of this number, counted from 0: MISUSE if there is none. */
h5w_told h5swmr_append_in(h5swmr_writer *, size_t dataset, const int64_t *values, size_t n);
h5w_told h5swmr_append_in_u64(h5swmr_writer *, size_t dataset, const uint64_t *values, size_t n);

/* The rows that were appended to a dataset in all, the values of its rows, and how many datasets there are; 0 if there is no such dataset. */
uint64_t h5swmr_appended_in(h5swmr_writer *, size_t dataset);
uint64_t h5swmr_columns_in(h5swmr_writer *, size_t dataset);
uint64_t h5swmr_count(h5swmr_writer *);

/* What a code means, in a few words; of REFUSED and OPENED what the detail means, of IO the text of the system's error. */
const char *h5swmr_text(h5w_told);

/* The line that the program would print of it, as `error damaged 106 sum 706dc316 4187dd3f` (docs/FORMAT.md has all), if the last call of a
 * handle on this thread that answered AGAIN, SHRUNK, REFUSED or OPENED had one; so of ROWS, RANGE, CHUNKS, FULL and STOPPED of an append, flush or
 * close, as h5w_writer_append has it. Else "". It is there until the next such call. */
const char *h5swmr_line(void);

#ifdef __cplusplus
}
#endif
#endif
