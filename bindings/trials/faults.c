/* The file layer over a system that fails: faults FILE [SETS], which it makes, with so many datasets (1). Linked with --wrap of pread, pwrite, malloc, calloc and realloc, so that calls of
 * the system move one byte, are interrupted, give bytes that are half written, or fail. Prints nothing but what is wrong. */
#define _POSIX_C_SOURCE 200809L
#include "trials.h"

#include <errno.h>
#include <string.h>
#include <time.h>
#include <unistd.h>

#define BATCHES 4
#define BATCH 150
#define SETS 3

static const char *const NAMES[SETS] = { "data", "more", "last" };
static size_t sets = 1;

/* The value of a row of a dataset. */
static int64_t value_in(size_t set, uint64_t row)
{
    return value_of(set * 10007 + row);
}

ssize_t __real_pread(int, void *, size_t, off_t);
ssize_t __real_pwrite(int, const void *, size_t, off_t);
void *__real_malloc(size_t);
void *__real_calloc(size_t, size_t);
void *__real_realloc(void *, size_t);

/* Calls move one byte, and each second one is interrupted. So many looks at a place are torn. The call of this number fails, counted down to 0. */
static bool is_brief, is_odd;
static uint64_t torn, torn_at, looks;
static long fail_look, fail_put, fail_memory;

/* Whether a call is the one that is to fail. */
static bool is_due(long *left)
{
    return *left > 0 && --*left == 0;
}

static bool is_interrupted(void)
{
    is_odd = is_brief && !is_odd;
    errno = EINTR;
    return is_odd;
}

ssize_t __wrap_pread(int fd, void *bytes, size_t n, off_t at)
{
    if (is_interrupted())
        return -1;
    if (is_due(&fail_look)) {
        errno = EIO;
        return -1;
    }
    ssize_t got = __real_pread(fd, bytes, is_brief ? 1 : n, at);
    looks += (uint64_t)at == torn_at;
    if (got > 8 && (uint64_t)at == torn_at && torn > 0) {
        torn--;
        ((char *)bytes)[8] ^= 1;
    }
    return got;
}

ssize_t __wrap_pwrite(int fd, const void *bytes, size_t n, off_t at)
{
    if (is_interrupted())
        return -1;
    if (is_due(&fail_put)) {
        errno = ENOSPC;
        return -1;
    }
    return __real_pwrite(fd, bytes, is_brief ? 1 : n, at);
}

void *__wrap_malloc(size_t n)
{
    return is_due(&fail_memory) ? NULL : __real_malloc(n);
}

void *__wrap_calloc(size_t n, size_t size)
{
    return is_due(&fail_memory) ? NULL : __real_calloc(n, size);
}

void *__wrap_realloc(void *old, size_t n)
{
    return is_due(&fail_memory) ? NULL : __real_realloc(old, n);
}

/* The answer of a call that is made again if it is refused for want of memory. */
#define AGAIN_IF_MEMORY(call) \
    do \
        told = call; \
    while (told.code == H5W_MEMORY)

/* Begins a file of one dataset or of several. */
static h5w_told begin(h5swmr_writer **writer, const char *file, const h5w_options *how)
{
    return sets == 1 ? h5swmr_create(writer, file, NAMES[0], how) : h5swmr_create_several(writer, file, NAMES, sets, how, 1);
}

/* Appends a batch to each dataset. */
static h5w_told append_all(h5swmr_writer *writer, uint64_t rows)
{
    h5w_told told = { H5W_OK, 0, 0 };
    int64_t values[BATCH];
    for (size_t k = 0; told.code == H5W_OK && k < sets; k++) {
        for (uint64_t j = 0; j < BATCH; j++)
            values[j] = value_in(k, rows + j);
        AGAIN_IF_MEMORY(h5swmr_append_in(writer, k, values, BATCH));
    }
    return told;
}

/* Writes the batches to a new file; the rows that were flushed before a call came to IO. */
static uint64_t write_all(const char *file)
{
    h5swmr_writer *writer;
    h5w_options how = H5W_OPTIONS;
    h5w_told told;
    uint64_t rows = 0;
    const int64_t value = 1;
    how.chunk_rows = 7, how.size = 4;
    unlink(file);
    AGAIN_IF_MEMORY(begin(&writer, file, &how));
    for (int k = 0; told.code == H5W_OK && k < BATCHES; k++) {
        told = append_all(writer, rows);
        if (told.code == H5W_OK)
            AGAIN_IF_MEMORY(h5swmr_flush(writer));
        if (told.code == H5W_OK)
            want("rows of a flush", told.count, rows += BATCH);
    }
    if (told.code == H5W_OK)
        told = h5swmr_close_writer(&writer);
    if (told.code == H5W_IO) {
        /* (a create that failed made no handle, and a close leaves none) */
        uint32_t code = writer ? H5W_STOPPED : H5W_MISUSE;
        want("errno", told.detail, ENOSPC);
        want_code("append after a failed write", h5swmr_append(writer, &value, 1), code);
        want("its line", !writer || !strcmp(h5swmr_line(), "stopped"), true);
        want_code("flush after a failed write", h5swmr_flush(writer), code);
        want_code("close after a failed write", h5swmr_close_writer(&writer), code);
    } else
        want_code("a call of the writer", told, H5W_OK);
    return rows;
}

/* Reads a dataset, and compares its rows: so many, or a batch more, which are told. */
static uint64_t read_set(const char *file, size_t set, uint64_t rows, uint64_t most)
{
    h5swmr_reader *reader;
    h5w_told told;
    static int64_t values[BATCHES * BATCH];
    AGAIN_IF_MEMORY(h5swmr_open(&reader, file, NAMES[set], 8));
    uint64_t there = want_code("open", told, H5W_OK).count;
    want("rows", there == rows || there == most, true);
    AGAIN_IF_MEMORY(h5swmr_refresh(reader));
    want("rows", want_code("refresh", told, H5W_OK).count, there);
    AGAIN_IF_MEMORY(h5swmr_read(reader, 0, there, values, BATCHES * BATCH));
    want("values", want_code("read", told, H5W_OK).count, there);
    for (uint64_t k = 0; k < there && !failed; k++)
        want("value", (uint64_t)values[k], (uint64_t)value_in(set, k));
    want_code("close", h5swmr_close_reader(&reader), H5W_OK);
    return there;
}

/* Reads the file: a flush of several datasets that failed may have brought its rows to some, the first of them. */
static void read_all(const char *file, uint64_t rows)
{
    uint64_t most = sets == 1 ? rows : rows + BATCH;
    for (size_t k = 0; k < sets; k++)
        most = read_set(file, k, rows, most);
}

/* Calls that move one byte, and are interrupted. */
static void brief(const char *file)
{
    is_brief = true;
    want("rows", write_all(file), BATCHES * BATCH);
    read_all(file, BATCHES * BATCH);
    is_brief = is_odd = false;
}

/* Looks that are torn: so few that the call goes on, and then all. */
static void torn_looks(const char *file)
{
    h5swmr_reader *reader;
    struct timespec begun, ended;
    want_code("open", h5swmr_open(&reader, file, "data", 8), H5W_OK);
    /* (behind the superblock and the root header stands the dataset header, as tests/faults knows it) */
    torn_at = 106;
    for (torn = 1; torn < 99; torn = torn * 3 + 1) {
        uint64_t left = torn;
        want("rows", want_code("refresh over torn looks", h5swmr_refresh(reader), H5W_OK).count, BATCHES * BATCH);
        want("torn looks that are left", torn, 0);
        torn = left;
    }
    torn = UINT64_MAX;
    looks = 0;
    clock_gettime(CLOCK_MONOTONIC, &begun);
    want("place", want_code("refresh of a damaged file", h5swmr_refresh(reader), H5W_REFUSED).count, 106);
    clock_gettime(CLOCK_MONOTONIC, &ended);
    want("100 looks at least", looks >= 100, true);
    want("10 ms at least", (ended.tv_sec - begun.tv_sec) * 1000000000 + ended.tv_nsec - begun.tv_nsec >= 10000000, true);
    want("rows after a refusal", h5swmr_rows(reader), BATCHES * BATCH);
    torn = 0;
    want("rows", want_code("refresh", h5swmr_refresh(reader), H5W_OK).count, BATCHES * BATCH);
    want_code("close", h5swmr_close_reader(&reader), H5W_OK);
}

/* Each look fails in turn: the call is refused, and the next goes on. */
static void failed_looks(const char *file)
{
    h5swmr_reader *reader;
    h5w_told told;
    static int64_t values[BATCHES * BATCH];
    long n = 1;
    for (bool is_over = false; !failed && !is_over; n++) {
        fail_look = n;
        told = h5swmr_open(&reader, file, "data", 8);
        if (told.code == H5W_OK)
            told = h5swmr_refresh(reader);
        if (told.code == H5W_OK)
            told = h5swmr_read(reader, 0, BATCHES * BATCH, values, BATCHES * BATCH);
        is_over = fail_look > 0;
        fail_look = 0;
        want_code("a call of which a look fails", told, is_over ? H5W_OK : H5W_IO);
        want("errno", is_over ? EIO : told.detail, EIO);
        if (reader) {
            want_code("refresh behind it", h5swmr_refresh(reader), H5W_OK);
            want_code("close", h5swmr_close_reader(&reader), H5W_OK);
        }
    }
    want("many looks failed", n > 20, true);
}

/* Each write fails in turn: the file has the rows that were flushed before. */
static void failed_puts(const char *file)
{
    long n = 1;
    for (bool is_over = false; !failed && !is_over; n++) {
        fail_put = n;
        uint64_t rows = write_all(file);
        is_over = fail_put > 0;
        fail_put = 0;
        /* (a reader finds a file once the pieces of its creation are there: three of each dataset, and two) */
        if (n > 3 * (long)sets + 2)
            read_all(file, rows);
    }
    want("many writes failed", n > 100, true);
}

/* Each call for memory fails in turn: the call is refused, and goes through when it is made again. */
static void failed_memory(const char *file)
{
    long n = 1;
    for (bool is_over = false; !failed && !is_over; n++) {
        fail_memory = n;
        want("rows", write_all(file), BATCHES * BATCH);
        read_all(file, BATCHES * BATCH);
        is_over = fail_memory > 0;
        fail_memory = 0;
    }
    want("many calls failed", n > 50, true);
}

int main(int argc, char **argv)
{
    if (argc < 2 || argc > 3)
        return 2;
    sets = argc > 2 ? (size_t)atoi(argv[2]) : 1;
    if (sets < 1 || sets > SETS)
        return 2;
    brief(argv[1]);
    if (sets == 1) {
        torn_looks(argv[1]);
        failed_looks(argv[1]);
    }
    failed_puts(argv[1]);
    failed_memory(argv[1]);
    return failed;
}
