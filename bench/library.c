/* What the library for C takes for the work that bench/peer.c does with HDF5's: built and led by bench/peer and bench/library.sh.
 *
 *   library append FILE ROWS BATCH   opens the file, appends so many rows in batches, each flushed, and closes it
 *   library open FILE TIMES          opens the file, asks for the rows, and closes it, so many times
 *   library refresh FILE TIMES       opens it once, then refreshes it and asks for the rows so many times
 *   library read FILE                opens it and reads all values into memory
 */
#include "h5swmr.h"

#include <stdio.h>
#include <stdlib.h>
#include <string.h>

static uint64_t checked(h5w_told told, const char *what)
{
    if (told.code != H5W_OK) {
        fprintf(stderr, "library: %s: %s\n", what, h5swmr_text(told));
        exit(1);
    }
    return told.count;
}

static void append_batches(const char *path, uint64_t rows, uint64_t batch)
{
    h5swmr_writer *writer;
    uint64_t from = checked(h5swmr_append_to(&writer, path, "data", (uint64_t)1 << 40, 65536), "append_to"), wide = h5swmr_columns(writer), at, k;
    int64_t *values = malloc(batch * wide * sizeof *values + 1);
    for (at = 0; at < rows; at += batch) {
        uint64_t more = rows - at < batch ? rows - at : batch;
        for (k = 0; k < more * wide; k++)
            values[k] = (int64_t)(((from + at) * wide + k) % 1000000);
        checked(h5swmr_append(writer, values, more * wide), "append");
        checked(h5swmr_flush(writer), "flush");
    }
    free(values);
    checked(h5swmr_close_writer(&writer), "close");
}

static h5swmr_reader *opened(const char *path)
{
    h5swmr_reader *reader;
    checked(h5swmr_open(&reader, path, "data", 8), "open");
    return reader;
}

static void open_often(const char *path, long times)
{
    for (; times > 0; times--) {
        h5swmr_reader *reader = opened(path);
        h5swmr_rows(reader);
        h5swmr_close_reader(&reader);
    }
}

static void refresh_often(const char *path, long times)
{
    h5swmr_reader *reader = opened(path);
    for (; times > 0; times--)
        checked(h5swmr_refresh(reader), "refresh");
    h5swmr_close_reader(&reader);
}

static void read_all(const char *path)
{
    h5swmr_reader *reader = opened(path);
    uint64_t count = checked(h5swmr_load(reader, 0, h5swmr_rows(reader)), "load");
    int64_t *values = malloc(count * sizeof *values + 1);
    checked(h5swmr_values(reader, 0, values, count), "values");
    free(values);
    h5swmr_close_reader(&reader);
}

int main(int count, char **words)
{
    const char *what = count > 2 ? words[1] : "";
    uint64_t first = count > 3 ? strtoull(words[3], NULL, 10) : 0, second = count > 4 ? strtoull(words[4], NULL, 10) : 0;
    if (strcmp(what, "append") == 0 && second)
        append_batches(words[2], first, second);
    else if (strcmp(what, "open") == 0)
        open_often(words[2], (long)first);
    else if (strcmp(what, "refresh") == 0)
        refresh_often(words[2], (long)first);
    else if (strcmp(what, "read") == 0)
        read_all(words[2]);
    else {
        fprintf(stderr, "library: the command line\n");
        return 1;
    }
    return 0;
}
