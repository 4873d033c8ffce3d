/* Writes rows of known values to several datasets: several FILE COUNT FROM BATCHES SIZE COLUMNS [HOW]. They are d0, d1 .. A batch has k + 1 rows of dk,
 * and the batches before FROM are there. From batch 0 on the file is made, with values of so many bytes, and else opened to append. With HOW `keep` old
 * places stay out of use, with `leave` the file is not closed, with `take` it is taken over. Prints nothing but errors. */
#include "trials.h"

#include <string.h>

#define MOST 8

static const char *const NAMES[MOST] = { "d0", "d1", "d2", "d3", "d4", "d5", "d6", "d7" };

/* The value of a dataset by its index among all. */
static int64_t value_in(size_t dataset, uint64_t index)
{
    return value_of(dataset * 104729 + index);
}

static h5swmr_writer *opened(const char *file, size_t count, uint64_t from, uint8_t size, uint64_t columns, const char *how)
{
    h5swmr_writer *writer;
    h5w_options options = H5W_OPTIONS;
    options.size = size;
    options.chunk_rows = 100;
    options.columns = options.width = columns;
    if (!strcmp(how, "take"))
        want("rows that are there", want_code("take_over", h5swmr_take_over(&writer, file, NAMES, count, options.limit, options.budget), H5W_OK).count, from);
    else if (from)
        want("rows that are there", want_code("append_to", h5swmr_append_to_several(&writer, file, NAMES, count, options.limit, options.budget), H5W_OK).count, from);
    else
        want_code("create", h5swmr_create_several(&writer, file, NAMES, count, &options, 1), H5W_OK);
    if (!strcmp(how, "keep"))
        want_code("keep_retired", h5swmr_keep_retired(writer), H5W_OK);
    return writer;
}

/* Appends a batch to each dataset, and flushes all. */
static void add_batch(h5swmr_writer *writer, size_t count, uint64_t batch, uint64_t wide)
{
    int64_t values[MOST * 16];
    for (size_t k = 0; k < count; k++) {
        uint64_t rows = batch * (k + 1);
        for (uint64_t at = 0; at < (k + 1) * wide; at++)
            values[at] = value_in(k, rows * wide + at);
        want("rows before a batch", h5swmr_appended_in(writer, k), rows);
        want("rows in all", want_code("append_in", h5swmr_append_in(writer, k, values, (k + 1) * wide), H5W_OK).count, rows + k + 1);
        want("columns", h5swmr_columns_in(writer, k), wide);
    }
    want("rows of the first", want_code("flush", h5swmr_flush(writer), H5W_OK).count, batch + 1);
}

int main(int argc, char **argv)
{
    if (argc < 7)
        return 2;
    size_t count = (size_t)atoi(argv[2]);
    uint64_t from = strtoull(argv[3], 0, 10), batches = strtoull(argv[4], 0, 10), columns = strtoull(argv[6], 0, 10);
    const char *how = argc > 7 ? argv[7] : "";
    if (count > MOST || columns > 8)
        return 2;
    h5swmr_writer *writer = opened(argv[1], count, from, (uint8_t)atoi(argv[5]), columns, how);
    want("datasets", h5swmr_count(writer), count);
    for (uint64_t batch = from; !failed && batch < from + batches; batch++)
        add_batch(writer, count, batch, columns ? columns : 1);
    if (writer && strcmp(how, "leave"))
        want_code("close", h5swmr_close_writer(&writer), H5W_OK);
    return failed;
}
