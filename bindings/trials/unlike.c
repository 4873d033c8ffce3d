/* Writes rows of known values to two datasets that are not alike: unlike FILE BATCHES. `line` has 64-bit values in one dimension, in chunks of 100. `frames`
 * has rows of 5 unsigned pixels of 16 bits, the most significant byte first, in chunks of 8 rows and 3 columns, and the fill 7. A batch has 3 rows of
 * `line` and 2 of `frames`. Old places stay out of use. Prints nothing but errors. */
#include "trials.h"

#define WIDE 5

static const char *const NAMES[2] = { "line", "frames" };

static h5swmr_writer *begun(const char *file)
{
    h5swmr_writer *writer;
    h5w_options how[2] = { H5W_OPTIONS, H5W_OPTIONS };
    how[0].chunk_rows = 100;
    how[0].budget = 1 << 20; /* (of both) */
    how[1].size = 2, how[1].big = 1, how[1].is_signed = 0, how[1].fixed = 1;
    how[1].columns = WIDE, how[1].width = 3, how[1].chunk_rows = 8;
    how[1].filled = 1, how[1].fill = 7;
    want_code("create", h5swmr_create_several(&writer, file, NAMES, 2, how, 2), H5W_OK);
    want_code("keep_retired", h5swmr_keep_retired(writer), H5W_OK);
    want("columns of each", h5swmr_columns_in(writer, 0) * 10 + h5swmr_columns_in(writer, 1), 10 + WIDE);
    return writer;
}

static void add_batch(h5swmr_writer *writer, uint64_t batch)
{
    int64_t line[3], frames[2 * WIDE];
    for (uint64_t at = 0; at < 3; at++)
        line[at] = value_of(batch * 3 + at) * ((int64_t)1 << 40);
    for (uint64_t at = 0; at < 2 * WIDE; at++)
        frames[at] = (int64_t)((batch * 2 * WIDE + at) * 7919 % 65536);
    want("rows of line", want_code("append", h5swmr_append_in(writer, 0, line, 3), H5W_OK).count, (batch + 1) * 3);
    want("rows of frames", want_code("append", h5swmr_append_in(writer, 1, frames, 2 * WIDE), H5W_OK).count, (batch + 1) * 2);
    want_code("flush", h5swmr_flush(writer), H5W_OK);
}

int main(int argc, char **argv)
{
    if (argc < 3)
        return 2;
    h5swmr_writer *writer = begun(argv[1]);
    uint64_t batches = strtoull(argv[2], 0, 10);
    for (uint64_t batch = 0; !failed && batch < batches; batch++)
        add_batch(writer, batch);
    want("the value outside", want_code("append of 65,536", h5swmr_append_in(writer, 1, (const int64_t[WIDE]){ 0, 65536 }, WIDE), H5W_RANGE).count, 1);
    want_code("close", h5swmr_close_writer(&writer), H5W_OK);
    return failed;
}
