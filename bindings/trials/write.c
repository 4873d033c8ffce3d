/* Writes rows of known values: write FILE FROM ROWS BATCH SIZE COLUMNS [KEEP]. From row 0 on the file is made, with values of so many bytes, and else
 * opened to append. A batch is flushed at a time. With KEEP 1 old places stay out of use. Prints nothing but errors. */
#include "trials.h"

#include <string.h>

static h5swmr_writer *opened(const char *file, uint64_t from, uint8_t size, uint64_t columns)
{
    h5swmr_writer *writer;
    h5w_options how = H5W_OPTIONS;
    how.size = size;
    how.chunk_rows = 100;
    how.columns = how.width = columns;
    if (from)
        want("rows that are there", want_code("append_to", h5swmr_append_to(&writer, file, "data", how.limit, how.budget), H5W_OK).count, from);
    else
        want_code("create", h5swmr_create(&writer, file, "data", &how), H5W_OK);
    return writer;
}

int main(int argc, char **argv)
{
    if (argc < 7)
        return 2;
    uint64_t from = strtoull(argv[2], 0, 10), rows = strtoull(argv[3], 0, 10), batch = strtoull(argv[4], 0, 10), columns = strtoull(argv[6], 0, 10);
    uint64_t wide = columns ? columns : 1;
    h5swmr_writer *writer = opened(argv[1], from, (uint8_t)atoi(argv[5]), columns);
    int64_t *values = malloc(batch * wide * sizeof *values);
    if (argc > 7 && !strcmp(argv[7], "1"))
        want_code("keep_retired", h5swmr_keep_retired(writer), H5W_OK);
    for (uint64_t row = from; !failed && row < from + rows; row += batch) {
        uint64_t more = batch < from + rows - row ? batch : from + rows - row;
        for (uint64_t k = 0; k < more * wide; k++)
            values[k] = value_of(row * wide + k);
        want("rows in all", want_code("append", h5swmr_append(writer, values, more * wide), H5W_OK).count, row + more);
        want("rows that are visible", want_code("flush", h5swmr_flush(writer), H5W_OK).count, row + more);
    }
    if (writer)
        want_code("close", h5swmr_close_writer(&writer), H5W_OK);
    free(values);
    return failed;
}
