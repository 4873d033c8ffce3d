/* Polls a file until it has so many rows, and compares each value: watch FILE ROWS COLUMNS. Prints nothing but what is wrong. */
#include "trials.h"

/* Compares the rows from `seen` on. */
static void compare(h5swmr_reader *reader, uint64_t seen, uint64_t rows, uint64_t wide)
{
    size_t count = (size_t)((rows - seen) * wide);
    int64_t *values = malloc(count * sizeof *values);
    want("values", want_code("read", h5swmr_read(reader, seen, rows - seen, values, count), H5W_OK).count, count);
    for (size_t k = 0; !failed && k < count; k++)
        want("value", (uint64_t)values[k], (uint64_t)value_of(seen * wide + k));
    free(values);
}

int main(int argc, char **argv)
{
    if (argc != 4)
        return 2;
    h5swmr_reader *reader;
    uint64_t seen = 0, rows = strtoull(argv[2], 0, 10), columns = strtoull(argv[3], 0, 10);
    h5w_told told = h5swmr_open(&reader, argv[1], "data", 1000);
    if (told.code != H5W_AGAIN)
        want_code("open", told, H5W_OK);
    while (!failed && seen < rows) {
        told = h5swmr_refresh(reader);
        if (told.code == H5W_AGAIN)
            continue;
        want_code("refresh", told, H5W_OK);
        if (told.count < seen)
            want("rows that fell", told.count, seen);
        if (!failed && told.count > seen)
            compare(reader, seen, told.count, columns ? columns : 1);
        seen = told.count;
    }
    if (reader)
        want_code("close", h5swmr_close_reader(&reader), H5W_OK);
    return failed;
}
