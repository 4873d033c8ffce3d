/* What HDF5's library takes for the work that h5swmr's commands do: built and led by bench/peer.
 *
 *   peer write FILE ROWS CHUNK    makes a dataset `data` of 32-bit integers 0, 1, .. in one write
 *   peer grid FILE ROWS COLUMNS HEIGHT WIDTH
 *                                 makes one whose rows and columns may both grow, in chunks of so many of each
 *   peer open FILE TIMES          opens the file and the dataset, asks for its rows, and closes both, so many times
 *   peer refresh FILE TIMES       opens them once, then refreshes the dataset and asks for its rows so many times
 *   peer read FILE                opens them and reads all values into memory
 *   peer print FILE               the same, and prints each value on a line
 *   peer append FILE ROWS BATCH   opens the file for SWMR writing, appends so many rows in batches, each flushed, and closes it
 *   peer feed FILE                opens it so, appends each line of numbers that comes, a row each, flushes it, and tells the rows: "rows N"
 *   peer poll FILE TIMES PRINTS   opens it for SWMR reading and refreshes it, so many times, and tells the rows and reads the new ones each
 *                                 time: PRINTS is 1 to print them behind the line, and 0 to read them before it
 */
#include <hdf5.h>
#include <stdio.h>
#include <stdlib.h>
#include <string.h>

static void stop(const char *what)
{
    fprintf(stderr, "peer: %s failed\n", what);
    exit(1);
}

static long long checked(long long answer, const char *what)
{
    if (answer < 0)
        stop(what);
    return answer;
}

static hid_t latest(void)
{
    hid_t access = checked(H5Pcreate(H5P_FILE_ACCESS), "H5Pcreate");
    checked(H5Pset_libver_bounds(access, H5F_LIBVER_LATEST, H5F_LIBVER_LATEST), "H5Pset_libver_bounds");
    return access;
}

static hid_t open_dataset(const char *path, unsigned flags, hid_t *file)
{
    hid_t access = latest();
    *file = checked(H5Fopen(path, flags, access), "H5Fopen");
    H5Pclose(access);
    return checked(H5Dopen2(*file, "data", H5P_DEFAULT), "H5Dopen2");
}

/* The rows and the columns of a dataset, which has one column where it has one dimension. */
static void extent_of(hid_t dataset, hsize_t extent[2])
{
    hid_t space = checked(H5Dget_space(dataset), "H5Dget_space");
    extent[1] = 1;
    checked(H5Sget_simple_extent_dims(space, extent, NULL), "H5Sget_simple_extent_dims");
    H5Sclose(space);
}

static hsize_t rows_of(hid_t dataset)
{
    hsize_t extent[2];
    extent_of(dataset, extent);
    return extent[0];
}

/* Some rows of a dataset, and as many in memory. */
static hid_t select_rows(hid_t dataset, hsize_t from, const hsize_t count[2], hid_t *memory)
{
    hsize_t start[2] = {from, 0};
    hid_t space = checked(H5Dget_space(dataset), "H5Dget_space");
    *memory = checked(H5Screate_simple(H5Sget_simple_extent_ndims(space), count, NULL), "H5Screate_simple");
    checked(H5Sselect_hyperslab(space, H5S_SELECT_SET, start, NULL, count, NULL), "H5Sselect_hyperslab");
    return space;
}

/* Appends rows to a dataset, of whose extent it keeps count. */
static void append(hid_t dataset, hsize_t extent[2], hsize_t rows, const int *values)
{
    hsize_t from = extent[0], count[2] = {rows, extent[1]};
    extent[0] += rows;
    checked(H5Dset_extent(dataset, extent), "H5Dset_extent");
    hid_t memory, space = select_rows(dataset, from, count, &memory);
    checked(H5Dwrite(dataset, H5T_NATIVE_INT, memory, space, H5P_DEFAULT, values), "H5Dwrite");
    H5Sclose(memory);
    H5Sclose(space);
}

/* Appends rows whose values tell their places. */
static void append_rising(hid_t dataset, hsize_t extent[2], hsize_t rows)
{
    hsize_t first = extent[0] * extent[1], count = rows * extent[1], i;
    int *values = malloc(count * sizeof *values + 1);
    for (i = 0; i < count; i++)
        values[i] = (int)((first + i) % 1000000);
    append(dataset, extent, rows, values);
    free(values);
}

static void write_file(const char *path, hsize_t rows, hsize_t chunk)
{
    hsize_t extent[2] = {0, 1}, most = H5S_UNLIMITED;
    hid_t access = latest(), space = checked(H5Screate_simple(1, extent, &most), "H5Screate_simple");
    hid_t creation = checked(H5Pcreate(H5P_DATASET_CREATE), "H5Pcreate");
    checked(H5Pset_chunk(creation, 1, &chunk), "H5Pset_chunk");
    hid_t file = checked(H5Fcreate(path, H5F_ACC_TRUNC, H5P_DEFAULT, access), "H5Fcreate");
    hid_t dataset = checked(H5Dcreate2(file, "data", H5T_STD_I32LE, space, H5P_DEFAULT, creation, H5P_DEFAULT), "H5Dcreate2");
    append_rising(dataset, extent, rows);
    H5Dclose(dataset);
    checked(H5Fclose(file), "H5Fclose");
}

static void write_grid(const char *path, char **sides)
{
    hsize_t extent[2] = {0, strtoull(sides[1], NULL, 10)}, most[2] = {H5S_UNLIMITED, H5S_UNLIMITED};
    hsize_t chunk[2] = {strtoull(sides[2], NULL, 10), strtoull(sides[3], NULL, 10)};
    hid_t access = latest(), space = checked(H5Screate_simple(2, extent, most), "H5Screate_simple");
    hid_t creation = checked(H5Pcreate(H5P_DATASET_CREATE), "H5Pcreate");
    checked(H5Pset_chunk(creation, 2, chunk), "H5Pset_chunk");
    hid_t file = checked(H5Fcreate(path, H5F_ACC_TRUNC, H5P_DEFAULT, access), "H5Fcreate");
    hid_t dataset = checked(H5Dcreate2(file, "data", H5T_STD_I32LE, space, H5P_DEFAULT, creation, H5P_DEFAULT), "H5Dcreate2");
    append_rising(dataset, extent, strtoull(sides[0], NULL, 10));
    H5Dclose(dataset);
    checked(H5Fclose(file), "H5Fclose");
}

static void append_batches(const char *path, hsize_t rows, hsize_t batch)
{
    hid_t file, dataset = open_dataset(path, H5F_ACC_RDWR, &file);
    hsize_t extent[2], at;
    extent_of(dataset, extent);
    checked(H5Fstart_swmr_write(file), "H5Fstart_swmr_write");
    for (at = 0; at < rows; at += batch) {
        append_rising(dataset, extent, rows - at < batch ? rows - at : batch);
        checked(H5Dflush(dataset), "H5Dflush");
    }
    checked(H5Dclose(dataset), "H5Dclose");
    checked(H5Fclose(file), "H5Fclose");
}

static void tell(hsize_t rows)
{
    printf("rows %llu\n", (unsigned long long)rows);
    fflush(stdout);
}

static void feed(const char *path)
{
    static char line[1 << 16];
    static int values[1 << 15];
    hid_t file, dataset = open_dataset(path, H5F_ACC_RDWR, &file);
    hsize_t extent[2];
    extent_of(dataset, extent);
    checked(H5Fstart_swmr_write(file), "H5Fstart_swmr_write");
    while (fgets(line, sizeof line, stdin)) {
        hsize_t count = 0;
        char *at = line, *end;
        for (values[0] = strtol(at, &end, 10); end > at; values[count] = strtol(at = end, &end, 10))
            count++;
        if (count == 0)
            continue;
        append(dataset, extent, count, values);
        checked(H5Dflush(dataset), "H5Dflush");
        tell(extent[0]);
    }
    checked(H5Dclose(dataset), "H5Dclose");
    checked(H5Fclose(file), "H5Fclose");
}

static void open_often(const char *path, long times)
{
    hid_t file;
    for (; times > 0; times--) {
        hid_t dataset = open_dataset(path, H5F_ACC_RDONLY, &file);
        rows_of(dataset);
        H5Dclose(dataset);
        H5Fclose(file);
    }
}

static void refresh_often(const char *path, long times)
{
    hid_t file, dataset = open_dataset(path, H5F_ACC_RDONLY | H5F_ACC_SWMR_READ, &file);
    for (; times > 0; times--) {
        checked(H5Drefresh(dataset), "H5Drefresh");
        rows_of(dataset);
    }
    H5Dclose(dataset);
    H5Fclose(file);
}

static int *read_rows(hid_t dataset, hsize_t from, hsize_t rows)
{
    hsize_t count[2] = {rows, 1};
    int *values = malloc(rows * sizeof *values + 1);
    hid_t memory, space = select_rows(dataset, from, count, &memory);
    checked(H5Dread(dataset, H5T_NATIVE_INT, memory, space, H5P_DEFAULT, values), "H5Dread");
    H5Sclose(memory);
    H5Sclose(space);
    return values;
}

static void poll_often(const char *path, long times, int prints)
{
    static char buffer[1 << 16];
    setvbuf(stdout, buffer, _IOFBF, sizeof buffer);
    hid_t file, dataset = open_dataset(path, H5F_ACC_RDONLY | H5F_ACC_SWMR_READ, &file);
    hsize_t seen = 0;
    for (; times > 0; times--) {
        hsize_t rows = rows_of(dataset), i;
        if (prints)
            tell(rows);
        if (rows > seen) {
            int *values = read_rows(dataset, seen, rows - seen);
            for (i = 0; prints && i < rows - seen; i++)
                printf("%d\n", values[i]);
            fflush(stdout);
            free(values);
            seen = rows;
        }
        if (!prints)
            tell(rows);
        checked(H5Drefresh(dataset), "H5Drefresh");
    }
    H5Dclose(dataset);
    H5Fclose(file);
}

static void read_all(const char *path, int prints)
{
    hid_t file, dataset = open_dataset(path, H5F_ACC_RDONLY, &file);
    hsize_t extent[2], count, i;
    extent_of(dataset, extent);
    count = extent[0] * extent[1];
    int *values = malloc(count * sizeof *values + 1);
    checked(H5Dread(dataset, H5T_NATIVE_INT, H5S_ALL, H5S_ALL, H5P_DEFAULT, values), "H5Dread");
    for (i = 0; prints && i < count; i++)
        printf("%d%c", values[i], (i + 1) % extent[1] ? ' ' : '\n');
    free(values);
    H5Dclose(dataset);
    H5Fclose(file);
}

int main(int count, char **words)
{
    const char *what = count > 2 ? words[1] : "";
    long first = count > 3 ? atol(words[3]) : 0, second = count > 4 ? atol(words[4]) : 0;
    if (strcmp(what, "write") == 0)
        write_file(words[2], first, second);
    else if (strcmp(what, "grid") == 0 && count > 6)
        write_grid(words[2], words + 3);
    else if (strcmp(what, "open") == 0)
        open_often(words[2], first);
    else if (strcmp(what, "refresh") == 0)
        refresh_often(words[2], first);
    else if (strcmp(what, "read") == 0 || strcmp(what, "print") == 0)
        read_all(words[2], what[0] == 'p');
    else if (strcmp(what, "append") == 0)
        append_batches(words[2], first, second);
    else if (strcmp(what, "feed") == 0)
        feed(words[2]);
    else if (strcmp(what, "poll") == 0)
        poll_often(words[2], first, second != 0);
    else
        stop("the command line");
    return 0;
}
