/* Calls in the wrong order, of handles that are closed, and with words out of bounds, in both layers: misuse FILE, which it makes. Prints nothing but
 * what is wrong. */
#include "trials.h"

#include <string.h>

static const uint8_t NAME[] = "data";

/* The line of a writer's last refusal. */
static uint8_t line[64];
#define TEXT line, sizeof line

/* The line of the call before is this one, which is taken away. */
static void want_line(const char *what, const char *wanted)
{
    want(what, (uint64_t)memcmp(line, wanted, strlen(wanted) + 1), 0);
    memset(line, 0, sizeof line);
}

/* A reader's core that is not open, or was closed. */
static void empty_reader(h5w_reader *reader)
{
    uint8_t bytes[600] = { 0 };
    int64_t value = 7;
    uint64_t other = 7;
    h5w_place place = { 1, 2 };
    h5w_shape shape = { .rows = 7 };
    want("want", h5w_reader_want(reader, &place), false);
    want("place", place.at + place.len, 3);
    want("shape", h5w_reader_shape(reader, &shape), false);
    want("rows of the shape", shape.rows, 7);
    want("refusal", h5w_reader_refusal(reader, bytes, sizeof bytes), 0);
    want("its first byte", bytes[0], 0);
    want_code("give", h5w_reader_give(reader, bytes, 8), H5W_MISUSE);
    want_code("refresh", h5w_reader_refresh(reader), H5W_MISUSE);
    want_code("read", h5w_reader_read(reader, 0, 1), H5W_MISUSE);
    want("rows", h5w_reader_rows(reader), 0);
    want("values", h5w_reader_values(reader, 0, &value, 1) + h5w_reader_values_u64(reader, 0, &other, 1), 0);
    want("value", (uint64_t)value + other, 14);
    h5w_reader_quit(reader);
    h5w_reader_close(reader);
    want("live", reader->live, 0);
}

static void reader_core(void)
{
    h5w_reader reader = { 0 };
    h5w_place place;
    uint8_t bytes[600] = { 0 };
    empty_reader(&reader);
    want_code("open without attempts", h5w_reader_open(&reader, NAME, 4, 0), H5W_MISUSE);
    want_code("open with many attempts", h5w_reader_open(&reader, NAME, 4, 1001), H5W_MISUSE);
    want_code("open", h5w_reader_open(&reader, NAME, 4, 8), H5W_MORE);
    want_code("open again", h5w_reader_open(&reader, NAME, 4, 8), H5W_BUSY);
    want_code("refresh while it opens", h5w_reader_refresh(&reader), H5W_BUSY);
    want_code("read while it opens", h5w_reader_read(&reader, 0, 1), H5W_BUSY);
    want("want", h5w_reader_want(&reader, &place), true);
    want("the first look", place.at, 0);
    want_code("give of more than was wanted", h5w_reader_give(&reader, bytes, place.len + 1), H5W_MISUSE);
    want("a refusal before there is one", h5w_reader_refusal(&reader, bytes, sizeof bytes), 0);
    want("detail of no HDF5 file", want_code("give", h5w_reader_give(&reader, bytes, 8), H5W_REFUSED).detail, H5W_NOT_HDF5);
    want("bytes of the line", h5w_reader_refusal(&reader, bytes, sizeof bytes), 14);
    want("the line", (uint64_t)memcmp(bytes, "error nothdf5\n", 15), 0);
    want("bytes of the line", h5w_reader_refusal(&reader, bytes + 100, 5), 14);
    want("the line in little room", (uint64_t)memcmp(bytes + 100, "error", 6), 0);
    want("no shape before there are rows", h5w_reader_shape(&reader, &(h5w_shape){ 0 }), false);
    want_code("give that is not wanted", h5w_reader_give(&reader, bytes, 8), H5W_MISUSE);
    want("rows", want_code("read of rows that were not seen", h5w_reader_read(&reader, 0, 1), H5W_ROWS).count, 0);
    want_code("read of none", h5w_reader_read(&reader, 0, 0), H5W_VALUES);
    want_code("refresh", h5w_reader_refresh(&reader), H5W_MORE);
    h5w_reader_quit(&reader);
    want("want after quit", h5w_reader_want(&reader, &place), false);
    h5w_reader_close(&reader);
    empty_reader(&reader);
}

/* A writer's core that is not open, or was freed. */
static void empty_writer(h5w_writer *writer)
{
    uint8_t bytes[H5W_PIECE];
    const int64_t value = 1;
    const uint64_t other = 1;
    h5w_place place = { 1, 2 };
    want_code("append", h5w_writer_append(writer, &value, 1, TEXT), H5W_MISUSE);
    want_code("append_u64", h5w_writer_append_u64(writer, &other, 1, TEXT), H5W_MISUSE);
    want_code("flush", h5w_writer_flush(writer, TEXT), H5W_MISUSE);
    want("next", h5w_writer_next(writer, bytes, sizeof bytes, &place), false);
    want("place", place.at + place.len, 3);
    want_code("written", h5w_writer_written(writer), H5W_MISUSE);
    want_code("failed", h5w_writer_failed(writer), H5W_MISUSE);
    want_code("keep_retired", h5w_writer_keep_retired(writer), H5W_MISUSE);
    want_code("close", h5w_writer_close(writer, TEXT), H5W_MISUSE);
    want_line("no line of misuse", "");
    want("rows and columns", h5w_writer_rows(writer) + h5w_writer_columns(writer), 0);
    h5w_writer_free(writer);
    want("live", writer->live, 0);
}

/* Each option out of its bounds. */
static void wrong_options(h5w_writer *writer)
{
    static const struct { size_t field; uint64_t wrong; } numbers[] = {
        { offsetof(h5w_options, chunk_rows), 0 }, { offsetof(h5w_options, chunk_rows), 65537 }, { offsetof(h5w_options, columns), 65537 },
        { offsetof(h5w_options, limit), 1023 }, { offsetof(h5w_options, limit), ((uint64_t)1 << 40) + 1 },
        { offsetof(h5w_options, budget), 1023 }, { offsetof(h5w_options, budget), ((uint64_t)1 << 30) + 1 },
    };
    for (size_t k = 0; k < sizeof numbers / sizeof *numbers; k++) {
        h5w_options how = H5W_OPTIONS;
        how.width = 1;
        memcpy((char *)&how + numbers[k].field, &numbers[k].wrong, 8);
        want_code("create with an option out of bounds", h5w_writer_create(writer, NAME, 4, &how), H5W_MISUSE);
    }
    h5w_options how = H5W_OPTIONS;
    want_code("create without a name", h5w_writer_create(writer, NAME, 0, &how), H5W_MISUSE);
    how.size = 3;
    want_code("create of 3 bytes a value", h5w_writer_create(writer, NAME, 4, &how), H5W_MISUSE);
    how.size = 1, how.filled = 1, how.fill = 128;
    want_code("create with a fill outside of the type", h5w_writer_create(writer, NAME, 4, &how), H5W_MISUSE);
    how.filled = 0, how.columns = 3, how.width = 0;
    want_code("create with chunks of no column", h5w_writer_create(writer, NAME, 4, &how), H5W_MISUSE);
    how.fixed = 1, how.width = 4;
    want_code("create with chunks that are wider than fixed columns", h5w_writer_create(writer, NAME, 4, &how), H5W_MISUSE);
}

/* A line goes where there is room for it, and no further. */
static void little_room(h5w_writer *writer)
{
    int64_t values[3] = { 1, -2, 128 };
    want_code("append with little room", h5w_writer_append(writer, values, 3, line, 5), H5W_RANGE);
    want_line("the line in little room", "error");
    want_code("append without room", h5w_writer_append(writer, values, 3, line, 0), H5W_RANGE);
    want_line("no line without room", "");
}

/* Takes all pending pieces as written. */
static void show(h5w_writer *writer)
{
    uint8_t bytes[H5W_PIECE];
    h5w_place place;
    while (h5w_writer_next(writer, bytes, sizeof bytes, &place)) {
        want("a piece of 1 to 512 bytes", place.len >= 1 && place.len <= H5W_PIECE, true);
        want_code("written", h5w_writer_written(writer), H5W_OK);
    }
}

static void writer_core(void)
{
    h5w_writer writer = { 0 };
    h5w_place place = { 1, 2 };
    h5w_options how = H5W_OPTIONS;
    uint8_t bytes[H5W_PIECE];
    int64_t values[3] = { 1, -2, 128 };
    empty_writer(&writer);
    wrong_options(&writer);
    how.size = 1;
    h5w_told pieces = want_code("create", h5w_writer_create(&writer, NAME, 4, &how), H5W_OK);
    char busy[64];
    want("pieces", pieces.count > 1, true);
    want_code("create again", h5w_writer_create(&writer, NAME, 4, &how), H5W_BUSY);
    snprintf(busy, sizeof busy, "busy %" PRIu64 "\n", pieces.count);
    want_code("append while pieces are pending", h5w_writer_append(&writer, values, 1, TEXT), H5W_BUSY);
    want_line("the line of pieces before an append", busy);
    want_code("flush while pieces are pending", h5w_writer_flush(&writer, TEXT), H5W_BUSY);
    want_line("the line of pieces before a flush", busy);
    want("next with little room", h5w_writer_next(&writer, bytes, 0, &place), false);
    want("place", place.at + place.len, 3);
    show(&writer);
    want_code("written of nothing", h5w_writer_written(&writer), H5W_MISUSE);
    want("the value outside", want_code("append", h5w_writer_append(&writer, values, 3, TEXT), H5W_RANGE).count, 2);
    want_line("its line", "error range 1 2 128\n");
    little_room(&writer);
    want("rows after a refusal", h5w_writer_rows(&writer), 0);
    want("rows", want_code("append", h5w_writer_append(&writer, values, 2, TEXT), H5W_OK).count, 2);
    pieces = want_code("flush", h5w_writer_flush(&writer, TEXT), H5W_OK);
    want("pieces of a flush", pieces.count > 1, true);
    want_line("no line of what is done", "");
    snprintf(busy, sizeof busy, "busy %" PRIu64 "\n", pieces.count);
    want_code("close while pieces are pending", h5w_writer_close(&writer, TEXT), H5W_BUSY);
    want_line("the line of pieces before a close", busy);
    want_code("failed", h5w_writer_failed(&writer), H5W_OK);
    want_code("append after a failure", h5w_writer_append(&writer, values, 1, TEXT), H5W_STOPPED);
    want_line("the line of an append behind it", "stopped\n");
    want_code("flush after a failure", h5w_writer_flush(&writer, TEXT), H5W_STOPPED);
    want_line("the line of a flush behind it", "stopped\n");
    want_code("close after a failure", h5w_writer_close(&writer, TEXT), H5W_STOPPED);
    want_line("the line of a close behind it", "stopped\n");
    h5w_writer_free(&writer);
    empty_writer(&writer);
    memset(bytes, 0, sizeof bytes);
    want_code("open with a low limit", h5w_writer_open(&writer, NAME, 4, NAME, 4, 1023, 1024, bytes, sizeof bytes), H5W_MISUSE);
    want_code("open with a low budget", h5w_writer_open(&writer, NAME, 4, NAME, 4, 1024, 1023, bytes, sizeof bytes), H5W_MISUSE);
    want("no line", bytes[0], 0);
    want("no HDF5 file", want_code("open of nothing", h5w_writer_open(&writer, NAME, 0, NAME, 4, 1024, 1024, bytes, sizeof bytes), H5W_REFUSED).detail, H5W_NOT_HDF5);
    want("the line", (uint64_t)memcmp(bytes, "error nothdf5\n", 15), 0);
    want_code("open with little room", h5w_writer_open(&writer, NAME, 0, NAME, 4, 1024, 1024, bytes + 100, 5), H5W_REFUSED);
    want("the line in little room", (uint64_t)memcmp(bytes + 100, "error", 6), 0);
    empty_writer(&writer);
}

static void closed_reader(h5swmr_reader *reader)
{
    int64_t value;
    uint64_t other;
    want_code("refresh", h5swmr_refresh(reader), H5W_MISUSE);
    want_code("load", h5swmr_load(reader, 0, 1), H5W_MISUSE);
    want_code("values", h5swmr_values(reader, 0, &value, 1), H5W_MISUSE);
    want_code("values_u64", h5swmr_values_u64(reader, 0, &other, 1), H5W_MISUSE);
    want_code("read", h5swmr_read(reader, 0, 1, &value, 1), H5W_MISUSE);
    want_code("shape", h5swmr_shape(reader, &(h5w_shape){ 0 }), H5W_MISUSE);
    want("rows", h5swmr_rows(reader), 0);
    want_code("close", h5swmr_close_reader(&reader), H5W_MISUSE);
}

static void closed_writer(h5swmr_writer *writer)
{
    const int64_t value = 1;
    const uint64_t other = 1;
    want_code("append", h5swmr_append(writer, &value, 1), H5W_MISUSE);
    want_code("append_u64", h5swmr_append_u64(writer, &other, 1), H5W_MISUSE);
    want_code("flush", h5swmr_flush(writer), H5W_MISUSE);
    want_code("keep_retired", h5swmr_keep_retired(writer), H5W_MISUSE);
    want("rows and columns", h5swmr_appended(writer) + h5swmr_columns(writer), 0);
    want_code("close", h5swmr_close_writer(&writer), H5W_MISUSE);
}

/* The file layer: a file of u64 in rows of two, with the values 1, 2^63, 3, 4. */
static void files(const char *file)
{
    h5swmr_reader *reader;
    h5swmr_writer *writer, *second;
    h5w_options how = H5W_OPTIONS;
    h5w_shape shape;
    const uint64_t values[4] = { 1, (uint64_t)1 << 63, 3, 4 };
    uint64_t all[4] = { 0 };
    int64_t some[4] = { 0 };
    const int64_t below[2] = { 1, -1 };
    how.is_signed = 0, how.columns = 2, how.width = 2;
    want("no such file", want_code("open", h5swmr_open(&reader, file, "data", 8), H5W_IO).detail != 0, true);
    closed_reader(reader);
    want_code("append_to no file", h5swmr_append_to(&writer, file, "data", how.limit, how.budget), H5W_IO);
    closed_writer(writer);
    want_code("create", h5swmr_create(&writer, file, "data", &how), H5W_OK);
    want_code("create of a file that is there", h5swmr_create(&second, file, "data", &how), H5W_IO);
    want("flags of a writer", want_code("append_to beside a writer", h5swmr_append_to(&second, file, "data", how.limit, how.budget), H5W_OPENED).detail, H5W_WRITER);
    want("the program's line", (uint64_t)strcmp(h5swmr_line(), "error flags 5"), 0);
    want("columns", want_code("append of half a row", h5swmr_append_u64(writer, values, 3), H5W_ROWS).count, 2);
    want("the program's line", (uint64_t)strcmp(h5swmr_line(), "error line 1"), 0);
    want("the value below", want_code("append of a value below the type", h5swmr_append(writer, below, 2), H5W_RANGE).count, 1);
    want("the program's line", (uint64_t)strcmp(h5swmr_line(), "error range 1 1 -1"), 0);
    want("rows", want_code("append of nothing", h5swmr_append(writer, NULL, 0), H5W_OK).count, 0);
    want("rows", want_code("append", h5swmr_append_u64(writer, values, 4), H5W_OK).count, 2);
    want_code("append of NULL", h5swmr_append(writer, NULL, 2), H5W_MISUSE);
    want_code("close", h5swmr_close_writer(&writer), H5W_OK);
    closed_writer(writer);
    want("rows", want_code("open", h5swmr_open(&reader, file, "data", 8), H5W_OK).count, 2);
    want_code("shape", h5swmr_shape(reader, &shape), H5W_OK);
    want("rows, columns, chunk, dimensions", shape.rows * 1000000 + shape.columns * 100000 + shape.width * 10000 + shape.chunk_rows * 2 + shape.dimensions, 2222050);
    want("growing, size, big, is_signed", shape.growing * 1000u + shape.size * 100u + shape.big * 10u + shape.is_signed, 1800);
    want_code("read behind the rows", h5swmr_read(reader, 1, 2, some, 4), H5W_ROWS);
    want("values", want_code("read with little room", h5swmr_read(reader, 0, 2, some, 3), H5W_ROOM).count, 4);
    want("the value that has no place", want_code("read", h5swmr_read(reader, 0, 2, some, 4), H5W_RANGE).count, 1);
    want("values", want_code("values_u64", h5swmr_values_u64(reader, 0, all, 4), H5W_OK).count, 4);
    want("their bytes", (uint64_t)memcmp(all, values, sizeof all), 0);
    want("values", want_code("values from the third on", h5swmr_values(reader, 2, some, 4), H5W_OK).count, 2);
    want_code("close", h5swmr_close_reader(&reader), H5W_OK);
    closed_reader(reader);
    want("no such dataset", want_code("open of another name", h5swmr_open(&reader, file, "other", 8), H5W_REFUSED).detail, H5W_LINK);
    want("the program's line", (uint64_t)strcmp(h5swmr_line(), "error link none"), 0);
    want("rows", want_code("append_to", h5swmr_append_to(&writer, file, "data", how.limit, how.budget), H5W_OK).count, 2);
    want("columns", h5swmr_columns(writer), 2);
    want_code("close", h5swmr_close_writer(&writer), H5W_OK);
}

int main(int argc, char **argv)
{
    if (argc != 2)
        return 2;
    reader_core();
    writer_core();
    files(argv[1]);
    return failed;
}
