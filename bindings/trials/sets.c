/* Writers of several datasets in the wrong order, closed, and with words out of bounds, in both layers: sets FILE, which it makes. Prints nothing but
 * what is wrong. */
#include "trials.h"

#include <string.h>

#define LIMIT ((uint64_t)1 << 40)
#define BUDGET 65536

static const uint8_t NAMES[] = "framestimes";
static const uint64_t LENS[] = { 6, 5 };

/* The line of the last refusal, and the counts of the last flush. */
static uint8_t line[64];
static uint64_t counts[8];
#define TEXT line, sizeof line
#define COUNTS counts, 8

/* The line of the call before is this one, which is taken away. */
static void want_line(const char *what, const char *wanted)
{
    want(what, (uint64_t)memcmp(line, wanted, strlen(wanted) + 1), 0);
    memset(line, 0, sizeof line);
}

/* A core that is not open, or was freed. */
static void empty(h5w_several *several)
{
    uint8_t bytes[H5W_PIECE];
    const int64_t value = 1;
    const uint64_t other = 1;
    h5w_place place = { 1, 2 };
    want_code("append", h5w_several_append(several, 0, &value, 1, TEXT), H5W_MISUSE);
    want_code("append_u64", h5w_several_append_u64(several, 0, &other, 1, TEXT), H5W_MISUSE);
    want_code("flush", h5w_several_flush(several, COUNTS, TEXT), H5W_MISUSE);
    want("next", h5w_several_next(several, bytes, sizeof bytes, &place), false);
    want("place", place.at + place.len, 3);
    want_code("written", h5w_several_written(several), H5W_MISUSE);
    want_code("failed", h5w_several_failed(several), H5W_MISUSE);
    want_code("keep_retired", h5w_several_keep_retired(several), H5W_MISUSE);
    want_code("close", h5w_several_close(several, TEXT), H5W_MISUSE);
    want_line("no line of misuse", "");
    want("counts", counts[0] + counts[7], 0);
    want("rows, columns, count", h5w_several_rows(several, 0) + h5w_several_columns(several, 0) + h5w_several_count(several), 0);
    h5w_several_free(several);
    want("live", several->live, 0);
}

/* Names and options out of their bounds. */
static void wrong_names(h5w_several *several)
{
    static const uint64_t wrong[][3] = { { 0 }, { 6, 4 }, { 6, 6 }, { 11, 0 }, { 12, UINT64_MAX }, { UINT64_MAX, 12 } };
    static const uint64_t nine[9] = { 1, 1, 1, 1, 1, 1, 1, 1, 1 }, same[2] = { 4, 4 };
    static const uint8_t letters[65] = "abcdefghi";
    static const uint64_t one[1] = { 65 };
    h5w_options how[9] = { H5W_OPTIONS, H5W_OPTIONS, H5W_OPTIONS, H5W_OPTIONS, H5W_OPTIONS, H5W_OPTIONS, H5W_OPTIONS, H5W_OPTIONS, H5W_OPTIONS };
    for (size_t k = 0; k < sizeof wrong / sizeof *wrong; k++)
        want_code("create with lengths that do not fit", h5w_several_create(several, NAMES, 11, wrong[k], 2, how, 2), H5W_MISUSE);
    want_code("create without names", h5w_several_create(several, NAMES, 0, LENS, 0, how, 0), H5W_MISUSE);
    want_code("create with bytes and no names", h5w_several_create(several, NAMES, 11, LENS, 0, how, 0), H5W_MISUSE);
    want_code("create with nine names", h5w_several_create(several, letters, 9, nine, 9, how, 9), H5W_MISUSE);
    want_code("create with a name twice", h5w_several_create(several, (const uint8_t *)"samesame", 8, same, 2, how, 2), H5W_MISUSE);
    want_code("create with a long name", h5w_several_create(several, letters, 65, one, 1, how, 1), H5W_MISUSE);
    want_code("create with fewer options than names", h5w_several_create(several, NAMES, 11, LENS, 2, how, 1), H5W_MISUSE);
    want_code("create with more options than names", h5w_several_create(several, NAMES, 11, LENS, 2, how, 3), H5W_MISUSE);
    want_code("create without options", h5w_several_create(several, NAMES, 11, LENS, 2, how, 0), H5W_MISUSE);
    how[0].limit = 2047;
    want_code("create with a limit below 1,024 bytes a name", h5w_several_create(several, NAMES, 11, LENS, 2, how, 2), H5W_MISUSE);
    how[0].limit = LIMIT, how[1].chunk_rows = 0;
    want_code("create with an option out of bounds", h5w_several_create(several, NAMES, 11, LENS, 2, how, 2), H5W_MISUSE);
    want_code("open with a low limit", h5w_several_open(several, NAMES, 4, NAMES, 11, LENS, 2, 1023, 1024, TEXT), H5W_MISUSE);
    want_code("open with a low budget", h5w_several_open(several, NAMES, 4, NAMES, 11, LENS, 2, 1024, 1023, TEXT), H5W_MISUSE);
    want_code("open without names", h5w_several_open(several, NAMES, 4, NAMES, 0, LENS, 0, 1024, 1024, TEXT), H5W_MISUSE);
    want_code("take_over with nine names", h5w_several_take_over(several, NAMES, 4, letters, 9, nine, 9, 1024, 1024, TEXT), H5W_MISUSE);
    want_line("no line of misuse", "");
    want("no HDF5 file", want_code("open of nothing", h5w_several_open(several, NAMES, 0, NAMES, 11, LENS, 2, 1024, 1024, TEXT), H5W_REFUSED).detail, H5W_NOT_HDF5);
    want_line("its line", "error nothdf5\n");
    want("no HDF5 file", want_code("take_over of nothing", h5w_several_take_over(several, NAMES, 0, NAMES, 11, LENS, 2, 1024, 1024, TEXT), H5W_REFUSED).detail, H5W_NOT_HDF5);
    want_line("its line", "error nothdf5\n");
}

/* Takes all pending pieces as written, and tells how many these were. */
static uint64_t show(h5w_several *several, uint64_t pending)
{
    uint8_t bytes[H5W_PIECE];
    h5w_place place;
    uint64_t shown = 0;
    for (; h5w_several_next(several, bytes, sizeof bytes, &place); shown++) {
        want("a piece of 1 to 512 bytes", place.len >= 1 && place.len <= H5W_PIECE, true);
        want("pieces that are left", want_code("written", h5w_several_written(several), H5W_OK).count, pending - shown - 1);
    }
    return shown;
}

/* Calls while pieces are pending. */
static void busy(h5w_several *several, uint64_t pending)
{
    const int64_t value = 1;
    char wanted[64];
    snprintf(wanted, sizeof wanted, "busy %" PRIu64 "\n", pending);
    want("pieces", want_code("append while pieces are pending", h5w_several_append(several, 1, &value, 1, TEXT), H5W_BUSY).count, pending);
    want_line("its line", wanted);
    want("pieces", want_code("flush while pieces are pending", h5w_several_flush(several, COUNTS, TEXT), H5W_BUSY).count, pending);
    want_line("its line", wanted);
    want("pieces", want_code("close while pieces are pending", h5w_several_close(several, TEXT), H5W_BUSY).count, pending);
    want_line("its line", wanted);
}

/* Appends to a core with nothing pending. */
static void appends(h5w_several *several)
{
    const int64_t values[3] = { 1, -2, 128 };
    const uint64_t large[2] = { 127, 128 };
    want("the value outside", want_code("append", h5w_several_append(several, 1, values, 3, TEXT), H5W_RANGE).count, 2);
    want_line("its line", "error range 1 2 128\n");
    want("the value outside", want_code("append_u64", h5w_several_append_u64(several, 0, large, 2, TEXT), H5W_RANGE).count, 1);
    want_line("its line", "error range 1 1 128\n");
    want_code("append to a dataset that is not there", h5w_several_append(several, 2, values, 1, TEXT), H5W_MISUSE);
    want_code("append to a dataset that is not there", h5w_several_append_u64(several, SIZE_MAX, large, 1, TEXT), H5W_MISUSE);
    want_line("no line of misuse", "");
    want("rows after refusals", h5w_several_rows(several, 0) + h5w_several_rows(several, 1), 0);
    want("rows", want_code("append", h5w_several_append(several, 1, values, 2, TEXT), H5W_OK).count, 2);
    want("rows", want_code("append_u64", h5w_several_append_u64(several, 0, large, 1, TEXT), H5W_OK).count, 1);
    want("rows of each", h5w_several_rows(several, 0) * 100 + h5w_several_rows(several, 1) * 10 + h5w_several_rows(several, 2), 120);
    want("columns of each", h5w_several_columns(several, 0) * 100 + h5w_several_columns(several, 1) * 10 + h5w_several_columns(several, 2), 110);
}

static void core(void)
{
    h5w_several several = { 0 };
    h5w_options how[2] = { H5W_OPTIONS, H5W_OPTIONS };
    uint64_t little[1] = { 7 };
    empty(&several);
    wrong_names(&several);
    how[0].size = how[1].size = 1;
    how[1].limit = 1024; /* (the limit is that of the first) */
    h5w_told told = want_code("create", h5w_several_create(&several, NAMES, 11, LENS, 2, how, 2), H5W_OK);
    want_code("create again", h5w_several_create(&several, NAMES, 11, LENS, 2, how, 2), H5W_BUSY);
    want_code("open again", h5w_several_open(&several, NAMES, 4, NAMES, 11, LENS, 2, 1024, 1024, TEXT), H5W_BUSY);
    want("datasets", h5w_several_count(&several), 2);
    busy(&several, told.count);
    want("pieces of the creation", show(&several, told.count), told.count);
    want_code("written of nothing", h5w_several_written(&several), H5W_MISUSE);
    want("a flush of nothing", want_code("flush", h5w_several_flush(&several, COUNTS, TEXT), H5W_OK).count, 0);
    appends(&several);
    told = want_code("flush", h5w_several_flush(&several, COUNTS, TEXT), H5W_OK);
    want("pieces of both", counts[0] + counts[1], told.count);
    want("pieces of each", counts[0] > 0 && counts[1] > 0, true);
    busy(&several, told.count);
    want("pieces", show(&several, told.count), told.count);
    want_code("append", h5w_several_append(&several, 0, (const int64_t[]){ 5 }, 1, TEXT), H5W_OK);
    told = want_code("flush with little room for counts", h5w_several_flush(&several, little, 1, TEXT), H5W_OK);
    want("pieces of the first", little[0], told.count);
    want_code("failed", h5w_several_failed(&several), H5W_OK);
    want_code("append after a failure", h5w_several_append(&several, 0, (const int64_t[]){ 5 }, 1, TEXT), H5W_STOPPED);
    want_line("its line", "stopped\n");
    want_code("flush after a failure", h5w_several_flush(&several, COUNTS, TEXT), H5W_STOPPED);
    want_line("its line", "stopped\n");
    want_code("close after a failure", h5w_several_close(&several, TEXT), H5W_STOPPED);
    want_line("its line", "stopped\n");
    h5w_several_free(&several);
    memset(counts, 0, sizeof counts);
    empty(&several);
    /* (a failure drops the pieces of a creation too) */
    want_code("create", h5w_several_create(&several, NAMES, 11, LENS, 2, how, 2), H5W_OK);
    want_code("failed", h5w_several_failed(&several), H5W_OK);
    want("nothing to write", show(&several, 0), 0);
    want_code("close after it", h5w_several_close(&several, TEXT), H5W_STOPPED);
    want_line("its line", "stopped\n");
    h5w_several_free(&several);
}

static void closed(h5swmr_writer *writer)
{
    const int64_t value = 1;
    const uint64_t other = 1;
    want_code("append_in", h5swmr_append_in(writer, 0, &value, 1), H5W_MISUSE);
    want_code("append_in_u64", h5swmr_append_in_u64(writer, 0, &other, 1), H5W_MISUSE);
    want_code("flush", h5swmr_flush(writer), H5W_MISUSE);
    want_code("keep_retired", h5swmr_keep_retired(writer), H5W_MISUSE);
    want("rows, columns, count", h5swmr_appended_in(writer, 0) + h5swmr_columns_in(writer, 0) + h5swmr_count(writer), 0);
    want_code("close", h5swmr_close_writer(&writer), H5W_MISUSE);
}

/* Words that the file layer refuses itself. */
static void wrong_words(const char *file)
{
    static const char *const names[9] = { "a", "b", "c", "d", "e", "f", "g", "h", "i" };
    const char *broken[2] = { "a", NULL };
    char name[514];
    const char *const large[1] = { name };
    h5swmr_writer *writer;
    h5w_options how = H5W_OPTIONS;
    memset(name, 'n', 513);
    name[513] = 0;
    want_code("nine names", h5swmr_create_several(&writer, file, names, 9, &how, 1), H5W_MISUSE);
    want_code("a name that is NULL", h5swmr_create_several(&writer, file, broken, 2, &how, 1), H5W_MISUSE);
    want_code("names that are NULL", h5swmr_create_several(&writer, file, NULL, 1, &how, 1), H5W_MISUSE);
    want_code("no names", h5swmr_create_several(&writer, file, names, 0, &how, 1), H5W_MISUSE);
    want_code("no options", h5swmr_create_several(&writer, file, names, 2, NULL, 1), H5W_MISUSE);
    want_code("options for none", h5swmr_create_several(&writer, file, names, 2, &how, 0), H5W_MISUSE);
    want_code("two options for three", h5swmr_create_several(&writer, file, names, 3, (const h5w_options[]){ how, how }, 2), H5W_MISUSE);
    want_code("a long name", h5swmr_append_to_several(&writer, file, large, 1, LIMIT, BUDGET), H5W_MISUSE);
    want_code("no path", h5swmr_append_to_several(&writer, NULL, names, 2, LIMIT, BUDGET), H5W_MISUSE);
    want_code("no handle", h5swmr_take_over(NULL, file, names, 2, LIMIT, BUDGET), H5W_MISUSE);
    want("no such file", want_code("append_to", h5swmr_append_to_several(&writer, file, names, 2, LIMIT, BUDGET), H5W_IO).detail != 0, true);
    closed(writer);
}

/* The file layer: two datasets of rows of two values. */
static void files(const char *file)
{
    static const char *const names[2] = { "frames", "times" };
    static const char *const twice[2] = { "times", "times" };
    h5swmr_writer *writer, *second;
    h5swmr_reader *reader;
    h5w_options how = H5W_OPTIONS;
    int64_t seen[4];
    wrong_words(file);
    how.columns = how.width = 2, how.chunk_rows = 16, how.budget = 1024;
    want_code("create", h5swmr_create_several(&writer, file, names, 2, &how, 1), H5W_OK);
    want("flags of a writer", want_code("append_to beside a writer", h5swmr_append_to_several(&second, file, names, 2, LIMIT, BUDGET), H5W_OPENED).detail, H5W_WRITER);
    want("its line", (uint64_t)strcmp(h5swmr_line(), "error flags 5"), 0);
    want_code("create of a file that is there", h5swmr_create_several(&second, file, names, 2, &how, 1), H5W_IO);
    want("columns", want_code("append of half a row", h5swmr_append_in(writer, 1, (const int64_t[]){ 1, 2, 3 }, 3), H5W_ROWS).count, 2);
    want("its line", (uint64_t)strcmp(h5swmr_line(), "error line 1"), 0);
    want_code("append to a dataset that is not there", h5swmr_append_in(writer, 2, (const int64_t[]){ 1, 2 }, 2), H5W_MISUSE);
    want_code("append of NULL", h5swmr_append_in(writer, 0, NULL, 2), H5W_MISUSE);
    want_code("append of nothing", h5swmr_append_in(writer, 0, NULL, 0), H5W_OK);
    want("rows of the first", want_code("append", h5swmr_append(writer, (const int64_t[]){ 1, 2 }, 2), H5W_OK).count, 1);
    want("rows", want_code("append_in_u64", h5swmr_append_in_u64(writer, 1, (const uint64_t[]){ 3, 4, 5, 6 }, 4), H5W_OK).count, 2);
    want("rows, columns, count", h5swmr_appended(writer) * 1000 + h5swmr_appended_in(writer, 1) * 100 + h5swmr_columns(writer) * 10 + h5swmr_count(writer), 1222);
    /* (rows wait for their flush: if their chunks have more bytes than the budget they are refused) */
    int64_t many[256] = { 0 };
    want_code("append past the budget", h5swmr_append_in(writer, 1, many, 256), H5W_MEMORY);
    want("rows of the first", want_code("flush", h5swmr_flush(writer), H5W_OK).count, 1);
    want_code("close", h5swmr_close_writer(&writer), H5W_OK);
    closed(writer);
    want("rows", want_code("open", h5swmr_open(&reader, file, "times", 8), H5W_OK).count, 2);
    want_code("read", h5swmr_read(reader, 0, 2, seen, 4), H5W_OK);
    want("values", (uint64_t)(seen[0] * 1000 + seen[1] * 100 + seen[2] * 10 + seen[3]), 3456);
    want_code("close", h5swmr_close_reader(&reader), H5W_OK);
    want("the second name", want_code("one dataset twice", h5swmr_append_to_several(&writer, file, twice, 2, LIMIT, BUDGET), H5W_OPENED).count, 2);
    want("its line", (uint64_t)strcmp(h5swmr_line(), "error writer same 1 2"), 0);
    want("flags of a closed file", want_code("take_over of a closed file", h5swmr_take_over(&writer, file, names, 2, LIMIT, BUDGET), H5W_OPENED).detail, H5W_WRITER);
    want("rows of the first", want_code("append_to", h5swmr_append_to_several(&writer, file, names, 2, LIMIT, BUDGET), H5W_OK).count, 1);
    want("rows of the second", h5swmr_appended_in(writer, 1), 2);
    want_code("close", h5swmr_close_writer(&writer), H5W_OK);
    /* (a writer of one dataset has that one alone) */
    want_code("append_to", h5swmr_append_to(&writer, file, "times", LIMIT, BUDGET), H5W_OK);
    want_code("append to a dataset that is not there", h5swmr_append_in(writer, 1, (const int64_t[]){ 1, 2 }, 2), H5W_MISUSE);
    want("rows", want_code("append_in", h5swmr_append_in(writer, 0, (const int64_t[]){ 7, 8 }, 2), H5W_OK).count, 3);
    want("count", h5swmr_count(writer) * 10 + h5swmr_appended_in(writer, 1) + h5swmr_columns_in(writer, 1), 10);
    want_code("close", h5swmr_close_writer(&writer), H5W_OK);
}

int main(int argc, char **argv)
{
    if (argc != 2)
        return 2;
    core();
    files(argv[1]);
    return failed;
}
