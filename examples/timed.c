/* A detector that writes frames and their times to two datasets of one HDF5 file, while any program reads them: ours, or with h5py.
 *
 *     cc examples/timed.c -Ibindings bindings/out/libh5swmr.a -o timed
 *     ./timed FILE [FRAMES]    makes FILE, and takes so many frames (20)
 *
 * It reads its pixels one after another: a row of `frames` has what they saw, and the same row of `times` when, in microseconds from the first frame
 * on. Both wait for one flush. The frames come first in it, so a reader finds as many frames as times, or more. Nothing is printed but errors.
 */
#include "h5swmr.h"

#include <inttypes.h>
#include <stdio.h>
#include <stdlib.h>

#define PIXELS 10

enum { FRAMES, TIMES, DATASETS };

static const char *const NAMES[DATASETS] = { "frames", "times" };

/* What the detector sees, a spot that moves on by a pixel from frame to frame, and when it reads each pixel. */
static void expose(int64_t *frame, int64_t *times, long at)
{
    for (long pixel = 0; pixel < PIXELS; pixel++) {
        frame[pixel] = pixel == at % PIXELS ? 1000 : pixel;
        times[pixel] = at * 1000 + pixel * 25;
    }
}

/* Whether the call was refused; then it is said why. */
static bool is_refused(const char *call, h5w_told told)
{
    if (told.code != H5W_OK)
        fprintf(stderr, "timed: %s: %s (code %" PRIu32 ", detail %" PRIu32 ", count %" PRIu64 ")\n", call, h5swmr_text(told), told.code, told.detail, told.count);
    return told.code != H5W_OK;
}

/* Takes the frames, one after another. */
static bool record(h5swmr_writer *writer, long frames)
{
    int64_t frame[PIXELS], times[PIXELS];
    for (long at = 0; at < frames; at++) {
        expose(frame, times, at);
        if (is_refused("append", h5swmr_append_in(writer, FRAMES, frame, PIXELS)) || is_refused("append", h5swmr_append_in(writer, TIMES, times, PIXELS)))
            return false;
        if (is_refused("flush", h5swmr_flush(writer)))
            return false;
    }
    return true;
}

int main(int argc, char **argv)
{
    if (argc < 2 || argc > 3) {
        fprintf(stderr, "timed FILE [FRAMES]\n");
        return 2;
    }
    h5w_options how = H5W_OPTIONS;
    how.chunk_rows = 64; /* 64-bit signed values, in chunks of 64 rows, for both */
    how.columns = how.width = PIXELS;
    how.fixed = 1;
    h5swmr_writer *writer;
    if (is_refused("create", h5swmr_create_several(&writer, argv[1], NAMES, DATASETS, &how, 1)))
        return 1;
    h5swmr_keep_retired(writer); /* HDF5's own library may read beside */
    bool is_done = record(writer, argc > 2 ? atol(argv[2]) : 20);
    return !is_refused("close", h5swmr_close_writer(&writer)) && is_done ? 0 : 1;
}
