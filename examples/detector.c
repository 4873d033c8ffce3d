/* A detector that writes frames from its own memory to an HDF5 file, while any program reads them: ours, or with h5py.
 *
 *     cc examples/detector.c -Ibindings bindings/out/libh5swmr.a -o detector
 *     ./detector FILE [FRAMES]    makes FILE, and takes so many frames (20)
 *
 * A frame is a row of pixels. Once a flush is done, each reader that begins finds the frame. Nothing is printed but errors.
 */
#include "h5swmr.h"

#include <inttypes.h>
#include <stdio.h>
#include <stdlib.h>

#define PIXELS 10

/* What the detector sees: a spot that moves on by a pixel from frame to frame. */
static void expose(int64_t *frame, long at)
{
    for (long pixel = 0; pixel < PIXELS; pixel++)
        frame[pixel] = pixel == at % PIXELS ? 1000 : pixel;
}

/* Whether the call was refused; then it is said why. */
static bool is_refused(const char *call, h5w_told told)
{
    if (told.code != H5W_OK)
        fprintf(stderr, "detector: %s: %s (code %" PRIu32 ", detail %" PRIu32 ", count %" PRIu64 ")\n", call, h5swmr_text(told), told.code, told.detail, told.count);
    return told.code != H5W_OK;
}

/* Takes the frames, one after another. */
static bool record(h5swmr_writer *writer, long frames)
{
    int64_t frame[PIXELS];
    for (long at = 0; at < frames; at++) {
        expose(frame, at);
        if (is_refused("append", h5swmr_append(writer, frame, PIXELS)) || is_refused("flush", h5swmr_flush(writer)))
            return false;
    }
    return true;
}

int main(int argc, char **argv)
{
    if (argc < 2 || argc > 3) {
        fprintf(stderr, "detector FILE [FRAMES]\n");
        return 2;
    }
    h5w_options how = H5W_OPTIONS;
    how.size = 2; /* u16le, in chunks of 64 frames */
    how.is_signed = 0;
    how.chunk_rows = 64;
    how.columns = how.width = PIXELS;
    how.fixed = 1;
    h5swmr_writer *writer;
    if (is_refused("create", h5swmr_create(&writer, argv[1], "data", &how)))
        return 1;
    h5swmr_keep_retired(writer); /* HDF5's own library may read beside */
    bool is_done = record(writer, argc > 2 ? atol(argv[2]) : 20);
    return !is_refused("close", h5swmr_close_writer(&writer)) && is_done ? 0 : 1;
}
