/* Prints each struct of the header: its name, its size, and of each field its name, place and size. */
#include "h5swmr.h"

#include <stdio.h>

#define STRUCT(it) printf("\n%s %zu", #it, sizeof(it))
#define FIELD(it, field) printf(" %s %zu %zu", #field, offsetof(it, field), sizeof(((it *)0)->field))

int main(void)
{
    STRUCT(h5w_reader), FIELD(h5w_reader, live), FIELD(h5w_reader, at);
    STRUCT(h5w_writer), FIELD(h5w_writer, live), FIELD(h5w_writer, at);
    STRUCT(h5w_several), FIELD(h5w_several, live), FIELD(h5w_several, at);
    STRUCT(h5w_told), FIELD(h5w_told, code), FIELD(h5w_told, detail), FIELD(h5w_told, count);
    STRUCT(h5w_place), FIELD(h5w_place, at), FIELD(h5w_place, len);
    STRUCT(h5w_shape), FIELD(h5w_shape, rows), FIELD(h5w_shape, columns), FIELD(h5w_shape, chunk_rows), FIELD(h5w_shape, width), FIELD(h5w_shape, dimensions);
    FIELD(h5w_shape, growing), FIELD(h5w_shape, size), FIELD(h5w_shape, big), FIELD(h5w_shape, is_signed);
    STRUCT(h5w_options), FIELD(h5w_options, chunk_rows), FIELD(h5w_options, columns), FIELD(h5w_options, width), FIELD(h5w_options, limit), FIELD(h5w_options, budget);
    FIELD(h5w_options, fill), FIELD(h5w_options, size), FIELD(h5w_options, big), FIELD(h5w_options, is_signed), FIELD(h5w_options, filled), FIELD(h5w_options, fixed);
    printf("\n");
    return 0;
}
