/* Writes the pieces of a list to a file, one by one, and nothing else: what the calls of the system for them take. Led by bench/peer.
 *
 *   replay FILE LIST      LIST has a length and a place for each piece, each a number of 8 bytes; it is read at once */
#include <fcntl.h>
#include <stdint.h>
#include <stdio.h>
#include <stdlib.h>
#include <sys/stat.h>
#include <unistd.h>

static void stop(const char *what)
{
    fprintf(stderr, "replay: %s\n", what);
    exit(1);
}

int main(int count, char **words)
{
    static char piece[512];
    struct stat of;
    int file = count == 3 ? open(words[1], O_RDWR) : -1, list = count == 3 ? open(words[2], O_RDONLY) : -1;
    if (file < 0 || list < 0 || fstat(list, &of))
        stop("the command line");
    uint64_t(*pieces)[2] = malloc(of.st_size + 1);
    if (!pieces || read(list, pieces, of.st_size) != of.st_size)
        stop("the list");
    for (size_t at = 0; at < of.st_size / sizeof *pieces; at++)
        if (pieces[at][0] > sizeof piece || pwrite(file, piece, pieces[at][0], pieces[at][1]) != (ssize_t)pieces[at][0])
            stop("pwrite");
    return 0;
}
