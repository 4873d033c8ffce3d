/* Numbers in text in C: what is read from the input, values separated by spaces in lines, or what is printed of it.
   `text loop` reads by a plain loop over the digits, `text strtoll` by the C library, `text printf` prints a line of
   them, each with a space before it. Each answers the sum of the values. */
#include <stdint.h>
#include <stdio.h>
#include <stdlib.h>
#include <string.h>

enum { MOST = 1 << 24 };

static char text[MOST];
static char printed[MOST];
static int64_t values[MOST / 2];

/* Reads the values by a plain loop, and answers how many. */
__attribute__((noinline)) size_t read_loop(const char *at)
{
    size_t count = 0;
    while (*at) {
        int negative = *at == '-';
        int64_t n = 0;
        for (at += negative; *at >= '0' && *at <= '9'; at++)
            n = 10 * n + (*at - '0');
        values[count++] = negative ? -n : n;
        while (*at == ' ' || *at == '\n')
            at++;
    }
    return count;
}

/* Reads the values by strtoll, and answers how many. */
__attribute__((noinline)) size_t read_strtoll(const char *at)
{
    size_t count = 0;
    while (*at) {
        char *end;
        values[count++] = strtoll(at, &end, 10);
        at = end;
        while (*at == ' ' || *at == '\n')
            at++;
    }
    return count;
}

/* Prints the values by sprintf, and answers how many bytes. */
__attribute__((noinline)) size_t print_printf(size_t count)
{
    size_t length = 0;
    for (size_t i = 0; i < count; i++)
        length += sprintf(printed + length, " %lld", (long long)values[i]);
    return length;
}

int main(int argc, char **argv)
{
    size_t length = fread(text, 1, MOST - 1, stdin), count, bytes = 0;
    int64_t sum = 0;
    if (argc != 2)
        return 2;
    text[length] = 0;
    count = strcmp(argv[1], "strtoll") ? read_loop(text) : read_strtoll(text);
    if (!strcmp(argv[1], "printf"))
        bytes = print_printf(count);
    for (size_t i = 0; i < count; i++)
        sum += values[i];
    printf("%zu %lld %zu\n", count, (long long)sum, bytes);
    return 0;
}
