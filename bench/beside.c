/* A writer and a reader of one file, beside each other: what passes between the lines that they tell. Led by bench/peer.
 *
 *   beside ROUNDS BATCH PRINTS WRITER.. -- READER..
 *
 * The writer is fed a line of so many numbers and an empty one, once the reader has told all of the batch before, and tells "rows N" when
 * they are there. The reader tells "rows N" again and again; where PRINTS is 1, each new number on a line behind it, which are compared.
 * For each round three times are printed, in nanoseconds, as they are seen here: from the writer's line to the reader's; from the reader's
 * line before to this one; from the line before to the last number. The first batch is for the opening, and counts for nothing. */
#define _GNU_SOURCE
#include <errno.h>
#include <fcntl.h>
#include <signal.h>
#include <stdio.h>
#include <stdlib.h>
#include <string.h>
#include <sys/wait.h>
#include <time.h>
#include <unistd.h>

/* A program that runs, and what of its output is not looked at yet; when the last of it came, and what is before that. */
struct program {
    pid_t id;
    int input, output;
    size_t from, to;
    long long came, before;
    char text[1 << 16];
};

static struct program writer, reader;

static void stop(const char *what)
{
    fprintf(stderr, "beside: %s\n", what);
    exit(1);
}

static long long now(void)
{
    struct timespec time;
    clock_gettime(CLOCK_MONOTONIC, &time);
    return time.tv_sec * 1000000000LL + time.tv_nsec;
}

static void start(struct program *it, char **words)
{
    int input[2], output[2];
    if (pipe2(input, O_CLOEXEC) || pipe2(output, O_CLOEXEC) || (it->id = fork()) < 0)
        stop("no pipe or process");
    if (it->id == 0) {
        dup2(input[0], 0);
        dup2(output[1], 1);
        execv(words[0], words);
        _exit(127);
    }
    close(input[0]);
    close(output[1]);
    it->input = input[1];
    it->output = output[0];
    fcntl(it->output, F_SETFL, O_NONBLOCK);
}

/* The next line, where it is there by now. */
static const char *line_of(struct program *it)
{
    char *line = it->text + it->from, *end = memchr(line, '\n', it->to - it->from);
    if (!end) {
        memmove(it->text, line, it->to -= it->from);
        it->from = 0;
        ssize_t count = read(it->output, it->text + it->to, sizeof it->text - it->to);
        if (count < 0 && errno == EAGAIN)
            return NULL;
        if (count <= 0)
            stop("a program ended early");
        it->before = it->came;
        it->came = now();
        it->to += count;
        line = it->text;
        if (!(end = memchr(line, '\n', it->to)))
            return NULL;
    }
    *end = 0;
    it->from = end + 1 - it->text;
    return line;
}

/* The rows that a line tells, or -1 where it is another. */
static long rows_of(const char *line)
{
    return strncmp(line, "rows ", 5) ? -1 : atol(line + 5);
}

static long told_next(struct program *it)
{
    const char *line;
    long rows = -1;
    while (rows < 0)
        if ((line = line_of(it)))
            rows = rows_of(line);
    return rows;
}

static int number(long at)
{
    return at % 1000000;
}

static void feed(long first, long count)
{
    static char text[1 << 16];
    size_t length = 0;
    for (long at = first; at < first + count; at++)
        length += sprintf(text + length, "%s%d", at > first ? " " : "", number(at));
    length += sprintf(text + length, "\n\n");
    if (write(writer.input, text, length) != (ssize_t)length)
        stop("the writer's input");
}

/* Waits until both told so many rows, the last of which are `left` numbers from `first` on. */
static void watch(long rows, long first, long left)
{
    long long told = 0, found = 0, before = 0, last = 0;
    const char *line;
    while (!told || !found || left) {
        if (!told && (line = line_of(&writer))) {
            if (rows_of(line) != rows)
                stop(line);
            told = writer.came;
        }
        if ((found && !left) || !(line = line_of(&reader)))
            continue;
        if (found) {
            if (rows_of(line) >= 0 || atol(line) != number(first++))
                stop(line);
            last = reader.came;
            left--;
        } else if (rows_of(line) == rows) {
            last = found = reader.came;
            before = reader.before;
        }
    }
    printf("%lld %lld %lld\n", found - told, found - before, last - before);
}

int main(int count, char **words)
{
    int middle = 5, status;
    while (middle < count && strcmp(words[middle], "--"))
        middle++;
    if (middle >= count - 1)
        stop("the command line");
    long rounds = atol(words[1]), batch = atol(words[2]), prints = atol(words[3]);
    words[middle] = NULL;
    start(&writer, words + 4);
    feed(0, batch);
    long rows = told_next(&writer);
    start(&reader, words + middle + 1);
    if (told_next(&reader) != rows || told_next(&reader) != rows)
        stop("the reader's first rows");
    for (long round = 1; round <= rounds; round++) {
        feed(round * batch, batch);
        watch(rows + round * batch, round * batch, prints ? batch : 0);
    }
    /* Both are gone before this one ends, or the file would still be locked for whoever opens it next. */
    kill(reader.id, SIGKILL);
    waitpid(reader.id, &status, 0);
    close(writer.input);
    if (waitpid(writer.id, &status, 0) < 0 || status)
        stop("the writer failed");
    return 0;
}
